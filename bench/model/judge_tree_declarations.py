"""The tree of a unit text: declarations and bodies."""
from dataclasses import dataclass

from judge_tree import Expression, Identifier, Name, Node, Range

# `stop` is the place of a declaration's last word, from which on the declared names are seen

@dataclass(eq=False)
class Context(Node):
    kind: str  # with, use, use type
    names: list[Name]


@dataclass(eq=False)
class Argument(Node):
    value: Expression


@dataclass(eq=False)
class Pragma(Node):
    name: Identifier
    arguments: list[Argument]


@dataclass(eq=False)
class Subtype(Node):
    name: Identifier
    mark: Name
    range: Range | None
    stop: int


@dataclass(eq=False)
class Objects(Node):
    """Variables, constants, components, suspension objects, protected objects of a type."""
    names: list[Identifier]
    is_constant: bool
    mark: Name | None
    range: Range | None
    value: Expression | None
    stop: int


@dataclass(eq=False)
class Aspect(Node):
    name: Identifier
    value: Expression | None


@dataclass(eq=False)
class Parameter(Node):
    names: list[Identifier]
    mode: str  # in, out, in out
    mark: Name
    stop: int


@dataclass(eq=False)
class Operations(Node):
    """The declaration of a function, a procedure or an entry."""
    kind: str
    name: Identifier
    parameters: list[Parameter]
    result: Name | None
    aspects: list[Aspect]
    stop: int


@dataclass(eq=False)
class Protected(Node):
    is_type: bool
    name: Identifier
    aspects: list[Aspect]
    opening: int  # the place of `with` or `is`, behind which its own name is seen
    shown: list[Pragma | Operations]
    hidden: list[Pragma | Operations | Objects]
    end: Identifier | None


@dataclass(eq=False)
class Task(Node):
    name: Identifier
    aspects: list[Aspect]
    items: list[Pragma | Operations]
    end: Identifier | None
    stop: int


# Bodies

@dataclass(eq=False)
class Handler(Node):
    choices: list[Name | None]  # none for `others`
    statements: list[Node]


@dataclass(eq=False)
class Block(Node):
    locals: list[Node]
    statements: list[Node]
    handlers: list[Handler]
    end: Identifier | None


@dataclass(eq=False)
class OperationBody(Node):
    kind: str
    name: Identifier
    parameters: list[Parameter]
    result: Name | None
    barrier: Expression | None
    block: Block


@dataclass(eq=False)
class ProtectedBody(Node):
    name: Identifier
    bodies: list[OperationBody]
    end: Identifier | None


@dataclass(eq=False)
class TaskBody(Node):
    name: Identifier
    block: Block


@dataclass(eq=False)
class Text(Node):
    """A whole unit text."""
    contexts: list[Context | Pragma]
    name: Identifier
    declarations: list[Node]
    end: Identifier | None
    body_name: Identifier
    bodies: list[Node]
    body_end: Identifier | None
