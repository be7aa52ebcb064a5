"""The tree of a unit text: what the judge of the static rules looks at."""
from collections.abc import Iterator
from dataclasses import dataclass, fields
from typing import Any


@dataclass(eq=False)
class Node:
    place: int  # of its first word, in bytes


@dataclass(eq=False)
class Identifier(Node):
    """A name where it is declared, or behind `end`."""
    text: str


@dataclass(eq=False)
class Name(Node):
    parts: list[str]
    meaning: Any = None  # the declaration that it names, once names are looked up


# Expressions

@dataclass(eq=False)
class Literal(Node):
    value: int


@dataclass(eq=False)
class Named(Node):
    name: Name


@dataclass(eq=False)
class Attribute(Node):
    name: Name
    attribute: Identifier


@dataclass(eq=False)
class Call(Node):
    """A function call with arguments or a conversion; as a statement, a call of a procedure or an entry."""
    name: Name
    arguments: list["Expression"]


@dataclass(eq=False)
class Parenthesised(Node):
    inner: "Expression"


@dataclass(eq=False)
class Prefixed(Node):
    operator: str  # abs, not
    operand: "Expression"


@dataclass(eq=False)
class Operation(Node):
    """Operands with operators of one level between them, at times behind a sign; or a sign and one operand."""
    sign: str
    operands: list["Expression"]
    operators: list[str]


Expression = Literal | Named | Attribute | Call | Parenthesised | Prefixed | Operation


@dataclass(eq=False)
class Range(Node):
    low: Expression
    high: Expression


# Statements

@dataclass(eq=False)
class Null(Node):
    pass


@dataclass(eq=False)
class Assignment(Node):
    target: Name
    value: Expression


@dataclass(eq=False)
class If(Node):
    arms: list["Arm"]
    otherwise: list["Node"]


@dataclass(eq=False)
class Arm(Node):
    condition: Expression | None  # none in a `select`
    statements: list[Node]


@dataclass(eq=False)
class Case(Node):
    selector: Expression
    alternatives: list["Alternative"]


@dataclass(eq=False)
class Alternative(Node):
    choices: list["Choice"]
    statements: list[Node]


@dataclass(eq=False)
class Choice(Node):
    low: Expression | None  # none for `others`
    high: Expression | None


@dataclass(eq=False)
class Loop(Node):
    condition: Expression | None
    parameter: Identifier | None
    over: Expression | Range | None  # a subtype or a range, of a loop with a parameter
    mark: Name | None  # of `Mark range Low .. High`
    start: int  # the place of `loop`
    statements: list[Node]


@dataclass(eq=False)
class Exit(Node):
    condition: Expression | None


@dataclass(eq=False)
class Return(Node):
    value: Expression | None


@dataclass(eq=False)
class Raise(Node):
    name: Name | None


@dataclass(eq=False)
class Delay(Node):
    is_until: bool
    value: Expression


@dataclass(eq=False)
class Abort(Node):
    names: list[Name]


@dataclass(eq=False)
class Requeue(Node):
    name: Name


@dataclass(eq=False)
class Accept(Node):
    name: Identifier
    parameters: list["Parameter"]
    statements: list[Node]
    end: Identifier | None


@dataclass(eq=False)
class Select(Node):
    arms: list[Arm]
    otherwise: list[Node]
    aborted: list[Node]


def parts_of(node: Node) -> Iterator[Node]:
    """The nodes directly within a node, in the order of the text."""
    for part in fields(node):
        value = getattr(node, part.name)
        for item in value if isinstance(value, list) else [value]:
            if isinstance(item, Node):
                yield item


def nodes_in(node: Node) -> Iterator[Node]:
    """The node and all nodes within it."""
    yield node
    for part in parts_of(node):
        yield from nodes_in(part)
