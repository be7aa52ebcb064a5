"""The restrictions of the profile: what breaks them, in a unit text (docs/UNITS.md, D.13)."""
from collections.abc import Iterator

from judge_tree import Abort, Attribute, Delay, Expression, Name, Named, Node, Requeue, Select, nodes_in
from judge_tree_declarations import Block, Context, Objects, OperationBody, Operations, Protected, ProtectedBody, Subtype, Task, TaskBody, Text
from words import folded

ROWS = ("No_Abort_Statements", "No_Requeue_Statements", "No_Select_Statements", "No_Relative_Delay", "No_Local_Protected_Objects",
        "No_Task_Hierarchy", "Max_Protected_Entries", "Max_Task_Entries", "Simple_Barriers", "No_Dynamic_Priorities", "No_Dependence")
BARRED_UNITS = """Ada.Asynchronous_Task_Control Ada.Calendar Ada.Execution_Time.Group_Budgets Ada.Execution_Time.Timers
Ada.Synchronous_Barriers Ada.Task_Attributes System.Multiprocessors.Dispatching_Domains""".lower().split()
STANDARD_VALUES = {"true", "false", "integer", "natural", "positive", "boolean"}
SYSTEM_VALUES = {"priority", "interrupt_priority", "any_priority", "default_priority"}
Violation = tuple[int, str]  # the place, and the restriction


def folded_parts(name: Name) -> list[str]:
    return [folded(part) for part in name.parts]


class Package:
    """What a text's package declares, by kind."""

    def __init__(self, text: Text) -> None:
        self.name = folded(text.name.text)
        self.names: set[str] = set()
        self.values: set[str] = set()  # constants and subtypes
        self.units: dict[str, Protected] = {}
        self.first: dict[str, Node] = {}  # the first declaration of each name
        for item in text.declarations + text.bodies:
            self.declare(item)

    def declare(self, item: Node) -> None:
        if isinstance(item, Objects):
            names = {folded(name.text) for name in item.names}
            self.values |= names if item.is_constant else set()
        elif isinstance(item, (Subtype, Protected, Task)):
            names = {folded(item.name.text)}
            if isinstance(item, Subtype):
                self.values |= names
            if isinstance(item, Protected):
                self.units.setdefault(folded(item.name.text), item)
        else:
            return
        self.names |= names
        for name in names:
            self.first.setdefault(name, item)

    def has_type(self, name: str, place: int) -> bool:
        """Whether it declares a protected type of that name before that place."""
        found = self.first.get(name)
        return isinstance(found, Protected) and found.is_type and found.name.place < place


class Inside:
    """What the body of an operation may name, and an entry's barrier."""

    def __init__(self, package: Package, unit: str, operation: OperationBody) -> None:
        self.package, self.unit = package, unit
        declared = package.units.get(unit)
        members = declared.shown + declared.hidden if declared else []
        self.components = {folded(name.text) for item in members if isinstance(item, Objects) for name in item.names}
        self.operations = {folded(item.name.text) for item in members if isinstance(item, Operations)}
        self.parameters = {folded(name.text) for parameter in operation.parameters for name in parameter.names}
        self.nearer = self.components | self.operations | self.parameters

    def is_component(self, name: Name) -> bool:
        """Whether it is `C`, `P.C` or `Unit.P.C`, and nothing nearer hides its first identifier."""
        parts = folded_parts(name)
        if parts[-1] not in self.components:
            return False
        if len(parts) == 1:
            return parts[0] not in self.parameters
        if len(parts) == 2:
            return parts[0] == self.unit and parts[0] not in self.nearer
        return parts[:-1] == [self.package.name, self.unit] and parts[0] not in self.nearer | self.package.names

    def is_value(self, name: Name) -> bool:
        """Whether it names a constant or a subtype of the package, of Standard or of System."""
        parts = folded_parts(name)
        if parts[0] in self.nearer or len(parts) > 2:
            return False
        if len(parts) == 1:
            own = self.package.names
            return parts[0] in self.package.values or parts[0] not in own and parts[0] in STANDARD_VALUES | SYSTEM_VALUES
        if parts[0] in self.package.names:
            return False
        values = {self.package.name: self.package.values, "standard": STANDARD_VALUES, "system": SYSTEM_VALUES}
        return parts[1] in values.get(parts[0], set())

    def is_simple(self, barrier: Expression) -> bool:
        if isinstance(barrier, Named) and self.is_component(barrier.name):
            return True
        return all(self.is_value(node) for node in nodes_in(barrier) if isinstance(node, Name))


def is_or_below(name: str, unit: str) -> bool:
    return name == unit or name.startswith(unit + ".")


def of_context(node: Context) -> Iterator[Violation]:
    for name in node.names if node.kind == "with" else []:
        full = ".".join(folded_parts(name))
        if full == "ada.dynamic_priorities":
            yield name.place, "No_Dynamic_Priorities"
        if any(is_or_below(full, unit) for unit in BARRED_UNITS):
            yield name.place, "No_Dependence"


def local_of(name: str, node: Block, place: int) -> Node | None:
    """The first declaration of that name in the block before that place."""
    for item in node.locals:
        names = item.names if isinstance(item, Objects) else [item.name] if isinstance(item, (Protected, Task)) else []
        if any(folded(one.text) == name and one.place < place for one in names):
            return item
    return None


def is_protected_type(mark: Name, node: Block, package: Package, nearer: set[str]) -> bool:
    """Whether a mark in the block names a protected type, where these names hide what the package declares (8.3)."""
    parts = folded_parts(mark)
    local = local_of(parts[0], node, mark.place)
    if local:
        return len(parts) == 1 and isinstance(local, Protected) and local.is_type
    if parts[0] in nearer or len(parts) == 2 and parts[0] in package.names:
        return False
    return parts[:-1] in ([], [package.name]) and package.has_type(parts[-1], mark.place)


def of_block(node: Block, package: Package, nearer: set[str]) -> Iterator[Violation]:
    for item in node.locals:
        if isinstance(item, Task):
            yield item.place, "No_Task_Hierarchy"
        elif isinstance(item, Protected) and not item.is_type:
            yield item.place, "No_Local_Protected_Objects"
        elif isinstance(item, Objects) and item.mark is not None:
            if is_protected_type(item.mark, node, package, nearer):
                yield item.place, "No_Local_Protected_Objects"


def of_node(node: Node) -> Iterator[Violation]:
    """What a node other than a barrier or a block breaks, its parts aside."""
    statements = {Abort: "No_Abort_Statements", Requeue: "No_Requeue_Statements", Select: "No_Select_Statements"}
    if type(node) in statements:
        yield node.place, statements[type(node)]
    elif isinstance(node, Delay) and not node.is_until:
        yield node.place, "No_Relative_Delay"
    elif isinstance(node, Protected):
        entries = [item for item in node.shown + node.hidden if isinstance(item, Operations) and item.kind == "entry"]
        yield from ((entry.place, "Max_Protected_Entries") for entry in entries[1:])
    elif isinstance(node, Task):
        yield from ((item.place, "Max_Task_Entries") for item in node.items if isinstance(item, Operations))
    elif isinstance(node, Attribute) and folded(node.attribute.text) == "priority":
        yield node.place, "No_Dynamic_Priorities"
    elif isinstance(node, Context):
        yield from of_context(node)


def violations(text: Text) -> Iterator[Violation]:
    package = Package(text)
    for node in nodes_in(text):
        yield from of_node(node)
        if isinstance(node, TaskBody):
            yield from of_block(node.block, package, set())
        if isinstance(node, ProtectedBody):
            for body in node.bodies:
                inside = Inside(package, folded(node.name.text), body)
                yield from of_block(body.block, package, inside.nearer)
                if body.barrier and not inside.is_simple(body.barrier):
                    yield body.barrier.place, "Simple_Barriers"


def first_violation(text: Text) -> Violation | None:
    """The first in the order of the text, and of two at one place that of the earlier row."""
    return min(violations(text), key=lambda found: (found[0], ROWS.index(found[1])), default=None)
