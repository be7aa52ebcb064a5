"""Faults of names: declarations, kinds, end names (docs/UNITS.md, "Names"). Statements are in judge_uses.py, bodies in judge_bodies.py."""
from collections.abc import Callable

from judge_bodies import Bodies
from judge_declared import Declarations
from judge_library import Entity
from judge_scope import NotFound, Scope, with_named
from judge_tree import Expression, Identifier, Named, Node
from judge_tree_declarations import Context, Objects, Operations, Pragma, Protected, ProtectedBody, Subtype, Task, TaskBody, Text
from words import folded

PRIORITIES = ("priority", "interrupt_priority")
OPENING_KINDS = {"suspension type": "suspension", "protected type": "protected"}  # of package objects, by what their mark names


class Names(Bodies):
    """Looks up all names of a text, and gathers the faults."""

    def __init__(self, scope: Scope) -> None:
        super().__init__(scope)
        self.used: list[Entity] = []  # by the context; seen from the package on (8.4)
        self.given: dict[Node, int] = {}  # how often a unit's priority is given

    def text(self, tree: Text) -> None:
        for item in tree.contexts:
            self.pragma(item, None) if isinstance(item, Pragma) else self.context(item)
        items = tree.declarations + tree.bodies
        self.scope.used = self.used
        self.declare_all(self.scope.unit.members, tree.declarations, "object")
        self.declare_all(self.scope.unit.members, tree.bodies, "object", None, True)
        if folded(tree.body_name.text) != folded(tree.name.text):
            self.tell(tree.body_name.place, "Unknown")
        with self.region(self.scope.unit.members, self.scope.unit):
            for item in tree.declarations:
                self.declaration(item)
            for item in tree.bodies:
                self.declaration(item)
        self.ended(tree.end, tree.name)
        self.ended(tree.body_end, tree.name)
        self.missing_bodies(items)

    def context(self, item: Context) -> None:
        for name in item.names:
            try:
                if item.kind == "with":
                    with_named(self.scope, name)
                elif item.kind == "use":
                    self.use(self.scope.named(name), name.place)
            except NotFound as fault:
                self.tell(name.place, fault.fault)

    def use(self, unit: Entity, place: int) -> None:
        if unit.kind == "package" and unit is not self.scope.unit:
            self.used.append(unit)
        else:
            self.tell(place, "WrongKind")

    def declaration(self, item: Node) -> None:
        """A declaration of a package, or a body."""
        if isinstance(item, ProtectedBody):
            self.protected_body(item)
        elif isinstance(item, TaskBody):
            self.task_body(item)
        elif isinstance(item, Pragma):
            self.pragma(item, None)
        elif isinstance(item, Protected):
            self.protected(item)
        elif isinstance(item, Task):
            self.task(item)
        elif isinstance(item, Subtype):
            told = len(self.faults)
            self.mark(item.mark)
            self.range(item.range)
            self.evaluate(lambda types: types.subtype(item), [item.name], told)
        elif isinstance(item, Objects):
            self.objects(item)

    def evaluate(self, declare: Callable[[Declarations], None], names: list[Identifier], told: int) -> None:
        """Keeps what is static of a subtype or of constants, by which marks match; nothing where a fault is told of it."""
        if len(self.faults) > told:
            return
        types = Declarations(self.entities, True)
        declare(types)
        for name in names if types.faults else []:
            entity = self.entities[name.place]
            entity.span, entity.value, entity.is_static = None, None, False

    def objects(self, item: Objects) -> None:
        """Constants and objects of a package."""
        if item.is_constant:
            told = len(self.faults)
            self.typed(item)
            self.evaluate(lambda types: types.constant(item), item.names, told)
            return
        meaning = self.lookup(item.mark, "suspension type", "protected type")
        for name in item.names if meaning else []:
            entity = self.entities[name.place]
            entity.kind = OPENING_KINDS[meaning.kind]
            entity.owner = meaning if meaning.kind == "protected type" else None

    def protected(self, item: Protected) -> None:
        entity = self.entities[item.name.place]
        with self.region(entity.members, entity):
            self.given[item] = self.aspects(item, PRIORITIES)
            for member in item.shown + item.hidden:
                if isinstance(member, Pragma):
                    self.pragma(member, item, entity)
                elif isinstance(member, Operations):
                    self.operation(member)
                else:
                    self.typed(member)
        self.ended(item.end, item.name)

    def task(self, item: Task) -> None:
        self.given[item] = self.aspects(item, PRIORITIES)
        for member in item.items:
            if isinstance(member, Pragma):
                self.pragma(member, item)
        self.ended(item.end, item.name)

    def operation(self, item: Operations) -> None:
        self.profiles[self.entities[item.name.place]] = self.profile(item.parameters, item.result)
        self.aspects(item, ("attach_handler",))
        for aspect in item.aspects:
            if folded(aspect.name.text) == "attach_handler" and item.parameters:
                self.tell(aspect.place, "WrongKind")

    def aspects(self, item: Protected | Task | Operations, known: tuple[str, ...]) -> int:
        """How often a priority is given."""
        given = 0
        for aspect in item.aspects:
            name = folded(aspect.name.text)
            if name not in known:
                self.tell(aspect.place, "Unknown")
                continue
            given += name in PRIORITIES
            if given > 1:
                self.tell(aspect.place, "Duplicate")
            if aspect.value:
                self.expression(aspect.value)
        return given

    def pragma(self, item: Pragma, around: Protected | Task | None, unit: Entity | None = None) -> None:
        name = folded(item.name.text)
        if name not in PRIORITIES + ("attach_handler",):
            return
        if around is None or name == "attach_handler" and unit is None:
            self.tell(item.name.place, "WrongKind")
            return
        values = [argument.value for argument in item.arguments]
        if name in PRIORITIES:
            self.given[around] += 1
            if self.given[around] > 1:
                self.tell(item.name.place, "Duplicate")
        elif values:
            self.attached(values.pop(0), unit)
        for value in values:
            self.expression(value)

    def attached(self, value: Expression, unit: Entity) -> None:
        """The procedure of `pragma Attach_Handler`, which the unit has declared."""
        if not isinstance(value, Named):
            self.tell(value.place, "WrongKind")
            return
        found = self.lookup(value.name, "procedure")
        if found and found.owner is not unit:
            self.tell(value.place, "WrongKind")
