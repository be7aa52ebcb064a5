"""Types of bodies: statements, calls, case statements (docs/UNITS.md, "Types"; 5.2 to 5.7, 6.4.1, 6.5, 9.6)."""
from judge_declared import Declarations
from judge_library import BOOLEAN, TYPES, Entity, Span
from judge_static import Typed
from judge_tree import Assignment, Call, Case, Choice, Delay, Exit, Expression, If, Loop, Name, Named, Node, Range, Return
from judge_tree_declarations import Block, Objects, OperationBody, Protected, ProtectedBody, Subtype, Task, TaskBody, Text
from words import folded

MOST_VARIABLES = 64
MOST_CONSTANTS = 64  # whose values aren't static
DISCRETE = ("Integer", "Boolean")


class Types(Declarations):
    """Looks at the types of a text whose names are all right, and gathers the faults."""

    def __init__(self, entities: dict[int, Entity], knows_time: bool) -> None:
        super().__init__(entities, knows_time)
        self.unit_body: Entity | None = None  # the protected unit around
        self.kind = ""  # function, procedure, entry, task
        self.result: Span | None = None
        self.variables = 0  # open in the body, with loop parameters
        self.constants = 0  # of the body, whose values aren't static

    def text(self, tree: Text) -> None:
        for item in tree.declarations + tree.bodies:
            if isinstance(item, Subtype):
                self.subtype(item)
            elif isinstance(item, Objects) and item.is_constant:
                self.constant(item)
            elif isinstance(item, (Protected, Task)):
                self.unit(item)
            elif isinstance(item, TaskBody):
                self.body("task", None, item.block)
            elif isinstance(item, ProtectedBody):
                self.protected_body(item, tree)

    def protected_body(self, item: ProtectedBody, tree: Text) -> None:
        unit = next(each for each in tree.declarations + tree.bodies
                    if isinstance(each, Protected) and folded(each.name.text) == folded(item.name.text))
        self.unit_body = self.entities[unit.name.place]
        for body in item.bodies:
            self.operation_body(body)
        self.unit_body = None

    def operation_body(self, item: OperationBody) -> None:
        self.parameters(item.parameters, False)
        declared = self.unit_body.members[folded(item.name.text)][-1]
        if item.barrier:
            self.barrier(item.barrier)
            declared.barrier = item.barrier
        self.body(item.kind, item.result.meaning.span if item.result else None, item.block)

    def barrier(self, value: Expression) -> None:
        self.expected(value, "Boolean")
        entity = value.name.meaning if isinstance(value, Named) else None
        if entity and entity.kind == "component" and entity.span and entity.span.type == "Boolean" and entity.span != BOOLEAN:
            self.tell(value.place, "Mismatch")

    def body(self, kind: str, result: Span | None, block: Block) -> None:
        self.kind, self.result, self.variables, self.constants = kind, result, 0, 0
        for local in block.locals:
            if isinstance(local, Objects):
                self.local(local)
            elif isinstance(local, Protected):
                self.unit(local)
        self.statements(block.statements)
        for handler in block.handlers:
            self.statements(handler.statements)

    def local(self, item: Objects) -> None:
        span = self.spanned(item.mark, item.range)
        found = self.expression(item.value) if item.value else None
        if item.is_constant and item.value is None:
            self.tell(item.place, "Mismatch")
        for name in item.names:
            if not item.is_constant:
                self.opened(name.place)
            elif not (found and found.is_static):
                self.held(name.place)
        if found and span and found.type != span.type:
            self.tell(item.value.place, "Mismatch")
            found = None
        self.initial(item, span, found, item.is_constant)

    def opened(self, place: int) -> None:
        """One more variable or loop parameter."""
        self.variables += 1
        if self.variables > MOST_VARIABLES:
            self.tell(place, "TooLarge")

    def held(self, place: int) -> None:
        """One more constant whose value isn't static."""
        self.constants += 1
        if self.constants > MOST_CONSTANTS:
            self.tell(place, "TooLarge")

    # Statements

    def statements(self, items: list[Node]) -> None:
        for item in items:
            self.statement(item)

    def statement(self, item: Node) -> None:
        if isinstance(item, Assignment):
            self.assignment(item)
        elif isinstance(item, Call):
            self.call_statement(item)
        elif isinstance(item, If):
            for arm in item.arms:
                self.expected(arm.condition, "Boolean")
                self.statements(arm.statements)
            self.statements(item.otherwise)
        elif isinstance(item, Case):
            self.case(item)
        elif isinstance(item, Loop):
            self.loop(item)
        elif isinstance(item, Exit) and item.condition:
            self.expected(item.condition, "Boolean")
        elif isinstance(item, Return):
            self.returned(item)
        elif isinstance(item, Delay):
            self.expected(item.value, "Time")

    def assignment(self, item: Assignment) -> None:
        entity: Entity = item.target.meaning
        if not self.is_writable(entity) or self.is_kept(entity):
            self.tell(item.place, "ConstantWritten")
        self.expected(item.value, entity.span.type if entity.span else None)

    def is_writable(self, entity: Entity) -> bool:
        """Whether it is a variable, a component or a parameter that can be written."""
        return entity.kind in ("variable", "component") or entity.kind == "parameter" and entity.mode != "in"

    def is_kept(self, entity: Entity) -> bool:
        """Whether it is a component within a function, which can't write it (9.4)."""
        return entity.kind == "component" and self.kind == "function"

    def returned(self, item: Return) -> None:
        if self.kind == "function" and item.value is None:
            self.tell(item.place, "Mismatch")
        elif self.kind == "function":
            self.expected(item.value, self.result.type if self.result else None)
        elif item.value:
            self.tell(item.value.place, "Mismatch")
            self.expression(item.value)

    def call_statement(self, item: Call) -> None:
        entity: Entity = item.name.meaning
        if self.kind == "function" and entity.kind == "procedure" and self.is_internal(item.name):
            self.tell(item.place, "ConstantWritten")
        self.arguments(item, entity)

    def is_internal(self, name: Name) -> bool:
        """Whether a call by that name stays within the protected unit around it."""
        unit = self.unit_body
        return unit is not None and name.meaning.owner is unit and \
            (len(name.parts) == 1 or folded(name.parts[-2]) == folded(unit.name))

    def argument(self, value: Expression, parameter: Entity) -> Typed | None:
        found = super().argument(value, parameter)
        if parameter.mode != "in":
            entity = value.name.meaning if isinstance(value, Named) else None
            if entity is None or not self.is_writable(entity):
                self.tell(value.place, "BadMode")
            elif self.is_kept(entity):
                self.tell(value.place, "ConstantWritten")
        return found

    # Loops and case statements

    def loop(self, item: Loop) -> None:
        if item.condition:
            self.expected(item.condition, "Boolean")
        if item.parameter:
            self.opened(item.parameter.place)
            self.entities[item.parameter.place].span = self.looped(item)
        self.statements(item.statements)
        self.variables -= item.parameter is not None

    def looped(self, item: Loop) -> Span | None:
        """The subtype of a loop parameter: all of its type where the bounds aren't static."""
        over = item.over
        if not isinstance(over, Range):
            span = over.name.meaning.span if isinstance(over, Named) and over.name.meaning.kind == "subtype" else None
            if not isinstance(over, Named):
                self.expression(over)
            if not isinstance(over, Named) or span and span.type not in DISCRETE:
                self.tell(over.place, "Mismatch")
                return None
            return span
        span = item.mark.meaning.span if item.mark else None
        if span and span.type not in DISCRETE:
            self.tell(item.mark.place, "Mismatch")
            span = None
        low = self.expected(over.low, span.type if span else None)
        if low and low.type not in DISCRETE:
            self.tell(over.low.place, "Mismatch")
            low = None
        high = self.expected(over.high, low.type if low else span.type if span else None)
        if low is None or high is None:
            return None
        if low.value is None or high.value is None:
            return TYPES[low.type]
        if span:
            self.within(over, span, low.value, high.value)
        return Span(low.type, low.value, high.value)

    def case(self, item: Case) -> None:
        found = self.expression(item.selector)
        if found and found.type not in DISCRETE:
            self.tell(item.selector.place, "Mismatch")
            found = None
        span = self.selected(item.selector, found) if found else None
        covered: list[tuple[int, int]] = []
        whole = [self.alternative(alternative.choices, found.type if found else None, span, covered,
                                  alternative is item.alternatives[-1]) for alternative in item.alternatives]
        for alternative in item.alternatives:
            self.statements(alternative.statements)
        if span and "others" not in whole and "unknown" not in whole and not covers(covered, span):
            self.tell(item.selector.place, "BadChoice")

    def selected(self, selector: Expression, found: Typed) -> Span:
        """The values that choices have to cover (5.4)."""
        if isinstance(selector, Named) and selector.name.meaning.span or isinstance(selector, Call) and selector.name.meaning.span:
            return selector.name.meaning.span
        return TYPES[found.type]

    def alternative(self, choices: list[Choice], kind: str | None, span: Span | None, covered: list[tuple[int, int]], is_last: bool) -> str:
        """Whether the choices are `others`, or not all known; what they cover is added."""
        state = ""
        for choice in choices:
            if choice.low is None:
                if not is_last or len(choices) > 1:
                    self.tell(choice.place, "BadChoice")
                state = "others"
            elif not self.choice(choice, kind, span, covered):
                state = state or "unknown"
        return state

    def choice(self, choice: Choice, kind: str | None, span: Span | None, covered: list[tuple[int, int]]) -> bool:
        """Whether its values are known."""
        chosen = self.chosen(choice, kind)
        if chosen is None or chosen.low > chosen.high:
            return chosen is not None
        for bound, value in ((choice.low, chosen.low), (choice.high or choice.low, chosen.high)):
            if span and not span.holds(value):
                self.tell(bound.place, "TooLarge")
        if any(chosen.low <= last and first <= chosen.high for first, last in covered):
            self.tell(choice.place, "BadChoice")
        covered.append((chosen.low, chosen.high))
        return True

    def chosen(self, choice: Choice, kind: str | None) -> Span | None:
        """The values of a choice: of a subtype, or of static expressions."""
        if isinstance(choice.low, Named) and choice.low.name.meaning.kind == "subtype":
            span: Span | None = choice.low.name.meaning.span
            if span and kind and span.type != kind:
                self.tell(choice.place, "Mismatch")
            return span if span and span.type == kind else None
        low = self.static(choice.low, kind)
        high = self.static(choice.high, kind) if choice.high else low
        if low is None or high is None or low.value is None or high.value is None:
            return None
        return Span(low.type, low.value, high.value)


def covers(covered: list[tuple[int, int]], span: Span) -> bool:
    """Whether each value of the subtype is within one of the ranges."""
    due = span.low
    for low, high in sorted(covered):
        if low <= due:
            due = max(due, high + 1)
    return due > span.high
