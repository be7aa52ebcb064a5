"""Types of declarations: ranges, constants, components, priorities, lines (docs/UNITS.md; 3.2, 3.3, 3.5, C.3.1, D.1, D.3)."""
from judge_library import INTEGER, LINES, Entity, Span
from judge_static import Expressions, Typed
from judge_tree import Expression, Name, Named, Node, Range
from judge_tree_declarations import Aspect, Objects, Operations, Parameter, Pragma, Protected, Subtype, Task
from words import folded

PRIORITY_RANGES = {"priority": (1, 40), "interrupt_priority": (31, 40)}
DEFAULT_TASK_PRIORITY, DEFAULT_CEILING, HANDLER_CEILING = 15, 30, 40


class Declarations(Expressions):
    def __init__(self, entities: dict[int, Entity], knows_time: bool) -> None:
        super().__init__(knows_time)
        self.entities = entities  # by the places of their declaring names
        self.priorities: dict[Node, int] = {}  # that are given, of protected units and tasks

    def spanned(self, mark: Name, bounds: Range | None) -> Span | None:
        """The subtype of a mark and a range, whose bounds are static."""
        span: Span | None = mark.meaning.span
        if bounds is None:
            return span
        if span and span.type not in ("Integer", "Boolean"):
            self.tell(bounds.low.place, "Mismatch")
            span = None
        low, high = (self.static(bound, span.type if span else None) for bound in (bounds.low, bounds.high))
        if span is None or low is None or high is None or low.value is None or high.value is None:
            return None
        self.within(bounds, span, low.value, high.value)
        return Span(span.type, low.value, high.value)

    def within(self, bounds: Range, span: Span, low: int, high: int) -> None:
        """The bounds of a range that isn't empty are of its subtype (3.5)."""
        for bound, value in ((bounds.low, low), (bounds.high, high)):
            if low <= high and not span.holds(value):
                self.tell(bound.place, "TooLarge")

    def subtype(self, item: Subtype) -> None:
        self.entities[item.name.place].span = self.spanned(item.mark, item.range)

    def constant(self, item: Objects) -> None:
        """A constant of a package, or a named number, which is an Integer."""
        span = item.mark.meaning.span if item.mark else INTEGER
        self.initial(item, span, self.static(item.value, span.type if span else None), True)

    def initial(self, item: Objects, span: Span | None, found: Typed | None, is_checked: bool) -> None:
        """Gives the objects their subtype and, where they are constants, their static value."""
        is_outside = found is not None and found.value is not None and span is not None and not span.holds(found.value)
        if is_outside and is_checked:
            self.tell(item.value.place, "TooLarge")
        for name in item.names:
            entity = self.entities[name.place]
            entity.span = span
            if found and item.is_constant:
                entity.is_static, entity.value = found.is_static, None if is_outside else found.value

    def component(self, item: Objects) -> None:
        span = self.spanned(item.mark, item.range)
        found = self.static(item.value, span.type if span else None) if item.value else None
        self.initial(item, span, found, True)
        for name in item.names:
            start = found.value if found else None
            self.entities[name.place].value = start if start is not None else span and first_value(span)

    def parameters(self, items: list[Parameter], is_function: bool) -> list[Entity]:
        found = []
        for item in items:
            if is_function and item.mode != "in":
                self.tell(item.place, "BadMode")
            for name in item.names:
                entity = self.entities[name.place]
                entity.span = item.mark.meaning.span
                found.append(entity)
        return found

    def declared_operation(self, item: Operations) -> None:
        entity = self.entities[item.name.place]
        entity.parameters = self.parameters(item.parameters, item.kind == "function")
        entity.span = item.result.meaning.span if item.result else None
        for aspect in item.aspects:
            if aspect.value is None or entity.line is not None:
                self.tell(aspect.place, "Mismatch")
            else:
                entity.line = self.line(aspect.value)

    def line(self, value: Expression) -> int | None:
        """The number of the line that is named."""
        found = self.expression(value)
        if isinstance(value, Named) and value.name.meaning in LINES:
            return value.name.meaning.line
        if found:
            self.tell(value.place, "Mismatch")
        return None

    def unit(self, item: Protected | Task) -> None:
        """Aspects, pragmas and members of a protected unit or a task, in the order of the text."""
        for aspect in item.aspects:
            self.priority(item, aspect, aspect.name.text, [aspect.value] if aspect.value else [])
        for member in item.items if isinstance(item, Task) else item.shown + item.hidden:
            if isinstance(member, Pragma):
                self.pragma(item, member)
            elif isinstance(member, Operations):
                self.declared_operation(member)
            else:
                self.component(member)

    def pragma(self, item: Protected | Task, member: Pragma) -> None:
        values = [argument.value for argument in member.arguments]
        if folded(member.name.text) in PRIORITY_RANGES:
            self.priority(item, member.name, member.name.text, values)
        elif folded(member.name.text) == "attach_handler":
            self.attached(member, values)

    def attached(self, member: Pragma, values: list[Expression]) -> None:
        if len(values) != 2:
            self.tell(member.name.place, "Mismatch")
            return
        entity: Entity = values[0].name.meaning
        line = self.line(values[1])
        if entity.parameters or entity.line is not None:
            self.tell(values[0].place, "Mismatch")
        else:
            entity.line = line

    def priority(self, item: Protected | Task, told: Node | Aspect, name: str, values: list[Expression]) -> None:
        name = folded(name)
        low, high = PRIORITY_RANGES[name]
        if not values and name == "interrupt_priority":
            self.priorities[item] = high
        elif len(values) != 1:
            self.tell(told.place, "Mismatch")
        else:
            found = self.static(values[0], "Integer")
            if found and found.value is not None:
                self.priorities[item] = found.value
                if not low <= found.value <= high:
                    self.tell(values[0].place, "TooLarge")


def first_value(span: Span) -> int:
    """Where an object without a value starts."""
    return span.low if span.type in ("Integer", "Boolean") else 0
