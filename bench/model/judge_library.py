"""What names can mean, and what is predefined (docs/UNITS.md, "Names")."""
from dataclasses import dataclass, field
from typing import NamedTuple

from judge_tree import Expression
from shapes import INTEGER_HIGH, INTEGER_LOW
from words import folded

TIME_LIMIT = 10**15


class Span(NamedTuple):
    """A subtype: its type and its values."""
    type: str  # Integer, Boolean, Time, Time_Span
    low: int
    high: int

    def holds(self, value: int) -> bool:
        return self.low <= value <= self.high


INTEGER = Span("Integer", INTEGER_LOW, INTEGER_HIGH)
BOOLEAN = Span("Boolean", 0, 1)
TIME = Span("Time", -TIME_LIMIT, TIME_LIMIT)
TIME_SPAN = Span("Time_Span", -TIME_LIMIT, TIME_LIMIT)
TYPES = {whole.type: whole for whole in (INTEGER, BOOLEAN, TIME, TIME_SPAN)}


@dataclass(eq=False)
class Entity:
    """What a name means."""
    kind: str  # subtype, suspension type, protected type, constant, literal, line, variable, component, parameter, loop parameter,
    #            function, procedure, entry, protected, suspension, task, exception, package, unit
    name: str
    place: int = -1  # from here on it hides what is outside,
    seen: int = -1  # and from here on it is seen
    span: Span | None = None  # of a subtype, of a value, of a function's result; none where it isn't static
    value: int | None = None
    is_static: bool = False  # its value is static; where a fault was told of it, none is kept
    mode: str = ""  # of a parameter
    parameters: list["Entity"] = field(default_factory=list)
    members: dict[str, list["Entity"]] = field(default_factory=dict)
    is_hidden: bool = False  # behind `private`, or in the package body
    owner: "Entity | None" = None  # the protected unit of a component or an operation; the type of a protected object
    has_body: bool = False
    line: int | None = None  # of an attached procedure, and of a name of a line
    barrier: Expression | None = None


def declare(members: dict[str, list[Entity]], entity: Entity) -> bool:
    """Adds it to what a region declares, and says whether its name is new there."""
    others = members.setdefault(folded(entity.name), [])
    others.append(entity)
    return len(others) == 1


def package(name: str, *members: Entity) -> Entity:
    found = Entity("package", name)
    for member in members:
        declare(found.members, member)
    return found


def a_subtype(name: str, whole: Span, low: int | None = None, high: int | None = None) -> Entity:
    span = whole._replace(low=whole.low if low is None else low, high=whole.high if high is None else high)
    return Entity("subtype", name, span=span)


def operation(kind: str, name: str, result: Span | None, *parameters: tuple[str, Span | None]) -> Entity:
    """A library operation; a parameter without a subtype is a suspension object."""
    return Entity(kind, name, span=result, parameters=[Entity("parameter" if span else "suspended", text, span=span, mode="in") for text, span in parameters])


def suspension_operations() -> list[Entity]:
    names = {"Set_True": "procedure", "Set_False": "procedure", "Suspend_Until_True": "procedure", "Current_State": "function"}
    return [operation(kind, name, BOOLEAN if kind == "function" else None, ("S", None)) for name, kind in names.items()]


PRIORITY = a_subtype("Priority", INTEGER, 1, 30)
LINES = [Entity("line", f"Int_{line}", line=line) for line in range(10)]
STANDARD = package(
    "Standard", a_subtype("Integer", INTEGER), a_subtype("Natural", INTEGER, 0), a_subtype("Positive", INTEGER, 1),
    a_subtype("Boolean", BOOLEAN), Entity("literal", "False", span=BOOLEAN, value=0, is_static=True), Entity("literal", "True", span=BOOLEAN, value=1, is_static=True),
    Entity("exception", "Constraint_Error"), Entity("exception", "Program_Error"))
MILLISECONDS = operation("function", "Milliseconds", TIME_SPAN, ("MS", INTEGER))
REAL_TIME = package("Real_Time", a_subtype("Time", TIME), a_subtype("Time_Span", TIME_SPAN), operation("function", "Clock", TIME), MILLISECONDS)
ROOTS = package(
    "",
    package("Ada", REAL_TIME,
            package("Synchronous_Task_Control", Entity("suspension type", "Suspension_Object"), *suspension_operations()),
            package("Interrupts", package("Names", *LINES))),
    package("System", PRIORITY, a_subtype("Interrupt_Priority", INTEGER, 31, 40), a_subtype("Any_Priority", INTEGER, 1, 40),
            Entity("constant", "Default_Priority", span=PRIORITY.span, value=15, is_static=True)),
    package("Host", Entity("exception", "Access_Denied")))


def names_below(unit: Entity) -> set[str]:
    """All names that stand in a library package or in one within it."""
    found = set(unit.members)
    for others in unit.members.values():
        found |= names_below(others[0])
    return found


LIBRARY_NAMES = names_below(ROOTS)  # beside those of Standard
