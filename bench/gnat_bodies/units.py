"""Units drawn at random: protected objects, each with bodies to compare and helpers that those call."""

import random
from dataclasses import dataclass

from expressions import Expressions, Scope
from statements import Statements, indented

COMPONENTS = (("A", "Integer", 5), ("B", "Integer", -3), ("D", "Digit", 4), ("S", "Small", -1), ("F", "Boolean", "False"))
BODIES_OF_AN_OBJECT = 2
OBJECTS_OF_A_UNIT = 10
CALLS_OF_A_BODY = 4


@dataclass
class Function:
    spellings: tuple
    marks: tuple
    result: str


@dataclass
class Procedure:
    spellings: tuple
    parameters: tuple


@dataclass
class Call:
    """A call from outside, as a text names it and as a journal does."""

    object: str
    operation: str
    actuals: tuple

    def statement(self):
        return f"{self.object}.{self.operation} ({', '.join(self.actuals)});"


@dataclass
class Unit:
    name: str
    declared: list
    bodies: list
    calls: list


def spelled(unit, object, name):
    """The ways in which a body may name an operation of its own object (4.1.3, 9.5)."""
    return (name, name, f"{object}.{name}", f"{unit}.{object}.{name}")


def operation(head, name, locals, statements, handlers):
    return [f"{head} is", *indented(locals), "begin", *indented(statements), *handlers, f"end {name};"]


class Drawing:
    """Draws the operations of one object."""

    def __init__(self, draw, unit, object):
        self.draw, self.unit, self.object = draw, unit, object
        self.expressions = Expressions(draw)
        self.declared, self.hidden, self.bodies = [], [], []

    def _scope(self, functions, written, read=()):
        components = [(name, mark) for name, mark, _ in COMPONENTS]
        variables, constants = (components, []) if written else ([], components)
        return Scope(functions=tuple(functions)).with_names(variables, [*constants, *read])

    def _with_locals(self, scope, count):
        """Declarations, and the scope behind them; a value of a declaration may raise."""
        lines = []
        for number in range(1, count + 1):
            mark = self.draw.choice(("Integer", "Digit", "Small", "Boolean"))
            is_constant = self.draw.random() < 0.2
            if is_constant:
                # Not a static one, which would make static what it stands in.
                value = self.expressions.reduced(mark, scope)
            elif self.draw.random() < 0.3:
                value = self.expressions.in_range(mark, scope)
            else:
                value = "True" if mark == "Boolean" else self.expressions.literal(mark)
            lines.append(f"L{number} : {'constant ' if is_constant else ''}{mark} := {value};")
            names = [(f"L{number}", mark)]
            scope = scope.with_names(constants=names) if is_constant else scope.with_names(variables=names)
        return lines, scope

    def _add(self, head, name, locals, statements, handlers, drawn, hidden=True):
        counters = [f"{counter} : Integer := 0;" for counter in drawn.counters]
        (self.hidden if hidden else self.declared).append(f"{head};")
        self.bodies += operation(head, name, [*counters, *locals], statements, handlers)

    def function(self, name, parameters, result, functions):
        """A function that raises Constraint_Error alone, so that no order of evaluation shows."""
        scope = self._scope(functions, False, parameters)
        locals, scope = self._with_locals(scope, self.draw.randint(0, 2))
        drawn = Statements(self.expressions, (), result, ("Constraint_Error",), most_loops=1)
        lines = drawn.some(scope, 2, 1, 3)
        handlers = ["exception", "   when Constraint_Error =>", f"      {drawn.returning(scope)}"] if self.draw.random() < 0.4 else []
        head = f"function {name} ({'; '.join(f'{one} : {mark}' for one, mark in parameters)}) return {result}"
        self._add(head, name, locals, [*lines, drawn.returning(scope)], handlers, drawn)
        return Function(spelled(self.unit, self.object, name), tuple(mark for _, mark in parameters), result)

    def recursive(self, name):
        """A function that calls itself for smaller numbers, up to ten deep."""
        head = f"function {name} (P : Integer) return Integer"
        case = self.draw.choice(("P * {0}", "P + {0}", "{0} - P * 2", "{0} mod 7 - P"))
        again = case.format(f"{self.draw.choice(spelled(self.unit, self.object, name))} (P - 1)")
        lines = ["if P <= 0 or P > 10 then", f"   return {self.draw.choice(('P', '1', 'A', 'A + B', 'D'))};", "end if;", f"return {again};"]
        self._add(head, name, [], lines, [], Statements(self.expressions))
        return Function(spelled(self.unit, self.object, name), ("Integer",), "Integer")

    def partial(self, name):
        """A function that may end without a return: it is called alone, with a name."""
        head = f"function {name} (P : Integer) return Digit"
        handlers = ["exception", "   when others =>", "      return 8;"] if self.draw.random() < 0.5 else []
        lines = ["if P mod 3 = 0 then", f"   return {self.draw.choice(('P', 'D', 'P mod 10', '7'))};", "end if;"]
        self._add(head, name, [], lines, handlers, Statements(self.expressions))

    def procedure(self, name, parameters, functions, procedures, first=()):
        read = [(one, mark) for one, mode, mark in parameters if mode != "out"]
        locals, scope = self._with_locals(self._scope(functions, True, read), self.draw.randint(0, 2))
        scope = scope.with_names(variables=[(one, mark) for one, mode, mark in parameters if mode != "in"])
        drawn = Statements(self.expressions, procedures, most_loops=1)
        lines = [*first, *drawn.some(scope, 2, 2, 4)]
        head = f"procedure {name} ({'; '.join(f'{one} : {mode} {mark}' for one, mode, mark in parameters)})"
        self._add(head, name, locals, lines, drawn.handlers(scope), drawn)
        return Procedure(spelled(self.unit, self.object, name), tuple((mode, mark) for _, mode, mark in parameters))

    def compared(self, name, functions, procedures):
        """A body that is compared: it is called from outside."""
        parameters = [("N", "Integer"), ("M", "Digit"), ("G", "Boolean")]
        scope = self._scope(functions, True, parameters)
        locals, scope = self._with_locals(scope, self.draw.randint(0, 3))
        drawn = Statements(self.expressions, procedures)
        lines = drawn.some(scope, 3, 1, 3)
        if self.draw.random() < 0.3:
            lines.append(f"{self.draw.choice(('A', 'D'))} := Partial ({self.draw.choice(('A', 'B', 'N', 'M'))});")
        lines += drawn.some(scope, 3, 2, 4)
        head = f"procedure {name} (N : in Integer; M : in Digit; G : in Boolean)"
        self._add(head, name, locals, lines, drawn.handlers(scope), drawn, hidden=False)


def draw_object(draw, unit, object):
    """The text of an object's declaration and body, and the calls of its compared bodies."""
    made = Drawing(draw, unit, object)
    recursive = made.recursive("Folded")
    made.partial("Partial")
    value = made.function("Value", [("P", "Integer"), ("Q", "Small")], draw.choice(("Integer", "Small")), [recursive])
    test = made.function("Test", [("P", "Digit"), ("Q", "Boolean")], "Boolean", [value])
    functions = [recursive, value, test]
    give = made.procedure("Give", [("P", "in", "Small"), ("Q", "out", "Digit"), ("R", "in out", "Boolean")], functions, (), first=("Q := 6;",))
    change = made.procedure("Change", [("P", "in out", draw.choice(("Integer", "Small", "Digit")))], functions, (give,))
    calls = []
    for number in range(1, BODIES_OF_AN_OBJECT + 1):
        name = f"Run_{number}"
        made.compared(name, functions, (give, change))
        for _ in range(CALLS_OF_A_BODY):
            actuals = (made.expressions.literal(), made.expressions.literal("Digit"), draw.choice(("True", "False")))
            calls.append(Call(f"{unit}.{object}", name, actuals))
    readers = [(f"function Get_{name} return {mark}", name) for name, mark, _ in COMPONENTS]
    components = [f"{name} : {mark} := {value};" for name, mark, value in COMPONENTS]
    shown = [*[f"{head};" for head, _ in readers], *made.declared]
    declared = [f"protected {object} is", *indented(shown), "private", *indented([*made.hidden, *components]), f"end {object};"]
    reading = [line for head, name in readers for line in operation(head, f"Get_{name}", [], [f"return {name};"], [])]
    return declared, [f"protected body {object} is", *indented(reading), *indented(made.bodies), f"end {object};"], calls


def draw_unit(seed, name):
    draw = random.Random(f"{seed} {name}")
    declared = ["subtype Digit is Integer range 0 .. 9;", "subtype Small is Integer range -20 .. 20;", "Ten : constant := 10;"]
    bodies, calls = [], []
    for number in range(1, OBJECTS_OF_A_UNIT + 1):
        head, body, called = draw_object(draw, name, f"O{number}")
        declared += head
        bodies += body
        calls += called
    return Unit(name, declared, bodies, calls)
