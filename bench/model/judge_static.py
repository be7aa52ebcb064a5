"""Types of expressions, and values of those that are static (docs/UNITS.md, "Types"; 4.5, 4.6, 4.9)."""
from typing import NamedTuple

from judge_library import INTEGER, MILLISECONDS, Entity, Span
from judge_tree import Attribute, Call, Expression, Literal, Named, Operation, Parenthesised, Prefixed
from words import folded

RELATIONS = {"=": "__eq__", "/=": "__ne__", "<": "__lt__", "<=": "__le__", ">": "__gt__", ">=": "__ge__"}
LOGIC = ("and", "or", "xor", "and then", "or else")


class Typed(NamedTuple):
    """An expression's type, and where it is static its value, which is none where a fault was told of it."""
    type: str
    is_static: bool = False
    value: int | None = None


def quotient(left: int, right: int) -> int:
    """`/`, which goes towards zero."""
    whole = abs(left) // abs(right)
    return whole if (left < 0) == (right < 0) else -whole


def calculated(operator: str, left: int, right: int) -> int | None:
    """What an operator on Integer gives, or none."""
    if operator in ("/", "mod", "rem"):
        if right == 0:
            return None
        found = {"/": quotient(left, right), "mod": left % right, "rem": left - quotient(left, right) * right}[operator]
    else:
        found = {"+": left + right, "-": left - right, "*": left * right}[operator]
    return found if INTEGER.holds(found) else None


class Expressions:
    def __init__(self, knows_time: bool) -> None:
        self.knows_time = knows_time  # whether the operators of Ada.Real_Time are visible
        self.faults: list[tuple[int, str]] = []
        self.muted = 0  # within right operands that aren't evaluated

    def tell(self, place: int, fault: str) -> None:
        if fault != "TooLarge" or not self.muted:
            self.faults.append((place, fault))

    def expected(self, value: Expression, kind: str | None) -> Typed | None:
        """The expression, where it has that type; nothing is said where no type is known."""
        found = self.expression(value)
        if found and kind and found.type != kind:
            self.tell(value.place, "Mismatch")
            return None
        return found

    def static(self, value: Expression, kind: str | None) -> Typed | None:
        """The same, where it has to be static."""
        found = self.expected(value, kind)
        if found and not found.is_static:
            self.tell(value.place, "NotStatic")
            return None
        return found

    def expression(self, value: Expression) -> Typed | None:
        if isinstance(value, Literal):
            return Typed("Integer", True, value.value)
        if isinstance(value, Named):
            return self.named(value)
        if isinstance(value, Attribute):
            return self.attribute(value)
        if isinstance(value, Call):
            return self.call(value)
        if isinstance(value, Parenthesised):
            return self.expression(value.inner)
        if isinstance(value, Prefixed):
            return self.prefixed(value)
        return self.operation(value)

    def named(self, value: Named) -> Typed | None:
        entity: Entity = value.name.meaning
        if entity.kind == "line":
            return Typed("Line", True, entity.line)
        if entity.kind == "function" and entity.parameters:
            self.tell(value.place, "Mismatch")
            return None
        if entity.span is None:
            return None
        return Typed(entity.span.type, entity.is_static, entity.value)

    def attribute(self, value: Attribute) -> Typed | None:
        span: Span | None = value.name.meaning.span
        if span and span.type != "Integer":
            self.tell(value.place, "Mismatch")
            return None
        if span is None:
            return None
        return Typed("Integer", True, span.low if folded(value.attribute.text) == "first" else span.high)

    def call(self, value: Call) -> Typed | None:
        entity: Entity = value.name.meaning
        if entity.kind == "subtype":
            return self.conversion(value, entity.span)
        given = self.arguments(value, entity)
        if entity.span is None or given is None:
            return None
        if entity is MILLISECONDS and given[0]:
            return Typed("Time_Span", given[0].is_static, given[0].value)
        return Typed(entity.span.type)

    def arguments(self, value: Call | Named, entity: Entity) -> list[Typed | None] | None:
        """The arguments of a call, each of which fits its parameter; nothing where there are too many or too few."""
        values = value.arguments if isinstance(value, Call) else []
        if len(values) != len(entity.parameters):
            self.tell(value.place, "Mismatch")
            return None
        return [self.argument(argument, parameter) for argument, parameter in zip(values, entity.parameters)]

    def argument(self, value: Expression, parameter: Entity) -> Typed | None:
        if parameter.kind == "suspended":
            if not isinstance(value, Named) or value.name.meaning.kind != "suspension":
                self.tell(value.place, "Mismatch")
            return None
        return self.expected(value, parameter.span.type if parameter.span else None)

    def conversion(self, value: Call, span: Span | None) -> Typed | None:
        if span and span.type != "Integer" or len(value.arguments) != 1:
            self.tell(value.place, "Mismatch")
            return None
        found = self.expected(value.arguments[0], "Integer")
        if found is None or span is None:
            return None
        if found.value is not None and not span.holds(found.value):
            self.tell(value.place, "TooLarge")
            return Typed("Integer", True)
        return found

    def prefixed(self, value: Prefixed) -> Typed | None:
        found = self.expected(value.operand, "Boolean" if value.operator == "not" else "Integer")
        if found is None or found.value is None:
            return found
        return self.checked(value, found.type, 1 - found.value if value.operator == "not" else abs(found.value))

    def checked(self, value: Expression, kind: str, result: int | None) -> Typed:
        """What a static operator gives."""
        if result is None or kind == "Integer" and not INTEGER.holds(result):
            self.tell(value.place, "TooLarge")
            return Typed(kind, True)
        return Typed(kind, True, result)

    def operation(self, value: Operation) -> Typed | None:
        first = value.operators[0] if value.operators else ""
        if first in RELATIONS:
            return self.relation(value)
        return self.logic(value, first) if first in LOGIC else self.arithmetic(value)

    def relation(self, value: Operation) -> Typed | None:
        left = self.expression(value.operands[0])
        kinds = ("Integer", "Boolean", "Time") if self.knows_time else ("Integer", "Boolean")
        if left and left.type not in kinds:
            self.tell(value.operands[0].place, "Mismatch")
            left = None
        right = self.expected(value.operands[1], left.type if left else None)
        if left is None or right is None:
            return None
        if left.value is None or right.value is None:
            return Typed("Boolean", left.is_static and right.is_static)
        return Typed("Boolean", True, int(getattr(left.value, RELATIONS[value.operators[0]])(right.value)))

    def logic(self, value: Operation, operator: str) -> Typed | None:
        """The operands of a chain, where a short circuit doesn't evaluate what stands behind the one that decides."""
        decides = {"and then": 0, "or else": 1}.get(operator)
        found, is_decided = [], False
        for operand in value.operands:
            self.muted += is_decided
            found.append(self.expected(operand, "Boolean"))
            self.muted -= is_decided
            is_decided = is_decided or decides is not None and found[-1] is not None and found[-1].value == decides
        if None in found:
            return None
        values = [each.value for each in found]
        if not all(each.is_static for each in found):
            return Typed("Boolean")
        if is_decided:
            return Typed("Boolean", True, decides)
        if None in values:
            return Typed("Boolean", True)
        result = {"and": min(values), "or": max(values), "xor": sum(values) % 2}[operator.split()[0]]
        return Typed("Boolean", True, result)

    def arithmetic(self, value: Operation) -> Typed | None:
        first = value.operands[0]
        left = self.expected(first, "Integer") if value.sign else self.expression(first)
        if left and left.value is not None and value.sign == "-":
            left = self.checked(value, "Integer", -left.value)
        kind, found = left.type if left else None, [left]
        for operator, operand in zip(value.operators, value.operands[1:]):
            kind, right = self.added(value, operator, kind, operand)
            found.append(right)
        result = self.headed(value, found)
        if kind is None or None in found:
            return None
        return Typed(kind, True, result) if all(each.is_static for each in found) and kind == "Integer" else Typed(kind)

    def added(self, value: Operation, operator: str, left: str | None, operand: Expression) -> tuple[str | None, Typed | None]:
        """The type that a chain has with one operator more, and the operand behind that."""
        fitting = {"Integer": "Integer"}
        if operator == "+" and self.knows_time:
            fitting |= {"Time": "Time_Span", "Time_Span": "Time"}
        if left and left not in fitting:
            self.tell(value.operands[0].place, "Mismatch")
            left = None
        right = self.expected(operand, fitting.get(left))
        return (left if left == "Integer" else left and "Time") if right else None, right

    def headed(self, value: Operation, found: list[Typed | None]) -> int | None:
        """What the static operands at the head of a chain give, each operator checked: they are an expression of their own (4.4, 4.9)."""
        values = [each.value if each and each.is_static else None for each in found]
        result = values[0]
        for operator, right in zip(value.operators, values[1:]):
            if result is None or right is None:
                return None
            result = calculated(operator, result, right)
            if result is None:
                self.tell(value.place, "TooLarge")
        return result
