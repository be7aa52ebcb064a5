"""Expressions of the subset, drawn at random and printed with the precedence of Ada (4.4, 4.5).

No drawn expression has a static part beyond one literal, attribute or negated literal: what a compiler may work out beforehand
is refused by some and raises by others.
"""

import random
from dataclasses import dataclass, field

# The subtypes that every drawn unit declares, with their ranges.
RANGES = {"Integer": (-(2**31), 2**31 - 1), "Digit": (0, 9), "Small": (-20, 20), "Boolean": (0, 1)}
WHOLE = ("Integer", "Digit", "Small")

# How tightly the forms of the grammar bind: an expression, a relation, a sum, a product, a factor, a primary.
LOGIC, RELATION, SUM, PRODUCT, FACTOR, PRIMARY = range(6)


@dataclass
class Scope:
    """What may be named at a point of a body."""

    variables: dict = field(default_factory=dict)
    constants: dict = field(default_factory=dict)
    functions: tuple = ()

    def with_names(self, variables=(), constants=()):
        """This scope with more names, which hide those of the same name."""
        inner = Scope(dict(self.variables), dict(self.constants), self.functions)
        for name, mark in constants:
            inner.variables.pop(name, None)
            inner.constants[name] = mark
        for name, mark in variables:
            inner.constants.pop(name, None)
            inner.variables[name] = mark
        return inner

    def of_type(self, is_whole):
        names = {**self.variables, **self.constants}
        return [name for name, mark in names.items() if (mark != "Boolean") == is_whole]


class Expressions:
    """Draws expressions; each is a pair of how tightly it binds and its text."""

    def __init__(self, draw: random.Random):
        self.draw = draw

    def whole(self, scope, depth=2):
        """The text of an expression of whole numbers that isn't static, where a name is in scope."""
        return self._whole(scope, depth)[1]

    def truth(self, scope, depth=2):
        return self._truth(scope, depth)[1]

    def literal(self, mark="Integer"):
        """A literal, or a negated one, that lies in the range of the subtype."""
        low, high = RANGES[mark]
        value = self.draw.choice((0, 1, 2, 3, 5, 7, 9, 10, 12, 19, -1, -2, -8, -20))
        if mark == "Integer" and self.draw.random() < 0.08:
            value = self.draw.choice((1000, 46341, 65536, 2147483646, 2147483647, -2147483647))
        return str(value if low <= value <= high else self.draw.randint(max(low, -20), min(high, 20)))

    def in_range(self, mark, scope, depth=2):
        """An expression that is given to a name of this subtype; mostly one that lies in its range."""
        case = self.draw.random()
        if case < 0.2:
            return self.draw.choice(("True", "False")) if mark == "Boolean" else self.literal(mark)
        return self.reduced(mark if case > 0.3 else "Boolean" if mark == "Boolean" else "Integer", scope, depth)

    def reduced(self, mark, scope, depth=2):
        """An expression that isn't static, and lies in the range of the subtype unless a part of it raises."""
        if mark == "Boolean":
            return self.truth(scope, depth)
        if mark == "Integer":
            return self.whole(scope, depth)
        return f"{self._held(self._whole(scope, depth - 1), FACTOR)} {'mod 10' if mark == 'Digit' else 'rem 21'}"

    def _held(self, made, level):
        """The text, in parentheses where it binds less tightly than it has to, and sometimes elsewhere."""
        binds, text = made
        return f"({text})" if binds < level or self.draw.random() < 0.08 else text

    def _leaf(self, scope, is_whole):
        names = scope.of_type(is_whole)
        if names:
            return PRIMARY, self.draw.choice(names)
        return self._constant() if is_whole else (PRIMARY, self.draw.choice(("True", "False")))

    def _constant(self):
        """A static operand: never 0, so that it may be a divisor."""
        case = self.draw.random()
        if case < 0.1:
            return PRIMARY, self.draw.choice(("Digit'Last", "Small'First", "Integer'Last", "Integer'First", "Ten"))
        if case < 0.2:
            return PRIMARY, f"(-{self.draw.choice((1, 2, 3, 10))})"
        return PRIMARY, str(self.draw.choice((1, 1, 2, 2, 3, 4, 7, 10, 100, 46341, 2147483647)) if case < 0.4 else self.draw.randint(1, 6))

    def _call(self, scope, depth, result):
        """A call of a function with this kind of result, or none where there is none in scope."""
        fitting = [one for one in scope.functions if (one.result != "Boolean") == result]
        if not fitting:
            return None
        chosen = self.draw.choice(fitting)
        given = [self.in_range(mark, scope, depth - 1) for mark in chosen.marks]
        return PRIMARY, f"{self.draw.choice(chosen.spellings)} ({', '.join(given)})"

    def _whole(self, scope, depth):
        if depth <= 0:
            return self._leaf(scope, True)
        case = self.draw.random()
        if case < 0.12:
            return self._leaf(scope, True)
        if case < 0.24:
            made = self._call(scope, depth, True)
            return made or self._leaf(scope, True)
        if case < 0.31:
            return PRIMARY, f"{self.draw.choice(WHOLE)} ({self._whole(scope, depth - 1)[1]})"
        if case < 0.36:
            return FACTOR, f"abs {self._held(self._whole(scope, depth - 1), PRIMARY)}"
        if case < 0.43:
            return SUM, f"{self.draw.choice('--+')} {self._held(self._whole(scope, depth - 1), PRODUCT)}"
        symbol = self.draw.choice(("*", "/", "mod", "rem"))
        left, right = self._operands(scope, depth - 1, 0.8 if case >= 0.75 and symbol != "*" else 0.35)
        if symbol in ("mod", "rem") and right[1] in ("1", "(-1)"):
            # GNAT knows that this is 0, and refuses it as a divisor.
            right = PRIMARY, "2"
        if case < 0.75:
            return SUM, f"{self._held(left, SUM)} {self.draw.choice('+-')} {self._held(right, PRODUCT)}"
        return PRODUCT, f"{self._held(left, PRODUCT)} {symbol} {self._held(right, FACTOR)}"

    def _operands(self, scope, depth, static=0.35):
        """Two operands, at most one of them static: the right one as often as is given."""
        left, right = self._whole(scope, depth), self._whole(scope, depth)
        case = self.draw.random()
        if case < static:
            right = self._constant()
        elif case < static + 0.1:
            left = self._constant()
        return left, right

    def _truth(self, scope, depth):
        if depth <= 0:
            return self._leaf(scope, False)
        case = self.draw.random()
        if case < 0.1:
            return self._leaf(scope, False)
        if case < 0.2:
            made = self._call(scope, depth, False)
            return made or self._leaf(scope, False)
        if case < 0.3:
            return FACTOR, f"not {self._held(self._truth(scope, depth - 1), PRIMARY)}"
        if case < 0.7:
            left, right = self._operands(scope, depth - 1)
            symbol = self.draw.choice(("=", "/=", "<", "<=", ">", ">="))
            return RELATION, f"{self._held(left, SUM)} {symbol} {self._held(right, SUM)}"
        if case < 0.75:
            left, right = self._truth(scope, depth - 1), self._truth(scope, depth - 1)
            return RELATION, f"{self._held(left, SUM)} {self.draw.choice(('=', '/=', '<', '>='))} {self._held(right, SUM)}"
        symbol = self.draw.choice(("and", "or", "xor", "and then", "or else"))
        parts = [self._held(self._truth(scope, depth - 1), RELATION) for _ in range(self.draw.choice((2, 2, 3)))]
        return LOGIC, f" {symbol} ".join(parts)
