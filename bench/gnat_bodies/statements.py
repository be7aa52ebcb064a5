"""Statements of the subset, drawn at random: every loop ends, and no name is read before it has a value."""

from expressions import RANGES

EXCEPTIONS = ("Constraint_Error", "Program_Error", "Host.Access_Denied")


def indented(lines):
    return ["   " + line for line in lines]


class Statements:
    """Draws lists of lines for the body of one operation."""

    def __init__(self, expressions, procedures=(), result=None, may_raise=EXCEPTIONS, most_loops=2):
        self.expressions = expressions
        self.draw = expressions.draw
        self.procedures = procedures
        self.result = result
        self.may_raise = may_raise
        self.loops, self.most_loops = 0, most_loops
        self.counters = []

    def some(self, scope, depth, least=1, most=3, in_loop=False):
        lines = []
        for _ in range(self.draw.randint(least, most)):
            lines += self._one(scope, depth, in_loop)
        return lines

    def _one(self, scope, depth, in_loop):
        case = self.draw.random()
        if depth > 0:
            if case < 0.16:
                return self._if(scope, depth, in_loop)
            if case < 0.26:
                return self._case(scope, depth, in_loop)
            if case < 0.42 and self.loops < self.most_loops:
                return self._loop(scope, depth)
        if in_loop and case < 0.5:
            return [f"exit when {self.expressions.truth(scope)};"]
        if case < 0.68 and self.procedures:
            return self._call(scope)
        return self._assignment(scope)

    def _assignment(self, scope):
        names = list(scope.variables)
        if not names:
            return ["null;"]
        name = self.draw.choice(names)
        return [f"{name} := {self.expressions.in_range(scope.variables[name], scope)};"]

    def _leave(self, scope, in_loop):
        """A statement that ends what it stands in."""
        case = self.draw.random()
        if in_loop and case < 0.4:
            return ["exit;"]
        if case < 0.75 or not self.may_raise:
            return [self.returning(scope)]
        return [f"raise {self.draw.choice(self.may_raise)};"]

    def returning(self, scope):
        if self.result is None:
            return "return;"
        return f"return {self.expressions.in_range(self.result, scope)};"

    def _if(self, scope, depth, in_loop):
        lines = [f"if {self.expressions.truth(scope)} then"]
        lines += indented(self._branch(scope, depth, in_loop))
        for _ in range(self.draw.choice((0, 0, 0, 1, 2))):
            lines.append(f"elsif {self.expressions.truth(scope)} then")
            lines += indented(self._branch(scope, depth, in_loop))
        if self.draw.random() < 0.5:
            lines.append("else")
            lines += indented(self._branch(scope, depth, in_loop))
        return [*lines, "end if;"]

    def _branch(self, scope, depth, in_loop):
        lines = self.some(scope, depth - 1, 1, 2, in_loop)
        return lines + self._leave(scope, in_loop) if self.draw.random() < 0.15 else lines

    def _case(self, scope, depth, in_loop):
        if self.draw.random() < 0.15:
            alternatives = [["True"], ["False"]]
            selector = self.expressions.truth(scope)
            if selector in scope.constants:
                selector = "F"
        else:
            selector, low, high = self._selector(scope)
            alternatives = self._choices(low, high)
        lines = [f"case {selector} is"]
        for choices in alternatives:
            lines.append(f"   when {' | '.join(choices)} =>")
            lines += indented(indented(self._branch(scope, depth, in_loop)))
        return [*lines, "end case;"]

    def _selector(self, scope):
        """A selector, and what its subtype's range is. The subtype of a loop's parameter is that of the loop's bounds, so none is drawn."""
        named = [(name, mark) for name, mark in {**scope.variables, **scope.constants}.items() if mark in ("Digit", "Small") and name[0] != "I"]
        if named and self.draw.random() < 0.5:
            name, mark = self.draw.choice(named)
            return name, *RANGES[mark]
        if self.draw.random() < 0.5:
            mark = self.draw.choice(("Digit", "Small"))
            return f"{mark} ({self.expressions.whole(scope)})", *RANGES[mark]
        return f"Integer ({self.expressions.whole(scope)})", *RANGES["Integer"]

    def _choices(self, low, high):
        """Alternatives that cover the range, each value once; the last one may be `others`."""
        cuts = sorted(self.draw.sample(range(max(low, -20), min(high, 20)), self.draw.randint(1, 4)))
        bounds = [low, *[cut + 1 for cut in cuts]], [*cuts, high]
        parts = []
        for first, last in zip(*bounds):
            first_text = "Integer'First" if first == RANGES["Integer"][0] else str(first)
            parts.append(first_text if first == last else f"{first_text} .. {last}")
        self.draw.shuffle(parts)
        alternatives = [[part] for part in parts]
        if len(alternatives) > 2 and self.draw.random() < 0.5:
            alternatives[0] += alternatives.pop(1)
        if self.draw.random() < 0.5:
            alternatives[-1] = ["others"]
        return alternatives

    def _loop(self, scope, depth):
        self.loops += 1
        form = self.draw.choice(("for", "for", "while", "loop"))
        lines = self._for(scope, depth) if form == "for" else self._counted(scope, depth, form)
        self.loops -= 1
        return lines

    def _for(self, scope, depth):
        parameter = f"I{self.loops}"
        way = "reverse " if self.draw.random() < 0.3 else ""
        case = self.draw.random()
        mark = "Integer"
        if case < 0.35:
            first = self.draw.randint(-3, 5)
            bounds = f"{first} .. {first + self.draw.randint(-1, 3)}"
        elif case < 0.65:
            bounds = f"({self.expressions.whole(scope, 1)}) mod 4 .. {self.draw.randint(0, 5)}"
        elif case < 0.9:
            bounds = self.draw.choice(("Digit range 2 .. 4", "Digit range 7 .. 6", f"Digit range ({self.expressions.whole(scope, 1)}) rem 12 .. 9"))
            if self.most_loops > 1 and self.loops == 1 and self.draw.random() < 0.4:
                bounds = "Digit"
        else:
            mark = "Boolean"
            bounds = self.draw.choice(("Boolean", "False .. True", "True .. False"))
        inner = scope.with_names(constants=[(parameter, mark)])
        lines = [f"for {parameter} in {way}{bounds} loop"]
        lines += indented(self.some(inner, depth - 1, 1, 3, True))
        return [*lines, "end loop;"]

    def _counted(self, scope, depth, form):
        """A loop that a counter of its own ends."""
        counter = f"Turns_{len(self.counters) + 1}"
        self.counters.append(counter)
        most = self.draw.randint(1, 5)
        head = f"while {self.expressions.truth(scope)} loop" if form == "while" else "loop"
        inner = self.some(scope.with_names(constants=[(counter, "Integer")]), depth - 1, 1, 3, True)
        stop = f"exit when {counter} >= {most};" if self.draw.random() < 0.5 else f"if {counter} >= {most} then exit; end if;"
        return [f"{counter} := 0;", head, *indented([f"{counter} := {counter} + 1;", stop, *inner]), "end loop;"]

    def _call(self, scope):
        """A call of a procedure; no name is given to two parameters that are written."""
        chosen = self.draw.choice(self.procedures)
        written, given = [], []
        for mode, mark in chosen.parameters:
            if mode == "in":
                given.append(self.expressions.in_range(mark, scope))
                continue
            fitting = [name for name, other in scope.variables.items() if name not in written and self._may_be_given(chosen, mark, other)]
            if not fitting:
                return ["null;"]
            written.append(self.draw.choice(fitting))
            given.append(written[-1])
        return [f"{self.draw.choice(chosen.spellings)}{' (' + ', '.join(given) + ')' if given else ''};"]

    def _may_be_given(self, chosen, mark, other):
        """Of several values that go back none may fail its check, since the standard leaves their order open."""
        if mark == "Boolean" or other == "Boolean":
            return mark == other
        alone = sum(mode != "in" for mode, _ in chosen.parameters) == 1
        return alone or (RANGES[other][0] <= RANGES[mark][0] and RANGES[mark][1] <= RANGES[other][1])

    def handlers(self, scope):
        """The handlers of a body: none, some of the exceptions, or all."""
        if self.draw.random() < 0.35:
            return []
        names = list(EXCEPTIONS)
        self.draw.shuffle(names)
        lines = ["exception"]
        for choices in self.draw.choice(([names[:1]], [names[:2]], [names[:1], names[1:2]], [names[:1], ["others"]], [["others"]])):
            lines.append(f"   when {' | '.join(choices)} =>")
            inner = self.some(scope, 1, 1, 2)
            case = self.draw.random()
            if case < 0.2:
                inner.append("raise;")
            elif case < 0.35:
                inner += self._leave(scope, False)
            lines += indented(indented(inner))
        return lines
