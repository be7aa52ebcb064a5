"""Draws the settings, shapes and lists of scripts."""
import random
from collections.abc import Iterator

from host import Host
from play import Player
from shapes import Range
from words import folded

NAMES = "A B Ab Valve Gauge X1 P_2 Set Get Wait Begin loop q Zz_9_z Run Turn Poke".split()
UNITS = "Plant Nav U1 B Operator Int_5 Entry P zed".split()
OPERATIONS = "function function procedure procedure entry entry handler".split()
HANDLER_OPERATIONS = "function procedure procedure entry entry handler handler handler".split()


def chance(dice: random.Random, part: float) -> bool:
    return dice.random() < part


def cased(dice: random.Random, name: str) -> str:
    """The name, at times in other case."""
    mixed = "".join(dice.choice((letter.upper(), letter.lower())) for letter in name)
    return dice.choice([name] * 7 + [name.upper(), name.lower(), mixed])


def spread(dice: random.Random) -> Range:
    """A range of integers."""
    low = dice.randint(-10, 10)
    ranges = [(0, 1)] * 3 + [(0, 2), (0, 5), (0, 100), (low, low), (low, low + dice.randint(0, 9)), (-2**31, 2**31 - 1)]
    return Range(*dice.choice(ranges))


def within(dice: random.Random, found: Range) -> int:
    return dice.choice((found.low, found.high, dice.randint(found.low, found.high)))


def fresh_names(dice: random.Random) -> Iterator[str]:
    """Names that all differ, a few of them of full length."""
    taken = set()
    while True:
        name = dice.choice(NAMES) + dice.choice(("", "", str(dice.randint(0, 9))))
        name = "N" + "".join(dice.choice("abcXYZ019") for _ in range(63)) if chance(dice, .03) else name
        if folded(name) not in taken:
            taken.add(folded(name))
            yield cased(dice, name)


class SectionDrawer:
    def __init__(self, seed: str, plain: bool = False, wide: bool = False) -> None:
        self.dice = random.Random(seed)
        self.plain, self.wide = plain, wide
        self.player = Player(b"", False, b"")
        self.lines: list[str] = []
        self.in_steps = False
        self.levels = [self.dice.randint(1, 40) for _ in range(self.dice.randint(1, 4))]
        self.free_lines = list(range(10))

    @property
    def host(self) -> Host:
        return self.player.host

    def number(self, value: int) -> str:
        if self.plain or chance(self.dice, .97):
            return str(value)
        return f"{value:0{self.dice.choice((2, 5, 18))}d}" if value else "-0"

    def joined(self, words: list[str]) -> str:
        """The words of a line, at times with more blanks."""
        if self.plain or chance(self.dice, .85):
            return " ".join(words)
        blanks = (" ", " ", "  ", "\t", " \t ")
        between = "".join(word + self.dice.choice(blanks) for word in words[:-1])
        return self.dice.choice(("", " ", "\t")) + between + words[-1] + self.dice.choice(("", " ", "\t"))

    def section(self, opening: str, lines: list[str]) -> None:
        self.lines += [opening] + lines
        self.in_steps = False
        self.player.section_alone(opening, lines)

    def level(self) -> int:
        return self.dice.choice(self.levels) if chance(self.dice, .8) else self.dice.randint(1, 40)

    def range_words(self, found: Range) -> list[str]:
        return [self.number(found.low), self.number(found.high)]

    def parameter_words(self, kind: str) -> list[str]:
        modes = ("in",) if kind == "function" else ("in", "out", "inout")
        words: list[str] = []
        for _ in range(self.dice.choice((0, 0, 0, 1, 1, 2, 4))):
            words += [self.dice.choice(modes)] + self.range_words(spread(self.dice))
        return words

    def operation_lines(self, ceiling: int, flags: list[int]) -> list[list[str]]:
        """Operations of an object whose scalars of those numbers are of range 0 .. 1."""
        dice, names = self.dice, fresh_names(self.dice)
        kinds = HANDLER_OPERATIONS if ceiling >= 31 else OPERATIONS
        found: list[list[str]] = []
        for kind in dice.choices(kinds, k=dice.randint(8, 16) if self.wide else dice.randint(0, 5)):
            if kind == "handler" and ceiling >= 31 and self.free_lines:
                line = self.free_lines.pop(dice.randrange(len(self.free_lines)))
                found.append([kind, next(names), self.number(line)])
                continue
            if kind == "handler" or kind == "entry" and any(words[0] == "entry" for words in found):
                kind = "procedure"
            barrier = dice.choice(("open", "closed"))
            if flags and chance(dice, .85):
                barrier = self.number(dice.choice(flags))
            more = {"function": self.range_words(spread(dice)), "entry": [barrier]}.get(kind, [])
            found.append([kind, next(names)] + more + self.parameter_words(kind))
        return found

    def object_lines(self, name: str) -> list[list[str]]:
        dice = self.dice
        ceiling = min(40, max(1, self.level() + dice.choice((0, 0, 0, 1, -1, 5, 10))))
        ceiling = dice.choice((31, 35, 39, 40, 40)) if chance(dice, .25) else ceiling
        count = dice.choice((28, 31, 32) if self.wide else (0, 1, 1, 2, 2, 3, 5))
        ranges = [Range(0, 1) if chance(dice, .5) else spread(dice) for _ in range(count)]
        scalars = [["scalar"] + self.range_words(found) + [self.number(within(dice, found))] for found in ranges]
        flags = [place for place, found in enumerate(ranges, 1) if found == (0, 1)]
        operations = self.operation_lines(ceiling, flags)
        members = scalars + operations if chance(dice, .5) else operations + scalars
        return [["protected", name, self.number(ceiling)]] + members

    def settings(self) -> None:
        """A capacity that lets the journal fill, most often, and a limit of queues."""
        dice = self.dice
        capacity = dice.choice((dice.randint(16, 64), dice.randint(16, 64), dice.randint(30, 200)))
        more = dice.choice(("", "", f"budget = {dice.randint(1, 1_000_000)}", "# settings", "device = []"))
        lines = [f"capacity = {capacity}"] * chance(dice, .97) + ([more] if more else [])
        lines += [f"queue_limit = {dice.randint(1, 8)}"] * chance(dice, .7)
        dice.shuffle(lines)
        self.section("@host.toml", lines)

    def shape(self, tasks: int) -> None:
        dice, names = self.dice, fresh_names(self.dice)
        free = [name for name in UNITS if folded(name) not in self.host.catalogue.units]
        unit = dice.choice(free) if free else f"N{len(self.host.catalogue.units)}"
        parts = [[["task", next(names), self.number(self.level())]] for _ in range(tasks)]
        parts += [self.object_lines(next(names)) for _ in range(dice.choice((0, 1, 1, 2, 2, 3, 4)))]
        parts += [[["suspension", next(names)]] for _ in range(dice.choice((0, 0, 1, 2)))]
        dice.shuffle(parts)
        self.section("@shape", [self.joined(words) for words in [["unit", cased(dice, unit)]] + sum(parts, [])])

    def window_words(self) -> list[str]:
        """The words of a window near the clock, most often."""
        dice, clock = self.dice, self.host.clock
        start = max(0, clock + dice.choice((0, 0, 1, -1, 2, 5, -5, 100)))
        end = start + dice.choice((1, 1, 2, 3, 10, 1000)) if self.plain or chance(dice, .95) else dice.choice((start, 10**15, 10**15 + 1, 0))
        zeros = "0" * dice.choice((0, 0, 0, 1, 2))
        return [cased(dice, "from"), zeros + str(start), cased(dice, "until"), str(end)]

    def list_words(self, words: tuple[str, ...] = ("allow", "allow", "deny")) -> list[str]:
        found = self.line_words(words)
        return found + self.window_words() if chance(self.dice, .25) else found

    def line_words(self, words: tuple[str, ...]) -> list[str]:
        dice, catalogue = self.dice, self.host.catalogue
        units = [unit.name for unit in catalogue.units.values()] + ["Interrupts", "Nowhere"]
        found = [dice.choice(words), "*" if chance(dice, .5) else cased(dice, dice.choice(units))]
        if chance(dice, .45) or not catalogue.objects:
            return found + ["*", "*" if chance(dice, .6) else cased(dice, dice.choice(NAMES))]
        target = dice.choice(list(catalogue.objects.values()))
        names = ["*"] + [operation.name for operation in target.operations]
        return found + [cased(dice, target.full_name()), "*" if chance(dice, .5) else cased(dice, dice.choice(names))]

    def list_section(self) -> None:
        dice = self.dice
        lines = ["allow * * *"] if chance(dice, .85) else []
        for _ in range(dice.choice((0, 1, 1, 2, 3, 4, 6))):
            if not self.plain and chance(dice, .08):
                lines.append(dice.choice(("", "  ", "\t", "# comment", "#", "#x y z w", "# déjà")))
            lines.append(self.joined(self.list_words()))
        self.section("@list", lines)
