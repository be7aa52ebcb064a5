"""Draws unit texts, right ones and damaged ones, for `check`."""
import random
import re

import static_rules
from drawing import chance
from grammar_words import RESERVED

WORDS = sorted(RESERVED) + list("(),;:.'+-*/=<>|") + [
    ":=", "=>", "..", "/=", "<=", ">=", "X", "Valve", "1", "16#FF#", "others", "**", "_x", "x_", "a__b", "1_0", "1__0", "1_", "2147483647",
    "2147483648", "2#101#", "17#0#", "1#0#", "16#G#", "16#F", "16#F#a", "1.5", "1..2", "1e5", "1E", "2#12#", "8#8#", "10#A#", "0x1", "é",
    "xé", "1é", '"a"', "&", "@x", "N" * 64,
    "N" * 65, "16#7FFF_FFFF#", "16#8000_0000#", "16#F_#", "1_6#F#", "01",
    "-- c", "--", "...", "<>", "<<", ":", "= =", "- 1", "end", "begin", "body", "000000000000001"]
CHARACTERS = " \t\n_#.'\"();:=<>-*/|@é\x00\x7f0aZ1&"


def damaged(dice: random.Random, text: str) -> str:
    """The text with a word left out, doubled, put in or replaced, or cut off, or with a character more or less."""
    words = [found.span() for found in re.finditer(r"[\w#]+|:=|=>|\.\.|[^\s\w]", text)]
    start, end = dice.choice(words)
    kind = dice.choices(("word", "out", "in", "double", "cut", "character"), (35, 15, 20, 10, 10, 10))[0]
    if kind == "cut":
        return text[:dice.choice((start, end))]
    if kind == "character":
        at = dice.randint(0, len(text))
        return text[:at] + dice.choice(("", dice.choice(CHARACTERS))) + text[at + dice.randint(0, 1):]
    old, new = text[start:end], dice.choice(WORDS)
    other = {"word": new, "out": "", "in": f"{old} {new}", "double": f"{old} {old}"}[kind]
    return text[:start] + other + text[end:]


def literal(dice: random.Random) -> str:
    """A literal or nearly one, also near the largest value and with digits about as large as the base."""
    base = dice.choice((2, 3, 8, 10, 16, 1, 17, 0))
    digits = "".join(dice.choice("0123456789ABCDEFabcdefG"[:dice.choice((base, base, base, base + 1))] or "0") for _ in range(dice.randint(1, 5)))
    largest = dice.choice((2**31 - 1, 2**31, 2**31 - 2))
    based = dice.choice((digits, digits, f"{largest:x}" if base == 16 else f"{largest:o}" if base == 8 else digits))
    text = dice.choice((f"{base}#{based}#", f"{base}#{based}#", str(largest), f"{largest:_}", f"0{largest}", digits))
    at = dice.randint(0, len(text))
    within = dice.choices(("", "_", "#", ".", "E", "1", "."), (80, 5, 2, 2, 2, 2, 2))[0]
    return text[:at] + within + text[at:] + dice.choices(("", ".5", "..", "a", "_"), (80, 5, 5, 5, 5))[0]


OPERANDS = ("A", "A", "A", "1", "A.B", "A'First", "F (1)", "F (A, 2)", "(A)", "(A and B)", "not A", "abs 1", "- A", "+ 1", "not not A",
            "- - 1", "(", "F ()", "A (1) (2)")
OPERATORS = ("and", "and", "and then", "and then", "or", "or else", "xor", "=", "<", "/=", "+", "-", "*", "/", "mod", "rem", "..", "range",
             "then", "else", ",")


def expression(dice: random.Random) -> str:
    """Operands with operators between them, mostly one that was there already."""
    words, operator = [dice.choice(OPERANDS)], dice.choice(OPERATORS)
    for _ in range(dice.choice((0, 1, 2, 3, 4))):
        operator = operator if chance(dice, .6) else dice.choice(OPERATORS)
        words += [operator, dice.choice(OPERANDS)]
    return " ".join(words)


def small(dice: random.Random) -> str:
    """A text of a few words: a literal, or an expression in one of its places."""
    if chance(dice, .5):
        frames = ("if {} then null; end if;", "for I in {} loop null; end loop;", "A := {};", "case A is when {} => null; end case;",
                  "P ({});", "{};", "return {};", "delay {};", "requeue {};", "select when {} => terminate; end select;", "pragma {};", "accept {};")
        statement = dice.choice(frames).format(expression(dice))
        return f"package P is end P; package body P is task body T is begin {statement} end T; end P;"
    words = [literal(dice)] + ([dice.choice(WORDS)] if chance(dice, .2) else [])
    gap = dice.choice(CHARACTERS) if chance(dice, .2) else " "
    return f"package P is{gap}X : constant := {' '.join(words)}; end P; package body P is end P;"


def nested(dice: random.Random) -> str:
    """Statements or parentheses about as deep as is allowed."""
    depth = dice.choice((20, 62, 63, 64, 65, 66))
    opening, closing = dice.choice((("if B then ", " end if; "), ("loop ", " end loop; "), ("case A is when 1 => ", " end case; "),
                                    ("select A; or ", " end select; ")))
    statements = opening * depth + dice.choice(("null;", "exit;", "end", "A := (1);")) + closing * depth
    parentheses = "A := " + dice.choice(("(", "F (", "- (", "1 + (")) * depth + dice.choice(("1", "(1)", ")", "F (1)")) + ")" * depth + ";"
    return f"package P is end P; package body P is task body T is begin {dice.choice((statements, parentheses))} end T; end P;"


def draw_units(seed: int) -> bytes:
    """One or two unit texts, most of them damaged once."""
    dice = random.Random(f"units {seed}")
    case = static_rules.draw(seed * 2 + dice.randint(0, 1))
    text, damages = case.text, dice.choices((0, 1, 2), (15, 70, 15))[0]
    if chance(dice, .4):
        text, damages = dice.choice((nested, small, small))(dice), dice.choice((0, 0, 0, 1))
    for _ in range(damages):
        text = damaged(dice, text) or "x"
    before = f"@unit\n{case.before}" if case.before and chance(dice, .3) else ""
    script = f"{before}@unit\n{text}{dice.choice(('', chr(10), chr(10) * 2))}"
    return script.replace("\n", dice.choice(("\n", "\n", "\n", "\n", "\r\n"))).encode()
