"""Draws texts of TOML, right ones and damaged ones, as settings."""
import random

from drawing import chance

KEYS = ["capacity"] * 3 + ["budget"] * 2 + ["x", "y", "a-b", "1", '"q r"', "'s'", '""', "a.b", "a . c", 'd."e f".g', "-"]
# each with what is right, and what is wrong at its place or in most texts
HEADERS = (["[t]", "[t.u]", "[[v]]", "[[v.w]]", "[ t . z ]", '["q"]', "[[ v ]] # c", "[a.n]"],
           ["[[device]]", "[device]", "[v]", "[[t]]", "[a]", "[x]", "[]", "[[]]", "[t", "[t]]", "[t] x = 1", "[ [v] ]"])
INTEGERS = (["0", "-0", "+7", "16", "40", "1_000", "0xdead_BEEF", "0o17", "0b101"],
            ["01", "1__0", "_1", "1_", "0x", "0xg", "-0x1", "0b2", "0o8", "+ 1", "--1", "1 000"])
FLOATS = (["1.5", "-0.0", "1e5", "1E+5", "6.02e-23", "1_0.0_1", "inf", "-inf", "+nan"],
          ["1.", ".5", "1e", "1.e5", "01.5", "1_.5", "1._5", "Inf", "1e5.5", "nan_"])
TIMES = (["1979-05-27", "1979-05-27T07:32:00Z", "1979-05-27t07:32:00.999999-07:00", "1979-05-27 07:32:00", "07:32:00", "00:32:00.5",
          "2000-02-29", "1979-05-27T07:32:00z"],
         ["1979-5-27", "1979-13-01", "1979-02-29", "24:00:00", "07:60:00", "1979-05-27T", "1979-05-27T07:32:00+25:00",
          "1979-05-27  07:32:00"])
TRUTHS = (["true", "false"], ["True", "tru", "yes"])
PIECES = (["a", "B", " ", "é", "\\n", "\\t", '\\"', "\\\\", "\\u00e9", "\\U0001F600", "#", "=", "\t", "\\b", "\\f", "\\r"],
          ["'", "\\/", "\\x41", "\\e", "\\u12", "\\ud800", "\\U00110000", "\\", "\x00", "\x7f", "\x1f", '""', "''", "\\ "])
CHARACTERS = "\"'=[]{}.,#\\_ +-019xeE:TZ\t\n\x00\x7fé"


def either(dice: random.Random, choices: tuple[list[str], list[str]]) -> str:
    """A right one, at times a wrong one."""
    return dice.choice(choices[chance(dice, .04)])


def basic_text(dice: random.Random) -> str:
    return "".join(either(dice, PIECES) for _ in range(dice.randint(0, 4)))


def string(dice: random.Random) -> str:
    text = basic_text(dice)
    several = dice.choice(("", "\n", " \n ", "\\\n  ", "\\  \n\n ", '"', "'"))
    return dice.choice((f'"{text}"', f'"{text}"', f"'{text}'", f'"""{several}{text}{several}"""', f"'''{several}{text}'''"))


def value(dice: random.Random, depth: int = 0) -> str:
    weights = (30, 10, 10, 5, 25, 10, 10) if depth < 3 else (30, 10, 10, 5, 25, 0, 0)
    kind = dice.choices(("integer", "float", "time", "truth", "string", "array", "table"), weights)[0]
    if kind == "array":
        gap = dice.choice(("", " ", "\n", " # c ]\n", "\n\n  "))
        items = [gap + value(dice, depth + 1) + dice.choice(("", gap)) for _ in range(dice.randint(0, 3))]
        return "[" + ",".join(items) + dice.choice(("", "", gap, "," if items else "", "," if chance(dice, .1) else "")) + "]"
    if kind == "table":
        items = [f" {dice.choice(KEYS)} = {value(dice, depth + 1)} " for _ in range(dice.randint(0, 2))]
        return "{" + ",".join(items) + dice.choices(("", ",", "\n"), (96, 2, 2))[0] + "}"
    plain = {"integer": INTEGERS, "float": FLOATS, "time": TIMES, "truth": TRUTHS}
    return string(dice) if kind == "string" else either(dice, plain[kind])


def toml_line(dice: random.Random) -> str:
    if chance(dice, .12):
        return either(dice, (["", "# comment", "  ", "#", "\t# é \t"], ["# \x01", "#\x7f"]))
    if chance(dice, .12):
        return either(dice, HEADERS)
    between = dice.choice((" = ", "=", "\t=\t", " ="))
    behind = dice.choices(("", "  ", " # c", "#", " x"), (70, 10, 10, 8, 2))[0]
    return dice.choice(("", "", "", " ", "\t")) + dice.choice(KEYS) + between + value(dice) + behind


def damaged(dice: random.Random, text: str) -> str:
    at = dice.randint(0, len(text))
    return text[:at] + dice.choice(("", dice.choice(CHARACTERS))) + text[at + dice.randint(0, 1):]


def draw_toml(seed: int) -> bytes:
    """Settings of a few lines, with values of all kinds under known and unknown keys, some of them damaged at a character."""
    dice = random.Random(f"toml {seed}")
    text = "\n".join(toml_line(dice) for _ in range(dice.choice((1, 1, 2, 2, 3, 5))))
    for _ in range(dice.choice((0, 0, 0, 1))):
        text = damaged(dice, text)
    ended = dice.choice(("\n", "\n", "\n", "\r\n"))
    return ("@host.toml\n" + text + "\n@list\n").replace("\n", ended).encode()
