"""Draws settings, and steps that show which capacity they set."""
import random

import edges
from drawing import chance

STRANGE_LINES = edges.parts(r"""a = 1 | zeta = 1 | Capacity = 64 | capacity.x = 1 | [capacity] | [device] | [other] | [[other]] | capacity = 64
| budget = 5 | "capacity" = 64 | 'budget' = 64 | "cap\u0061city" = 30 | "" = 1 | é = 1 | "é" = 1 | = 1 | capacity | capacity = | x = [1, 2
| [[device]] | device = [] | device = [{}] | device = [1] | device = {} | device = "x" | [device.x] | [[device.x]] | # comment | [
| a = {b = 1} | capacity 64 | capacity = 64 budget = 5 | capacity = 64 # comment | "a\tb" = 1 | [ other ] | [[ device ]] | ]]""") \
    + ["", " ", "\t", "#\u00e9 ", "#\x00", "\x0c", "capacity = 64\r", "#\r", " # @", 'x = """', "x = '''"]
NUMBERS = edges.parts("""16 | 17 | 15 | 0 | -1 | 64 | 40 | +40 | 4_0 | 0x20 | 0o40 | 0b100000 | 040 | 1_048_576 | 1048577 | 1048575 | 4__0 | _40 | 40_
| 40.0 | 4e1 | true | "40" | '40' | [40] | {} | 1_000_000 | 1000001 | 1 | 41 | inf | nan | 1979-05-27 | 07:32:00 | -0 | +0 | 0X20
| 9223372036854775807 | -9223372036854775808 | 40,""")
NAMES = edges.parts("""Plant | valve | N_1 | Plant.Valve | a.b | a.b.c | _x | x_ | a__b | 1x | |
begin | Int_5 | operator | é | Plant Valve | * | .""") \
    + [edges.LONG, edges.TOO_LONG, f"{edges.LONG}.{edges.LONG}", f"x.{edges.TOO_LONG}"]
DEVICE = {"unit": "Plant", "task": "Probe", "object": "Plant.Valve", "operation": "Set", "priority": "12", "calls": "50"}
MORE_KEYS = ("extra = 1", "zone = 'x'", "Unit = 'P'", "alpha = 1", "unit = 'Q'", "unit.x = 1", "'unit ' = 'x'")
QUOTES = ('"{}"', "'{}'", '"""{}"""', "'''{}'''", '"\\u0041{}"', '"{}\\n"', "{}")


def quoted(dice: random.Random, text: str) -> str:
    return dice.choices(QUOTES, (60, 20, 5, 5, 4, 3, 3))[0].format(text)


def value_text(dice: random.Random, key: str) -> str:
    """A value of a device's key, most often a good one."""
    if key in ("priority", "calls"):
        return dice.choice(NUMBERS) if chance(dice, .06) else DEVICE[key]
    if chance(dice, .7):
        return f'"{DEVICE[key]}"'
    return quoted(dice, dice.choice(NAMES) if chance(dice, .2) else DEVICE[key])


def device_pairs(dice: random.Random) -> list[str]:
    """The keys of a device with their values; at times one too few, or a strange one."""
    pairs = [f"{key} = {value_text(dice, key)}" for key in DEVICE]
    dice.shuffle(pairs)
    if chance(dice, .1):
        pairs.pop()
    return pairs + ([dice.choice(MORE_KEYS)] if chance(dice, .08) else [])


def settings_lines(dice: random.Random) -> list[str]:
    lines = []
    if chance(dice, .85):
        lines.append(f"capacity = {dice.randint(16, 64) if chance(dice, .7) else dice.choice(NUMBERS)}")
    if chance(dice, .4):
        lines.append(f"budget = {dice.randint(1, 1000) if chance(dice, .7) else dice.choice(NUMBERS)}")
    if chance(dice, .4):
        lines.append(f"queue_limit = {dice.randint(1, 8) if chance(dice, .7) else dice.choice(NUMBERS + ['8', '9'])}")
    if chance(dice, .1):
        inline = [f"{{{', '.join(device_pairs(dice))}}}" for _ in range(dice.randint(1, 2))]
        lines.append(f"device = [{', '.join(inline + ['1'] * chance(dice, .1))}]")
    dice.shuffle(lines)
    for _ in range(dice.choice((0, 0, 0, 1, 1, 2, 3))):
        lines += ["[[device]]"] + device_pairs(dice)
    for _ in range(dice.choice((0, 0, 0, 1, 1, 2))):
        lines.insert(dice.randint(0, len(lines)), dice.choice(STRANGE_LINES))
    return lines


def draw_settings(seed: int) -> bytes:
    """Settings, in some scripts in another place or twice, and ticks until the journal of a small capacity is full."""
    dice = random.Random(f"settings {seed}")
    section = ["@host.toml"] + settings_lines(dice)
    before = dice.choices(([], [""], ["", " \t"], ["#"], ["@list"], ["@steps"]), (90, 3, 2, 1, 2, 2))[0]
    again = ["@host.toml"] if chance(dice, .03) else []
    steps = ["@shape", "unit U", "task T 1", "@steps"] + ["operator tick 1"] * dice.choice((70, 70, 5)) + ["operator halt"]
    ended = dice.choice(("\n", "\n", "\n", "\r\n"))
    return ended.join(before + section + again + steps).encode() + (b"" if chance(dice, .1) else b"\n")
