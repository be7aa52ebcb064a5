"""The kinds of scripts that are drawn: each makes a script of a number, always the same one."""
import random
from collections.abc import Callable

import edges
from drawing import chance
from drawing_settings import draw_settings
from drawing_steps import Drawer
from drawing_toml import draw_toml
from drawing_units import draw_units
from edges import parts
from host import Host
from play import Player
from words import words_of

VOCABULARY = """unit task protected suspension scalar function procedure entry handler in out inout open closed allow deny
* ** ALLOW Deny call Call end END resume Resume : return raise overrun stopped Return Constraint_Error constraint_error
Program_Error Host.Access_Denied Access_Denied host.access_denied Overrun operator OPERATOR Int_0 int_9 Int_10 Int_05 Int_
Int_A Int_5.T append remove replace Append tick halt fire finish clock delay go load list 0 1 -1 2 3 5 9 10 15 20 30 31 40
41 100 101 -0 00 01 +1 1.0 999999999999999999 -999999999999999999 1000000000000000000 0000000000000000001
000000000000000001 9223372036854775808 2147483647 2147483648 -2147483648 -2147483649 1_0 0x1 - --1 1- # a.b a.b.c a. .b .
.. _a a_ a__b 1a a-b Ada system Standard HOST Interrupts begin é @ @steps Set_True set_false Current_State x; [ ] ->
""".split() + ["", edges.LONG, edges.TOO_LONG, edges.LONG + ".M", edges.TOO_LONG + ".M", "N." + edges.TOO_LONG]
LINES = ["", " ", "\r", "\x0c", "@steps", "@list", "@shape", "@host.toml", "# x", "allow * * *", "unit Q", "task T 1", "\ufeff@steps"]
CHARACTERS = " \t._:-*#@09aZ\x00\x0b\x0c\r\u00a0\u2028\x85é\ufeff\n\x7f"
BYTES = (b"\xff", b"\xc0\x80", b"\xed\xa0\x80", b"\x80", b"\xe2\x82", b"\xf4\x90\x80\x80", b"\x00", b"\xc3")
LAST_BYTES = (b"\r", b"\n\n", b"\n@steps", b"\n@list", b"\n@shape", b"\n@steps\r", b"\n@list\r", b"\n@", b"\n ")


QUEUING_UNIT = parts("""unit Full | task One 1 | task Two 1 | task Three 1 | suspension Flag | protected Valve 40
| scalar 0 1 0 | procedure Set | entry Wait 1 | handler Hit 9""")


def encoded(lines: list[str]) -> bytes:
    return ("\n".join(lines) + "\n").encode()


def draw_random(seed: int) -> bytes:
    """Some units, lists and steps, most of which fit the state."""
    drawer = Drawer(f"random {seed}")
    return drawer.draw(drawer.dice.choice((5, 15, 30, 60, 60, 120))).text().encode()


def draw_long(seed: int) -> bytes:
    return Drawer(f"long {seed}").draw(600).text().encode()


def draw_wide(seed: int) -> bytes:
    """Objects of about 32 scalars and 16 operations, and up to 64 tasks."""
    return Drawer(f"wide {seed}", wide=True).draw(60).text().encode()


def draw_full(seed: int) -> bytes:
    """Steps or changes of the list until the journal has hardly any room left, and more steps behind that."""
    drawer = Drawer(f"full {seed}", plain=True)
    dice, is_stepped = drawer.dice, seed % 4 > 0
    if seed % 10:
        drawer.section("@host.toml", [f"capacity = {dice.randint(24, 120)}", f"queue_limit = {dice.randint(1, 8)}"])
    drawer.section("@shape", QUEUING_UNIT)
    drawer.free_lines.remove(9)
    drawer.draw(15 if seed % 10 else 150, has_settings=False)
    host, room = drawer.host, dice.randint(0, 9)
    while host.room() > room and not host.is_halted:
        if host.room() > 40 and len(host.list) > 9:
            drawer.list_section()
        change = dice.choice(("append allow * * *", f"remove {len(host.list)}"))
        drawer.step() if is_stepped else drawer.put_step(f"operator {change}")
    for _ in range(80):
        dice.choices((drawer.step, drawer.list_section, lambda: drawer.shape(dice.randint(0, 2))), (30, 1, 1))[0]()
    return encoded(drawer.lines)


def places_in(lines: list[str], section: str) -> list[int]:
    """The places of the lines of such sections."""
    found, current = [], ""
    for place, line in enumerate(lines):
        if line.startswith("@"):
            current = line
        elif current == section:
            found.append(place)
    return found


def damage_words(dice: random.Random, lines: list[str]) -> None:
    """Puts in, leaves out, doubles or swaps a word, most often of a step."""
    steps = places_in(lines, "@steps")
    place = dice.choice(steps) if steps and chance(dice, .5) else dice.randrange(len(lines))
    words = words_of(lines[place]) or [""]
    one, other = dice.randrange(len(words)), dice.randrange(len(words))
    words[one:one + 1] = dice.choice(([dice.choice(VOCABULARY)],) * 3 + ([], [words[one]] * 2, [words[other]]))
    lines[place] = " ".join(words)


def damage_character(dice: random.Random, lines: list[str]) -> None:
    place = dice.randrange(len(lines))
    at = dice.randint(0, len(lines[place]))
    other = dice.choice(("", dice.choice(CHARACTERS)))
    lines[place] = lines[place][:at] + other + lines[place][at + dice.randint(0, 1):]


def damage_lines(dice: random.Random, lines: list[str]) -> None:
    """Leaves out, doubles, swaps or puts in a line."""
    one, other = dice.randrange(len(lines)), dice.randrange(len(lines))
    lines[one:one + 1] = dice.choice(([], [lines[one]] * 2, [lines[other]], [lines[one], dice.choice(LINES)]))


def damage_opening(dice: random.Random, lines: list[str]) -> None:
    openings = [place for place, line in enumerate(lines) if line.startswith("@")]
    lines[dice.choice(openings or [0])] = dice.choice(edges.OPENINGS)


def put_line(section: str, candidates: list[str]) -> Callable[[random.Random, list[str]], None]:
    """A damage that puts one of the candidates into such a section, behind a line or in its place."""
    def damage(dice: random.Random, lines: list[str]) -> None:
        found = places_in(lines, section)
        if found:
            place = dice.choice(found)
            lines[place:place + 1] = lines[place:place + dice.randint(0, 1)] + [dice.choice(candidates)]
    return damage


DAMAGES = {damage_words: 4, damage_character: 2, damage_lines: 2, damage_opening: 1,
           put_line("@shape", edges.SHAPE_LINES): 2, put_line("@list", edges.LIST_LINES): 1,
           put_line("@steps", edges.STEP_LINES): 3}


def damage_bytes(dice: random.Random, script: bytes) -> bytes:
    at = dice.randint(0, len(script))
    put = script[:at] + dice.choice(BYTES) + script[at + dice.randint(0, 1):]
    ended = script.rstrip(b"\r\n") + dice.choice(LAST_BYTES)
    return dice.choice((put, ended, script[:at], script.replace(b"\n", b"\r\r\n", 1)))


def draw_damaged(seed: int) -> bytes:
    """A script of the kind `random` with one to three damages."""
    dice = random.Random(f"damaged {seed}")
    drawer = Drawer(f"damaged {seed}", plain=chance(dice, .3)).draw(dice.choice((0, 3, 8, 15, 25)))
    for damage in dice.choices(list(DAMAGES), list(DAMAGES.values()), k=dice.choice((1, 1, 1, 2, 3))):
        damage(dice, drawer.lines)
        drawer.lines = drawer.lines or [""]
    catalogue = drawer.host.catalogue
    names = {"$N": dice.choice(edges.NAMES), "$T": dice.choice([task.full_name() for task in catalogue.tasks.values()] or ["a.b"]),
             "$O": dice.choice([target.full_name() for target in catalogue.objects.values()] or ["a.b"])}
    script = drawer.text()
    for placeholder, name in names.items():
        script = script.replace(placeholder, name)
    return damage_bytes(dice, script.encode()) if chance(dice, .1) else script.encode()


def draw_lists(seed: int) -> bytes:
    """A list of a few lines or of about 512, with bad lines in some, and changes of it."""
    dice = random.Random(f"lists {seed}")
    length = dice.randint(508, 522) if chance(dice, .2) else dice.randint(0, 8)
    odd = dice.choice((0, 0, .002, .05, .3))
    pool = ["allow * * *", "deny Nav * *", "allow * * c", "deny\t*  a.B   *"] * 40 + ["", "#\x00\x0b é"]
    drawn = [dice.choice(edges.LIST_LINES if chance(dice, odd) else pool) for _ in range(length + 4)]
    lines = ["@list"] + drawn[4:] + ["@steps"]
    for line in drawn[:dice.randint(0, 4)]:
        place = dice.choice((0, 1, 2, length, length + 1, 512, 513, -1))
        lines.append("operator " + dice.choice((f"append {line}", f"remove {place}", f"replace {place} {line}")))
    return encoded(lines)


def draw_shapes(seed: int) -> bytes:
    """Shapes, the last with up to three edits, most of which are faults, or grown to about the limits."""
    dice = random.Random(f"shapes {seed}")
    edited = dice.sample(list(edges.SHAPES_EDITS), dice.randint(0, 3))
    replaced = {line: dice.choice(edges.SHAPES_EDITS[line].split("|")) for line in edited}
    for line, text, times in dice.sample(edges.SHAPES_REPEATS, dice.choice((0, 0, 1, 1, 2))):
        replaced[line] = edges.repeated(replaced.get(line, line), text, dice.choice(times))
    return edges.edited_shapes(replaced)


def draw_deep(seed: int) -> bytes:
    """Up to 20 objects, held one inside another."""
    dice = random.Random(f"deep {seed}")
    depth = dice.randint(14, 20)
    lines = ["@shape", "unit D", "task T 1", "task S 1", "suspension Q"]
    for place in range(depth):
        lines += [f"protected O{place} {1 + place}", "scalar 0 1 0", "procedure P", "function F 0 1", "entry E 1"]
    denied = dice.choice(("# none", "# none", f"deny D D.O{dice.randrange(depth)} F"))
    lines += ["@list", "allow * * *", denied, "@steps"]
    held: list[str] = []
    for _ in range(dice.randint(depth, 60)):
        other = f"D.{dice.choice('TS')} call D.O{dice.randrange(depth)} {dice.choice('FPE')}"
        late = dice.choice(("D.T delay 5", "D.T clock", f"D.T call D.Q {dice.choice(edges.SUSPENSION_CALLS)}"))
        others = (other, late, "D.S end 1 : return", "D.S end : return 1", "D.S resume")
        drawn = dice.choices(("call", "end", *others), (70, 10, 12, 10, 3, 3, 2))[0]
        if drawn == "call" and len(held) < depth:
            held.append(dice.choice("FP"))
            lines.append(f"D.T call D.O{len(held) - 1} {held[-1]}")
        elif drawn == "end" and held:
            lines.append("D.T end : return 1" if held.pop() == "F" else f"D.T end {dice.randint(0, 1)} : return")
        elif drawn not in ("call", "end"):
            lines.append(drawn)
    return encoded(lines)


CROSSED_LISTS = ("allow * * *", "allow T * *|deny P * *", "allow T * *|allow P * F", "allow * * *|deny T P.O0 E")
CROSSED_CHANGES = parts("""append deny T P.O0 E | append allow * * * | remove 2 | remove 9 | replace 1 deny * * *
| replace 1 allow * * * | append deny P * * | append allow P * * | append deny * * E""")
CROSSED_ENDS = [": return 0", ": return 1"] + ["0 : return", "1 : return"] * 2 \
    + ["1 : raise Program_Error", "1 : overrun", ": overrun", "1 : stopped"]


def draw_crossed(seed: int) -> bytes:
    """Steps of several tasks on a few objects, whatever the state."""
    dice = random.Random(f"crossed {seed}")
    tasks, objects = dice.randint(2, 5), dice.randint(1, 3)
    lines = ["@host.toml", f"queue_limit = {dice.randint(1, 8)}"] if chance(dice, .5) else []
    lines += ["@shape", "unit P"]
    for place in range(objects):
        barrier = dice.choice(("1", "1", "1", "open", "closed"))
        lines += [f"protected O{place} {dice.choice((5, 10, 20))}", f"scalar 0 1 {dice.randint(0, 1)}"]
        lines += ["function F 0 1", "procedure P", f"entry E {barrier}"]
    lines += ["@shape", "unit T"] + [f"task T{place} {dice.choice((1, 5, 10, 15))}" for place in range(tasks)]
    lines += ["@list"] + dice.choice(CROSSED_LISTS).split("|") + ["@steps"]
    for _ in range(dice.choice((10, 30, 60))):
        task = f"T.T{dice.randrange(tasks)}"
        call, end = f"call P.O{dice.randrange(objects)} {dice.choice('FPPEE')}", f"end {dice.choice(CROSSED_ENDS)}"
        drawn = (f"{task} {call}", f"{task} {end}", f"{task} resume", f"operator {dice.choice(CROSSED_CHANGES)}")
        lines.append(dice.choices(drawn, (50, 35, 10, 5))[0])
    return encoded(lines)


WAITING_UNITS = parts("""unit P | suspension S0 | suspension S1 | protected O0 40 | scalar 0 1 0 | function F 0 1 | procedure P
| entry E 1 | handler H 3 | handler J 9 | protected O1 35 | handler G 4 | handler K 7 | procedure R | function F 0 1""")
WAITING_LISTS = ("allow * * *", "allow * * *", "allow T * *|allow Interrupts * *", "allow * * *|deny P * *", "allow * * *|deny Interrupts P.O0 *",
                 "allow * * *|deny * P.S0 Suspend_Until_True", "allow * * *|deny T P.S1 set_true")
WAITING_CALLS = parts("O0 E | O0 E | O0 E | O0 E | O0 P | O0 P | O0 F | O0 H | O1 R | O1 F | O1 G")
WAITING_CHANGES = parts("""append deny T P.O0 E | append allow * * * | append deny Interrupts * H | append deny * P.S0 *
| append deny P * * | remove 2 | remove 9 | replace 1 allow * * *""")


def draw_waits(seed: int) -> bytes:
    """Steps of tasks and lines that wait on suspension objects, for times and in a queue; most that don't fit are left out."""
    dice, player = random.Random(f"waits {seed}"), Player(b"", True, b"")
    tasks = dice.randint(2, 4)
    capacity = dice.choice((4096, dice.randint(20, 64)))
    levels = [dice.choice((1, 10, 35, 36, 40)) for _ in range(tasks)]
    settings = [f"capacity = {capacity}"] + [f"queue_limit = {dice.randint(1, 8)}"] * chance(dice, .5)
    sections = {"@host.toml": settings, "@shape": WAITING_UNITS, "@list": dice.choice(WAITING_LISTS).split("|")}
    tasks_unit = ["unit T"] + [f"task T{place} {level}" for place, level in enumerate(levels)]
    lines = []
    for opening, section in [*sections.items(), ("@shape", tasks_unit)]:
        lines += [opening] + section
        player.section_alone(opening, section)
    lines.append("@steps")
    clock, halts, finishes = 0, chance(dice, .4), dice.choice((1, 8))
    for _ in range(dice.choice((30, 100, 200, 300))):
        task, ticks = f"T.T{dice.randrange(tasks)}", dice.randint(1, 3)
        line = f"Int_{dice.choice((3, 4, 7, 9, dice.randrange(10)))}"
        actor = dice.choice((task, task, line))
        drawn = {f"{actor} call P.S{dice.randrange(2)} {dice.choice(edges.SUSPENSION_CALLS)}": 30, f"{task} resume": 30,
                 f"{task} delay {clock + dice.randint(-1, 4)}": 10, f"operator tick {ticks}": 10, f"{actor} clock": 2,
                 f"{line} fire": 20, f"{actor} call P.{dice.choice(WAITING_CALLS)}": 25,
                 f"{actor} end {dice.choice(CROSSED_ENDS)}": 60, f"{line} end {dice.choice((': return', '1 : return', ': return 1'))}": 40,
                 f"{task} finish": finishes, f"operator {dice.choice(WAITING_CHANGES)}": 4, "operator halt": int(halts)}
        step = dice.choices(list(drawn), list(drawn.values()))[0]
        player.step(step, 0)
        if player.host.is_halted and chance(dice, .03):
            break
        if not player.output[-1].endswith("-> misuse\n") or chance(dice, .1):
            lines.append(step)
            clock += ticks if "tick" in step else 0
    return encoded(lines)


QUEUES_UNIT = parts("unit P | protected O 35 | scalar 0 1 0 | procedure R | function F 0 1 | entry E 1 | handler H 4 | protected Q 40 | procedure W")
# Changes of the list, with a unit, two times and the number of the last line.
SHUT = ("append deny {0} P.O E", "append deny {0} * *", "append deny {0} P.O E from {1} until {2}", "append deny * * E from {1} until {2}")
OPENED = ("append allow * * *", "append allow * * *", "append allow {0} P.O E", "remove {3}")


def queue_steps(dice: random.Random, host: Host) -> dict[str, float]:
    """Steps with their weights: whoever is idle queues up, an end serves the queue, and before that the list denies some who wait."""
    tasks, target = list(host.catalogue.tasks.values()), host.catalogue.objects["p.o"]
    waiting, free = len(target.waiting), not target.holders and not target.is_unsettled
    shut = host.list[-1][0] == "deny" if host.list else False
    anyone = dice.choice(tasks).full_name()
    unit = target.waiting[0][0].unit if waiting and chance(dice, .7) else f"T{dice.randrange(3)}"
    words = (unit, host.clock, host.clock + dice.randint(1, 3), len(host.list))
    found = {f"{anyone} call P.O E": 2, f"{anyone} resume": 2, f"{anyone} settle": 1, f"{anyone} finish": .2, f"operator tick {dice.randint(1, 2)}": 2,
             "Int_4 fire": 5 if waiting and free else .5, f"operator {dice.choice(SHUT).format(*words)}": 25 if waiting > 1 and not shut else 1,
             f"operator {dice.choice(OPENED).format(*words)}": 4 if waiting else 12 * (len(host.list) > 1)}
    served = ": return 1" if chance(dice, .05) else f"{int(waiting > 0 and chance(dice, .8))} : {dice.choice(('return', 'return', 'overrun'))}"
    acts = {"idle": {"call P.O E": 40 if free and waiting < host.queue_limit else 4, "call P.O R": 12 if waiting and free else 2, "call P.O F": 1,
                     "call P.Q W": 1},
            "in body": {f"end {served}": 22}, "settling": {"settle": 20, "go": 4, "call P.O E": 2, "call P.Q W": 1},
            "dropped": {"resume": 12}, "handed": {"resume": 14}}
    for mode, steps in acts.items():
        actors = [actor.full_name() for actor in tasks + host.interrupts if actor.mode == mode and (mode != "idle" or actor.kind == "task")]
        found |= {f"{dice.choice(actors)} {step}": weight for step, weight in steps.items()} if actors else {}
    return found


def draw_queues(seed: int) -> bytes:
    """Tasks of three units that wait in one queue of 1 to 8 callers, ends that serve it, and lists that deny some of them meanwhile."""
    dice, player = random.Random(f"queues {seed}"), Player(b"", True, b"")
    settings = [f"capacity = {dice.choice((4096, 4096, dice.randint(60, 150)))}", f"queue_limit = {seed % 8 + 1}"]
    units = [[f"unit T{unit}"] + [f"task A{place} {dice.choice((1, 9, 30))}" for place in range(dice.randint(2, 5))] for unit in range(3)]
    lines = []
    for opening, section in [("@host.toml", settings), ("@shape", QUEUES_UNIT), *(("@shape", unit) for unit in units), ("@list", ["allow * * *"])]:
        lines += [opening] + section
        player.section_alone(opening, section)
    lines.append("@steps")
    halt_from = dice.randint(40, 200) if chance(dice, .4) else 300
    for place in range(dice.choice((100, 200, 300))):
        drawn = queue_steps(dice, player.host) | ({"operator halt": 1} if place >= halt_from else {})
        lines.append(dice.choices(list(drawn), list(drawn.values()))[0])
        player.step(lines[-1], 0)
        if (player.host.room() <= 0 or player.host.is_halted) and chance(dice, .05):
            break
    return encoded(lines)


# A kind with the number N is drawn once where the kind `random` is drawn N times.
KINDS: dict[str, tuple[Callable[[int], bytes], int]] = {
    "random": (draw_random, 1), "damaged": (draw_damaged, 1), "lists": (draw_lists, 2), "shapes": (draw_shapes, 1),
    "deep": (draw_deep, 2), "crossed": (draw_crossed, 1), "wide": (draw_wide, 4), "long": (draw_long, 20),
    "full": (draw_full, 5), "waits": (draw_waits, 1), "queues": (draw_queues, 1), "settings": (draw_settings, 1), "toml": (draw_toml, 1), "units": (draw_units, 1),
}
