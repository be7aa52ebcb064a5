#!/usr/bin/env python3
"""Worked by hand: scripts with what they must print."""
import re
import sys
from collections.abc import Iterator
from pathlib import Path
from typing import NamedTuple

from play import Outcome, play

ROOT = Path(__file__).resolve().parents[2]
UNRECORDED = ("misuse", "halted", "full", "busy", "waiting", "unattached", "badline")


class Script(NamedTuple):
    text: bytes
    expected: Outcome | None = None  # with --all


def parts(text: str) -> list[str]:
    """What stands between bars."""
    return [part.strip(" \n").replace("\n", " ") for part in text.split("|")]


def rows(text: str) -> str:
    """Lines of a script, where / stands for a line's end."""
    return text.replace("/", "\n") + "\n"


UNITS = rows("@shape/unit Plant/protected Valve 20/scalar 0 1 0/scalar 0 100 0/function Get 0 100/procedure Set in 0 100/entry Wait 1"
             "/protected Gauge 25/scalar 0 100 7/function Read 0 100/procedure Bump/suspension Ready"
             "/@shape/unit Nav/task Pilot 15/task Aux 20/task High 21/task Low 10")
QUEUED = "Nav.Pilot call Plant.Valve Wait -> queued/Nav.Aux call Plant.Valve Set 1 -> started"
EXAMPLES = {  # the list's lines or no list, and the steps with their answers; behind = is the list that a change leads to
    None: ["Nav.Pilot call Plant.Valve Get -> refused 1 line 0 version 0"],
    "": ["Nav.Pilot call Plant.Valve Get -> refused 1 line 0 version 1"],
    "allow * * */deny Nav Plant.Valve Set": [
        "Nav.Pilot call Plant.Valve Set 5 -> refused 1 line 2 version 1/Nav.Pilot call Plant.Valve Get -> started"
        "/Nav.Pilot end : return 0 -> done"],
    "allow Plant * *": ["Nav.High call Plant.Valve Set 5 -> refused 1 line 0 version 1"],
    "allow Nav * *": ["Nav.Pilot call Plant.Valve Get -> started/Nav.Pilot call Plant.Gauge Read -> refused 1 line 0 version 1"],
    "allow * * *": [
        "Nav.Aux call Plant.Valve Set 5 -> started/Nav.High call Plant.Valve Set 5 -> refused 4 line 0 version 1",
        "Nav.Pilot call Plant.Valve Get -> started/Nav.Aux call Plant.Valve Get -> started/Nav.Pilot end : return 0 -> done"
        "/Nav.Low call Plant.Valve Set 9 -> busy/Nav.Aux end : return 0 -> done/Nav.Low call Plant.Valve Set 9 -> started",
        "Nav.Pilot call Plant.Valve Wait -> queued/Nav.Low call Plant.Valve Wait -> refused 5 line 0 version 1",
        QUEUED + "/Nav.Low call Plant.Valve Wait -> busy/Nav.Aux end 1 1 : return -> done handed Nav.Pilot"
        "/Nav.Pilot resume -> woken/Nav.Pilot end 0 1 : return -> done",
        QUEUED + "/operator append deny Nav Plant.Valve Wait = [allow * * *; deny Nav Plant.Valve Wait]"
        "/Nav.Aux end 1 1 : return -> done dropped Nav.Pilot line 2/Nav.Low call Plant.Valve Get -> started"
        "/Nav.Pilot resume -> refused 1 line 2 version 2",
        QUEUED + "/Nav.Aux end 1 1 : return -> done handed Nav.Pilot"
        "/operator append deny Nav Plant.Valve Wait = [allow * * *; deny Nav Plant.Valve Wait]"
        "/Nav.Pilot resume -> woken/Nav.Pilot end 0 1 : return -> done",
        "Nav.Pilot call Plant.Valve Set 1 -> started/Nav.Pilot end 1 1 : return -> done"
        "/Nav.Pilot call Plant.Gauge Bump -> started/Nav.Pilot call Plant.Valve Wait -> refused 2 line 0 version 1"],
    "allow * * */deny Nav Plant.Valve Set from 5 until 10": [
        "operator tick 4 -> accepted 0/Nav.Pilot call Plant.Valve Set 1 -> started/operator tick 1 -> accepted 0"
        "/Nav.Pilot end 0 1 : return -> done/Nav.Pilot call Plant.Valve Set 2 -> refused 1 line 2 version 1"
        "/operator tick 5 -> accepted 0/Nav.Pilot call Plant.Valve Set 2 -> started"],
    "allow * * */deny Nav * *": ["operator remove 3 -> badline/operator remove 2 = [allow * * *]"
                                 "/operator replace 1 deny * * * = [deny * * *]/Nav.Pilot call Plant.Valve Get -> refused 1 line 1 version 3"],
}
MISREAD_LISTS = {"\n# x\nALLOW * * *\n": "BadWord at line 3", "allow * * *\n" * 513: "TooMany at line 513", "allow a b c\n": "BadName at line 1",
                 "allow * * * from 5 until 5\n": "BadWindow at line 1", "allow * * * from 5\n": "BadWord at line 1"}


SETTINGS = {  # a text and its fault
    "": None, "capacity = 16": None, "capacity = 1_048_576": None, "capacity = 15": "BadValue", "capacity = 1048577": "BadValue",
    "capacity = 16.0": "BadValue", "capacity = '16'": "BadValue", "capacity = true": "BadValue", "capacity =": "NotToml",
    "capacity = 16/capacity = 16": "NotToml", "capacity = 016": "NotToml", "capacity = 0x10": None, "Capacity = 16": "UnknownKey",
    "budget = 0/a = 1": "UnknownKey", "budget = 0/z = 1": "BadValue", "budget = 1": None, "budget = 1000000": None, "budget = 1000001": "BadValue",
    "budget = 0/a = ": "NotToml", "zeta = 1/capacity = 15": "BadValue", "[capacity]": "BadValue", "[budgets]": "UnknownKey",
    "[[device]]": "BadValue", "[[device]]/x = 1": "UnknownKey", "[[device]]/calls = 0/x = 1": "BadValue", "[[device]]/calls = 0/a = 1": "UnknownKey",
    "[[device]]/calls = 5/[[device]]/x = 1": "UnknownKey", "zeta = 1/[[device]]/calls = 5": "UnknownKey",
    "device = []": None, "device = 5": "BadValue",
    "[device]": "BadValue", "device = [1]": "BadValue", "zeta = 1/[[device]]/calls = 0": "BadValue",
    "[[device]]/unit = 'P'/task = 'T'/object = 'P.O'/operation = 'R'/priority = 40/calls = 1000000": None,
    "[[device]]/unit = 'P'/task = 'T'/object = 'P.O'/operation = 'R'/priority = 41/calls = 1": "BadValue",
    "[[device]]/unit = 'P'/task = 'T'/object = 'P.O'/operation = 'R'/priority = 1/calls = 1000001": "BadValue",
    "[[device]]/unit = 'P'/task = 'T'/object = 'P.O'/operation = 'R'/priority = 0/calls = 1": "BadValue",
    "[[device]]/unit = 'P'/task = 'T'/object = 'PO'/operation = 'R'/priority = 1/calls = 1": "BadValue",
    "[[device]]/unit = 'P.T'/task = 'T'/object = 'P.O'/operation = 'R'/priority = 1/calls = 1": "BadValue",
    "[[device]]/unit = 'P'/task = ''/object = 'P.O'/operation = 'R'/priority = 1/calls = 1": "BadValue",
    "[[device]]/unit = 'P'/task = 'T'/object = 'P.O'/operation = 'R'/priority = 1": "BadValue",
}
WAITING_UNITS = "protected O 35/scalar 0 1 0/procedure R/entry E 1/handler H 4/handler K 5/protected Q 40/procedure W/suspension S"
TASKS = "task A 10/task B 20/task C 40/task D 1"
WORKED = (  # the list, the capacity, other settings or none, and the steps with their answers
    # queues of more than one
    ("allow * * *", "queue_limit = 2", """T.A call P.O E -> queued/T.D call P.O E -> queued/T.B call P.O E -> refused 5 line 0 version 1
/T.B call P.O R -> started/operator append deny T P.O E = [allow * * *; deny T P.O E]/T.D settle -> misuse
/T.B end 1 : return -> done dropped T.A line 2/T.B call P.Q W -> misuse/T.B clock -> misuse/T.B resume -> misuse/T.B finish -> misuse
/T.B end 1 : return -> misuse/T.A resume -> refused 1 line 2 version 2/T.A call P.O R -> busy/T.A call P.O E -> refused 1 line 2 version 2
/Int_4 fire -> busy/T.A settle -> misuse/operator remove 2 = [allow * * *]/T.A call P.O E -> busy/T.B settle -> done handed T.D
/T.B settle -> misuse/T.D resume -> woken/T.D end 1 : return -> done"""),
    ("allow * * *", "queue_limit = 3", """T.A call P.O E -> queued/T.D call P.O E -> queued/T.B call P.O E -> queued/Int_4 fire -> started
/operator append deny T * E = [allow * * *; deny T * E]/Int_4 end 1 : overrun -> done dropped T.A line 2/Int_4 fire -> misuse
/Int_4 settle -> done dropped T.D line 2/Int_4 settle -> done dropped T.B line 2/Int_4 settle -> misuse/Int_4 fire -> started"""),
    ("allow * * *", "queue_limit = 8", """T.A call P.O E -> queued/T.D call P.O E -> queued/T.B call P.O R -> started
/operator append deny T * E = [allow * * *; deny T * E]/T.B end 1 : return -> done dropped T.A line 2/operator halt -> accepted 0
/T.B finish -> misuse/T.B settle -> done/T.B settle -> misuse/T.D resume -> halted/T.B finish -> accepted 0/T.A resume -> refused 1 line 2 version 2"""),
    # suspension objects
    ("allow * * *", None, """T.A call P.S Current_State -> accepted 0/T.A call P.S Set_True -> accepted 0
/T.A call P.S Current_State -> accepted 1
/T.A call P.S Suspend_Until_True -> accepted 0/T.A call P.S Current_State -> accepted 0/T.A call P.S Suspend_Until_True -> suspended
/T.A resume -> waiting/T.A call P.S Set_True -> misuse/T.B call P.S Suspend_Until_True -> refused 6 line 0 version 1
/T.B call P.S Set_False -> accepted 0/T.A resume -> waiting/T.B call P.S Set_True -> accepted 0/T.B call P.S Current_State -> accepted 0
/T.B call P.S Suspend_Until_True -> suspended/T.A resume -> woken/T.A resume -> misuse/T.A call P.S Set_True -> accepted 0
/T.A call P.S Set_True -> accepted 0/T.A call P.S Current_State -> accepted 1/T.B resume -> woken/T.B call P.S Set_False -> accepted 0
/T.B call P.S Current_State -> accepted 0/operator call P.S Set_True -> misuse/Int_4 call P.S Set_True -> misuse
/T.B call P.S Set_True 1 -> misuse"""),
    ("allow * * */deny T P.S Set_True", None, """T.A call P.S Set_True -> refused 1 line 2 version 1/T.A call P.O R -> started
/T.A call P.S Set_True -> accepted 0/T.A call P.S Suspend_Until_True -> refused 2 line 0 version 1
/T.A call P.S Current_State -> accepted 1
/T.A delay 5 -> refused 2 line 0 version 1/T.A delay -5 -> refused 2 line 0 version 1/T.A clock -> accepted 0/T.A finish -> misuse
/T.A end 0 : return -> done/T.A call P.S Current_State 0 -> misuse/T.A finish -> accepted 0/T.A finish -> misuse/T.A clock -> misuse
/T.A call P.O R -> misuse/T.A resume -> misuse/T.A delay 1 -> misuse"""),
    # time
    ("", None, """T.A clock -> accepted 0/T.A delay 0 -> accepted 0/T.A delay -1000000000000000 -> accepted 0
/T.A delay -1000000000000001 -> misuse
/operator tick 0 -> misuse/operator tick 1000001 -> misuse/operator tick -1 -> misuse/operator tick 1000000 -> accepted 0
/T.B clock -> accepted 1000000/T.B delay 1000000 -> accepted 0/T.B delay 1000001 -> delayed/T.B resume -> waiting/T.B clock -> misuse
/T.B delay 5 -> misuse/operator tick 1 -> accepted 0/T.B resume -> woken/T.B resume -> misuse/T.B delay 1000000000000001 -> misuse
/T.B delay 1000000000000000 -> delayed/operator clock -> misuse/operator delay 5 -> misuse/T.A tick 5 -> misuse/Int_4 tick 5 -> misuse
/Int_4 clock -> misuse/Int_4 delay 0 -> misuse"""),
    # interrupts
    ("allow * * *", None, """Int_3 fire -> unattached/Int_5 fire -> refused 4 line 0 version 1/Int_4 fire -> started/Int_4 fire -> misuse
/Int_4 clock -> accepted 0/Int_4 call P.O E -> refused 2 line 0 version 1/Int_4 call P.O R -> refused 3 line 0 version 1
/Int_4 call P.Q W -> started/Int_4 call P.O R -> refused 3 line 0 version 1/Int_4 delay 1 -> refused 2 line 0 version 1
/Int_4 end : return -> done
/Int_4 end : return -> misuse/Int_4 end 1 : return -> done/Int_4 resume -> misuse/Int_4 call P.Q W -> misuse/Int_4 finish -> misuse
/operator fire -> misuse/T.A fire -> misuse/T.C call P.O R -> refused 4 line 0 version 1/T.A call P.O H -> started/Int_4 fire -> busy
/Int_3 fire -> unattached/T.A end 1 : return -> done/Int_4 fire -> started"""),
    ("allow * * */deny Interrupts P.O h", None, """Int_4 fire -> refused 1 line 2 version 1/Int_5 fire -> refused 4 line 0 version 1
/T.A call P.O H -> started/Int_4 fire -> refused 1 line 2 version 1"""),
    ("allow interrupts P.O */allow P P.Q W", None, """Int_4 fire -> started/Int_4 call P.Q W -> started
/Int_4 call P.Q W -> refused 3 line 0 version 1
/Int_4 call P.O R -> refused 1 line 0 version 1/Int_4 call P.S Set_True -> refused 1 line 0 version 1
/T.A call P.Q W -> refused 1 line 0 version 1"""),
    ("allow * * *", None, """T.A call P.O E -> queued/T.A resume -> waiting/Int_4 fire -> started/Int_4 end 1 : return -> done handed T.A
/Int_4 fire -> busy
/T.A end 0 : return -> misuse/T.A resume -> woken/T.A end 0 : return -> done/T.B call P.O E -> queued/Int_4 fire -> started
/operator append deny T P.O E = [allow * * *; deny T P.O E]/Int_4 end 1 : overrun -> done dropped T.B line 2
/operator append allow * * * = [allow * * *; deny T P.O E; allow * * *]/Int_4 fire -> started/T.B call P.Q W -> misuse
/T.B resume -> refused 1 line 2 version 2"""),
    # a halt
    ("allow * * *", None, """T.A call P.O E -> queued/T.B call P.O R -> started/T.C delay 10 -> delayed
/T.D call P.S Suspend_Until_True -> suspended
/operator tick 10 -> accepted 0/T.A halt -> misuse/Int_1 halt -> misuse/operator halt -> accepted 0/operator halt -> halted
/operator tick 1 -> halted
/operator tick 0 -> misuse/operator append allow * * * -> halted/operator remove 9 -> halted/T.B call P.Q W -> halted
/T.B call P.Q W 1 -> misuse
/T.B call P.S Set_True -> halted/T.B clock -> halted/T.B delay 1 -> halted/T.B delay 1000000000000001 -> misuse/Int_4 fire -> halted
/Int_3 fire -> halted/T.C resume -> woken/T.D resume -> halted/T.B end 2 : return -> misuse/T.B end 1 : return -> done
/T.A resume -> halted
/T.A finish -> misuse/T.C finish -> accepted 0/T.B resume -> misuse/T.B finish -> accepted 0"""),
    ("allow * * *", None, """T.A call P.O E -> queued/T.B call P.O R -> started/T.D call P.S Suspend_Until_True -> suspended
/T.B call P.S Set_True -> accepted 0
/T.B end 1 : return -> done handed T.A/operator halt -> accepted 0/T.D resume -> woken/T.A resume -> woken/T.A end 1 : return -> done"""),
    # room: 17 less 3 entries, 4 tasks and the halt is 9 at first
    ("allow * * *", 17, """T.A call P.S Suspend_Until_True -> suspended/T.B delay 5 -> delayed/T.D call P.O R -> started
/T.D call P.S Set_True -> accepted 0
/T.A resume -> woken/T.D end 0 : return -> done/T.A call P.O E -> full/T.A call P.O R -> started/operator tick 5 -> full/T.D clock -> full
/T.B resume -> waiting/T.C delay 9 -> full/T.C delay 0 -> full/operator append deny * * * -> full/operator remove 2 -> badline
/Int_4 fire -> busy
/T.A end 1 : return -> done/Int_4 fire -> full/Int_5 fire -> full/Int_3 fire -> unattached/T.D finish -> accepted 0
/T.A finish -> accepted 0
/operator halt -> accepted 0/T.B finish -> misuse/T.B resume -> halted/T.C finish -> accepted 0"""),
    ("allow * * *", 18, """T.A call P.O E -> queued/T.B call P.O R -> started/operator append deny T P.O E = [allow * * *; deny T P.O E]
/T.B end 1 : return -> done dropped T.A line 2/T.B clock -> accepted 0/T.B clock -> accepted 0/T.B clock -> accepted 0
/T.B clock -> accepted 0
/T.B clock -> accepted 0/T.B clock -> full/T.A resume -> refused 1 line 2 version 2/T.B clock -> full/operator halt -> accepted 0"""),
)


def answered(script: str, journal: list[str], steps: str) -> Script:
    """A script that ends with these steps, and its journal with their answers; behind = is the list that a change leads to."""
    entries = len(journal)
    script += "@steps\n"
    for step in steps.replace("\n", "").split("/"):
        request, _, changed = step.partition(" = ")
        script += request.split(" -> ")[0] + "\n"
        recorded = f"operator list {changed} -> accepted 0" if changed else step
        unrecorded = recorded.split(" -> ")[1] in UNRECORDED
        entries += not unrecorded
        journal.append(f"{'-' if unrecorded else entries} {recorded}")
    return Script(script.encode(), Outcome(("\n".join(journal) + "\n").encode(), b"", 0))


def example(lines: str | None, steps: str) -> Script:
    """Two units without waits, a list or none, and steps with their answers."""
    script, journal = UNITS, ["1 operator load Plant -> accepted 0", "2 operator load Nav -> accepted 0"]
    if lines is not None:
        script += rows(f"@list/{lines}")
        journal.append(f"3 operator list [{lines.replace('/', '; ')}] -> accepted 0")
    return answered(script, journal, steps)


def waiting_example(lines: str, settings: int | str | None, steps: str) -> Script:
    """Two units with a suspension object and handlers, a capacity or other settings, a list, and steps with their answers."""
    settings = f"capacity = {settings}" if isinstance(settings, int) else settings
    settings = rows(f"@host.toml/{settings}") if settings else ""
    script = settings + rows(f"@shape/unit P/{WAITING_UNITS}/@shape/unit T/{TASKS}/@list/{lines}")
    listed = f"3 operator list [{lines.replace('/', '; ')}] -> accepted 0"
    return answered(script, ["1 operator load P -> accepted 0", "2 operator load T -> accepted 0", listed], steps)


def halted_sections() -> Iterator[Script]:
    """A list and a shape behind a halt: neither is carried out, and a shape that doesn't fit is a fault all the same."""
    head = rows("@shape/unit U/task T 1/@steps/operator halt/@list/allow * * */@shape/unit V/task X 1/@shape/unit v/@steps")
    told = rows("1 operator load U -> accepted 0/2 operator halt -> accepted 0/- operator list [allow * * *] -> halted"
                "/- operator load V -> halted/- operator load v -> halted").encode()
    yield Script((head + "V.X resume\n").encode(), Outcome(told, b"script line 14: UnknownName\n", 1))
    yield Script((head + "@shape\nunit u\n").encode(), Outcome(told, b"script line 14: shape NameTaken\n", 1))


def worked_scripts() -> Iterator[Script]:
    for lines, runs in EXAMPLES.items():
        yield from (example(lines, steps) for steps in runs)
    yield from (waiting_example(*case) for case in WORKED)
    yield from halted_sections()
    for text, fault in SETTINGS.items():
        told = f"script line 1: settings {fault}\n".encode() if fault else b""
        yield Script(("@host.toml\n" + rows(text)).encode(), Outcome(b"", told, 1 if fault else 0))
    for lines, fault in MISREAD_LISTS.items():
        yield Script(f"@list\n{lines}".encode(), Outcome(b"", f"script line 1: list {fault}\n".encode(), 1))


def document_scripts() -> Iterator[Script]:
    """The script beside which README.md shows its journal, loads aside."""
    shown = (ROOT / "README.md").read_text().partition("its journal:\n")[2].partition("\nEntry 4 ")[0]
    loads = "1 operator load Plant -> accepted 0\n2 operator load Nav -> accepted 0\n"
    journal = loads + "".join(line + "\n" for line in re.findall(r"(?<=  )\d+ .*", shown))
    yield Script((ROOT / "examples/first.raven").read_bytes(), Outcome(journal.encode(), b"", 0))


def main() -> int:
    found = [*worked_scripts(), *document_scripts()]
    missed = [script for script in found if play(script.text, True) != script.expected]
    for script in missed:
        print(f"{script.text.decode()}=== the model says\n{play(script.text, True)}\n=== expected\n{script.expected}\n")
    print(f"{len(found)} worked scripts, {len(missed)} differ")
    return 1 if missed else 0


if __name__ == "__main__":
    sys.exit(main())
