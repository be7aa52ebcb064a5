"""The deepest texts that the limits of nesting allow, over all forms that nest, each with the journal that is due.

A task calls the function Run of an object, which calls itself 64 times and then that of the next object, so that 16
objects are held and 65 bodies nest in each. In each body 64 statements are open, and behind the last of them 64
parentheses. In other texts an entry, the handler of a line or a procedure is called first, procedures nest in place of
functions, or the innermost body asks more of the host. What each text gives is worked out here, from the meaning of
the forms alone.
"""
import os
import sys
from typing import NamedTuple

OBJECTS = 16
CALLS = 64  # internal calls in each object
STATEMENTS = 64
PARENTHESES = 64
LEAST, MOST = -2147483648, 2147483647


def quotient(a, b):
    """`/` (4.5.5): rounded towards zero."""
    return abs(a) // abs(b) * (1 if (a < 0) == (b < 0) else -1)


def remainder(a, b):
    """`rem` (4.5.5): with the sign of the left operand."""
    return a - quotient(a, b) * b


# A form of an Integer in parentheses: its text, how many parentheses it opens, and what it gives of the value inside.
FORMS = {
    "call": ("G ({})", 1, lambda v: v),
    "call_of_the_first_argument": ("H ({}, 1, 2, 3)", 1, lambda v: v + 6),
    "call_of_the_last_argument": ("H (3, 2, 1, {})", 1, lambda v: v + 6),
    "plain": ("({})", 1, lambda v: v),
    "plus": ("(1 + {})", 1, lambda v: v + 1),
    "plus_on_the_left": ("({} + 1)", 1, lambda v: v + 1),
    "minus": ("(3 - {})", 1, lambda v: 3 - v),
    "minus_on_the_left": ("({} - 2)", 1, lambda v: v - 2),
    "times": ("(-1 * {})", 1, lambda v: -v),
    "times_on_the_left": ("({} * 1)", 1, lambda v: v),
    "divide": ("(1 + 6 / {})", 1, lambda v: 1 + quotient(6, v)),
    "divide_on_the_left": ("({} / 2 + 9)", 1, lambda v: quotient(v, 2) + 9),
    "modulo": ("(1 + 6 mod {})", 1, lambda v: 1 + 6 % v),
    "modulo_on_the_left": ("({} mod 5 + 4)", 1, lambda v: v % 5 + 4),
    "remainder": ("(1 + 6 rem {})", 1, lambda v: 1 + remainder(6, v)),
    "remainder_on_the_left": ("({} rem 5 - 7)", 1, lambda v: remainder(v, 5) - 7),
    "absolute": ("(2 - abs {})", 1, lambda v: 2 - abs(v)),
    "negation": ("(-{})", 1, lambda v: -v),
    "sign": ("(+{})", 1, lambda v: v),
    "conversion": ("Integer ({})", 1, lambda v: v),
    "conversion_to_a_subtype": ("Few ({} + 0)", 1, lambda v: v),
    "attribute": ("(Few'Last - {})", 1, lambda v: 1000 - v),
    "constant": ("(Most - {})", 1, lambda v: 77 - v),
    "checked_argument": ("E (Few'First + 1000 + {})", 1, lambda v: v),
    "equal": ("F ({} = 1)", 1, lambda v: int(v == 1)),
    "not_equal": ("F ({} /= 1)", 1, lambda v: int(v != 1)),
    "less": ("F (0 < {})", 1, lambda v: int(0 < v)),
    "less_or_equal": ("F (1 <= {})", 1, lambda v: int(1 <= v)),
    "greater": ("F ({} > 0)", 1, lambda v: int(v > 0)),
    "greater_or_equal": ("F ({} >= 1)", 1, lambda v: int(v >= 1)),
    "and": ("F (N > 0 and {} = 0)", 1, lambda v: int(v == 0)),
    "or": ("F (N < 0 or {} = 0)", 1, lambda v: int(v == 0)),
    "xor": ("F (N > 0 xor {} = 0)", 1, lambda v: int(v != 0)),
    "and_then": ("F (N > 0 and then {} = 0)", 1, lambda v: int(v == 0)),
    "or_else": ("F (N < 0 or else {} = 0)", 1, lambda v: int(v == 0)),
    "and_then_on_the_left": ("F ({} = 0 and then N > 0)", 1, lambda v: int(v == 0)),
    "or_else_on_the_left": ("F ({} = 0 or else N < 0)", 1, lambda v: int(v == 0)),
    "not": ("F (not B ({}))", 2, lambda v: int(not v > 0)),
    "call_of_a_boolean": ("F (Q (Q (B ({}))))", 4, lambda v: int(v > 0)),
    "parts_of_a_boolean": ("F ((N > 0) and (B ({}) or N < 0))", 3, lambda v: int(v > 0)),
    "times_of_a_clock": ("F (Since < Since + Milliseconds ({}))", 2, lambda v: int(0 < v)),
    # Each operation that may stand between two parentheses, one of each: the most frames a parenthesis.
    "most": ("Y (True and then 0 < - 1 * abs {} + 1)", 1, lambda v: int(0 < 1 - abs(v))),
    "most_by_links": ("Y (True and then 0 < 1 + 0 + 1 * abs {})", 1, lambda v: int(0 < 1 + abs(v))),
}

# The first and the last line of a statement that holds another.
WRAPPERS = {
    "if": ("if N >= 0 then", "end if;"),
    "elsif": ("if N < 0 then null; elsif N >= 0 then", "end if;"),
    "else": ("if N < 0 then null; else", "end if;"),
    "case": ("case N is when 0 .. 64 =>", "when others => null; end case;"),
    "case_others": ("case N is when 1000 => null; when others =>", "end case;"),
    "while": ("while N >= 0 loop", "end loop;"),
    "loop": ("loop", "end loop;"),
    "for": ("for L{} in 1 .. 1 loop", "end loop;"),
    "for_reverse": ("for L{} in reverse 0 .. 1 loop", "end loop;"),
}

# Where the deep expression stands in the innermost statement. Each gives its value back, where that is 0 or 1.
PLACES = {
    "return": "return {};",
    "if": "if 0 < {} then return 1; else return 0; end if;",
    "elsif": "if N < 0 then return 9; elsif 0 < {} then return 1; end if; return 0;",
    "case": "case {} is when 0 => return 0; when others => return 1; end case;",
    "while": "while 0 < {} loop return 1; end loop; return 0;",
    "for_low": "for I in {} .. 1 loop return I; end loop;",
    "for_high": "for I in reverse 0 .. {} loop return I; end loop;",
    "exit_when": "loop exit when 0 < {}; return 0; end loop; return 1;",
    "assignment": "X := {}; return X;",
}


def most_open(text):
    """How many parentheses are open at once."""
    most = open_now = 0
    for letter in text:
        open_now += {"(": 1, ")": -1}.get(letter, 0)
        most = max(most, open_now)
    return most


def nested(form_names):
    """The text of these forms in turn around a call of Run, and what they give where Run gives a value."""
    left = PARENTHESES - 1
    chosen = []
    while left:
        text, opened, value = FORMS[form_names[len(chosen) % len(form_names)]]
        if opened > left:
            text, opened, value = FORMS["plain"]
        chosen.append((text, value))
        left -= opened
    whole = "Run (N - 1, K)"
    for text, _ in reversed(chosen):
        whole = text.format(whole)

    def given(v):
        for _, value in reversed(chosen):
            v = value(v)
            assert LEAST <= v <= MOST
        return v

    assert most_open(whole) == PARENTHESES
    return whole, given


def held_by(wrappers, count, inner):
    """A statement inside so many others."""
    head, tail = [], []
    for depth in range(count):
        first, behind = WRAPPERS[wrappers[depth % len(wrappers)]]
        head.append(first.format(depth))
        tail.insert(0, behind)
    return "\n".join(["   " + line for line in head + [inner] + tail])


class Text(NamedTuple):
    """A unit text, who runs it, and what that actor asks and is answered."""
    unit: str
    actor: str
    entries: list[str]


class First(NamedTuple):
    """The operation of the first object that is called first, in place of Run: a body that calls Run 64 times."""
    declared: str
    body: str  # up to its `is`
    components: str
    call: str  # of the task, if one calls it
    result: str  # what gets the value
    started: str
    ended: str  # by the value of its Run


FIRSTS = {
    "entry": First("entry Start (M : out Integer);", "entry Start (M : out Integer) when Open is", "Open : Boolean := True;",
                   "O1.Start (X);", "M", "P.T call P.O1 Start -> started", "P.T end 0 1 : return {} -> done"),
    "procedure": First("procedure Start;", "procedure Start is", "Top : Integer := 0;",
                       "O1.Start;", "Top", "P.T call P.O1 Start -> started", "P.T end 0 {} : return -> done"),
    "line": First("procedure Start with Attach_Handler => Int_2;", "procedure Start is", "Top : Integer := 0;",
                  "", "Top", "Int_2 fire -> started", "Int_2 end 0 {} : return -> done"),
    "device": First("procedure Start;", "procedure Start is", "Top : Integer := 0;",
                    "", "Top", "Dev.Main call P.O1 Start -> started", "Dev.Main end 0 {} : return -> done"),
}
HELPERS = """      function E (V : in Few) return Few is begin return V; end E;
      function F (V : in Boolean) return Integer is begin if V then return 1; else return 0; end if; end F;
      function Y (V : in Any) return Few is begin if V then return 1; else return 0; end if; end Y;
      function G (V : in Integer) return Integer is begin return V; end G;
      function H (V1, V2, V3, V4 : in Integer) return Integer is begin return V1 + V2 + V3 + V4; end H;
      function B (V : in Integer) return Boolean is begin return V > 0; end B;
      function Q (V : in Boolean) return Boolean is begin return V; end Q;
"""
RUN = "(N, K : in Integer) return Integer"


def declared(unit, visible, components=""):
    """A protected unit with the operations that the forms call."""
    helpers = "".join(line.split(" is begin ")[0] + ";\n" for line in HELPERS.splitlines())
    return f"   {unit} is\n      {visible}\n   private\n{helpers}      Since : Time;{components}\n   end {unit.split()[-1]};\n"


def body(name, operations):
    return f"   protected body {name} is\n{operations}{HELPERS}   end {name};\n"


def package(declarations, bodies, task):
    """The unit of these protected units, with a task where it has a body."""
    names = ("Ada.Real_Time", "Ada.Synchronous_Task_Control", "Ada.Interrupts.Names")
    context = " ".join(f"with {name}; use {name};" for name in names)
    return f"""{context}
package P is
   subtype Few is Integer range -1000 .. 1000;
   subtype Any is Boolean range False .. True;
   Most : constant Integer := 77;
   Lamp : Suspension_Object;
{declarations}{"   task T;" if task else ""}
end P;
package body P is
{bodies}{task}
end P;
"""


def numbered(first):
    return ", ".join(f"O{k}" for k in range(first, OBJECTS + 1))


def value_of_runs(given, calls):
    """What a Run gives that is called where so many calls are left, from the last object to the first."""
    results, v = [], 1
    for k in range(OBJECTS):
        for _ in range(CALLS if k < OBJECTS - 1 else calls):
            v = given(v)
        results.append(v)
    return results


def functions(form_names=("most",), wrappers=("for", "if", "while", "case"), place="return", in_handler=False, last="return 1;", handlers="",
              first=None, exits=None, asked=(), more_locals=""):
    """The text whose functions nest. `last` is the statement of the innermost body of all, `asked` what it asks besides."""
    whole, given = nested(form_names)
    held = STATEMENTS - (2 if place in ("return", "assignment", "declaration") else 3)
    next_objects = "".join(f"elsif K = {k} then return O{k + 1}.Run ({CALLS}, {k + 1}); " for k in range(1, OBJECTS))
    local, inner = "X : Integer := 0;" + more_locals, f"if N > 0 then {PLACES[place].format(whole)}" if place in PLACES else "if X then return 1;"
    if place == "declaration":
        local = f"X : constant Boolean := N > 0 and then 0 < {whole};"
    statements = held_by(wrappers, held, f"{inner} {next_objects}else {last} end if;")
    if in_handler:
        statements = "   raise Constraint_Error;\nexception\nwhen Constraint_Error =>\n" + statements
    run = f"      function Run {RUN} is\n         {local}\n      begin\n{statements}\n{handlers}      end Run;\n"
    results = value_of_runs(given, CALLS)
    assert place in ("return", "declaration") or set(results) <= {0, 1}
    exits = exits or [f"return {v}" for v in results]
    starts = [f"call P.O{k} Run {CALLS} {k} -> started" for k in range(1, OBJECTS + 1)]
    ends = [f"end : {exit} -> done" for exit in exits]
    if first is None:
        unit = package(declared("protected type Level", f"function Run {RUN};") + f"   {numbered(1)} : Level;\n", body("Level", run),
                       f"   task body T is X : Integer; begin X := O1.Run ({CALLS}, 1); end T;\n")
        return Text(unit, "P.T", [f"P.T {words}" for words in [*starts, *asked, *ends, "finish -> accepted 0"]])
    kind = FIRSTS[first]
    actor = kind.started.split()[0]
    ceiling = " with Priority => 40" if first == "line" else ""
    start = f"      {kind.body}\n         N : Integer := {CALLS};\n         K : constant Integer := 1;\n      begin\n"
    start += held_by(wrappers, STATEMENTS - 1, f"{kind.result} := {whole}; return;") + "\n      end Start;\n"
    hidden = f"\n      {kind.components}\n      function Run {RUN};"
    unit = package(declared("protected O1", kind.declared, hidden).replace("protected O1 is", f"protected O1{ceiling} is")
                   + declared("protected type Level", f"function Run {RUN};").replace("type Level is", f"type Level{ceiling} is")
                   + f"   {numbered(2)} : Level;\n",
                   body("O1", start + run) + body("Level", run),
                   f"   task body T is X : Integer; begin {kind.call} end T;\n" if kind.call else "")
    entries = [kind.started] + [f"{actor} {words}" for words in starts[1:] + [*asked] + ends[:-1]] + [kind.ended.format(results[-1])]
    return Text(unit, actor, entries + ([] if first == "line" else [f"{actor} finish -> accepted 0"]))


def procedures(wrappers=("for", "if", "while", "case")):
    """The text whose procedures nest: the argument of each call is deep, and its result goes back through all."""
    one = "Y (1 = 1)"
    for _ in range(PARENTHESES - 2):
        one = f"G ({one})"
    next_objects = "".join(f"elsif K = {k} then O{k + 1}.Run ({CALLS}, {k + 1}, M); return; " for k in range(1, OBJECTS))
    statements = held_by(wrappers, STATEMENTS - 2, f"if N > 0 then Run (N - {one}, K, M); M := M + 1; return; {next_objects}else M := 1; return; end if;")
    parameters = "(N, K : in Integer; M : in out Integer)"
    run = f"      procedure Run {parameters} is\n      begin\n{statements}\n      end Run;\n"
    unit = package(declared("protected type Level", f"procedure Run {parameters};") + f"   {numbered(1)} : Level;\n", body("Level", run),
                   f"   task body T is X : Integer := 0; begin O1.Run ({CALLS}, 1, X); end T;\n")
    starts = [f"P.T call P.O{k} Run {CALLS} {k} 0 -> started" for k in range(1, OBJECTS + 1)]
    ends = [f"P.T end 0 : return {1 + CALLS * k} -> done" for k in range(1, OBJECTS + 1)]
    return Text(unit, "P.T", [*starts, *ends, "P.T finish -> accepted 0"])


def texts():
    """Each text, by name."""
    for name in FORMS:
        yield f"form_{name}", functions((name,))
    for name in WRAPPERS:
        yield f"statement_{name}", functions(wrappers=(name,))
    for name in PLACES:
        yield f"place_{name}", functions(place=name)
    yield "place_declaration", functions(("most_by_links",), place="declaration")
    yield "handler", functions(in_handler=True)
    yield "handler_of_loops", functions(wrappers=("for", "while"), in_handler=True)
    ones = tuple(name for name, (_, opened, _) in FORMS.items() if opened == 1 and name not in ("divide", "modulo", "remainder"))
    mixed = {"form_names": tuple(reversed(ones)), "wrappers": tuple(WRAPPERS)}
    yield "mixed_forms", functions(ones)
    yield "mixed_forms_and_statements", functions(**mixed)
    yield "mixed_with_calls", functions(("most", "call_of_the_last_argument", "most_by_links", "minus"), tuple(WRAPPERS))
    for name in FIRSTS:
        yield f"first_{name}", functions(first=name)
        yield f"first_{name}_mixed", functions(**mixed, first=name)
    yield "procedures", procedures()
    yield "procedures_of_mixed_statements", procedures(tuple(WRAPPERS))
    # The innermost body of all raises, or calls without end; who called it meets Program_Error for that (own).
    raised = ["raise Constraint_Error"] * OBJECTS
    yield "raise", functions(last="raise Constraint_Error;", exits=raised)
    handlers = "exception\nwhen Constraint_Error => raise;\n"
    yield "raise_in_each_handler", functions(last="raise Constraint_Error;", handlers=handlers, exits=raised)
    yield "overrun", functions(last="return Run (N, K);", exits=["overrun"] + ["raise Program_Error"] * (OBJECTS - 1))
    # It asks the host where 16 objects are held: operations of a suspension object, the clock, and what is refused there.
    state = ["call P.Lamp Set_True -> accepted 0", "call P.Lamp Current_State -> accepted 1", "clock -> accepted 0"]
    yield "asks", functions(**mixed, last="Set_True (Lamp); Is_On := Current_State (Lamp); Now := Clock; return 1;", asked=state, more_locals=" Is_On : Boolean; Now : Time;")
    for name, statement, request in (("suspends", "Suspend_Until_True (Lamp);", "call P.Lamp Suspend_Until_True"), ("delays", "delay until Since;", "delay 0")):
        yield name, functions(**mixed, last=f"{statement} return 1;", asked=[f"{request} -> refused 2 line 0 version 1"], exits=["raise Program_Error"] * OBJECTS)


def script(text):
    """The sections that load a text and let all be asked."""
    device = ""
    if text.actor == "Dev.Main":
        device = '@host.toml\n[[device]]\nunit = "Dev"\ntask = "Main"\npriority = 5\nobject = "P.O1"\noperation = "Start"\ncalls = 1\n'
    return f"{device}@unit\n{text.unit}@list\nallow * * *\n"


def journal(text):
    """The journal of the script and of all that the actor asks."""
    lines = ["operator load P -> accepted 0", "operator list [allow * * *] -> accepted 0"]
    if text.actor == "Dev.Main":
        lines.append("operator load Dev -> accepted 0")
    return [f"{number} {line}" for number, line in enumerate(lines + text.entries, 1)]


ROWS = {"body_deepest_most": "form_most", "body_deepest_mixed": "mixed_forms_and_statements"}
