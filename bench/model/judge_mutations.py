"""Damages to unit texts, most of which leave them of the grammar: what the judge and the program are then asked of."""
import random
import re
from collections.abc import Callable

from grammar_words import RESERVED

WORD = re.compile(r"--[^\n]*|[A-Za-z]\w*|\d[\w#]*|:=|=>|\.\.|/=|<=|>=|[^\w\s]")
LITERALS = "0 1 2 3 5 9 10 15 30 31 40 41 64 100 2147483647 16#F# 1_0".split()
NAMES = """Integer Natural Positive Boolean True False Constraint_Error Program_Error System Priority Interrupt_Priority Any_Priority Default_Priority
Ada Real_Time Time Time_Span Clock Milliseconds Synchronous_Task_Control Suspension_Object Set_True Current_State Interrupts Names Int_3 Int_4 Host
Access_Denied Standard Plant Nav Valve Gate Limit Small Pilot""".split()
EXPANDED = """Ada.Real_Time.Clock Ada.Real_Time.Time Standard.Integer Standard.True System.Priority System.Default_Priority Host.Access_Denied
Ada.Interrupts.Names.Int_3 Plant.Valve Plant.Valve.Get Ada.Real_Time.Time_Span Ada.Synchronous_Task_Control.Suspension_Object""".split()
OPERATORS = ("+", "-", "*", "/", "mod", "rem", "=", "/=", "<", "<=", ">", ">=", "and", "or", "xor", "and then", "or else")
KINDS = ("procedure", "function", "entry")
Words = list[str]  # with the blanks and comments between them
Mutation = Callable[[random.Random, Words], None]


def split(text: str) -> Words:
    """Words and what stands between them, by turns: first what stands before the first word."""
    found, at = [], 0
    for word in WORD.finditer(text):
        if word[0].startswith("--"):
            continue
        found += [text[at:word.start()], word[0]]
        at = word.end()
    return found + [text[at:]]


def is_name(word: str) -> bool:
    return word[:1].isalpha() and word.lower() not in RESERVED


def places(words: Words, fits: Callable[[str], bool]) -> list[int]:
    return [at for at in range(1, len(words), 2) if fits(words[at])]


def segments(words: Words) -> list[tuple[int, int]]:
    """What stands between two semicolons, `is`, `begin`, `then` or `loop`, with the semicolon behind it."""
    starts = [0] + [at + 1 for at in places(words, lambda word: word.lower() in (";", "is", "begin", "then", "loop", "private", "exception"))]
    return [(start, end) for start, end in zip(starts, starts[1:]) if words[end - 1] == ";" and end - start < 60]


def swap_names(dice: random.Random, words: Words) -> None:
    found = places(words, is_name)
    first, second = dice.choice(found), dice.choice(found)
    words[first], words[second] = words[second], words[first]


def rename(dice: random.Random, words: Words) -> None:
    found = places(words, is_name)
    words[dice.choice(found)] = dice.choice((words[dice.choice(found)], dice.choice(NAMES), dice.choice(EXPANDED)))


def expand(dice: random.Random, words: Words) -> None:
    """Puts a name and a point before a name, or takes one away."""
    at = dice.choice(places(words, is_name))
    if dice.random() < .4 and at + 2 < len(words) and words[at + 2] == ".":
        del words[at:at + 4]
    else:
        words[at] = f"{dice.choice((words[dice.choice(places(words, is_name))], 'Standard', 'Plant', 'Valve', 'Ada'))}.{words[at]}"


def drop(dice: random.Random, words: Words) -> None:
    start, end = dice.choice(segments(words))
    del words[start:end]
    if start % 2:
        words[start - 1:start - 1] = []


def double(dice: random.Random, words: Words) -> None:
    start, end = dice.choice(segments(words))
    words[end:end] = words[start:end]


def move(dice: random.Random, words: Words) -> None:
    start, end = dice.choice(segments(words))
    part = words[start:end]
    at = dice.choice(segments(words))[1]
    words[at:at] = part
    if at <= start:
        start, end = start + len(part), end + len(part)
    del words[start:end]


def change_literal(dice: random.Random, words: Words) -> None:
    at = dice.choice(places(words, lambda word: word[0].isdigit()) or places(words, is_name))
    words[at] = dice.choice(LITERALS + ["True", "Limit", "A", "(1 + 1)", "-1"])


def change_operator(dice: random.Random, words: Words) -> None:
    found = places(words, lambda word: word.lower() in OPERATORS)
    if found:
        words[dice.choice(found)] = dice.choice(OPERATORS)


def change_kind(dice: random.Random, words: Words) -> None:
    """Another word for an operation's kind, a mode, a constant or a type."""
    for old, new in dice.sample([("procedure", "entry"), ("in", "out"), ("in", "in out"), ("constant", ""), ("type", ""), (":", ": constant"),
                                 ("protected", "protected type"), ("out", "in"), ("exit", "return"), ("null", "return"), ("null", "raise")], 11):
        found = places(words, lambda word: word.lower() == old)
        if found:
            words[dice.choice(found)] = new
            return


def wrap(dice: random.Random, words: Words) -> None:
    """Parentheses, a sign, a conversion, a call or an attribute around a name or a literal."""
    at = dice.choice(places(words, lambda word: is_name(word) or word[0].isdigit()))
    form = dice.choice(("({})", "-{}", "not {}", "abs {}", "{}'First", "{}'Last", "Integer ({})", "Small ({})", "Natural ({})", "{} + 1", "{} = 1",
                        "{} (1)", "{} (A)", "{} or True", "{} / 0", "{} * 2147483647", "Boolean ({})", "{} range 1 .. 3", "{}, Z9", "{} .. 20"))
    words[at] = form.format(words[at])


def nest(dice: random.Random, words: Words) -> None:
    """A statement or a declaration of its own."""
    at = dice.choice(segments(words))[1]
    name = words[dice.choice(places(words, is_name))]
    form = dice.choice(("{} := 1;", "{};", "{} (1);", "{} (A);", "for {} in 1 .. 3 loop null; end loop;", "for I in {} loop null; end loop;", "exit;", "raise;",
                        "raise {};", "return;", "return {};", "return 1;", "case {} is when 1 => null; when others => null; end case;", "delay until {};",
                        "case {} is when True => null; when False => null; end case;", "accept {};", "{} : Integer;", "{} : constant Integer := 5;",
                        "Z9 : {} := 1;", "Z9 : {};", "subtype {} is Integer range 1 .. 5;", "subtype Z9 is {} range 1 .. 50;", "pragma Priority ({});",
                        "pragma Interrupt_Priority;", "procedure {};", "function {} return Integer;", "task {};", "while {} loop null; end loop;",
                        "for I in {} range 2 .. 12 loop null; end loop;", "pragma Attach_Handler ({}, Ada.Interrupts.Names.Int_3);", "Z9 := {};",
                        "Z9 : Ada.Real_Time.Time := {};", "Z9 : Boolean := {} > 1;"))
    words[at:at] = ["\n", form.format(name)]


MUTATIONS: tuple[Mutation, ...] = (swap_names, rename, rename, expand, drop, double, move, change_literal, change_operator, change_kind, wrap, wrap, nest, nest)


def damaged(dice: random.Random, text: str, times: int) -> str:
    """The text with so many damages."""
    for _ in range(times):
        words = split(text)
        if segments(words) and places(words, is_name):
            dice.choice(MUTATIONS)(dice, words)
        text = "".join(words)
    return text
