"""The words of unit texts (docs/GRAMMAR.md)."""
import re
from typing import NamedTuple

from words import is_identifier

RESERVED = frozenset("""abort abs abstract accept access aliased all and array at begin body case constant declare delay delta digits do else
elsif end entry exception exit for function generic goto if in interface is limited loop mod new not null of or others out overriding package
pragma private procedure protected raise range record rem renames requeue return reverse select separate some subtype synchronized tagged task
terminate then type until use when while with xor""".split())
DELIMITER = re.compile(r":=|=>|\.\.|/=|<=|>=|[(),;:.'+\-*/=<>|]")
RUN = re.compile(r"[A-Za-z0-9_]*")
DIGITS = re.compile(r"[0-9A-Fa-f](?:_?[0-9A-Fa-f])*")
LARGEST = 2**31 - 1
END = "end of text"


class TextFault(Exception):
    """What is wrong with a text, and its place."""


def fault_at(fault: str, place: int) -> TextFault:
    return TextFault(f"{fault} at {place}")


class Word(NamedTuple):
    kind: str  # name, number, or the reserved word or delimiter itself
    text: str
    place: int


def value(digits: str, base: int) -> int | None:
    """What well formed digits of a base stand for, where it is small enough to be told."""
    plain = digits.replace("_", "").lstrip("0") or "0"
    if not DIGITS.fullmatch(digits) or any(int(digit, 16) >= base for digit in plain) or len(plain) > 40:
        return None
    return int(plain, base)


def literal_length(text: str, at: int) -> int | None:
    """The length of the literal that begins there, or none where it is bad."""
    run = RUN.match(text, at)[0]
    base, digits, end = 10, run, at + len(run)
    if text.startswith("#", end):
        digits = RUN.match(text, end + 1)[0]
        base, end = value(run, 10), end + 1 + len(digits)
        if base is None or not 2 <= base <= 16 or not text.startswith("#", end):
            return None
        end += 1
    found = value(digits, base)
    is_bad = found is None or found > LARGEST or re.match(r"[A-Za-z_]|\.[0-9]", text[end:end + 2])
    return None if is_bad else end - at


def words_of_text(text: str) -> list[Word]:
    """The words of a text, each the longest that can stand there, or the first fault; at its end, a word of no length."""
    found: list[Word] = []
    at = place = 0  # characters and bytes
    while at < len(text):
        letter, kind, length = text[at], "", 1
        if text.startswith("--", at):
            length = len(text[at:].partition("\n")[0])
        elif not letter.isascii():
            raise fault_at("lex NotAscii", place)
        elif letter.isalpha():
            run = RUN.match(text, at)[0]
            if not is_identifier(run):
                raise fault_at("lex BadIdentifier", place)
            kind, length = run.lower() if run.lower() in RESERVED else "name", len(run)
        elif letter.isdigit():
            kind, length = "number", literal_length(text, at)
            if length is None:
                raise fault_at("lex BadLiteral", place)
        elif letter not in " \t\n\r\v\f":
            delimiter = DELIMITER.match(text, at)
            if delimiter is None or text.startswith("**", at):
                raise fault_at("lex BadCharacter", place)
            kind, length = delimiter[0], len(delimiter[0])
        if kind:
            found.append(Word(kind, text[at:at + length], place))
        place += len(text[at:at + length].encode())
        at += length
    return found + [Word(END, "", place)]
