"""Words, names and numbers of a script's lines."""
import re

NAME_LENGTH = 64
ASCII_LOWER = {code: code + 32 for code in range(ord("A"), ord("Z") + 1)}


class Malformed(Exception):
    """A word or a line of another form than is asked for."""


def ensure(condition: bool) -> None:
    """Goes on where the form is the one that is asked for."""
    if not condition:
        raise Malformed


def words_of(line: str) -> list[str]:
    """The words of a line, which stand between spaces and tabs."""
    return re.findall(r"[^ \t]+", line)


def is_identifier(word: str) -> bool:
    """A letter, then ASCII letters and digits with single underscores between them (2.3); reserved words pass."""
    return len(word) <= NAME_LENGTH and re.fullmatch(r"[A-Za-z](?:_?[A-Za-z0-9])*", word) is not None


def is_dotted(word: str) -> bool:
    """Two identifiers with one point between them."""
    parts = word.split(".")
    return len(parts) == 2 and all(is_identifier(part) for part in parts)


def is_number(word: str) -> bool:
    """1 to 18 decimal digits, with a minus sign before them or not."""
    return re.fullmatch(r"-?[0-9]{1,18}", word) is not None


def identifier(word: str) -> str:
    ensure(is_identifier(word))
    return word


def number(word: str) -> int:
    ensure(is_number(word))
    return int(word)


def numbers(words: list[str], most: int) -> list[int]:
    ensure(len(words) <= most)
    return [number(word) for word in words]


def folded(name: str) -> str:
    """The name in lower case: names that differ in case alone are the same."""
    return name.translate(ASCII_LOWER)
