"""Access lists: reading, deciding at a tick, printing."""
import re

from words import folded, is_dotted, is_identifier, words_of

MOST_LINES = 512
LAST_TICK = 10**15  # the greatest that a window names
Line = tuple[str, ...]  # allow or deny, a unit, an object, an operation; behind these nothing, or from, A, until, B


class ListFault(Exception):
    """The first bad line of a list, where blank lines and comments count."""

    def __init__(self, fault: str, line: int) -> None:
        super().__init__(f"list {fault} at line {line}")


def line_fault(words: list[str]) -> str | None:
    """What is wrong with a line of these words."""
    names, window = words[1:4], words[4:]
    if len(words) not in (4, 8) or words[0] not in ("allow", "deny"):
        return "BadWord"
    if window and (folded(window[0]), folded(window[2])) != ("from", "until"):
        return "BadWord"
    forms = (is_identifier, is_dotted, is_identifier)
    if not all(word == "*" or form(word) for form, word in zip(forms, names)):
        return "BadName"
    return None if not window or is_window(window[1], window[3]) else "BadWindow"


def is_window(start: str, end: str) -> bool:
    """Whether these words are the first tick of a window and the first behind it."""
    if not all(re.fullmatch("[0-9]{1,18}", word) for word in (start, end)):
        return False
    return int(start) < int(end) <= LAST_TICK


def is_open(line: Line, tick: int) -> bool:
    """Whether the line may match at that tick."""
    return len(line) == 4 or int(line[5]) <= tick < int(line[7])


def read_list(lines: list[str]) -> list[Line]:
    """The lines of a list, without blank ones and comments."""
    found: list[Line] = []
    for place, line in enumerate(lines, 1):
        words = words_of(line)
        if line.startswith("#") or not words:
            continue
        fault = "TooMany" if len(found) == MOST_LINES else line_fault(words)
        if fault:
            raise ListFault(fault, place)
        found.append(tuple(words))
    return found


def decide(lines: list[Line], unit: str, target: str, operation: str, tick: int) -> tuple[bool, int]:
    """What the last line that matches at the tick says, and its number; where none does the call is denied with line 0."""
    asked = [folded(name) for name in (unit, target, operation)]
    decision = (False, 0)
    for place, line in enumerate(lines, 1):
        fits = all(name == "*" or folded(name) == other for name, other in zip(line[1:4], asked))
        if fits and is_open(line, tick):
            decision = (line[0] == "allow", place)
    return decision


def list_text(lines: list[Line]) -> str:
    """A list as it stands in the journal."""
    return "list [" + "; ".join(" ".join(line) for line in lines) + "]"
