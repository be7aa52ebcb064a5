"""Unit texts of a script: their words and their grammar, which the model judges, and the verdict of the static rules, which it takes from
the program."""
import re

from grammar_words import TextFault, words_of_text
from judge_reader import TextReader

LONGEST_UNIT = 262_144  # bytes
VERDICT = re.compile(rb"script line (\d+): ((?:restriction|names|types) \w+ at (\d+)|shape \w+)\n")


class TooLong(Exception):
    """A unit text past its limit."""


class UnitTexts:
    def __init__(self, script: bytes, told: bytes) -> None:
        """The texts of a script's sections, and the fault that the program told of the script."""
        self.sections = iter(re.split(r"(?m)^(?=@)", script.decode(errors="replace")))  # from each opening to the next
        self.text = next(self.sections)
        self.verdict = VERDICT.fullmatch(told)

    def next_section(self) -> None:
        """The next section opens; a carriage return before a line feed is no part of its text."""
        self.text = next(self.sections).partition("\n")[2].replace("\r\n", "\n")

    def unit_name(self, place: int) -> str:
        """The name of the unit of the section that opens at this line; else the first fault."""
        if len(self.text.encode()) > LONGEST_UNIT:
            raise TooLong
        words = words_of_text(self.text)
        name = TextReader(words).text().name.text
        if self.verdict and int(self.verdict[1]) == place:
            at = self.verdict[3]
            if at is None or int(at) in {word.place for word in words}:
                raise TextFault(self.verdict[2].decode())
        return name
