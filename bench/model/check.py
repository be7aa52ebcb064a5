"""What `check` must print."""
from grammar_words import TextFault
from lists import ListFault, read_list
from play import Fault, Outcome, outcome_of
from settings import SettingsFault, read_settings
from shapes import Catalogue, Unit, read_shape
from unit_texts import TooLong, UnitTexts


class Checker:
    def __init__(self, script: bytes, told: bytes) -> None:
        self.texts = UnitTexts(script, told)
        self.catalogue = Catalogue()
        self.output: list[str] = []
        self.is_begun = False

    def section(self, opening: str, lines: list[str], place: int) -> None:
        """Looks at the section that opens at that line of the script."""
        is_first, self.is_begun = not self.is_begun, True
        self.texts.next_section()
        try:
            if opening == "@host.toml" and is_first:
                read_settings(self.texts.text)
            elif opening == "@list":
                self.output.append(f"list: ok {len(read_list(lines))} lines\n")
            elif opening == "@shape":
                self.shape(lines, place)
            elif opening == "@unit":
                self.unit(place)
            else:
                raise Fault(place, "BadSection")
        except TooLong:
            raise Fault(place, "TooLong")
        except (ListFault, SettingsFault, TextFault) as fault:
            raise Fault(place, fault)

    def shape(self, lines: list[str], place: int) -> None:
        unit = read_shape(lines, self.catalogue)
        if isinstance(unit, str):
            raise Fault(place, f"shape {unit}")
        self.catalogue.add(unit)
        self.output.append(f"shape {unit.name}: ok\n")

    def unit(self, place: int) -> None:
        name = self.texts.unit_name(place)
        self.catalogue.add(Unit(name))
        self.output.append(f"unit {name}: ok\n")


def check(script: bytes, told: bytes = b"") -> Outcome:
    """What `ravenhost check` writes for a script, and its status, where the program told this fault, if any."""
    checker = Checker(script, told)
    return outcome_of(script, checker.output, checker.section)
