#!/usr/bin/env python3
"""How often the explanation of a person's error, and GNAT's first message on it, name that error.

    bench/errors.py [--errors N] [--seed S] [--program PATH] [--missed] [--jobs J]

Draws N errors (200) as people make them in the unit texts of examples/ and of the rows of rv_rows: a reserved word misspelt, an end
left out, a sign or a word in place of another or left out, a name misspelt, another type, another mode, a priority. An error counts
where `ravenhost check` and GNAT 12 under `pragma Profile (Ravenscar)` both refuse the text. The sentences of `check --explain`, and
GNAT's first message, are judged alike, by their words alone: each names the error where it has

- of a misspelt word the word as it stands, or as it was meant;
- of an end that is left out its words (as `end if`), or the construct with the line where it begins;
- of a sign or word in place of another, or left out, the one that is meant;
- of a type, a mode or a priority the declared name, the operation, the aspect or the value that has it, or the type or range that is
  wanted.

It also tells how often what was meant is named: the right word, sign, end, type, mode or range. With --missed each error that one of
the two doesn't name is shown. Without --program a trial of the program is asked, before any proof. Statuses: 0 done, 1 too few errors
could be drawn, 2 usage, 127 a tool is missing.
"""
import argparse
import random
import re
import shutil
import subprocess
import sys
import tempfile
from collections import Counter
from concurrent.futures import ThreadPoolExecutor
from pathlib import Path
from typing import Callable, Iterator, NamedTuple

sys.path.insert(0, str(Path(__file__).resolve().parent))
sys.path.insert(0, str(Path(__file__).resolve().parent / "model"))
import gnat_check  # noqa: E402
import trial  # noqa: E402

TOP = Path(__file__).resolve().parents[1]
# How many of a hundred errors are of each kind.
SHARES = {"reserved word": 24, "end": 16, "sign": 14, "left out": 14, "name": 16, "type": 6, "mode": 5, "priority": 5}
# Misspelt by people, since they are long or written often.
RESERVED = ("protected procedure function private package entry begin return constant exception subtype others until delay loop then "
            "elsif else when task body case while raise exit range null end").split()
TOKEN = re.compile(r"--[^\n]*|[A-Za-z]\w*|\d[\w#]*|:=|=>|\.\.|/=|<=|>=|[^\s\w]")
LETTERS = "abcdefghijklmnopqrstuvwxyz"


class Word(NamedTuple):
    text: str
    at: int

    @property
    def end(self) -> int:
        return self.at + len(self.text)

    @property
    def low(self) -> str:
        return self.text.lower()

    @property
    def is_name(self) -> bool:
        return self.text[0].isalpha() and self.low not in ADA


class Error(NamedTuple):
    kind: str
    text: str
    names: tuple[str, ...]  # what names the error
    meant: tuple[str, ...]  # what names what was meant


class Case(NamedTuple):
    source: str
    before: tuple[str, ...]  # the unit texts before it
    error: Error


ADA = set("""abort abs abstract accept access aliased all and array at begin body case constant declare delay delta digits do else elsif
    end entry exception exit for function generic goto if in interface is limited loop mod new not null of or others out overriding package
    pragma private procedure protected raise range record rem renames requeue return reverse select separate some subtype synchronized
    tagged task terminate then type until use when while with xor""".split())


def words_of(text: str) -> list[Word]:
    return [Word(it[0], it.start()) for it in TOKEN.finditer(text) if not it[0].startswith("--")]


def with_word(text: str, word: Word, new: str) -> str:
    return text[:word.at] + new + text[word.end:]


def misspelt(draw: random.Random, word: str) -> str:
    """The word with one slip of the fingers: a letter left out, written twice, swapped with the next, or another."""
    at = draw.randrange(1, len(word)) if len(word) > 3 else draw.randrange(len(word))
    slip = draw.randrange(4)
    if slip == 0 and len(word) > 3:
        return word[:at] + word[at + 1:]
    if slip == 1:
        return word[:at] + word[at] + word[at:]
    if slip == 2:
        at = max(at, 1)
        return word[:at - 1] + word[at] + word[at - 1] + word[at + 1:]
    return word[:at] + draw.choice(LETTERS) + word[at + 1:]


def line_at(text: str, at: int) -> int:
    return text.count("\n", 0, at) + 1


# Each function below draws an error of its kind in a text, or says None where the text has no place for it.

def reserved_word(draw: random.Random, text: str, words: list[Word]) -> Error | None:
    found = [it for it in words if it.low in RESERVED]
    if not found:
        return None
    word = draw.choice(found)
    wrong = misspelt(draw, word.text)
    if wrong.lower() == word.low or wrong.lower() in ADA or "_" in wrong[:1]:
        return None
    return Error("reserved word", with_word(text, word, wrong), (wrong, word.low), (word.low,))


def openings(words: list[Word]) -> Iterator[tuple[int, int, str, Word]]:
    """Each end of the text: its first and last word's numbers, its words, and the word that opened what it ends."""
    stack: list[tuple[str, Word]] = []
    pending: tuple[str, Word] | None = None
    parentheses = 0
    for number, word in enumerate(words):
        low = word.low
        before = words[number - 1].low if number else ""
        if low == "(":
            parentheses += 1
        elif low == ")":
            parentheses -= 1
        elif low == "end":
            last = number
            while last + 1 < len(words) and words[last].text != ";":
                last += 1
            if stack:
                name, opener = stack.pop()
                yield number, last, name, opener
        elif before == "end":
            continue
        elif low in ("if", "case", "loop", "select"):
            if low == "loop" and pending and pending[0] in ("while", "for"):
                stack.append(("loop", pending[1]))
                pending = None
            else:
                stack.append((low, word))
        elif low in ("while",) or low == "for":
            pending = (low, word)
        elif low in ("package", "protected", "task", "function", "procedure", "entry") and not (low == "protected" and before == "type"):
            following = [it for it in words[number + 1:number + 4] if it.low not in ("body", "type")]
            pending = (following[0].text if following else "", word)
        elif low == "is" and pending and pending[0] not in ("while", "for"):
            stack.append(pending)
            pending = None
        elif low == ";" and parentheses == 0:
            pending = None


def an_end(draw: random.Random, text: str, words: list[Word]) -> Error | None:
    found = list(openings(words))
    # The end of the package's specification and of its body aside, which nobody forgets.
    found = [it for it in found if it[3].low != "package"]
    if not found:
        return None
    first, last, name, opener = draw.choice(found)
    wrong = text[:words[first].at] + text[words[last].end:]
    line = line_at(wrong, opener.at)
    return Error("end", wrong, (f"end {name}", f"{opener.low} .*line {line}\\b", f"{name} .*line {line}\\b"), (f"end {name}",))


def sign(draw: random.Random, text: str, words: list[Word]) -> Error | None:
    swaps = {"=>": ("=", ":="), ":=": ("=", ":"), "=": (":=", "=="), ":": (":=", ";"), ";": (",", ":"), "..": (".", ","), "/=": ("!=", "<>"),
             ",": (";",)}
    weights = {"=>": 6, ":=": 4, "=": 4, ";": 1, ":": 1, "..": 2, "/=": 3, ",": 2}
    found = [it for it in words if it.text in swaps]
    if not found:
        return None
    word = draw.choices(found, [weights[it.text] for it in found])[0]
    return Error("sign", with_word(text, word, draw.choice(swaps[word.text])), (word.text,), (word.text,))


def left_out(draw: random.Random, text: str, words: list[Word]) -> Error | None:
    kinds = {";": 2, "is": 4, "then": 8, "loop": 6, "begin": 6, ")": 2, "(": 1, "return": 3, "when": 3, ":": 2, "end": 2}
    found = [it for number, it in enumerate(words) if it.low in kinds and not (number and words[number - 1].low == "end")]
    if not found:
        return None
    word = draw.choices(found, [kinds[it.low] for it in found])[0]
    return Error("left out", with_word(text, word, ""), (word.low,), (word.low,))


def name(draw: random.Random, text: str, words: list[Word]) -> Error | None:
    found = [it for it in words if it.is_name and len(it.text) > 2]
    if not found:
        return None
    word = draw.choice(found)
    wrong = misspelt(draw, word.text)
    if wrong.lower() == word.low or wrong.lower() in ADA or any(it.low == wrong.lower() for it in words):
        return None
    return Error("name", with_word(text, word, wrong), (wrong, word.text), (word.text,))


def a_type(draw: random.Random, text: str, words: list[Word]) -> Error | None:
    other = {"integer": "Boolean", "natural": "Boolean", "positive": "Boolean", "boolean": "Integer", "true": "1", "false": "0"}
    found = [number for number, it in enumerate(words) if it.low in other and number]
    if not found:
        return None
    number = draw.choice(found)
    word = words[number]
    new = other[word.low]
    wrong = with_word(text, word, new)
    if word.low in ("true", "false"):
        return Error("type", wrong, (new, "integer", "boolean"), ("boolean",))
    first = number
    while first and words[first].text not in (":", "return", ";", "is"):
        first -= 1
    declared = words[first - 1].text if words[first].text == ":" else ""
    names = tuple(it for it in (declared, word.low, new.lower()) if it)
    return Error("type", wrong, names, (word.low,))


def mode(draw: random.Random, text: str, words: list[Word]) -> Error | None:
    found = [number for number, it in enumerate(words) if it.low == "out" and number > 1]
    if not found:
        return None
    number = draw.choice(found)
    word = words[number]
    first = number - 1
    while first and words[first].text != ":":
        first -= 1
    declared = words[first - 1].text
    head = max(it for it in range(first) if words[it].low in ("function", "procedure", "entry"))
    names = (declared, words[head + 1].text, "mode")
    return Error("mode", with_word(text, word, "" if words[number - 1].low == "in" else "in"), names, ("mode", "out"))


def priority(draw: random.Random, text: str, words: list[Word]) -> Error | None:
    found = [number for number, it in enumerate(words) if it.low in ("priority", "interrupt_priority") and number + 2 < len(words)
             and words[number + 1].text in ("=>", "(") and words[number + 2].text.isdigit()]
    if not found:
        return None
    number = draw.choice(found)
    aspect, value = words[number], words[number + 2]
    new = draw.choice(("999", "-1", "True", "High", "20.5", "1 + True"))
    meant = ("integer", "any_priority", "interrupt_priority", "1 .. 40", "31 .. 40")
    return Error("priority", with_word(text, value, new), (aspect.text, "system.priority", new, *meant), meant)


DRAWN: dict[str, Callable[[random.Random, str, list[Word]], Error | None]] = {
    "reserved word": reserved_word, "end": an_end, "sign": sign, "left out": left_out, "name": name, "type": a_type, "mode": mode,
    "priority": priority}


def texts_of(script: str) -> list[str] | None:
    """The unit texts of a script whose units are all texts, in order."""
    found: list[str] = []
    for part in re.split(r"(?m)^(?=@)", script.replace("\r\n", "\n")):
        opening, _, text = part.partition("\n")
        if opening in ("@shape", "@run", "@journal"):
            return None
        if opening == "@unit":
            found.append(text)
    return found


def sources() -> list[tuple[str, tuple[str, ...], str]]:
    """The texts to draw in: those of examples, and of rows that have no fault, each with the texts before it."""
    found, known = [], set()
    folders = (TOP / "examples", TOP / "crates" / "rv_rows" / "data")
    for file in sorted(it for folder in folders for it in folder.glob("*.raven")):
        if file.with_suffix(".fault").exists():
            continue
        try:
            texts = texts_of(file.read_text(encoding="utf-8"))
        except UnicodeDecodeError:
            continue
        for number, text in enumerate(texts or []):
            key = " ".join(text.split())
            if key not in known and 8 <= text.count("\n") <= 200 and text.isascii():
                known.add(key)
                found.append((file.stem, tuple(texts[:number]), text))
    return found


def gnat_says(before: tuple[str, ...], text: str) -> list[str]:
    """GNAT's errors on a unit whose text may be damaged: the specification ends where the body's `package body` stood."""
    with tempfile.TemporaryDirectory() as folder:
        place = Path(folder)
        (place / "ravenscar.adc").write_text("pragma Profile (Ravenscar);\n")
        (place / "host.ads").write_text(gnat_check.HOST)
        (place / "a-intnam.ads").write_text(gnat_check.LINES)
        body = ""
        for one in (*before, text):
            files = files_of(one)
            if files is None:
                return ["no files"]
            for name, part in files.items():
                (place / name).write_text(part)
            body = next(it for it in files if it.endswith(".adb"))
        ended = subprocess.run([*gnat_check.COMMAND, body], cwd=place, capture_output=True, timeout=120)
        told = ended.stderr.decode(errors="replace").splitlines()
        errors = [it for it in told if re.match(r"[\w-]+\.ad[sb]:\d+", it)]
        # The specification's errors first, as its text stands first.
        errors.sort(key=lambda it: not it.startswith(body.replace(".adb", ".ads")))
        return errors or (told if ended.returncode else [])


def files_of(text: str) -> dict[str, str] | None:
    """The specification and the body, by the names of GNAT's files. They part before the last `body` of a package, damaged or not."""
    plain = re.sub(r"--[^\n]*", lambda it: " " * len(it[0]), text)
    heads = list(re.finditer(r"(?im)^[ \t]*(\w+)[ \t]+(\w+)[ \t]+(\w+)[ \t]+(\w+)", plain))
    body = [it for it in heads if near(it[1], "package") and near(it[2], "body")] or \
           [it for it in heads if near(it[1], "package") and it[2].lower() != "body" and it is not heads[0]]
    name = re.search(r"(?im)^[ \t]*\w+[ \t]+(\w+)[ \t]+\w+\s*$", plain)
    first = next((it for it in heads if near(it[1], "package") and not near(it[2], "body")), None)
    if not body or (first is None and name is None):
        return None
    unit = (first[2] if first else name[1]).lower()
    spec, rest = text[:body[0].start()], text[body[0].start():]
    if re.search(r"(?i)\bwith\b[^;]*\bAda\s*\.\s*Real_Time\s*[,;]", spec):
        start = re.search(r"(?im)^[ \t]*\w+[ \t]+\w+[ \t]+is\b", spec)
        at = start.start() if start else len(spec)
        spec = spec[:at] + gnat_check.USE_TYPES.replace("\n", " ") + spec[at:]
    return {f"{unit}.ads": spec, f"{unit}.adb": rest}


def near(word: str, due: str) -> bool:
    """Whether a word is this one, or one slip away."""
    word = word.lower()
    if word == due or sorted(word) == sorted(due):
        return True
    if abs(len(word) - len(due)) > 1:
        return False
    for at in range(max(len(word), len(due))):
        if word[:at] + word[at + 1:] == due or due[:at] + due[at + 1:] == word or (word[:at], word[at + 1:]) == (due[:at], due[at + 1:]):
            return True
    return False


def script_of(before: tuple[str, ...], text: str) -> bytes:
    return "".join(f"@unit\n{it.rstrip()}\n" for it in (*before, text)).encode()


def asked(program: Path | None, inputs: dict[str, bytes], jobs: int) -> dict[str, str]:
    """What `check --explain` writes for each script."""
    if program is None:
        return {name: said.decode() for name, said in trial.written(inputs, ["check", "--explain"], 3000).items()}

    def one(text: bytes) -> str:
        ended = subprocess.run([program, "check", "--explain"], input=text, capture_output=True, timeout=60)
        return (ended.stdout + ended.stderr).decode(errors="replace")

    with ThreadPoolExecutor(jobs) as pool:
        return dict(zip(inputs, pool.map(one, inputs.values())))


def first_of(told: list[str]) -> str:
    """GNAT's first message: its first line, and those below it that tell more of the same place."""
    place = re.match(r"[\w-]+\.ad[sb]:\d+:\d+:", told[0])
    return "; ".join(it for number, it in enumerate(told) if number == 0 or place and it.startswith(place[0])
                     and all(one.startswith(place[0]) for one in told[:number]))


def sentences(told: str) -> str:
    """The sentences of an explanation, without the lines that it shows."""
    return " ".join(it[4:] for it in told.splitlines() if it.startswith("  = "))


def has(message: str, form: str) -> bool:
    """Whether a message has this word or these words, case and quotes ignored."""
    plain = re.sub(r"[\"`']", " ", re.sub(r"(^|; )[\w-]+\.ad[sb]:\d+:\d+: ", " ", message))
    plain = " ".join(plain.split())
    if form[0].isalnum():
        pattern = form if ".*" in form else re.escape(form)
        return re.search(rf"(?i)(?<!\w){pattern}(?!\w)", plain) is not None
    return re.search(rf"(?<![:=<>/.*]){re.escape(form)}(?![=>.])", plain) is not None


def names_it(message: str, forms: tuple[str, ...]) -> bool:
    return any(has(message, form) for form in forms)


def drawn(errors: int, seed: int, taken: list[tuple[str, tuple[str, ...], str]]) -> Iterator[tuple[str, list[Case]]]:
    """For each kind, as many cases as may be wanted, since some are no errors."""
    for kind, share in SHARES.items():
        draw = random.Random(f"{seed} {kind}")
        cases: list[Case] = []
        for _turn in range(20_000):
            if len(cases) >= 3 * share * errors // 100 + 6:
                break
            source, before, text = draw.choice(taken)
            error = DRAWN[kind](draw, text, words_of(text))
            if error is not None and all(it.error.text != error.text for it in cases):
                cases.append(Case(source, before, error))
        yield kind, cases


def main() -> int:
    parser = argparse.ArgumentParser(description="How often explanations, and GNAT's first message, name a person's error.")
    parser.add_argument("--errors", metavar="N", type=int, default=200)
    parser.add_argument("--seed", metavar="S", type=int, default=0)
    parser.add_argument("--program", metavar="PATH", type=Path, help="asks this program in place of a trial")
    parser.add_argument("--missed", action="store_true", help="shows each error that one of the two doesn't name")
    parser.add_argument("--jobs", metavar="J", type=int, default=2)
    arguments = parser.parse_args()
    if not shutil.which("gcc") or not shutil.which("gnatmake"):
        print("bench/errors.py: gcc or gnatmake is missing (Debian's package gnat)", file=sys.stderr)
        return 127
    program = arguments.program.absolute() if arguments.program else None
    with ThreadPoolExecutor(arguments.jobs) as pool:
        texts = sources()
        clean = list(pool.map(lambda it: not gnat_says(it[1], it[2]), texts))
        taken = [it for it, is_clean in zip(texts, clean) if is_clean]
        pools = dict(drawn(arguments.errors, arguments.seed, taken))
        inputs = {f"{kind.replace(' ', '_')}_{number:03}": script_of(case.before, case.error.text)
                  for kind, cases in pools.items() for number, case in enumerate(cases)}
        said = asked(program, inputs, arguments.jobs)
        judged: list[tuple[Case, str, str, str]] = []
        for kind, cases in pools.items():
            gnat = list(pool.map(lambda it: gnat_says(it.before, it.error.text), cases))
            wanted = SHARES[kind] * arguments.errors // 100
            both = [(case, said[f"{kind.replace(' ', '_')}_{number:03}"], told) for number, (case, told) in enumerate(zip(cases, gnat))
                    if "script line" in said[f"{kind.replace(' ', '_')}_{number:03}"] and told and told != ["no files"]]
            if len(both) < wanted:
                print(f"bench/errors.py: only {len(both)} errors of {wanted}: {kind}", file=sys.stderr)
                return 1
            judged += [(case, sentences(ours), ours, first_of(told)) for case, ours, told in both[:wanted]]
    report(judged, arguments.missed, len(taken))
    return 0


def report(judged: list[tuple[Case, str, str, str]], missed: bool, texts: int) -> None:
    counts: Counter[tuple[str, str]] = Counter()
    for case, ours, whole, gnat in judged:
        error = case.error
        found = {"named by us": names_it(ours, error.names), "named by GNAT": names_it(gnat, error.names),
                 "meant, by us": names_it(ours, error.meant), "meant, by GNAT": names_it(gnat, error.meant)}
        counts[error.kind, "all"] += 1
        for column, holds in found.items():
            counts[error.kind, column] += holds
        if missed and not (found["named by us"] and found["named by GNAT"]):
            who = " and ".join(it for it, column in (("we", "named by us"), ("GNAT", "named by GNAT")) if not found[column])
            print(f"=== {error.kind} in {case.source}, missed by {who}; named by {error.names}\n{whole.rstrip()}\n--- {gnat}")
    columns = ("all", "named by us", "named by GNAT", "meant, by us", "meant, by GNAT")
    print(f"errors in {texts} texts: " + ", ".join(columns))
    for kind in SHARES:
        print(f"{kind:14}" + "".join(f"{counts[kind, column]:8}" for column in columns))
    print(f"{'all':14}" + "".join(f"{sum(counts[kind, column] for kind in SHARES):8}" for column in columns))


if __name__ == "__main__":
    sys.exit(main())
