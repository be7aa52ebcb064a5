#!/usr/bin/env python3
"""Places of ten lines or more in the sources that say the same thing: one is the other with its names changed.

    bench/said_twice.py [--lines N]

Names change one to one. Keywords, numbers, quoted texts and signs stay. What doesn't count: comments, imports, attributes, heads of
modules, lists of fields and variants, what an impl says of its model, tables whose words differ, and what KEPT names. Status 1 where a
pair is found.
"""
import argparse
import re
import subprocess
import sys
from collections import Counter, defaultdict
from dataclasses import dataclass
from pathlib import Path

ROOT = Path(__file__).resolve().parents[1]
SOURCES = "crates/*.rt", "crates/*.antt", "bench/*.py", "bench/*.sh", "bench/*.rt"
COMMENTS = {".rt": "//", ".antt": "--", ".py": "#", ".sh": "#"}
KEYWORDS = frozenset(
    "abbrev and as break class const continue crate data def elif else enum fn for from ghost if impl import in is let loop match "
    "module mut not or pub record ref return self struct trait type use where while with yield do done echo fi then true false".split())
UNCOUNTED = re.compile(
    r"(pub )?(ghost )?(use|mod|import|from)\b.*|#\[.*|ghost (Value|view|Tree|starts|rule)\b.*|module _ .*"
    r"|(pub |pub\(crate\) )?\w+(: [\w:<>&' ]+)?( = \d+)?,?|\W*")
TOKEN = re.compile(r'"(?:[^"\\]|\\.)*"|\'[^\']*\'|[^\W\d][\w\']*|\d+|\S')
NAME = re.compile(r"[^\W\d]")

# Files that may be alike, in how many pairs, and why: two types of the tree, each with its own mutual recursion, where one form over both was
# longer; what a type has; what only says which law or which case; and what stands alone.
KEPT = (
    ("rv_grammar/src/expression.rt", "", 4, "factors and terms, relations and sums: lists of other types"),
    ("rv_grammar/proofs/expression/.*", "", 1, "their answers"),
    ("rv_grammar/proofs/ExpressionSound.antt", "", 1, "their last case"),
    ("rv_grammar/src/operator.rt", "", 1, "the operators of the two"),
    ("rv_static/src/value.rt", "", 3, "factors and terms"),
    ("rv_grammar/src/statement.rt", "", 2, "alternatives and elsif parts: lists of other types"),
    ("rv_grammar/proofs/statement/.*", "", 1, "their answers"),
    ("rv_grammar/proofs/(Statement|Unit)Sound.antt", "rv_grammar/proofs/UnitSound.antt", 2, "productions of two words"),
    ("rv_grammar/proofs/DeepStatements.antt", "", 1, "alternatives and elsif parts"),
    ("rv_grammar/specs/BodyRules.antt", "", 1, "productions"),
    ("rv_grammar/src/fault.rt", "rv_names/src/fault.rt", 1, "the conversions of two errors"),
    ("rv_tree/src/print_body.rt", "rv_tree/src/print_unit.rt", 1, "printing of two productions"),
    ("rv_restrict/proofs/.*Invariants.antt", "rv_restrict/proofs/.*Invariants.antt", 1, "measures of two recursions"),
    ("rv_outline/src/draft.rt", "rv_shape/src/object.rt", 1, "fields and a model"),
    ("rv_accounts/src/lib.rt", "rv_meant/src/lib.rt", 4, "laws, each a function that does nothing"),
    ("embedding/src/main.rt", "ravenhost/src/main.rt", 1, "an example stands alone"),
)


@dataclass(frozen=True)
class Line:
    number: int
    words: tuple[str, ...]

    def shape(self) -> tuple[str, ...]:
        return tuple("" if is_name(word) else word for word in self.words)


def is_name(word: str) -> bool:
    return word not in KEYWORDS and NAME.match(word) is not None


def lines_of(path: Path) -> list[Line]:
    comment = COMMENTS[path.suffix]
    found = []
    for number, text in enumerate(path.read_text().splitlines(), 1):
        text = text.strip()
        if not text.startswith(comment) and not UNCOUNTED.fullmatch(text):
            found.append(Line(number, tuple(TOKEN.findall(text))))
    return found


def is_table(lines: list[Line]) -> bool:
    """Whether most lines are rows of one form, the words in them aside."""
    forms = Counter(tuple(word if re.match(r"[^\w\"']", word) else "" for word in line.words) for line in lines)
    return 5 * max(forms.values()) >= 3 * len(lines)


def alike(one: list[Line], other: list[Line]) -> int:
    """How many lines from the first on are alike, names changed one to one."""
    there: dict[str, str] = {}
    back: dict[str, str] = {}
    for count, (left, right) in enumerate(zip(one, other)):
        if left.shape() != right.shape():
            return count
        for a, b in zip(left.words, right.words):
            if is_name(a) and (there.setdefault(a, b) != b or back.setdefault(b, a) != a):
                return count
    return min(len(one), len(other))


def differ(one: list[Line], other: list[Line]) -> bool:
    return any(left.words != right.words for left, right in zip(one, other))


def pairs(files: dict[str, list[Line]], least: int):
    """The places alike, each as long as it is, the longest first."""
    places = defaultdict(list)
    for name, lines in files.items():
        shapes = [line.shape() for line in lines]
        for at in range(len(lines) - least + 1):
            places[tuple(shapes[at:at + least])].append((name, at))
    told, found = set(), []
    for at_once in places.values():
        for index, (left, i) in enumerate(at_once):
            for right, j in at_once[index + 1:]:
                if (left, i, right, j) in told or left == right and j < i + least:
                    continue
                ones, others = files[left][i:], files[right][j:]
                count = alike(ones[:j - i] if left == right else ones, others)
                if count >= least and not (is_table(ones[:count]) and differ(ones[:count], others)):
                    told.update((left, i + k, right, j + k) for k in range(count - least + 1))
                    found.append((count, left, ones[0].number, ones[count - 1].number, right, others[0].number, others[count - 1].number))
    return sorted(found, reverse=True)


def row_of(left: str, right: str) -> int | None:
    """The row of KEPT that two files fall under."""
    for row, (one, other, _, _) in enumerate(KEPT):
        if re.fullmatch(f"crates/{one}", left) and re.fullmatch(f"crates/{other or one}", right):
            return row
    return None


def without_kept(found):
    """The pairs that fall under no row, or are more than their row keeps."""
    counts: Counter[int] = Counter()
    for pair in found:
        row = row_of(pair[1], pair[4])
        if row is not None:
            counts[row] += 1
        if row is None or counts[row] > KEPT[row][2]:
            yield pair


def main() -> int:
    asked = argparse.ArgumentParser(description=__doc__, formatter_class=argparse.RawDescriptionHelpFormatter)
    asked.add_argument("--lines", type=int, default=10, help="how many lines count (10)")
    least = asked.parse_args().lines
    listed = subprocess.run(["git", "ls-files", *SOURCES], cwd=ROOT, capture_output=True, text=True, check=True).stdout.split()
    files = {name: lines_of(ROOT / name) for name in listed}
    found = list(without_kept(pairs(files, least)))
    for count, left, first, last, right, begin, end in found:
        print(f"{count} lines: {left}:{first}-{last} ~ {right}:{begin}-{end}")
    print(f"{len(found)} pairs of places alike in {len(files)} files")
    return 1 if found else 0


if __name__ == "__main__":
    sys.exit(main())
