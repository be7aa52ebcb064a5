#!/usr/bin/env bash
# Looks at the manual page, the completions and the syntax for vim. It proves and builds nothing, and takes a minute.
#
# The page is read by mandoc and groff, its sentences are counted, and each flag that the help has must stand in it. The
# completions must be those that the help gives now, and are tried in a bash and a zsh. The syntax is tried on a sample, on
# all examples and on the rows of the tests: it must show no error where the program finds none, and one in the line at fault
# where the line's own words are wrong. Needs mandoc, man, zsh, vim, shellcheck, Python, and Debian's bash-completion.
# shellcheck disable=SC2317 # due calls the functions
set -u

for tool in mandoc man zsh vim shellcheck python3; do
    command -v "$tool" >/dev/null || { echo "bench/manual.sh: $tool is missing" >&2; exit 127; }
done
cd "$(dirname "$(readlink -f "$0")")/.." || exit 2
folder=$(mktemp -d)
trap 'rm -rf "$folder"' EXIT
faults=0

# due NAME COMMAND..: a command that must end with 0 and say nothing on standard error.
due() {
    local name=$1
    shift
    if "$@" >"$folder/out" 2>"$folder/err" && [ ! -s "$folder/err" ]; then
        echo "as due: $name"
    else
        faults=$((faults + 1))
        echo "NOT AS DUE: $name"
        head -20 "$folder/out" "$folder/err"
    fi
}

# mandoc looks for the pages that are referred to in a list of its own, which a machine may lack; that isn't the page's fault.
lint() {
    ! mandoc -Tlint docs/ravenhost.1 2>&1 | grep -v -e 'outdated mandoc.db' -e 'referenced manual not found'
}
groff_page() {
    man --warnings -E UTF-8 -l docs/ravenhost.1 >/dev/null
}
sentences() {
    mandoc -Tutf8 -Owidth=1000 docs/ravenhost.1 | LC_ALL=C.UTF-8 col -bx | bench/page_sentences.py
}

# Each flag of the help pages and of the launcher's.
flags_named() {
    local word missing=0 count=0
    mandoc -Tutf8 docs/ravenhost.1 | LC_ALL=C.UTF-8 col -bx >"$folder/page"
    while read -r word; do
        count=$((count + 1))
        grep -qE -e "(^|[^-a-z])$word([^-a-z]|\$)" "$folder/page" || { echo "$word isn't in the page"; missing=1; }
    done < <(sed -n '/^ /p' crates/ravenhost/usage/help* crates/ravenhost/usage/launcher* | grep -oE -e '(^| )--?[a-zA-Z][-a-zA-Z]*' | sort -u)
    # The words of the launcher that are no flags.
    while read -r word; do
        count=$((count + 1))
        grep -qE -e "^ +.*(^| )$word( |,|\$)" "$folder/page" || { echo "$word isn't in the page"; missing=1; }
    done < <(sed -nE 's/^  ([a-z]+) .*/\1/p' crates/ravenhost/usage/launcher | sort -u)
    [ "$missing:$((count > 14))" = 0:1 ]
}

# Each status that README has, and each request of a step that SCRIPTS has, below the page's own heads.
statuses_and_requests() {
    python3 - "$folder/page" <<'END'
import re, sys
page = open(sys.argv[1]).read()
below = lambda head, end: re.search(head + r"\n(.*?)" + end, page, re.S)[1]
told = re.search(r"^- Statuses: (.*?)\n-", open("README.md").read(), re.S | re.M)[1]
statuses = set(re.findall(r"\b(\d+)[ ,]", told))
stated = {it for row in re.findall(r"^ {5}(\d[\d, ]*?)(?: {2,}|$)", below("EXIT STATUS", "\nEXAMPLES"), re.M) for it in row.split(", ")}
requests = set(re.findall(r"^- `(?:ACTOR|Int_K|operator) (\w+)", open("docs/SCRIPTS.md").read(), re.M))
said = set(re.findall(r"\w+", below(" +Steps", "\n +Commands of a run")))
assert len(statuses) > 7 and len(requests) > 12, (statuses, requests)
missing = [f"status {it}" for it in sorted(statuses - stated, key=int)] + [f"request {it}" for it in sorted(requests - said)]
sys.exit("not in the page: " + ", ".join(missing) if missing else 0)
END
}

# What clap is told in the source stands in the stored help. bench/command_line.py compares it with the program's own.
stored_help() {
    python3 - <<'END'
import glob, re
pages = " ".join(" ".join(open(page).read() for page in sorted(glob.glob("crates/ravenhost/usage/help*"))).split())
# (misuse.rt has what is told of flags that are given wrongly)
source = "".join(open(file).read() for file in sorted(glob.glob("crates/rv_choice/src/*.rt")) if not file.endswith("/misuse.rt"))
source = re.sub(r"^\s*(//|ghost ).*$", "", source, flags=re.M)
told = [words for words in re.findall(r'"([^"\n]*)"', source) if " " in words]
assert len(told) > 8, told
missing = [words for words in told if " ".join(words.split()) not in pages]
assert not missing, missing
END
}

# The 73 reserved words of Ada 2012: those that the grammar quotes are words of the syntax, the others are errors there.
words_of_ada() {
    python3 - <<'END'
import re
reserved = """abort abs abstract accept access aliased all and array at begin body case constant declare delay delta digits do else
elsif end entry exception exit for function generic goto if in interface is limited loop mod new not null of or others out
overriding package pragma private procedure protected raise range record rem renames requeue return reverse select separate
some subtype synchronized tagged task terminate then type until use when while with xor""".split()
quoted = {word for word in re.findall(r'"([a-z]+)"', open("docs/GRAMMAR.md").read()) if word in reserved}
syntax = open("manual/vim/syntax/raven.vim").read()
groups = {}
for group, words in re.findall(r"^syntax keyword ravenAda(\w+) contained (.*)$", syntax, re.M):
    groups.setdefault(group, set()).update(words.split())
taken = groups["Word"] | groups["Operator"] | groups["Refused"] | {"pragma"}
assert len(reserved) == 73, len(reserved)
assert quoted == taken, quoted ^ taken
assert groups["Absent"] == set(reserved) - quoted, groups["Absent"] ^ (set(reserved) - quoted)
END
}

# shown WHAT: what the syntax makes of the files in $folder/files, into $folder/shown.
shown() {
    rm -f "$folder/shown"
    WHAT=$1 FILES=$folder/files SHOWN=$folder/shown vim -u NONE -i NONE -n -es -N --cmd "set runtimepath^=$PWD/manual/vim" \
        --cmd 'set encoding=utf-8' --cmd 'filetype on' --cmd 'syntax on' -S bench/editor/shown.vim </dev/null
    [ -e "$folder/shown" ] || { echo "vim wrote nothing" && return 1; }
}
sample() {
    echo "$PWD/bench/editor/sample.raven" >"$folder/files"
    shown groups && diff bench/editor/sample.shown "$folder/shown"
}
examples() {
    printf '%s\n' "$PWD"/examples/*.raven >"$folder/files"
    shown errors && diff /dev/null "$folder/shown"
}

# The rows of the tests beside what the program says of them. Names that are left out have carriage returns in some lines
# only, others rubbish in a journal that a later one takes the place of, or behind `quit`.
rows() {
    printf '%s\n' "$PWD"/crates/rv_rows/data/*.raven >"$folder/files"
    shown errors && python3 - "$folder/shown" <<'END'
import collections, os, re, sys
data = "crates/rv_rows/data"
errors = collections.defaultdict(set)
for line in open(sys.argv[1]):
    file, number = line.rstrip("\n").rsplit(":", 1)
    errors[os.path.basename(file)[:-len(".raven")]].add(int(number))
# Faults of a line's own words, but where a number is the fault, a word of the console, a section that another command serves, or
# nothing that an editor shows.
told = ("BadStep", "BadSection", "list BadWord", "list BadName", "lex BadCharacter", "lex NotAscii")
not_told = {"go_zero_times", "go_below_zero_times", "archive_of_fewer_than_none", "step_calls_with_5_values", "step_operator_without_request",
            "step_raises_with_a_letter_past_ascii", "step_without_request", "list_name_ends_in_underscore", "cause_command_journal",
            "cause_command_raise", "cause_command_blank", "cause_mark_before_a_section", "cause_load_of_a_section",
            "cause_step_33_components", "cause_step_alone", "cause_step_go", "cause_step_values_5", "whole_load_without_end",
            "cause_command_unknown", "whole_bad_command"}
served = {b"@unit", b"@shape", b"@list", b"@steps", b"@run", b"@journal", b"@host.toml"}
count, wrong = collections.Counter(), 0
for file in sorted(os.listdir(data)):
    name, kind = os.path.splitext(file)
    if kind != ".raven":
        continue
    def stored(kind):
        path = f"{data}/{name}{kind}"
        return open(path, encoding="utf-8").read() if os.path.exists(path) else ""
    with open(f"{data}/{file}", "rb") as script:
        text = script.read()
    lines = text.split(b"\n")
    if b"\r" in text or name in ("audit_two_journals", "whole_commands"):
        continue
    fault, verdict = stored(".fault"), stored(".verdict")
    if not fault and (not verdict or verdict.startswith("legal")):
        count["without a fault"] += 1
        if errors[name]:
            print(f"{name}: an error is shown in line {min(errors[name])}, and the program finds none")
            wrong += 1
    found = re.match(r"script line (\d+): (.*)", fault)
    if found and found[2].startswith(told) and name not in not_told:
        opening = int(found[1])
        if found[2] == "BadSection" and lines[opening - 1] in served:
            continue
        last = next((n for n in range(opening, len(lines)) if lines[n].startswith(b"@")), len(lines))
        due = set(range(opening, last + 1)) if found[2].startswith("lex") else {opening}
        listed = re.search(r" at line (\d+)", fault)
        if listed and lines[opening - 1].startswith(b"@list"):
            due = {opening + int(listed[1])}
        count["with a fault of words"] += 1
        if not due & errors[name]:
            print(f"{name}: no error is shown where the program says {fault.strip()}")
            wrong += 1
print(dict(count))
sys.exit(1 if wrong or min(count.values()) < 50 else 0)
END
}

# The completions where an installation has them, for a program that is no script and for the launcher.
completions() {
    mkdir -p "$folder/prefix/bin" "$folder/prefix/share/bash-completion/completions" "$folder/prefix/share/zsh/site-functions" &&
        cp "$(type -P true)" "$folder/prefix/bin/ravenhost" &&
        cp manual/ravenhost.bash "$folder/prefix/share/bash-completion/completions/ravenhost" &&
        cp manual/_ravenhost "$folder/prefix/share/zsh/site-functions/" &&
        bench/complete_words.py "$folder/prefix" ./ravenhost
}

# A changed help makes the stored completions stale, and new ones have its listed values.
stale() {
    mkdir -p "$folder/copy/crates/ravenhost" && cp -R manual "$folder/copy" && cp -R crates/ravenhost/usage "$folder/copy/crates/ravenhost" &&
        "$folder/copy/manual/completions.py" --check || return
    sed -i 's/^      --all   .*/      --when <WHEN>\n          In [brackets]: it is long [possible values: a, b]\n/' \
        "$folder/copy/crates/ravenhost/usage/help-play"
    ! "$folder/copy/manual/completions.py" --check 2>/dev/null && "$folder/copy/manual/completions.py" &&
        grep -qx '        --when) echo "a b" ;;' "$folder/copy/manual/ravenhost.bash" && bash -n "$folder/copy/manual/ravenhost.bash" &&
        grep -qF ":WHEN:(a b)'" "$folder/copy/manual/_ravenhost" && zsh -n "$folder/copy/manual/_ravenhost"
}

due "mandoc -Tlint" lint
due "man --warnings" groff_page
due "sentences of at most 20 words" sentences
due "each flag stands in the page" flags_named
due "each status and each request of a step stands in the page" statuses_and_requests
due "the stored help has the words of the source" stored_help
due "completions are those of the help" manual/completions.py --check
due "a changed help is seen" stale
due "shellcheck" shellcheck ravenhost manual/ravenhost.bash bench/manual.sh bench/install.sh
due "zsh reads its file" zsh -n manual/_ravenhost
due "completions in bash and zsh" completions
due "the reserved words" words_of_ada
due "the syntax on the sample" sample
due "the syntax on the examples" examples
due "the syntax on the rows" rows
echo "faults: $faults"
exit $((faults > 0))
