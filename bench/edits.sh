#!/usr/bin/env bash
# Tries the must-fail edits that the gate leaves out, since their crates are dear to prove a second time, or since others of
# their kind stand in the gate: the prover has to refuse each. Names of crates may be given; else all of bench/edits are
# tried, and with them the gate's own edits of these crates. It needs rt, and some eighty processor minutes.
set -eu

command -v rt >/dev/null || { echo "bench/edits.sh: rt is missing" >&2; exit 127; }
cd "$(dirname "$(readlink -f "$0")")/.."
[ $# -gt 0 ] || set -- $(ls bench/edits)

taken=()
put_back() {
    for file in "${taken[@]}"; do
        rm -f "$file"
        rmdir --ignore-fail-on-non-empty "$(dirname "$file")"
    done
}
trap put_back EXIT
for crate in "$@"; do
    if [ ! -d "bench/edits/$crate" ]; then
        echo "bench/edits.sh: no edits of $crate here" >&2
        exit 2
    fi
    mkdir -p "crates/$crate/must-fail"
    for edit in "bench/edits/$crate"/*.edit; do
        file=crates/$crate/must-fail/$(basename "$edit")
        if [ -e "$file" ]; then
            echo "bench/edits.sh: $file stands in the gate already" >&2
            exit 2
        fi
        taken+=("$file")
        cp "$edit" "$file"
    done
done
rt must-fail "$@"
