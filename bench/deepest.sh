#!/usr/bin/env bash
# Plays the deepest texts that the limits of nesting allow (`deepest_texts.py`), each by `play` and by `run`, and compares
# each journal with the one that is due (`deepest_runs.py`). In a run the actor's thread has the stack of `rv_crew::running::STACK_BYTES`.
# What reading them takes of the program's own stack is shown before (`deepest_stack.py`).
# Programs may be given; else it is the built one, as LLVM builds it, and as Rattle's own compiler does where that one stands
# beside it (`ravenhost.by-rattle`). It needs python3.
set -eu

command -v python3 >/dev/null || { echo "bench/deepest.sh: python3 is missing" >&2; exit 127; }
bench=$(dirname "$(readlink -f "$0")")
built=$bench/../crates/ravenhost/out/ravenhost
programs=("$@")
if [ $# -eq 0 ]; then
    programs=("$built")
    if [ -x "$built.by-rattle" ]; then programs+=("$built.by-rattle"); fi
fi
for program in "${programs[@]}"; do
    [ -x "$program" ] || { echo "bench/deepest.sh: $program isn't built" >&2; exit 127; }
done
export PYTHONDONTWRITEBYTECODE=1
python3 "$bench/deepest_stack.py" "${programs[@]}"
exec python3 "$bench/deepest_runs.py" "${programs[@]}"
