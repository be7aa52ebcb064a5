#!/usr/bin/env bash
# Compares what 500 drawn bodies do in `ravenhost play` with what they do in an Ada program that GNAT compiles: the components and
# the exception behind each call. It is no test. It takes `--bodies N`, `--seed S`, `--keep FOLDER` (for what it makes), `--program PATH`
# in place of the built program, and `--try`, which plays by `rt try`, before any proof; only that needs rt. It needs python3 (3.9 or
# newer), gnatmake and gnatchop (Debian's package gnat).
# Statuses: 0 no difference, 1 a difference, 2 usage, 127 a tool is missing.
set -eu

missing() {
    echo "bench/gnat_bodies.sh: $1 is missing" >&2
    exit 127
}
python3 -c 'import sys; sys.exit(sys.version_info < (3, 9))' 2>/dev/null || missing "python3 (3.9 or newer)"
for tool in gnatmake gnatchop; do
    command -v "$tool" >/dev/null || missing "$tool"
done

cd "$(dirname "$(readlink -f "$0")")/.."
exec python3 -B bench/gnat_bodies/compare.py "$@"
