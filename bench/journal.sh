#!/usr/bin/env bash
# Measures a push into the journal beside one into the journal of whole entries and one of a record of 64 bytes into a Vec, in
# fresh memory and in memory that was touched before; and how much memory an empty journal of the largest capacity touches.
# Then refuses each allocation of a reservation of 300 entries in turn: it must end with status 3, want of memory, and with all
# that it had got given back. A number of entries may be given; the first time it takes some minutes to prove and build. It
# needs rt, python3 and a C compiler, for a library of a few lines that stands before malloc.
set -eu

bench=$(dirname "$(readlink -f "$0")")
. "$bench/shared/measuring.sh"
python3 -c 'import resource, subprocess' 2>/dev/null || missing "python3, or its module resource,"
needs cc
enter_rv_bench reserve 16
entries=${1:-262144}

machine
echo "-- what is given back is fresh again"
MALLOC_MMAP_THRESHOLD_=65536 MALLOC_TRIM_THRESHOLD_=0 out/rv_bench push "$entries"
echo "-- what is given back stays: touched from round 3 on"
MALLOC_MMAP_MAX_=0 MALLOC_TRIM_THRESHOLD_=17179869184 out/rv_bench push "$entries"

python3 - <<'EOF'
import resource, subprocess
subprocess.run(["out/rv_bench", "reserve", "1048576"], stdout=subprocess.DEVNULL, check=True)
peak = resource.getrusage(resource.RUSAGE_CHILDREN).ru_maxrss / 1024
print(f"an empty journal of 1048576 entries, with the program: {peak:.0f} MiB touched (aim: 64 MiB)")
EOF

build_allocations
# Reserves so many entries with the allocation of a number refused; prints the status and what is left.
reserve_refused() {
    local status=0
    LEFT=1 REFUSED=$2 LD_PRELOAD=$allocations out/rv_bench reserve "$1" >"$folder/written" 2>&1 9>"$folder/left" || status=$?
    echo "$status $(cat "$folder/left")"
}

number=0 refused=0
whole=$(reserve_refused 300 0)
while true; do
    number=$((number + 1))
    result=$(reserve_refused 300 "$number")
    case $result in
    *none*) break ;;
    "3 ${whole#0 }") refused=$((refused + 1)) ;;
    *)
        echo "allocation $number refused: status and blocks left are '$result', not '3 ${whole#0 }'"
        exit 1
        ;;
    esac
done
echo "reserve 300: $refused allocations, each refused: status 3, and nothing is kept"
