#!/usr/bin/env bash
# Cuts each script of rv_rows before each of its bytes, and replaces each of its bytes once; looks at each of these scripts
# (`check`) and plays it, and says how many runs came to which end. Each has to be done or refused; a run that ends the
# process, or that fails, fails this. rv_rows does it, one process for each processor with its share of the places. Three of
# the deepest texts, whose runs take a second each, are left out. Scripts may be given instead. It takes over an hour of
# processor time, most of it for two scripts of some 40 kB. It needs rt; the first time it takes over half an hour more to
# prove and build.
set -eu
for tool in rt awk nproc; do
    command -v "$tool" >/dev/null || { echo "bench/cut_texts.sh: $tool is missing" >&2; exit 127; }
done
folder=$(mktemp -d)
trap 'rm -rf "$folder"' EXIT
mkdir "$folder/scripts"
[ $# -eq 0 ] || cp -- "$@" "$folder/scripts/"
cd "$(dirname "$(readlink -f "$0")")/../crates/rv_rows"
[ $# -gt 0 ] || cp data/*.raven "$folder/scripts/"
[ -x out/rv_rows ] || rt run >/dev/null
program=$PWD/out/rv_rows

cd "$folder/scripts"
start=$(date +%s)
shares=$(nproc)
pids=()
for ((share = 0; share < shares; share++)); do
    "$program" "$share" "$shares" >"$folder/$share.said" &
    pids+=($!)
done
for pid in "${pids[@]}"; do wait "$pid"; done
for how in cut damaged; do
    cat "$folder"/*.said | awk -v how="$how" '$1 == how ":" { done += $2; refused += $4; failed += $6 }
        END { print how ": done " done + 0 ", refused " refused + 0 ", failed " failed + 0 }'
done | tee "$folder/sums"
bytes=$(cat -- * | wc -c)
echo "$(ls | wc -l) scripts of $bytes bytes, $(($(date +%s) - start)) s"
# Twice a place, once by `check` and once by `play`; none left out, and none failed.
awk -v due=$((2 * bytes)) '$3 + $5 != due || $7 != 0 { exit 1 }' "$folder/sums"
