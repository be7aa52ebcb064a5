#!/usr/bin/env bash
# Plays games on threads and compares what they come to with bench/thread_games/stdout: games of ports, most of whose steps stand in
# bench/thread_games/stdin, and jobs of crews, with a crowd at one entry and a storm of eight ports among them. The gate's thread_rows
# plays on the same stage what no contract says; these games show what contracts say, by examples. bench/ports_repeat.sh plays them
# again and again. The first time it is built, as a trial in some three minutes, or with --prove proved. It needs rt.
# Statuses: 0 all is as in bench/thread_games/stdout, 1 something differs, 2 usage, 127 a tool is missing.
#
#     bench/thread_games.sh [--prove]
set -eu

bench=$(dirname "$(readlink -f "$0")")
. "$bench/shared/measuring.sh"
needs diff grep timeout
take_folder
case "$*" in
    '') try_beside thread_games ;;
    --prove) build_beside thread_games ;;
    *) echo "usage: bench/thread_games.sh [--prove]" >&2 && exit 2 ;;
esac
games=$bench/thread_games
timeout 300 "$program" <"$games/stdin" >"$folder/said" || echo "status $?" >>"$folder/said"
diff "$games/stdout" "$folder/said" && echo "$(grep -c '^@' "$games/stdout") games of steps and all others: as due"
