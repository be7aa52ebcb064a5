#!/usr/bin/env bash
# Compares the host, which keeps fields, with a plain one that looks back over its entries at each request, over 54,000 requests
# of fixed seeds with loads and list changes between them, 14,000 of them with queues of up to eight: each answer and each
# journal has to be the same, and each kind of answer has to come. The plain host decides by functions of its own. It stands beside
# the gate, which proves the host by definitions that look back as well. The first time it is built, as a trial in a minute, or with
# --prove proved. It needs rt. Statuses: 0 all is as in bench/host_rows/stdout, 1 something differs, 2 usage, 127 a tool is missing.
#
#     bench/host_rows.sh [--prove]
set -eu

bench=$(dirname "$(readlink -f "$0")")
. "$bench/shared/measuring.sh"
needs diff tail
take_folder
case "$*" in
    '') try_beside host_rows ;;
    --prove) build_beside host_rows ;;
    *) echo "usage: bench/host_rows.sh [--prove]" >&2 && exit 2 ;;
esac
"$program" >"$folder/said" || { cat "$folder/said"; exit 1; }
diff "$bench/host_rows/stdout" "$folder/said" && tail -n 1 "$bench/host_rows/stdout"
