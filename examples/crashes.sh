#!/usr/bin/env bash
# Puts functions and lines into all logs of a folder by GNU parallel: crashes.sh LOGS OUT [WORDS OF A2L-TRACE..]
#
# OUT/rows then has a row of JSON for each frame of each log, in the order of the names of the logs (`log` says which), and
# OUT/log is parallel's log. Standard error shows how far it is, and what a2l-trace reports of each log is in OUT/errors.
# The last lines are a summary: how many frames there are, of how many no file was found, and which build ids were
# missing, with the number of their frames. Further words go to a2l-trace: --sysroot DIR, --module NAME=FILE. The variable
# A2L_TRACE names a2l-trace, JOBS says how many logs are read at once (as many as there are processors). The status is
# parallel's: how many logs failed.
set -euo pipefail
[ $# -ge 2 ] || { sed -n '2s/^# //p' "$0" >&2; exit 2; }
logs=$1 out=$2
shift 2
export LC_ALL=C
mkdir -p "$out"
bar=()
[ ! -t 2 ] || bar=(--bar)
status=0
find "$logs" -type f -print0 | sort -z |
    parallel -0 --keep-order "${bar[@]}" --joblog "$out/log" -j "${JOBS:-100%}" -q \
        "${A2L_TRACE:-a2l-trace}" --json "$@" {} > "$out/rows" 2> "$out/errors" || status=$?

# A row has no other field of these names, and build ids are digits.
awk '
    { frames++ }
    /"file":null,"form":/ { none++ }
    /"file":null,"form":/ && match($0, /"build_id":"[0-9a-f]+"/) {
        missing[substr($0, RSTART + 12, RLENGTH - 13)]++
    }
    END {
        printf "%d frames, %d without a file\n", frames, none
        for (id in missing) printf "missing build id %s: %d frames\n", id, missing[id]
    }' "$out/rows" | sort
exit "$status"
