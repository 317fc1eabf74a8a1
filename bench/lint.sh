#!/usr/bin/env bash
# What `lint` takes of 600 words, which are the most that are accepted: 300 in each part. It ends with 1 where a run takes more than 20 ms.
# Run it with the program built, on an otherwise idle machine; a number as its argument is the number of runs, of which the fastest counts (5).
# shellcheck source=bench/common.sh
source "$(dirname "$0")/common.sh"
want_program

# added COUNT: so many words that leave everything as it is
added() {
    awk -v n="$1" 'BEGIN { for (w = 0; w < n; w++) print "add x0,x0,x0" }'
}

sed '/ebreak/,$d' examples/own-routine.routine >"$room/save"
sed '1,/ebreak/d' examples/own-routine.routine >"$room/restore"
{
    cat "$room/save"
    added 170
    echo ebreak
    added 238
    cat "$room/restore"
} >"$room/longest"
s=$(seconds "$room/longest" "$program" lint)
grep -qx 'accepted 300 300' "$room/printed" || { echo "not accepted: $(cat "$room/printed")" >&2; exit 1; }
awk -v s="$s" 'BEGIN {
    printf "600 words: %.1f ms\n", 1000 * s
    exit !(s <= 0.02)
}'
