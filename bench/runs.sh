#!/usr/bin/env bash
# Many runs of `run 8` on a bundle of 32 short tasks whose harts have different plans. Each has to end within a minute with status 0, and the
# replay of the order that it prints has to print the same. A number as its argument is the number of runs (1000). It prints how many different
# orders there were, and ends with 1 at the first run that is not so.
# shellcheck source=bench/common.sh
source "$(dirname "$0")/common.sh"
runs=${1:-1000}
want_program

{
    printf 'bundle 1\nslots 5\n'
    printf 'plan 0 tail 1\nplan 1 tail 2 quanta 0 0\nplan 2 tail 3 quanta 5 1\nplan 3 tail 4096\nplan 5 tail 7\nplan 6 tail 1 quanta 0 0 0 2\n'
    for task in $(seq 32); do
        printf 'task fuel %d out 4 data 0\n' $((5 + task % 7))
        printf 'words 02a00513 00100893 00000073 00000893 00000073\nendtask\n'
    done
} >"$room/tasks.bundle"

for ((run = 0; run < runs; run++)); do
    timeout 60 "$program" run 8 <"$room/tasks.bundle" >"$room/ran" || { echo "run $run ended with $?" >&2; exit 1; }
    { cat "$room/tasks.bundle" && grep '^order' "$room/ran"; } >"$room/replay.bundle"
    grep '^order' "$room/ran" >>"$room/orders"
    "$program" replay 8 <"$room/replay.bundle" >"$room/replayed" || { echo "the replay of run $run ended with $?" >&2; exit 1; }
    cmp "$room/ran" "$room/replayed" || exit 1
done
echo "$runs runs, $(sort -u "$room/orders" | wc -l) orders, each as its replay"
