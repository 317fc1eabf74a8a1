#!/usr/bin/env bash
# Instructions a second of the run alone: 32 tasks of 100,000 instructions, and how the time grows from half of that.
# Run it on an otherwise idle machine; a number as its argument is the number of runs, of which the fastest counts (5). It ends with 1
# where twice the fuel costs over 2.3 times.
# shellcheck source=bench/common.sh
source "$(dirname "$0")/common.sh"
(cd crates/alone_bench && rt run -- 1000) >/dev/null 2>&1
half=$(seconds /dev/null crates/alone_bench/out/alone_bench 50000)
whole=$(seconds /dev/null crates/alone_bench/out/alone_bench 100000)
awk -v h="$half" -v w="$whole" 'BEGIN {
    printf "1600000 instructions: %.3f s\n3200000 instructions: %.3f s, %.0f instructions a second\n", h, w, 3200000 / w
    printf "twice the fuel costs %.2f times\n", w / h
    exit !(w / h <= 2.3)
}'
