#!/usr/bin/env bash
# The time of `gen`: of 16 tasks and of 32.
# Run it on an otherwise idle machine; a number as its argument is the number of runs, of which the fastest counts (5). It ends with 1
# where 32 tasks take over 0.1 s.
# shellcheck source=bench/common.sh
source "$(dirname "$0")/common.sh"
want_program
half=$(seconds /dev/null "$program" gen 1 16)
whole=$(seconds /dev/null "$program" gen 1 32)
awk -v h="$half" -v w="$whole" 'BEGIN {
    printf "16 tasks: %.4f s\n32 tasks: %.4f s\n", h, w
    exit !(w <= 0.1)
}'
