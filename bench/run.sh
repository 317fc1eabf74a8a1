#!/usr/bin/env bash
# How `run` gains by harts: 8 tasks of about 65,000 instructions each, without plans, on 1, 2 and 4 harts, and the replay of the order that one
# hart makes. Of each the fastest of some runs, less what reading and loading the bundle takes (`asm`).
# Run it with the program built, on an otherwise idle machine; a number as its argument is the number of runs, of which the fastest counts (20).
# It ends with 1 where 4 harts are less than 3 times as fast as one on four or more processors, 2 harts less than 1.7 times on two or more, or
# one hart is slower than its replay by more than a tenth. Then quanta of one instruction, and the same tasks with less fuel: 4 harts may take
# at most 4 times as long as one.
# shellcheck source=bench/common.sh
source "$(dirname "$0")/common.sh"
runs=${1:-20}
want_program

# tasks FUEL: 8 tasks that count up until their fuel is used
tasks() {
    for _ in 1 2 3 4 5 6 7 8; do
        printf 'task fuel %d out 0 data 0\ncode\nloop: addi x5,x5,1\nxor x6,x5,x7\nadd x7,x7,x6\nj loop\nendcode\nendtask\n' "$1"
    done
}

{ printf 'bundle 1\nslots 8\n' && tasks 65000; } >"$room/long.bundle"
# short HARTS: tasks with less fuel, which so many harts preempt after each instruction
short() {
    printf 'bundle 1\nslots 8\n'
    for ((hart = 0; hart < $1; hart++)); do echo "plan $hart tail 1"; done
    tasks 500
}
short 1 >"$room/short1.bundle"
short 4 >"$room/short4.bundle"

# the bundle with the order that `run 1` prints
{ cat "$room/long.bundle" && "$program" run 1 <"$room/long.bundle" | grep '^order'; } >"$room/replay.bundle"

# took BUNDLE WORDS..: seconds of the fastest run
took() {
    local bundle=$1
    shift
    seconds "$room/$bundle.bundle" "$program" "$@"
}

loads=$(took long asm)
one=$(took long run 1)
two=$(took long run 2)
four=$(took long run 4)
replay=$(took replay replay 1)
one_short=$(took short1 run 1)
four_short=$(took short4 run 4)
awk -v l="$loads" -v a="$one" -v b="$two" -v d="$four" -v r="$replay" -v s="$one_short" -v t="$four_short" -v p="$(nproc)" 'BEGIN {
    printf "loading %.3f s; run 1 %.3f s, run 2 %.3f s, run 4 %.3f s, replay 1 %.3f s\n", l, a, b, d, r
    printf "2 harts are %.2f times as fast, 4 harts %.2f times\n", (a - l) / (b - l), (a - l) / (d - l)
    printf "quanta of 1: run 1 %.3f s, run 4 %.3f s\n", s, t
    bad = (p >= 4 && (a - l) / (d - l) < 3) || (p >= 2 && (a - l) / (b - l) < 1.7) || a > 1.1 * r || t > 4 * s
    exit bad
}'
