#!/usr/bin/env python3
"""Verdicts on two probes of small bundles, which were worked out apart from this model. Those that get beyond one probe, but for the two at the limit, are
judged once more by all steps and all latches, written or not. Prints what differs, and nothing where all agree; ends with 1 where something differs."""

import sys
from itertools import combinations_with_replacement

sys.dont_write_bytecode = True
from bundle import Bundle
from machine import Alone, latch_key
from model import first_difference, verdict_two

CLEARED = ["addi x17,x0,2", "ecall", "addi x8,x10,0", "addi x10,x0,0", "ecall", "addi x9,x10,0", "addi x10,x0,0", "addi x17,x0,0", "ecall"]
OVER = ["addi x17,x0,2", "ecall", "ecall", "addi x17,x0,0", "ecall"]
CLEARED_BY_TAPE = [".word 0x00200893", ".word 0x00000073", ".word 0x00000893", ".word 0x00000073"]
LOOP = ["x: addi x0,x0,0", "jal x0,x"]
BY_ADDI, BY_LUI = (["addi x17,x0,2", "ecall", clear, *LOOP] for clear in ("addi x5,x0,0", "lui x5,0"))
STOPS = ["addi x17,x0,2", "ecall", "addi x8,x10,0", "addi x10,x0,0", "ecall", "beq x8,x10,.+8", "nop", "nop"]
SHARES, ZEROS = ["0 0 0", "0 1 1", "1 0 1", "1 1 0"], "values 00000000 00000000 00000000 00000000"

ROWS = [  # code, fuel, worlds, line, status
    (CLEARED, 9, SHARES, f"leak2 steps 1 4 latches x10 x10 secrets 0 1 {ZEROS} counts 1 0", 1),
    (CLEARED_BY_TAPE, 4, ["0 0", "0 1", "1 0", "1 1"], "secure2 7", 0),
    (OVER, 5, SHARES, "leak step 2 x10 secrets 0 1 pair 00000000 00000000 counts 1 0", 1),
    (OVER, 5, [], "no worlds", 3),
    (OVER, 5, ["0 0 0", "1 0 1", "1 1 1"], "uneven 0 1", 3),
    (CLEARED_BY_TAPE, 100000, [f"0 {i}" for i in range(21)], "too much 2100000", 3),
    (CLEARED, 9, ["9 1 0", "5 1 1", "9 0 1", "5 0 0"], f"leak2 steps 1 4 latches x10 x10 secrets 5 9 {ZEROS} counts 1 0", 1),
    (BY_ADDI, 10, ["0 0", "1 0"], "secure2 18", 0),
    (BY_LUI, 3332, ["0 0", "1 0"], "secure2 5000", 0),  # just at the limit
    (BY_LUI, 3333, ["0 0", "1 0"], "too many 50020002", 3),
    (STOPS, 6, SHARES, "control differs worlds 0 2 step 6", 1),
]


def bundle_of(code, fuel, worlds):
    head = ["bundle 1", "slots 1", f"task fuel {fuel} out 4 data 0", "code", *code, "endcode", "endtask"]
    return Bundle("\n".join(head + [f"world {world}" for world in worlds]))


def by_every_place(bundle):
    """The least two places, among all steps and all latches that are ever written, that tell the secret together; or None."""
    task = bundle.tasks[0]
    runs = [(secret, Alone(task, tape)) for secret, tape in sorted(bundle.worlds)]
    latches = sorted({latch for _, run in runs for latch in run.history}, key=latch_key)
    places = [(n, latch) for n in range(task.fuel) for latch in latches]
    for p, q in combinations_with_replacement(places, 2):
        shown = {secret: [] for secret, _ in runs}
        for secret, run in runs:
            shown[secret].append(tuple(run.value(latch, step) for n, latch in (p, q) for step in (n, n + 1)))
        if first_difference(shown):
            return p, q
    return None


def main():
    differ = False
    for code, fuel, worlds, line, status in ROWS:
        bundle = bundle_of(code, fuel, worlds)
        got = verdict_two(bundle)
        if got != (line, status):
            print(f"rows: {got} is printed, {line, status} is wanted")
            differ = True
        if got[0].split()[0] in ("leak2", "secure2") and fuel < 100:
            words, least = got[0].split(), by_every_place(bundle)
            told = ((int(words[2]), words[5]), (int(words[3]), words[6])) if status else None
            if told != least:
                print(f"rows: of all steps and latches {least} are the least, and {got[0]} is told")
                differ = True
    sys.exit(differ)


if __name__ == "__main__":
    main()
