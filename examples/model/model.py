#!/usr/bin/env python3
"""Prints what msktask prints for a bundle on standard input. The words are those of the program: alone, asm, script, script probes, explain,
replay H, replay H probes, run 1, certify, certify 2. See README.md in this folder."""

import sys
from collections import Counter
from itertools import combinations
from pathlib import Path

sys.dont_write_bytecode = True
import riscv
from bundle import Bundle
from machine import NAMED, Alone, Core, kernel_words, latch_key

SPECIFICATION = Path(__file__).resolve().parents[2] / "docs" / "SPECIFICATION.md"


def end_text(end):
    if end[0] == "faulted":
        return f"faulted {end[1]} at {end[2]:08x}"
    return end[0] + "".join(f" {v:08x}" for v in end[1:])


def task_lines(number, where, count, output):
    return [f"task {number}: {where} count {count}", f"out {number}:" + "".join(f" {w:08x}" for w in output)]


def alone_report(bundle):
    for task in bundle.tasks:
        run = Alone(task)
        yield from task_lines(task.number, end_text(run.end), run.count, run.output)


def code_listing(bundle):
    for task in bundle.tasks:
        yield f"task {task.number}"
        for k, w in enumerate(task.code):
            yield f"{task.code_at + 4 * k:08x} {w.to_bytes(4, 'little').hex()} {riscv.text(w)}"


def report(bundle, core):
    yield f"harts {len(core.harts)}"
    text, order = "order", core.board.order
    start = 0
    for k in range(1, len(order) + 1):
        if k == len(order) or order[k] != order[start]:
            text, start = text + f" {order[start]}" + (f"*{k - start}" if k - start > 1 else ""), k
    yield text
    for task in bundle.tasks:
        where, context = core.board.home(task)
        if where == "ended":
            where = end_text(context.end)
        yield from task_lines(task.number, where, context.count if context else 0, context.output if context else [])
    whys = Counter(p.why[0] for p in core.log)
    yield f"probes {len(core.log)} public {whys['public']} value {whys['value']} step {whys['step']} unexplained {whys['unexplained']}"
    kinds = Counter("res" if p.latch == "mul" else p.latch if p.latch in NAMED else "reg" if p.latch[0] == "x" else "mem" for p in core.log)
    yield "latches " + " ".join(f"{k} {kinds[k]}" for k in "reg portA portB res load store scr mem".split())


def entry(p):
    return f"{p.hart} {p.pc:08x} {p.latch} {p.was:08x} {p.now:08x} " + " ".join(map(str, p.why))


def explained(bundle, core):
    runs = {}
    for p in core.log:
        if p.why[0] == "public":
            continue
        line = entry(p)
        if p.why[0] != "unexplained":
            task, step, latch = p.why[1:4]
            if task not in runs:
                runs[task] = Alone(bundle.tasks[task])
            steps = [step] if p.why[0] == "value" else [step, step + 1]
            line += " alone" + "".join(f" {runs[task].value(latch, n):08x}" for n in steps)
        yield line


def course_differs(runs):
    """The first step at which a run is seen otherwise than the first one, and that run's number; or None."""
    first, fuel = runs[0], runs[0].task.fuel
    for n in range(fuel + 1):
        for b, run in enumerate(runs):
            if run.seen[n : n + 1] != first.seen[n : n + 1] or n == fuel and run.pc != first.pc:
                return n, b
    return None


def columns_of(bundle, runs):
    """The places that the runs in the worlds write, in their order: (step, latch, the changes there in the worlds of each secret, the least first)."""
    members = {secret: [] for secret in sorted({secret for secret, _ in bundle.worlds})}
    for (secret, _), run in zip(bundle.worlds, runs):
        members[secret].append(run)
    for n, changes in enumerate(runs[0].changes):
        latches = [latch for latch, _, _ in changes]
        for latch in sorted(latches, key=latch_key):
            k = latches.index(latch)
            yield n, latch, {secret: [run.changes[n][k][1:] for run in of_secret] for secret, of_secret in members.items()}


def first_difference(shown):
    """The least two secrets, and the least of what is shown, that come in different numbers of worlds: (a, b, it, count of a, count of b); or None.
    `shown` has for each secret, the least first, what its worlds show."""
    secrets = list(shown)
    least = Counter(shown[secrets[0]])
    for other in secrets[1:]:
        counts = Counter(shown[other])
        if counts != least:
            it = min(it for it in least.keys() | counts.keys() if least[it] != counts[it])
            return secrets[0], other, it, least[it], counts[it]
    return None


def judged(bundle):
    """The line of `certify`, its status, and the columns, where the verdict is `secure`."""
    task, worlds = bundle.tasks[0], Counter(secret for secret, _ in bundle.worlds)
    if not worlds:
        return "no worlds", 3, None
    if len(bundle.worlds) * task.fuel > 2000000:
        return f"too much {len(bundle.worlds) * task.fuel}", 3, None
    least = min(worlds)
    for other in sorted(worlds):
        if worlds[other] != worlds[least]:
            return f"uneven {least} {other}", 3, None
    runs = [Alone(task, tape) for _, tape in bundle.worlds]
    differs = course_differs(runs)
    if differs:
        return f"control differs worlds 0 {differs[1]} step {differs[0]}", 1, None
    columns = list(columns_of(bundle, runs))
    for n, latch, shown in columns:
        found = first_difference(shown)
        if found:
            a, b, (was, now), count_a, count_b = found
            return f"leak step {n} {latch} secrets {a} {b} pair {was:08x} {now:08x} counts {count_a} {count_b}", 1, None
    return f"secure {len(columns)}", 0, columns


def verdict(bundle):
    """The line of `certify`, and its status."""
    return judged(bundle)[:2]


def verdict_two(bundle):
    """The line of `certify 2`, and its status.

    Places are all steps and latches, but those that are written are enough: a latch that a step doesn't write shows its value twice, which is no more
    than its last write shows, at an earlier place. A place that shows the same in all worlds adds nothing to any other one, and is left out too."""
    line, status, columns = judged(bundle)
    if columns is None:
        return line, status
    product = len(bundle.worlds) * len(columns) ** 2
    if product > 50000000:
        return f"too many {product}", 3
    telling = [column for column in columns if len({change for changes in column[2].values() for change in changes}) > 1]
    for (n, latch, shown), (m, other_latch, other_shown) in combinations(telling, 2):
        found = first_difference({secret: list(zip(shown[secret], other_shown[secret])) for secret in shown})
        if found:
            a, b, ((was, now), (other_was, other_now)), count_a, count_b = found
            values = f"values {was:08x} {now:08x} {other_was:08x} {other_now:08x}"
            return f"leak2 steps {n} {m} latches {latch} {other_latch} secrets {a} {b} {values} counts {count_a} {count_b}", 1
    return f"secure2 {len(columns)}", 0


def main(words):
    bundle = Bundle(sys.stdin.read())
    if words == ["alone"]:
        lines = alone_report(bundle)
    elif words == ["asm"]:
        lines = code_listing(bundle)
    elif words in (["certify"], ["certify", "2"]):
        line, status = verdict(bundle) if len(words) == 1 else verdict_two(bundle)
        print(line)
        sys.exit(status)
    else:
        core = Core(bundle, int(words[1]) if words[0] in ("replay", "run") else 8, kernel_words(SPECIFICATION.read_text()))
        if words[0] == "replay":
            for hart, times in bundle.order:
                for _ in range(times):
                    core.entry_of_order(hart)
        elif words == ["run", "1"]:
            while core.entry_of_order(0) != "nothing":
                pass
        elif words[0] in ("script", "explain"):
            for kind, hart, times in bundle.events:
                for _ in range(times):
                    core.event(kind, hart)
        else:
            sys.exit("the model hasn't these words")
        lines = list(report(bundle, core))
        if words[-1] == "probes":
            lines = [entry(p) for p in core.log] + lines
        elif words[0] == "explain":
            lines = list(explained(bundle, core)) + lines
    for line in lines:
        print(line)


if __name__ == "__main__":
    main(sys.argv[1:])
