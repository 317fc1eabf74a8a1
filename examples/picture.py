#!/usr/bin/env python3
"""Draws a log, or the run of a task with what leaks in it: a row for each latch, a column for each write.
    msktask script probes <BUNDLE | examples/picture.py >FILE.svg               a log, as `script probes` and `replay H probes` print it
    msktask certify <BUNDLE | examples/picture.py --run BUNDLE >FILE.svg        the first task's run in world 0, by the model; the writes red
                                                                                that the report names as leaks; with --task T that of task T
--from N and --to M choose the columns, counted from 0; there are at most 2,000. --vcd writes a file of waves in place of a picture: the value of
each latch, one unit of time for each write, and the hart and the pc that wrote. README.md in this folder says more."""

import argparse
import re
import string
import sys
from collections import namedtuple
from html import escape
from itertools import groupby
from pathlib import Path

sys.dont_write_bytecode = True
sys.path.insert(0, str(Path(__file__).resolve().parent / "model"))
import riscv
from bundle import Bundle
from machine import Alone, latch_key

# A write: who is the task that it shows something of, or None; change is whether it shows two values of a task at once, and stays whether the latch
# has a value of the task behind it.
Write = namedtuple("Write", "hart pc latch was now who change stays leaks text")

MOST = 2000
LINE = re.compile(r"([0-7]) ([0-9a-f]{8}) (\w+) ([0-9a-f]{8}) ([0-9a-f]{8}) (public|value|step|unexplained)(?: (\d+) \d+ \w+(?: (was|now))?)?\b")
LEAK = re.compile(r"(?:leak )?step (\d+) (?:pc .* latch )?(\w+) (?:(value|change) )?secrets")


def writes_of_log(lines):
    """The entries of a listing; the lines of the report behind it are left out."""
    for line in lines:
        found = LINE.match(line)
        if found:
            hart, pc, latch, was, now, why, task, side = found.groups()
            who = None if task is None else int(task)
            yield Write(int(hart), pc, latch, was, now, who, why == "step", why == "step" or side == "now", why == "unexplained", line.strip())


def writes_of_run(bundle, number, report):
    """The writes of a task's run alone, in the tape of world 0 where there are worlds, with the leaks that a report names."""
    leaks = {(int(found[1]), found[2]): (found[3], line.strip()) for line in report for found in [LEAK.match(line)] if found}
    task = bundle.tasks[number]
    run = Alone(task, bundle.worlds[0][1] if bundle.worlds else task.tape)
    for step, changes in enumerate(run.changes):
        pc = run.seen[step][0]
        word = task.code_word(pc)
        for latch, was, now in sorted(changes, key=lambda change: latch_key(change[0])):
            kind, line = leaks.pop((step, latch), (None, None))
            text = line or f"step {step} {latch} {was:08x} {now:08x}"
            source = "" if word is None else f": {riscv.text(word)}"
            yield Write(0, f"{pc:08x}", latch, f"{was:08x}", f"{now:08x}", number, kind == "change", False, line is not None, text + source)
    if leaks:
        sys.exit(f"picture: the run has no such write: {list(leaks.values())[0][1]}")


def is_memory(latch):
    return latch[0] == "m" and latch != "mul"


def rows_of(writes):
    """The latches that are written, each as (hart, latch), those of memory behind those of all harts."""
    latches = {(None if is_memory(write.latch) else write.hart, write.latch) for write in writes}
    return sorted(latches, key=lambda row: (is_memory(row[1]), row[0] or 0, latch_key(row[1])))


def row_of(write):
    return (None if is_memory(write.latch) else write.hart, write.latch)


# --- the picture ---

HIGH, LEFT, TOP = 13, 104, 34
COLOURS = ["#0072b2", "#e69f00", "#009e73", "#cc79a7", "#56b4e9", "#8c6d31", "#5b4fa2", "#7a7a00"]
STYLE = (
    "text{font:10px monospace;fill:#222}.k{fill:#f0f0f0}.g{stroke:#e2e2e2;fill:none}.p{fill:#b4b4b4}.l{fill:#d40000}"
    + ".c{stroke:#000}.b{opacity:.25}"
    + "".join(f".t{k}{{fill:{colour}}}" for k, colour in enumerate(COLOURS))
)


def rectangle(kind, x, y, width, height, told=""):
    title = f"<title>{escape(told)}</title>" if told else ""
    return f'<rect class="{kind}" x="{x}" y="{y}" width="{width}" height="{height}"' + (f">{title}</rect>" if told else "/>")


def words_at(x, y, words, anchor="start"):
    return f'<text x="{x}" y="{y}" text-anchor="{anchor}">{escape(words)}</text>'


def colour_of(write):
    return "l" if write.leaks else "p" if write.who is None else f"t{write.who % len(COLOURS)}"


def picture(writes, first, held, is_log):
    """The picture of writes, the first of which is number `first`. `held` has the colours of the latches that have a value of a task before them."""
    rows = rows_of(writes)
    wide = max(1, min(6, 1600 // len(writes)))  # of a column
    height, width = HIGH * len(rows), wide * len(writes)
    y_of = {row: TOP + HIGH * k for k, row in enumerate(rows)}
    several = len({hart for hart, _ in rows if hart is not None}) > 1
    out = list(steps_of_kernel(writes, wide, height)) if is_log else []
    for (hart, latch), y in y_of.items():
        out.append(f'<path class="g" d="M{LEFT} {y + HIGH}h{width}"/>')
        out.append(words_at(LEFT - 6, y + HIGH - 3, f"hart {hart} {latch}" if several and hart is not None else latch, "end"))
    every = next(every for every in (20, 50, 100) if every * wide >= 100)
    for k in range(-first % every, len(writes), every):
        out.append(f'<path class="g" d="M{LEFT + wide * k} {TOP}v{height}"/>')
        out.append(words_at(LEFT + wide * k, TOP - 6, str(first + k)))
    out += stays(writes, held, wide, y_of)
    for k, write in enumerate(writes):
        kind = colour_of(write) + (" c" if write.change else "")
        out.append(rectangle(kind, LEFT + wide * k, y_of[row_of(write)] + 1, wide, HIGH - 2, f"{first + k}: {write.text}"))
    x, y = LEFT, TOP + height + 18
    for kind, told in legend(writes, is_log):
        out += [rectangle(kind, x, y - 9, 10, 10), words_at(x + 14, y, told)]
        x += 6 * len(told) + 34
    across, down = max(LEFT + width + 30, x), y + 12
    head = f'<svg xmlns="http://www.w3.org/2000/svg" width="{across}" height="{down}" viewBox="0 0 {across} {down}">'
    style = f"<style>{STYLE}.c{{stroke-width:{wide / 4}}}</style>"
    ground = f'<rect fill="#fff" width="{across}" height="{down}"/>'
    return "\n".join([head, style, ground, words_at(LEFT - 6, TOP - 6, "write", "end"), *out, "</svg>", ""])


def steps_of_kernel(writes, wide, height):
    """Bands behind the writes that the kernel makes; a task's code begins at 0x100000."""
    for is_kernel, group in groupby(range(len(writes)), lambda k: int(writes[k].pc, 16) < 0x100000):
        columns = list(group)
        if is_kernel:
            yield rectangle("k", LEFT + wide * columns[0], TOP, wide * len(columns), height)


def held_after(writes):
    """The latches that have a value of a task after writes, with its colour."""
    held = {}
    for write in writes:
        held[row_of(write)] = colour_of(write) if write.stays else None
    return {row: colour for row, colour in held.items() if colour}


def stays(writes, held, wide, y_of):
    """Bars from each write that leaves a value of a task in its latch to the next write of this latch."""
    since = {row: (-1, colour) for row, colour in held.items() if row in y_of}
    for k, write in enumerate([*writes, None]):
        for row in [row_of(write)] if write else list(since):
            if row in since:
                start, kind = since.pop(row)
                yield rectangle(kind + " b", LEFT + wide * (start + 1), y_of[row] + 4, wide * (k - start - 1), HIGH - 8)
        if write and write.stays:
            since[row_of(write)] = k, colour_of(write)


def legend(writes, is_log):
    tasks = sorted({write.who for write in writes if write.who is not None})
    told = [(f"t{task % len(COLOURS)}", f"shows a value of task {task}" if is_log else f"written by task {task}") for task in tasks]
    if any(write.change for write in writes):
        told.append(("c p", "two values of a task at once" if is_log else "tells by the change alone"))
    if any(write.leaks for write in writes):
        told.append(("l", "unexplained" if is_log else "tells something of the secret"))
    if is_log:
        told += [("p", "public"), ("k", "a step of the kernel")]
    return told


# --- waves ---


def name_of(number):
    """The short name of a variable of a VCD file: letters."""
    return (name_of(number // 52 - 1) if number >= 52 else "") + string.ascii_letters[number % 52]


def waves(writes):
    """A VCD file: what stands before the first write at time 0, and write k, counted from 0, at time k + 1."""
    rows = rows_of(writes)
    names = {row: name_of(k + 2) for k, row in enumerate(rows)}
    hart, pc = name_of(0), name_of(1)
    out = ["$timescale 1 ns $end", "$scope module log $end", f"$var wire 3 {hart} hart $end", f"$var wire 32 {pc} pc $end"]
    for scope in dict.fromkeys(row[0] for row in rows):
        out.append("$scope module " + ("memory" if scope is None else f"hart{scope}") + " $end")
        out += [f"$var wire 32 {names[row]} {row[1]} $end" for row in rows if row[0] == scope]
        out.append("$upscope $end")
    out += ["$upscope $end", "$enddefinitions $end"]
    value, changes = {}, [[] for _ in range(len(writes) + 1)]
    for k, write in enumerate(writes):
        row = row_of(write)
        if value.get(row) != write.was:  # a slot or a data word that has gone to another task since
            changes[k if row in value else 0].append((names[row], write.was))
        value[row] = write.now
        changes[k + 1] += [(hart, str(write.hart)), (pc, write.pc), (names[row], write.now)]
    for time, at_once in enumerate(changes):
        out += [f"#{time}", *(f"b{int(word, 16):b} {name}" for name, word in at_once)]
    return "\n".join(out) + "\n"


def main():
    words = argparse.ArgumentParser(description="draws a log, or a task's run with what leaks in it; see the head of this file")
    words.add_argument("--run", metavar="BUNDLE", help="the run of a task of this bundle, in place of a log")
    words.add_argument("--task", type=int, default=0, metavar="T")
    words.add_argument("--from", type=int, default=0, dest="first", metavar="N")
    words.add_argument("--to", type=int, metavar="M", help="the last column")
    words.add_argument("--vcd", action="store_true", help="waves in place of a picture")
    given = words.parse_args()
    lines = sys.stdin.read().splitlines()
    writes = list(writes_of_run(Bundle(Path(given.run).read_text()), given.task, lines) if given.run else writes_of_log(lines))
    chosen = writes[given.first : None if given.to is None else given.to + 1]
    if not chosen:
        sys.exit("picture: there are no writes")
    if given.vcd:
        sys.stdout.write(waves(chosen))
        return
    if len(chosen) > MOST:
        print(f"picture: {given.first} to {given.first + MOST - 1} of {len(writes)} writes", file=sys.stderr)
    sys.stdout.write(picture(chosen[:MOST], given.first, held_after(writes[: given.first]), not given.run))


if __name__ == "__main__":
    main()
