"""Bundles (SPECIFICATION.md, part 18). What the program would refuse raises an error here; which refusal it is is not modelled."""

import riscv
from machine import Task


class Bundle:
    def __init__(self, text):
        self.slots, self.plans, self.tasks, self.worlds, self.events, self.order = 1, {}, [], [], [], []
        lines = iter(text.split("\n"))
        for line in lines:
            line = line.rstrip("\r")
            tokens = line.split()
            if not tokens or tokens[0].startswith("#"):
                continue
            if tokens[0] == "bundle":
                assert tokens[1:] in (["1"], ["2"])
            elif tokens[0] == "slots":
                self.slots = int(tokens[1])
            elif tokens[0] == "plan":
                self.plans[int(tokens[1])] = (int(tokens[3]), [int(q) for q in tokens[5:]])
            elif tokens[0] == "task":
                self.tasks.append(self.task(tokens, lines))
            elif tokens[0] == "world":
                self.worlds.append((int(tokens[1]), [int(w, 16) for w in tokens[2:]]))
            elif tokens[0] == "events":
                self.events += [(e[0], int(e[1]), times) for e, times in runs(tokens[1:])]
            elif tokens[0] == "order":
                self.order += [(int(o), times) for o, times in runs(tokens[1:])]
            else:
                raise ValueError(line)

    def task(self, tokens, lines):
        field = dict(zip(tokens[1::2], map(int, tokens[2::2])))
        tape, code = [], []
        for line in lines:
            tokens = line.split()
            if not tokens or tokens[0].startswith("#"):
                continue
            if tokens[0] == "endtask":
                return Task(len(self.tasks), code, field["data"], field["fuel"], field["out"], tape, field.get("band", 0))
            if tokens[0] == "tape":
                tape += [int(w, 16) for w in tokens[1:]]
            elif tokens[0] == "words":
                code += [int(w, 16) for w in tokens[1:]]
            elif tokens[0] == "code":
                listing = []
                for line in lines:
                    if line.split() == ["endcode"]:
                        break
                    listing.append(line)
                code = riscv.assemble(listing)
            else:
                raise ValueError(line)
        raise ValueError("no endtask")


def runs(tokens):
    for token in tokens:
        what, _, times = token.partition("*")
        yield what, int(times or 1)
