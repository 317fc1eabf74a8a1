#!/usr/bin/env python3
"""Reads a file of waves (VCD) back, and compares it with the log that it was made of.
    examples/read_vcd.py FILE.vcd [FROM [TO]] <LISTING
FROM and TO are the columns that were chosen, as for picture.py. The value before write k has to be there at time k, the value after it, with its hart
and its pc, at time k + 1, and nothing else may have changed. Prints the first write that differs, and then ends with 1."""

import sys


def variables_of(tokens):
    """The variables of the head: short name to name with its scopes; what follows the head."""
    names, scopes = {}, []
    while True:
        word = next(tokens)
        body = []
        for token in tokens:
            if token == "$end":
                break
            body.append(token)
        if word == "$scope":
            scopes.append(body[1])
        elif word == "$upscope":
            scopes.pop()
        elif word == "$var":
            names[body[2]] = ".".join([*scopes[1:], body[3]])
        elif word == "$enddefinitions":
            return names


def states_of(text):
    """The values of all variables at each time, one after the other, from time 0."""
    tokens = iter(text.split())
    names, values, time = variables_of(tokens), {}, None
    for token in tokens:
        if token[0] == "#":
            if time is not None:
                yield dict(values)
            if int(token[1:]) != (0 if time is None else time + 1):
                sys.exit(f"waves: time {token[1:]} after {time}")
            time = int(token[1:])
        else:
            values[names[next(tokens)]] = int(token[1:], 2)
    yield dict(values)


def entries_of(lines):
    """The log's entries: hart, pc, latch, before, after."""
    for tokens in map(str.split, lines):
        if len(tokens) > 5 and tokens[5] in ("public", "value", "step", "unexplained"):
            hart, pc, latch, was, now = tokens[:5]
            yield int(hart), int(pc, 16), ("memory." if latch[0] == "m" and latch != "mul" else f"hart{hart}.") + latch, int(was, 16), int(now, 16)


def main(words):
    with open(words[0], encoding="ascii") as file:
        states = states_of(file.read())
    first = int(words[1]) if len(words) > 1 else 0
    entries = list(entries_of(sys.stdin))[first : int(words[2]) + 1 if len(words) > 2 else None]
    before = next(states)
    for k, (hart, pc, latch, was, now) in enumerate(entries):
        after = next(states, None)
        wanted = {**before, "hart": hart, "pc": pc, latch: now}
        if k + 1 < len(entries):  # what was changed by no entry stands a unit before the next write of its latch
            wanted[entries[k + 1][2]] = entries[k + 1][3]
        if before.get(latch) != was or after != wanted:
            sys.exit(f"waves: write {first + k} differs")
        before = after
    if next(states, None):
        sys.exit(f"waves: there are more than {len(entries)} writes")


if __name__ == "__main__":
    main(sys.argv[1:])
