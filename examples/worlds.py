#!/usr/bin/env python3
"""Writes the worlds of a bundle from a declaration in its comments, and checks what its first task puts out in each of them.
    examples/worlds.py [--program PROGRAM] <FILE >BUNDLE
What is printed is the file with its `world` lines made anew, and with a `tape` line, that of the last world, where the first task has none. The
runs are those of the model in this folder, or of the program that is named. On standard error stand how near the limits are and, world by world, what
is wrong. The status is 1 where something is wrong, 2 where the declaration is no declaration. README.md in this folder has its lines."""

import ast
import itertools
import math
import operator
import re
import subprocess
import sys
from collections import Counter
from pathlib import Path

sys.dont_write_bytecode = True
sys.path.insert(0, str(Path(__file__).resolve().parent / "model"))
from bundle import Bundle
from machine import Alone
from model import end_text

MOST_WORLDS, MOST_STEPS, MOST_PAIRS, MOST_BYTES = 65536, 2000000, 50000000, 4194304


class Refusal(Exception):
    """The declaration can't be read: the number of its line, and why."""


# --- expressions ---

BINARY = {
    ast.BitXor: operator.xor, ast.BitAnd: operator.and_, ast.BitOr: operator.or_, ast.Add: operator.add, ast.Sub: operator.sub,
    ast.Mult: operator.mul, ast.LShift: operator.lshift, ast.RShift: operator.rshift,
}
UNARY = {ast.Invert: operator.invert, ast.USub: operator.neg}


class Expression:
    """An expression as in C, on words of 32 bits. The precedence of its operators is that of Python too."""

    def __init__(self, text, at):
        self.text, self.at = text.strip(), at
        try:
            self.tree = ast.parse(self.text, mode="eval").body
        except SyntaxError:
            raise Refusal(at, f"no expression: {self.text}") from None
        self.names = [node.id for node in ast.walk(self.tree) if isinstance(node, ast.Name)]

    def value(self, words):
        return self.value_of(self.tree, words)

    def value_of(self, node, words):
        if isinstance(node, ast.Name):
            return words[node.id]
        if isinstance(node, ast.Constant) and type(node.value) is int:
            return node.value & 0xFFFFFFFF
        if isinstance(node, ast.BinOp) and type(node.op) in BINARY:
            return BINARY[type(node.op)](self.value_of(node.left, words), self.value_of(node.right, words)) & 0xFFFFFFFF
        if isinstance(node, ast.UnaryOp) and type(node.op) in UNARY:
            return UNARY[type(node.op)](self.value_of(node.operand, words)) & 0xFFFFFFFF
        raise Refusal(self.at, f"no expression: {self.text}")

    def knows(self, names):
        for name in self.names:
            if name not in names:
                raise Refusal(self.at, f"what is {name}?")


# --- the declaration ---


class Choice:
    """Something with so many bits, at the bottom or at the top of a word: a mask, or a secret with its shares."""

    def __init__(self, name, bits, top, at, sharing=None):
        self.name, self.bits, self.at, self.sharing = name, int(bits), at, sharing
        self.words = [value << (32 - self.bits if top else 0) for value in range(1 << self.bits)]


class Declaration:
    def __init__(self, lines):
        self.tape, self.tape_line, self.secrets, self.masks, self.public, self.checks = [], 0, [], [], [], []
        code = False
        for at, line in enumerate(lines, 1):
            tokens = line.split()
            code = tokens == ["code"] or code and tokens != ["endcode"]
            if not code and tokens[:1] == ["#"] and tokens[1:2] and tokens[1] in ("tape", "secret", "mask", "public", "check"):
                self.read(tokens[1], line.split("#", 1)[1].split(None, 1)[1].strip(), at)
        self.settle()

    def read(self, word, rest, at):
        form = {
            "tape": r"(\w+(?:\s+\w+)*)",
            "secret": r"(\w+)\s+(\d+)(\s+top)?\s*:(.+)",
            "mask": r"(\w+)\s+(\d+)(\s+top)?",
            "public": r"(\w+)",
            "check": r"([^=]+)=([^=]+)",
        }[word]
        found = re.fullmatch(form, rest)
        if not found or word in ("secret", "mask") and not 1 <= int(found[2]) <= 16:
            raise Refusal(at, f"no line of a declaration: {word} {rest}")
        if word == "tape":
            self.tape, self.tape_line = self.tape + rest.split(), at
        elif word == "secret":
            self.secrets.append(Choice(*found.groups()[:3], at, Expression(found[4], at)))
        elif word == "mask":
            self.masks.append(Choice(*found.groups(), at))
        elif word == "public":
            self.public.append((rest, at))
        else:
            self.checks.append((at, Expression(found[1], at), Expression(found[2], at)))

    def settle(self):
        """Finds what each word of the tape is: a share of one secret, a mask, or public."""
        given = [(mask.name, mask.at) for mask in self.masks] + self.public
        self.shares = {}
        for secret in self.secrets:
            secret.sharing.knows(self.tape)
            masks = [name for name, _ in given]
            self.shares[secret.name] = [name for name in self.tape if name in secret.sharing.names and name not in masks]
            if not self.shares[secret.name]:
                raise Refusal(secret.at, f"{secret.name} has no share")
            given += [(name, secret.at) for name in self.shares[secret.name]]
        for name, at in given:
            if name not in self.tape:
                raise Refusal(at, f"{name} isn't on the tape")
        for name in self.tape:
            times = [n for n, _ in given].count(name)
            if times != 1 or self.tape.count(name) != 1:
                raise Refusal(self.tape_line, f"{name} stands {self.tape.count(name)} times here, and is declared {times} times")
        for _, _, right in self.checks:
            right.knows([secret.name for secret in self.secrets] + [name for name, _ in self.public])

    def worlds(self, public):
        """The worlds in their order: (number of the secret, words of the secrets, tape). `public` has the public words."""
        free = {}  # a word of the tape: the words that it may be
        for secret in self.secrets:
            free.update({share: secret.words for share in self.shares[secret.name][:-1]})
        free.update({mask.name: mask.words for mask in self.masks})
        free = {name: free[name] for name in self.tape if name in free}
        count = math.prod(map(len, free.values())) * math.prod(len(secret.words) for secret in self.secrets)
        if count > MOST_WORLDS:
            raise Refusal(self.tape_line, f"{count} worlds, of at most {MOST_WORLDS}")
        last = {}
        for numbers in itertools.product(*(range(len(secret.words)) for secret in self.secrets)):
            number, words = 0, {}
            for secret, value in zip(self.secrets, numbers):
                number, words[secret.name] = number << secret.bits | value, secret.words[value]
            for chosen in itertools.product(*free.values()):
                tape = {**public, **dict(zip(free, chosen))}
                for secret in self.secrets:
                    tape[self.shares[secret.name][-1]] = self.last_share(secret, tape, last)[words[secret.name]]
                yield number, words, [tape[name] for name in self.tape]

    def last_share(self, secret, tape, known):
        """For each word of the secret its last share, where the others are as on the tape."""
        share = self.shares[secret.name][-1]
        others = [name for name in self.tape if name in secret.sharing.names and name != share]
        key = secret.name, *(tape[name] for name in others)
        if key not in known:
            known[key] = {secret.sharing.value({**tape, share: word}): word for word in secret.words}
            if sorted(known[key]) != secret.words:
                told = ", ".join(f"{name} = {tape[name]:x}" for name in others)
                hint = "; shares of a sum that have few bits stand at the top of the word" if secret.words[-1] < 0x80000000 else ""
                raise Refusal(secret.at, f"for {told} the words of {share} don't give each {secret.name} once{hint}")
        return known[key]


# --- the runs ---


def tape_line(tape):
    return "tape" + "".join(f" {word:08x}" for word in tape)


def runs_by_model(task, tapes):
    for tape in tapes:
        run = Alone(task, tape)
        yield end_text(run.end), run.count, run.output


def runs_by_program(program, task, block, tapes):
    """The same by `alone` of the program: 32 worlds as 32 tasks where the task has no data, since the words of data begin elsewhere for each."""
    at_once = 1 if task.data else max(1, min(32, 500000 // task.fuel))
    body = [line for line in block[1:] if line.split()[:1] != ["tape"]]
    for start in range(0, len(tapes), at_once):
        lines = ["bundle 1", "slots 1"]
        for tape in tapes[start : start + at_once]:
            lines += [block[0].split(" band ")[0], tape_line(tape), *body]
        ran = subprocess.run([program, "alone"], input="\n".join(lines), capture_output=True, text=True, check=False)
        if ran.returncode:
            sys.exit(f"worlds: {program} alone: {ran.stdout.strip()}")
        printed = ran.stdout.splitlines()
        for told, out in zip(printed[::2], printed[1::2]):
            end, count = re.fullmatch(r"task \d+: (.+) count (\d+)", told).groups()
            yield end, int(count), [int(word, 16) for word in out.split(":")[1].split()]


def checked(declaration, worlds, runs, told):
    """Whether each world exits and puts out what the declaration says; what isn't so is told, the first world alone."""
    ends, counts, wrong = Counter(), [], 0
    for b, ((_, secrets, _), (end, count, output)) in enumerate(zip(worlds, runs)):
        ends[end.split()[0]] += 1
        counts.append(count)
        faults = [] if end.startswith("exited") else [f"ends {end}"]
        words = {**secrets, **{f"out{k}": word for k, word in enumerate(output)}}
        for at, left, right in declaration.checks:
            missing = [name for name in left.names if name not in words]
            got, wanted = None if missing else left.value(words), right.value(words)
            if missing:
                faults.append(f"line {at}: there is no {missing[0]}")
            elif got != wanted:
                faults.append(f"line {at}: {left.text} is {got:08x}, and {right.text} is {wanted:08x}")
        if faults and not wrong:
            told(f"world {b} (" + ", ".join(f"{name} {word:x}" for name, word in secrets.items()) + f"): {faults[0]}")
        wrong += bool(faults)
    return ends, counts, wrong


# --- the bundle ---


def first_block(lines):
    """Where the first task stands: its line, and the one behind its endtask; or None."""
    words = [(line.split() or [""])[0] for line in lines]
    return (words.index("task"), words.index("endtask") + 1) if "task" in words and "endtask" in words else None


def with_worlds(lines, worlds):
    """The lines with these worlds in place of their own, or at the end, before events and order, where they have none."""
    words = [(line.split() or [""])[0] for line in lines]
    at = next((words.index(word) for word in ("world", "events", "order") if word in words), len(lines))
    mine = [f"world {number}" + "".join(f" {word:x}" for word in tape) for number, _, tape in worlds]
    return lines[:at] + mine + [line for line, word in zip(lines[at:], words[at:]) if word != "world"]


def with_tape(lines, tape):
    """The lines with this tape in the first task, where it has none."""
    start, end = first_block(lines)
    if any(line.split()[:1] == ["tape"] for line in lines[start:end]):
        return lines
    return [*lines[: start + 1], tape_line(tape), *lines[start + 1 :]]


def judged(lines, declaration, worlds, program, told):
    """Runs the first task in all worlds; tells how near the limits are and what is wrong; whether nothing is."""
    task = Bundle("\n".join(lines)).tasks[0]
    tapes = [tape for _, _, tape in worlds]
    block = lines[slice(*first_block(lines))]
    runs = runs_by_program(program, task, block, tapes) if program else runs_by_model(task, tapes)
    ends, counts, wrong = checked(declaration, worlds, runs, told)
    first = Alone(task, tapes[0])
    places = sum(map(len, first.changes))
    told("ends: " + ", ".join(f"{end} {n}" for end, n in ends.items()))
    told(f"count {max(counts)} of fuel {task.fuel}, tape {first.tape_at} of {len(tapes[0])}")
    told(f"certify: worlds x fuel {len(worlds) * task.fuel} of {MOST_STEPS}")
    told(f"certify 2: worlds x places x places {len(worlds) * places**2} of {MOST_PAIRS}")
    told(f"checks: {len(declaration.checks)}, wrong in {wrong} of {len(worlds)} worlds")
    return not wrong and first.tape_at == len(tapes[0]) and len(worlds) * task.fuel <= MOST_STEPS


def main(words):
    program = words[1] if len(words) == 2 and words[0] == "--program" else None
    if words and not program:
        sys.exit("usage: worlds.py [--program PROGRAM] <FILE >BUNDLE")
    lines = sys.stdin.read().splitlines()

    def told(text):
        print(f"worlds: {text}", file=sys.stderr)

    try:
        declaration = Declaration(lines)
        if not declaration.secrets:
            raise Refusal(declaration.tape_line, "no secret is declared")
        block = first_block(lines)
        own = Bundle("\n".join(line for line in lines if line.split()[:1] != ["world"])).tasks[0].tape if block else []
        public = {name: own[declaration.tape.index(name)] if own else 0 for name, _ in declaration.public}
        worlds = list(declaration.worlds(public))
        lines = with_worlds(with_tape(lines, worlds[-1][2]) if block else lines, worlds)
        right = judged(lines, declaration, worlds, program, told) if block else True
    except Refusal as refusal:
        told(f"line {refusal.args[0]}: {refusal.args[1]}")
        sys.exit(2)
    text = "\n".join(lines) + "\n"
    secrets = len({number for number, _, _ in worlds})
    told(f"{len(worlds)} of {MOST_WORLDS} worlds, {secrets} secrets of {len(worlds) // secrets} each, {len(text)} of {MOST_BYTES} bytes")
    sys.stdout.write(text)
    sys.exit(not right)


if __name__ == "__main__":
    main(sys.argv[1:])
