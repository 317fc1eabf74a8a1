"""Latches, cells and tags; the step of an instruction; the run alone; the core (SPECIFICATION.md, parts 2 to 4, 7, 8, 10 to 12, 15)."""

from bisect import bisect_right
from collections import namedtuple

import riscv
from riscv import signed, word

# A latch is named as the log prints it. A tag is PUBLIC, MANY or ("of", task, step, latch).
PUBLIC, MANY = "public", "many"
Cell = namedtuple("Cell", "value tag")
BLANK = Cell(0, PUBLIC)
Probe = namedtuple("Probe", "hart pc latch was now why")
NAMED = ["portA", "portB", "res", "load", "store", "scr", "mul"]


def latch_key(latch):
    """The order of latches."""
    if latch[0] == "x":
        return 0, int(latch[1:])
    if latch in NAMED:
        return 1, NAMED.index(latch)
    return 2, int(latch[1:], 16)


def at(address):
    """The latch of a word of memory."""
    return f"m{address:08x}"


class Fault(Exception):
    """An exception of an instruction, with the writes that it keeps."""

    def __init__(self, cause, writes=()):
        self.cause, self.writes = cause, list(writes)


class Wedge(Exception):
    """A hart in machine mode can't go on."""


def mixed(*cells):
    return PUBLIC if all(c.tag == PUBLIC for c in cells) else MANY


def executed(w, pc, place):
    """What an instruction word does at a place: its writes (latch, cell) in their order, the next pc, and what it did. Tags are those of machine
    mode. A place has reg(i), load(address) and storable(address), which give a cell or raise Fault, and in machine mode csr and ports."""
    i = riscv.decode(w)
    if i is None or not place.may(i):
        raise Fault(2)
    if i.name == "ebreak":
        raise Fault(3)
    if i.name == "ecall":
        raise Fault(8)
    if i.name == "fence":
        return [], pc + 4, "ran"
    if i.name == "mret":
        return [], None, "mret"
    a, b = place.reg(i.rs1), place.reg(i.rs2)

    def written(writes, cell):
        return writes + [("res", cell)] + ([(f"x{i.rd}", cell)] if i.rd else [])

    if i.name in riscv.REGISTERS or i.name in riscv.MULTIPLIER:
        cell = Cell(riscv.operate(i.name, a.value, b.value), mixed(a, b))
        multiplier = [("mul", cell)] if i.name in riscv.MULTIPLIER else []
        return written([("portA", a), ("portB", b)] + multiplier, cell), pc + 4, "ran"
    if i.name in riscv.IMMEDIATES or i.name in riscv.SHIFTS:
        operation = i.name.replace("i", "", 1)  # slti is slt, sltiu is sltu
        return written([("portA", a)], Cell(riscv.operate(operation, a.value, word(i.imm)), mixed(a))), pc + 4, "ran"
    if i.name in ("lui", "auipc"):
        return written([], Cell(word((i.imm << 12) + (pc if i.name == "auipc" else 0)), PUBLIC)), pc + 4, "ran"
    if i.name in ("jal", "jalr"):
        ports = [("portA", a)] if i.name == "jalr" else []
        target = word(a.value + i.imm) & ~1 if i.name == "jalr" else word(pc + i.imm)
        if target % 4:
            raise Fault(0, ports)
        if i.name == "jalr":
            place.jumps(a)
        return written(ports, Cell(word(pc + 4), PUBLIC)), target, "ran"
    if i.name in riscv.BRANCHES:
        ports = [("portA", a), ("portB", b)]
        target = word(pc + i.imm) if riscv.taken(i.name, a.value, b.value) else pc + 4
        if target % 4:
            raise Fault(0, ports)
        return ports, target, "ran"
    if i.name in riscv.CSR_WORDS:
        return place.csr(i, a), pc + 4, "ran"
    address = word(a.value + i.imm)
    writes = [("portA", a)] + ([("portB", b)] if i.name in riscv.STORES else []) + [("res", Cell(address, mixed(a)))]
    if address % riscv.SIZES[i.name]:
        raise Fault(4 if i.name in riscv.LOADS else 6, writes)
    aligned = address & ~3
    if i.name in riscv.LOADS:
        cell = place.load(aligned, i, writes)
        value = riscv.extracted(i.name, cell.value, address)
        tag = cell.tag if i.name == "lw" else mixed(cell)
        return writes + [("load", cell)] + ([(f"x{i.rd}", Cell(value, tag))] if i.rd else []), pc + 4, "ran"
    old = place.storable(aligned, b, i, writes)
    if old is None:  # a port
        return writes + [("store", b)], pc + 4, "ran"
    cell = Cell(riscv.merged(i.name, old.value, address, b.value), b.tag if i.name == "sw" else mixed(old, b))
    return writes + [("store", b), (at(aligned), cell)], pc + 4, ("stored", aligned)


# --- tasks, and the run alone ---


class Task:
    def __init__(self, number, code, data, fuel, out, tape, band):
        self.number, self.code, self.data, self.fuel, self.out, self.tape, self.band = number, code, data, fuel, out, tape, band
        self.code_at, self.data_at = 0x100000 + 0x10000 * number, 0x108000 + 0x10000 * number

    def code_word(self, address):
        """The code word at an address, or None outside the code."""
        inside = self.code_at <= address < self.code_at + 4 * len(self.code)
        return self.code[(address - self.code_at) // 4] if inside else None

    def has_data(self, address):
        return self.data_at <= address < self.data_at + 4 * self.data


class Alone:
    """A run alone. `changes` has for each instruction its writes (latch, before, after), and `seen` its pc and deed."""

    def __init__(self, task, tape=None):
        self.task, self.tape = task, task.tape if tape is None else tape
        self.values, self.history = {}, {}  # latch: value; latch: ([steps], [values])
        self.pc, self.count, self.output, self.tape_at, self.end = task.code_at, 0, [], 0, None
        self.changes, self.seen = [], []
        while self.end is None:
            self.step()
            if self.end is None and self.count == task.fuel:
                self.end = ("out-of-steps",)

    def value(self, latch, step):
        """The value of a latch after so many instructions."""
        steps, values = self.history.get(latch, ((), ()))
        k = bisect_right(steps, step)
        return values[k - 1] if k else 0

    def may(self, i):
        return i.name != "mret" and i.name not in riscv.CSR_WORDS

    def reg(self, i):
        return Cell(self.values.get(f"x{i}", 0) if i else 0, PUBLIC)

    def jumps(self, cell):
        pass

    def load(self, address, i, writes):
        if self.task.has_data(address):
            return Cell(self.values.get(at(address), 0), PUBLIC)
        code = self.task.code_word(address)
        if code is None:
            raise Fault(5, writes)
        return Cell(code, PUBLIC)

    def storable(self, address, cell, i, writes):
        if not self.task.has_data(address):
            raise Fault(7, writes)
        return Cell(self.values.get(at(address), 0), PUBLIC)

    def step(self):
        pc, self.count = self.pc, self.count + 1
        try:
            w = self.task.code_word(pc)
            if w is None:
                raise Fault(1)
            writes, self.pc, deed = executed(w, pc, self)
        except Fault as fault:
            if fault.cause == 8:
                writes, deed = self.service()
            else:
                writes, self.end = fault.writes, ("faulted", fault.cause, pc)
                deed = ("ended", "faulted", fault.cause)
        self.seen.append((pc, deed))
        changes = []
        for latch, cell in writes:
            changes.append((latch, self.values.get(latch, 0), cell.value))
            self.values[latch] = cell.value
            steps, values = self.history.setdefault(latch, ([], []))
            steps.append(self.count)
            values.append(cell.value)
        self.changes.append(changes)

    def service(self):
        number, a0, writes = self.reg(17).value, self.reg(10).value, []
        if number == 0:
            self.end = ("exited", a0)
        elif number == 1 and len(self.output) == self.task.out:
            self.end = ("out-full",)
        elif number == 1:
            self.output.append(a0)
        elif number == 2 and self.tape_at == len(self.tape):
            self.end = ("tape-end",)
        elif number == 2:
            writes, self.tape_at = [("x10", Cell(self.tape[self.tape_at], PUBLIC))], self.tape_at + 1
        elif number != 3:
            self.end = ("bad-call", number)
        if self.end:
            return writes, ("ended",) + (self.end[:1] if number == 0 else self.end)
        self.pc += 4
        return writes, ("called", number)


# --- the core ---


def kernel_words(text):
    """The words of the kernel's text, which stands between lines of ``` in part 10 of SPECIFICATION.md: lines in the assembler's form, where
    `[i: 1 to 31 without 5]` repeats the lines below it that stand further in, for each i, with xi and 4i put in."""
    part = text.split("\n## 10.")[1].split("\n## 11.")[0]
    source = [line.split("#")[0].rstrip() for block in part.split("```")[1::2] for line in block.splitlines()]
    source = [line for line in source if line.strip()]
    lines, at_line = [], 0
    while at_line < len(source):
        line = source[at_line]
        at_line += 1
        if not line.strip().startswith("["):
            lines.append(line)
            continue
        depth, block = len(line) - len(line.lstrip()), []
        while at_line < len(source) and len(source[at_line]) - len(source[at_line].lstrip()) > depth:
            block.append(source[at_line])
            at_line += 1
        for i in range(1, 32):
            if not ("without 5" in line and i == 5):
                lines += [b.replace("4i(", f"{4 * i}(").replace("xi", f"x{i}") for b in block]
    return riscv.assemble(lines)


class Context:
    def __init__(self, task, slot):
        self.task, self.slot, self.count, self.end, self.output, self.tape_at = task, slot, 0, None, [], 0
        self.data = {task.data_at + 4 * k: BLANK for k in range(task.data)}
        bounds = (task.code_at, task.code_at + 4 * len(task.code), task.data_at, task.data_at + 4 * task.data)
        self.words = [Cell(task.code_at, PUBLIC)] + [BLANK] * 31 + [Cell(b // 4, PUBLIC) for b in bounds]

    @property
    def address(self):
        return 0x200 + 160 * self.slot


class Board:
    def __init__(self, slots, tasks):
        self.waiting, self.ready, self.out, self.ended, self.order = list(tasks[slots:]), ([], []), {}, {}, []
        for slot, task in enumerate(tasks[:slots]):
            self.ready[task.band].append(Context(task, slot))

    def take(self, hart):
        self.order.append(hart)
        front = self.ready[0] or self.ready[1]
        if not front:
            return None
        self.out[hart] = front.pop(0)
        return self.out[hart]

    def give(self, hart, done):
        self.order.append(hart)
        context = self.out.pop(hart)
        if not done:
            self.ready[context.task.band].append(context)
            return
        self.ended[context.task.number] = context
        if self.waiting:
            task = self.waiting.pop(0)
            self.ready[task.band].append(Context(task, context.slot))

    def home(self, task):
        """How a report says where a task is, and its context, which a waiting one hasn't."""
        if task in self.waiting:
            return "waiting", None
        for context in self.ready[0] + self.ready[1]:
            if context.task is task:
                return f"slot {context.slot}", context
        for hart, context in self.out.items():
            if context.task is task:
                return f"hart {hart} slot {context.slot}", context
        return "ended", self.ended[task.number]


ZERO, TAKE, GIVE, OUT, TAPE, TAPE_LEFT, EXIT, FAULT, ACK, OUT_LEFT = [0x100] + [0x700 + 4 * k for k in range(9)]
TIMER, USED_FUEL = 0x80000007, 0x80000010


class Hart:
    def __init__(self, number, core):
        self.number, self.core, self.pc, self.user, self.pending, self.held, self.wedged = number, core, core.take, False, False, None, False
        self.cells, self.csrs = {}, {name: 0 for name in ("mepc", "mcause", "pmpaddr0", "pmpaddr1", "pmpaddr2", "pmpaddr3")}

    # a place, as `executed` wants it
    def may(self, i):
        return not self.user or i.name != "mret" and i.name not in riscv.CSR_WORDS

    def reg(self, i):
        return self.cells.get(f"x{i}", BLANK) if i else BLANK

    def jumps(self, cell):
        if not self.user and cell.tag != PUBLIC:
            raise Wedge

    def within(self, address, bounds):
        return self.csrs[f"pmpaddr{bounds}"] <= address // 4 < self.csrs[f"pmpaddr{bounds + 1}"]

    def slot_word(self, address):
        """The index of a slot word of what is held, or None."""
        if self.held is None or not 0 <= address - self.held.address < 144:
            return None
        return (address - self.held.address) // 4

    def load(self, address, i, writes):
        if self.user:
            if self.within(address, 2) and address in self.held.data:
                return self.held.data[address]
            if self.within(address, 0) and self.held.task.code_word(address) is not None:
                return Cell(self.held.task.code_word(address), PUBLIC)
            raise Fault(5, writes)
        if address == ZERO:
            return self.cells.get(at(ZERO), BLANK)
        if self.slot_word(address) is not None:
            return self.held.words[self.slot_word(address)]
        if i.name != "lw":
            raise Wedge
        return self.port_load(address)

    def storable(self, address, cell, i, writes):
        if self.user:
            if self.within(address, 2) and address in self.held.data:
                return self.held.data[address]
            raise Fault(7, writes)
        if address == ZERO:
            return self.cells.get(at(ZERO), BLANK)
        if self.slot_word(address) is not None:
            return self.held.words[self.slot_word(address)]
        if i.name != "sw":
            raise Wedge
        self.port_store(address, cell)
        return None

    def port_load(self, address):
        held = self.held
        if address == TAKE and held is None:
            self.held = self.core.board.take(self.number)
            self.action = "took" if self.held else "nothing"
            return Cell(self.held.address if self.held else 0, PUBLIC)
        if held is None:
            raise Wedge
        if address == TAPE and held.tape_at < len(held.task.tape):
            held.tape_at += 1
            return Cell(held.task.tape[held.tape_at - 1], ("of", held.task.number, held.count, "x10"))
        if address == TAPE_LEFT:
            return Cell(len(held.task.tape) - held.tape_at, PUBLIC)
        if address == OUT_LEFT:
            return Cell(held.task.out - len(held.output), PUBLIC)
        raise Wedge

    def port_store(self, address, cell):
        held = self.held
        if address == ACK and cell.tag == PUBLIC:
            self.pending = False
        elif address == GIVE and held and cell.tag == PUBLIC and cell.value == int(held.end is not None):
            self.core.board.give(self.number, cell.value == 1)
            self.action, self.held = "gave", None
        elif address == OUT and held and len(held.output) < held.task.out:
            held.output.append(cell.value)
        elif address == EXIT and held and held.end is None:
            held.end = ("exited", cell.value)
        elif address == FAULT and held and held.end is None and cell.tag == PUBLIC:
            held.end = self.end_by_code(cell.value)
        else:
            raise Wedge

    def end_by_code(self, code):
        if code < 8:
            return "faulted", code, self.held.words[0].value
        ends = {0x100: ("tape-end",), 0x101: ("out-full",), 0x102: ("bad-call", self.held.words[17].value), USED_FUEL: ("out-of-steps",)}
        if code not in ends:
            raise Wedge
        return ends[code]

    def csr(self, i, operand):
        name = next((name for name, number in riscv.CSR_NUMBERS.items() if number == i.csr), None)
        if i.name.endswith("i") or name not in ("mscratch", *self.csrs):
            raise Wedge  # the kernel has no other
        old = self.cells.get("scr", BLANK) if name == "mscratch" else Cell(self.csrs[name], PUBLIC)
        writes = [("portA", operand)]
        if i.rd:
            writes.append(("res", old))
        if i.name == "csrrw" or i.rs1:
            new = {"csrrw": operand.value, "csrrs": old.value | operand.value, "csrrc": old.value & ~operand.value}[i.name]
            tag = operand.tag if i.name == "csrrw" else mixed(old, operand)
            if name == "mscratch":
                writes.append(("scr", Cell(new, tag)))
            elif tag != PUBLIC:
                raise Wedge
            else:
                self.csrs[name] = new & ~3 if name == "mepc" else new
        return writes + ([(f"x{i.rd}", old)] if i.rd else [])

    # a step
    def trap(self, cause, pc):
        self.csrs.update(mepc=pc, mcause=cause)
        self.user, self.pc = False, self.core.entry

    def step(self):
        """One step; answers which queue action it made: took, nothing, gave, or None."""
        self.action = None
        if self.wedged:
            return None
        if self.user:
            self.user_step()
        else:
            self.machine_step()
        return self.action

    def user_step(self):
        held, pc = self.held, self.pc
        if held.count == held.task.fuel:
            return self.trap(USED_FUEL, pc)
        if self.pending:
            return self.trap(TIMER, pc)
        held.count += 1
        cause = None
        try:
            w = held.task.code_word(pc) if self.within(pc, 0) else None
            if w is None:
                raise Fault(1)
            writes, self.pc, _ = executed(w, pc, self)
        except Fault as fault:
            writes, cause = fault.writes, fault.cause
        for latch, cell in writes:
            self.write(pc, latch, Cell(cell.value, ("of", held.task.number, held.count, latch)))
        if cause is not None:
            self.trap(cause, pc)

    def machine_step(self):
        pc = self.pc
        index = (pc - 0x1000) // 4
        try:
            if not 0 <= index < len(self.core.words):
                raise Wedge
            writes, target, deed = executed(self.core.words[index], pc, self)
            if deed == "mret":
                if self.held is None:
                    raise Wedge
                target, self.user = self.csrs["mepc"], True
        except (Wedge, Fault):
            self.wedged = True
            return
        self.pc = target
        for latch, cell in writes:
            self.write(pc, latch, cell)

    def write(self, pc, latch, cell):
        cells, key = self.cells, latch
        if latch[0] == "m" and latch != "mul" and latch != at(ZERO):
            address = int(latch[1:], 16)
            index = None if self.user else self.slot_word(address)
            cells, key = (self.held.data, address) if index is None else (self.held.words, index)
        old = cells[key] if cells is not self.cells else cells.get(key, BLANK)
        cells[key] = cell
        self.core.log.append(Probe(self.number, pc, latch, old.value, cell.value, why(self.user, latch, old.tag, cell.tag)))


def why(user, latch, was, now):
    if was == PUBLIC and now == PUBLIC:
        return ("public",)
    if now == PUBLIC and was != MANY:
        return ("value",) + was[1:] + ("was",)
    if was == PUBLIC and now != MANY:
        return ("value",) + now[1:] + ("now",)
    if user and MANY not in (was, now) and was[1] == now[1] and was[3] == now[3] == latch and was[2] < now[2]:
        return "step", now[1], now[2] - 1, latch
    return ("unexplained",)


class Core:
    def __init__(self, bundle, harts, kernel):
        self.words, self.entry, self.take = kernel, 0x1000, 0x1324
        self.board, self.log = Board(bundle.slots, bundle.tasks), []
        self.harts = [Hart(h, self) for h in range(harts)]
        self.plans = [bundle.plans.get(h, (4096, [])) for h in range(harts)]
        self.paces = [(0, 0, 0) for _ in range(harts)]  # takes that gave a context, its count then, its quantum

    def event(self, kind, h):
        if h < len(self.harts):
            if kind == "t":
                self.harts[h].pending = True
            else:
                self.harts[h].step()

    def entry_of_order(self, h):
        """The steps of a hart, with the ticks of its plan, up to and with its next queue action; answers that action."""
        hart = self.harts[h]
        while True:
            takes, begun, quantum = self.paces[h]
            held = hart.held
            if hart.user and not hart.pending and held.count != held.task.fuel and held.count == begun + quantum:
                hart.pending = True
            action = hart.step()
            if action:
                break
        if action == "took":
            tail, quanta = self.plans[h]
            self.paces[h] = (takes + 1, hart.held.count, quanta[takes] if takes < len(quanta) else tail)
        return action
