"""The instructions: words to fields and back, assembler lines to words, and arithmetic (SPECIFICATION.md, parts 1.1, 1.2 and 17)."""

from collections import namedtuple

# rd, rs1, rs2 are numbers of registers; imm is signed where the form is, and is the 20 upper bits of lui and auipc
Instr = namedtuple("Instr", "name rd rs1 rs2 imm csr")

BRANCHES = dict(beq=0, bne=1, blt=4, bge=5, bltu=6, bgeu=7)
LOADS = dict(lb=0, lh=1, lw=2, lbu=4, lhu=5)
STORES = dict(sb=0, sh=1, sw=2)
IMMEDIATES = dict(addi=0, slti=2, sltiu=3, xori=4, ori=6, andi=7)
SHIFTS = dict(slli=(1, 0), srli=(5, 0), srai=(5, 0x20))
REGISTERS = dict(
    add=(0, 0), sub=(0, 0x20), sll=(1, 0), slt=(2, 0), sltu=(3, 0), xor=(4, 0), srl=(5, 0), sra=(5, 0x20), **{"or": (6, 0), "and": (7, 0)}
)
MULTIPLIER = dict(mul=(0, 1), mulh=(1, 1), mulhsu=(2, 1), mulhu=(3, 1), div=(4, 1), divu=(5, 1), rem=(6, 1), remu=(7, 1))
CSR_WORDS = dict(csrrw=1, csrrs=2, csrrc=3, csrrwi=5, csrrsi=6, csrrci=7)
WHOLE = {"fence": 0x0FF0000F, "ecall": 0x73, "ebreak": 0x00100073, "mret": 0x30200073}
CSR_NUMBERS = dict(
    mstatus=0x300, mie=0x304, mtvec=0x305, mscratch=0x340, mepc=0x341, mcause=0x342, mtval=0x343, mip=0x344, pmpcfg0=0x3A0,
    pmpaddr0=0x3B0, pmpaddr1=0x3B1, pmpaddr2=0x3B2, pmpaddr3=0x3B3, mhartid=0xF14,
)
REGISTER_NAMES = {f"x{i}": i for i in range(32)}
REGISTER_NAMES.update(zip("zero ra sp gp tp t0 t1 t2 s0 s1".split(), range(10)), fp=8)
REGISTER_NAMES.update({f"a{i}": 10 + i for i in range(8)})
REGISTER_NAMES.update({f"s{i}": 16 + i for i in range(2, 12)})
REGISTER_NAMES.update({f"t{i}": 25 + i for i in range(3, 7)})


def signed(value, bits=32):
    value &= (1 << bits) - 1
    return value - (1 << bits) if value >> (bits - 1) else value


def word(value):
    return value & 0xFFFFFFFF


# --- words ---


def encode(i):
    name = i.name
    if name in WHOLE:
        return WHOLE[name]
    if name in ("lui", "auipc"):
        return i.imm << 12 | i.rd << 7 | (0x37 if name == "lui" else 0x17)
    if name == "jal":
        m = i.imm
        return (m >> 20 & 1) << 31 | (m >> 1 & 0x3FF) << 21 | (m >> 11 & 1) << 20 | (m >> 12 & 0xFF) << 12 | i.rd << 7 | 0x6F
    if name in BRANCHES:
        m = i.imm
        upper, lower = (m >> 12 & 1) << 31 | (m >> 5 & 0x3F) << 25, (m >> 1 & 0xF) << 8 | (m >> 11 & 1) << 7
        return upper | i.rs2 << 20 | i.rs1 << 15 | BRANCHES[name] << 12 | lower | 0x63
    if name in STORES:
        return (i.imm >> 5 & 0x7F) << 25 | i.rs2 << 20 | i.rs1 << 15 | STORES[name] << 12 | (i.imm & 0x1F) << 7 | 0x23
    if name in REGISTERS or name in MULTIPLIER:
        part, seven = {**REGISTERS, **MULTIPLIER}[name]
        return seven << 25 | i.rs2 << 20 | i.rs1 << 15 | part << 12 | i.rd << 7 | 0x33
    if name in SHIFTS:
        part, seven = SHIFTS[name]
        return seven << 25 | i.imm << 20 | i.rs1 << 15 | part << 12 | i.rd << 7 | 0x13
    if name in CSR_WORDS:
        return i.csr << 20 | i.rs1 << 15 | CSR_WORDS[name] << 12 | i.rd << 7 | 0x73
    part, opcode = {"jalr": (0, 0x67), **{k: (v, 0x03) for k, v in LOADS.items()}, **{k: (v, 0x13) for k, v in IMMEDIATES.items()}}[name]
    return (i.imm & 0xFFF) << 20 | i.rs1 << 15 | part << 12 | i.rd << 7 | opcode


def name_of(table, key):
    return next((name for name, value in table.items() if value == key), None)


def decode(w):
    """The instruction of a word, or None."""
    opcode, rd, part, rs1, rs2, seven = w & 0x7F, w >> 7 & 31, w >> 12 & 7, w >> 15 & 31, w >> 20 & 31, w >> 25
    name, imm, csr = None, signed(w >> 20, 12), None
    if w in WHOLE.values():
        return Instr(name_of(WHOLE, w), 0, 0, 0, 0, None)
    if opcode in (0x37, 0x17):
        name, imm = ("lui" if opcode == 0x37 else "auipc"), w >> 12
    elif opcode == 0x6F:
        name = "jal"
        imm = signed((w >> 31) << 20 | (w >> 12 & 0xFF) << 12 | (w >> 20 & 1) << 11 | (w >> 21 & 0x3FF) << 1, 21)
    elif opcode == 0x67 and part == 0:
        name = "jalr"
    elif opcode == 0x63:
        name = name_of(BRANCHES, part)
        imm = signed((w >> 31) << 12 | (w >> 7 & 1) << 11 | (w >> 25 & 0x3F) << 5 | (w >> 8 & 0xF) << 1, 13)
    elif opcode == 0x03:
        name = name_of(LOADS, part)
    elif opcode == 0x23:
        name, imm = name_of(STORES, part), signed(seven << 5 | rd, 12)
    elif opcode == 0x13 and part in (1, 5):
        name, imm = name_of(SHIFTS, (part, seven)), rs2
    elif opcode == 0x13:
        name = name_of(IMMEDIATES, part)
    elif opcode == 0x33:
        name = name_of(MULTIPLIER if seven == 1 else REGISTERS, (part, seven))
    elif opcode == 0x0F and part == 0:
        name = "fence"
    elif opcode == 0x73 and part:
        name, csr = name_of(CSR_WORDS, part), w >> 20
    return Instr(name, rd, rs1, rs2, imm, csr) if name else None


def text(w):
    """The text of a word in a listing."""
    i = decode(w)
    if i is None or i.name == "fence" and w != WHOLE["fence"]:
        return f".word 0x{w:08x}"
    if i.name in WHOLE:
        return i.name
    if i.name in ("lui", "auipc"):
        return f"{i.name} x{i.rd},{i.imm}"
    if i.name == "jal":
        return f"jal x{i.rd},.{i.imm:+d}"
    if i.name in BRANCHES:
        return f"{i.name} x{i.rs1},x{i.rs2},.{i.imm:+d}"
    if i.name in STORES:
        return f"{i.name} x{i.rs2},{i.imm}(x{i.rs1})"
    if i.name in LOADS or i.name == "jalr":
        return f"{i.name} x{i.rd},{i.imm}(x{i.rs1})"
    if i.name in CSR_WORDS:
        return f"{i.name} x{i.rd},0x{i.csr:03x}," + (f"{i.rs1}" if i.name.endswith("i") else f"x{i.rs1}")
    last = f"x{i.rs2}" if i.name in REGISTERS or i.name in MULTIPLIER else f"{i.imm}"
    return f"{i.name} x{i.rd},x{i.rs1},{last}"


# --- assembler text ---


def number(operand):
    return int(operand, 16) if operand.startswith("0x") else int(operand)


def assemble(lines):
    """The words of lines of assembler text. A line that isn't right raises ValueError or KeyError; which refusal the program has is not modelled."""
    labels, listed = {}, []  # listed: (name, operands), one for each word
    for line in lines:
        line = line.split("#")[0].strip()
        while ":" in line:
            label, line = line.split(":", 1)
            labels[label.strip()], line = 4 * len(listed), line.strip()
        if not line:
            continue
        name, _, rest = line.partition(" ") if "\t" not in line else line.replace("\t", " ").partition(" ")
        operands = [o.strip() for o in rest.split(",")] if rest.strip() else []
        listed += expanded(name, operands)
    return [assembled(name, operands, 4 * at, labels) for at, (name, operands) in enumerate(listed)]


def expanded(name, o):
    if name == "li":
        v = word(number(o[1]))
        low = signed(v, 12)
        if -2048 <= signed(v) <= 2047:
            return [("addi", [o[0], "x0", str(signed(v))])]
        upper = [("lui", [o[0], str(word(v + 2048) >> 12)])]
        return upper + ([("addi", [o[0], o[0], str(low)])] if low else [])
    return [
        {
            "nop": lambda: ("addi", ["x0", "x0", "0"]),
            "mv": lambda: ("addi", [o[0], o[1], "0"]),
            "not": lambda: ("xori", [o[0], o[1], "-1"]),
            "j": lambda: ("jal", ["x0", o[0]]),
            "ret": lambda: ("jalr", ["x0", "0(x1)"]),
            "beqz": lambda: ("beq", [o[0], "x0", o[1]]),
            "bnez": lambda: ("bne", [o[0], "x0", o[1]]),
        }.get(name, lambda: (name, o))()
    ]


def assembled(name, o, at, labels):
    reg = REGISTER_NAMES

    def distance(target):
        return int(target[1:]) if target[:2] in (".+", ".-") else labels[target] - at

    def place(operand):
        offset, base = operand.rstrip(")").split("(")
        return number(offset), reg[base]

    if name == ".word":
        return word(number(o[0]))
    if name in WHOLE:
        return WHOLE[name]
    if name in ("lui", "auipc"):
        return encode(Instr(name, reg[o[0]], 0, 0, number(o[1]), None))
    if name == "jal":
        return encode(Instr(name, reg[o[0]], 0, 0, distance(o[1]), None))
    if name in BRANCHES:
        return encode(Instr(name, 0, reg[o[0]], reg[o[1]], distance(o[2]), None))
    if name in LOADS or name == "jalr":
        imm, base = place(o[1])
        return encode(Instr(name, reg[o[0]], base, 0, imm, None))
    if name in STORES:
        imm, base = place(o[1])
        return encode(Instr(name, 0, base, reg[o[0]], imm, None))
    if name in REGISTERS or name in MULTIPLIER:
        return encode(Instr(name, reg[o[0]], reg[o[1]], reg[o[2]], 0, None))
    if name in CSR_WORDS:
        csr = CSR_NUMBERS[o[1]] if o[1] in CSR_NUMBERS else number(o[1])
        return encode(Instr(name, reg[o[0]], number(o[2]) if name.endswith("i") else reg[o[2]], 0, 0, csr))
    if name in IMMEDIATES or name in SHIFTS:
        return encode(Instr(name, reg[o[0]], reg[o[1]], 0, number(o[2]), None))
    raise ValueError(f"no instruction: {name}")


# --- arithmetic ---


def divided(a, b):
    """The quotient and the remainder of two integers, rounded towards zero."""
    if b == 0:
        return -1, a
    q = abs(a) // abs(b) * (1 if (a < 0) == (b < 0) else -1)
    return q, a - q * b


def operate(name, a, b):
    """The result of an operation on two words; of one with an immediate, b is the immediate as a word."""
    sa, sb = signed(a), signed(b)
    return word(
        {
            "add": lambda: a + b,
            "sub": lambda: a - b,
            "sll": lambda: a << (b & 31),
            "slt": lambda: int(sa < sb),
            "sltu": lambda: int(a < b),
            "xor": lambda: a ^ b,
            "srl": lambda: a >> (b & 31),
            "sra": lambda: sa >> (b & 31),
            "or": lambda: a | b,
            "and": lambda: a & b,
            "mul": lambda: a * b,
            "mulh": lambda: sa * sb >> 32,
            "mulhsu": lambda: sa * b >> 32,
            "mulhu": lambda: a * b >> 32,
            "div": lambda: divided(sa, sb)[0],
            "divu": lambda: divided(a, b)[0],
            "rem": lambda: divided(sa, sb)[1],
            "remu": lambda: divided(a, b)[1],
        }[name]()
    )


def taken(name, a, b):
    sa, sb = signed(a), signed(b)
    return {"beq": a == b, "bne": a != b, "blt": sa < sb, "bge": sa >= sb, "bltu": a < b, "bgeu": a >= b}[name]


def extracted(name, w, at):
    """What a load has of the aligned word at its address."""
    w >>= 8 * (at & 3)
    return word({"lb": signed(w, 8), "lh": signed(w, 16), "lw": w, "lbu": w & 0xFF, "lhu": w & 0xFFFF}[name])


def merged(name, w, at, value):
    """The aligned word after a store of the value at its address."""
    mask = {"sb": 0xFF, "sh": 0xFFFF, "sw": 0xFFFFFFFF}[name] << 8 * (at & 3)
    return w & ~mask & 0xFFFFFFFF | value << 8 * (at & 3) & mask


SIZES = dict(lb=1, lbu=1, lh=2, lhu=2, lw=4, sb=1, sh=2, sw=4)
