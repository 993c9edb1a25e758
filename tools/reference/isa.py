"""RV32I: the words of instructions, what they mean, and how a listing writes them.

The tables of mnemonics are those by which texts are assembled; `decode` is the way back."""

MASK = 0xFFFFFFFF


def signed(value, bits=32):
    value &= (1 << bits) - 1
    return value - (1 << bits) if value >> (bits - 1) else value


ABI = {"zero": 0, "ra": 1, "sp": 2, "gp": 3, "tp": 4, "fp": 8}
ABI.update({"t%d" % n: 5 + n for n in range(3)})
ABI.update({"t%d" % n: 25 + n for n in range(3, 7)})
ABI.update({"s%d" % n: 8 + n for n in range(2)})
ABI.update({"s%d" % n: 16 + n for n in range(2, 12)})
ABI.update({"a%d" % n: 10 + n for n in range(8)})
ABI.update({"x%d" % n: n for n in range(32)})

BRANCHES = {"beq": 0, "bne": 1, "blt": 4, "bge": 5, "bltu": 6, "bgeu": 7}
LOADS = {"lb": 0, "lh": 1, "lw": 2, "lbu": 4, "lhu": 5}
STORES = {"sb": 0, "sh": 1, "sw": 2}
SUMS = {"addi": 0, "slti": 2, "sltiu": 3, "xori": 4, "ori": 6, "andi": 7}
SHIFTS = {"slli": (1, 0), "srli": (5, 0), "srai": (5, 32)}
PLAIN = {"add": (0, 0), "sub": (0, 32), "sll": (1, 0), "slt": (2, 0), "sltu": (3, 0), "xor": (4, 0), "srl": (5, 0),
         "sra": (5, 32), "or": (6, 0), "and": (7, 0)}


def decode(word):
    """(name, ..) of a code word, or None."""
    opcode, rd, f3, a, b, f7 = word & 127, word >> 7 & 31, word >> 12 & 7, word >> 15 & 31, word >> 20 & 31, word >> 25
    imm = signed(word >> 20, 12)
    if opcode == 0x37:
        return "const", rd, word & 0xFFFFF000
    if opcode == 0x17:
        return "auipc", rd, word & 0xFFFFF000
    if opcode == 0x6F:
        return "jal", rd, signed((word >> 31) << 20 | (word >> 12 & 0xFF) << 12 | (word >> 20 & 1) << 11
                                 | (word >> 21 & 0x3FF) << 1, 21)
    if opcode == 0x67 and f3 == 0:
        return "jalr", rd, a, imm
    if opcode == 0x63 and f3 not in (2, 3):
        return "branch", f3, a, b, signed((word >> 31) << 12 | (word >> 7 & 1) << 11 | (word >> 25 & 63) << 5
                                          | (word >> 8 & 15) << 1, 13)
    if opcode == 0x03 and f3 in (0, 1, 2, 4, 5):
        return "load", f3, rd, a, imm
    if opcode == 0x23 and f3 in (0, 1, 2):
        return "store", f3, b, a, signed(f7 << 5 | rd, 12)
    if opcode == 0x13:
        if f3 == 1 and f7 == 0 or f3 == 5 and f7 in (0, 32):
            return "alui", (f3, f7), rd, a, b
        if f3 not in (1, 5):
            return "alui", (f3, 0), rd, a, imm & MASK
    if opcode == 0x33 and (f7 == 0 or f7 == 32 and f3 in (0, 5)):
        return "alu", (f3, f7), rd, a, b
    if opcode == 0x0F and f3 == 0:
        return ("fence",)
    if word == 0x73:
        return ("ecall",)
    if word == 0x100073:
        return ("ebreak",)
    return None


def alu(op, a, b):
    if op == (0, 0):
        return a + b & MASK
    if op == (0, 32):
        return a - b & MASK
    if op == (1, 0):
        return a << (b & 31) & MASK
    if op == (2, 0):
        return int(signed(a) < signed(b))
    if op == (3, 0):
        return int(a < b)
    if op == (4, 0):
        return a ^ b
    if op == (5, 0):
        return a >> (b & 31)
    if op == (5, 32):
        return signed(a) >> (b & 31) & MASK
    return a | b if op == (6, 0) else a & b


def taken(f3, a, b):
    if f3 >= 6:
        is_less = a < b
    elif f3 >= 4:
        is_less = signed(a) < signed(b)
    else:
        return (a == b) != bool(f3)
    return is_less != bool(f3 & 1)


ALU_NAMES = {key: name for name, key in PLAIN.items()}
NAMES_OF = {kind: {number: name for name, number in names.items()} for kind, names in
            (("branch", BRANCHES), ("load", LOADS), ("store", STORES))}


def instruction_text(word):
    """A code word as an instruction by its base mnemonic, or as a number where no instruction is encoded so."""
    instr = decode(word)
    name = instr and instr[0]
    if name in ("const", "auipc"):
        return "%s x%d, %d" % ("lui" if name == "const" else name, instr[1], instr[2] >> 12)
    if name == "jal":
        return "jal x%d, %d" % instr[1:]
    if name == "jalr":
        return "jalr x%d, %d(x%d)" % (instr[1], instr[3], instr[2])
    if name == "branch":
        return "%s x%d, x%d, %d" % ((NAMES_OF["branch"][instr[1]],) + instr[2:])
    if name in ("load", "store"):
        return "%s x%d, %d(x%d)" % (NAMES_OF[name][instr[1]], instr[2], instr[4], instr[3])
    if name == "alui":
        return "%si x%d, x%d, %d" % (ALU_NAMES[instr[1]], instr[2], instr[3], signed(instr[4])) if instr[1] != (3, 0) else \
            "sltiu x%d, x%d, %d" % (instr[2], instr[3], signed(instr[4]))
    if name == "alu":
        return "%s x%d, x%d, x%d" % ((ALU_NAMES[instr[1]],) + instr[2:])
    if name in ("ecall", "ebreak") or name == "fence" and word == 0x0FF0000F:
        return name
    return ".raw 0x%08x" % word
