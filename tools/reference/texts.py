"""Texts of the language: their statements, the program that they declare, and the check of its effects.

It takes texts that assemble and check, and says `Unfit` of some others: how a text is refused is the proved program's matter."""

import re

from .isa import ABI, BRANCHES, LOADS, MASK, PLAIN, SHIFTS, STORES, SUMS


class Task:
    def __init__(self, core, entry, arg):
        self.core, self.entry, self.arg = core, entry, arg & MASK
        self.reads, self.writes = set(), set()
        self.greads, self.gwrites = {}, {}


class Program:
    def __init__(self):
        self.code, self.memory, self.regions, self.locks, self.phases = [], [], {}, [], []

    def cores(self):
        return max([1 + task.core for phase in self.phases for task in phase.values()], default=1)

    def plans(self):
        """What each phase may have written, and the words that each lock guards in it."""
        plans = []
        for phase in self.phases:
            used, guarded = set(), [set() for _ in self.locks]
            for task in phase.values():
                used |= task.writes
                for lock, words in task.gwrites.items():
                    used |= words
                    guarded[lock] |= words
                for lock, words in task.greads.items():
                    guarded[lock] |= words
            written = set()
            for start, length in self.regions.values():
                region = set(range(start, start + length))
                if region & used:
                    written |= region
            plans.append((written, guarded))
        return plans


class Unfit(Exception):
    """The text isn't one that this program takes."""


def number(token):
    if not re.fullmatch(r"-?(0x[0-9a-fA-F]+|[0-9]+)", token):
        raise Unfit("not a number: " + token)
    return int(token, 16) if "x" in token else int(token)


def is_number(token):
    return token[0].isdigit() or token[0] == "-"


def statements(text):
    """(label or None, mnemonic or None, operands) of each line; an operand n(r) is the pair of both."""
    for line in text.split("\n"):
        tokens = re.findall(r"[A-Za-z_.][\w.]*|[0-9-][\w.]*|[,:()]", line.split("#")[0])
        label = None
        if len(tokens) >= 2 and tokens[1] == ":":
            label, tokens = tokens[0], tokens[2:]
        operands = []
        rest = tokens[1:]
        while rest:
            if len(rest) >= 4 and rest[1] == "(" and rest[3] == ")":
                operands.append((rest[0], rest[2]))
                rest = rest[4:]
            else:
                operands.append(rest[0])
                rest = rest[1:]
            if rest and rest[0] != ",":
                raise Unfit("no comma: " + line)
            rest = rest[1:]
        yield label, tokens[0] if tokens else None, operands


def assemble(text):
    program = Program()
    labels, places, place, lines = {}, [], 0, list(statements(text))
    for label, word, operands in lines:
        if label is not None:
            labels[label] = 0x1000 + 4 * place
        places.append(place)
        if word == ".region":
            length = number(operands[1])
            program.regions[operands[0]] = (len(program.memory), length)
            program.memory += [0] * length
        elif word == ".lock":
            program.locks.append(operands[0])
        elif word in ("li", "la"):
            place += 2
        elif word is not None and (not word.startswith(".") or word == ".raw"):
            place += 1
    family = []

    def target(token):
        return number(token) if is_number(token) else labels[token]

    def offset(token, here):
        return number(token) if is_number(token) else labels[token] - here

    def constant(r, value):
        high = ((value + 2048) & MASK) // 4096
        program.code.append(high << 12 | r << 7 | 0x37)
        program.code.append((value & 0xFFF) << 20 | r << 15 | r << 7 | 0x13)

    def of_i(imm, a, f3, rd, opcode):
        program.code.append((imm & 0xFFF) << 20 | a << 15 | f3 << 12 | rd << 7 | opcode)

    def of_r(f7, b, a, f3, rd):
        program.code.append(f7 << 25 | b << 20 | a << 15 | f3 << 12 | rd << 7 | 0x33)

    def of_b(f3, a, b, imm):
        program.code.append((imm >> 12 & 1) << 31 | (imm >> 5 & 63) << 25 | b << 20 | a << 15 | f3 << 12
                            | (imm >> 1 & 15) << 8 | (imm >> 11 & 1) << 7 | 0x63)

    def of_j(rd, imm):
        program.code.append((imm >> 20 & 1) << 31 | (imm >> 1 & 0x3FF) << 21 | (imm >> 11 & 1) << 20
                            | (imm >> 12 & 0xFF) << 12 | rd << 7 | 0x6F)

    for (label, word, o), place in zip(lines, places):
        here = 0x1000 + 4 * place
        if word is None or word in (".region", ".lock"):
            continue
        if word == ".version":
            if o != ["2"]:
                raise Unfit("version")
        elif word == ".word":
            start, length = program.regions[o[0]]
            if not 0 <= number(o[1]) < length:
                raise Unfit("index")
            program.memory[start + number(o[1])] = number(o[2]) & MASK
        elif word == ".phase":
            program.phases.append({})
            family = []
        elif word in (".task", ".forall"):
            if word == ".task":
                first, many, entry, arg, step = number(o[0]), 1, target(o[1]), number(o[2]), 0
            else:
                first, many, entry, arg, step = number(o[0]), number(o[1]), target(o[2]), number(o[3]), number(o[4])
            family = [Task(first + i, entry, arg + i * step) for i in range(many)]
            for task in family:
                if task.core in program.phases[-1] or task.core > 15 or entry % 4:
                    raise Unfit("core")
                program.phases[-1][task.core] = task
        elif word in (".reads", ".writes", ".greads", ".gwrites"):
            lock = None
            if word[1] == "g":
                lock, o = program.locks.index(o[0]), o[1:]
            start, length = program.regions[o[0]]
            low, high = (number(o[1]), number(o[2])) if len(o) > 1 else (0, length)
            step = number(o[3]) if len(o) > 3 else 0
            for i, task in enumerate(family):
                if not 0 <= low + i * step < high + i * step <= length:
                    raise Unfit("interval")
                words = set(range(start + low + i * step, start + high + i * step))
                if lock is None:
                    (task.reads if word == ".reads" else task.writes).update(words)
                else:
                    (task.greads if word == ".greads" else task.gwrites).setdefault(lock, set()).update(words)
            if not family:
                raise Unfit("effect without a task")
        elif word == ".raw":
            program.code.append(number(o[0]) & MASK)
        elif word == "li":
            constant(ABI[o[0]], number(o[1]))
        elif word == "la":
            name = o[1]
            constant(ABI[o[0]], 0x10000000 + 4 * program.regions[name][0] if name in program.regions else labels[name])
        elif word in ("lui", "auipc"):
            program.code.append(number(o[1]) << 12 | ABI[o[0]] << 7 | (0x37 if word == "lui" else 0x17))
        elif word == "jal":
            of_j(ABI[o[0]], offset(o[1], here))
        elif word == "j":
            of_j(0, offset(o[0], here))
        elif word == "jalr":
            of_i(number(o[1][0]), ABI[o[1][1]], 0, ABI[o[0]], 0x67)
        elif word == "jr":
            of_i(0, ABI[o[0]], 0, 0, 0x67)
        elif word == "ret":
            of_i(0, 1, 0, 0, 0x67)
        elif word in BRANCHES:
            of_b(BRANCHES[word], ABI[o[0]], ABI[o[1]], offset(o[2], here))
        elif word in ("beqz", "bnez"):
            of_b(int(word == "bnez"), ABI[o[0]], 0, offset(o[1], here))
        elif word in LOADS:
            of_i(number(o[1][0]), ABI[o[1][1]], LOADS[word], ABI[o[0]], 0x03)
        elif word in STORES:
            imm = number(o[1][0])
            program.code.append((imm >> 5 & 0x7F) << 25 | ABI[o[0]] << 20 | ABI[o[1][1]] << 15 | STORES[word] << 12
                                | (imm & 31) << 7 | 0x23)
        elif word in SUMS:
            of_i(number(o[2]), ABI[o[1]], SUMS[word], ABI[o[0]], 0x13)
        elif word in SHIFTS:
            f3, f7 = SHIFTS[word]
            of_i(f7 << 5 | number(o[2]), ABI[o[1]], f3, ABI[o[0]], 0x13)
        elif word in PLAIN:
            f3, f7 = PLAIN[word]
            of_r(f7, ABI[o[2]], ABI[o[1]], f3, ABI[o[0]])
        elif word == "fence":
            program.code.append(0x0FF0000F)
        elif word == "ecall":
            program.code.append(0x73)
        elif word == "ebreak":
            program.code.append(0x100073)
        elif word == "nop":
            of_i(0, 0, 0, 0, 0x13)
        elif word == "mv":
            of_i(0, ABI[o[1]], 0, ABI[o[0]], 0x13)
        elif word == "not":
            of_i(-1, ABI[o[1]], 4, ABI[o[0]], 0x13)
        elif word == "neg":
            of_r(32, ABI[o[1]], 0, 0, ABI[o[0]])
        elif word == "seqz":
            of_i(1, ABI[o[1]], 3, ABI[o[0]], 0x13)
        elif word == "snez":
            of_r(0, ABI[o[1]], 0, 3, ABI[o[0]])
        else:
            raise Unfit("unknown word " + word)
    check(program)
    return program


def check(program):
    """No two tasks of a phase use a word that one of them writes, and a guarded word has one lock."""
    for phase in program.phases:
        guarded = {}
        for task in phase.values():
            for lists in (task.greads, task.gwrites):
                for lock, words in lists.items():
                    for word in words:
                        if guarded.setdefault(word, lock) != lock:
                            raise Unfit("two locks")
        for a in phase.values():
            if not guarded.keys().isdisjoint(a.reads | a.writes):
                raise Unfit("guarded and plain")
            for b in phase.values():
                if a is not b and a.writes & (b.reads | b.writes):
                    raise Unfit("conflict")


def code_lines(text):
    """For each code word the number of its line, and which of the line's words it is."""
    places = []
    for number, (_, word, _) in enumerate(statements(text), 1):
        if word in ("li", "la"):
            places += [(number, 0), (number, 1)]
        elif word is not None and (not word.startswith(".") or word == ".raw"):
            places.append((number, 0))
    return places
