"""What every run of a text has in common: the program `outcomes` on the cases of tools/outcomes.txt, and beside tools/reference.py on made texts."""
import pathlib
import random

import reference
from .counting import KIND, check, programs, run

# how many texts are made, and how many random orders of grants each settled answer is held against
MADE, ORDERS = (500, 20) if KIND == "proved" else (40, 5)


# ---------------------------------------------------------------- the cases

def blocks():
    """The text with HERE, and the blocks of lines of tools/outcomes.txt behind it."""
    parts = [[line for line in part.split("\n") if line and not line.startswith("#")]
             for part in pathlib.Path("tools/outcomes.txt").read_text().split("\n\n")]
    parts = [part for part in parts if part]
    return "".join(line + "\n" for line in parts[0][1:]), parts[1:]


def text_of_case(frame, block):
    """The text that a block names, and how many of the block's lines that takes."""
    kind, _, rest = block[0].partition(" ")
    if kind == "file":
        return pathlib.Path(rest).read_text(), 1
    if kind == "source":
        lines = block[1:next(at for at, line in enumerate(block) if at and not line.startswith(" "))]
        return "".join(line[2:] + "\n" for line in lines), 1 + len(lines)
    lines = [line.strip() for line in rest.split("|") if line.strip()]
    return frame.replace(" HERE\n", "".join((line if line.endswith(":") else " " + line) + "\n" for line in lines)), 1


def wanted_lines(lines, text):
    """The lines that are to be printed; `flat` stands for the answer of the mode flat, without the words that may vary."""
    if lines[0] != "flat":
        return lines
    vary = [line.split()[1] for line in lines[1:]]
    answer = [line for line in reference.answer(["--mode", "flat"], text)[1] if not line.startswith("grant ")]
    return [line for line in answer if not (line.startswith("word ") and line.split()[1] in vary)] + lines[1:]


def cases_have_their_outcomes():
    """Each case of tools/outcomes.txt, by the program and its launcher."""
    frame, cases = blocks()
    for block in cases:
        text, at = text_of_case(frame, block)
        words = block[at].split()[1:] if block[at].startswith("words ") else []
        at += bool(words)
        status, lines = int(block[at].split()[1]), wanted_lines(block[at + 1:], text)
        wanted = status, "".join(line + "\n" for line in lines).encode()
        for program in programs("outcomes"):
            ran = run(program + words, text.encode())
            check(f"{program[0]} {' '.join(words)}: {block[0]}", (ran.returncode, ran.stdout) == wanted, ran.stdout[:300])


# ---------------------------------------------------------------- made texts

LOCKS = ("k", "j", "i")


class Maker:
    """Makes a text by chance: tasks that set words of locks, add to them, store parts of them and branch on them, in sections that may be
    nested, and that may trap or end while they hold a lock."""

    def __init__(self, seed):
        self.draw = random.Random(seed)
        self.labels = 0

    def chance(self, share):
        return self.draw.random() < share

    def call(self, number, lock=0):
        return ["li a0, %d" % lock, "li a7, %d" % number, "ecall"]

    def work(self, places, plain):
        """A few instructions on words that the task may use here; t0 has the address of the words."""
        lines = []
        for _ in range(self.draw.randrange(1, 5)):
            at = 4 * self.draw.choice(places)
            kind = self.draw.choice(("add", "add", "add", "sub", "set", "part", "argument", "copy", "load", "twice", "branch"))
            if kind in ("add", "sub"):
                lines += ["lw t1, %d(t0)" % at, "%s t1, t1, %s" % (kind, self.draw.choice(("s0", "s1"))), "sw t1, %d(t0)" % at]
            elif kind == "set":
                lines += ["li t1, %d" % self.draw.choice((3, 3, 3, 7)), "sw t1, %d(t0)" % at]
            elif kind == "part":
                lines += ["%s s1, %d(t0)" % (self.draw.choice(("sb", "sh")), at)]
            elif kind == "argument":
                lines += ["sw s0, %d(t0)" % at]
            elif kind == "copy":
                lines += ["lw t1, %d(t0)" % at, "sw t1, %d(t0)" % (4 * self.draw.choice(places))]
            elif kind == "load":
                lines += ["%s %s, %d(t0)" % (self.draw.choice(("lw", "lw", "lbu", "lh")), self.draw.choice(("t2", "s1")) if self.chance(0.1) else "t2", at)]
            elif kind == "twice":
                lines += ["lw t1, %d(t0)" % at, "addi t1, t1, 5", "add t1, t1, %s" % self.draw.choice(("x0", "x0", "t1")), "sw t1, %d(t0)" % at]
            elif kind == "branch" and (plain or self.chance(0.3)):
                self.labels += 1
                lines += ["lw t1, %d(t0)" % at, "beq t1, %s, L%d" % (self.draw.choice(("t1", "s1")), self.labels), "addi s2, s2, 1", "L%d:" % self.labels]
        return lines

    def section(self, lock, held):
        """A section of a lock, perhaps with another one inside."""
        lines = self.call(1, lock) + self.work((2 * lock, 2 * lock + 1), False)
        others = [other for other in range(len(LOCKS)) if other not in held + [lock] and (other > lock or self.chance(0.3))]
        if others and self.chance(0.3):
            lines += self.section(self.draw.choice(others), held + [lock]) + self.work((2 * lock, 2 * lock + 1), False)
        if self.chance(0.02):
            lines += [self.draw.choice(("ebreak", "lw t1, 1(t0)"))]
        return lines + (self.call(2, lock) if self.chance(0.98) else [])

    def task(self, core):
        lines = ["T%d_%d: mv s0, a0" % (self.labels, core), "la t0, w", "li s1, 2"]
        self.name = lines[0].partition(":")[0]
        for _ in range(self.draw.randrange(1, 4)):
            lines += self.section(self.draw.randrange(len(LOCKS)), []) if self.chance(0.8) else self.work((6 + core,), True)
        return lines + ["li a7, 0", "ecall"]

    def text(self):
        head, code = [".region w, 10"] + [".word w, %d, %d" % (at, at) for at in range(3)] + [".lock " + lock for lock in LOCKS], []
        for _ in range(self.draw.randrange(1, 4)):
            head += [".phase"]
            for core in range(self.draw.randrange(1, 4)):
                self.labels += 1
                code += self.task(core)
                head += [".task %d, %s, %d" % (core, self.name, self.draw.randrange(1, 4)), ".writes w, %d, %d" % (6 + core, 7 + core)]
                head += [".%s %s, w, %d, %d" % ("greads" if self.chance(0.05) else "gwrites", lock, 2 * at, 2 * at + 2)
                         for at, lock in enumerate(LOCKS)]
        return "".join(line + "\n" for line in head + [line if ":" in line else " " + line for line in code])


def made_texts_have_the_outcomes_of_the_reference():
    """The program on made texts, beside tools/reference.py, which holds each settled answer against random orders of grants."""
    program, kinds = programs("outcomes")[0], {}
    for seed in range(MADE):
        text = Maker(seed).text()
        made = reference.assemble(text)
        status, lines = reference.outcomes_text(made, 32768)
        kind = "varies" if lines[-1].startswith("varies") else " ".join(lines[0].split()[:2])
        kinds[kind] = kinds.get(kind, 0) + 1
        ran = run(program, text.encode())
        check(f"{program[0]}: made text {seed}", (ran.returncode, ran.stdout) == (status, "".join(line + "\n" for line in lines).encode()), ran.stdout[:300])
        differ = reference.against(made, 32768, ORDERS, seed)
        check(f"the settled answer to made text {seed}, in {ORDERS} orders", not differ, differ)
    if KIND == "proved":
        wanted = {"varies", "outcome done", "open control", "open held", "open stuck"}
        check("the made texts have answers of each kind", wanted <= set(kinds), kinds)
