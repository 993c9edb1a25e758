#!/usr/bin/env python3
"""Makes a text of the source language from C functions: `tools/from_c.py [OPTIONS] PROGRAM.c PLAN.s > TEXT.s`.

PLAN.s is a text without code: regions, locks, phases, tasks with their effects. A task's entry is the name of a C function, and its
argument is the function's first one. PROGRAM.c sees each region as an array (`extern unsigned counts[];`) and includes denovo.h, which
stands beside the examples and has acquire, release and LOCK(name). docs/FROM_C.md has the rest, also what can't be taken.

The words are those of the cross compiler (riscv64-unknown-elf-gcc, or what CROSS names, as in CROSS=riscv32-elf-), for RV32I. Each
core that has a task gets a region of its own for its stack, which its tasks may write, and a guard below it, which nobody may use.
Constants of the C (strings, const tables) become the words of a region that every task may read, `constants`.

  --stack N              words of each stack, 16 to 8192 (64); a guard has twice as many
  --cflags "FLAGS"       more flags for the compiler
  --data REGION=FILE     the first words of a region of the plan are the bytes of a file, four a word, little-endian; any number of times
  --help                 prints this page

`tools/from_c.py --try` makes the text of each pair in examples/c, runs it by the second program of the language
(tools/reference.py) and by ./denovo where it is there, and compares the answers. It says so and ends with 0 where no compiler is."""
import os
import pathlib
import re
import shlex
import shutil
import subprocess
import sys
import tempfile

from ending import end

TOP = pathlib.Path(__file__).resolve().parent.parent
CROSS = os.environ.get("CROSS", "riscv64-unknown-elf-")
CODE, DATA, WORD = 0x1000, 0x10000000, 4
# the words of a start: la, li, add, jal, li, ecall
START_WORDS = 2 + 2 + 1 + 1 + 2 + 1
FLAGS = ["-march=rv32i", "-mabi=ilp32", "-Os", "-ffreestanding", "-fno-jump-tables", "-fno-tree-switch-conversion", "-fno-pic", "-mcmodel=medlow",
         "-fno-asynchronous-unwind-tables", "-msmall-data-limit=0", "-Wall", "-Wextra"]
LEAST_STACK, MOST_STACK = 16, 8192
CONSTANTS = "constants"


class Refused(Exception):
    """What stands in the way, in words for who wrote the C."""


class Usage(Exception):
    """The words aren't the command's."""


class Options:
    """What the words ask for."""

    def __init__(self, words):
        self.stack, self.cflags, self.data, self.files = 64, [], {}, []
        words = list(words)
        while words:
            word, _, value = words.pop(0).partition("=")
            if not word.startswith("--"):
                self.files.append(word + _ + value)
                continue
            if word not in ("--stack", "--cflags", "--data"):
                raise Usage(f"there is no option {word}")
            if not _:
                if not words:
                    raise Usage(f"{word} needs a value")
                value = words.pop(0)
            self.take(word, value)
        if len(self.files) != 2:
            raise Usage("a C file and a plan are wanted")

    def take(self, word, value):
        if word == "--stack":
            if not re.fullmatch(r"\d+|0x[0-9a-fA-F]+", value) or not LEAST_STACK <= int(value, 0) <= MOST_STACK:
                raise Usage(f"--stack takes a number of words, {LEAST_STACK} to {MOST_STACK}, and not {value}")
            self.stack = int(value, 0)
        elif word == "--cflags":
            self.cflags += shlex.split(value)
        else:
            region, named, file = value.partition("=")
            if not named:
                raise Usage("--data takes REGION=FILE")
            self.data[region] = file


def tool(name, *words):
    ran = subprocess.run([CROSS + name, *map(str, words)], capture_output=True, text=True)
    if ran.returncode != 0:
        lacking = sorted(set(re.findall(r"undefined reference to `(\w+)'", ran.stderr)))
        if lacking:
            raise Refused(f"the C names {', '.join(lacking)}, which is no region of the plan and no function of the C"
                          + (": write it, or a loop in its place" if {"memset", "memcpy"} & set(lacking) else ""))
        raise Refused(ran.stderr.strip() or f"{CROSS}{name} failed")
    return ran.stdout


class Plan:
    """The lines of a plan, and what they declare."""

    def __init__(self, text):
        self.lines, self.regions, self.lengths, self.locks, self.tasks = text.split("\n"), {}, {}, [], []
        words = 0
        for number, line in enumerate(self.lines):
            bare = line.split("#")[0].replace(",", " ").split()
            wanted = {".region": "a name and a number of words", ".lock": "a name", ".task": "a core, a function and an argument"}
            forms = {".region": r"\.region \S+ (\d+|0x[0-9a-fA-F]+)", ".lock": r"\.lock \S+", ".task": r"\.task \d+ \S+ \S+"}
            if bare and bare[0] in forms and not re.fullmatch(forms[bare[0]], " ".join(bare)):
                raise Refused(f"line {number + 1} of the plan: {bare[0]} needs {wanted[bare[0]]}: {line.strip()}")
            if bare[:1] == [".region"]:
                if bare[1] == CONSTANTS or re.match(r"(stack|guard)_\d", bare[1]):
                    raise Refused(f"line {number + 1} of the plan: a region called {bare[1]} is added by this tool; give it another name")
                self.regions[bare[1]], self.lengths[bare[1]] = DATA + WORD * words, int(bare[2], 0)
                words += int(bare[2], 0)
            elif bare[:1] == [".lock"]:
                self.locks.append(bare[1])
            elif bare[:1] == [".task"]:
                self.tasks.append((number, int(bare[1]), bare[2], bare[3]))
            elif bare[:1] == [".forall"]:
                raise Refused("a plan has .task lines, and no .forall: each core needs a stack of its own")
            elif bare and bare[0] not in (".version", ".word", ".phase", ".reads", ".writes", ".greads", ".gwrites"):
                raise Refused(f"line {number + 1} of the plan is no declaration: {line.strip()}")
        self.words = words

    def starts(self):
        """Each function with each core that it begins on, in order."""
        return list(dict.fromkeys((function, core) for _, core, function, _ in self.tasks))

    def cores(self):
        return sorted({core for _, core, _, _ in self.tasks})

    def head(self, stack, constants, data):
        """The plan's lines with the constants, the stacks and their guards, with the words of files, and each task at its start."""
        lines = list(self.lines)
        for number, core, function, argument in self.tasks:
            indent = re.match(r"\s*", lines[number])[0]
            lines[number] = f"{indent}.task {core}, {function}_on_{core}, {argument}\n{indent}.writes stack_{core}"
            if constants:
                lines[number] += f"\n{indent}.reads {CONSTANTS}"
        added = [f".region {CONSTANTS}, {len(constants)}"] * bool(constants)
        for core in self.cores():
            added += [f".region guard_{core}, {2 * stack}", f".region stack_{core}, {stack}"]
        for region, words in [(CONSTANTS, constants), *data.items()]:
            added += [f".word {region}, {index}, 0x{word:08x}" for index, word in enumerate(words) if word]
        first = next((n for n, line in enumerate(self.lines) if line.strip().startswith(".phase")), len(lines))
        return lines[:first] + added + lines[first:]


def words_of(code):
    """Bytes as words, little-endian; the last one is filled with zeros."""
    return [int.from_bytes(code[at:at + WORD], "little") for at in range(0, len(code), WORD)]


def compiled(options, plan, begin, room):
    """The linked program: its symbols by address, its words, each word's instruction, and the words of its constants."""
    object_file, program = room / "object.o", room / "program.elf"
    locks = [f"-DLOCK_{name}={number}" for number, name in enumerate(plan.locks)]
    # no function's frame is larger than a stack: see head, and docs/FROM_C.md on guards
    frame = f"-Werror=frame-larger-than={WORD * options.stack}"
    tool("gcc", *FLAGS, frame, *options.cflags, *locks, "-I", TOP / "examples/c", "-c", options.files[0], "-o", object_file)
    places = [f"-Wl,--defsym={name}={place:#x}" for name, place in plan.regions.items()]
    places.append(f"-Wl,--section-start=.rodata={DATA + WORD * plan.words:#x}")
    tool("gcc", *FLAGS, "-nostdlib", "-Wl,--no-relax", f"-Wl,-Ttext={begin:#x}", "-Wl,-e,0", *places, object_file, "-lgcc", "-o", program)
    for line in tool("size", "-A", program).split("\n"):
        parts = line.split()
        if len(parts) == 3 and re.match(r"\.(s?data|s?bss|srodata)", parts[0]) and int(parts[1]) > 0:
            raise Refused(f"the C has data of its own that can change ({parts[0]}, {parts[1]} bytes): a static or global variable. "
                          "Declare a .region, and name it by extern; what is const may stay in the C")
    symbols = {}
    for line in tool("nm", program).split("\n"):
        parts = line.split()
        if len(parts) == 3 and parts[1] in "Tt" and not parts[2].startswith((".", "$", "_start")):
            symbols[int(parts[0], 16)] = parts[2]
    parts = []
    for section in (".text", ".rodata"):
        binary = room / "section.bin"
        tool("objcopy", "-O", "binary", "-j", section, program, binary)
        parts.append(words_of(binary.read_bytes()) if binary.exists() else [])
        binary.unlink(missing_ok=True)
    shown = {int(at, 16): " ".join(text.split()) for at, text in
             re.findall(r"^ *([0-9a-f]+):\t[0-9a-f]+ +\t?(.*)$", tool("objdump", "-d", program), re.M)}
    return symbols, *parts, shown


def data_of(options, plan):
    """The words of the files that are data of the plan's regions."""
    data = {}
    for region, file in options.data.items():
        if region not in plan.lengths:
            raise Refused(f"--data names {region}, which is no region of the plan")
        data[region] = words_of(pathlib.Path(file).read_bytes())
        if len(data[region]) > plan.lengths[region]:
            raise Refused(f"{file} has {len(data[region])} words, and the region {region} has {plan.lengths[region]}")
    return data


def text_of(options):
    """The whole text."""
    plan, stack = Plan(pathlib.Path(options.files[1]).read_text()), options.stack
    begin = CODE + WORD * START_WORDS * len(plan.starts())
    with tempfile.TemporaryDirectory() as folder:
        symbols, words, constants, shown = compiled(options, plan, begin, pathlib.Path(folder))
    for _, _, function, _ in plan.tasks:
        if function not in symbols.values():
            raise Refused(f"a task begins at {function}, and the C has no such function (a static one may be gone)")
    lines = plan.head(stack, constants, data_of(options, plan))
    for function, core in plan.starts():
        lines += [f"{function}_on_{core}:", f" la sp, stack_{core}", f" li t0, {WORD * stack}", " add sp, sp, t0",
                  f" jal ra, {function}", " li a7, 0", " ecall"]
    for index, word in enumerate(words):
        place = begin + WORD * index
        if place in symbols:
            lines.append(f"{symbols[place]}:")
        lines.append(f" .raw 0x{word:08x}  # {shown.get(place, '')}".rstrip(" #"))
    return "\n".join(line for line in lines if line is not None).replace("\n\n\n", "\n\n") + "\n"


def tried():
    """Each pair of examples/c made and run twice; the count of those whose answers differ."""
    if not shutil.which(CROSS + "gcc"):
        print(f"from_c: skipped: there is no {CROSS}gcc (on Debian: apt-get install gcc-riscv64-unknown-elf)")
        return 0
    wrong = 0
    for source in sorted((TOP / "examples/c").glob("*.c")):
        data = source.with_suffix(".bin")
        text = text_of(Options([str(source), str(source.with_suffix(".s"))] + [f"--data={data.stem}_data={data}"] * data.exists()))
        answers = []
        for words in ([[str(TOP / "tools/reference.py")]] + ([[str(TOP / "denovo")]] if (TOP / "denovo").exists() else [])):
            ran = subprocess.run(words, input=text.encode(), capture_output=True, timeout=600)
            answers.append((ran.returncode, ran.stdout))
        same = all(answer == answers[0] for answer in answers)
        wrong += not same or answers[0][0] != 0
        print(f"from_c: {source.name}: {len(text.encode())} bytes, exit code {answers[0][0]}, {'the same' if same else 'other'} answers")
    return wrong


def main():
    words = sys.argv[1:]
    if words in (["--help"], ["-h"]):
        print(__doc__)
        return 0
    if words == ["--try"]:
        return 1 if tried() else 0
    sys.stdout.write(text_of(Options(words)))
    return 0


if __name__ == "__main__":
    try:
        sys.exit(end("from_c", main))
    except Usage as told:
        print(f"from_c: {told}\n\n{__doc__}", file=sys.stderr)
        sys.exit(1)
    except Refused as told:
        print(f"from_c: {told}", file=sys.stderr)
        sys.exit(2)
