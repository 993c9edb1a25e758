#!/usr/bin/env python3
"""Says whether runs of the program `plain` end as the flat machine does by their grants, which tools/reference.py computes: those
of the small examples there, of the texts of the mode run in crates/worked_rows/data, and of examples/realistic.s. The runs of one thread
alone have to be those that tools/reference.py makes with the same seed, and give the same answer.

    bench/workers/agree.py PLAIN
"""
import os
import subprocess
import sys

sys.dont_write_bytecode = True
from numbers_of import ROOT, numbers, reference  # noqa: E402

SMALL = {name: text for name, text in vars(reference).items() if name.isupper() and isinstance(text, str) and ".phase" in text}
DEFAULTS = reference.options([])
WORKERS = (1, 2, 3, 4, 8, 16)


def texts():
    """Each text that runs in the shape that the command has by default, with a name."""
    yield from SMALL.items()
    folder, files = os.path.join(ROOT, "crates", "worked_rows", "data"), {}
    for name in sorted(os.listdir(folder)):
        with open(os.path.join(folder, name), "rb") as file:
            files[name] = file.read()
    for name in sorted(name for name in files if name.endswith(".cases")):
        for lines in reference.sections(files[name].decode()):
            for row, filled in reference.expanded(lines):
                case = reference.read_case(filled, files)
                files[lines[0][5:]] = case.get("text", [b""])[0]
                if "script" in case or case["exit"] not in ("0", "3", "4", "5"):
                    continue
                words = case.get("words", "").split()
                try:
                    is_run = dict(reference.options(words), seed=1, workers=1) == DEFAULTS
                except reference.Unfit:
                    is_run = False
                text = files[lines[0][5:]]
                if is_run and text.isascii() and len(text) < 100000:
                    yield "%s: %s %s" % (name, lines[0][5:], row or ""), text.decode()
    with open(os.path.join(ROOT, "examples", "realistic.s")) as file:
        yield "examples/realistic.s", file.read()


def agrees(plain, program, given, workers):
    out = subprocess.run([plain, str(workers), "1"], input=given, capture_output=True, text=True).stdout.splitlines()
    grants = [tuple(map(int, line.split()[1:])) for line in out if line.startswith("grant ")]
    end = reference.flat(program, DEFAULTS["fuel"], grants)
    return end is not None and reference.answer_text(end[0]) == [line for line in out if line.split()[0] not in ("grant", "count")]


def is_the_same(plain, text, given):
    out = subprocess.run([plain, "alone", "1"], input=given, capture_output=True, text=True).stdout.splitlines()
    return out == reference.answer(["--mode", "run", "--seed", "1"], text)[1]


def main(plain):
    done, wrong = 0, 0
    for name, text in texts():
        program = reference.assemble(text)
        given = "\n".join(" ".join(map(str, line)) for line in numbers(program))
        for workers in WORKERS:
            done += 1
            if not agrees(plain, program, given, workers):
                wrong += 1
                print("%s by %d workers: another ending" % (name, workers))
        done += 1
        if not is_the_same(plain, text, given):
            wrong += 1
            print("%s alone: another answer" % name)
    print("%d runs, %d of which differ" % (done, wrong))
    return wrong == 0 and done > 0


if __name__ == "__main__":
    sys.exit(0 if main(*sys.argv[1:]) else 1)
