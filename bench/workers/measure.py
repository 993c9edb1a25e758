#!/usr/bin/env python3
"""Runs by workers, of denovo's and of the plain Rust machine beside it: time, rounds and passes.

    bench/workers/measure.py [RUNS [TEXT..]]

makes `plain`, and prints for the generated texts of sizes 32 and 128 and for examples/realistic.s, or for the texts that are
given, and for 1, 2, 4 and 8 workers: the milliseconds of a run from the checked program to its ending (wall), the milliseconds of processor
time of the whole process (cpu), the rounds, and the passes of all workers, each as the median of so many runs, 9 if nothing is
said. The programs take turns. `histories` is the plain machine that keeps all calls of each object, as denovo's does. Denovo's rows
are left out where crates/workers_bench isn't made (`rt run` in its folder makes it).
"""
import os
import re
import statistics
import subprocess
import sys
import tempfile

sys.dont_write_bytecode = True
from numbers_of import ROOT, numbers, reference  # noqa: E402

WORKERS = (1, 2, 4, 8)
OWN = os.path.join(ROOT, "crates", "workers_bench", "out", "workers_bench")


def made(folder):
    """The plain program, made anew."""
    plain = os.path.join(folder, "plain")
    source = os.path.join(ROOT, "bench", "workers", "plain", "main.rs")
    subprocess.run(["rustc", "--edition", "2024", "-O", "-o", plain, source], check=True)
    return plain


def run(words, given):
    """What a program says of its run, and the milliseconds of processor time that the process took."""
    with open(given) as text, tempfile.TemporaryFile("w+") as told:
        child = subprocess.Popen(words, stdin=text, stdout=told, stderr=told)
        _, status, used = os.wait4(child.pid, 0)
        child.returncode = os.waitstatus_to_exitcode(status)
        told.seek(0)
        said = told.read()
    if status != 0:
        sys.exit("%s: exit code %d\n%s" % (" ".join(words), child.returncode, said))
    line = next(line for line in said.splitlines() if line.startswith("events "))
    figures = {name: int(value) for name, value in re.findall(r"(events|micros|rounds) (\d+)", line)}
    passes = re.search(r"passes ([\d +]+?)(?: micros|$)", line)
    if passes:
        figures["passes"] = sum(map(int, re.findall(r"\d+", passes.group(1))))
    figures["cpu"] = (used.ru_utime + used.ru_stime) * 1000
    return figures


def rows(plain, folder, name, text, runs):
    source, dump = os.path.join(folder, "text"), os.path.join(folder, "numbers")
    with open(source, "w") as file:
        file.write(text)
    with open(dump, "w") as file:
        file.writelines(" ".join(map(str, line)) + "\n" for line in numbers(reference.assemble(text)))
    for workers in map(str, WORKERS):
        programs = {"plain": [([plain, workers, "1"], dump)], "histories": [([plain, workers, "1", "histories"], dump)]}
        if os.access(OWN, os.X_OK):
            programs["denovo"] = [([OWN, workers, "time"], source), ([OWN, workers, "rounds"], source)]
        seen = {which: [] for which in programs}
        for _ in range(runs):
            for which, calls in programs.items():
                figures = {}
                for words, given in reversed(calls):
                    figures.update(run(words, given))
                seen[which].append(figures)
        beside = None
        for which, figures in seen.items():
            middle = {key: statistics.median(one[key] for one in figures) for key in figures[0]}
            beside = beside or middle["micros"]
            print("%-10s %s workers %-10s %8d events %9.1f ms wall %9.1f ms cpu %5d rounds %8d passes %6.2f times plain" % (
                name, workers, which, middle["events"], middle["micros"] / 1000, middle["cpu"], middle["rounds"], middle["passes"],
                middle["micros"] / beside), flush=True)


def load():
    return "load " + " ".join("%.2f" % one for one in os.getloadavg()) + ", %d processors" % os.cpu_count()


def main(runs="9", *files):
    texts = [("size %d" % size, reference.work_text(size)) for size in (32, 128)]
    named = files or [os.path.join(ROOT, "examples", "realistic.s")]
    if files:
        texts = []
    for file in named:
        with open(file) as text:
            texts.append((os.path.basename(file).split(".")[0], text.read()))
    print(load())
    with tempfile.TemporaryDirectory() as folder:
        plain = made(folder)
        for name, text in texts:
            rows(plain, folder, name, text, int(runs))
    print(load())


if __name__ == "__main__":
    main(*sys.argv[1:])
