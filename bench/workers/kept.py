#!/usr/bin/env python3
"""What the block costs and saves that `run_workers` takes and frees at its start.

    bench/workers/kept.py WITH WITHOUT [RUNS]

compares two builds of crates/workers_bench, one of the sources as they are and one where `KEPT_BYTES` of crates/host_workers/src/run.rt
is 0, so that no block is taken. It prints for the generated texts of sizes 32 and 128 and for examples/realistic.s, for 2 and 4
workers: the milliseconds of a run from the checked program to its record (wall), the milliseconds of processor time of the whole
process (cpu), the page faults, and the most memory that was resident, each as the median of so many runs, 9 if nothing is said.
The builds take turns. README.md says how both are made.
"""
import os
import re
import statistics
import subprocess
import sys
import tempfile

sys.dont_write_bytecode = True
from measure import load  # noqa: E402
from numbers_of import ROOT, reference  # noqa: E402

WORKERS = ("2", "4")


def run(program, workers, given):
    """The figures of one run."""
    with open(given) as text, tempfile.TemporaryFile("w+") as told:
        child = subprocess.Popen([program, workers, "time"], stdin=text, stdout=told, stderr=told)
        _, status, used = os.wait4(child.pid, 0)
        child.returncode = os.waitstatus_to_exitcode(status)
        told.seek(0)
        said = told.read()
    line = re.search(r"events (\d+) micros (\d+)", said)
    if status != 0 or line is None:
        sys.exit("%s: exit code %d\n%s" % (program, child.returncode, said))
    return {
        "events": int(line.group(1)),
        "wall": int(line.group(2)) / 1000,
        "cpu": (used.ru_utime + used.ru_stime) * 1000,
        "faults": used.ru_minflt,
        "resident": used.ru_maxrss / 1024,
    }


def main(kept, unkept, runs="9"):
    texts = [("size %d" % size, reference.work_text(size)) for size in (32, 128)]
    with open(os.path.join(ROOT, "examples", "realistic.s")) as text:
        texts.append(("realistic", text.read()))
    builds = {"with": os.path.abspath(kept), "without": os.path.abspath(unkept)}
    print(load())
    with tempfile.TemporaryDirectory() as folder:
        source = os.path.join(folder, "text")
        for name, text in texts:
            with open(source, "w") as file:
                file.write(text)
            for workers in WORKERS:
                seen = {which: [] for which in builds}
                for _ in range(int(runs)):
                    for which, program in builds.items():
                        seen[which].append(run(program, workers, source))
                for which, figures in seen.items():
                    middle = {key: statistics.median(one[key] for one in figures) for key in figures[0]}
                    print("%-10s %s workers %-8s %8d events %9.1f ms wall %9.1f ms cpu %8d faults %7.1f MiB" % (
                        name, workers, which, middle["events"], middle["wall"], middle["cpu"], middle["faults"], middle["resident"]),
                        flush=True)
    print(load())


if __name__ == "__main__":
    main(*sys.argv[1:])
