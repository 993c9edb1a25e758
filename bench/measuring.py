"""What the benches of this folder share: where the programs are, a count of instructions, and a program beside a plain one."""
import os
import pathlib
import re
import resource
import shutil
import statistics
import subprocess
import sys

TOP = pathlib.Path(__file__).resolve().parent.parent


def proved_program(bench, name="denovo"):
    """The path of a proved program. The bench ends where there is none."""
    path = TOP / "crates" / name / "out" / name
    if not path.is_file():
        sys.exit(f"{bench}: 'sh .ci/run' makes the proved program first")
    return str(path)


def instructions(command, data, room):
    """How many instructions a command takes on this input by callgrind, or None without it. The folder takes callgrind's file."""
    if shutil.which("valgrind") is None:
        return None
    counting = ["valgrind", "--tool=callgrind", f"--callgrind-out-file={room}/counts", *command]
    done = subprocess.run(counting, input=data, stdout=subprocess.DEVNULL, stderr=subprocess.PIPE)
    counted = re.search(rb"Collected : (\d+)", done.stderr)
    return int(counted.group(1)) if counted else None


# ---- the proved program beside a plain one

RUNS = 25
SIZES = [8, 16, 32, 64, 128]


def plain_program(room):
    """The plain program of bench/workers, made in this folder."""
    plain = os.path.join(room, "plain")
    building = ["rustc", "--edition", "2024", "-C", "opt-level=3", "-C", "codegen-units=1", "-o", plain, TOP / "bench/workers/plain/main.rs"]
    subprocess.run(building, check=True)
    return plain


def named_texts(paths):
    return [(str(path), path.read_bytes()) for path in paths]


def generated_texts():
    """The generated texts of some sizes, and the realistic one."""
    generate = lambda size: subprocess.run([TOP / "tools/reference.py", "text", str(size)], stdout=subprocess.PIPE, check=True).stdout
    return [(f"size {size}", generate(size)) for size in SIZES] + [("realistic", (TOP / "examples/realistic.s").read_bytes())]


def answer(command, data):
    return subprocess.run(command, input=data, stdout=subprocess.PIPE, stderr=subprocess.DEVNULL).stdout


def processor_time():
    used = resource.getrusage(resource.RUSAGE_CHILDREN)
    return used.ru_utime + used.ru_stime


def milliseconds(runs):
    """Of each turn the processor times of the commands, each with its input."""
    turns = []
    for _ in range(RUNS):
        turn = []
        for command, data in runs:
            begun = processor_time()
            answer(command, data)
            turn.append((processor_time() - begun) * 1e3)
        turns.append(turn)
    return turns


def compare(name, text, plain, proved, checked, units, room):
    """A row of a table: how many units of work an answer to the text is, the instructions for each and the milliseconds of the plain program and
    of the proved one, with their ratios, and the milliseconds of the proved program's mode check."""
    numbers = subprocess.run([TOP / "bench/workers/numbers_of.py"], input=text, stdout=subprocess.PIPE, check=True).stdout
    runs = [(plain, numbers), (proved, text), (checked, text)]
    given = answer(*runs[1])
    if answer(*runs[0]) != given:
        sys.exit(f"the two programs give different answers to {name}")
    count = units(given)
    cells, counted = ["", "", ""], [instructions(command, data, room) for command, data in runs[:2]]
    if None not in counted:
        cells = [f"{counted[0] / count:.0f}", f"{counted[1] / count:.0f}", f"{counted[1] / counted[0]:.2f}"]
    turns = milliseconds(runs)
    fastest = [min(times) for times in zip(*turns)]
    ratio = statistics.median(proved_time / plain_time for plain_time, proved_time, _ in turns)
    cells += [f"{fastest[0]:.1f}", f"{fastest[1]:.1f}", f"{ratio:.2f}", f"{fastest[2]:.1f}"]
    return f"| {name} | {count} | {' | '.join(cells)} |"
