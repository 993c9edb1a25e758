"""What all parts of tools/check_programs.py use: a check and its count, the programs, and a run of one.

The parts run in processes of their own, each at the top of the repository. `take` hands over what a process has counted so far."""
import pathlib
import re
import subprocess
import sys

# Without proved programs, or with the word --quick, the launchers' own choice is looked at, and less of what takes long.
KIND = "quick" if "--quick" in sys.argv[1:] else "proved"
counted = {True: 0, False: 0}
# How long a call may take. The longest, view --mode answer on the 220,000 events of examples/realistic.s, takes half a minute of processor time in a build
# without proof, in step with the events; beside other work on the machine it took five minutes.
SECONDS_OF_A_CALL = 900


def check(name, holds, told=""):
    counted[bool(holds)] += 1
    if not holds:
        print(f"programs: {name}: failed {told}"[:2000])


def take():
    """How many checks passed and failed since this was asked last."""
    numbers = counted[True], counted[False]
    counted.update({True: 0, False: 0})
    return numbers


def run(words, stdin=b"", stdout=subprocess.PIPE, **how):
    """Runs a command with these bytes, or this open file, on standard input."""
    given = {"input": stdin} if isinstance(stdin, bytes) else {"stdin": stdin}
    return subprocess.run(words, stdout=stdout, stderr=subprocess.PIPE, timeout=SECONDS_OF_A_CALL, **given, **how)


def memory_left():
    """How many bytes of memory are free, or 0 where the system doesn't say."""
    told = pathlib.Path("/proc/meminfo")
    found = re.search(r"^MemAvailable: +(\d+) kB$", told.read_text(), re.M) if told.exists() else None
    return int(found.group(1)) * 1024 if found else 0


def text_of(name):
    return pathlib.Path("examples", name + ".s").read_bytes()


def programs(name):
    """The proved program and its launcher; or the launcher alone."""
    return ([[f"crates/{name}/out/{name}"]] if KIND == "proved" else []) + [[f"./{name}"]]


def written(lines):
    return "".join(line + "\n" for line in lines).encode()
