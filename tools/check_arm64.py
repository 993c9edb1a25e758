#!/usr/bin/env python3
"""Compares the programs for 64-bit ARM, run by qemu-aarch64, with the native library: tools/check_arm64.py FOLDER, or tools/arm64 --check."""
import concurrent.futures
import os
import pathlib
import shutil
import subprocess
import sys

TOP = pathlib.Path(__file__).resolve().parent.parent
os.chdir(TOP)
sys.dont_write_bytecode = True
sys.path.insert(0, str(TOP / "python"))
import denovo

EMULATOR = ["qemu-aarch64", "-L", "/usr/aarch64-linux-gnu"]
WORDS = ([], ["--seed", "5", "--sets", "1", "--ways", "1"], ["--mode", "trace"], ["--mode", "list"])


def calls():
    """Each call: the program, its words, the text that explain reads, and standard input."""
    texts = [path for pattern in ("*.s", "litmus/*.s") for path in sorted(pathlib.Path("examples").glob(pattern))]
    for path in texts:
        text = path.read_bytes()
        for words in WORDS:
            yield "denovo", words, None, text
    for path in texts[::5]:
        text = path.read_bytes()
        answer, trace = denovo.call("denovo", [], text)[1], denovo.call("denovo", ["--mode", "trace"], text)[1]
        yield "explain", [str(path)], text, answer
        yield "outcomes", [], None, text
        yield "sweep", ["--seeds", "1..3"], None, text
        if trace.startswith(b"denovo-trace"):
            for mode in ("chart", "page", "account", "state"):
                yield "view", ["--mode", mode], None, trace
    claim = subprocess.run([sys.executable, "examples/another-simulator/simulate.py"], input=texts[0].read_bytes(), stdout=subprocess.PIPE).stdout
    yield "referee", ["--mode", "diagnose"], None, claim
    for program in ("denovo", "view", "outcomes", "sweep", "referee"):
        yield program, ["--nothing"], None, b""


def differs(folder, call):
    """How a call ends otherwise than in the native library; None where it doesn't."""
    program, words, text, source = call
    ran = subprocess.run([*EMULATOR, f"{folder}/bin/{program}", *words], input=source, stdout=subprocess.PIPE, stderr=subprocess.PIPE)
    wanted = denovo.call(program, words, *([source] if text is None else [text, source]))
    return None if (ran.returncode, ran.stdout) == wanted else f"arm64: {program} {' '.join(words)}: {ran.returncode} and not {wanted[0]}, or other output {ran.stderr[:200]!r}"


def main():
    folder = sys.argv[1]
    if shutil.which(EMULATOR[0]) is None:
        print("arm64: skipped: there is no qemu-aarch64 (apt-get install qemu-user)")
        return 0
    made = list(calls())
    with concurrent.futures.ThreadPoolExecutor(2) as pool:
        faults = [fault for fault in pool.map(lambda call: differs(folder, call), made) if fault]
    for fault in faults:
        print(fault)
    print(f"arm64: {len(made) - len(faults)} passed, {len(faults)} failed")
    return 1 if faults else 0


if __name__ == "__main__":
    sys.exit(main())
