"""Calls of the programs: their words, their exit codes, the stored runs, standard error, and which build of a program answers."""
import os
import pathlib
import re
import shutil
import tempfile
import time

import reference
from .counting import check, memory_left, programs, run, text_of


def text(name):
    return pathlib.Path(name).read_text()


def as_the_reference(words, example):
    """That the answers are those of the second program."""
    text = text_of(example)
    status, lines = reference.answer(words, text.decode())
    for program in programs("denovo"):
        ran = run(program + words, text)
        wanted = "".join(line + "\n" for line in lines).encode()
        check(f"{program[0]} {' '.join(words)} < {example}", (ran.returncode, ran.stdout) == (status, wanted),
              f"exit code {ran.returncode}, not {status}, or other output")
    return status, lines


def words_are_handed_on():
    """Each of the words changes the answer, the first and the last among them."""
    for example, words in (("locked-counter", ["--seed", "7", "--fuel", "30"]), ("stencil", ["--sets", "1", "--ways", "1"])):
        answers = [as_the_reference(some, example) for some in (words, words[2:], words[:-2], [])]
        check(f"the words change the answer to {example}", all(a != b for i, a in enumerate(answers) for b in answers[:i]))


def stored_runs():
    """The runs of tools/stored_runs: each folder is PROGRAM-NAME, with a word on each line of args, the bytes of stdin and stdout, and the
    exit code in status. The gate itself has one such run for each program."""
    for folder in sorted(pathlib.Path("tools/stored_runs").iterdir()):
        part = {it.name: it.read_bytes() for it in folder.iterdir()}
        for program in programs(folder.name.partition("-")[0]):
            ran = run(program + part.get("args", b"").decode().splitlines(), part["stdin"])
            wanted = int(part.get("status", b"0")), part["stdout"]
            check(f"{program[0]}: the stored run {folder.name}", (ran.returncode, ran.stdout) == wanted, ran.returncode)


def every_exit_code_comes():
    for words, example, status in (
            ([], "stale-copy", 0), ([], "trap", 3), ([], "endless", 4), (["--mode", "flat"], "endless", 4)):
        check(f"exit code {status} of {example}", as_the_reference(words, example)[0] == status)
    seeds = [seed for seed in range(1, 20) if reference.answer(["--seed", str(seed)], text_of("crossed-locks").decode())[0] == 5]
    check("exit code 5 of crossed-locks", as_the_reference(["--seed", str(seeds[0])], "crossed-locks")[0] == 5)
    for name in ("denovo", "view", "referee", "outcomes", "sweep"):
        for program in programs(name):
            label = program[0]
            ran = run(program + ["--help"])
            check(f"{label}: exit code 1", (ran.returncode, ran.stdout) == (1, b"refused usage\n"))
            folder = os.open("/", os.O_RDONLY)
            ran = run(program, folder)
            os.close(folder)
            check(f"{label}: exit code 6, of a folder", (ran.returncode, ran.stdout) == (6, b""))
            ran = run(program + [b"--first=\xff"])
            check(f"{label}: exit code 9, of words that aren't UTF-8", (ran.returncode, ran.stdout) == (9, b""))
            ran = run(["sh", "-c", '"$@" >&-', "sh", *program], text_of("trap"))
            check(f"{label}: exit code 7, of a closed standard output", ran.returncode == 7, ran.returncode)
            with open("/dev/full", "wb") as full:
                ran = run(program, text_of("trap"), stdout=full)
            check(f"{label}: exit code 7, of a full device", ran.returncode == 7, ran.returncode)
    for program in programs("denovo"):
        ran = run(program, text_of("conflict"))
        wanted = b"refused check phase 0 plain-conflict"
        check(f"{program[0]}: exit code 2", ran.returncode == 2 and ran.stdout.startswith(wanted), ran.stdout)
    for program in programs("view"):
        for mode in ("chart", "account", "lists", "traffic", "state", "answer", "page", "data"):
            ran = run(program + ["--mode", mode], b"no document\n")
            check(f"{program[0]} --mode {mode}: exit code 2", (ran.returncode, ran.stdout) == (2, b"refused trace head\n"))


def empty_words_are_words():
    """An empty argument is an argument, which no command takes; explain takes it as the name of a text that isn't there."""
    for name in ("denovo", "view", "referee", "outcomes", "sweep"):
        for program in programs(name):
            for words in ([""], ["", ""], ["--mode", ""], ["--mode="], ["", "--seed", "3"], [str(number) for number in range(20)]):
                ran = run(program + words)
                check(f"{program[0]} {words}", (ran.returncode, ran.stdout) == (1, b"refused usage\n"), ran.returncode)
    for program in programs("explain"):
        for words, wanted in (([""], (6, b"")), (["examples/trap.s", ""], (1, b"refused usage\n")), (["", "examples/trap.s"], (1, b"refused usage\n"))):
            ran = run(program + words)
            check(f"{program[0]} {words}", (ran.returncode, ran.stdout) == wanted, ran.returncode)


def there_is_memory_enough():
    """Input of 17 MiB, for which the room grows otherwise than for less, and words that are refused: each has its answer, and isn't out of memory."""
    zeros = bytes(17 << 20)
    for name, words, told in (("denovo", [], "source too-large"), ("denovo", ["--mode", "replay"], "trace head"), ("view", [], "trace head"), ("referee", [], "claim head"),
                              ("outcomes", [], "source too-large"), ("sweep", [], "source too-large"), ("explain", ["examples/trap.s"], "answer 1")):
        for program in programs(name):
            ran = run(program + words, zeros)
            check(f"{program[0]} {' '.join(words)} of 17 MiB", (ran.returncode, ran.stdout) == (2, f"refused {told}\n".encode()), (ran.returncode, ran.stdout[:80]))
    for words in (["--seeds", "3..1"], ["--seeds", "x"], ["--form", "other"], ["--seeds", "1..3", "--seeds", "1..3"], ["--fuel", "0"]):
        for program in programs("sweep"):
            ran = run(program + words, text_of("store-five"))
            check(f"{program[0]} {' '.join(words)}", (ran.returncode, ran.stdout) == (1, b"refused usage\n"), ran.returncode)


def workers_draw_by_the_seed():
    """Of two workers, the first serves the cores of even numbers and a lone bank. Which message of several the bank takes is then drawn by this worker
    alone: a seed gives the same events of these actors in each run, and another seed others. One worker draws otherwise."""
    lines = [".region m, 64", ".phase"] + [line for core in (0, 2, 4, 6) for line in (f".task {core}, f, 0", ".reads m")]
    lines += ["f: la t0, m"] + [f" lw t1, {4 * word}(t0)" for word in range(12)] + [" li a7, 0", " ecall"]
    text = "".join(line + "\n" for line in lines).encode()

    def drawn(program, seed, workers):
        """The events of the even cores and the bank before the first of these cores arrives, in order."""
        trace = run(program + ["--mode", "trace", "--banks", "1", "--workers", str(workers), "--seed", str(seed)], text).stdout.decode()
        events = re.split(r"^a [0246]$", trace.rpartition("\nevents ")[2], flags=re.M)[0]
        return re.findall(r"^(?:(?:i|e|h c) [0246]\b|h b).*$", events, re.M)

    for program in programs("denovo"):
        first = [drawn(program, seed, 2) for seed in range(1, 5)]
        check(f"{program[0]}: seeds of two workers give other events", all(one != other for at, one in enumerate(first) for other in first[:at]) and all(first))
        for seed, wanted in enumerate(first, 1):
            check(f"{program[0]}: the draws of seed {seed} are the same in each run", all(drawn(program, seed, 2) == wanted for _ in range(4)))
            check(f"{program[0]}: two workers draw otherwise than one, seed {seed}", drawn(program, seed, 1) != wanted)


def input_without_end_is_left():
    """A program stops to read just above its limit, and says that there is too much."""
    for name, told in (("denovo", b"refused source too-large\n"), ("outcomes", b"refused source too-large\n"), ("sweep", b"refused source too-large\n")):
        ran = run(["bash", "-c", 'ulimit -f 2200; yes | "$@"', "bash", f"./{name}"])
        check(f"yes | ./{name}", ran.stdout == told, ran)
        with open("/dev/zero", "rb") as zeros:
            ran = run(["bash", "-c", 'ulimit -f 2200; "$@"', "bash", f"./{name}"], zeros)
        check(f"./{name} < /dev/zero", ran.stdout == told, ran)


def no_more_is_read_than_is_taken():
    """Of a file that is larger than a program takes, the program reads one byte more than it takes. Where that is a text, 128 MiB of memory are room
    enough."""
    text, document = 1048577, 536870913
    with tempfile.TemporaryFile() as large:
        large.truncate(600_000_000)
        for name, words, most, told in (
                ("denovo", [], text, "source"), ("denovo", ["--mode", "check"], text, "source"), ("outcomes", [], text, "source"),
                ("sweep", [], text, "source"), ("denovo", ["--mode", "replay"], document, "trace"), ("view", [], document, "trace"),
                ("referee", [], document, "claim"), ("explain", ["examples/trap.s"], document, "answer")):
            if most == document and memory_left() < 2 ** 30:
                print(f"programs: {name}: a file of 600 MB is passed over: less than 1 GiB of memory is free")
                continue
            room = "131072" if most == text else "unlimited"
            for program in programs(name):
                large.seek(0)
                ran = run(["bash", "-c", f'ulimit -v {room}; "$@"', "bash", *program, *words], large)
                label, read = " ".join([program[0], *words]), os.lseek(large.fileno(), 0, os.SEEK_CUR)
                check(f"{label} of 600 MB", (ran.returncode, ran.stdout) == (2, f"refused {told} too-large\n".encode()), ran)
                check(f"{label} of 600 MB: how much is read", read == most, read)


def standard_error_helps():
    """What stands on standard error, where the rest is the program's own."""
    ran = run(["./denovo", "--sed", "3"])
    check("an unknown word", ran.stdout == b"refused usage\n" and b"--seed" in ran.stderr)
    ran = run(["./denovo"], b"")
    check("an empty text", b"standard input was empty" in ran.stderr, ran.stderr)
    ran = run(["./view"], b"refused source 1 unknown-word\n")
    check("a view of a refusal", b"its input is a refusal: refused source 1 unknown-word" in ran.stderr, ran.stderr)
    document = run(["./denovo", "--mode", "trace"], text_of("store-five")).stdout.replace(b"\ni 0\n", b"\na 0\n", 1)
    for words in (["./denovo", "--mode", "replay"], ["./view"]):
        ran = run(words, document)
        check(f"{words[0]} of a document without a run", ran.stdout == b"refused trace not-enabled 0\n" and b"./view --mode state --event N" in ran.stderr, ran.stderr)
    ran = run(["./view", "--mode", "state", "--event", "1"], document)
    check("a state that isn't reached", ran.returncode == 3 and b"docs/VIEWS.md" in ran.stderr and b"trapped" not in ran.stderr, ran.stderr)
    for example, words in (("conflict", b"Conflicts"), ("trap", b"Traps"), ("endless", b"Traps")):
        check(f"the page on {example}", words in run(["./denovo"], text_of(example)).stderr)
    for example, words in (("conflict", []), ("trap", []), ("endless", []), ("crossed-locks", ["--seed", "1"])):
        wanted = " ".join(["./denovo", *words, "< TEXT | ./explain TEXT"]).encode()
        check(f"explain is named behind {example}", wanted in run(["./denovo", *words], text_of(example)).stderr)
    check("and behind unknown words", b"./explain TEXT" in run(["./denovo", "--sed", "3"]).stderr)
    document = run(["./denovo", "--mode", "trace"], text_of("store-five")).stdout.replace(b".writes", b".wrotes")
    for words in (["./view", "--mode", "account"], ["./referee"]):
        ran = run(words, document)
        wanted = f"{' '.join(words)} < {'TRACE' if words[0] == './view' else 'CLAIM'} | ./explain TEXT".encode()
        check(f"explain is named behind {words[0]}", ran.returncode == 2 and wanted in ran.stderr, ran.stderr)
    for text, words in (("no such file", b"no such file: there is no such file"), ("examples", b"examples is a folder")):
        ran = run(["./explain", text], b"")
        check(f"a text that isn't there: {text}", ran.returncode == 6 and words in ran.stderr, ran.stderr)
    document = run(["./denovo", "--mode", "trace"], text_of("store-five")).stdout
    for words in ([], ["--mode", "check"], ["--mode", "replay"]):
        ran = run(["./denovo", *words], document[:-4])
        named = b"'./denovo --mode replay' takes one" in ran.stderr
        check(f"a document, {' '.join(words)}: where it belongs is said unless it is there", ran.returncode == 2 and named == (words[1:] != ["replay"]), ran.stderr)
    slow = run(["bash", "-c", "{ head -c 40; sleep 4; cat; } < examples/store-five.s | ./denovo"])
    check("a pipe from a slow program", slow.stdout == run(["./denovo"], text_of("store-five")).stdout and slow.returncode == 0)
    with tempfile.TemporaryDirectory() as room:
        run(["./denovo"], text_of("trap"), env={**os.environ, "TMPDIR": room})
        check("no file is left", not os.listdir(room), os.listdir(room))


def proved_programs_are_used_where_they_are_those_of_the_sources():
    def which(folder):
        return run([f"{folder}/tools/launch", "--which", "denovo"]).stdout.decode().strip()

    check("the proved program is used", which(".") == "proved")
    with tempfile.TemporaryDirectory() as room:
        copy = pathlib.Path(room, "copy")
        tracked = run(["git", "ls-files", "crates.txt", "VERSION", "denovo", "tools", "crates/*/src/*", "crates/*/specs/*"]).stdout.decode().split()
        for name in tracked + ["crates/denovo/out/denovo", "crates/denovo/out/denovo.made-of"]:
            (copy / name).parent.mkdir(parents=True, exist_ok=True)
            shutil.copy(name, copy / name)
        check("and in a copy of the folder", which(copy) == "proved")
        time.sleep(2.5)  # the sums of files that changed a moment ago aren't kept
        check("and by kept sums", which(copy) == "proved" and (copy / "crates/denovo/out/denovo.sums").exists())
        check("and where only the sums are looked at", run([f"{copy}/tools/sources", "holds", "denovo"]).returncode == 0)
        for name in ("crates/dn_base/specs/Lib.antt", "crates/dn_base/src/lib.rt", "crates.txt"):
            before, times = (copy / name).read_bytes(), (copy / name).stat()
            (copy / name).write_bytes(before.replace(b"denovo: dn_top", b"denovo: dn_base") if name == "crates.txt" else before + b"\n")
            check(f"and not where {name} differs", which(copy) == "none")
            # as many bytes as before, and the time of the last write set back
            (copy / name).write_bytes(before[:-2] + b"#\n" if name != "crates.txt" else before.replace(b"denovo: dn_top", b"denovo: dn_tpo"))
            os.utime(copy / name, ns=(times.st_atime_ns, times.st_mtime_ns))
            check(f"and not where {name} has another byte, and its old length and time", which(copy) == "none")
            (copy / name).write_bytes(before)
        check("and where a file was only touched", which(copy) == "proved")
        for name in ("crates/view_top/src/lib.rt", "crates.txt"):
            (copy / name).write_bytes((copy / name).read_bytes() + b"\n# one_more: dn_base\none_more: dn_base\n")
        check("and where a crate is added, or one differs that it doesn't stand on", which(copy) == "proved")
        wanted = str(copy / "crates/denovo/out/denovo")
        check("its path is told", run([f"{copy}/tools/launch", "--path", "denovo"]).stdout.decode().strip() == wanted)
        told = run([f"{copy}/tools/launch", "--version", "denovo"]).stdout.decode().split("\n")
        check("and its version", told[0] == f"denovo {text('VERSION').strip()}, proved" and told[1].startswith("sources "), told)
        (copy / "crates/denovo/out/denovo").write_bytes(b"#!/bin/sh\n")
        check("and not where another program stands in its place", which(copy) == "none")
        ran = run([f"{copy}/denovo"], b"", env={**os.environ, "DENOVO_REQUIRE": "proved"})
        check("nothing else runs where the proved program is asked for", (ran.returncode, ran.stdout, ran.stderr.count(b"\n")) == (10, b"", 1), ran.stderr)
