"""What other tools get of a run and of a program: what it leaves by names, the data of a run, traces for Perfetto, waves for GTKWave, sources for the GNU assembler. Each file is
read back here and compared with what the rules say (tools/reference.py)."""
import json
import pathlib
import re
import shutil
import tempfile

import reference
from .counting import KIND, check, programs, run, text_of

RUNS = (("stale-copy", []), ("locked-counter", ["--seed", "3"]), ("crossed-locks", ["--seed", "1"]), ("trap", []),
        ("eviction-race", ["--sets", "1", "--ways", "1"]))
TICKS = reference.ticks_by(1, 10, 5)


def documents():
    """(name, document) of some runs."""
    for example, words in RUNS:
        yield f"{example} {' '.join(words)}", run(programs("denovo")[0] + ["--mode", "trace"] + words, text_of(example)).stdout


def data_are_those_of_the_reference():
    """The data of whole runs, of a range, and by other ticks."""
    for name, document in documents():
        last = int(re.search(rb"^events (\d+)$", document, re.M)[1]) - 1
        for words, first, rows, ticks in ([], 0, None, (1, 10, 5)), (["--first", "2", "--rows", "5"], 2, 5, (1, 10, 5)), \
                (["--first", str(last), "--tick-core", "7", "--tick-bank", "1", "--tick-mail", "300"], last, None, (7, 1, 300)):
            wanted = reference.run_data(document, "", first, rows, reference.ticks_by(*ticks))[1].encode()
            for view in programs("view"):
                ran = run(view + ["--mode", "data"] + words, document)
                check(f"{view[0]}: the data of {name} {' '.join(words)}", (ran.returncode, ran.stdout) == (0, wanted), ran.returncode)
        for view in programs("view"):
            ran = run(view + ["--mode", "data", "--first", str(last + 1)], document)
            check(f"{view[0]}: data of {name} behind the last event", (ran.returncode, ran.stdout) == (1, b"refused usage\n"), ran.returncode)


def traces_are_read_back():
    """Of a trace for Perfetto: each event is one slice that ends when it finishes, those of a track don't overlap, and each message that was sent and
    handled is one arrow, from the slice of the event that sent it to that of the event that handles it."""
    for name, document in documents():
        data = json.loads(reference.run_data(document, "", 0, None, TICKS)[1])
        rows = json.loads(run(["tools/perfetto"], json.dumps(data).encode()).stdout)["traceEvents"]
        slices = {row["args"]["event"]: row for row in rows if row["ph"] == "X" and "args" in row}
        check(f"{name}: a slice for each event", sorted(slices) == list(range(len(data["events"]))), len(slices))
        check(f"{name}: they end when their events finish",
              [slices[event]["ts"] + slices[event]["dur"] for event in sorted(slices)] == data["finishes"])
        check(f"{name}: on the tracks of their actors", all(slices[event]["tid"] == row[1] for event, row in enumerate(data["events"])))
        ends = {}
        for event in sorted(slices):
            row = slices[event]
            check(f"{name}: event {event} begins behind the one before it of its track", ends.get(row["tid"], 0) <= row["ts"])
            ends[row["tid"]] = row["ts"] + row["dur"]
        begins, arrows = {row["id"]: row for row in rows if row["ph"] == "s"}, {row["id"]: row for row in rows if row["ph"] == "f"}
        handled = [event for event, row in enumerate(data["events"]) if row[2] != -1]
        check(f"{name}: an arrow for each message that is handled", sorted(begins) == sorted(arrows) == handled, (len(begins), len(handled)))
        senders = senders_of(data)
        for event in handled:
            ends_there = (arrows[event]["tid"], arrows[event]["ts"]) == (slices[event]["tid"], slices[event]["ts"])
            by = slices[senders[event]]
            check(f"{name}: the arrow to event {event}", ends_there and (begins[event]["tid"], begins[event]["ts"]) == (by["tid"], by["ts"]))


def senders_of(data):
    """For each event that handles a message the event that sent it: messages of an actor are numbered from 0 on."""
    numbers, sent, senders = {}, {}, {}
    for event, (_, actor, mail, _, *messages) in enumerate(data["events"]):
        if mail != -1:
            senders[event] = sent[tuple(mail)]
        for _ in messages[0] if messages else []:
            sent[actor, numbers.get(actor, 0)] = event
            numbers[actor] = numbers.get(actor, 0) + 1
    return senders


def waves_of(text):
    """The values of all variables by their paths, at each time at which something changes: (time, values)."""
    head, body = text.split("$enddefinitions $end\n")
    paths, scope, names, values, time = [], [], {}, {}, 0
    for line in head.splitlines():
        if line.startswith("$scope"):
            scope.append(line.split()[2])
        elif line.startswith("$upscope"):
            scope.pop()
        elif line.startswith("$var"):
            names[line.split()[3]] = ".".join(scope[1:] + [line.split()[4]])
    for line in body.splitlines():
        if line.startswith("#"):
            paths.append((time, dict(values)))
            time = int(line[1:])
        elif line.startswith("b"):
            value, key = line[1:].split()
            values[names[key]] = None if value == "x" else int(value, 2)
    return [*paths[1:], (time, dict(values))]


def waves_are_read_back():
    """Of a file of waves: after each event its actor's variables have the values of the state after it, at the time at which it finishes."""
    for name, document in documents():
        data = json.loads(reference.run_data(document, "", 0, None, TICKS)[1])
        words = ",".join(region for region, _, _ in data["regions"])
        ran = run(["tools/vcd", "--words", words], json.dumps(data).encode())
        check(f"{name}: waves of it", ran.returncode == 0 and ran.stdout.startswith(b"$timescale"), ran.stderr)
        told = dict(waves_of(ran.stdout.decode()))
        states = reference.states(document, 0, len(data["events"]))
        for event, (row, finish, state) in enumerate(zip(data["events"], data["finishes"], states[1:])):
            wanted = values_wanted(data, row[1], state)
            differ = [key for key, value in wanted.items() if told[finish].get(key) != value]
            check(f"{name}: the waves after event {event}", not differ, differ)
    ran = run(["tools/vcd", "--words", "nowhere"], json.dumps(data).encode())
    check("waves of a word that isn't there", (ran.returncode, ran.stdout, ran.stderr) == (1, b"", b"tools/vcd: the run has no word nowhere\n"), ran.stderr)
    for tool in ("tools/vcd", "tools/perfetto"):
        check(f"{tool} takes nothing but data", run([tool], document).returncode == 2 and run([tool], b"{}").returncode == 2)


def words_with_like_names_have_scopes_of_their_own():
    """A name with a point isn't that with an underscore, also with an index behind it."""
    text = b".region a.b, 2\n.region a_b, 2\n.region a_b_1, 1\n.region a.b_1, 1\n.phase\n.task 0, f, 0\nf: li a7, 0\n ecall\n"
    document = run(programs("denovo")[0] + ["--mode", "trace"], text).stdout
    data = reference.run_data(document, "", 0, None, TICKS)[1]
    ran = run(["tools/vcd", "--words", "a.b,a_b,a_b_1,a.b_1"], data.encode())
    scopes = re.findall(r"^\$scope module (\S+) \$end$", ran.stdout.decode(), re.M)
    check("each word has a scope of its own", sorted(set(scopes)) == sorted(scopes) and len(scopes) == 8, scopes)
    check("of signs that names of VCD have", all(re.fullmatch(r"[A-Za-z0-9_$]+", scope) for scope in scopes), scopes)


ADAPTED = "tools/adapters/logs/two-cores.s"
# tools that read standard input, with words that they take
READERS = (["tools/to_gas"], ["tools/to_gas", "--runtime"], ["tools/vcd"], ["tools/perfetto"], ["tools/reference.py"], ["examples/loader/load.py"],
           *([f"tools/adapters/{name}.py", ADAPTED] for name in ("spike", "gem5", "rvfi")), ["examples/another-simulator/simulate.py"], ["examples/another-simulator/directory.py"])
# and tools that read files
FILE_READERS = (["tools/expect", "/nonexistent", "/nonexistent"], ["tools/expect", "examples", "examples"], ["tools/from_c.py", "/nonexistent.c", "/nonexistent.s"],
                ["experiments/plot", "/nonexistent"], ["experiments/sweep", "/nonexistent"], ["tools/reference.py", "cases", "/nonexistent", "x"])


def no_tool_ends_in_a_traceback():
    """A full device, a closed one, input that is nested, cut or no text, and a path that isn't there: a line says what is wrong, and the exit code isn't 0."""
    data = reference.run_data(run(programs("denovo")[0] + ["--mode", "trace"], text_of("store-five")).stdout, "", 0, None, TICKS)[1].encode()
    listing = run(programs("denovo")[0] + ["--mode", "list"], text_of("store-five")).stdout
    inputs = {"deep": b"[" * 200000, "deep data": b'{"format":"denovo-data 1","a":' + b"[" * 200000, "no text": b"\xff\xfe\x00", "a head alone": b'{"format":"denovo-data 1"}',
              "a list": b"[1]", "cut": data[:len(data) // 2], "parts of other kinds": re.sub(rb'"cores":\d+', b'"cores":"x"', data), "no regions": data.replace(b'"regions"', b'"others"')}
    for words in READERS:
        for name, text in inputs.items():
            ran = run(words, text)
            check(f"{words[0]} of {name}", b"Traceback" not in ran.stderr and b"Exception" not in ran.stderr, (ran.returncode, ran.stderr[-300:]))
    for words in FILE_READERS:
        ran = run(words)
        check(f"{' '.join(words)}: a path that isn't there", b"Traceback" not in ran.stderr and ran.returncode != 0, (ran.returncode, ran.stderr[-300:]))
    for words, text in ((["tools/to_gas"], listing), (["tools/vcd"], data), (["tools/perfetto"], data), (["tools/vcd", "--help"], b""), (["tools/reference.py"], text_of("store-five")),
                        (["tools/random_text", "--seed", "1"], b""), (["tools/expect", "--help"], b""), (["examples/loader/load.py"], listing),
                        (["examples/another-simulator/simulate.py"], text_of("store-five"))):
        with open("/dev/full", "wb") as full:
            ran = run(words, text, stdout=full)
        check(f"{' '.join(words)} to a full device", ran.returncode == 7 and b"Traceback" not in ran.stderr and b"Exception" not in ran.stderr, (ran.returncode, ran.stderr[-300:]))
        ran = run(["bash", "-c", '"$@" | :', "bash", *words], text)
        check(f"{' '.join(words)} to a reader that stops", b"Traceback" not in ran.stderr and b"Exception" not in ran.stderr, ran.stderr[-300:])


def word_scope(data, word):
    name, start, _ = next(row for row in data["regions"] if row[1] <= word < row[1] + row[2])
    return f"{name}_{word - start}"


def values_wanted(data, actor, state):
    """The values of an actor's variables, by the lines of a state."""
    wanted, here = {}, {}
    for line in state:
        kind, *fields = line.split(" ")
        if kind == "N" and actor == int(fields[0]):
            wait = (fields[3 + 1].split(".") + ["0"])[:2]
            wanted.update({f"core{actor}.phase": int(fields[1]), f"core{actor}.wait": int(wait[0]), f"core{actor}.wait_on": int(wait[1])})
            if int(fields[2]):
                wanted[f"core{actor}.pc"] = int(fields[2])
        elif kind == "E" and actor == int(fields[0]):
            here[int(fields[1])] = fields[2], int(fields[3])
        elif kind == "H" and actor == 16 + int(fields[0]) % data["banks"]:
            scope, is_home = word_scope(data, int(fields[0])), fields[1] == "H"
            wanted.update({f"{scope}.owner": 31 if is_home else int(fields[2]), f"{scope}.value": int(fields[2]) if is_home else None})
    if actor < 16:
        for word in range(data["words"]):
            tag, value = here.get(word, ("", None))
            wanted[f"{word_scope(data, word)}.core{actor}_state"] = " VTRPL".index(tag) if tag else 0
            wanted[f"{word_scope(data, word)}.core{actor}_copy"] = value
    return wanted


def gnu_assembler():
    """The command of a GNU assembler for RV32I, where one is installed."""
    return next((name for prefix in ("riscv64-unknown-elf-", "riscv64-linux-gnu-", "riscv32-unknown-elf-")
                 for name in [prefix + "as"] if shutil.which(name)), None)


def listings_are_read_by_the_gnu_assembler():
    """Branches and jumps of a listing become distances. Where a GNU assembler is installed it makes the words of the program of them, and its first values."""
    ran = run(["tools/to_gas"], b".region m, 2\n.word m, 1, 0x00000007\n.phase\n.task 0, 0x00001004, 0x00000000\nbne x7, x0, -16\njal x0, 20\n.raw 0xffffffff\n")
    wanted = ("# .phase\n# .task 0, 0x00001004, 0x00000000\n.text\n.option norvc\n.option norelax\n    bne x7, x0, .-16\nentry_00001004:\n"
              "    jal x0, .+20\n    .word 0xffffffff\n.data\nregion_m:\n    .zero 4\n    .word 0x00000007\n")
    check("a listing for the GNU assembler", (ran.returncode, ran.stdout.decode()) == (0, wanted), ran.stdout)
    for line in ("loop: li t0, 5", "addi x1, x2, 5; .word 0", "addi x1, x2, 2048", "addi x1, x2, a", "addi x32, x2, 5", "add x1, x2", "add x1, x2, x3, x4", "lui x1, -1",
                 "lw x1, 0(x2), x3", "lw x1, 0(x2) # more", "slli x1, x2, 32", "beq x1, x2, 3", "jal x1, 1048576", "fence x1", "ecall ", "addi  x1, x2, 5", ".insn 4, 5",
                 ".region m, 1; .word 7", ".region a b, 1", ".region m, 0", ".word m, 0, 0x00000001", ".region m, 1\n.word m, 1, 0x00000001", ".region m, 1\n.region m, 1",
                 ".phase /* x", "addi x\u0661, x2, 5"):
        ran = run(["tools/to_gas"], (line + "\n").encode())
        check(f"a line that no listing has: {line!r}", (ran.returncode, ran.stdout) == (2, b"") or line == "ecall ", ran)
    assembler = gnu_assembler()
    if assembler is None:
        print("programs: there is no GNU assembler for RISC-V here: its words weren't compared")
        return
    for example in sorted(path.stem for path in pathlib.Path("examples").glob("*.s"))[:None if KIND == "proved" else 8]:
        listing = run(programs("denovo")[0] + ["--mode", "list"], text_of(example)).stdout
        try:
            program = reference.assemble(listing.decode())
        except reference.Unfit:
            continue  # it has a conflict, so nothing else says what its words are
        source = run(["tools/to_gas"], listing).stdout
        with tempfile.TemporaryDirectory() as room:
            pathlib.Path(room, "a.S").write_bytes(source)
            made = run([assembler, "-march=rv32i", "-mabi=ilp32", "-o", f"{room}/a.o", f"{room}/a.S"])
            check(f"{example}: the GNU assembler takes it", made.returncode == 0, made.stderr)
            for section, numbers in ((".text", program.code), (".data", program.memory)):
                run([assembler.removesuffix("as") + "objcopy", "-O", "binary", "-j", section, f"{room}/a.o", f"{room}/out"])
                told = pathlib.Path(room, "out").read_bytes() if pathlib.Path(room, "out").exists() else b""
                check(f"{example}: its words in {section}", told == b"".join(number.to_bytes(4, "little") for number in numbers), len(told))
                pathlib.Path(room, "out").unlink(missing_ok=True)


def expectations_are_compared():
    """What a run leaves is compared by names, and each exit code comes."""
    with tempfile.TemporaryDirectory() as room:
        expected = pathlib.Path(room, "expected")
        for example, words, lines, status, told in (
                ("stale-copy", [], "shared = 9\nseen = 5 9 # both\n", 0, ""),
                ("stale-copy", [], "seen = 5 8\n", 3, "seen[1]: 8 is expected, and the run left 9\n"),
                ("stale-copy", [], "seen[1] = -1\n", 3, "seen[1]: 4294967295 (or -1) is expected, and the run left 9\n"),
                ("crossed-locks", ["--seed", "1"], "", 3, "outcome: done is expected, and the run ended with stuck\n"),
                ("crossed-locks", ["--seed", "1"], "outcome stuck\n", 0, ""),
                ("conflict", [], "", 2, run(programs("denovo")[-1], text_of("conflict")).stdout.decode()),
                ("lab/sum", [], pathlib.Path("examples/lab/sum.expected").read_text(), 0, ""),
                ("lab/sum", [], "a = 0 1\na[63] = 62\n", 3, "a[63]: 62 is expected, and the run left 63\n"),
                ("lab/transfer", ["--seed", "2"], pathlib.Path("examples/lab/transfer.expected").read_text(), 0, ""),
                ("stale-copy", [], "seen[2] = 1\n", 1, ""),
                ("stale-copy", [], "nine\n", 1, "")):
            expected.write_text(lines)
            ran = run(["tools/expect", *words, f"examples/{example}.s", str(expected)])
            check(f"expected of {example}: {lines!r}", (ran.returncode, ran.stdout.decode()) == (status, told), ran)
        # regions are those of the language, also behind a label, and numbers have 32 bits and the digits 0 to 9
        text = pathlib.Path(room, "text.s")
        text.write_text("here: .region a, 2\n\t.region\tb ,0x1\n.word b, 0, 7 # .region c, 9\n.phase\n.task 0, f, 0\nf: li a7, 0\n ecall\n")
        for lines, status in (("b = 7\n", 0), ("a = 0 0\nb = 7", 0), ("b = 0x7", 0), ("a = 7\n", 3), ("b = 8\n", 3), ("b = -1", 3), ("b = -2147483648", 3), ("b = 4294967295", 3),
                              ("c = 0", 1), ("b[1] = 0", 1), ("b = 4294967303", 1), ("b = -4294967289", 1), ("b = 0b111", 1), ("b = 0o7", 1), ("b = 0_7", 1), ("b = +7", 1),
                              ("b = \u0667", 1), ("b[\u0660] = 7", 1), ("b = 0x", 1), ("b = 7.0", 1)):
            expected.write_text(lines)
            ran = run(["tools/expect", str(text), str(expected)])
            check(f"expected of a region behind a label: {lines!r}", ran.returncode == status and b"Traceback" not in ran.stderr, ran)
