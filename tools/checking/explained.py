"""Answers that `explain` explains, refuses or takes: the cases of tools/explained.txt, the verdicts of tools/verdicts.txt, and answers of
other texts."""
import os
import pathlib
import re
import tempfile

import reference
from .counting import check, programs, run


def mended(text, edits):
    """A text after edits of its lines, which are numbered from 1: `3 = X` puts X in place of line 3, `3 + X` behind what stands for it,
    and `3 -` leaves it out. Line 0 stands before all others."""
    lines = {number: [line] for number, line in enumerate(text.splitlines(), 1)} | {0: []}
    for edit in edits:
        number, how, line = re.fullmatch(r"(\d+) ([-+=]) ?(.*)", edit).groups()
        kept = lines[int(number)]
        lines[int(number)] = {"-": [], "=": [line] + kept[1:], "+": kept + [line]}[how]
    return "".join(line + "\n" for number in sorted(lines) for line in lines[number])


def explained_cases():
    """The cases of tools/explained.txt: for each its name, its text, denovo's words, or `outcomes` and that program's, all that explain has to
    write, and what comes of the remedy: how the next answer begins, and the edits that mend the text; None where the case has none. A text may be the file that stands
    behind `< `, and `{8 x}` stands for eight times x."""
    def grown(piece):
        return re.sub(r"\{(\d+) (.)\}", lambda found: found[2] * int(found[1]), piece)

    for case in re.split(r"^==== ", pathlib.Path("tools/explained.txt").read_text(), flags=re.M)[1:]:
        name, rest = case.split("\n", 1)
        text, words, rest = re.split(r"^----(.*)\n", rest, flags=re.M)
        text = pathlib.Path(text[2:-1]).read_text() if text.startswith("< ") else grown(text)
        output, *remedy = re.split(r"^\+\+\+\+ ", rest, flags=re.M)
        yield name, text, words.split(), grown(output), remedy[0].splitlines() if remedy else None


def answers_are_explained():
    """Each case: the lines that aren't indented are denovo's answer, and explain puts the others behind them."""
    with tempfile.TemporaryDirectory() as room:
        for name, text, words, output, _ in explained_cases():
            answer = "".join(line + "\n" for line in output.splitlines() if not line.startswith("  "))
            file = pathlib.Path(room, "a text.s")
            file.write_text(text)
            program, *words = ["outcomes", *words[1:]] if words[:1] == ["outcomes"] else ["denovo", *words]
            ran = run(programs(program)[0] + words, text.encode())
            check(f"the answer to {name}", ran.stdout == answer.encode(), ran.stdout)
            if program == "outcomes":
                lines = reference.outcomes_text(reference.assemble(text), 32768)[1]
                check(f"the answer to {name}, by the reference", "".join(line + "\n" for line in lines) == answer)
            elif not answer.startswith("refused ") and "list" not in words:
                lines = reference.answer(words, text)[1]
                check(f"the answer to {name}, by the reference", "".join(line + "\n" for line in lines) == answer)
            ran = run(programs("explain")[0] + [str(file)], answer.encode())
            check(f"{name}, explained", (ran.returncode, ran.stdout) == (0, output.encode()), ran.stdout)
    line = "./denovo < examples/trap.s | ./explain examples/trap.s"
    ran = run(["bash", "-c", line])
    check(line, ran.returncode == 0 and b"\n  18 |  sw t1, 8(t0)\n" in ran.stdout, ran.stdout)


def verdict_cases():
    """The cases of tools/verdicts.txt: for each its name, its text, the claim from its line `grants` on, and all that explain has to write."""
    for case in re.split(r"^==== ", pathlib.Path("tools/verdicts.txt").read_text(), flags=re.M)[1:]:
        name, rest = case.split("\n", 1)
        text, claim, output = re.split(r"^----\n", rest, flags=re.M)
        yield name, text, claim, output


def verdicts_are_explained():
    """Each case: the lines that aren't indented are the referee's diagnosis of the claim, and explain puts the others behind them. The first
    lines are explained too where no diagnosis follows. A line that quotes another text, or is of no form, is refused."""
    with tempfile.TemporaryDirectory() as room:
        file = pathlib.Path(room, "a text.s")
        explain = programs("explain")[0] + [str(file)]
        for name, text, rest, output in verdict_cases():
            claim = f"denovo-claim 1\nfuel 32768\nsource {len(text)}\n{text}\n{rest}".encode()
            lines = output.splitlines(True)
            answer = "".join(line for line in lines if not line.startswith("  ")).encode()
            told = reference.diagnosed(claim)[1]
            check(f"{name}, by the reference", "".join(line + "\n" for line in told).encode() == answer, told)
            ran = run(programs("referee")[0] + ["--mode", "diagnose"], claim)
            check(f"the diagnosis of {name}", ran.stdout == answer, ran.stdout)
            file.write_text(text)
            ran = run(explain, answer)
            check(f"the diagnosis of {name}, explained", (ran.returncode, ran.stdout) == (0, output.encode()), ran.stdout)
            ran = run(explain, lines[0].encode())
            check(f"the verdict on {name}, explained", (ran.returncode, ran.stdout) == (0, "".join(lines[:2]).encode()), ran.stdout)
            quoting = [number for number, line in enumerate(answer.splitlines(), 1) if line.startswith(b"at ")]
            if quoting:
                file.write_text("# one line more\n" + text)
                ran = run(explain, answer)
                check(f"{name}, of another text", (ran.returncode, ran.stdout) == (2, b"refused answer %d\n" % quoting[0]), ran.stdout)
                file.write_text(text)
        for answer, number in ((b"differs grants\n", 1), (b"differs grants 01234567890\n", 1), (b"differs load 0 0 0 word 0 value 0x1\n", 1),
                               (b"stored never\n", 1), (b"agrees\nbecause\n", 2), (b"differs tasks\ntasks 2\ntask 0\n", 3)):
            ran = run(explain, answer)
            check(f"{answer} is no verdict", (ran.returncode, ran.stdout) == (2, b"refused answer %d\n" % number), ran.stdout)


def remedies_lead_on():
    """The remedy of each case, applied to its text: the next answer is right, or names another mistake. An effect that is added is the one
    that the sentences write out, where they write one out, and the answer to the mended text can be explained."""
    with tempfile.TemporaryDirectory() as room:
        for name, text, words, output, remedy in explained_cases():
            if remedy is None:
                continue
            wanted, *edits = remedy
            named = re.findall(r"line by `(\.g?(?:reads|writes) [^`]*)`", output)
            added = [edit.split(" ", 2)[2] for edit in edits if re.match(r"\d+ \+ \.g?(reads|writes) ", edit)]
            check(f"the remedy of {name} is the one that is named", not named or not added or added == list(dict.fromkeys(named)), (named, added))
            file = pathlib.Path(room, "a text.s")
            file.write_text(mended(text, edits))
            ran = run(programs("denovo")[0] + ["--mode", "flat"], file.read_bytes())
            check(f"the remedy of {name}", ran.stdout.startswith(wanted.encode()), ran.stdout)
            again = run(programs("explain")[0] + [str(file)], ran.stdout)
            check(f"the remedy of {name}, explained", again.returncode == 0 and ran.stdout != output.encode(), again.stdout)


def texts_are_refused_alike():
    """The line with which denovo refuses a text comes too where the text stands in the document of a run or in a claim."""
    for name, text, words, output, _ in explained_cases():
        answer, text = output.split("\n", 1)[0].encode() + b"\n", text.encode()
        if words or len(text) > 1048576 or not answer.startswith((b"refused source ", b"refused check ")):
            continue
        document = b"denovo-trace 1\nbanks 4 sets 64 ways 4 fuel 32768\nsource %d\n" % len(text) + text + b"\nevents 0\n"
        claim = reference.claim_text(text, 32768, [], None, [])
        for program, data in ((programs("denovo")[0] + ["--mode", "replay"], document), (programs("view")[0], document),
                              (programs("view")[0] + ["--mode", "state"], document), (programs("referee")[0], claim)):
            ran = run(program, data)
            check(f"{' '.join(program)} of {name}", (ran.returncode, ran.stdout) == (2, answer), ran.stdout)


def answers_are_explained_one_after_the_other():
    """Answers of runs in a row are explained as each is alone: a task that waits in one of them waits for the holder in that one."""
    text = "examples/crossed-locks.s"
    source = pathlib.Path(text).read_bytes()
    asked = ([], ["--seed", "1"], ["--seed", "6"], ["--mode", "flat"], ["--mode", "time"], ["--seed", "1"])
    answers = [run(programs("denovo")[0] + words, source).stdout for words in asked]
    alone = [run(programs("explain")[0] + [text], answer).stdout for answer in answers]
    for order in (answers, answers[::-1]):
        ran = run(programs("explain")[0] + [text], b"".join(order))
        wanted = b"".join(alone if order is answers else alone[::-1])
        check("answers one after the other", (ran.returncode, ran.stdout) == (0, wanted), ran.stdout)
    ran = run(programs("explain")[0] + [text], answers[1] * 18)
    unplaced = re.sub(rb"  It (waits|acquired it) at .*\n.*\n", b"", alone[1])
    check("of 16 answers it is said where tasks wait and where locks were acquired", unplaced != alone[1] and ran.stdout == alone[1] * 16 + unplaced * 2, ran.stdout)
    waits = b"waits for first (lock 0), which isn't given up.\n  It waits at line 17:\n  17 |  ecall\n  The task of core 0 in phase 0, which line 9 declares, "
    waits += b"holds this lock.\n  It acquired it at line 15:\n  15 |  ecall\n"
    other = answers[1] + b"outcome done\ngrant 0 1 0\n"
    ran = run(programs("explain")[0] + [text], other)
    check("a grant of the next answer names no holder of the first", waits in ran.stdout, ran.stdout)


def answers_of_other_texts_are_refused():
    """The first line of a listing, or of a document, that isn't this text's is named; also where it is missing."""
    text = ".region m, 2\n.phase\n.task 0, go, 0\ngo: li a7, 0\necall\n"
    listing = ".region m, 2\n.phase\n.task 0, 0x00001000, 0x00000000\nlui x17, 0\naddi x17, x17, 0\necall\n"
    addressed = listing[:-34] + "lui x17, 0  # 0x00001000\naddi x17, x17, 0  # 0x00001004\necall  # 0x00001008\n"
    head = f"denovo-trace 1\nbanks 4 sets 64 ways 4 fuel 32768\nsource {len(text)}\n{text}\nevents 2\n"
    cases = [
        (listing.replace("region m, 2", "region m, 3"), 1), (listing.replace("x17, 0\necall", "x17, 1\necall"), 5),
        (listing + "ecall\n", 7), (listing[:-6], 6), (listing[:-1], 6),
        (addressed.replace("lui x17, 0", "lui x17, 1"), 4), (addressed.replace("0x00001004", "0x00001000"), 5), (addressed[:-1], 6),
        (addressed.replace("  # 0x00001000", ""), 5),
        (head.replace("banks 4", "banks 0") + "i 0\na 0\n", 2), (head.replace("task 0", "task 1") + "i 0\na 0\n", 6),
        (head.replace(f"source {len(text)}", "source 9") + "i 0\na 0\n", 3), (head.replace("\nevents 2\n", "\nevents 02\n"), 10),
        (head + "i 0\n", 12), (head + "i 16\na 0\n", 11), (head + "i 0\na 0\nh k 0\n", 13), ("denovo-trace 2\n", 1)]
    with tempfile.TemporaryDirectory() as room:
        file = pathlib.Path(room, "a text.s")
        file.write_text(text)
        for number, (answer, line) in enumerate(cases):
            ran = run(programs("explain")[0] + [str(file)], answer.encode())
            check(f"other text {number}, refused at line {line}", (ran.returncode, ran.stdout) == (2, b"refused answer %d\n" % line), ran.stdout)
        ran = run(programs("explain")[0] + [str(file)], addressed.encode())
        wanted = addressed.replace("00\naddi", "00\n  4 | go: li a7, 0\naddi").replace("04\n", "04\n  second word of line 4 | go: li a7, 0\n").replace("08\n", "08\n  5 | ecall\n")
        check("a listing with addresses is taken", (ran.returncode, ran.stdout.decode()) == (0, wanted), ran.stdout)
        for answer in (head + "i 0\na 0\n", "refused usage\n"):
            ran = run(programs("explain")[0] + [str(file)], answer.encode())
            check("such an answer is taken", (ran.returncode, ran.stdout) == (0, answer.encode()), ran.stdout)


def answers_before_any_text_are_taken():
    """The lines by which the words, or the form of a document, are refused: also for a text that is refused itself."""
    taken = ("refused usage\n", "refused trace too-large\n", "refused trace head\n", "refused trace event 3\n", "refused trace rest\n")
    other = ("refused trace incomplete\n", "refused trace not-enabled 3\n", "outcome done\n", "refused usage\nrefused usage\n", "refused usage")
    with tempfile.TemporaryDirectory() as room:
        file = pathlib.Path(room, "a text.s")
        for text in ("addi t0, t1, @\n", pathlib.Path("examples/conflict.s").read_text()):
            file.write_text(text)
            for answer in taken + other:
                ran = run(programs("explain")[0] + [str(file)], answer.encode())
                wanted = (0, answer.encode()) if answer in taken else (2, b"refused answer 1\n")
                check(f"{answer!r} to a refused text", (ran.returncode, ran.stdout) == wanted, ran.stdout)


def every_exit_code_of_explain_comes():
    for program in programs("explain"):
        label, text = program[0], "examples/trap.s"
        for words, stdin, status, output in (
                (["--help"], b"", 1, b"refused usage\n"), ([], b"", 1, b"refused usage\n"),
                ([text, text], b"", 1, b"refused usage\n"), ([text], b"outcome dne\n", 2, b"refused answer 1\n"),
                (["examples/conflict.s"], b"outcome done\n", 2, b"refused answer 1\n"),
                (["no such file"], b"", 6, b""), (["examples"], b"", 6, b""), ([b"\xff"], b"", 9, b""), (["--", text], b"", 0, b"")):
            ran = run(program + words, stdin)
            check(f"{label} {words}: exit code {status}", (ran.returncode, ran.stdout) == (status, output), (ran.returncode, ran.stdout))
        folder = os.open("/", os.O_RDONLY)
        ran = run(program + [text], folder)
        os.close(folder)
        check(f"{label}: exit code 6, of a folder", (ran.returncode, ran.stdout) == (6, b""))
        ran = run(["sh", "-c", '"$@" >&-', "sh", *program, text], b"outcome done\n")
        check(f"{label}: exit code 7, of a closed standard output", ran.returncode == 7, ran.returncode)
