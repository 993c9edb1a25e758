"""Claims of other simulators: those of runs agree, those that are changed are judged as tools/reference.py judges them, and bytes that are
no claim are refused."""
import functools
import pathlib
import re
import sys

import reference
from .counting import KIND, check, memory_left, programs, run, text_of


def counters(cores, locks):
    """A text whose tasks double counters and add to them, each counter under its lock: what they come to shows the order of the grants."""
    lines = [".version 2"] + [f".region counter{lock}, {lock + 1}" for lock in range(locks)] + [f".lock guard{lock}" for lock in range(locks)]
    lines += [".phase", f".forall 0, {cores}, count, 1, 1"] + [f".gwrites guard{lock}, counter{lock}" for lock in range(locks)]
    lines += ["count: mv s0, a0"]
    for lock in range(locks):
        label = "again:" if lock == 0 else ""
        lines += [f"{label} la t0, counter{lock}", f" li a0, {lock}", " li a7, 1", " ecall", " lw t1, 0(t0)", " add t1, t1, t1", " add t1, t1, s0",
                  " sw t1, 0(t0)", f" li a0, {lock}", " li a7, 2", " ecall"]
    lines += [" addi s0, s0, -1", " bnez s0, again", " li a7, 0", " ecall"]
    return "".join(line + "\n" for line in lines).encode()


def texts_with_locks():
    """Twenty-one texts: the examples that declare a lock, and counters."""
    found = {path.stem: path.read_bytes() for path in sorted(pathlib.Path("examples").glob("*.s")) if re.search(rb"^\.lock ", path.read_bytes(), re.M)}
    for cores, locks in ((2, 1), (2, 2), (2, 3), (3, 1), (3, 2), (4, 3), (5, 1), (5, 2), (8, 1), (8, 3), (16, 1), (16, 2)):
        found[f"{cores} cores and {locks} locks"] = counters(cores, locks)
    return found


def claim_of_run(program, seed, text):
    """The claim of a run of denovo: its grants and its answer are what it prints, its loads those of one thread by these grants."""
    lines = run(program + ["--seed", str(seed)], text).stdout.decode().splitlines()
    grants = [tuple(int(word) for word in line.split()[1:]) for line in lines if line.startswith("grant ")]
    answer = lines[:next(at for at, line in enumerate(lines) if line.startswith(("grant ", "count ")))]
    _, loads, _ = reference.flat(reference.assemble(text.decode()), 32768, grants)
    return reference.claim_text(text, 32768, grants, loads, answer)


@functools.lru_cache(16)
def verdict(claim):
    """The exit code and the bytes that tools/reference.py says of a claim, whose text has a program."""
    status, lines = reference.judged(claim)
    return status, "".join(line + "\n" for line in lines).encode()


@functools.lru_cache(16)
def diagnosis(claim):
    """The exit code and the bytes that tools/reference.py says of a claim in the mode diagnose, whose text has a program."""
    status, lines = reference.diagnosed(claim)
    return status, "".join(line + "\n" for line in lines).encode("latin-1")


@functools.lru_cache(16)
def settled(claim):
    """The exit code and the bytes that tools/reference.py says of a claim in the mode settled, whose text has a program."""
    status, lines = reference.settled(claim)
    return status, "".join(line + "\n" for line in lines).encode()


def judges(program, document, wanted, words=()):
    ran = run(program + list(words), document)
    check(f"{program[0]} {' '.join(words)}: a document of {len(document)} bytes, at its end {document[-60:]}", (ran.returncode, ran.stdout) == wanted,
          f"{ran.stdout[:200]}, not {wanted[1][:200]}")


def claims_of_runs_agree():
    texts = texts_with_locks()
    check("twenty-one texts with locks", len(texts) == 21, len(texts))
    for name, text in texts.items():
        claims = [claim_of_run(programs("denovo")[0], seed, text) for seed in (range(1, 11) if KIND == "proved" else (1, 2))]
        for claim in claims:
            judges(programs("referee")[0], claim, (0, b"agrees\n"))
        check(f"{name}: each claim is right by tools/reference.py", all(verdict(claim) == (0, b"agrees\n") for claim in claims))


def parts(claim):
    """The question of a claim, the lines of its grants, those of its loads, and its answer."""
    grants, loads, answer = (claim.index(name) + 1 for name in (b"\ngrants ", b"\nloads ", b"\noutcome "))
    return claim[:grants], claim[grants:loads], claim[loads:answer], claim[answer:]


def differing(claim):
    """Claims that are like this one, and each wrong in another way."""
    question, grants, loads, answer = parts(claim)
    head, *rows = grants.splitlines(True)
    count = len(rows)

    def with_grants(rows):
        return question + b"grants %d\n" % len(rows) + b"".join(rows) + loads + answer

    yield with_grants(rows[:-1])                                # a list that isn't whole
    yield with_grants(rows + rows[-1:])                         # one that goes on
    yield with_grants(rows[:1] + rows)                          # a lock that is held, or a core that doesn't wait
    yield with_grants([])
    for place in range(0, count, max(count // 3, 1)):
        for other in (b"grant 1 0 0\n", b"grant 0 15 0\n", b"grant 0 0 31\n", b"grant 4294967295 4294967295 4294967295\n"):
            yield with_grants(rows[:place] + [other] + rows[place + 1:])
    number, *tasks = re.split(rb"^(?=task )", loads, flags=re.M)
    for some in (tasks[:-1], tasks + [b"task 3 15 0\n"], tasks[::-1], [tasks[0].replace(b"task 0 ", b"task 1 ", 1)] + tasks[1:]):
        yield question + grants + b"loads %d\n" % len(some) + b"".join(some) + answer
    seen = [line for line in loads.splitlines(True) if not line.startswith((b"task", b"loads"))]
    for place in {0, len(seen) // 2, len(seen) - 1} if seen else ():
        at = -1
        for _ in range(place + 1):
            at = re.compile(rb"^\d+ 0x", re.M).search(loads, at + 1).start()
        end = loads.index(b"\n", at) + 1
        word, value = loads[at:end].split()
        for other in (b"%d %s\n" % (int(word) + 1, value), b"%s 0x%08x\n" % (word, int(value, 16) ^ 1)):
            yield question + grants + loads[:at] + other + loads[end:] + answer
    task, *rest = tasks[-1].splitlines(True)
    names, many = task.rsplit(b" ", 1)
    shorter = [b"%s %d\n" % (names, int(many) - 1)] + rest[:-1]
    longer = [b"%s %d\n" % (names, int(many) + 1)] + rest + [b"0 0x00000000\n"]
    for other in ([shorter] if rest else []) + [longer]:
        yield question + grants + number + b"".join(tasks[:-1]) + b"".join(other) + answer
    lines = answer.splitlines(True)
    for place in range(len(lines)):
        yield question + grants + loads + b"".join(lines[:place])
        yield question + grants + loads + b"".join(lines[:place] + lines[place + 1:])
        yield question + grants + loads + b"".join(lines[:place] + [lines[place][:-2] + b"~\n"] + lines[place + 1:])
    yield claim[:-1]
    yield claim + b"\n"
    yield claim + lines[-1]


def claims_are_judged():
    """The referee says of claims, right and wrong ones, what the judge of tools/reference.py says."""
    program = programs("referee")[0]
    for example in ("locked-counter", "stencil", "touched-bit", "crossed-locks", "trap", "endless"):
        text = text_of(example)
        claim = reference.claim(["--mode", "run", "--seed", "3"], text)
        question, grants, loads, answer = parts(claim)
        judges(program, claim, (0, b"agrees\n"))
        judges(program, question + grants + b"loads none\n" + answer, (0, b"agrees\n"))
        judges(program, question + grants, (0, claim), ["--mode", "answer"])
        judges(program, question, (0, reference.claim(["--mode", "flat"], text)), ["--mode=least"])
        judges(program, claim, (2, b"refused claim behind\n"), ["--mode", "answer"])
        judges(program, question + grants, (2, b"refused claim behind\n"), ["--mode", "least"])
        for other in differing(claim) if b"grants 0\n" not in claim else ():
            judges(program, other, verdict(other))
            judges(program, other, diagnosis(other), ["--mode", "diagnose"])
            front = b"".join(parts(other)[:2]) if b"\noutcome " in other else b""
            if verdict(other)[1].startswith(b"differs grants"):
                judges(program, front, verdict(other), ["--mode", "answer"])
        for launcher in programs("referee")[1:]:
            judges(launcher, claim, (0, b"agrees\n"))


# In the first phase two cores add 5 to a word under a lock; in the second a task ends at once. Each `la` and `li` gives two code words
DIAGNOSED = b""".version 2
.region sum, 2
.lock guard
.lock other
.phase
.task 0, add, 0
.gwrites guard, sum
.task 1, add, 0
.gwrites guard, sum
.phase
.task 0, end, 0
add: la t0, sum
 li a0, 0
 li a7, 1
 ecall
 lw t1, 0(t0)
 addi t1, t1, 5
 sw t1, 0(t0)
 li a7, 2
 ecall
end: li a7, 0
 ecall
"""

LOADS = [((0, 0), [(0, 0)]), ((0, 1), [(0, 5)]), ((1, 0), [])]
ANSWER = ["outcome done", "task 0 0 finished retired 16", "task 0 1 finished retired 16", "task 1 0 finished retired 3", "words 2",
          "word 0x10000000 0x0000000a"]
BOTH = [(0, 0, 0), (0, 1, 0)]

# The whole answers of the mode diagnose, by hand: the grants, the loads, the answer, and the lines
DIAGNOSES = [
    (BOTH, LOADS, ANSWER, "agrees"),
    (BOTH, [LOADS[0], ((0, 1), [(0, 7)]), LOADS[2]], ANSWER,
     "differs load 0 1 0 word 0 value 0x00000005", "earliest 0 1 0 word 0 value 0x00000005", "claimed word 0 value 0x00000007", "name sum[0]",
     "at 0x0000101c line 16:  lw t1, 0(t0)", "after grants 2", "stored phase 0 core 0 at 0x00001024 line 18:  sw t1, 0(t0)", "holds 0"),
    (BOTH[::-1], [((0, 0), [(0, 9)]), ((0, 1), [(0, 9)]), LOADS[2]], ANSWER,        # core 1 loads first: the verdict's load isn't the earliest
     "differs load 0 0 0 word 0 value 0x00000005", "earliest 0 1 0 word 0 value 0x00000000", "claimed word 0 value 0x00000009", "name sum[0]",
     "at 0x0000101c line 16:  lw t1, 0(t0)", "after grants 1", "stored never", "holds 0"),
    (BOTH, [LOADS[0], ((0, 1), []), LOADS[2]], ANSWER,
     "differs load 0 1 0 word 0 value 0x00000005", "earliest 0 1 0 word 0 value 0x00000005", "claimed end", "name sum[0]",
     "at 0x0000101c line 16:  lw t1, 0(t0)", "after grants 2", "stored phase 0 core 0 at 0x00001024 line 18:  sw t1, 0(t0)", "holds 0"),
    (BOTH, LOADS[:2] + [((1, 0), [(1, 0)])], ANSWER, "differs load 1 0 0 end", "earliest none"),
    (BOTH + [(1, 0, 0)], None, ANSWER, "differs grants 2", "because over"),
    ([(1, 0, 0)], None, ANSWER, "differs grants 0", "because phase 0"),
    ([(0, 2, 0)], None, ANSWER, "differs grants 0", "because no-task"),
    ([(0, 0, 0), (0, 0, 0)], None, ANSWER, "differs grants 1", "because ended"),
    ([(0, 0, 1)], None, ANSWER, "differs grants 0", "because waits 0"),
    ([(0, 1, 0)], None, ANSWER, "differs grants 1", "because unfinished 0 0"),
    (BOTH, LOADS[:2], ANSWER, "differs tasks", "tasks 3", "task 1 0"),
    (BOTH, LOADS + [((1, 1), [])], ANSWER, "differs tasks", "tasks 3", "task 1 1"),
    (BOTH, [LOADS[0], LOADS[2]], ANSWER, "differs tasks", "tasks 3", "task 0 1"),
    (BOTH, None, ANSWER[:-1] + ["word 0x10000000 0x0000000b"], "differs answer 5", "word 0x10000000 0x0000000a", "claimed word 0x10000000 0x0000000b"),
    (BOTH, None, ANSWER[:-1], "differs answer 5", "word 0x10000000 0x0000000a", "claimed nothing"),
    (BOTH, None, ANSWER + ["word 0x10000004 0x00000001"], "differs answer 6", "claimed word 0x10000004 0x00000001"),
]

# Core 0 keeps its lock to its end, which traps; core 1 waits for the lock to the end of the run
HELD = (b".version 2\n.region m, 1\n.lock guard\n.phase\n.task 0, keep, 0\n.gwrites guard, m\n.task 1, keep, 0\n.gwrites guard, m\n"
        b"keep: li a0, 0\n li a7, 1\n ecall\n li a7, 0\n ecall\n")


def claims_are_diagnosed():
    """The mode diagnose answers each of these claims as it was worked out by hand, and so does tools/reference.py."""
    program = programs("referee")[0]
    for grants, loads, answer, *lines in DIAGNOSES:
        claim = reference.claim_text(DIAGNOSED, 32768, grants, None if loads is None else dict(loads), answer)
        wanted = (0 if lines == ["agrees"] else 3, "".join(line + "\n" for line in lines).encode())
        judges(program, claim, wanted, ["--mode", "diagnose"])
        check(f"{lines[0]}: the same by tools/reference.py", diagnosis(claim) == wanted, diagnosis(claim))
    claim = reference.claim_text(HELD, 32768, [(0, 0, 0), (0, 1, 0)], None, [])
    judges(program, claim, (3, b"differs grants 1\nbecause held-by 0\n"), ["--mode", "diagnose"])
    for bug, name in (("lost-invalidation", "lost-invalidation-2"), ("byte-clobbers-word", "bytes-merged"), ("stale-at-grant", "stale-under-lock"),
                      ("granted-twice", "lock-handover-2"), ("last-dirty-line", "last-dirty-words")):
        text = pathlib.Path("examples/litmus", name + ".s").read_bytes()
        claim = run([sys.executable, "examples/another-simulator/directory.py", "--bug", bug], text).stdout
        judges(program, claim, diagnosis(claim), ["--mode=diagnose"])
        check(f"{name}: the bug {bug} is found", diagnosis(claim)[0] == 3, diagnosis(claim))


# Two words, `HERE` in a section of both tasks; the first adds 1, the other 2
SECTIONS = """.region c, 2
.lock k
.phase
.task 0, go, 1
.gwrites k, c
.task 1, go, 2
.gwrites k, c
go: mv s0, a0
 la t0, c
 li a0, 0
 li a7, 1
 ecall
 lw t1, 0(t0)
 add t1, t1, s0
 sw t1, 0(t0)
 HERE
 li a0, 0
 li a7, 2
 ecall
 li a7, 0
 ecall
"""


def with_section(*lines):
    return SECTIONS.replace(" HERE\n", "".join(f" {line}\n" for line in lines)).encode()


def both(retired, *words):
    """The lines of an answer to such a text, of which each task retires so many instructions."""
    return ["outcome done"] + ["task 0 %d finished retired %d" % (core, retired) for core in (0, 1)] + ["words 2"] + list(words)


SUM, OTHER = "word 0x10000000 0x00000003", "word 0x10000004 0x%08x"
LAST, FIRST = with_section("sw s0, 4(t0)"), with_section("sw s0, 0(t0)", "lw t1, 4(t0)", "add t1, t1, s0", "sw t1, 4(t0)")
# A task takes the lock again while it holds it, which traps; the other takes it too
HELD_AT_END = with_section("li a0, 0", "li a7, 1", "ecall")

# The whole answers of the mode settled, by hand: a text, the claimed answer, and the lines. In LAST the second word varies, and in FIRST the
# first one does; the other is 3 in each run
SETTLED = [
    (with_section(), both(19, SUM), "agrees"),
    (with_section(), both(19, SUM, OTHER % 1), "differs answer 5"),                     # a word that is 0 in each run
    (with_section(), both(19, "word 0x10000000 0x00000002"), "differs answer 4", SUM),
    (with_section(), both(19), "differs answer 4", SUM),
    (with_section(), both(20, SUM), "differs answer 1", "task 0 0 finished retired 19"),
    (with_section(), ["outcome trapped"] + both(19, SUM)[1:], "differs answer 0", "outcome done"),
    (with_section(), [], "differs answer 0", "outcome done"),
    (with_section(), both(19, SUM)[:3], "differs answer 3", "words 2"),
    (LAST, both(20, SUM, OTHER % 1), "agrees"),
    (LAST, both(20, SUM, OTHER % 2), "agrees"),
    (LAST, both(20, SUM, OTHER % 99), "agrees"),                                         # words that vary aren't compared
    (LAST, both(20, SUM), "agrees"),
    (LAST, both(20, OTHER % 1), "differs answer 4", SUM),
    (LAST, both(20, SUM, OTHER % 1, OTHER % 1), "differs answer 5"),
    (LAST, both(20, SUM, "word 0x10000004 1"), "differs answer 5"),
    (FIRST, both(23, "word 0x10000000 0x00000001", OTHER % 3), "agrees"),
    (FIRST, both(23, OTHER % 3), "agrees"),
    (FIRST, both(23, "word 0x10000000 0x00000001", OTHER % 4), "differs answer 4", OTHER % 3),
    (FIRST, both(23, OTHER % 3, "word 0x10000000 0x00000001"), "differs answer 5"),      # words out of their order
    (HELD_AT_END, both(23), "open held 0 0 0"),
    (with_section("bnez t1, out", "out:"), both(20, SUM), "open control 0 0 0x0000102c"),
    (b".region c, 65537\n", [], "refused source 1 out-of-range"),
]


def claims_are_judged_by_what_is_settled():
    """The mode settled answers each of these claims as it was worked out by hand, and so does tools/reference.py; and it says of each answer of
    denovo to an example that it agrees, or what is open."""
    program = programs("referee")[0]
    for text, answer, *lines in SETTLED:
        claim = reference.claim_text(text, 32768, [], None, answer)
        status = {"agrees": 0, "refused": 2}.get(lines[0].split()[0], 3)
        wanted = (status, "".join(line + "\n" for line in lines).encode())
        judges(program, claim, wanted, ["--mode", "settled"])
        if status != 2:
            check(f"{lines[0]}: the same by tools/reference.py", settled(claim) == wanted, settled(claim))
    claim = reference.claim_text(LAST, 32768, [], None, both(20, SUM))
    judges(program, claim[:-1], (3, b"differs answer 4\n" + SUM.encode() + b"\n"), ["--mode", "settled"])
    judges(program, reference.claim_text(LAST, 32768, [(0, 0, 0)], None, both(20, SUM)), (2, b"refused claim grant 0\n"), ["--mode", "settled"])
    judges(program, reference.claim_text(LAST, 32768, [(0, 0, 0)], {}, both(20, SUM)), (2, b"refused claim grant 0\n"), ["--mode", "settled"])
    judges(program, reference.claim_text(LAST, 32768, [], {}, both(20, SUM)), (2, b"refused claim loads\n"), ["--mode", "settled"])
    judges(program, claim[:40], (2, b"refused claim head\n"), ["--mode", "settled"])
    for path in sorted(pathlib.Path("examples").glob("*.s")):
        text = path.read_bytes()
        if run(programs("denovo")[0] + ["--mode", "check"], text).returncode:
            continue
        for seed in ("1", "5"):
            answer = [line for line in run(programs("denovo")[0] + ["--seed", seed], text).stdout.decode().splitlines() if not line.startswith(("grant", "count"))]
            claim = reference.claim_text(text, 32768, [], None, answer)
            judges(program, claim, settled(claim), ["--mode=settled"])
            check(f"{path.stem}, seed {seed}: the answer of a run agrees, or what is common is open", settled(claim)[1].startswith((b"agrees\n", b"open ")), settled(claim))


def claims_follow_each_other():
    """With `--batch on` each claim is answered as it is alone, behind its number, up to one that is refused."""
    program = programs("referee")[0]
    right = reference.claim_text(DIAGNOSED, 32768, BOTH, dict(LOADS), ANSWER)
    wrong = reference.claim_text(DIAGNOSED, 32768, BOTH, None, ANSWER[:-1])
    broken = wrong.replace(b"loads none", b"loads some")
    agrees, differs = b"agrees\n", b"differs answer 5\nword 0x10000000 0x0000000a\n"
    bare = reference.claim_text(LAST, 32768, [], None, both(20, SUM))
    held = reference.claim_text(HELD_AT_END, 32768, [], None, [])
    for mode, claims, wanted in (
            ("judge", [right], (0, b"claim 0\n" + agrees)),
            ("judge", [right, right], (0, b"claim 0\n" + agrees + b"claim 1\n" + agrees)),
            ("judge", [right, wrong, right], (3, b"claim 0\n" + agrees + b"claim 1\n" + differs + b"claim 2\n" + agrees)),
            ("diagnose", [wrong, right], (3, b"claim 0\n" + differs + b"claimed nothing\nclaim 1\n" + agrees)),
            ("judge", [wrong, broken, right], (2, b"claim 0\n" + differs + b"claim 1\nrefused claim loads\n")),
            ("judge", [right, b"denovo-claim 1\n", right], (2, b"claim 0\n" + agrees + b"claim 1\nrefused claim head\n")),
            ("judge", [b"nothing\n", right], (2, b"claim 0\nrefused claim head\n")),
            ("judge", [b""], (2, b"claim 0\nrefused claim head\n")),
            ("settled", [bare, held, bare], (3, b"claim 0\nagrees\nclaim 1\nopen held 0 0 0\nclaim 2\nagrees\n")),
            ("settled", [bare, right], (2, b"claim 0\nagrees\nclaim 1\nrefused claim grant 0\n"))):
        together = b"".join(claims)
        judges(program, together, wanted, ["--mode", mode, "--batch", "on"])
        status, lines = reference.batch(together, mode)
        check(f"{mode} {len(claims)}: the same by tools/reference.py", (status, "".join(line + "\n" for line in lines).encode()) == wanted, lines)
    judges(program, right, (0, agrees), ["--batch", "off"])
    for words in (["--batch"], ["--batch", "yes"], ["--batch", "on", "--mode", "answer"], ["--mode", "least", "--batch=on"], ["--batch", "on", "--batch", "on"]):
        judges(program, right, (1, b"refused usage\n"), words)
    judges(program, right * 200 + wrong, (3, b"".join(b"claim %d\n" % number + agrees for number in range(200)) + b"claim 200\n" + differs), ["--batch=on"])


def claims_are_refused():
    """At each cut of a small claim what is refused is the first that is wrong; and at the limits of numbers and texts what is beyond them."""
    program = programs("referee")[0]
    claim = reference.claim(["--mode", "run"], counters(2, 1))
    question, grants, loads, answer = parts(claim)
    front = len(question + grants)
    step = 1 if KIND == "proved" else 37
    for end in range(0, len(claim), step):
        judges(program, claim[:end], verdict(claim[:end]))
        if end < front:
            judges(program, claim[:end], verdict(claim[:end]), ["--mode", "answer"])
        if end < len(question):
            judges(program, claim[:end], (2, b"refused claim head\n"), ["--mode", "least"])
    told = re.findall(rb"\d+", grants + loads)
    for number in {told[0], told[1], told[-1]}:
        for other in (b"0" + number, b"4294967296", b"4294967295", b"", b"-1", b"0x1"):
            wrong = question + (grants + loads).replace(number, other, 1) + answer
            judges(program, wrong, verdict(wrong))
    for fuel in (0, 1, 32767, 32768, 32769, 4294967295):
        other = claim.replace(b"fuel 32768", b"fuel %d" % fuel, 1)
        judges(program, other, verdict(other))
    for size in (1048576, 1048577):
        text = counters(2, 1)
        text += (b"#" * 63 + b"\n") * ((size - len(text)) // 64) + b"\n" * ((size - len(text)) % 64)
        other = reference.claim_text(text, 32768, [(0, core, 0) for core in (0, 1, 1)], None, [])
        judges(program, other, verdict(other))
    for text in (text_of("conflict"), b"nonsense\n"):
        refused = run(programs("denovo")[0], text)
        other = reference.claim_text(text, 32768, [], None, [])
        judges(program, other, (2, refused.stdout))


def the_largest_claims_are_read():
    """Bytes as many as a claim may have are read to their end, and one more is refused. They come by a pipe, and the program holds them."""
    program = programs("referee")[0]
    if memory_left() < 2 ** 30:
        print(f"programs: {program[0]}: claims of the largest size are passed over: less than 1 GiB of memory is free")
        return
    for size, what in ((536870912, b"head"), (536870913, b"too-large")):
        ran = run(["bash", "-c", f'head -c {size} /dev/zero | "$@"', "bash", *program])
        check(f"{program[0]}: {size} bytes", (ran.returncode, ran.stdout) == (2, b"refused claim %s\n" % what), ran.stdout[:200])


def another_simulator_is_compared():
    """docs/COMPARING.md: the example's claims agree, and with its bug switched on the referee says where."""
    simulator = "examples/another-simulator/simulate.py"
    program = programs("referee")[0]
    for path in sorted(pathlib.Path("examples").glob("*.s")):
        text = path.read_bytes()
        refused = run(programs("denovo")[0] + ["--mode", "check"], text)
        for seed in ("1", "7") if refused.returncode == 0 else ():
            claim = run([sys.executable, simulator, "--seed", seed], text).stdout
            judges(program, claim, (0, b"agrees\n"))
    for seed in range(1, 11):
        claim = run([sys.executable, simulator, "--seed", str(seed), "--grant-twice"], text_of("locked-counter")).stdout
        judges(program, claim, verdict(claim))
        check(f"{simulator} --seed {seed} --grant-twice: its bug is found", verdict(claim)[0] == 3, verdict(claim))


def a_machine_without_a_rule_is_found():
    """The claims of the second program's machine with a rule left out: without drops the referee finds a stale read, and else none."""
    wanted = {("stale-copy", "drop"): "differs load 2 1 0 word 0 value 0x00000009\n", ("signature", "drop"): "differs load 0 0 1 word 0 value 0x00000009\n",
              ("constants", "touched"): "agrees\n", ("guarded-words", "signatures"): "agrees\n"}
    for (example, rule), verdict in wanted.items():
        made = run(["tools/reference.py", "claim", "--without", rule], text_of(example))
        first = made.stderr.decode().split("\n")[0]
        check(f"without {rule}, {example}: standard error", made.returncode == 0 and "isn't the protocol" in first, first)
        for referee in programs("referee"):
            ran = run(referee, made.stdout)
            check(f"without {rule}, {example}: {referee[0]}", ran.stdout.decode().startswith(verdict), ran.stdout[:200])
