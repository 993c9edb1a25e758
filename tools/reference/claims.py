"""The claims of other simulators, by docs/COMPARING.md: one is written of a run, and any is judged."""

import re

from .answers import opened, options, run
from .documents import NUMBER
from .one_memory import flat
from .outcomes import Open, outcomes
from .report import answer_text, grant_text
from .texts import Unfit, assemble, code_lines


def claim_text(text, fuel, grants, loads, answer):
    """The bytes of a claim: the text as bytes, the grants, the loads by task or None, and the lines of the answer."""
    lines = ["grants %d" % len(grants)] + grant_text(grants)
    if loads is None:
        lines.append("loads none")
    else:
        lines.append("loads %d" % len(loads))
        for (phase, core), seen in sorted(loads.items()):
            lines.append("task %d %d %d" % (phase, core, len(seen)))
            lines += ["%d 0x%08x" % load for load in seen]
    head = b"denovo-claim 1\nfuel %d\nsource %d\n" % (fuel, len(text)) + text + b"\n"
    return head + "".join(line + "\n" for line in lines + answer).encode()


def claim(words, text):
    """The claim of the run that the words ask for: of the machine in the mode run, of the least grants in the mode flat. Where a rule of the
    protocol is left out, it is what the machine did, and not what one memory does by the same grants."""
    o = options(words)
    program = assemble(text.decode("latin-1"))
    if o["mode"] == "flat":
        grants = None
    elif o["mode"] == "run":
        machine = opened(program, o)
        run(machine, o)
        grants = machine.grants
    else:
        raise Unfit("mode")
    ending, loads, used = flat(program, o["fuel"], grants)
    if o["mode"] == "run" and machine.left_out:
        ending, loads = machine.ending(), {task: machine.loads.get(task, []) for task in loads}
    return claim_text(text, o["fuel"], used, loads, answer_text(ending))


class Broken(Exception):
    """The first thing that is wrong with the bytes of a claim."""


class ClaimReader:
    """Reads lines of a claim one after the other; numbers are below 2^32."""

    def __init__(self, data):
        self.data, self.at = data, 0

    def line(self, form, wrong):
        found = re.compile(form.replace(b"N", NUMBER)).match(self.data, self.at)
        if not found or any(int(group, 16 if group[:2] == b"0x" else 10) >= 2 ** 32 for group in found.groups()):
            raise Broken(wrong)
        self.at = found.end()
        return [int(group, 16 if group[:2] == b"0x" else 10) for group in found.groups()]


def read_claim(data):
    """What a claim tells: fuel, text, grants, loads by task or None, and the bytes of the answer."""
    if len(data) > 536870912:
        raise Broken("too-large")
    reader = ClaimReader(data)
    fuel, length = reader.line(rb"denovo-claim 1\nfuel N\nsource N\n", "head")
    if not 1 <= fuel <= 32768 or length > 1048576:
        raise Broken("head")
    text = data[reader.at:reader.at + length]
    reader.at += length
    (count,) = reader.line(rb"\ngrants N\n", "head")
    grants = [tuple(reader.line(rb"grant N N N\n", "grant %d" % number)) for number in range(count)]
    loads = None
    if data[reader.at:reader.at + 11] == b"loads none\n":
        reader.at += 11
    else:
        (count,) = reader.line(rb"loads N\n", "loads")
        loads = []
        for number in range(count):
            phase, core, many = reader.line(rb"task N N N\n", "task %d" % number)
            loads.append(((phase, core), [tuple(reader.line(rb"N (0x[0-9a-f]{8})\n", "load %d %d" % (number, load)))
                                          for load in range(many)]))
    return fuel, text, grants, loads, data[reader.at:]


def judged(data):
    """The exit code and the lines that say whether one thread on one memory does what a claim says."""
    try:
        fuel, text, grants, loads, claimed = read_claim(data)
    except Broken as what:
        return 2, ["refused claim %s" % what]
    stops = []
    run = flat(assemble(text.decode("latin-1")), fuel, grants, stops)
    if run is None:
        return 3, ["differs grants %d" % stops[0]]
    ending, right, _ = run
    if loads is not None:
        if [task for task, _ in loads] != sorted(right):
            return 3, ["differs tasks"]
        for task, seen in loads:
            for at in range(max(len(seen), len(right[task]))):
                if seen[at:at + 1] != right[task][at:at + 1]:
                    rest = "word %d value 0x%08x" % right[task][at] if at < len(right[task]) else "end"
                    return 3, ["differs load %d %d %d %s" % (*task, at, rest)]
    answer = "".join(line + "\n" for line in answer_text(ending)).encode()
    if claimed == answer:
        return 0, ["agrees"]
    alike = next((at for at, (a, b) in enumerate(zip(claimed, answer)) if a != b), min(len(claimed), len(answer)))
    at = answer[:alike].count(b"\n")
    return 3, ["differs answer %d" % at] + answer_text(ending)[at:at + 1]


def at_text(text, pc):
    """An instruction by its address, and by its line of the text."""
    line, _ = code_lines(text.decode("latin-1"))[(pc - 0x1000) // 4]
    return "at 0x%08x line %d: %s" % (pc, line, text.decode("latin-1").split("\n")[line - 1])


def load_text(load):
    return "word %d value 0x%08x" % load if load else "end"


def earliest_text(text, program, acts, claimed):
    """The lines on the first load that is claimed wrongly, in the order in which one thread makes its loads."""
    for place, access in enumerate(acts):
        if access is None or access[0] == "store":
            continue
        _, phase, core, pc, held, number, word, value = access
        seen = claimed.get((phase, core), [])[number:number + 1]
        if seen != [(word, value)]:
            break
    else:
        return ["earliest none"]
    name, start = next((name, start) for name, (start, length) in program.regions.items() if start <= word < start + length)
    stores = [before for before in acts[:place] if before and before[0] == "store" and before[6] == word]
    return ["earliest %d %d %d %s" % (phase, core, number, load_text((word, value))),
            "claimed " + load_text(seen[0] if seen else None),
            "name %s[%d]" % (name, word - start),
            at_text(text, pc),
            "after grants %d" % acts[:place].count(None),
            "stored phase %d core %d %s" % (*stores[-1][1:3], at_text(text, stores[-1][3])) if stores else "stored never",
            ] + ["holds %d" % lock for lock in held]


def task_text(claimed, right):
    """The first task at which the two rows of tasks differ: it is lacking, or it is too much."""
    place = next((at for at, (a, b) in enumerate(zip(claimed, right)) if a != b), min(len(claimed), len(right)))
    return "task %d %d" % min(claimed[place:place + 1] + right[place:place + 1])


def diagnosed(data):
    """The exit code and the lines of `judged`, and behind them those that lead from the verdict to the fault."""
    status, lines = judged(data)
    if status != 3:
        return status, lines
    fuel, text, grants, loads, answer = read_claim(data)
    program, why, acts = assemble(text.decode("latin-1")), [], []
    run = flat(program, fuel, grants, None, why, acts)
    kind = lines[0].split()[1]
    if kind == "grants":
        lines += ["because " + why[0]]
    elif kind == "tasks":
        lines += ["tasks %d" % len(run[1]), task_text([task for task, _ in loads], sorted(run[1]))]
    elif kind == "load":
        lines += earliest_text(text, program, acts, dict(loads))
    else:
        rows = answer.split(b"\n")
        rows = rows[:-1] if rows[-1] == b"" else rows
        at = int(lines[0].split()[2])
        lines += ["claimed " + (rows[at].decode("latin-1") if at < len(rows) else "nothing")]
    return status, lines


def settled(data):
    """The exit code and the lines that say whether a claim without grants and loads has what all runs of its text have in common."""
    try:
        fuel, text, grants, loads, claimed = read_claim(data)
        if grants:
            raise Broken("grant 0")
        if loads is not None:
            raise Broken("loads")
    except Broken as what:
        return 2, ["refused claim %s" % what]
    try:
        ends, memory = outcomes(assemble(text.decode("latin-1")), fuel)
    except Open as why:
        return 3, ["open %s" % why]
    at, number = 0, 0
    for line in answer_text((ends, [0] * len(memory))):
        if not claimed.startswith(line.encode() + b"\n", at):
            return 3, ["differs answer %d" % number, line]
        at, number = at + len(line) + 1, number + 1
    for word, value in enumerate(memory):
        front = "word 0x%08x " % (0x10000000 + 4 * word)
        if value is None:
            found = re.compile(front.encode() + rb"0x[0-9a-f]{8}\n").match(claimed, at)
            at = found.end() if found else at
        elif value:
            line = front + "0x%08x" % value
            if not claimed.startswith(line.encode() + b"\n", at):
                return 3, ["differs answer %d" % number, line]
            at, number = at + len(line) + 1, number + 1
    return (0, ["agrees"]) if at == len(claimed) else (3, ["differs answer %d" % number])


# What is said of one claim, by mode
VERDICTS = {"judge": judged, "diagnose": diagnosed, "settled": settled}


def batch(data, mode):
    """The same of claims that follow each other: each begins with its first line. One that is refused ends it."""
    claims = [data] if len(data) > 536870912 else re.split(rb"(?<=\n)(?=denovo-claim 1\n)", data)
    status, lines = 0, []
    for number, one in enumerate(claims):
        code, said = VERDICTS[mode](one)
        lines += ["claim %d" % number] + said
        status = max(status, code)
        if code == 2:
            return 2, lines
    return status, lines
