"""Small texts, written in one line: what each core does in each phase.

A line is `REGIONS | PHASE ; PHASE ..`. REGIONS are the lengths of the regions, as `1,1`. A phase is `CORE: ACCESSES / CORE: ACCESSES ..`. An access is
`rW`, a load of word W, `wW`, a store of the whole word, `bW`, a store of its lowest byte; `lK` takes lock K, and `uK` gives it up; `t` is a trap.
The effects of a task are the words that it uses: those inside locks are guarded by the lock that was taken last. Each store has a value of its own."""
import collections
import random

import tasks  # noqa: F401: it finds the folder of tools/reference
from reference import Unfit, assemble

Spec = collections.namedtuple("Spec", "regions phases")


def spec_of(line):
    """The regions' lengths, and for each phase the accesses by core."""
    regions, _, rest = line.partition("|")
    phases = []
    for phase in rest.split(";"):
        tasks = {}
        for task in filter(None, (task.strip() for task in phase.split("/"))):
            core, _, accesses = task.partition(":")
            tasks[int(core)] = accesses.split()
        phases.append(tasks)
    return Spec([int(length) for length in regions.split(",")], phases)


def line_of(spec):
    phases = [" / ".join("%d: %s" % (core, " ".join(accesses)) for core, accesses in sorted(phase.items())) for phase in spec.phases]
    return "%s | %s" % (",".join(map(str, spec.regions)), " ; ".join(phases))


def effects(accesses):
    """The words of a task's plain reads and writes, and of those under each lock."""
    found, held = collections.defaultdict(set), []
    for access in accesses:
        kind, about = access[0], int(access[1:] or 0)
        if kind == "l":
            held.append(about)
        elif kind == "u":
            held.remove(about)
        elif kind != "t":
            found[held[-1] if held else None, kind != "r"].add(about)
    return found


def declarations(spec, accesses):
    """The effects as lines; a word that is written needn't be declared as read."""
    lines, starts = [], [sum(spec.regions[:at]) for at in range(len(spec.regions))]
    found = effects(accesses)
    for (lock, is_store), words in sorted(found.items(), key=str):
        for word in sorted(words):
            if not is_store and word in found.get((lock, True), ()):
                continue
            region = max(at for at, start in enumerate(starts) if start <= word)
            name = ("" if lock is None else "k%d, " % lock) + "r%d, %d, %d" % (region, word - starts[region], word - starts[region] + 1)
            lines.append(".%s%s %s" % ("" if lock is None else "g", "writes" if is_store else "reads", name))
    return lines


def code(accesses, first):
    """The instructions of a task. t0 has the address of the data."""
    lines, value = [" lui t0, 0x10000"], first
    for access in accesses:
        kind, about = access[0], int(access[1:] or 0)
        if kind == "r":
            lines.append(" lw t1, %d(t0)" % (4 * about))
        elif kind in "wb":
            value += 1
            lines += [" addi s0, zero, %d" % (value + 256 * (value % 7 + 1)), " s%s s0, %d(t0)" % (kind, 4 * about)]
        elif kind in "lu":
            lines += [" addi a0, zero, %d" % about, " addi a7, zero, %d" % (1 if kind == "l" else 2), " ecall"]
        else:
            lines.append(" ebreak")
    return lines + [" addi a7, zero, 0", " ecall"]


def text_of(line):
    """The text in the source language."""
    spec = spec_of(line)
    locks = 1 + max((int(access[1:]) for phase in spec.phases for task in phase.values() for access in task if access[0] == "l"), default=-1)
    head = ["# " + line] + [".region r%d, %d" % (at, length) for at, length in enumerate(spec.regions)] + [".lock k%d" % lock for lock in range(locks)]
    body, tasks = [], 0
    for phase in spec.phases:
        head.append(".phase")
        for core, accesses in sorted(phase.items()):
            head.append(".task %d, t%d, 0" % (core, tasks))
            head += declarations(spec, accesses)
            body += ["t%d:" % tasks] + code(accesses, 10 * (tasks + 1))
            tasks += 1
    return "\n".join(head + body) + "\n"


def program_of(line):
    """The program, or None where the check of effects refuses it."""
    try:
        return assemble(text_of(line))
    except Unfit:
        return None


# ---------------------------------------------------------------- texts that are drawn

def drawn_task(draw, words, locks, most):
    """Accesses of a task; guarded words are those that the phase's `locks` names."""
    accesses = []
    for _ in range(draw.randint(1, most)):
        word = draw.randrange(words)
        kind = draw.choice("rrwwwb")
        if word in locks:
            inside = ["%s%d" % (draw.choice("rwwb"), draw.choice([other for other in locks if locks[other] == locks[word]])) for _ in range(draw.randint(1, 2))]
            accesses += ["l%d" % locks[word], *inside, "u%d" % locks[word]]
        else:
            accesses.append("%s%d" % (kind, word))
    return accesses


def drawn(seed, cores=2, most=3):
    """A small text of a seed that the check accepts: its line."""
    draw = random.Random(seed)
    while True:
        words = draw.randint(1, 3)
        regions = [1] * words if draw.random() < 0.6 else [words]
        phases = []
        for _ in range(draw.randint(1, 4)):
            guarded = {word: 0 for word in range(words) if draw.random() < 0.35}
            phases.append({core: drawn_task(draw, words, guarded, most) for core in range(cores) if draw.random() < 0.8})
        if not any(phases):
            continue
        line = line_of(Spec(regions, [phase or {0: []} for phase in phases]))
        if program_of(line) is not None:
            return line
