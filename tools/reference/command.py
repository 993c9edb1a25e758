"""The command: which words ask for what, and its exit codes."""

import json
import sys

from .accounts import account
from .answers import answer, opened, options, run
from .cases import run_cases
from .chart import Chart
from .claims import VERDICTS, batch, claim
from .lists import lists, traffic
from .machine import LEFT_OUT, Machine
from .marks import marks
from .outcomes import against, outcomes_text
from .pages import page, run_data, states
from .readers import readers_answer
from .report import STATUS, agree_with_flat, outcome, run_text
from .scripts import event_line, play
from .signatures import Size
from .small_examples import rows
from .state_text import state
from .sweep import sweep
from .texts import Unfit, assemble
from .ticks import ticks_by
from .work import work_text

# What may go wrong with what the program is given, and isn't a mistake of its own.
UNFIT = (Unfit, OSError, ValueError, IndexError, KeyError)


def main(page_of_help):
    words = sys.argv[1:]
    if words[:1] in (["--help"], ["-h"]):
        print(page_of_help, end="")
        return 0
    try:
        return command(words)
    except UNFIT as why:
        if isinstance(why, OSError) and why.filename is None:
            raise  # standard output failed
        print("tools/reference.py can't take this: %s: %s" % (type(why).__name__, why), file=sys.stderr)
        print("It refuses no text properly: ./denovo --mode check says what is wrong with one. --help says what it can do.", file=sys.stderr)
        return 9


def leave_out(words):
    """Has all machines leave out the rule that the words name, says so, and gives the other words."""
    at = words.index("--without")
    rule = words[at + 1]
    print("tools/reference.py: this isn't the protocol: %s" % LEFT_OUT[rule], file=sys.stderr, flush=True)
    Machine.left_out = rule
    return words[:at] + words[at + 2:]


def network_words(words):
    """The words without those of a page's network, its latency, and its net."""
    if words[:1] not in (["page"], ["data"]):
        return words, 0, "uniform"
    o = {"latency": "0", "net": "uniform"}
    o.update(word.lstrip("-").split("=") for word in words if word.startswith("--"))
    return [word for word in words if not word.startswith("--")], int(o["latency"]), o["net"]


def size_signatures(words):
    """Gives all signatures the bits and hashes that the words name, says so, and gives the other words."""
    at = words.index("--signature")
    bits, hashes = (int(number) for number in words[at + 1].split(","))
    if not 1 <= bits <= 65536 or bits & (bits - 1) or hashes not in (1, 2):
        raise ValueError("--signature BITS,HASHES: a power of two up to 65536, and 1 or 2")
    if (bits, hashes) != (Size.bits, Size.hashes):
        print("tools/reference.py: this isn't the protocol: signatures have %d bits, with hashes %d" % (bits, hashes), file=sys.stderr, flush=True)
    Size.bits, Size.hashes = bits, hashes
    return words[:at] + words[at + 2:]


def command(words):
    """Does what the words ask for, and gives the exit code."""
    if "--without" in words:
        words = leave_out(words)
    if "--signature" in words:
        words = size_signatures(words)
    if words[:1] == ["rows"]:
        return 0 if rows() else 1
    if words[:1] == ["cases"]:
        return 0 if run_cases(*words[1:3]) else 1
    if words[:1] == ["text"]:
        print(work_text(int(words[1])), end="")
        return 0
    if words[0:1] and words[0] in VERDICTS:
        status, out = (batch(sys.stdin.buffer.read(), words[0]) if words[1:] == ["batch"] else VERDICTS[words[0]](sys.stdin.buffer.read()))
        print("".join(line + "\n" for line in out), end="")
        return status
    if words[:1] == ["claim"]:
        sys.stdout.buffer.write(claim(words[1:], sys.stdin.buffer.read()))
        return 0
    if words[:1] == ["sweep"]:
        status, out = sweep(words[1:], sys.stdin.read())
        print("".join(line + "\n" for line in out), end="")
        return status
    if words[:1] in (["outcomes"], ["orders"]):
        fuel = int(dict(zip(words[1::2], words[2::2])).get("--fuel", "32768"))
        program = assemble(sys.stdin.read())
        if words[0] == "outcomes":
            status, out = outcomes_text(program, fuel)
        else:
            differ = against(program, fuel, int(dict(zip(words[1::2], words[2::2])).get("--count", "20")))
            status, out = (0, ["open"]) if differ is None else (1 if differ else 0, differ or ["settled"])
        print("".join(line + "\n" for line in out), end="")
        return status
    if words[:1] == ["events"]:
        o = options(words[1:])
        run(opened(assemble(sys.stdin.read()), o), o, lambda event: print(event_line(event)))
        return 0
    if words[:1] == ["chart"]:
        o = {"first": 0, "rows": 1000, "tick-core": 1, "tick-bank": 10, "tick-mail": 5, "columns": "all",
             "plain": "on", "words": "", "actors": "", "fit": "rows", "latency": 0, "net": "uniform"}
        o.update(word.lstrip("-").split("=") for word in words[1:])
        ticks = tuple(int(o["tick-" + kind]) for kind in ("core", "bank", "mail"))
        chart = Chart(sys.stdin.buffer.read(), int(o["first"]), int(o["rows"]), ticks, o["columns"] == "used", o["plain"], o["words"],
                      o["actors"], o["fit"] == "slide", int(o["latency"]), o["net"])
        print(chart.text(), end="")
        return 0
    if words[:1] in (["account"], ["lists"], ["traffic"]):
        by, form = words[1:3] + ["run", "csv"][len(words[1:3]):]
        status, out = {"account": account, "lists": lists, "traffic": traffic}[words[0]](sys.stdin.buffer.read(), by, form)
        print("".join(line + "\n" for line in out), end="")
        return status
    if words[:1] == ["readers"]:
        status, out = readers_answer(sys.stdin.buffer.read(), int((words[1:2] + ["10"])[0]))
        print("".join(line + "\n" for line in out), end="")
        return status
    if words[:1] == ["state"]:
        status, out = state(sys.stdin.buffer.read(), int((words[1:2] + ["0"])[0]))
        print("".join(line + "\n" for line in out), end="")
        return status
    words, latency, net = network_words(words)
    if words[:1] in (["page"], ["states"], ["marks"]):
        first, most = (int(word) for word in words[1:3] + ["0", "4096"][len(words[1:3]):])
        data = sys.stdin.buffer.read()
        if words[0] == "marks":
            print(json.dumps(marks(data, first, most)))
            return 0
        if words[0] == "states":
            print("".join("\n".join(lines) + "\n\n" for lines in states(data, first, most)), end="")
            return 0
        status, out = page(data, "".join(words[3:4]), first, most, ticks_by(1, 10, 5), latency, net)
        print(out, end="")
        return status
    if words[:1] == ["data"]:
        first = int("".join(words[1:2]) or "0")
        status, out = run_data(sys.stdin.buffer.read(), "", first, int(words[2]) if len(words) > 2 else None, ticks_by(1, 10, 5), latency,
                               net)
        print(out, end="")
        return status
    if words[:1] == ["script"]:
        with open(words[1]) as file:
            lines = [line.strip() for line in file if line.strip() and line[0] != "#"]
        machine = opened(assemble(sys.stdin.read()), options(words[2:]))
        play(machine, lines)
        agree_with_flat(machine)
        status, out = STATUS[outcome(machine.ending()[0])], run_text(machine)
    else:
        status, out = answer(words, sys.stdin.read())
    print("".join(line + "\n" for line in out), end="")
    return status
