#!/usr/bin/env python3
"""A sketch: what if denovo kept its states by word, as it does, and moved lines? It is not the protocol of this repository, and nothing of it is
proved; baseline/study says what denovo itself costs.

    baseline/moved_lines.py [--check]

A reply brings each word of the line that the home, or the owner that answers, has and that the reader has room for. Stores of a line register
together: they wait in a buffer of four lines, which is emptied at a release, an acquire and the end, and where the core has nothing else to do.
Such a message has a bit for each word of the line, and the words; the bits of a line of 4 fit into the head of a message.

It prints messages, bytes and ticks of each text of the study, with 16 cores and lines of 1, 4 and 16 words, and their geometric means beside the
directory machine with the same lines (baseline/results/runs.csv). With --check it runs the litmus texts instead, each with two lines and two caches. Each run
has to agree with one memory."""
import csv
import math
import pathlib
import sys

HERE = pathlib.Path(__file__).resolve().parent
sys.dont_write_bytecode = True
sys.path[:0] = [str(HERE), str(HERE.parent / "tools")]
import texts  # noqa: E402: the folders above
from beside import DENOVO_SYNC_KINDS, DENOVO_WORD_KINDS, Denovo, denovo_bytes  # noqa: E402
from orders import in_time_order  # noqa: E402
from reference import Network, assemble, flat, ticks_by  # noqa: E402
from reference.parts import Bank, Node  # noqa: E402

LINES, BUFFERED, WAYS, LATENCY = (1, 4, 16), 4, 4, 20


class LineNode(Node):
    """A core. `gathered` has, by lines, the words whose registration isn't sent yet."""

    def begin(self, phase):
        self.gathered = {}
        super().begin(phase)

    def line(self, word):
        return word // self.machine.line

    def home(self, word):
        return "bank", self.line(word) % self.machine.banks

    def instr(self):
        sent, seen = super().instr()
        out = []
        for to, message in sent:
            out += self.gather(message[1]) if message[0] == "reg-req" else [(to, message)]
        return out + self.flushed(), seen

    def gather(self, word):
        """Puts a word into the buffer; its oldest line is sent where there is no room."""
        line, out = self.line(word), []
        if line not in self.gathered and len(self.gathered) == BUFFERED:
            out.append(self.registration(next(iter(self.gathered))))
        self.gathered.setdefault(line, []).append(word)
        return out

    def registration(self, line):
        words = self.gathered.pop(line)
        return self.home(words[0]), ("reg-req", tuple(words), self.core)

    def flushed(self):
        """The registrations that have to be sent now: all, where the core waits for them or has nothing else to do."""
        if self.gathered and (self.next is None or self.next[0] in ("release", "acquire", "end") or self.own() is None):
            return [self.registration(line) for line in list(self.gathered)]
        return []

    def receive(self, message):
        kind = message[0]
        if kind == "data-reply":
            out = super().receive(message[:3])
            self.take_near(message)
            return out
        if kind in ("reg-ack", "reg-fwd"):
            for word in message[1]:
                super().receive((kind, word) + message[2:])
            return (self.flushed() if kind == "reg-ack" else [(("core", message[2]), ("reg-ack", message[1]))]), None
        out, grant = super().receive(message)
        if kind == "read-fwd" and out[0][1][0] == "data-reply":
            to, reply = out[0]
            return [(to, reply + (self.near(message[1]),))], grant
        return out + self.flushed(), grant

    def near(self, word):
        """The words of a line that this core owns, but the one that was asked for."""
        first = self.line(word) * self.machine.line
        entries = {other: self.entry(other) for other in range(first, first + self.machine.line) if other != word}
        return [(other, entry[1]) for other, entry in entries.items() if entry and entry[0] == "R"]

    def take_near(self, message):
        """Takes the other words of the line where there is room; the one that was asked for stays the most recently used of its set."""
        for word, value in message[3]:
            if self.entry(word) is None and self.room(word):
                self.set(word, ("V", value, False))
        asked = self.of(message[1]).pop(message[1], None)
        if asked is not None:
            self.of(message[1])[message[1]] = asked


class LineBank(Bank):
    """A bank, with the homes of whole lines."""

    def __init__(self, machine, number):
        super().__init__(number, machine.banks, [], len(machine.program.locks))
        self.line = machine.line
        self.words = {word: ("home", value) for word, value in enumerate(machine.program.memory) if word // machine.line % machine.banks == number}

    def handle(self, message):
        if message[0] == "reg-req":
            return self.register(message)
        out = super().handle(message)
        if message[0] == "read-req" and out[0][1][0] == "data-reply":
            first = message[1] // self.line * self.line
            near = [(word, self.words[word][1]) for word in range(first, first + self.line) if word != message[1] and self.words.get(word, ("",))[0] == "home"]
            return [(out[0][0], out[0][1] + (near,))]
        return out

    def register(self, message):
        """Each word gets its owner; the owners before are told together, each of its words."""
        told = {}
        for word in message[1]:
            ((to, answer),) = super().handle(("reg-req", word, message[2]))
            told.setdefault((answer[0], to), []).append(word)
        return [(to, (kind, tuple(words)) + ((message[2],) if kind == "reg-fwd" else ())) for (kind, to), words in told.items()]


class MovedLines(Denovo):
    def __init__(self, program, banks, sets, line):
        self.line, self.word_bytes = line, 0
        super().__init__(program, banks, sets, WAYS)
        self.nodes, self.homes = [LineNode(self, core) for core in range(self.cores)], [LineBank(self, bank) for bank in range(banks)]
        self.owns = [node.own() for node in self.nodes]

    def word(self, word):
        for node in self.nodes:
            entry = node.entry(word)
            if entry and entry[0] == "R" and entry[2]:
                return entry[1]
        state, what = self.homes[word // self.line % self.banks].words[word]
        return what if state == "home" else self.nodes[what].entry(word)[1]

    def make(self, event, mail):
        if mail is not None and mail[3][0] in DENOVO_WORD_KINDS:
            kind, mask = mail[3][0], self.line // 8
            near = 4 * len(mail[3][3]) + mask if kind == "data-reply" else mask if kind.startswith("reg") else 0
            self.word_bytes += denovo_bytes(kind) + near
        return super().make(event, mail)


def run(text, line, banks, sets):
    """A run in time order, which agrees with one memory: its messages about words, all bytes, and ticks."""
    machine = MovedLines(assemble(text), banks, sets, line)
    ticks = in_time_order(machine, ticks_by(1, 10, 5), Network(machine.cores, banks, LATENCY))
    ending, loads, _ = flat(machine.program, machine.fuel, machine.grants)
    if machine.ending() != ending or machine.loads != {task: seen for task, seen in loads.items() if seen}:
        raise AssertionError("the run isn't that of one memory")
    sync = sum(machine.counts[kind] * denovo_bytes(kind) for kind in DENOVO_SYNC_KINDS)
    return {"messages": sum(machine.counts[kind] for kind in DENOVO_WORD_KINDS), "bytes": machine.word_bytes, "ticks": ticks, "sync bytes": sync}


def beside():
    """The runs of the study with 16 cores, by text and machine."""
    with open(HERE / "results/runs.csv", newline="") as file:
        return {(row["text"], row["machine"]): row for row in csv.DictReader(file) if (row["setup"], row["cores"]) == ("main", "16")}


def means(rows, runs, line):
    """The geometric means of messages, bytes without and with locks and barrier, and ticks, beside the directory with the same lines."""
    parts = []
    for name, of in (("messages", lambda row: int(row["messages"])), ("bytes without locks and barrier", lambda row: int(row["bytes"]) - int(row["sync bytes"])),
                     ("ticks", lambda row: int(row["ticks"]))):
        ratios = [of(dict(row, bytes=row["bytes"] + row["sync bytes"])) / of(runs[text, "mesi-%d" % line]) for text, row in rows.items()]
        parts.append("%s %.2f" % (name, math.exp(sum(map(math.log, ratios)) / len(ratios))))
    return ", ".join(parts)


def main():
    if sys.argv[1:] == ["--check"]:
        litmus = sorted((HERE.parent / "examples/litmus").glob("*.s"))
        count = sum(bool(run(path.read_text(), line, 4, sets)) for path in litmus for line in LINES[1:] for sets in (64, 2))
        print("%d litmus runs agree" % count)
        return 0
    if sys.argv[1:]:
        print(__doc__, file=sys.stderr)
        return 1
    runs, rows = beside(), {line: {} for line in LINES}
    for name in texts.NAMES:
        for line in LINES:
            rows[line][name] = run(texts.make(name, 16), line, 16, 256)
        print("%-17s" % name, " | ".join("%d: %d/%d/%d" % (line, rows[line][name]["messages"], rows[line][name]["bytes"] + rows[line][name]["sync bytes"],
                                                           rows[line][name]["ticks"]) for line in LINES), flush=True)
    for line in LINES:
        print("of the directory with lines of %d: %s" % (line, means(rows[line], runs, line)))
    return 0


if __name__ == "__main__":
    sys.exit(main())
