"""The account of a run: what it cost and why, by docs/ACCOUNT.md."""

from .documents import read_document
from .machine import Machine
from .report import run_text
from .signatures import may_hold
from .texts import assemble

MEASURES = ["loads", "stores", "loads-local", "stores-silent", "registers", "misses", "misses-first", "misses-phase", "misses-lock",
            "misses-evicted", "misses-taken", "dropped-phase", "dropped-lock", "dropped-phase-current", "dropped-lock-current",
            "kept-touched", "kept-signature", "untold-copies", "taken", "replies-home", "replies-core", "bounces", "evicted-copies",
            "evicted-registered", "grants-at-once", "grants-queued"]


class Account:
    """What a run cost, and why: each event is looked at with the state before it. A row is a measure, the phase and the core that it
    belongs to, and the word, if it has one."""

    def __init__(self, machine):
        self.machine, self.rows = machine, []
        # why a core's last entry of a word went, and at which event the mail of a grant was sent
        self.gone, self.sent_at = {}, {}

    def note(self, measure, node, word=None, times=1):
        self.rows += [(measure, node.phase, node.core, word)] * times

    def went(self, node, word, why):
        self.gone[node.core, word] = why

    def see(self, event):
        """Looks at an event that comes next."""
        if event[0] == "handle":
            sender, _, to, message = next(mail for mail in self.machine.pool if mail[:2] == event[1:])
            if to != "keeper" and to[0] == "core":
                self.message(self.machine.nodes[to[1]], sender, event[1:], message)
            elif message[0] in ("acquire", "release"):
                number = self.machine.numbers.get(to, 0)
                self.sent_at[to, number] = "grants-at-once" if message[0] == "acquire" else "grants-queued"
            return
        node = self.machine.nodes[event[1]]
        if event[0] == "instr" and node.next[0] in ("load", "store"):
            self.access(node, node.next[0], node.next[1], node.next[0] == "load" or not node.next[2])
        elif event[0] == "evict":
            state = node.entry(event[2])[0]
            self.note("evicted-copies" if state == "V" else "evicted-registered", node, event[2])
            if state == "V":
                self.went(node, event[2], "misses-evicted")

    def access(self, node, kind, word, needs_value):
        entry = node.entry(word)
        if entry is None and needs_value:
            self.note("misses", node, word)
            self.note(self.gone.get((node.core, word), "misses-first"), node, word)
            return
        self.note(kind + "s", node, word)
        if kind == "load" and node.wait is None:
            self.note("loads-local", node, word)
        if kind == "store" and entry is not None and entry[0] == "R":
            self.note("stores-silent", node, word)
        elif kind == "store":
            self.note("registers", node, word)
            others = sum(1 for other in self.machine.nodes if other is not node and (other.entry(word) or " ")[0] == "V")
            self.note("untold-copies", node, word, others)

    def copies(self, node):
        return [(word, entry) for places in node.cache for word, entry in places.items() if entry[0] == "V"]

    def dropped(self, node, why, goes):
        for word, entry in self.copies(node):
            if goes(word, entry):
                self.note("dropped-" + why, node, word)
                if entry[1] == self.machine.word(word):
                    self.note("dropped-%s-current" % why, node, word)
                self.went(node, word, "misses-" + why)

    def message(self, node, sender, mail, message):
        kind = message[0]
        if kind == "go" and node.has_arrived and not node.is_halted:
            written = self.machine.plans[node.phase][0]
            for word, entry in self.copies(node):
                if word in written and entry[2]:
                    self.note("kept-touched", node, word)
            self.dropped(node, "phase", lambda word, entry: word in written and not entry[2])
        elif kind == "grant" and node.wait == ("locking", message[1]):
            self.note(self.sent_at[mail], node)
            guarded = self.machine.plans[node.phase][1][message[1]]
            for word, _ in self.copies(node):
                if word in guarded and not may_hold(message[2], word, node.phase):
                    self.note("kept-signature", node, word)
            self.dropped(node, "lock", lambda word, _: word in guarded and may_hold(message[2], word, node.phase))
        elif kind == "data-reply":
            self.note("replies-core" if sender[0] == "core" else "replies-home", node, message[1])
        elif kind == "reg-fwd":
            entry = node.entry(message[1])
            if entry and entry[0] == "R" and not entry[2]:
                self.note("taken", node, message[1])
                self.went(node, message[1], "misses-taken")
        elif kind == "read-fwd" and (node.entry(message[1]) or " ")[0] not in "RL":
            self.note("bounces", node, message[1])
        elif kind == "wb-ack" and (node.entry(message[1]) or " ")[0] == "L":
            self.went(node, message[1], "misses-evicted")

    def counted(self, by):
        """The names of the groups, and how often each measure is counted in each."""
        regions = self.machine.program.regions
        if by == "region":
            def group(row):
                return next((name for name, (start, length) in regions.items()
                             if row[3] is not None and start <= row[3] < start + length), None)
            names = list(regions)
        else:
            def group(row):
                return {"run": "run", "phase": row[1], "core": row[2]}[by]
            names = {"run": ["run"], "phase": range(len(self.machine.program.phases)), "core": range(self.machine.cores)}[by]
        counts = {}
        for row in self.rows:
            counts[row[0], group(row)] = counts.get((row[0], group(row)), 0) + 1
        return names, counts

    def groups(self, by):
        """Each measure of each group, with its count: 0 is there too, but by region."""
        names, counts = self.counted(by)
        return [(measure, name, counts.get((measure, name), 0)) for measure in MEASURES for name in names
                if by != "region" or (measure, name) in counts]

    def table(self, by):
        """The table for readers: a row for each measure below the names of the groups, a column for each group."""
        names, counts = self.counted(by)
        rows = [["by " + by] + list(names)] + [[measure] + [counts.get((measure, name), 0) for name in names] for measure in MEASURES]
        return [row[0].ljust(22) + "".join(" " + str(cell).rjust(11) for cell in row[1:]) for row in rows]

    def agree(self):
        """That the sums agree that have to."""
        run = {measure: count for measure, _, count in self.groups("run")}
        assert run["misses"] == sum(run["misses-" + why] for why in ("first", "phase", "lock", "evicted", "taken"))
        assert run["loads-local"] <= run["loads"] and run["stores"] == run["stores-silent"] + run["registers"]
        counts = self.machine.counts
        assert run["grants-at-once"] + run["grants-queued"] == counts["grant"]
        assert run["replies-home"] + run["replies-core"] == counts["data-reply"]
        assert run["evicted-copies"] + run["evicted-registered"] == counts["evict"]
        for by in ("phase", "core", "region"):
            for measure in MEASURES:
                if by != "region" or not measure.startswith("grants"):
                    assert sum(count for other, _, count in self.groups(by) if other == measure) == run[measure]


def account(data, by, form="csv"):
    """The exit code and the account of a document's run: a line `measure,group,count` for each, or the run's report and a table."""
    told = read_document(data)
    if isinstance(told, str):
        return 2, ["refused trace " + told]
    sizes, text, events = told
    machine = Machine(assemble(text.decode("utf-8", "replace")), *sizes)
    kept = Account(machine)
    for number, event in enumerate(events):
        if not machine.enabled(event):
            return 2, ["refused trace not-enabled %d" % number]
        kept.see(event)
        machine.step(event)
    if machine.pick(0)[0] is not None:
        return 2, ["refused trace incomplete"]
    kept.agree()
    if form == "text":
        return 0, run_text(machine) + kept.table(by)
    return 0, ["measure,group,count"] + ["%s,%s,%d" % row for row in kept.groups(by)]
