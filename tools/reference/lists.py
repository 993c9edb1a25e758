"""Lists of sharers: what the loads and stores of a run would have cost with a list of sharers at each word's home, by docs/SHARERS.md; and the
traffic of a run: its messages by their kinds, and their bytes."""

from .documents import read_document
from .machine import Machine
from .report import run_text
from .texts import assemble

MESSAGES = ["read-requests", "write-requests", "forwards", "replies", "invalidations", "acknowledgements", "put-backs", "put-shares",
            "put-acks"]
LIST_MEASURES = ["messages", "waits-read", "waits-write", "list-messages"] + ["list-" + kind for kind in MESSAGES] \
    + ["list-waits-read", "list-waits-write", "waits-here-alone", "waits-list-alone"]

# the rows of the table: the measure of this run and that of the lists; one without a partner stands on the right
TABLE = [("messages", "list-messages"), ("waits-read", "list-waits-read"), ("waits-write", "list-waits-write")] \
    + [(None, "list-" + kind) for kind in MESSAGES] + [(None, "waits-here-alone"), (None, "waits-list-alone")]

# the core that a message serves: where the message doesn't name it, it is the one that the message goes to
SERVED = {"read-req": 2, "read-fwd": 2, "data-reply": None, "reg-req": 2, "reg-fwd": 2, "reg-ack": None, "write-back": 3, "wb-ack": None}

# the kinds of messages in their order, and the core that one about a lock or of the barrier serves
TRAFFIC = ["read-req", "read-fwd", "data-reply", "reg-req", "reg-fwd", "reg-ack", "write-back", "wb-ack", "acquire", "release", "grant", "arrived", "go", "halt"]
TOLD = {"acquire": 2, "release": 2, "grant": None, "arrived": 1, "go": None, "halt": None}
# bytes of a message, of a word's value in it, and of a signature with its phase
MESSAGE, VALUE, SIGNATURE = 8, 4, 33
BYTES = {kind: MESSAGE + VALUE * (kind in ("data-reply", "write-back")) + SIGNATURE * (kind in ("release", "grant")) for kind in TRAFFIC}


class Lists:
    """A cache for each core. A set is a dict, the least recently used word first, with what the core has: shared or owned."""

    def __init__(self, cores, sets, ways):
        self.ways = ways
        self.caches = [[{} for _ in range(sets)] for _ in range(cores)]

    def set_of(self, core, word):
        sets = self.caches[core]
        return sets[word % len(sets)]

    def others(self, core, word):
        """The other cores that have the word, each with what it has."""
        return [(other, self.set_of(other, word)[word]) for other in range(len(self.caches))
                if other != core and word in self.set_of(other, word)]

    def access(self, core, word, is_store):
        """The messages of an access, each with the word that it is about; and whether the access waits."""
        mine, sent = self.set_of(core, word), []
        had = mine.get(word)
        if had == "owned" or had == "shared" and not is_store:
            mine[word] = mine.pop(word)
            return [], False
        if had is None and len(mine) == self.ways:
            gone = next(iter(mine))
            sent += [("put-backs" if mine.pop(gone) == "owned" else "put-shares", gone), ("put-acks", gone)]
        sent += [("write-requests" if is_store else "read-requests", word), ("replies", word)]
        for other, has in self.others(core, word):
            if is_store:
                sent += [("forwards", word)] if has == "owned" else [("invalidations", word), ("acknowledgements", word)]
                del self.set_of(other, word)[word]
            elif has == "owned":
                sent += [("forwards", word), ("put-backs", word)]
                self.set_of(other, word)[word] = "shared"
        mine.pop(word, None)
        mine[word] = "owned" if is_store else "shared"
        return sent, True

    def check(self):
        """At most one core has a word owned, and then no other has it; no set is over-full."""
        words = {}
        for core, sets in enumerate(self.caches):
            for places in sets:
                assert len(places) <= self.ways
                for word, has in places.items():
                    words.setdefault(word, []).append(has)
        assert all("owned" not in has or len(has) == 1 for has in words.values())


class Listed:
    """The numbers of a run beside those of the lists. A row is a measure, the phase and the core that it belongs to, and the word."""

    def __init__(self, machine):
        self.machine, self.rows = machine, []
        self.lists = Lists(machine.cores, machine.sets, machine.ways)

    def note(self, measure, core, word):
        self.rows.append((measure, self.machine.nodes[core].phase, core, word))

    def see(self, event):
        """Looks at an event that comes next."""
        if event[0] == "handle":
            to, message = next(mail for mail in self.machine.pool if mail[:2] == event[1:])[2:]
            at = (SERVED | TOLD)[message[0]]
            core, word = to[1] if at is None else message[at], message[1] if message[0] in SERVED else None
            if word is not None:
                self.note("messages", core, word)
            self.note(message[0], core, word)
        elif event[0] == "instr":
            node = self.machine.nodes[event[1]]
            kind = node.next[0]
            if kind in ("load", "store") and (node.entry(node.next[1]) is not None or kind == "store" and node.next[2]):
                self.access(node, node.next[1], kind == "store")

    def access(self, node, word, is_store):
        """An instruction that retires as a load or a store."""
        side = "write" if is_store else "read"
        if word not in self.lists.set_of(node.core, word):
            self.note("list-reply-values", node.core, word)
        sent, waits = self.lists.access(node.core, word, is_store)
        for kind, about in sent:
            self.note("list-messages", node.core, about)
            self.note("list-" + kind, node.core, about)
        waited = node.wait is not None and node.wait[0] == "filled"
        if waited:
            self.note("waits-" + side, node.core, word)
        if waits:
            self.note("list-waits-" + side, node.core, word)
        if waited and not waits:
            self.note("waits-here-alone", node.core, word)
        if waits and not waited:
            self.note("waits-list-alone", node.core, word)
        self.lists.check()

    def counted(self, by):
        """The names of the groups, and the count of each measure in each of them."""
        program = self.machine.program
        if by == "run":
            names, group = ["run"], lambda row: "run"
        elif by == "phase":
            names, group = range(len(program.phases)), lambda row: row[1]
        elif by == "core":
            names, group = range(self.machine.cores), lambda row: row[2]
        else:
            # regions are adjacent, in the order of their declarations
            names = list(program.regions)
            region = [name for name in names for _ in range(program.regions[name][1])]

            def group(row):
                return None if row[3] is None else region[row[3]]
        counts = {}
        for row in self.rows:
            counts[row[0], group(row)] = counts.get((row[0], group(row)), 0) + 1
        return names, counts

    def groups(self, by):
        """Each measure of each group, with its count: 0 is there too, but by region."""
        names, counts = self.counted(by)
        return [(measure, name, counts.get((measure, name), 0)) for measure in LIST_MEASURES for name in names
                if by != "region" or (measure, name) in counts]

    def traffic(self, by):
        """The rows of the traffic, each with its number in each group: of each kind of message how many and how many bytes, and the sums."""
        names, counts = self.counted(by)

        def number(measure, name):
            return counts.get((measure, name), 0)

        def total(name, kinds, size=BYTES.get):
            return sum(size(kind) * number(kind, name) for kind in kinds)
        rows = []
        for kind in TRAFFIC:
            rows += [(kind, [number(kind, name) for name in names]), (kind + "-bytes", [total(name, [kind]) for name in names])]
        rows += [("messages", [number("messages", name) for name in names]), ("bytes", [total(name, SERVED) for name in names])]
        rows += [(what + "-bytes", [total(name, kinds) for name in names]) for what, kinds in (("lock", TRAFFIC[8:11]), ("barrier", TRAFFIC[11:]))]
        rows.append(("list-messages", [number("list-messages", name) for name in names]))
        rows.append(("list-bytes", [MESSAGE * number("list-messages", name) + VALUE * (number("list-reply-values", name) + number("list-put-backs", name)) for name in names]))
        rows.append(("list-lock-bytes", [total(name, TRAFFIC[8:11], lambda kind: MESSAGE) for name in names]))
        return names, rows

    def table(self, by):
        """The table for readers: two columns for each group, this run's numbers and those of the lists."""
        names, counts = self.counted(by)
        rows = [["by " + by] + [cell for name in names for cell in (name, "lists")]]
        for here, there in TABLE:
            rows.append([here or there] + [counts.get((measure, name), 0) if measure else "" for name in names for measure in (here, there)])
        return [(row[0].ljust(22) + "".join(" " + str(cell).rjust(11) for cell in row[1:])) for row in rows]

    def agree(self):
        """That the sums agree that have to."""
        run = {measure: count for measure, _, count in self.groups("run")}
        assert run["list-messages"] == sum(run["list-" + kind] for kind in MESSAGES)
        assert run["list-invalidations"] == run["list-acknowledgements"]
        assert run["list-read-requests"] + run["list-write-requests"] == run["list-replies"]
        assert run["list-put-shares"] <= run["list-put-acks"] <= run["list-put-shares"] + run["list-put-backs"]
        assert run["waits-here-alone"] - run["waits-list-alone"] \
            == run["waits-read"] + run["waits-write"] - run["list-waits-read"] - run["list-waits-write"]
        assert run["messages"] == sum(count for kind, count in self.machine.counts.items() if kind in SERVED)
        for by in ("phase", "core", "region"):
            for measure in LIST_MEASURES:
                assert sum(count for other, _, count in self.groups(by) if other == measure) == run[measure]


def lists(data, by, form="csv"):
    """The exit code, and the run beside the lists: a line `measure,group,count` for each, or the run's report and a table."""
    return beside(data, lambda kept: kept.table(by), lambda kept: kept.groups(by), form)


def traffic(data, by, form="csv"):
    """The same of the run's traffic."""
    def table(kept):
        names, rows = kept.traffic(by)
        return [row[0].ljust(22) + "".join(" " + str(cell).rjust(11) for cell in row[1]) for row in [("by " + by, names), *rows]]

    def lines(kept):
        names, rows = kept.traffic(by)
        return [(row, name, number) for row, numbers in rows for name, number in zip(names, numbers) if by != "region" or number]
    return beside(data, table, lines, form)


def beside(data, table, lines, form):
    """The exit code, and what is made of the run beside lists: its table behind the run's report, or its lines."""
    told = read_document(data)
    if isinstance(told, str):
        return 2, ["refused trace " + told]
    sizes, text, events = told
    machine = Machine(assemble(text.decode("utf-8", "replace")), *sizes)
    kept = Listed(machine)
    for number, event in enumerate(events):
        if not machine.enabled(event):
            return 2, ["refused trace not-enabled %d" % number]
        kept.see(event)
        machine.step(event)
    if machine.pick(0)[0] is not None:
        return 2, ["refused trace incomplete"]
    kept.agree()
    if form == "text":
        return 0, run_text(machine) + table(kept)
    return 0, ["measure,group,count"] + ["%s,%s,%d" % row for row in lines(kept)]
