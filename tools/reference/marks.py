"""What the page of a run has to mark, to say and to count, and where its buttons lead: tools/check_page.py compares.

It marks stale copies, says when they go and what a list of sharers would have done, and counts messages, misses and grants."""

from .documents import read_document
from .kinds import KINDS
from .lists import SERVED, Lists
from .machine import Machine
from .pages import event_row
from .texts import assemble


def listed(parts):
    return "".join(parts) if len(parts) < 2 else ", ".join(parts[:-1]) + " and " + parts[-1]


def plural(count, name):
    return "%d %s%s" % (count, name, "" if count == 1 else "s")


def upper(text):
    return text[0].upper() + text[1:]


def copies(machine):
    """The copies of all cores, with their values, by core and word."""
    return {(node.core, word): entry[1] for node in machine.nodes for places in node.cache for word, entry in places.items() if entry[0] == "V"}


def stale_copies(machine, values):
    """The copies whose value isn't the word's."""
    return {key: value for key, value in copies(machine).items() if value != values[key[1]]}


WORD_MAILS = [KINDS.index(kind) for kind in ("read-req", "read-fwd", "data-reply", "reg-req", "reg-fwd", "reg-ack", "write-back", "wb-ack")]


def sent_of(row):
    return row[4] if len(row) > 4 else []


def is_plain(row):
    """An instruction that uses no word and sends nothing."""
    return row[0] == KINDS.index("instr") and not sent_of(row) and all(change[0] in ("x", "w") for change in row[3])


def words_of(row, mail):
    """The words that an event has to do with: its mail's, those that it changes, loads or stores, and those of what it sends."""
    words = [change[1] for change in row[3] if change[0] in ("I", "V", "T", "P", "R", "L", "H", "G", "ld", "st")]
    words += [sent[2] for sent in sent_of(row) if sent[1] in WORD_MAILS]
    return set(words + ([mail[3][1]] if mail is not None and row[0] in WORD_MAILS else []))


class Marks:
    """Follows a run: the value of each word, which is what the last store left, and lists of sharers beside the machine's caches."""

    def __init__(self, program, sizes):
        self.machine, self.program = Machine(program, *sizes), program
        self.values = list(program.memory)
        self.lists = Lists(self.machine.cores, self.machine.sets, self.machine.ways)
        # by the number of the event of a store, its stale copies: core, value; and what each of the copies ended with
        self.stale, self.ends, self.texts, self.at = {}, [], {}, 0
        # how many messages, misses and grants there were, and with lists messages and invalidations, by the event at which their access
        # begins; each event's row and its words
        self.counts, self.rows, self.words = [], [], []
        # by message the access that it belongs to, as a list of one event; those of evictions that wait for their core's access; and where
        # each core asked last
        self.access, self.evicting, self.asked = {}, {}, {}

    def name(self, word):
        region, (first, _) = next((name, place) for name, place in self.program.regions.items() if place[0] <= word < sum(place))
        return "%s[%d]" % (region, word - first)

    def step(self, event):
        """Makes an event, and takes down what it says of stale copies and of lists."""
        waits = [node.wait is not None and node.wait[0] == "filled" for node in self.machine.nodes]
        was = copies(self.machine)
        mail = next((mail for mail in self.machine.pool if mail[:2] == event[1:]), None) if event[0] == "handle" else None
        flying = {mail[:2] for mail in self.machine.pool}
        row = event_row(self.machine, event)
        self.rows.append(row)
        self.words.append(words_of(row, mail))
        self.count(event, row, [mail[:2] for mail in self.machine.pool if mail[:2] not in flying and mail[3][0] in SERVED])
        now = copies(self.machine)
        self.ends += [(self.at, key) for key in was if key not in now]
        for tag, word, value in [change[:3] for change in row[3] if change[0] in ("ld", "st")]:
            if tag == "st":
                self.values[word] = value
                stale = [(core, value) for (core, other), value in sorted(stale_copies(self.machine, self.values).items()) if other == word]
                if stale:
                    self.stale[self.at] = word, stale
            self.texts[self.at] = self.lists_text(row[1], word, tag == "st", waits[row[1]])
        self.at += 1

    def count(self, event, row, sent):
        """Counts what an event begins. Its messages belong to the access of the message that it handles, or to its own; an eviction's to its
        core's next load or store."""
        is_instr = row[0] == KINDS.index("instr")
        asks = is_instr and any(other[1] == KINDS.index("read-req") for other in sent_of(row))
        self.counts.append([0, int(asks), int(row[0] == KINDS.index("grant")), 0, 0])
        if is_instr and (asks or any(change[0] in ("ld", "st") for change in row[3])):
            for access in self.evicting.pop(row[1], []):
                access[0] = self.at
        if asks:
            self.asked[row[1]] = self.at
        access = self.access[event[1:]] if event[1:] in self.access and row[0] in WORD_MAILS else [self.at]
        if row[0] == KINDS.index("evict"):
            self.evicting.setdefault(row[1], []).append(access)
        for mail in sent:
            self.access[mail] = access

    def counted(self, first, end):
        """For each state of a page from one event to another the counts since its phase began, and since the page's first event."""
        counts, start, sums, made = [list(count) for count in self.counts[:end]], first, [[0] * 5], []
        for at, in self.access.values():
            counts[at][0] += 1
        for count in counts:
            sums.append([before + more for before, more in zip(sums[-1], count)])
        for now in range(first, end + 1):
            if now > first and self.rows[now - 1][0] == KINDS.index("arrived") and sent_of(self.rows[now - 1]):
                start = now
            made.append([[all_of - before for all_of, before in zip(sums[now], sums[since])] for since in (start, first)])
        return made

    def lists_text(self, core, word, is_store, waited):
        """What an access would do with lists, by the messages that it sends there."""
        before = self.lists.others(core, word)
        sent, waits = self.lists.access(core, word, is_store)
        kinds = [kind for kind, _ in sent]
        begun = self.counts[self.asked[core] if waited else self.at]
        begun[3] += len(sent)
        begun[4] += kinds.count("invalidations")
        if not waits:
            if waited:
                return "With a list: no message and no wait. The core would still have the word, and here it had to ask again."
            return "With a list: no message. The core owns the word there." if is_store else ""
        parts = []
        for kind, about in sent:
            if about != word and kind != "put-acks":
                parts += ["a %s of %s to make room" % (kind[:-1], self.name(about)), "a put-ack"]
        parts += ["a write request" if "write-requests" in kinds else "a read request", "a reply"]
        if "forwards" in kinds:
            parts.append("a forward (to core %d)" % next(other for other, has in before if has == "owned"))
            parts += [] if is_store else ["a put-back"]
        if "invalidations" in kinds:
            parts.append("%s (to %s)" % (plural(kinds.count("invalidations"), "invalidation"), listed(["core %d" % other for other, _ in before])))
            parts.append(plural(kinds.count("acknowledgements"), "acknowledgement"))
        return "With a list: %s: %s. The %s waits%s" % (
            ", ".join(parts), plural(len(sent), "message"), "store" if is_store else "load", ", as it did here." if waited else " there.")

    def stale_text(self, at, end, is_whole):
        """The stale copies behind a store, and when each goes, if that is before the event `end`."""
        word, stale = self.stale[at]
        ends = []
        for core, _ in stale:
            gone = next((event for event, key in self.ends if event > at and key == (core, word)), end)
            ends.append("goes at event %d" % gone if gone < end else "stays to the end of " + ("the run" if is_whole else "this page"))
        if len(stale) == 1:
            return "Core %d holds a stale copy (%d) now, and nobody has told it. The copy %s." % (stale[0] + (ends[0],))
        return "%s hold stale copies now, and nobody has told them. %s." % (
            upper(listed(["core %d (%d)" % copy for copy in stale])),
            upper(listed(["core %d’s %s" % (core, how) for (core, _), how in zip(stale, ends)])))


def marks(data, first, most):
    """For each state of a page its stale copies, as pairs of a core and a word, and the counts since its phase began and since the page's
    first event; for each event what it says of copies and of lists; and the events to which the page's buttons lead."""
    sizes, text, events = read_document(data)
    kept, end = Marks(assemble(text.decode("utf-8", "replace")), sizes), min(len(events), first + most)
    states = []

    def note():
        states.append([list(key) for key in sorted(stale_copies(kept.machine, kept.values))])
    for event in events[:end]:
        note()
        kept.step(event)
    note()
    said = [{"stale": kept.stale_text(at, end, end == len(events)) if at in kept.stale else "",
             "lists": kept.texts.get(at, "") if first == 0 else ""} for at in range(first, end)]
    counts = [[one if first == 0 else one[:3] for one in both] for both in kept.counted(first, end)]
    rows = [(at, kept.rows[at]) for at in range(first, end)]
    words = {kept.name(word): [at for at, _ in rows if word in kept.words[at]] for word in sorted(set().union(*kept.words[first:end]))[:6]}
    return {"states": states[first:], "counts": counts, "said": said, "words": words,
            "plain": [at for at, row in rows if is_plain(row)],
            "messages": [at for at, row in rows if row[2] != -1 or sent_of(row)],
            "phases": [at for at, row in rows if row[0] == KINDS.index("arrived") and sent_of(row)],
            "grants": [at for at, row in rows if row[0] == KINDS.index("grant")]}
