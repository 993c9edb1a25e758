"""The state before an event, in the lines of docs/VIEWS.md, and why an event may not come."""

from .documents import read_document
from .isa import instruction_text
from .machine import Machine
from .signatures import may_hold
from .texts import assemble, code_lines


class StateText:
    """The lines that show a state: see docs/VIEWS.md."""

    def __init__(self, text, machine):
        self.machine, self.program, self.lines = machine, machine.program, code_lines(text)

    def region_word(self, word):
        for name, (start, length) in self.program.regions.items():
            if start <= word < start + length:
                return "%s[%d]" % (name, word - start)
        return "word %d" % word

    def word(self, word):
        name = self.region_word(word)
        return name if name.startswith("word ") else "%s (word %d)" % (name, word)

    def lock(self, lock):
        return "%s (lock %d)" % (self.program.locks[lock], lock)

    @staticmethod
    def mail(sender, number):
        return "k %d" % number if sender == "keeper" else "%s %d %d" % (sender[0][0], sender[1], number)

    def event(self, event):
        if event[0] == "handle":
            return "h " + self.mail(*event[1:])
        shown = " ".join([event[0][0]] + [str(part) for part in event[1:]])
        return shown + " (%s)" % self.region_word(event[2]) if event[0] == "evict" else shown

    # why an event may not come

    def reason(self, event):
        """The first reason, in the order of the tables; None where the event may come."""
        if event[0] == "handle":
            return None if self.machine.enabled(event) else "mail %s isn't in flight" % self.mail(*event[1:])
        why = self.core_reason(event)
        return why and "core %d %s" % (event[1], why)

    def core_reason(self, event):
        if event[1] >= self.machine.cores:
            return "isn't there"
        node, kind = self.machine.nodes[event[1]], event[0]
        if node.is_halted:
            return "is halted"
        if node.has_arrived:
            return "has arrived"
        runs = node.task is not None and node.task.end is None
        if kind == "arrive":
            return "has a task that goes on" if runs else "has pending entries" if node.pending else None
        if not runs:
            return "has no task" if node.task is None else "has a task that has ended"
        if node.wait and node.wait[0] in ("reading", "locking"):
            return "waits for " + (self.word if node.wait[0] == "reading" else self.lock)(node.wait[1])
        if kind == "instr":
            return self.instr_reason(node)
        if node.wait:
            return "has the value of %s, and its instruction comes first" % self.word(node.wait[1])
        return self.evict_reason(node, event[2])

    def instr_reason(self, node):
        if node.next[0] == "release" and node.pending:
            return "has pending entries"
        if node.next[0] not in ("load", "store"):
            return None
        word = node.next[1]
        entry = node.entry(word)
        if entry is None:
            return None if node.room(word) else "has no room for " + self.word(word)
        return "has %s leaving" % self.word(word) if entry[0] == "L" else None

    def evict_reason(self, node, word):
        wanted = node.next[1] if node.next[0] in ("load", "store") else None
        if wanted is None or node.entry(wanted) is not None or node.room(wanted):
            return "needs no room"
        if word % self.machine.sets != wanted % self.machine.sets:
            return "needs room for %s, which is of another set than %s" % (self.word(wanted), self.word(word))
        entry = node.entry(word)
        if entry is None:
            return "has no entry of " + self.word(word)
        if entry[0] == "R" and entry[2]:
            return "has %s pending" % self.word(word)
        return "has %s leaving" % self.word(word) if entry[0] == "L" else None

    # the parts of the state

    def keeper(self):
        keeper = self.machine.keeper
        yield "keeper phase %d of %d" % (keeper.phase, keeper.phases)
        for core in sorted(keeper.there):
            yield "keeper counts core %d" % core
        if keeper.bad:
            yield "keeper counts a bad task"

    def task(self, task):
        yield "task goes on" if task.end is None else "task " + task.end
        at = (task.pc - 0x1000) // 4
        if task.pc % 4 or not 0 <= at < len(self.lines):
            yield "at 0x%08x, no code" % task.pc
        else:
            line, part = self.lines[at]
            yield "at 0x%08x, line %d%s: %s" % (task.pc, line, " (second word)" if part else "",
                                                instruction_text(self.program.code[at]))
        yield "retired %d" % task.retired

    def core(self, node):
        yield "phase %d" % node.phase
        if node.task is None:
            yield "no task"
        else:
            yield from self.task(node.task)
        if node.wait:
            kind, what = node.wait
            yield "%s %s" % ("has the value of" if kind == "filled" else "waits for", (self.lock if kind == "locking" else self.word)(what))
        if node.task is not None:
            for lock in sorted(node.task.held):
                yield "holds " + self.lock(lock)
        if node.has_arrived:
            yield "has arrived"
        if node.is_halted:
            yield "is halted"
        for places in node.cache:
            for word, (state, value, flag) in places.items():
                shown = {"V": "valid", "R": "registered", "L": "leaving"}[state]
                mark = {"V": ", marked", "R": ", pending"}[state] if flag else ""
                yield "entry %s: %s 0x%08x%s" % (self.word(word), shown, value, mark)

    def homes(self):
        for word, first in enumerate(self.program.memory):
            state, what = self.machine.homes[word % self.machine.banks].words[word]
            if state == "reg":
                yield "home %s: registrant core %d" % (self.word(word), what)
            elif what != first:
                yield "home %s: value 0x%08x" % (self.word(word), what)

    def signed(self, lock, signature):
        """The words that the lock guards in the keeper's phase and that the signature may hold in it."""
        phase = self.machine.keeper.phase
        if phase < len(self.machine.plans):
            for word in sorted(self.machine.plans[phase][1][lock]):
                if may_hold(signature, word, phase):
                    yield "may hold " + self.word(word)

    def locks(self):
        for lock in range(len(self.program.locks)):
            holder, queue, signature = self.machine.homes[lock % self.machine.banks].locks[lock]
            shown = ["free" if holder is None else "holder core %d" % holder] + ["queue core %d" % core for core in queue]
            for fact in shown + list(self.signed(lock, signature)):
                yield "lock %s: %s" % (self.lock(lock), fact)

    def message(self, message):
        kind, *parts = message
        name = {"acquire": self.lock, "release": self.lock, "grant": self.lock}.get(kind, self.word)
        if kind == "arrived":
            return "arrived core %d%s" % (parts[0], " bad" if parts[1] else "")
        if kind == "go":
            return "go phase %d" % parts[0]
        if kind == "halt":
            return "halt"
        shown = kind + " " + name(parts[0])
        if kind in ("data-reply", "write-back"):
            shown += " value 0x%08x" % parts[1]
        if kind in ("read-req", "read-fwd", "reg-req", "reg-fwd", "acquire", "release"):
            shown += " core %d" % parts[1]
        return shown + " core %d" % parts[2] if kind == "write-back" else shown

    def mails(self):
        for sender, number, to, message in self.machine.pool:
            receiver = to if to == "keeper" else "%s %d" % to
            yield "mail %s to %s: %s" % (self.mail(sender, number), receiver, self.message(message))
            if message[0] in ("release", "grant"):
                for fact in self.signed(message[1], message[-1]):
                    yield "mail %s: %s" % (self.mail(sender, number), fact)

    def coming(self):
        for node in self.machine.nodes:
            own = [("instr", node.core)] + [("evict", node.core, word) for places in node.cache for word in places]
            yield from (event for event in own + [("arrive", node.core)] if self.machine.enabled(event))
        for sender, number, _, _ in self.machine.pool:
            yield "handle", sender, number

    def whole(self):
        yield from self.keeper()
        for node in self.machine.nodes:
            for fact in self.core(node):
                yield "core %d %s" % (node.core, fact)
        yield from self.homes()
        yield from self.locks()
        yield from self.mails()
        for event in self.coming():
            yield "may come: " + self.event(event)


def state(data, wanted):
    """The exit code and the lines that show the state before the wanted event of a document, or before an earlier one that may not
    come."""
    told = read_document(data)
    if isinstance(told, str):
        return 2, ["refused trace " + told]
    sizes, text, events = told
    if wanted > len(events):
        return 1, ["refused usage"]
    text = text.decode("utf-8", "replace")
    machine = Machine(assemble(text), *sizes)
    at = 0
    while at < wanted and machine.enabled(events[at]):
        machine.step(events[at])
        at += 1
    shown = StateText(text, machine)
    out = [] if at == wanted else ["event %d isn't reached: event %d may not come" % (wanted, at)]
    if at == len(events):
        out.append("event %d of %d: the document ends" % (at, len(events)))
    else:
        why = shown.reason(events[at])
        assert (why is None) == machine.enabled(events[at])
        out += ["event %d of %d: %s" % (at, len(events), shown.event(events[at])), "may not come: " + why if why else "may come"]
    return 0 if at == wanted else 3, out + list(shown.whole())
