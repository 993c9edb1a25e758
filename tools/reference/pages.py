"""The data of the page of a run, and the states that the page has to show, one fact a line."""

from .documents import read_document
from .isa import instruction_text
from .kinds import KINDS
from .machine import Machine
from .report import outcome
from .signatures import Size
from .texts import assemble, code_lines
from .ticks import longest
from .time_order import Network


def string(data):
    """Bytes as a JSON string in ASCII, without `<`."""
    return '"' + "".join(chr(b) if 32 <= b <= 126 and b not in b'"\\<' else "\\n" if b == 10 else "\\u%04x" % b for b in data) + '"'


def value_text(value):
    """Numbers, strings and lists as JSON."""
    if isinstance(value, (list, tuple)):
        return "[" + ",".join(map(value_text, value)) + "]"
    return string(value.encode("latin-1")) if isinstance(value, str) else str(int(value))


def actor_number(actor):
    return 32 if actor == "keeper" else actor[1] + (16 if actor[0] == "bank" else 0)


def bits(signature):
    """A signature as its phase and the numbers of its bits."""
    return [signature[1]] + [bit for bit in range(Size.bits) if signature[0] >> bit & 1]


def sent_row(to, message):
    """To whom a message goes, its kind, and what it says."""
    fields = []
    for field in message[1:]:
        fields += bits(field) if isinstance(field, tuple) else [int(field)]
    return [actor_number(to), KINDS.index(message[0])] + fields


def intervals(words):
    """A set of words, as intervals."""
    out = []
    for word in sorted(words):
        if out and out[-1][1] == word:
            out[-1][1] = word + 1
        else:
            out.append([word, word + 1])
    return out


def end_fields(end):
    """How a task has ended, or that it waits."""
    parts = end.split()
    if parts[0] == "trap":
        return ["trap", parts[1], int(parts[3], 16), int(parts[5], 16)]
    return [parts[0]] + [int(part) for part in parts[1:]]


def entry_row(word, entry):
    tag = {"V": "VT"[entry[2]], "R": "RP"[entry[2]], "L": "L"}[entry[0]]
    return [tag, word, entry[1]]


def wait_row(wait):
    if wait is None:
        return ["w", 0, 0]
    return ["w", ["", "reading", "filled", "locking"].index(wait[0]), wait[1]]


class Snapshot:
    """What a node is, for a comparison with what it is later."""

    def __init__(self, node):
        self.phase, self.wait, self.signatures = node.phase, node.wait, list(node.signatures)
        self.arrived, self.halted = node.has_arrived, node.is_halted
        self.entries = {word: entry for places in node.cache for word, entry in places.items()}
        self.retired = node.task and node.task.retired
        self.end = node.task and node.task.end
        self.held = set(node.task.held) if node.task else set()


def blank(node):
    """A node as its phase begins, without entries."""
    was = Snapshot(node)
    was.wait, was.signatures = None, [(0, node.phase)] * len(node.signatures)
    was.arrived = was.halted = False
    was.entries, was.held = {}, set()
    return was


def lock_rows(was, node):
    out = []
    held = node.task.held if node.task else set()
    for lock, signature in enumerate(node.signatures):
        if (lock in held) != (lock in was.held):
            out.append(["+" if lock in held else "-", lock])
        if signature != was.signatures[lock]:
            out.append(["s", lock] + bits(signature))
    return out


def flag_rows(was, node):
    return [["a"]] * (node.has_arrived and not was.arrived) + [["z"]] * (node.is_halted and not was.halted)


def entry_rows(was, node):
    """The entries that changed: those that were there in the order of the cache, then a new one."""
    now = {word: entry for places in node.cache for word, entry in places.items()}
    out = []
    for word, entry in was.entries.items():
        if word not in now:
            out.append(["I", word])
        elif now[word] != entry:
            out.append(entry_row(word, now[word]))
    return out + [entry_row(word, entry) for word, entry in now.items() if word not in was.entries]


def node_rows(was, node):
    """The changes of a core."""
    if node.phase != was.phase:
        return [["b", node.phase]] + entry_rows(was, node)
    out = entry_rows(was, node)
    if node.task:
        if node.task.end is not None and was.end is None:
            out.append(["e"] + end_fields(node.task.end))
        elif node.task.retired != was.retired:
            out.append(["x", node.task.pc])
    if node.wait != was.wait:
        out.append(wait_row(node.wait))
    return out + lock_rows(was, node) + flag_rows(was, node)


def node_since(node):
    """What leads to a core's state from the beginning of its phase."""
    was = blank(node)
    out = [["b", node.phase]] + entry_rows(was, node)
    if node.task:
        if node.task.end is not None:
            out.append(["e"] + end_fields(node.task.end))
        out.append(["j", node.task.pc, node.task.retired])
    if node.wait is not None:
        out.append(wait_row(node.wait))
    return out + lock_rows(was, node) + flag_rows(was, node)


def home_row(word, content):
    return ["H" if content[0] == "home" else "G", word, content[1]]


def queue_rows(lock, was, home):
    out = []
    if (home[0], home[1]) != (was[0], was[1]):
        out.append(["o", lock, -1 if home[0] is None else home[0]] + home[1])
    if home[2] != was[2]:
        out.append(["s", lock] + bits(home[2]))
    return out


def keeper_row(keeper):
    return ["k", keeper.phase, keeper.bad] + sorted(keeper.there)


def event_row(machine, event):
    """Makes an event, and gives its row of the page."""
    mail = None
    if event[0] == "handle":
        mail = next(mail for mail in machine.pool if mail[:2] == event[1:])
        actor, kind = mail[2], mail[3][0]
    else:
        actor, kind = ("core", event[1]), event[0]
    node = machine.nodes[actor[1]] if actor[0] == "core" else None
    was, need = (Snapshot(node), node.next) if node else (None, None)
    bank = machine.homes[actor[1]] if actor[0] == "bank" else None
    words, locks = (dict(bank.words), {lock: [home[0], list(home[1]), home[2]] for lock, home in bank.locks.items()}) if bank else ({}, {})
    mails = {mail[:2] for mail in machine.pool}
    seen, _ = machine.step(event)
    rows = []
    if node:
        rows = node_rows(was, node)
        if seen is not None:
            rows.append(["ld", seen[0], seen[1]])
        if kind == "instr" and need[0] == "store" and node.task.retired != was.retired:
            rows.append(["st", need[1], node.entry(need[1])[1]])
    elif bank:
        for word, content in bank.words.items():
            if content != words[word]:
                rows.append(home_row(word, content))
        for lock, home in bank.locks.items():
            rows += queue_rows(lock, locks[lock], home)
    else:
        rows = [keeper_row(machine.keeper)]
    sent = [sent_row(other[2], other[3]) for other in machine.pool if other[:2] not in mails]
    row = [KINDS.index(kind), actor_number(actor), [actor_number(event[1]), event[2]] if mail else -1, rows]
    return row + [sent] * bool(sent)


def since(machine):
    """What leads to the machine's state from its beginning: for each actor its changes, for each bank word by word and lock by lock."""
    out = [[node.core, node_since(node)] for node in machine.nodes]
    for word, value in enumerate(machine.program.memory):
        content = machine.homes[word % machine.banks].words[word]
        if content != ("home", value):
            out.append([16 + word % machine.banks, [home_row(word, content)]])
    for lock in range(len(machine.program.locks)):
        rows = queue_rows(lock, (None, [], (0, 0)), machine.homes[lock % machine.banks].locks[lock])
        if rows:
            out.append([16 + lock % machine.banks, rows])
    return out + [[32, [keeper_row(machine.keeper)]]]


def listed_code(program):
    """The lines of the code as a listing has them."""
    return "".join(instruction_text(word) + "\n" for word in program.code)


def page(data, name, first, most, ticks, latency=0, net="uniform"):
    """The exit code and the text of a page's data: the run of a document, from event `first` on, with at most so many events."""
    told = read_document(data)
    if isinstance(told, str):
        return 2, "refused trace %s\n" % told
    return 0, data_text("denovo-page 2", told, name, first, most, (ticks, latency, net), lambda text, program, finishes: [])


def run_data(data, name, first, most, ticks, latency=0, net="uniform"):
    """The same of the mode data: a page's data, and what other tools need beside them."""
    told = read_document(data)
    if isinstance(told, str):
        return 2, "refused trace %s\n" % told
    last = len(told[2]) if most is None else first + most
    return 0, data_text("denovo-data 1", told, name, first, last - first, (ticks, latency, net), lambda text, program, finishes: [
        ("machine_code", value_text(program.code)), ("lines", value_text([line for line, _ in code_lines(text)])),
        ("effects", value_text([effects_row(number, task, len(program.locks)) for number, phase in enumerate(program.phases)
                                for _, task in sorted(phase.items())])),
        ("finishes", value_text(finishes[first:last]))])


def effects_row(phase, task, locks):
    """What a task declares: the words that it may load and store, and for each lock those that it may load and store while it holds it."""
    return [phase, task.core, intervals(task.reads), intervals(task.writes)] + [
        [intervals(guarded.get(lock, set())) for lock in range(locks)] for guarded in (task.greads, task.gwrites)]


def data_text(form, told, name, first, most, times, further):
    """The data of a run in a form, with the fields that `further` gives before the first state. `times` has the ticks of each kind of event,
    and the latency and the net of the messages."""
    sizes, text, events = told
    ticks, latency, net = times
    program = assemble(text.decode("utf-8", "replace"))

    def drive(machine, trace):
        for event in events:
            trace(event)
            machine.step(event)
    timed, finishes = Machine(program, *sizes), []
    network = Network(timed.cores, timed.banks, latency, net)
    total, links = longest(timed, lambda trace: drive(timed, trace), ticks, finishes, network)
    ends = [[end[0], end[1], end[3]] + end_fields(end[2]) for end in timed.ending()[0]]
    machine = Machine(program, *sizes)
    for event in events[:first]:
        machine.step(event)
    phases = []
    for tasks, (written, guarded) in zip(program.phases, program.plans()):
        rows = [[core, task.entry, task.arg] for core, task in sorted(tasks.items())]
        phases.append('{"tasks":%s,"written":%s,"guarded":%s}' % (
            value_text(rows), value_text(intervals(written)), value_text([intervals(words) for words in guarded])))
    parts = [("format", string(form.encode())), ("name", string(name.encode())), ("cores", str(machine.cores)),
             ("banks", str(sizes[0])), ("sets", str(sizes[1])), ("ways", str(sizes[2])), ("fuel", str(sizes[3])),
             ("words", str(len(program.memory))),
             ("memory", value_text([[word, value] for word, value in enumerate(program.memory) if value])),
             ("regions", value_text([[region, start, length] for region, (start, length) in program.regions.items()])),
             ("locks", value_text(list(program.locks))), ("phases", "[" + ",".join(phases) + "]"),
             ("code", string(listed_code(program).encode())), ("source", string(text)),
             ("outcome", string(outcome(timed.ending()[0]).encode())), ("ends", value_text(ends)),
             ("counts", value_text([timed.counts[kind] for kind in KINDS])), ("total", str(len(events))), ("first", str(first)),
             ("ticks", value_text([ticks["instr"], ticks["read-req"], ticks["go"]])), ("time", str(total)), ("links", str(len(links))),
             ("chain", value_text([[at, finish] for at, _, finish in links if first <= at < first + most]))]
    parts += further(text.decode("utf-8", "replace"), program, finishes) + [
             ("start", '{"changes":%s,"next":%s,"mails":%s}' % (
                 value_text(since(machine)),
                 value_text([machine.numbers.get(actor, 0) for actor in
                             [("core", core) for core in range(machine.cores)] + [("bank", bank) for bank in range(machine.banks)] + ["keeper"]]),
                 value_text([[actor_number(mail[0]), mail[1]] + sent_row(*mail[2:]) for mail in machine.pool])))]
    rows = ",".join("\n" + value_text(event_row(machine, event)) for event in events[first:first + most])
    return "{%s,\"events\":[%s\n]}\n" % (",".join('"%s":%s' % part for part in parts), rows)


def states(data, first, most):
    """The state before each event of a page and behind the last one, each as lines of words: what the page's states are compared with."""
    told = read_document(data)
    sizes, text, events = told
    machine = Machine(assemble(text.decode("utf-8", "replace")), *sizes)
    for event in events[:first]:
        machine.step(event)
    out = [state_lines(machine)]
    for event in events[first:first + most]:
        machine.step(event)
        out.append(state_lines(machine))
    return out


def state_lines(machine):
    """A state of the machine, one fact a line: cores with their entries, homes, locks, the keeper, and the mails in flight."""
    def words(values):
        return ".".join(str(value) for value in values)
    out = []
    for node in machine.nodes:
        task = node.task
        wait = wait_row(node.wait)[1:]
        out.append("N %d %d %d %d %s %s %d %d %d %s" % (
            node.core, node.phase, task.pc if task else 0, task.retired if task else 0, words(wait) if node.wait else "0",
            words(end_fields(task.end)) if task and task.end else "-", sum(1 << lock for lock in task.held) if task else 0,
            node.has_arrived, node.is_halted, ",".join(words(bits(signature)) for signature in node.signatures)))
        entries = {word: entry for places in node.cache for word, entry in places.items()}
        out += ["E %d %d %s %d" % (node.core, word, entry_row(word, entries[word])[0], entries[word][1]) for word in sorted(entries)]
    for word in range(len(machine.program.memory)):
        tag, _, value = home_row(word, machine.homes[word % machine.banks].words[word])
        out.append("H %d %s %d" % (word, tag, value))
    for lock in range(len(machine.program.locks)):
        holder, queue, signature = machine.homes[lock % machine.banks].locks[lock]
        out.append("L %d %d %s %s" % (lock, -1 if holder is None else holder, words(queue), words(bits(signature))))
    keeper = machine.keeper
    out.append("K %d %d %d %s" % (keeper.phase, keeper.bad, len(keeper.there) == keeper.cores, words(sorted(keeper.there))))
    mails = sorted((actor_number(mail[0]), mail[1]) + tuple(sent_row(*mail[2:])) for mail in machine.pool)
    out += ["M %d %d %d %s" % (mail[:3] + (words(mail[3:]),)) for mail in mails]
    return out
