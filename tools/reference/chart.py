"""The message chart of a run, as an SVG text, by docs/VIEWS.md."""

from .documents import read_document
from .isa import instruction_text
from .machine import Machine
from .texts import assemble, code_lines
from .ticks import longest, ticks_by
from .time_order import Network

CHART_STYLE = """<style>.denovo-chart{color-scheme:light dark}.denovo-ground{fill:#fff}.denovo-odd{fill:#edf2f7}.denovo-rule{stroke:#7d8b99}.denovo-lane{stroke:#b4bac0}
.denovo-mail,.denovo-cut{stroke:#26598c;fill:none}.denovo-cut{stroke-dasharray:7 4}.denovo-event,.denovo-head{fill:#26598c}
.denovo-path{stroke:#f93;stroke-width:7;stroke-opacity:.45;stroke-linejoin:round;fill:none}.denovo-ring{stroke:#b34700;stroke-width:2;fill:none}
.denovo-text{fill:#1c2126;paint-order:stroke;stroke:#fff;stroke-width:4;stroke-linejoin:round}.denovo-left{text-anchor:end}
.denovo-title{font-size:15px}.denovo-actor{font-weight:bold;text-anchor:middle}.denovo-number{fill:#4d565f}.denovo-change{fill:#832a00}
.denovo-end{fill:#8c0d0d;font-weight:bold}
@media screen and (prefers-color-scheme:dark){.denovo-ground{fill:#14181d}.denovo-odd{fill:#1e2731}.denovo-rule{stroke:#7d8b99}.denovo-lane{stroke:#545d66}
.denovo-mail,.denovo-cut{stroke:#86b9ec}.denovo-event,.denovo-head{fill:#86b9ec}.denovo-path{stroke-opacity:.4}.denovo-ring{stroke:#ffb454}
.denovo-text{fill:#e6e9ec;stroke:#14181d}.denovo-number{fill:#aab4be}.denovo-change{fill:#ffb489}.denovo-end{fill:#ff9d9d}}</style>
"""

CHART_LEGEND = """<circle class='denovo-event' cx='14' cy='60' r='4'/><text class='denovo-text' x='26' y='64'>event</text>
<circle class='denovo-ring' cx='84' cy='60' r='8'/><text class='denovo-text' x='98' y='64'>on the longest chain</text>
<path class='denovo-mail' d='M254 60H282'/><path class='denovo-head' d='M290 60l-8 -4v8z'/><text class='denovo-text' x='296' y='64'>mail</text>
<path class='denovo-cut' d='M342 60H370'/><path class='denovo-head' d='M378 60l-8 -4v8z'/><text class='denovo-text' x='384' y='64'>mail from before or to behind the range</text>
<text class='denovo-text denovo-change' x='682' y='64'>word: before &#8594; after</text>
"""

CHART_MEANING = (". Each column is a core, a bank, or the keeper of the phases. Each row is an event of the run, in their order. "
                 "An arrow leads from the event that sent a mail to the event that handles it.")
# what a message is about, by its kind
ABOUT_WORD = ("read-req", "read-fwd", "data-reply", "reg-req", "reg-fwd", "reg-ack", "write-back", "wb-ack")
ABOUT_LOCK = ("acquire", "release", "grant")


# how large a slide is shown, and for how many lines, and cores and banks, it has room
SLIDE = (1280, 720)
SLIDE_LINES, SLIDE_COLUMNS = 31, 5


class Chart:
    """The message chart of a range of a document's events, as an SVG text. Events may be left out: plain instructions (all, or those that don't
    begin their line), those that have nothing to do with these words, and those of other actors; words and actors are lists of names with
    commas between them. A slide shows as many of the others as have room, from the first one on that is no plain instruction."""

    def __init__(self, data, first=0, most=1000, ticks=(1, 10, 5), used=False, plain="on", words="", actors="", slide=False,
                 latency=0, net="uniform"):
        sizes, text, self.events = read_document(data)
        self.first, self.total = first, len(self.events)
        self.program = assemble(text.decode("utf-8", "replace"))
        self.machine = Machine(self.program, *sizes)
        self.lines_of_code = code_lines(text.decode("utf-8", "replace"))
        self.chain = self.longest(sizes, ticks, latency, net)
        self.rows, self.sent, self.line = [], {}, 0
        for number, event in enumerate(self.events[:first + most]):
            if number < first:
                self.machine.step(event)
            else:
                self.add(number, event)
        self.leaving = [(mail, self.sent[mail[:2]]) for mail in self.machine.pool if mail[:2] in self.sent]
        self.waits = []
        if first + most >= self.total:
            self.waits = [(node.core, node.wait[1]) for node in self.machine.nodes if node.wait and node.wait[0] == "locking"]
        self.slide, self.counted, self.note = slide, len(self.rows), ""
        self.leave_out(plain, words.split(",") if words else None, actors.split(",") if actors else None)
        self.cores, self.banks = list(range(self.machine.cores)), list(range(self.machine.banks))
        if used or slide:
            busy = self.busy(self.rows, self.leaving, self.waits)
            self.cores = [core for core in self.cores if ("core", core) in busy]
            self.banks = [bank for bank in self.banks if ("bank", bank) in busy]

    def leave_out(self, plain, words, actors):
        """Keeps the events that are asked for. Their rows stand one below the other, and arrows begin on the lines that rows have then."""
        wanted = None if words is None else [word for word in range(len(self.program.memory))
                                             if {self.word(word), "0x%08x" % (0x10000000 + 4 * word)} & set(words)]
        everybody = [("core", core) for core in range(self.machine.cores)] + [("bank", bank) for bank in range(self.machine.banks)] + ["keeper"]
        chosen = None if actors is None else [actor for actor in everybody if self.actor(actor).replace(" ", "") in actors]
        kept = []
        for row in self.rows:
            of_word = words is None or row["ends_phase"] or set(wanted) & (row["words"] | {change[0] for change in row["changes"]})
            shown = not row["plain"] or plain == "on" or plain == "lines" and not row["later"]
            if shown and of_word and (chosen is None or row["actor"] in chosen):
                if wanted is not None:
                    row["changes"] = [change for change in row["changes"] if change[0] in wanted]
                kept.append(row)
        self.waits = [(core, lock) for core, lock in self.waits if chosen is None or ("core", core) in chosen]
        window = self.window(kept) if self.slide else None
        rows, self.leaving, self.waits = self.inside(kept, window)
        places, line = {}, 0
        for row in rows:
            places[row["line"]], row["line"] = line, line
            line += self.height(row)
        for row in rows:
            if row["from"]:
                row["from"] = (row["from"][0], places.get(row["from"][1]))
        self.rows, self.line = rows, line
        self.leaving = [(mail, places[sent]) for mail, sent in self.leaving]
        parts = {"on": [], "lines": [" with la and li as one row"], "off": [" without plain instructions"]}[plain]
        parts += [] if words is None else [" words" + ",".join(" " + self.word(word) for word in wanted)]
        parts += [] if actors is None else [" actors" + ",".join(" " + self.actor(actor) for actor in chosen)]
        if window:
            parts.append(" events %d to %d, %d left out" % (window[0], max(window[1] - 1, 0), self.counted - len(rows)))
        if parts:
            self.note = "; kept %d of %d events:%s" % (len(rows), self.counted, ";".join(parts))

    @staticmethod
    def busy(rows, leaving, waits):
        """Who has something to do in these rows, mails that leave and tasks that wait."""
        return ({row["actor"] for row in rows} | {row["from"][0] for row in rows if row["from"]} |
                {mail[2] for mail, _ in leaving} | {("core", core) for core, _ in waits})

    def inside(self, kept, window):
        """What a window has of the rows that are kept: its rows, the mails that leave it and the tasks that wait when the run ends. Lines are those
        of the whole chart."""
        first, behind = window or (0, self.total)
        rows = [row for row in kept if first <= row["event"] < behind]
        lines = {row["line"] for row in rows}
        leaving = [(row["mail"], row["from"][1]) for row in self.rows if row["event"] >= behind and row["from"] and row["from"][1] in lines]
        leaving += [(mail, sent) for mail, sent in self.leaving if sent in lines]
        return rows, leaving, self.waits if behind >= self.total else []

    def window(self, kept):
        """The events of a slide, from one up to another that is no longer on it; None if all that are kept have room."""
        def fits(window):
            rows, leaving, waits = self.inside(kept, window)
            return (sum(map(self.height, rows)) + len(leaving) + len(waits) <= SLIDE_LINES and
                    len(self.busy(rows, leaving, waits) - {"keeper"}) <= SLIDE_COLUMNS)
        if fits(None):
            return None
        begin = next((at for at, row in enumerate(kept) if not row["plain"]), 0)
        events = [row["event"] for row in kept[begin:]] + [self.total] * (SLIDE_LINES + 1)
        windows = [(events[0], events[count]) for count in range(SLIDE_LINES, 0, -1)]
        return next((window for window in windows if fits(window)), windows[-1])

    def longest(self, sizes, ticks, latency, net):
        """The numbers of the events of the longest chain, where a core's own event, one of a bank and another take so many ticks, and a
        message so many for each hop."""
        machine = Machine(self.program, *sizes)
        network = Network(machine.cores, machine.banks, latency, net)

        def again(trace):
            for event in self.events:
                trace(event)
                machine.step(event)
        return {at for at, _, _ in longest(machine, again, ticks_by(*ticks), network=network)[1]}

    def states(self, actor):
        """What an actor has for each word that it has something for."""
        if actor == "keeper":
            return {}
        if actor[0] == "core":
            kinds = {("V", False): "valid", ("V", True): "touched", ("R", False): "registered", ("R", True): "pending"}
            return {word: "%s 0x%08x" % (kinds.get((entry[0], entry[2]), "leaving"), entry[1])
                    for places in self.machine.nodes[actor[1]].cache for word, entry in places.items()}
        return {word: "home 0x%08x" % what if state == "home" else "at core %d" % what
                for word, (state, what) in self.machine.homes[actor[1]].words.items()}

    def add(self, number, event):
        machine = self.machine
        row = {"event": number, "line": self.line, "from": None, "about": "", "end": None, "phase": machine.keeper.phase, "plain": False, "later": False,
               "words": set(), "mail": None}
        if event[0] == "handle":
            mail = next(mail for mail in machine.pool if mail[:2] == event[1:])
            row.update({"mail": mail, "actor": mail[2], "kind": mail[3][0], "from": (mail[0], self.sent.pop(mail[:2], None)), "about": self.about(mail[3])})
            if mail[3][0] in ABOUT_WORD:
                row["words"] = {mail[3][1]}
        else:
            row.update({"actor": ("core", event[1]), "kind": event[0]})
            task = machine.nodes[event[1]].task
            if event[0] == "instr":
                row["plain"] = machine.nodes[event[1]].next[0] == "local"
                if machine.nodes[event[1]].next[0] in ("load", "store"):
                    row["words"] = {machine.nodes[event[1]].next[1]}
                at = (task.pc - 0x1000) // 4
                if task.pc % 4 == 0 and 0 <= at < len(self.program.code):
                    line, part = self.lines_of_code[at]
                    row["later"] = part > 0
                    row["kind"] = "line %d%s: %s" % (line, " (second word)" if part else "", instruction_text(self.program.code[at]))
                if machine.nodes[event[1]].next[0] == "end":
                    row["end"] = machine.nodes[event[1]].next[1]
            elif event[0] == "evict":
                row["about"], row["words"] = " " + self.word(event[2]), {event[2]}
        before, numbers = self.states(row["actor"]), dict(machine.numbers)
        machine.step(event)
        after = self.states(row["actor"])
        row["ends_phase"] = machine.keeper.phase != row["phase"]
        row["changes"] = [(word, before.get(word, "none"), after.get(word, "none"))
                          for word in sorted(before.keys() | after.keys()) if before.get(word) != after.get(word)]
        actor = row["actor"]
        for sent in range(numbers.get(actor, 0), machine.numbers.get(actor, 0)):
            self.sent[actor, sent] = self.line
        self.line += 1 + len(row["changes"]) + (row["end"] is not None)
        self.rows.append(row)

    def word(self, word):
        for name, (start, length) in self.program.regions.items():
            if start <= word < start + length:
                return "%s[%d]" % (name, word - start)
        return "word %d" % word

    def lock(self, lock):
        return "%s (lock %d)" % (self.program.locks[lock], lock)

    def about(self, message):
        if message[0] in ABOUT_WORD:
            return " " + self.word(message[1])
        if message[0] in ABOUT_LOCK:
            return " " + self.lock(message[1])
        return " phase %d" % message[1] if message[0] == "go" else ""

    # where things stand

    def x(self, actor):
        columns = [("core", core) for core in self.cores] + [("bank", bank) for bank in self.banks] + ["keeper"]
        return 300 + 132 * columns.index(actor)

    @staticmethod
    def y(line):
        return 130 + 18 * line

    # what is drawn

    def text(self):
        width = self.x("keeper") + 300
        bottom = self.y(self.line + len(self.leaving) + len(self.waits))
        height = bottom + 18
        if self.slide:
            unit = max(-(-width // 16), -(-height // 9))
            width, height = 16 * unit, 9 * unit
        shown = SLIDE if self.slide else (width, height)
        machine = self.machine
        count = self.counted
        title = "Message chart: events %d to %d of %d" % (self.first, self.first + count - 1, self.total) if count else \
            "Message chart: no event of %d" % self.total
        title += self.note
        size = "Machine: cores %d, banks %d, sets %d, ways %d, fuel %d" % (machine.cores, machine.banks, machine.sets, machine.ways, machine.fuel)
        out = ["<svg xmlns='http://www.w3.org/2000/svg' class='denovo-chart' role='img' font-family='monospace' font-size='12' width='%d' height='%d' "
               "viewBox='0 0 %d %d'>\n" % (*shown, width, height),
               "<title>%s</title>\n<desc>%s%s</desc>\n" % (title, size, CHART_MEANING), CHART_STYLE,
               "<rect class='denovo-ground' width='%d' height='%d'/>\n" % (width, height),
               self.words("denovo-title", 8, 22, title), self.words("denovo-size", 8, 40, size), CHART_LEGEND]
        phase = None
        for row in self.rows:
            top = self.y(row["line"]) - 9
            if row["phase"] % 2:
                out.append("<rect class='denovo-odd' x='0' y='%d' width='%d' height='%d'/>\n" % (top, width, 18 * self.height(row)))
            if row["phase"] != phase:
                out.append("<path class='denovo-rule' d='M0 %dH%d'/>\n" % (top, width))
                out.append(self.words("denovo-left denovo-number", width - 8, top + 13, "phase %d" % row["phase"]))
            phase = row["phase"]
        for actor in [("core", core) for core in self.cores] + [("bank", bank) for bank in self.banks] + ["keeper"]:
            x = self.x(actor)
            out.append(self.words("denovo-actor", x, 96, self.actor(actor)))
            out.append("<path class='denovo-lane' d='M%d 104V%d'/>\n" % (x, bottom))
        points = "".join("%d,%d " % (self.x(row["actor"]), self.y(row["line"])) for row in self.rows if row["event"] in self.chain)
        out.append("<polyline class='denovo-path' points='%s'/>\n" % points)
        for row in self.rows:
            if row["from"]:
                sender, line = row["from"]
                x, y = self.x(sender), self.y(row["line"]) - 9 if line is None else self.y(line)
                if line is None:
                    out.append("<path class='denovo-mail' d='M%d %dL%d %d'/>\n" % (x - 6, y, x + 6, y))
                out.append(self.arrow(line is None, x, y, self.x(row["actor"]), self.y(row["line"])))
        for at, (mail, line) in enumerate(self.leaving):
            out.append(self.arrow(True, self.x(mail[0]), self.y(line), self.x(mail[2]), self.y(self.line + at)))
        for row in self.rows:
            out.append(self.row(row))
        for at, (mail, line) in enumerate(self.leaving):
            out.append(self.beside(self.x(mail[0]) > self.x(mail[2]), self.x(mail[2]), self.y(self.line + at), mail[3][0] + self.about(mail[3])))
        for at, (core, lock) in enumerate(self.waits):
            y = self.y(self.line + len(self.leaving) + at)
            out.append(self.words("denovo-end", self.x(("core", core)) + 14, y + 4, "waits for " + self.lock(lock)))
        return "".join(out) + "</svg>\n"

    @staticmethod
    def height(row):
        return 1 + len(row["changes"]) + (row["end"] is not None)

    @staticmethod
    def actor(actor):
        return "keeper" if actor == "keeper" else "%s %d" % actor

    @staticmethod
    def words(kind, x, y, words):
        return "<text class='denovo-text %s' x='%d' y='%d'>%s</text>\n" % (kind, x, y, words)

    @staticmethod
    def arrow(cut, x1, y1, x2, y2):
        kind = "denovo-cut" if cut else "denovo-mail"
        if x1 > x2:
            return "<path class='%s' d='M%d %dL%d %d'/>\n<path class='denovo-head' d='M%d %dl8 -4v8z'/>\n" % (kind, x1, y1, x2 + 13, y2, x2 + 5, y2)
        return "<path class='%s' d='M%d %dL%d %d'/>\n<path class='denovo-head' d='M%d %dl-8 -4v8z'/>\n" % (kind, x1, y1, x2 - 13, y2, x2 - 5, y2)

    def beside(self, from_right, x, y, words):
        return self.words("denovo-left", x - 14, y + 4, words) if from_right else self.words("denovo-right", x + 14, y + 4, words)

    def row(self, row):
        x, y = self.x(row["actor"]), self.y(row["line"])
        out = self.words("denovo-number", 8, y + 4, "%d %s" % (row["event"], self.actor(row["actor"])))
        if row["event"] in self.chain:
            out += "<circle class='denovo-ring' cx='%d' cy='%d' r='8'/>\n" % (x, y)
        out += "<circle class='denovo-event' cx='%d' cy='%d' r='4'/>\n" % (x, y)
        from_right = row["from"] is not None and self.x(row["from"][0]) > x
        out += self.beside(from_right, x, y, row["kind"] + row["about"])
        if row["end"] is not None:
            y += 18
            out += self.words("denovo-end", x + 14, y + 4, "ends: " + row["end"])
        lines = ["<tspan x='%d' dy='18'>%s (word %d): %s &#8594; %s</tspan>" % (x + 14, self.word(word), word, before, after)
                 for word, before, after in row["changes"]]
        if lines:
            out += self.words("denovo-change", x + 14, y + 4, "".join(lines))
        return out
