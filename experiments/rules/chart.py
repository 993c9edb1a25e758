"""The chart of a run of a machine with a changed rule, as an SVG text: a column for each actor, a row for each event, an arrow for each message that is
handled. The row at which the machine with all rules would do otherwise is marked, and below the last one it says what is wrong."""
import html

from reference.chart import CHART_STYLE
from runs import ACTORS, event_of, played
from small_texts import line_of, spec_of

LEFT, LANE, ROW, TOP, WIDE = 60, 130, 26, 78, 430
STYLE = CHART_STYLE.replace("</style>", ".denovo-broken{fill:#ffd9d2}@media screen and (prefers-color-scheme:dark){.denovo-broken{fill:#5a2018}}</style>", 1)
LETTERS = {"V": "Valid(%d)", "M": "Valid(%d), touched", "R": "Registered(%d)", "P": "Registered(%d), pending", "L": "Leaving(%d)"}


def entry_text(entry):
    return "none" if entry is None else LETTERS[entry[0]] % entry[1]


def home_text(value):
    return "Home(%d)" % value if value >= 0 else "Reg(%d)" % ~value


def changes(world, before, after):
    """What is another than before: entries, words at home, phases, tasks that hold a lock."""
    told = []
    for core in range(world.cores):
        old, new = (world.cache_of(state[core]) for state in (before, after))
        told += ["core %d, word %d: %s" % (core, word, entry_text(new.get(word))) for word in sorted({*old, *new}) if old.get(word) != new.get(word)]
        a, b = world.node(before, core), world.node(after, core)
        if a.phase != b.phase:
            told.append("core %d: phase %d" % (core, b.phase))
        held = [set(node.task.held) if node.task else set() for node in (a, b)]
        told += ["core %d takes lock %d" % (core, lock) for lock in held[1] - held[0]] + ["core %d gives up lock %d" % (core, lock) for lock in held[0] - held[1]]
    told += ["home of word %d: %s" % (word, home_text(after[world.words_at + word])) for word in range(world.word_count)
             if before[world.words_at + word] != after[world.words_at + word]]
    return told


def happened_text(world, before, event, happened):
    """What an event did, in words."""
    told = []
    if event[0] == "handle":
        kind, about = world.messages.values[event[1]][1:3]
        told.append(kind if kind in ("arrived", "go", "halt") else "%s %s" % (kind, about))
    elif event[0] == "instr":
        need = world.settled(world.node(before, event[1]).task)[1]
        told.append("%s %d" % need[:2] + (" gives %d" % happened.seen[1] if happened.seen else ""))
    else:
        told.append(" ".join([event[0], *map(str, event[2:])]))
    return told


class Drawing:
    def __init__(self, kill, changed_world, title):
        self.kill, self.world, self.title = kill, changed_world, title
        self.states, self.happenings = played(changed_world, kill.events)
        self.lanes = [*range(changed_world.cores), 100, 101]
        self.sent, self.pieces = {}, []

    def x(self, actor):
        return LEFT + LANE * self.lanes.index(actor) + LANE // 2

    def y(self, row):
        return TOP + ROW * row + ROW // 2

    def text(self, x, y, words, more=""):
        self.pieces.append("<text class='denovo-text%s' x='%d' y='%d'>%s</text>" % (more, x, y, html.escape(words)))

    def arrow(self, source, row, actor, kind):
        """From the event that sent a message to the one that handles it."""
        a, b, x, y = self.x(source[1]), self.y(source[0]), self.x(actor), self.y(row)
        side = -1 if x > a else 1
        end = x + 8 * side if x != a else x
        self.pieces.append("<path class='denovo-mail' d='M%d %dL%d %d'/>" % (a, b, end, y))
        self.pieces.append("<circle class='denovo-head' cx='%d' cy='%d' r='3'/>" % (end, y))

    def row(self, number):
        before, after = self.states[number:number + 2]
        event, happened = event_of(self.world, before, self.kill.events[number]), self.happenings[number]
        actor = event[1]
        if event[0] == "handle":
            message = self.world.messages.values[event[1]]
            actor = message[0]
            waiting = self.sent.get(event[1], [])
            if waiting:
                self.arrow(waiting.pop(0), number, actor, message[1])
        if number == self.kill.differs:
            self.pieces.insert(0, "<rect class='denovo-broken' x='0' y='%d' width='100%%' height='%d'/>" % (self.y(number) - ROW // 2, ROW))
        self.pieces.append("<circle class='denovo-event' cx='%d' cy='%d' r='4'/>" % (self.x(actor), self.y(number)))
        self.text(self.x(actor) + 8, self.y(number) - 3, " ".join(happened_text(self.world, before, event, happened)))
        self.text(12, self.y(number) + 4, str(number), " denovo-number")
        told = "; ".join(changes(self.world, before, after))
        self.text(LEFT + LANE * len(self.lanes) + 12, self.y(number) + 4, told + ("   <- broken step" if number == self.kill.differs else ""), " denovo-change")
        for message in happened.sent if happened else ():
            self.sent.setdefault(message, []).append((number, actor))

    def svg(self):
        for number in range(len(self.happenings)):
            self.row(number)
        bottom = TOP + ROW * len(self.happenings)
        for actor in self.lanes:
            name = ACTORS.get(actor, "core %s" % actor)
            self.pieces.insert(0, "<path class='denovo-lane' d='M%d %dV%d'/>" % (self.x(actor), TOP, bottom))
            self.text(self.x(actor), TOP - 8, name, " denovo-actor")
        self.text(12, 22, self.title, " denovo-title")
        self.text(12, 42, "program: %s; caches of %d x %d" % (line_of(spec_of(self.kill.text)), self.kill.sets, self.kill.ways))
        self.text(12, bottom + 24, "Wrong: " + self.kill.wrong, " denovo-end")
        width, height = LEFT + LANE * len(self.lanes) + WIDE, bottom + 40
        return ("<svg xmlns='http://www.w3.org/2000/svg' class='denovo-chart' width='%d' height='%d' viewBox='0 0 %d %d' font-family='sans-serif' font-size='12'>\n"
                % (width, height, width, height) + STYLE + "<rect class='denovo-ground' width='100%' height='100%'/>\n" + "\n".join(self.pieces) + "\n</svg>\n")


def chart(kill, rule):
    from runs import world_of
    return Drawing(kill, world_of(kill, rule.changes), "Without the rule %s: %s" % (rule.name, rule.purpose)).svg()
