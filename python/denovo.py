"""denovo from Python, over its C library, without any other dependency.

    import denovo, pathlib
    text = pathlib.Path("examples/stale-copy.s")   # a path, or the text itself
    answer = denovo.run(text, seed=7, banks=2)
    answer.outcome            # "done", "trapped", "fuel" or "stuck"
    answer["seen"]            # the final words of the region `seen`, as a list of numbers
    answer.tasks[0].retired   # how each task ended
    answer.grants, answer.counts
    denovo.outcomes(text)     # what every run of the text has in common
    denovo.sweep(text)        # its runs by many seeds, summed up
    denovo.chart(text)        # in a notebook: the message chart of the run
    denovo.Stepper(text)      # a machine that is stepped, event by event

The library is libdenovo.so: the file that the variable DENOVO_LIBRARY names, or the one beside this file, or the one that tools/library
makes in .quick/library. A text that is refused raises `Refused`, whose message is the explained refusal. What the library promises is proved
of the bytes that go in and come out; this module only cuts them into lines, and is tested."""
from __future__ import annotations

import collections
import ctypes
import difflib
import json
import os
import pathlib
import re
import threading
from typing import TYPE_CHECKING, Any, Iterable, NamedTuple, Union

if TYPE_CHECKING:
    from typing import TypedDict, Unpack

    class RunOptions(TypedDict, total=False):
        seed: int
        order: str
        workers: int
        fuel: int
        banks: int
        sets: int
        ways: int
        tick_core: int
        tick_bank: int
        tick_mail: int
        latency: int
        net: str

    class ModeOptions(RunOptions, total=False):
        mode: str

    class ShownOptions(RunOptions, total=False):
        first: int
        rows: int

    class ChartOptions(ShownOptions, total=False):
        columns: str
        plain: str
        words: Union[str, Iterable[str]]
        actors: Union[str, Iterable[str]]
        fit: str

DATA = 0x10000000
HERE = pathlib.Path(__file__).resolve().parent
# a program's source, a trace or a claim: as text, as bytes, or the path of a file
Source = Union[str, bytes, bytearray, memoryview, "os.PathLike[str]"]


def _version() -> str:
    """The version in the file VERSION: beside this file in a wheel, else at the top of the repository or of the release."""
    for place in (HERE / "VERSION", HERE.parent / "VERSION"):
        if place.exists():
            return place.read_text().strip()
    return "unknown"


__version__ = _version()


class Refused(Exception):
    """The words, the text, the document or the claim are refused. `line` is the refusal, and the message is the explained one."""

    def __init__(self, line, explained=""):
        super().__init__(explained or line)
        self.line = line


class OutOfMemory(Exception):
    """There was no memory for the answer."""


class UnknownOption(TypeError):
    """There is no option of this name."""


class WrongOption(ValueError):
    """An option has a value that it can't have."""


# what each option may be: numbers of a range, or one of these words; any text where there is None
_SIZES = {"fuel": range(1, 32769), "banks": range(1, 17), "sets": range(1, 257), "ways": range(1, 17)}
_TICKS = {name: range(1, 1000001) for name in ("tick_core", "tick_bank", "tick_mail")}
_NETWORK = {"latency": range(1000001), "net": ("uniform", "mesh")}
_RUN = {"seed": range(1 << 32), "order": ("seed", "time"), "workers": range(1, 17), **_SIZES, **_TICKS, **_NETWORK}
_DENOVO = {**_RUN, "mode": ("run", "work", "check", "list", "flat", "trace", "replay", "time", "prove"), "addresses": ("on", "off"), "size": range(1, 129)}
_SHOWN = {"first": range(1 << 32), "rows": range(1, 1 << 32), **_TICKS}
_CHART = {**_SHOWN, "columns": ("all", "used"), "plain": ("on", "off", "lines"), "words": None, "actors": None, "fit": ("rows", "slide")}


def _check_options(options: dict, known: dict) -> None:
    """Refuses an option that isn't known, and one with a value that it can't have."""
    for name, value in options.items():
        if name not in known:
            near = difflib.get_close_matches(name, known, 1)
            raise UnknownOption(f"no option {name}; " + (f"did you mean {near[0]}?" if near else f"there are {', '.join(sorted(known))}"))
        may_be = known[name]
        if value is None or may_be is None:
            continue
        if isinstance(may_be, range):
            if isinstance(value, bool) or not isinstance(value, int) or value not in may_be:
                raise WrongOption(f"{name} is {value!r}, and has to be a number from {may_be[0]} to {may_be[-1]}")
        elif value not in may_be:
            raise WrongOption(f"{name} is {value!r}, and has to be one of {', '.join(may_be)}")


def _opened():
    places = [os.environ.get("DENOVO_LIBRARY"), HERE / "libdenovo.so", HERE.parent / "lib/libdenovo.so", HERE.parent / ".quick/library/libdenovo.so"]
    for place in places:
        if place and pathlib.Path(place).exists():
            return ctypes.CDLL(str(place))
    raise OSError("there is no libdenovo.so: tools/library makes it, and DENOVO_LIBRARY may name it")


_library = None


def _loaded():
    """The library, which is opened once."""
    global _library
    if _library is None:
        _library = _opened()
    return _library


def _held(code):
    """Refuses a result that isn't 0."""
    if code == 8:
        raise OutOfMemory()
    if code != 0:
        raise ValueError(f"the call ended with {code}")


def _read(source):
    """What a file has, where a path is given; else what is given."""
    return pathlib.Path(source).read_bytes() if isinstance(source, os.PathLike) else source


def _bytes(text):
    """A text, a document or a claim as bytes."""
    text = _read(text)
    if isinstance(text, str):
        if text and "\n" not in text and "\0" not in text and len(text) < 4096 and os.path.isfile(text):
            raise ValueError(f"{text!r} is a text here, and a file has this name: pathlib.Path({text!r}) is that file")
        return text.encode()
    if isinstance(text, (bytes, bytearray, memoryview)):
        return bytes(text)
    raise TypeError(f"a text is str or bytes, and not {type(text).__name__}")


def _word(word):
    """A command word with the zero byte behind it, by which words are told apart."""
    word = str(word).encode()
    if b"\0" in word:
        raise ValueError(f"{word!r} has a zero byte, and no command word has one")
    return word + b"\0"


# each program, and how many sources it reads
_SOURCES = {"denovo": 1, "view": 1, "outcomes": 1, "sweep": 1, "referee": 1, "explain": 2}


def call(program: str, words: Iterable, *sources: Source) -> tuple[int, bytes]:
    """What a program (denovo, view, outcomes, sweep, referee or explain) answers to command words and its sources: the exit code and the bytes."""
    if program not in _SOURCES:
        raise ValueError(f"{program!r} is no program of the library")
    if len(sources) != _SOURCES[program]:
        raise TypeError(f"{program} reads {_SOURCES[program]} sources, and {len(sources)} are given")
    if isinstance(words, (str, bytes)):
        raise TypeError("the command words are a list")
    block = b"".join(map(_word, words))
    given = []
    for part in (block, *map(_bytes, sources)):
        given += [ctypes.c_char_p(part), ctypes.c_size_t(len(part))]
    function = getattr(_loaded(), program + "_answer")
    function.restype = ctypes.c_int32
    room = 1 << 16
    while True:
        out, written = ctypes.create_string_buffer(room), ctypes.c_size_t(0)
        code = function(*given, out, ctypes.c_size_t(room), ctypes.byref(written))
        if written.value <= room:
            return code, out.raw[:written.value]
        room = written.value


def _words(options):
    """Options of Python as command words: tick_core=2 is --tick-core 2."""
    return [word for name, value in options.items() if value is not None for word in ("--" + name.replace("_", "-"), value)]


def _told(program, options, *sources, text=None):
    """The answer, or an exception where it is a refusal."""
    code, answer = call(program, _words(options), *sources)
    if code == 8:
        raise OutOfMemory()
    if code in (1, 2):
        line = answer.decode(errors="replace").strip()
        explained = call("explain", ["TEXT"], text, answer)[1].decode(errors="replace").strip() if text is not None and code == 2 else ""
        raise Refused(line, explained)
    return code, answer


def regions_of(text: Source) -> dict[str, tuple[int, int]]:
    """The regions that a text declares, as the assembler reads it: the first word and the number of words of each name."""
    found, first = {}, 0
    for name, count in re.findall(r"^\.region ([^ ,]+), ([0-9]+)$", listing(text), re.M):
        found[name] = first, int(count)
        first += int(count)
    return found


class Task:
    """How a task ended: `phase`, `core`, `end` (finished, trap, fuel, waits or holds), `retired`, and for a trap `kind`, `pc` and `value`."""

    def __init__(self, words):
        self.phase, self.core, self.end = int(words[1]), int(words[2]), words[3]
        self.retired = int(words[words.index("retired") + 1]) if "retired" in words else None
        self.kind = words[4] if self.end == "trap" else None
        self.pc = int(words[words.index("pc") + 1], 16) if "pc" in words else None
        self.value = int(words[words.index("value") + 1], 16) if "value" in words else None

    def __repr__(self):
        return f"Task(phase={self.phase}, core={self.core}, end={self.end!r}, retired={self.retired})"


class Answer:
    """The answer of a run: `outcome`, `tasks`, `grants` (phase, core, lock), `counts` by their names, and the final words by address or by
    the name of a region. `lines` has all lines as they were printed."""

    def __init__(self, text, answer):
        self.text, self.lines = text, answer.decode().split("\n")[:-1]
        self.outcome, self.tasks, self.grants, self.counts, self.words, self._size = None, [], [], {}, {}, 0
        for line in self.lines:
            words = line.split()
            if words[0] == "outcome":
                self.outcome = words[1]
            elif words[0] == "task":
                self.tasks.append(Task(words))
            elif words[0] == "words":
                self._size = int(words[1])
            elif words[0] == "word":
                self.words[int(words[1], 16)] = int(words[2], 16)
            elif words[0] == "grant":
                self.grants.append(tuple(map(int, words[1:4])))
            elif words[0] == "count":
                self.counts[words[1]] = int(words[2])

    def word(self, index: int) -> int:
        """The final value of a data word, from 0."""
        if not 0 <= index < self._size:
            raise IndexError(index)
        return self.words.get(DATA + 4 * index, 0)

    def __getitem__(self, name):
        first, count = regions_of(self.text)[name]
        return [self.word(first + at) for at in range(count)]

    def explained(self) -> str:
        """The answer with what is said of its lines."""
        return explain(self.text, "\n".join(self.lines) + "\n")

    def __repr__(self):
        return f"Answer(outcome={self.outcome!r}, tasks={len(self.tasks)}, grants={len(self.grants)})"


Open = collections.namedtuple("Open", "kind phase core lock pc")


class Outcomes(Answer):
    """What every run of a text has in common. If it is `settled`, then `outcome`, `tasks` and the words are those of each run; a word that the
    order of grants may decide is None, and its address is in `varies`. Else `open` says why it is open: its `kind` is control, held or stuck,
    with the phase and what the line names of core, lock and pc. Of grants and counts it says nothing."""

    def __init__(self, text, answer):
        super().__init__(text, answer)
        self.varies = [int(line.split()[1], 16) for line in self.lines if line.startswith("varies ")]
        self.open = _why_open(self.lines[0].split())
        self.settled = self.open is None

    def word(self, index: int) -> int | None:  # type: ignore[override]
        """The final value of a data word in every run, or None if it may vary."""
        value = super().word(index)
        return None if DATA + 4 * index in self.varies else value

    def explained(self):
        raise TypeError("explain takes the answer of a run")

    def __repr__(self):
        return f"Outcomes(outcome={self.outcome!r}, varies={len(self.varies)})" if self.settled else repr(self.open)


def _why_open(words):
    """Why the answer is open, by the words of its line; None if it is settled."""
    if words[0] != "open":
        return None
    kind, phase, *rest = words[1:]
    if kind == "control":
        return Open(kind, int(phase), int(rest[0]), None, int(rest[1], 16))
    if kind == "held":
        return Open(kind, int(phase), int(rest[0]), int(rest[1]), None)
    return Open(kind, int(phase), None, int(rest[0]), None)


class Picture:
    """An SVG picture or an HTML page; a notebook shows it."""

    def __init__(self, text, kind):
        self.text, self._kind = text, kind

    def save(self, name: str | os.PathLike[str]) -> None:
        pathlib.Path(name).write_text(self.text)

    def _repr_svg_(self):
        return self.text if self._kind == "svg" else None

    def _repr_html_(self):
        if self._kind != "html":
            return None
        quoted = self.text.replace("&", "&amp;").replace('"', "&quot;")
        return f'<iframe style="width:100%;height:640px;border:1px solid #888" srcdoc="{quoted}"></iframe>'


def run(text: Source, **options: Unpack[ModeOptions]) -> Answer:
    """Runs a text. Options: seed, order, fuel, banks, sets, ways, and mode="flat" for one thread on one memory."""
    _check_options(options, _DENOVO)
    text = _read(text)
    return Answer(text, _told("denovo", options, text, text=text)[1])


def check(text: Source) -> str:
    """The line of the mode check; `Refused` if the text has a fault or a conflict."""
    return _told("denovo", {"mode": "check"}, text, text=text)[1].decode().strip()


def outcomes(text: Source, fuel: int | None = None) -> Outcomes:
    """What every run of a text has in common, for every order in which the tasks get their locks."""
    _check_options({"fuel": fuel}, _SIZES)
    text = _read(text)
    return Outcomes(text, _told("outcomes", {"fuel": fuel}, text, text=text)[1])


def sweep(text: Source, **options: Any) -> str:
    """What `sweep` prints of the runs of a text by many seeds. Options: seeds="1..1000", form ("summary", "answers" or "csv"), retired ("on" or
    "off"), banks, sets, ways, fuel."""
    _check_options(options, {"seeds": None, "form": ("summary", "answers", "csv"), "retired": ("on", "off"), **_SIZES})
    return _told("sweep", options, text, text=text)[1].decode()


def prove(text: Source) -> str:
    """The lines of the mode prove."""
    return _told("denovo", {"mode": "prove"}, text, text=text)[1].decode()


def listing(text: Source) -> str:
    """The text's program in base mnemonics."""
    return _told("denovo", {"mode": "list"}, text, text=text)[1].decode()


def trace(text: Source, **options: Unpack[RunOptions]) -> bytes:
    """The document of a run, as bytes."""
    _check_options(options, _RUN)
    return _told("denovo", {"mode": "trace", **options}, text, text=text)[1]


def replay(document: Source) -> str:
    """What a document's run answers, as text."""
    return _told("denovo", {"mode": "replay"}, document)[1].decode()


def _document(text_or_document, options):
    """The document of a run: what is given if it is one already."""
    given = _bytes(text_or_document)
    if not given.startswith(b"denovo-trace"):
        return trace(given, **options)
    of_runs = [name for name, value in options.items() if value is not None and name not in _TICKS]
    if of_runs:
        raise UnknownOption(f"no option {of_runs[0]} of a trace: it is one of a run, and a trace is given")
    return given


def _viewed(mode, text_or_document, own, options):
    """What `view` makes of a run, in a mode that has these options of its own; the others are those of the run, and ticks are options of both."""
    _check_options(options, {**_RUN, **own})
    of_run = {name: value for name, value in options.items() if name not in own or name in _TICKS}
    of_view = {name: value if isinstance(value, (str, int)) or value is None else ",".join(value) for name, value in options.items() if name in own}
    return _told("view", {"mode": mode, **of_view}, _document(text_or_document, of_run))[1]


def _rows(answer):
    """Rows of a csv, without its head: (measure, group, number)."""
    rows = [line.split(",") for line in answer.decode().strip().split("\n")[1:]]
    return [(row[0], ",".join(row[1:-1]), int(row[-1])) for row in rows]


def _numbers(mode, text_or_document, by, options):
    """Numbers of a run by measure, and by group where `by` isn't "run"."""
    answer = _viewed(mode, text_or_document, {"by": ("run", "phase", "core", "region"), "form": None}, {"by": by, "form": "csv", **options})
    if by == "run":
        return {measure: number for measure, _, number in _rows(answer)}
    found = {}
    for measure, group, number in _rows(answer):
        found.setdefault(measure, {})[group] = number
    return found


def account(text_or_document: Source, by: str = "run", **options: Unpack[RunOptions]) -> dict[str, Any]:
    """What a run cost and why: numbers by measure, and by group where `by` (phase, core or region) isn't "run"."""
    return _numbers("account", text_or_document, by, options)


def lists(text_or_document: Source, by: str = "run", **options: Unpack[RunOptions]) -> dict[str, Any]:
    """What the run's loads and stores would cost with lists of sharers, beside what they cost here: numbers as those of `account`."""
    return _numbers("lists", text_or_document, by, options)


def data(text_or_document: Source, **options: Unpack[ShownOptions]) -> dict[str, Any]:
    """The data of a run, event by event, as docs/PAGE_DATA.md has them. Options: first, rows, tick_core, tick_bank, tick_mail, and those of a run."""
    return json.loads(_viewed("data", text_or_document, _SHOWN, options))


def state(text_or_document: Source, event: int = 0, **options: Unpack[RunOptions]) -> str:
    """The state before an event, as text."""
    return _viewed("state", text_or_document, {"event": range(1 << 32)}, {"event": event, **options}).decode()


def chart(text_or_document: Source, **options: Unpack[ChartOptions]) -> Picture:
    """The message chart of a run. Options: first, rows, columns, plain, words, actors, fit, tick_core, tick_bank, tick_mail, as `./view --help` has them,
    and those of a run. words and actors may be lists."""
    return Picture(_viewed("chart", text_or_document, _CHART, options).decode(), "svg")


def page(text_or_document: Source, **options: Unpack[ShownOptions]) -> Picture:
    """The page that steps through a run. Options: first, rows, tick_core, tick_bank, tick_mail, and those of a run."""
    answer = _viewed("page", text_or_document, _SHOWN, options).decode()
    for place in (HERE.parent / "tools/page.html", HERE / "page.html"):
        if place.exists():
            return Picture(place.read_text().replace("@@RUN@@", answer, 1), "html")
    raise OSError("there is no page.html")


def events(document: Source) -> list[str]:
    """The events of a trace, in order, as its lines name them: "i 0" is an instruction of core 0."""
    return _bytes(document).rpartition(b"\nevents ")[2].decode().split("\n")[1:-1]


class _Machine(ctypes.Structure):
    """What the library keeps of a machine: a pointer. ctypes refuses to copy it."""
    _fields_ = [("at", ctypes.c_void_p)]


class _Event(ctypes.Structure):
    _fields_ = [("kind", ctypes.c_uint32), ("actor", ctypes.c_uint32), ("number", ctypes.c_uint32)]


# the lines of a trace, by the kinds of event of include/denovo_step.h
_LINES = ("i {0}", "e {0} {1}", "a {0}", "h c {0} {1}", "h b {0} {1}", "h k {1}")
_FORMS = [re.compile(line.replace("{0}", r"(?P<actor>[0-9]+)").replace("{1}", r"(?P<number>[0-9]+)")) for line in _LINES]


def _event(line):
    """The event of a line of a trace."""
    if not isinstance(line, str):
        raise TypeError(f"an event is a line of a trace, as 'i 0', and not {type(line).__name__}")
    for kind, form in enumerate(_FORMS):
        found = form.fullmatch(line)
        if found:
            named = {name: _number(f"the {name} of {line!r}", int(number)) for name, number in found.groupdict().items()}
            return _Event(kind, **named)
    raise ValueError(f"{line!r} is no event")


def _number(name, number):
    """A number of 32 bits as C has it. ctypes would cut a larger one."""
    if isinstance(number, bool) or not isinstance(number, int):
        raise TypeError(f"{name} is a number, and not {type(number).__name__}")
    if not 0 <= number < 1 << 32:
        raise ValueError(f"{name} is {number}, and isn't from 0 to {(1 << 32) - 1}")
    return number


class Entry(NamedTuple):
    """An entry of a core's cache: its word by number and by name, its state (valid, registered or leaving), its value, and its flag: marked, pending or
    empty."""
    word: int
    name: str
    state: str
    value: int
    flag: str


class CoreState(NamedTuple):
    """A core: its phase; its task (no task, goes on, or how it ended), the address and the source of its next instruction, and how many have retired;
    what it waits for; the locks that it holds; whether it has arrived at the end of its phase; and its cache, the least recently used entries first."""
    number: int
    phase: int
    task: str
    pc: int | None
    source: str
    retired: int
    waits: str
    holds: list[str]
    has_arrived: bool
    entries: list[Entry]


class Message(NamedTuple):
    """A message in flight: the event that handles it, its receiver, what it says, and the words that its signature may hold."""
    event: str
    receiver: str
    says: str
    may_hold: list[str]


_WORD = r"(?:(\S+) \(word (\d+)\)|word (\d+))"
_ENTRY = re.compile(rf"entry {_WORD}: (\w+) (0x[0-9a-f]+)(?:, (\w+))?")


class State:
    """The state of a machine: `phase`, `cores`, `homes` (what the home of a word has, by the word's name, where it isn't the first value), `locks` (what is
    said of each, by its name) and `messages`. `text` has the lines of docs/VIEWS.md."""

    def __init__(self, text: str) -> None:
        self.text = text
        told = collections.defaultdict(list)
        for line in text.split("\n"):
            kind, _, rest = line.partition(" ")
            told[kind].append(rest)
        self.phase = int(told["keeper"][0].split()[1])
        facts = collections.defaultdict(list)
        for line in told["core"]:
            number, _, fact = line.partition(" ")
            facts[int(number)].append(fact)
        self.cores = [_core_state(number, facts[number]) for number in sorted(facts)]
        self.homes = dict(line.split(": ", 1) for line in told["home"])
        self.locks: dict[str, list[str]] = {}
        for line in told["lock"]:
            name, _, fact = line.partition(": ")
            self.locks.setdefault(name, []).append(fact)
        self.messages = _messages(told["mail"])

    def __repr__(self) -> str:
        return f"State(phase={self.phase}, cores={len(self.cores)}, messages={len(self.messages)})"


def _core_state(number, facts):
    """The state of a core by what is said of it."""
    def behind(*fronts):
        return next((fact.removeprefix(front) for front in fronts for fact in facts if fact.startswith(front)), "")
    at, _, source = behind("at ").partition(": ")
    entries = [Entry(int(found[2] or found[3]), found[1] or f"word {found[3]}", found[4], int(found[5], 16), found[6] or "")
               for found in map(_ENTRY.fullmatch, facts) if found]
    return CoreState(number, int(behind("phase ")), behind("task ") or "no task", int(at[:10], 16) if at else None, source, int(behind("retired ") or 0),
                     behind("waits for "), [fact[6:] for fact in facts if fact.startswith("holds ")], "has arrived" in facts, entries)


def _messages(lines):
    """Messages by what is said of each: where it goes and what it says first, then the words that it may hold."""
    found: dict[str, Message] = {}
    for line in lines:
        front, _, says = line.partition(": ")
        name, _, receiver = front.partition(" to ")
        if receiver:
            found[name] = Message("h " + name, receiver, says, [])
        else:
            found[name].may_hold.append(says.removeprefix("may hold "))
    return list(found.values())


class Stepper:
    """A machine that runs a text, and is stepped event by event.

        stepper = denovo.Stepper(text, banks=1)
        stepper.enabled            # the enabled events, as lines of a trace: "i 0" is an instruction of core 0
        stepper.step("i 0")        # makes one of them; ValueError says why another one isn't enabled
        stepper.word(0)            # the present value of a data word
        stepper.cores              # the cores: phases, tasks, next instructions, and the entries of their caches
        stepper.entries(0)         # the entries of core 0's cache
        stepper.messages           # the messages in flight
        stepper.state              # the state, as text
        stepper.undo()             # takes the last event back
        stepper.events             # the events so far
        stepper.answer()           # the answer, once no event is enabled

    It may begin behind the first events of a run: denovo.Stepper(text, events=denovo.events(denovo.trace(text, seed=7))[:40]).

    A machine can't be copied; a second one with the same events is denovo.Stepper(text, events=stepper.events). It belongs to the thread that
    steps it. Calls of several threads don't damage it, because each waits for the one before, but the events of one are in the way of the others."""

    def __init__(self, text: Source, banks: int = 4, sets: int = 64, ways: int = 4, fuel: int = 32768, events: Iterable[str] = ()) -> None:
        self._machine, self._lock = _Machine(), threading.RLock()
        self.text, self.events = _bytes(text), []
        self._sizes = {"banks": banks, "sets": sets, "ways": ways, "fuel": fuel}
        for name, number in self._sizes.items():
            _number(name, number)
        self._open(events)

    def __reduce_ex__(self, protocol):
        raise TypeError("a machine can't be copied: denovo.Stepper(text, events=stepper.events) makes another one")

    def _open(self, events):
        """Opens the machine anew, and makes these events."""
        numbers = [ctypes.c_uint32(number) for number in self._sizes.values()]
        code = self._call("open", ctypes.c_char_p(self.text), ctypes.c_size_t(len(self.text)), *numbers)
        if code == 2:
            check(self.text)
        if code == 1:
            raise Refused("refused usage")
        _held(code)
        self.events = []
        for event in events:
            self.step(event)

    def _call(self, name, *given, result=ctypes.c_int32):
        function = getattr(_loaded(), "denovo_" + name)
        function.restype = result
        with self._lock:
            return function(ctypes.byref(self._machine), *given)

    def __del__(self):
        machine = getattr(self, "_machine", None)
        if machine is not None and machine.at:
            self._call("close", result=None)

    @property
    def enabled(self) -> list[str]:
        """The enabled events: of each core its instruction, its evictions and its arrival, then the handling of each message."""
        room = 64
        while True:
            found, count = (_Event * room)(), ctypes.c_size_t(0)
            _held(self._call("enabled", found, ctypes.c_size_t(room), ctypes.byref(count)))
            if count.value <= room:
                return [_LINES[event.kind].format(event.actor, event.number) for event in found[:count.value]]
            room = count.value

    def step(self, event: str) -> None:
        """Makes an enabled event."""
        made = _event(event)
        with self._lock:
            code = self._call("step", ctypes.byref(made))
            if code == 3:
                raise ValueError(self.why_not(event))
            _held(code)
            self.events.append(event)

    def undo(self, count: int = 1) -> None:
        """Takes the last events back; it makes the others again."""
        with self._lock:
            if not 0 <= count <= len(self.events):
                raise IndexError(count)
            self._open(self.events[:len(self.events) - count])

    def word(self, index: int) -> int:
        """The present value of a data word: that of its pending entry if a core has one, else that at its home or in its owner's entry."""
        return self._call("word", ctypes.c_uint32(_number("the word's index", index)), result=ctypes.c_uint32)

    def __getitem__(self, name):
        first, count = regions_of(self.text)[name]
        return [self.word(first + at) for at in range(count)]

    def _trace(self, events):
        sizes = " ".join(f"{name} {number}" for name, number in self._sizes.items())
        lines = "".join(event + "\n" for event in events)
        return b"denovo-trace 1\n%s\nsource %d\n%s\nevents %d\n%s" % (sizes.encode(), len(self.text), self.text, len(events), lines.encode())

    @property
    def trace(self) -> bytes:
        """The trace of the events so far; chart, page and account take it once no event is enabled."""
        return self._trace(self.events)

    @property
    def state(self) -> str:
        """The present state, as text."""
        return state(self.trace, len(self.events))

    @property
    def snapshot(self) -> State:
        """The present state, in parts. The events are made again for it, and so for `cores`, `entries` and `messages`. Registers of tasks aren't told: no
        function of the library says them."""
        return State(self.state)

    @property
    def cores(self) -> list[CoreState]:
        """The cores with their caches."""
        return self.snapshot.cores

    def entries(self, core: int) -> list[Entry]:
        """The entries of a core's cache, the least recently used first in each set."""
        return self.cores[core].entries

    @property
    def messages(self) -> list[Message]:
        """The messages in flight."""
        return self.snapshot.messages

    def why_not(self, event: str) -> str | None:
        """Why an event isn't enabled; None if it is."""
        told = state(self._trace(self.events + [event]), len(self.events)).split("\n")[1]
        return None if told == "may come" else told.removeprefix("may not come: ")

    def answer(self) -> Answer:
        """The answer of the run, once no event is enabled."""
        return Answer(self.text, _told("denovo", {"mode": "replay"}, self.trace)[1])


_MODES_OF_LISTS = ("judge", "diagnose", "settled")
_REFEREE = {"mode": (*_MODES_OF_LISTS, "answer", "least")}


def referee(claim: Source | list[Source] | tuple[Source, ...], mode: str = "judge") -> Any:
    """What the referee says of a claim: whether it agrees, and the lines. The modes are judge, diagnose, settled, answer and least. Of a list of
    claims it gives a list, by the first three modes; a claim that is refused is the last that is answered."""
    _check_options({"mode": mode}, _REFEREE)
    if isinstance(claim, (list, tuple)):
        if not claim:
            raise ValueError("there is no claim in the list")
        if mode not in _MODES_OF_LISTS:
            raise ValueError(f"the mode {mode!r} takes one claim, and no list; the modes of lists are {', '.join(_MODES_OF_LISTS)}")
        answer = call("referee", _words({"mode": mode, "batch": "on"}), b"".join(map(_bytes, claim)))[1].decode()
        return [(told.startswith("agrees\n"), told) for told in re.split(r"^claim \d+\n", answer, flags=re.M)[1:]]
    code, answer = _told("referee", {"mode": mode}, claim)
    return code == 0, answer.decode()


def explain(text: Source, answer: Source) -> str:
    """An answer with what is said of its lines."""
    return _told_explained(text, answer)


def _told_explained(text, answer):
    code, told = call("explain", ["TEXT"], text, answer)
    if code == 8:
        raise OutOfMemory()
    if code == 2:
        raise Refused(told.decode(errors="replace").strip())
    return told.decode(errors="replace")
