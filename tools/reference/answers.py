"""What the program answers to its words and a text, in all modes but check and list."""

from .documents import document, replayed
from .machine import Machine
from .one_memory import flat
from .prove import proved
from .report import STATUS, agree_with_flat, answer_text, grant_text, outcome, run_text, summary
from .texts import Unfit, assemble
from .ticks import ticks_by, timed
from .time_order import NETS, Network, run_in_time_order
from .work import work_text

# the greatest latency of a hop, in ticks
MOST_LATENCY = 1000000


class Refused(Unfit):
    """The program refuses these values of the options."""


def options(words):
    """The values of the options. Of those that can be refused it knows the order of a run and the network alone."""
    given = {"mode": "run", "addresses": "off", "seed": "1", "workers": "1", "banks": "4", "sets": "64", "ways": "4", "fuel": "32768", "size": "4",
             "tick-core": "1", "tick-bank": "10", "tick-mail": "5", "order": "seed", "latency": "0", "net": "uniform"}
    words = [piece for word in words for piece in word.split("=")]
    while words:
        if words[0][2:] not in given or len(words) < 2:
            raise Unfit("words")
        given[words[0][2:]] = words[1]
        words = words[2:]
    o = {name: value if name in ("mode", "addresses", "order", "net") else int(value) for name, value in given.items()}
    if o["order"] not in ("seed", "time") or o["net"] not in NETS or not 0 <= o["latency"] <= MOST_LATENCY:
        raise Refused()
    if o["order"] == "time" and o["workers"] != 1:
        raise Refused()
    return o


def opened(program, o):
    return Machine(program, o["banks"], o["sets"], o["ways"], o["fuel"])


def ticks_of(o):
    """The ticks of each kind of event."""
    return ticks_by(o["tick-core"], o["tick-bank"], o["tick-mail"])


def network_of(machine, o):
    return Network(machine.cores, machine.banks, o["latency"], o["net"])


def run(machine, o, trace=None, spans=None):
    """Makes the run that the options ask for."""
    if o["order"] == "time":
        run_in_time_order(machine, ticks_of(o), network_of(machine, o), trace, spans)
    else:
        machine.run(o["seed"], trace)


def answer(words, text):
    """The exit code and the lines of the program, for a text that assembles and checks, in all modes but check and list."""
    try:
        o = options(words)
    except Refused:
        return 1, ["refused usage"]
    if o["mode"] == "work":
        text = work_text(o["size"])
    if o["mode"] == "replay":
        return replayed(text.encode())
    program = assemble(text)
    if o["mode"] == "prove":
        return 0, proved(program)
    if o["mode"] == "flat":
        ending, _, used = flat(program, o["fuel"])
        lines = answer_text(ending) + grant_text(used)
    elif o["mode"] == "time":
        machine = opened(program, o)
        spans, finishes = [], []
        chain = timed(machine, lambda trace: run(machine, o, trace, spans), ticks_of(o), network_of(machine, o), finishes)
        # each event of a run in time order finishes when the longest chain that ends with it does
        assert o["order"] == "seed" or finishes == [finish for _, finish in spans]
        ending = machine.ending()
        lines = summary(ending) + chain
    elif o["mode"] in ("run", "work", "trace"):
        machine, events = opened(program, o), []
        run(machine, o, events.append)
        agree_with_flat(machine)
        ending = machine.ending()
        lines = {"run": lambda: run_text(machine), "work": lambda: summary(ending),
                 "trace": lambda: document(text, o, events)}[o["mode"]]()
    else:
        raise Unfit("mode")
    return STATUS[outcome(ending[0])], lines
