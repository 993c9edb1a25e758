"""What the tools that read the data of a run (`./view --mode data`) have in common: names, ticks, and how such a tool is called."""
import json
import sys

from ending import end

KINDS = ("instr", "evict", "arrive", "read-req", "read-fwd", "data-reply", "reg-req", "reg-fwd", "reg-ack", "write-back", "wb-ack", "acquire",
         "release", "grant", "arrived", "go", "halt")
OWN = KINDS[:3]
OF_BANKS = ("read-req", "reg-req", "write-back", "acquire", "release")
# the kinds of message whose first field is a word, and a lock
OF_WORDS = KINDS[3:11]
OF_LOCKS = KINDS[11:14]
KEEPER = 32


class NoWord(Exception):
    """A word that the run hasn't."""


def actor_name(actor):
    """The name of a track."""
    if actor == KEEPER:
        return "keeper"
    return f"core {actor}" if actor < 16 else f"bank {actor - 16}"


def word_name(data, word):
    """A word as its region and its place in it."""
    for name, start, length in data["regions"]:
        if start <= word < start + length:
            return f"{name}[{word - start}]"
    return str(word)


def ticks_of(data, kind):
    """How long an event of a kind takes."""
    core, bank, other = data["ticks"]
    return core if kind in OWN else bank if kind in OF_BANKS else other


def actors_of(data):
    """The numbers of all actors: cores, banks, the keeper."""
    return [*range(data["cores"]), *(16 + bank for bank in range(data["banks"])), KEEPER]


def phases_of(data, ends):
    """(phase, begin) of each phase that begins in the data: when its first core begins it."""
    begins = {}
    for _, changes in data["start"]["changes"]:
        for change in changes:
            if change[0] == "b":
                begins[change[1]] = 0
    for (_, _, _, changes, *_), finish in zip(data["events"], ends):
        for change in changes:
            if change[0] == "b":
                begins[change[1]] = min(finish, begins.get(change[1], finish))
    return sorted(begins.items())


def call(program, page, write, takes=()):
    """Calls a tool on standard input: `write` makes its output of the data and of the values of the options `takes`, or says what is wrong."""
    return end(program, lambda: answer(program, page, write, takes))


def answer(program, page, write, takes):
    words, given = sys.argv[1:], {}
    while words and words[0] in takes and len(words) > 1:
        given[words[0]] = words[1]
        words = words[2:]
    if words:
        print(page, file=sys.stdout if words[0] == "--help" else sys.stderr)
        return 0 if words[0] == "--help" else 1
    try:
        data = json.load(sys.stdin)
    except (ValueError, RecursionError):
        data = {}
    if not isinstance(data, dict) or data.get("format") != "denovo-data 1":
        return refuse(program)
    try:
        text = write(data, given)
    except NoWord as fault:
        print(f"{program}: {fault}", file=sys.stderr)
        return 1
    except (LookupError, TypeError, ValueError, AttributeError):
        # a part isn't there, or isn't of its form
        return refuse(program)
    sys.stdout.write(text)
    return 0


def refuse(program):
    print(f"{program}: this isn't what './view --mode data' writes", file=sys.stderr)
    return 2
