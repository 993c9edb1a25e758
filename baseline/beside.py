"""What stands beside the directory machine: denovo's run in time order, the messages and bytes of both, lists of sharers over its accesses, and the
referee's verdicts."""
import collections
import pathlib
import subprocess

from directory import Directory, ticks_by as directory_ticks
from orders import in_time_order
from protocol import HEAD_BYTES, KINDS, WORD_BYTES, WORD_KINDS
from reference import Machine, Network, answer_text, assemble, claim_text, ticks_by
from reference.lists import Lists

TOP = pathlib.Path(__file__).resolve().parent.parent
# the messages of denovo that are about words; the others are of locks and of the barrier
DENOVO_WORD_KINDS = ("read-req", "read-fwd", "data-reply", "reg-req", "reg-fwd", "reg-ack", "write-back", "wb-ack")
DENOVO_SYNC_KINDS = ("acquire", "release", "grant", "arrived", "go", "halt")
# a signature has 256 bits, and the number of its phase
SIGNATURE_BYTES = 33


def denovo_bytes(kind):
    """The bytes of a message of denovo."""
    return HEAD_BYTES + WORD_BYTES * (kind in ("data-reply", "write-back")) + SIGNATURE_BYTES * (kind in ("release", "grant"))


class Denovo(Machine):
    """The second program's machine, with its messages by themselves in place of a pool, for baseline/orders.py."""

    def __init__(self, *sizes):
        super().__init__(*sizes)
        self.actors = self.cores + self.banks + 1
        self.sent_by = [0] * self.actors
        self.names = [("core", core) for core in range(self.cores)] + [("bank", bank) for bank in range(self.banks)] + ["keeper"]

    def words_of(self, mail):
        return 1

    def number(self, actor):
        return self.actors - 1 if actor == "keeper" else actor[1] + (self.cores if actor[0] == "bank" else 0)

    def event(self, event, mail):
        """The event as the second program writes it."""
        return ("handle", self.names[mail[0]], mail[1]) if event is None else event

    def make(self, event, mail):
        """Makes an own event, or handles a message: its kind, and the messages that it sent."""
        if mail is None:
            kind, actor = event[:2]
            self.step(event)
        else:
            actor, kind = mail[2], mail[3][0]
            self.pool = [(self.names[mail[0]], mail[1], self.names[actor], mail[3])]
            self.step(self.event(None, mail), 0)
        sent, self.pool = self.pool, []
        return kind, [(actor, number, self.number(to), message) for _, number, to, message in sent]


def denovo_run(program, network, ticks, sizes):
    """A run of denovo in time order: the machine, and how many ticks it takes."""
    machine = Denovo(program, *sizes)
    return machine, in_time_order(machine, ticks_by(*ticks), network)


def directory_run(program, network, ticks, sizes, tick_word, options, note=None, tables=None):
    """The same of the directory machine."""
    machine = Directory(program, *sizes, **options, **({"tables": tables} if tables else {}))
    return machine, in_time_order(machine, directory_ticks(*ticks), network, tick_word, note)


def denovo_row(machine, ticks):
    """What a table has of a run: ticks, messages about words, and all bytes; and the messages and bytes of locks and barrier by themselves."""
    count = machine.counts
    return {"ticks": ticks, "events": sum(count.values()), "messages": sum(count[kind] for kind in DENOVO_WORD_KINDS),
            "sync messages": sum(count[kind] for kind in DENOVO_SYNC_KINDS), "bytes": sum(count[kind] * denovo_bytes(kind) for kind in DENOVO_WORD_KINDS),
            "sync bytes": sum(count[kind] * denovo_bytes(kind) for kind in DENOVO_SYNC_KINDS)}


def directory_row(machine, ticks):
    count, sync = machine.counts, [kind for kind in KINDS[3:] if kind not in WORD_KINDS]
    return {"ticks": ticks, "events": sum(count.values()), "messages": sum(count[kind] for kind in WORD_KINDS), "sync messages": sum(count[kind] for kind in sync),
            "bytes": sum(machine.bytes_of(kind) for kind in WORD_KINDS), "sync bytes": sum(machine.bytes_of(kind) for kind in sync)}


def denovo_claim(machine, text):
    """What the machine did, and not what one memory does by the same grants."""
    loads = {(phase, core): machine.loads.get((phase, core), []) for phase, core, _, _ in machine.ending()[0]}
    return claim_text(text, machine.fuel, machine.grants, loads, answer_text(machine.ending()))


# the machine that sends what lists of sharers of words would
LIKE_LISTS = {"line": 1, "states": "msi", "shared": "told", "stores": "wait"}
# the kinds of the lists, and those of the directory that are the same
SAME = {"read-requests": ["read"], "write-requests": ["own"], "forwards": ["fwd-read", "fwd-own"], "replies": ["data", "data-own", "grant-own"],
        "invalidations": ["inv"], "acknowledgements": ["inv-ack"], "put-backs": ["put-m", "put-back"], "put-shares": ["put-s"], "put-acks": ["put-ack"]}


class BesideLists(Directory):
    """The machine, with lists of sharers over its accesses."""

    def __init__(self, program, **options):
        self.lists, self.listed = Lists(program.cores(), options.get("sets", 64), options.get("ways", 4)), collections.Counter()
        super().__init__(program, **options)

    def accessed(self, core, word, is_store):
        self.listed.update(kind for kind, _ in self.lists.access(core, word, is_store)[0])

    def sums(self):
        """For each kind of the lists, how often it came here and with lists."""
        return {kind: (sum(self.counts[one] for one in kinds), self.listed[kind]) for kind, kinds in SAME.items()}

    def unlike(self):
        """The kinds that don't come as often as with lists."""
        return {kind: numbers for kind, numbers in self.sums().items() if numbers[0] != numbers[1]}


def refereed(claims):
    """What ./referee says of each claim."""
    ran = subprocess.run([str(TOP / "referee"), "--batch", "on"], input=b"".join(claims), stdout=subprocess.PIPE, stderr=subprocess.DEVNULL, check=False)
    verdicts = [line for line in ran.stdout.decode().splitlines() if line.split()[0] in ("agrees", "differs", "refused")]
    if ran.returncode not in (0, 3) or len(verdicts) != len(claims):
        raise RuntimeError("./referee takes no claims: exit code %d, %d verdicts of %d" % (ran.returncode, len(verdicts), len(claims)))
    return verdicts


__all__ = ["LIKE_LISTS", "BesideLists", "Denovo", "Network", "assemble", "denovo_claim", "denovo_row", "denovo_run", "directory_row", "directory_run", "refereed"]
