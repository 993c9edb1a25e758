"""The words of baseline/directory.py, and the log that it prints."""
import argparse


class Log:
    """The events of a run, a line each."""

    def __init__(self, machine):
        self.machine, self.lines = machine, ["log 1", "cores %d banks %d line %d" % (machine.cores, machine.banks, machine.line)]

    def name(self, actor):
        cores, banks = self.machine.cores, self.machine.banks
        return "c%d" % actor if actor < cores else "b%d" % (actor - cores) if actor < cores + banks else "k"

    def note(self, actor, kind, mail, start, finish, sent):
        handled = "" if mail is None else " from %s %d" % (self.name(mail[0]), mail[1])
        self.lines.append("%s %s %d %d sends %d%s" % (self.name(actor), kind, start, finish, len(sent), handled))


def words_of_command(page):
    """The options of baseline/directory.py."""
    words = argparse.ArgumentParser(description=page, formatter_class=argparse.RawDescriptionHelpFormatter)
    for name, low, high, default, what in (
            ("pointers", 1, 15, None, "how many sharers a list has room for; without it, all"), ("banks", 1, 16, 4, "banks"), ("sets", 1, 256, 64, "sets of words"),
            ("ways", 1, 16, 4, "ways"), ("fuel", 1, 32768, 32768, "instructions of a task"), ("latency", 0, 1000000, 0, "ticks of a message for each hop"),
            ("tick-core", 1, 1000000, 1, "ticks of a core's own event"), ("tick-bank", 1, 1000000, 10, "of a bank's"), ("tick-mail", 1, 1000000, 5, "of every other"),
            ("tick-word", 0, 1000000, 0, "more for each word of data behind a message's first"), ("seed", 0, 4294967295, 1, "of the order seed")):
        words.add_argument("--" + name, type=in_range(low, high), default=default, help="%s, %d to %d%s" % (what, low, high, "" if default is None else " (%d)" % default))
    words.add_argument("--line", type=int, choices=(1, 2, 4, 8, 16), default=4, help="words of a line (4)")
    for name, values, what in (("states", "mesi msi", "the stable states"), ("shared", "silent told", "whether the home hears of a Shared line that goes"),
                               ("stores", "go wait", "whether a core goes on behind a store that misses"), ("net", "uniform mesh", "the hops of a message"),
                               ("order", "time seed", "how the next event is picked"), ("form", "claim counts log", "what is printed")):
        words.add_argument("--" + name, choices=values.split(), default=values.split()[0], help="%s (%s)" % (what, values.split()[0]))
    return words


def in_range(low, high):
    def number(text):
        if not text.isdigit() or not low <= int(text) <= high:
            raise argparse.ArgumentTypeError("from %d to %d" % (low, high))
        return int(text)
    return number
