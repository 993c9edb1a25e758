"""What experiments/check holds the studies to: their texts are accepted, and rows of their tables are those of runs that the programs make again.

A study has a table of its runs, a row each. A row of `experiments/sweep` names the text, what is varied in it and the machine; one of the
study `sharing` names a pattern. The columns behind the outcome are numbers of the run."""
import csv
import importlib.machinery
import importlib.util
import pathlib
import subprocess

import reference
from reference.signatures import Size

HERE = pathlib.Path(__file__).resolve().parent
TOP = HERE.parent
MACHINE = ("seed", "sets", "ways", "banks", "fuel", "workers", "order")
TICKS = ("tick-core", "tick-bank", "tick-mail")
OUTCOMES = {status: outcome for outcome, status in reference.STATUS.items()}


def script(path):
    """The functions of a command that has no name of a module."""
    loader = importlib.machinery.SourceFileLoader(path.name, str(path))
    module = importlib.util.module_from_spec(importlib.util.spec_from_loader(path.name, loader))
    loader.exec_module(module)
    return module


def table(path):
    with open(path, newline="") as file:
        return list(csv.DictReader(file))


def said(name, *words, given=b""):
    """The exit code and the lines of a program of the repository."""
    done = subprocess.run([TOP / name, *map(str, words)], input=given, stdout=subprocess.PIPE, stderr=subprocess.DEVNULL)
    return done.returncode, done.stdout


def text_of(row, sweep, patterns):
    """The text of a row's run."""
    if "pattern" in row:
        return str(patterns[row["pattern"]](int(row["cores"]))).encode()
    places = [name for name in list(row)[1:list(row).index("sets")] if name not in MACHINE]
    file = row["text"] if row["text"].isdigit() else str(TOP / "examples" / (row["text"] + ".s"))
    return sweep.text_of({"text": file, **{place: int(row[place]) for place in places}}, places)


def numbers_of(row, text):
    """The outcome of the row's run as denovo's exit code says it, and its numbers by name as denovo and view print them."""
    words = [word for name in MACHINE if name in row for word in ("--" + name, row[name])]
    status, trace = said("denovo", "--mode", "trace", *words, given=text)
    found = {}
    for mode in ("lists", "account"):
        told = said("view", "--mode", mode, "--form", "csv", given=trace)[1].decode().splitlines()[1:]
        found.update({measure: int(count) for measure, _, count in (line.split(",") for line in told)})
    found["waits"], found["list-waits"] = (found[kind + "waits-read"] + found[kind + "waits-write"] for kind in ("", "list-"))
    lines = said("denovo", *words, given=text)[1].decode().splitlines()
    found.update({line.split()[1]: int(line.split()[2]) for line in lines if line.startswith("count ")})
    if "time" in row:
        ticks = [word for name in TICKS if name in row for word in ("--" + name, row[name])]
        lines = said("denovo", "--mode", "time", *words, *ticks, given=text)[1].decode().splitlines()
        found.update({line.split()[0]: int(line.split()[1]) for line in lines if line.startswith(("time ", "chain "))})
    return OUTCOMES.get(status), found


def refused(texts):
    """What `denovo --mode check` says of those of the texts that it doesn't take."""
    for text in sorted(set(texts)):
        status, line = said("denovo", "--mode", "check", given=text)
        if status != 0:
            yield "a text is refused: %s" % line.decode().strip()


def texts_beside_the_directory():
    """The texts of the study beside the directory machine."""
    made = script(TOP / "baseline/texts.py")
    return [made.make(name, cores).encode() for name in made.NAMES for cores in (4, 8, 16)]


def columns_of(row):
    """The columns of a row that are numbers of its run."""
    names = list(row)
    return names[names.index("outcome") + 1:]


def tables():
    """The tables of runs of all studies."""
    return sorted(HERE.glob("*/runs.csv")) + sorted(HERE.glob("*/*/runs.csv"))


def sample(rows):
    """Rows at the ends of a table and in its middle."""
    return [rows[0], rows[len(rows) // 2], rows[-1]]


def differences(path, sweep, patterns):
    """What is wrong with the texts of a table, with a sample of its rows, and with the means beside it."""
    rows = table(path)
    yield from refused(text_of(row, sweep, patterns) for row in rows)
    for row in sample(rows):
        outcome, found = numbers_of(row, text_of(row, sweep, patterns))
        if row["outcome"] != outcome:
            yield "the outcome %s of %s" % (outcome, row)
        for name in columns_of(row):
            if int(row[name]) != found.get(name):
                yield "%s is %s, and not as in %s" % (name, found.get(name), row)
    yield from differing_means(path, rows, sweep)


def differing_means(path, rows, sweep):
    """The rows of a study's summary that aren't those of its runs."""
    keys = list(rows[0])[:list(rows[0]).index("outcome")]
    numbers = [{name: value if name in keys or name == "outcome" else int(value) for name, value in row.items()} for row in rows]
    wanted = [{name: str(value) for name, value in row.items()} for row in sweep.summary_of(numbers, keys)]
    summaries = [path.parent / name for name in ("summary.csv", "cores.csv", "places.csv") if (path.parent / name).exists()]
    told = [row for summary in summaries for row in table(summary)]
    if sorted(map(str, told)) != sorted(map(str, wanted)):
        yield "the means beside %s aren't those of its runs" % path


def differing_sizes():
    """What is wrong with the table of signatures of other sizes: its runs with the protocol's sizes are those of denovo, and some others are made again."""
    sizes, protocols = script(HERE / "signatures/sizes"), (Size.bits, Size.hashes)
    rows = [[value if name == "outcome" else int(value) for name, value in row.items()] for row in table(HERE / "signatures/sizes.csv")]
    if not sizes.same_as_the_programs(rows):
        yield "the runs with signatures of 256 bits and two hashes aren't those of runs.csv"
    for row in rows:
        if row[0] == 128 and row[3] == 1 and sizes.counted(row[:4]) != row:
            yield "another run of %s" % row
    Size.bits, Size.hashes = protocols
