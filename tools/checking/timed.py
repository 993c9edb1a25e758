"""Runs in time order, and messages that take time, beside tools/reference.py: event by event, and link by link of the longest chain."""
import pathlib
import random
import sys

import reference
from .counting import KIND, check, programs, run, text_of, written
from .settled import Maker

# how many texts are made, and which examples are run; the second program takes seconds for larger ones
MADE = 300 if "--long" in sys.argv[1:] else 30 if KIND == "proved" else 5
EXAMPLES = ("constants", "crossed-locks", "eviction-race", "locked-counter", "many-readers", "read-sharing", "stale-copy", "stencil", "store-five",
            "touched-bit", "trap", "tutorial-deadlock", "tutorial-intervals") if KIND == "proved" else ("crossed-locks", "store-five")

# messages that take no time, and those of each net
NETWORKS = ((), ("--latency", "20"), ("--latency", "10", "--net", "mesh"))


def agrees(name, text, words):
    """Whether the program prints what the second program does."""
    for program in programs("denovo")[:1]:
        status, lines = reference.answer(words, text.decode())
        ran = run(program + words, text)
        check(f"{program[0]} {' '.join(words)}: {name}", (ran.returncode, ran.stdout) == (status, written(lines)), ran.stdout[:300])


def in_time_order(name, text, *shape):
    for mode in ("time", "trace"):
        agrees(name, text, ["--mode", mode, "--order", "time", *shape])


def runs_in_time_order_are_those_of_the_reference():
    """Examples and litmus texts, in time order: without a latency, and on both nets."""
    for network in NETWORKS:
        for name in EXAMPLES:
            in_time_order(name, text_of(name), *network)
        for path in sorted(pathlib.Path("examples/litmus").glob("*.s"))[:None if KIND == "proved" else 3]:
            in_time_order(path.stem, path.read_bytes(), *network)


def drawn_runs_with_a_latency_are_timed_as_by_the_reference():
    """Examples by a seed, on both nets."""
    for seed, name in enumerate(EXAMPLES):
        for network in NETWORKS[1:]:
            agrees(name, text_of(name), ["--mode", "time", "--seed", str(seed), *network])


def made_texts_in_time_order_are_those_of_the_reference():
    """Made texts, each with ticks, a shape and a latency of its own, on each net."""
    for seed in range(MADE):
        draw, text = random.Random(seed), Maker(seed).text().encode()
        shape = [word for name, most in (("tick-core", 3), ("tick-bank", 40), ("tick-mail", 9), ("banks", 16), ("sets", 4), ("ways", 2))
                 for word in ("--" + name, str(draw.randint(1, most)))]
        for net in ("uniform", "mesh"):
            in_time_order(f"made text {seed}", text, *shape, "--latency", str(draw.choice((0, 1, 7, 20, 50))), "--net", net)
