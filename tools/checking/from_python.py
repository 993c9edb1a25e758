"""What the module for Python refuses before it calls the library, so that no number is cut and no word becomes two."""
import copy
import pathlib
import pickle
import sys

from .counting import check


def raised(call):
    """The kind of error that a call ends with, and what it says."""
    try:
        call()
    except Exception as fault:  # noqa: BLE001 any kind is looked at
        return type(fault).__name__, str(fault)
    return None, ""


def calls_are_refused():
    sys.path.insert(0, str(pathlib.Path("python").resolve()))
    import denovo
    text, large = ".version 2\n", 1 << 32
    machine = denovo.Stepper.__new__(denovo.Stepper)
    for name, call, kind, told in (
            ("a fuel of 2^32", lambda: denovo.Stepper(text, fuel=large), "ValueError", "fuel"),
            ("banks of 2^32 + 4", lambda: denovo.Stepper(text, banks=large + 4), "ValueError", "banks"),
            ("sets below 0", lambda: denovo.Stepper(text, sets=-1), "ValueError", "sets"),
            ("ways as a text", lambda: denovo.Stepper(text, ways="4"), "TypeError", "ways"),
            ("a fraction of ways", lambda: denovo.Stepper(text, ways=4.0), "TypeError", "ways"),
            ("an actor of 2^32", lambda: denovo._event(f"i {large}"), "ValueError", "actor"),
            ("a number of 2^32", lambda: denovo._event(f"h k {large}"), "ValueError", "number"),
            ("a number in other digits", lambda: denovo._event("i \u0661"), "ValueError", "no event"),
            ("an event that is a number", lambda: denovo._event(1), "TypeError", "line of a trace"),
            ("a word of 2^32", lambda: machine.word(large), "ValueError", "index"),
            ("a word below 0", lambda: machine.word(-1), "ValueError", "index"),
            ("a copy", lambda: copy.copy(machine), "TypeError", "copied"),
            ("a deep copy", lambda: copy.deepcopy(machine), "TypeError", "copied"),
            ("a pickled machine", lambda: pickle.dumps(machine), "TypeError", "copied"),
            ("no claim", lambda: denovo.referee([]), "ValueError", "no claim"),
            ("answers of a list", lambda: denovo.referee([b"x"], mode="answer"), "ValueError", "list"),
            ("the least runs of a list", lambda: denovo.referee([b"x"], mode="least"), "ValueError", "list"),
            ("a zero byte in an option", lambda: denovo.chart(b"denovo-trace 1\n", words="run\0--seed"), "ValueError", "zero byte"),
            ("another mode", lambda: denovo.run(text, mode="run\0--seed"), "WrongOption", "one of run,"),
            ("a name that isn't quite an option's", lambda: denovo.run(text, sed=3), "UnknownOption", "no option sed; did you mean seed?"),
            ("an option of charts in a run", lambda: denovo.trace(text, zoom=3), "UnknownOption", "no option zoom; there are banks, "),
            ("an option of charts that isn't quite one", lambda: denovo.chart(text, colums="used"), "UnknownOption", "did you mean columns?"),
            ("an option of a run with a trace", lambda: denovo.chart(b"denovo-trace 1\n", seed=3), "UnknownOption", "no option seed of a trace"),
            ("a seed of 2^32", lambda: denovo.run(text, seed=large), "WrongOption", "seed is 4294967296, and has to be a number from 0 to 4294967295"),
            ("a truth value for a number", lambda: denovo.run(text, banks=True), "WrongOption", "a number from 1 to 16"),
            ("a number as a text", lambda: denovo.account(text, sets="4"), "WrongOption", "sets is '4'"),
            ("another size of a chart", lambda: denovo.chart(text, fit="wall"), "WrongOption", "one of rows, slide"),
            ("too much fuel for outcomes", lambda: denovo.outcomes(text, fuel=32769), "WrongOption", "from 1 to 32768"),
            ("a mode that the referee hasn't", lambda: denovo.referee(b"x", mode="judges"), "WrongOption", "one of judge, diagnose,"),
            ("the name of a file as a text", lambda: denovo.run("README.md"), "ValueError", "pathlib.Path('README.md') is that file"),
            ("a path that isn't there", lambda: denovo.run(pathlib.Path("nowhere.s")), "FileNotFoundError", "nowhere.s"),
            ("a zero byte in a word", lambda: denovo.call("denovo", ["--seed\0007"], text), "ValueError", "zero byte"),
            ("a text that is a number", lambda: denovo.run(5), "TypeError", "int"),
            ("a text that is a list of numbers", lambda: denovo.run([1, 2]), "TypeError", "list"),
            ("no text", lambda: denovo.run(None), "TypeError", "NoneType"),
            ("another program", lambda: denovo.call("strlen", [], text), "ValueError", "strlen"),
            ("one source of two", lambda: denovo.call("explain", ["TEXT"], text), "TypeError", "2 sources"),
            ("words that are a text", lambda: denovo.call("denovo", "--seed", text), "TypeError", "list")):
        got = raised(call)
        check(f"python: {name}", got[0] == kind and told in got[1], got)


def answered(denovo, call):
    """The words with which a call asks the programs, which answer a trace without events."""
    asked, before = [], denovo.call
    denovo.call = lambda program, words, *sources: (asked.append((program, list(map(str, words)), sources)), (0, b"denovo-trace 1\nevents 0\n"))[1]
    try:
        call()
    finally:
        denovo.call = before
    return asked


def options_go_where_they_belong():
    """Options of a chart go to the program view, those of the run to denovo, and ticks to both; a path is read."""
    import denovo
    path = pathlib.Path("examples/store-five.s")
    text = path.read_bytes()
    check("python: the version", denovo.__version__ == pathlib.Path("VERSION").read_text().strip(), denovo.__version__)
    asked = answered(denovo, lambda: denovo.chart(path, words=["m[0]", "m[1]"], plain="off", seed=3, tick_bank=4, rows=None))
    trace = ("denovo", ["--mode", "trace", "--seed", "3", "--tick-bank", "4"], (text,))
    view = ("view", ["--mode", "chart", "--words", "m[0],m[1]", "--plain", "off", "--tick-bank", "4"], (b"denovo-trace 1\nevents 0\n",))
    check("python: the words of a chart", asked == [trace, view], asked)
    asked = answered(denovo, lambda: denovo.run(path, banks=2))
    check("python: a path is read", asked == [("denovo", ["--banks", "2"], (text,))], asked)


def states_have_parts():
    """The state that docs/VIEWS.md shows, in parts, which were worked out by hand; and one with a lock and a signature."""
    import denovo
    page = pathlib.Path("docs/VIEWS.md").read_text()
    state = denovo.State(page[page.index("event 40 of 57"):].split("```")[0])
    core = denovo.CoreState(1, 2, "goes on", 0x1008, "lw x6, 0(x5)", 2, "shared[0] (word 0)", [], False, [denovo.Entry(1, "seen[0]", "registered", 5, "")])
    check("python: a core of a state", state.cores[1] == core, state.cores[1])
    check("python: the other core", (state.cores[0].task, state.cores[0].has_arrived, state.cores[0].pc) == ("no task", True, None), state.cores[0])
    check("python: a message of a state", state.messages == [denovo.Message("h c 1 4", "bank 0", "read-req shared[0] (word 0) core 1", [])], state.messages)
    check("python: homes of a state", state.homes == {"shared[0] (word 0)": "registrant core 0", "seen[0] (word 1)": "registrant core 1"}, state.homes)
    lines = ("keeper phase 0 of 1", "core 3 phase 0", "core 3 task goes on", "core 3 at 0x00001058, line 37: ecall", "core 3 retired 22", "core 3 holds guard (lock 0)",
             "core 3 entry word 7: valid 0x00000009, marked", "lock guard (lock 0): holder core 3", "lock guard (lock 0): queue core 1",
             "mail c 0 7 to bank 0: release guard (lock 0) core 0", "mail c 0 7: may hold shared[0] (word 0)", "")
    state = denovo.State("\n".join(lines))
    check("python: an entry without a name", state.cores[0].entries == [denovo.Entry(7, "word 7", "valid", 9, "marked")], state.cores)
    check("python: locks", (state.cores[0].holds, state.locks) == (["guard (lock 0)"], {"guard (lock 0)": ["holder core 3", "queue core 1"]}), state.locks)
    check("python: what a signature may hold", state.messages[0].may_hold == ["shared[0] (word 0)"], state.messages)
