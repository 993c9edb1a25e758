"""What else `view` shows of a run: its account, its numbers beside lists, its page and its states, each against tools/reference.py."""
import pathlib
import re

import reference
from .counting import KIND, check, programs, run, text_of, written


def accounts_are_those_of_the_reference():
    """The accounts and lists of the examples that the check accepts, by each group and in each form, whatever the outcome of the run."""
    examples = [path.stem for path in sorted(pathlib.Path("examples").glob("*.s")) if path.stem != "realistic"]
    shapes = [["--seed", "7"], ["--seed", "3", "--banks", "2", "--sets", "1", "--ways", "1"]]
    denovo, outcomes = programs("denovo")[0], set()
    for example in examples if KIND == "proved" else examples[::4]:
        for words in shapes:
            ran = run(denovo + ["--mode", "trace"] + words, text_of(example))
            if ran.returncode == 2:
                continue
            outcomes.add(ran.returncode)
            for by in ("run", "phase", "core", "region"):
                for form in ("text", "csv"):
                    for mode, second in (("account", reference.account), ("lists", reference.lists), ("traffic", reference.traffic)):
                        wanted = written(second(ran.stdout, by, form)[1])
                        seen = run(programs("view")[0] + ["--mode", mode, "--by", by, "--form", form], ran.stdout)
                        check(f"{mode} of {example} {' '.join(words)}, by {by}, as {form}", (seen.returncode, seen.stdout) == (0, wanted), seen.returncode)
    check("accounts of runs of each outcome", outcomes == {0, 3, 4, 5} or KIND != "proved", outcomes)
    for launcher in programs("view")[1:]:
        ran = run(["bash", "-o", "pipefail", "-c", f"./denovo --mode trace < examples/signature.s | {launcher[0]} --mode account --by core"])
        document = run(denovo + ["--mode", "trace"], text_of("signature")).stdout
        check("an account by a pipe", (ran.returncode, ran.stdout) == (0, written(reference.account(document, "core", "text")[1])))
    for text in (text_of("conflict"), b"nonsense\n"):
        document = written(reference.document(text.decode(), {"banks": 1, "sets": 1, "ways": 1, "fuel": 1}, []))
        replay = run(denovo + ["--mode", "replay"], document)
        for mode in ("chart", "account", "lists", "traffic", "state", "answer", "page", "data"):
            ran = run(programs("view")[0] + ["--mode", mode], document)
            check(f"a refused text, in the mode {mode}", (ran.returncode, ran.stdout) == (2, replay.stdout) and replay.returncode == 2, ran.stdout)


def answers_for_readers_are_those_of_the_reference():
    """The answers for readers of the examples that the check accepts, in both bases, whatever the outcome of the run."""
    denovo, outcomes = programs("denovo")[0], set()
    for example in sorted(path.stem for path in pathlib.Path("examples").glob("*.s")):
        document = run(denovo + ["--mode", "trace", "--seed", "1"], text_of(example))
        if document.returncode == 2:
            continue
        outcomes.add(document.returncode)
        for base in (10, 16):
            wanted = written(reference.readers_answer(document.stdout, base)[1])
            for view in programs("view") if example == "signature" else programs("view")[:1]:
                seen = run(view + ["--mode", "answer", "--base", str(base)], document.stdout)
                check(f"{view[0]}: the answer of {example} for readers, base {base}", (seen.returncode, seen.stdout) == (0, wanted), seen.returncode)
    check("answers for readers of runs of each outcome", outcomes == {0, 3, 4, 5}, outcomes)


def page_with(view, data):
    """What a program that makes these data of a page writes: the launcher puts them into the page."""
    return data if view != ["./view"] else pathlib.Path("tools/page.html").read_bytes().replace(b"@@RUN@@", data)


def pages_are_those_of_the_reference():
    """Data of pages, of whole runs, from an event on and with other ticks. Behind the last event there is no page."""
    denovo = programs("denovo")[0]
    runs = (("stale-copy", []), ("signature", ["--banks", "2"]), ("crossed-locks", ["--seed", "1"]), ("trap", []), ("endless", []), ("touched-bit", []),
            ("constants", []), ("eviction-race", ["--sets", "1", "--ways", "1"]), ("guarded-words", ["--seed", "7", "--sets", "1", "--ways", "2"]))
    for example, words in runs if KIND == "proved" else runs[:3]:
        document = run(denovo + ["--mode", "trace"] + words, text_of(example)).stdout
        last = int(re.search(rb"^events (\d+)$", document, re.M)[1]) - 1
        for first, rows, ticks in ((0, 4096, (1, 10, 5)), (last // 2, 7, (1, 10, 5)), (last, 20000, (1, 10, 5)), (3, 2, (7, 1, 300))):
            given = ["--first", str(first), "--rows", str(rows), "--tick-core", str(ticks[0]), "--tick-bank", str(ticks[1]), "--tick-mail", str(ticks[2])]
            wanted = reference.page(document, "", first, rows, reference.ticks_by(*ticks))[1].encode()
            for view in programs("view"):
                ran = run(view + ["--mode", "page"] + given, document)
                check(f"{view[0]}: the page of {example} {' '.join(words + given)}", (ran.returncode, ran.stdout) == (0, page_with(view, wanted)), ran.returncode)
        wanted = reference.page(document, "", 0, 4096, reference.ticks_by(1, 10, 5))[1].encode()
        for view in programs("view"):
            ran = run(view + ["--mode", "page"], document)
            check(f"{view[0]}: the page of {example} {' '.join(words)}", (ran.returncode, ran.stdout) == (0, page_with(view, wanted)), ran.returncode)
            ran = run(view + ["--mode", "page", "--first", str(last + 1)], document)
            check(f"{view[0]}: a page of {example} behind the last event", (ran.returncode, ran.stdout) == (1, b"refused usage\n"), ran.returncode)
    for view in programs("view"):
        document = run(denovo + ["--mode", "trace"], b".region m, 1\n").stdout
        wanted = reference.page(document, "", 0, 4096, reference.ticks_by(1, 10, 5))[1].encode()
        ran = run(view + ["--mode", "page"], document)
        check(f"{view[0]}: the page of a run without an event", (ran.returncode, ran.stdout) == (0, page_with(view, wanted)), ran.returncode)
        ran = run(["sh", "-c", '"$@" >&-', "sh", *view, "--mode", "page"], document)
        check(f"{view[0]}: a page on a closed standard output", ran.returncode == 7, ran.returncode)


# The runs whose states are compared: an example and its words, and in how many shares, since one of them is long.
STATE_RUNS = [("stale-copy", [], 1), ("signature", ["--banks", "2"], 1), ("crossed-locks", ["--seed", "1"], 1), ("trap", [], 1), ("touched-bit", [], 1),
              ("eviction-race", ["--sets", "1", "--ways", "1"], 1), ("guarded-words", ["--seed", "7", "--sets", "1", "--ways", "2"], 8)]


def states_are_those_of_the_reference(example, words, share, shares):
    """A share of the states of documents, before events of all kinds and at the end. The documents are a run, and what the replay refuses:
    runs without their last events, and with two neighbouring events in the other order or an event twice."""
    document, statuses = run(programs("denovo")[0] + ["--mode", "trace"] + words, text_of(example)).stdout, set()
    head, count, lines = re.fullmatch(rb"(.*\nevents )(\d+)\n(.*)", document, re.S).groups()
    events = lines.split(b"\n")[:-1]
    last = len(events)

    def told(rows):
        return head + b"%d\n" % len(rows) + b"".join(row + b"\n" for row in rows)

    check(f"the events of {example} {' '.join(words)}", told(events) == document and last == int(count) and last > 12)
    middle = last // 2
    whole = [(document, number) for number in range(0, last + 2, max(1, last // 12))] + [(document, last), (document, last + 1)]
    short = [(told(events[:middle]), number) for number in (0, middle, middle + 1)]
    twice = [(told(events[:at + 1] + events[at:]), last + 1) for at in (0, middle, last - 1)]
    other = [(told(events[:at] + [events[at + 1], events[at]] + events[at + 2:]), number) for at in range(2, last - 2, 5) for number in (at, last)]
    for shown, number in (whole + short + twice + other)[share::shares]:
        status, wanted = reference.state(shown, number)
        statuses.add(status)
        for view in programs("view")[:1]:
            ran = run(view + ["--mode", "state", "--event", str(number)], shown)
            check(f"{view[0]}: the state of {example} {' '.join(words)} before event {number}, status {status}",
                  (ran.returncode, ran.stdout) == (status, written(wanted)), ran.returncode)
    if shares == 1:
        check(f"the states of {example} that are asked for, and those before them", statuses == {0, 1, 3}, statuses)


def a_run_without_an_event_has_one_state():
    for view in programs("view"):
        document = run(programs("denovo")[0] + ["--mode", "trace"], b".region m, 1\n").stdout
        ran = run(view + ["--mode", "state"], document)
        check(f"{view[0]}: the state of a run without an event", (ran.returncode, ran.stdout) == (0, written(reference.state(document, 0)[1])))
        for number in (1, 4294967295):
            ran = run(view + ["--mode", "state", "--event", str(number)], document)
            check(f"{view[0]}: --event {number}, behind the end", (ran.returncode, ran.stdout) == (1, b"refused usage\n"))
        ran = run(view + ["--mode", "state", "--event", "1"], b"no document\n")
        check(f"{view[0]}: what is no document has no state", (ran.returncode, ran.stdout) == (2, b"refused trace head\n"))


def a_state_has_as_many_mails_as_may_be():
    """A script comes to a state with as many mails in flight as may be: for each of two cores one for each of its cache's four entries and one
    more, and one for the lock."""
    cases = reference.sections(pathlib.Path("crates/worked_rows/data/scripts.cases").read_text())
    case = reference.read_case(next(lines for lines in cases if lines[0] == "case as-many-mails-as-may-be"), {})
    words = [line.split() for line in case["script"][0].decode().splitlines()]
    before = words[:words.index(["handle", "core", "0", "1"])]
    events = [reference.event_of(line[:-2] if "times" in line else line) for line in before for _ in range(int(line[-1]) if "times" in line else 1)]
    shown = written(reference.document(case["text"][0].decode(), reference.options(case["words"].split()), events))
    for view in programs("view"):
        ran = run(view + ["--mode", "state", "--event", str(len(events))], shown)
        mails = [line for line in ran.stdout.splitlines() if line.startswith(b"mail ")]
        check(f"{view[0]}: as many mails as may be in flight", (ran.returncode, len(mails)) == (0, 2 * (2 * 2 + 1) + 1), ran.stdout)
