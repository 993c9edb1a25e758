#!/usr/bin/env python3
"""A second program for the machine: what `denovo` has to write, computed without any of its code.

It is written from docs/PROTOCOL.md, docs/LANGUAGE.md and the rules of the machine, in plain Python 3 with nothing but its
standard library, and it is no part of the proved program: it stands here so that the outputs in crates/worked_rows/data have
somewhere else to come from. It takes texts that assemble and check; it refuses none properly.

    tools/reference.py [WORDS] < TEXT       what the program has to write, for the words of all modes but check and list. With `--order time`
                                            the next event is that which can start first, and no seed is used; `--latency N` and
                                            `--net uniform|mesh` say how long messages are on their way
    tools/reference.py script FILE [WORDS] < TEXT
                                            the same for a script of events (crates/worked_rows/data/README.md has the form)
    tools/reference.py events [WORDS] < TEXT
                                            the events of a run, one a line, in the form of a script
    tools/reference.py account [run|phase|core|region [csv|text]] < DOCUMENT
                                            what the run of a document cost and why, as lines `measure,group,count`, or as the run's
                                            report and a table
    tools/reference.py lists [run|phase|core|region [csv|text]] < DOCUMENT
                                            the same of the run beside lists of sharers
    tools/reference.py traffic [run|phase|core|region [csv|text]] < DOCUMENT
                                            the same of the run's messages by their kinds, and of their bytes
    tools/reference.py readers [10|16] < DOCUMENT
                                            the answer of a document's run for readers, with numbers of this base
    tools/reference.py state [N] < DOCUMENT the state before event N of a document, from 0, and which events may come there, in the lines
                                            of docs/VIEWS.md
    tools/reference.py chart [--first=N] [--rows=N] [--tick-core=N] [--tick-bank=N] [--tick-mail=N] [--columns=used]
                             [--plain=off|lines] [--words=LIST] [--actors=LIST] [--fit=slide] [--latency=N] [--net=mesh] < DOCUMENT
                                            the message chart of a document that replays, by docs/VIEWS.md
    tools/reference.py page [FIRST [ROWS [NAME]]] [--latency=N] [--net=mesh] < DOCUMENT
                                            the data of the page of a document's run, from event FIRST on (0) with ROWS events at most
                                            (4096), with the ticks 1, 10 and 5
    tools/reference.py data [FIRST [ROWS]] [--latency=N] [--net=mesh] < DOCUMENT
                                            the data of a document's run for other tools, from event FIRST on (0), all events or ROWS at most
    tools/reference.py states [FIRST [ROWS]] < DOCUMENT
                                            the state before each event of the page and behind the last one, one fact a line, with an empty
                                            line behind each state
    tools/reference.py marks [FIRST [ROWS]] < DOCUMENT
                                            the stale copies in each of these states, and what the page says of each event about stale
                                            copies and about lists of sharers, as JSON
    tools/reference.py cases FOLDER [NAME]  runs the cases of the folder's files, of those modes and of scripts, and says which
                                            outputs aren't the computed ones, and how many cases reached each kind of event and
                                            each row of the tables of docs/PROTOCOL.md
    tools/reference.py claim [WORDS] < TEXT
                                            the claim of a run, in the form of docs/COMPARING.md: of the mode run, or in the mode flat by
                                            the least grants
    tools/reference.py judge < CLAIM        whether one thread on one memory does what a claim says, and else where it differs first
    tools/reference.py diagnose < CLAIM     the same, and what leads from there to the fault
    tools/reference.py settled < CLAIM      whether a claim without grants and loads has what all runs of its text have in common
    tools/reference.py judge|diagnose|settled batch < CLAIMS
                                            the same of claims that follow each other
    tools/reference.py outcomes [--fuel N] < TEXT
                                            what every run of a text has in common, whatever order its locks are granted in
    tools/reference.py sweep [WORDS] < TEXT what the program sweep has to write, for a text that assembles and checks
    tools/reference.py orders [--fuel N] [--count N] < TEXT
                                            holds what is settled against N random orders of grants (20) on one memory: `settled`, `open`, or
                                            what differs
    tools/reference.py .. --without drop|touched|signatures ..
                                            the same with a rule of the protocol left out: copies aren't dropped at a Go or a Grant, aren't
                                            marked, or all copies of a lock's words are dropped at its Grant. That isn't the protocol, and
                                            standard error says so in its first line. `.. claim --without drop < TEXT | ./referee` finds
                                            what goes wrong
    tools/reference.py .. --signature BITS,HASHES ..
                                            the same with signatures of so many bits, a power of two, and one or two hashes of a word in place
                                            of 256 and 2. That isn't the protocol either. A document has to be read with the sizes by which it
                                            was made
    tools/reference.py text SIZE            the text that the mode work runs for the size
    tools/reference.py rows                 what a run of the small examples below has to come to, for the seeds 1 to 50
    tools/reference.py --help               this page

It exits with the program's exit code, 1 where cases or rows differ, and 9 where it can't take what it is given.
"""
import sys

sys.dont_write_bytecode = True
from ending import end  # noqa: E402: the folder of this file has the modules
from reference.command import main  # noqa: E402

if __name__ == "__main__":
    sys.exit(end("tools/reference.py", lambda: main(__doc__)))
