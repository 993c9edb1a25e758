"""Pictures of runs, and the options of `view`: where a chart begins, and which words a mode leaves unused."""
import pathlib

import reference
from .counting import check, programs, run, text_of


def a_run_is_drawn_by_a_pipe():
    for denovo, view in zip(programs("denovo"), programs("view")):
        for example in ("signature", "stale-copy", "store-five"):
            line = f"{denovo[0]} --banks 1 --mode trace < examples/{example}.s | {view[0]}"
            ran = run(["bash", "-o", "pipefail", "-c", line])
            wanted = pathlib.Path("docs/charts", example + ".svg").read_bytes()
            check(line, (ran.returncode, ran.stdout) == (0, wanted))
        for example, words, first, rows, used in (
                ("trap", [], 0, 1000, True), ("crossed-locks", ["--seed", "1"], 0, 1000, False), ("stale-copy", [], 20, 15, True),
                ("signature", [], 9, 1, True), ("eviction-race", ["--sets", "1", "--ways", "1"], 5, 40, False), ("many-readers", [], 30, 50, True)):
            document = run(denovo + ["--mode", "trace"] + words, text_of(example)).stdout
            ran = run(view + ["--first", str(first), "--rows", str(rows)] + ["--columns", "used"] * used, document)
            wanted = reference.Chart(document, first, rows, used=used).text().encode()
            check(f"{view[0]}: {example}, {rows} rows from event {first}", (ran.returncode, ran.stdout) == (0, wanted))
            check(f"{example}: fewer banks", not used or wanted != reference.Chart(document, first, rows).text().encode())
        leaves_out(denovo, view)
        document = run(denovo + ["--mode", "trace"], text_of("store-five")).stdout
        for mode in ("chart", "account", "answer", "page", "data"):
            ran = run(view + ["--mode", mode], document[:document.rindex(b"\n", 0, -1) + 1].replace(b"\nevents 10\n", b"\nevents 9\n"))
            wanted = (2, b"refused trace incomplete\n")
            check(f"{view[0]} --mode {mode}: a run without its last event isn't seen", (ran.returncode, ran.stdout) == wanted)


def leaves_out(denovo, view):
    """Charts of which events are left out, and slides."""
    for example, words in (
            ("signature", ["--plain=off"]), ("signature", ["--plain=lines"]), ("signature", ["--words=shared[0]", "--fit=slide"]),
            ("signature", ["--words=0x10000000"]), ("signature", ["--plain=off", "--words=shared[0]", "--actors=core0,bank0,keeper", "--columns=used"]),
            ("stale-copy", ["--plain=on", "--fit=rows"]), ("many-readers", ["--actors=core1,core3", "--columns=used", "--fit=slide"]),
            ("constants", ["--plain=lines", "--actors=core0", "--fit=slide"]), ("crossed-locks", ["--actors=core1"]),
            ("crossed-locks", ["--words=nowhere[0]", "--columns=used"]), ("store-five", ["--words=nowhere[0]"]),
            ("store-five", ["--actors=,core,core00", "--first=3"]), ("eviction-race", ["--rows=30", "--plain=off", "--actors=bank0"]),
            ("signature", ["--fit=slide"]), ("locked-counter", ["--fit=slide", "--first=40"]), ("stencil", ["--fit=slide", "--first=2400"]),
            ("many-readers", ["--fit=slide", "--plain=off", "--first=40"]), ("read-sharing", ["--fit=slide", "--words=nowhere[0]", "--rows=4096"])):
        document = run(denovo + ["--mode", "trace", "--seed", "1"], text_of(example)).stdout
        o = dict(word[2:].split("=") for word in words)
        wanted = reference.Chart(document, int(o.get("first", 0)), int(o.get("rows", 1000)), used=o.get("columns") == "used", plain=o.get("plain", "on"),
                                 words=o.get("words", ""), actors=o.get("actors", ""), slide=o.get("fit") == "slide").text().encode()
        ran = run(view + words, document)
        check(f"{view[0]}: {example} {' '.join(words)}", (ran.returncode, ran.stdout) == (0, wanted))
        check(f"{example} {' '.join(words)}: what is left out is said", (b"; kept " in wanted) == (words != ["--plain=on", "--fit=rows"]))
        width, height = map(int, wanted.split(b"viewBox='0 0 ")[1].split(b"'")[0].split())
        check(f"{example} {' '.join(words)}: nothing on a slide is made smaller", "--fit=slide" not in words or (width <= 1280 and height <= 720))
    document = run(denovo + ["--mode", "trace", "--fuel", "1"], text_of("constants")).stdout
    ran, wanted = run(view + ["--plain", "lines"], document), reference.Chart(document, plain="lines").text().encode()
    check(f"{view[0]}: a task that ends at the second word of its line has a row there", ran.stdout == wanted and wanted.count(b"ends: fuel") == 4)


def a_chart_begins_at_an_event():
    """The first row is that of the event that is asked for; behind the last event there is none. Only a chart has rows."""
    events = [b"\nevents 10\n", b"\nevents 0\n"]
    for view in programs("view"):
        for text, count, last in ((text_of("store-five"), events[0], 9), (b".region m, 1\n", events[1], 0)):
            document = run(programs("denovo")[0] + ["--mode", "trace"], text).stdout
            check(f"the document has{count.decode().rstrip()}", count in document)
            ran = run(view + ["--first", str(last)], document)
            check(f"{view[0]}: from the last event on", ran.returncode == 0 and ran.stdout.startswith(b"<svg"), ran.returncode)
            for first in (last + 1, 4294967295):
                ran = run(view + ["--first", str(first)], document)
                check(f"{view[0]}: --first {first}, behind the last event", (ran.returncode, ran.stdout) == (1, b"refused usage\n"))
                ran = run(view + ["--mode", "account", "--first", str(first)], document)
                check(f"{view[0]}: an account has no first event", ran.returncode == 0, ran.returncode)
        ran = run(view + ["--first", "10"], b"no document\n")
        check(f"{view[0]}: what is no document has no last event", (ran.returncode, ran.stdout) == (2, b"refused trace head\n"))


def each_mode_has_its_own_options():
    """A mode leaves the options of others unused; each has to be in its range. The data of a run may have any number of rows."""
    document = run(programs("denovo")[0] + ["--mode", "trace"], text_of("store-five")).stdout
    ranges = (("--rows", "0"), ("--rows", "20001"), ("--columns", "none"), ("--plain", "yes"), ("--fit", "page"), ("--tick-core", "0"), ("--tick-mail", "1000001"), ("--by", "word"),
              ("--form", "svg"), ("--event", "4294967296"), ("--base", "8"))
    for view in programs("view"):
        for mode, other in (("chart", ["--by", "core", "--form", "csv", "--event", "99", "--base", "16"]),
                            ("account", ["--first", "99", "--rows", "7", "--columns", "used", "--plain", "off", "--words", "m[0]", "--actors", "core0", "--fit", "slide", "--tick-bank", "2", "--event", "99"]),
                            ("lists", ["--first", "99", "--rows", "7", "--columns", "used", "--tick-bank", "2", "--event", "99"]),
                            ("state", ["--first", "99", "--rows", "4097", "--columns", "used", "--tick-bank", "2", "--by", "core", "--form", "csv"]),
                            ("answer", ["--first", "99", "--rows", "20000", "--columns", "used", "--by", "core", "--form", "csv", "--event", "99"]),
                            ("page", ["--columns", "used", "--by", "core", "--form", "csv", "--event", "99"]),
                            ("data", ["--rows", "4294967295", "--columns", "used", "--by", "core", "--form", "csv", "--event", "99"])):
            plain = run([*view, "--mode", mode], document)
            check(f"{view[0]} --mode {mode} {' '.join(other)}", run([*view, "--mode", mode, *other], document).stdout == plain.stdout)
            for words in ranges:
                if (mode, words) == ("data", ("--rows", "20001")):
                    words = ("--rows", "4294967296")
                ran = run([*view, "--mode", mode, *words], document)
                check(f"{view[0]} --mode {mode} {' '.join(words)}", (ran.returncode, ran.stdout) == (1, b"refused usage\n"), ran.returncode)
        for words in (("--mode", "pages"), ("--mode", "states"), ("--mode", ""), ("--rows", "4097"), ("--rows", "x"), ("--first", "-1"),
                      ("--by", "run", "--by", "run")):
            ran = run([*view, *words], document)
            check(f"{view[0]} {' '.join(words)}", (ran.returncode, ran.stdout) == (1, b"refused usage\n"), ran.returncode)
        for words in (("--mode", "chart"), ("--rows", "1000"), ("--rows=4096", "--tick-bank", "10"), ("--columns=all",), ("--plain", "on", "--fit", "rows"), ("--words=", "--actors="), ("--by", "run", "--form=text")):
            check(f"{view[0]} {' '.join(words)}: what isn't asked for", run([*view, *words], document).stdout == run(view, document).stdout)
        first = run([*view, "--mode", "state"], document).stdout
        check(f"{view[0]} --mode state: what isn't asked for", first == run([*view, "--mode", "state", "--event=0"], document).stdout != b"")
