#!/usr/bin/env python3
"""Steps the page of a run through whole runs in a headless browser, and compares what it shows with what tools/reference.py computes.

    tools/check_page.py [--first N] [--rows N] [--program] [--shot FOLDER] [TEXT ..]

Each text (the examples below where none is named) is run by tools/reference.py with the seed 1. Its page is tools/page.html with the
data in the place of `@@RUN@@`, as tools/reference.py makes them, or with --program the page that `./view --mode page` writes. In the
browser tools/check_page.js presses Next for each event, and then Back. After each press it compares the page's state with that of the
machine of tools/reference.py, and with tools/reference/marks.py the copies that are marked as stale, what the sentence says of them and of
lists of sharers, and the counters. It presses each other button that steps, and its keys, and compares the events that come; also without
plain instructions, for one word alone, played, by the strip, by addresses and in the presenter's view. It looks whether all that can be
pressed has a name, whether each text has a contrast of 4.5 in both schemes of colours, whether comments in UTF-8 are shown as they are, and
whether an event prints on one sheet. With
--program the text that `./view --mode state` prints before each of these events is compared too, with the one of the same machine. It is
outside the gate. With --shot it leaves pictures of the page in the folder, as the list SHOTS has them,
after an event that leaves a stale copy where there is one.

It exits with 0 where nothing differs, 1 otherwise, and 0 with a word of it where no browser is there."""
import argparse
import json
import os
import subprocess
import sys
import tempfile

from headless import Browser, command

HERE = os.path.dirname(os.path.abspath(__file__))
EXAMPLES = ["stale-copy", "signature", "eviction-race", "locked-counter", "crossed-locks", "trap", "endless", "touched-bit"]
MARK = "@@RUN@@"
# width and height of the window, how much larger the page is shown, and whether it is the presenter's view
# a text with comments of several bytes a sign
COMMENTS = "# Grüße, €, 语, 🙂\n.region m, 1 # é\n.phase\n.task 0, f, 0\nf: li a7, 0\n ecall # ‑\n"
SHOTS = [(1280, 800, 1, False), (1280, 800, 1.5, False), (1024, 768, 1, False),
         (1280, 800, 1, True), (1280, 800, 1.5, True), (1024, 768, 1, True)]


def reference(*words, data):
    done = subprocess.run([sys.executable, os.path.join(HERE, "reference.py")] + list(words), input=data, stdout=subprocess.PIPE)
    if done.returncode == 9:
        sys.exit("tools/reference.py can't take this text")
    return done.stdout


def page_of_reference(document, options, name):
    data = reference("page", str(options.first), str(options.rows), name, data=document).decode()
    with open(os.path.join(HERE, "page.html")) as file:
        return file.read().replace(MARK, data)


def page_of_program(document, options, _name):
    view = [os.path.join(HERE, "..", "view"), "--mode", "page", "--first", str(options.first), "--rows", str(options.rows)]
    done = subprocess.run(view, input=document, stdout=subprocess.PIPE)
    return done.stdout.decode() if done.returncode == 0 else None


def differing_states(document, first, count):
    """The events, in the range, before which `./view --mode state` prints another text than tools/reference.py."""
    differ = []
    for event in map(str, range(first, first + count)):
        view = [os.path.join(HERE, "..", "view"), "--mode", "state", "--event", event]
        shown = subprocess.run(view, input=document, stdout=subprocess.PIPE, stderr=subprocess.DEVNULL).stdout
        if shown != reference("state", event, data=document):
            differ.append(event)
    return differ


def check(browser, folder, path, options):
    with open(path, "rb") as file:
        text = file.read()
    document = reference("--mode", "trace", data=text)
    name = os.path.basename(path)
    page = (page_of_program if options.program else page_of_reference)(document, options, name)
    if page is None:
        print(name + ": ./view made no page")
        return False
    part = [str(options.first), str(options.rows)]
    states = reference("states", *part, data=document).decode()
    wanted = {"expected": [state for state in states.split("\n\n") if state], "marks": json.loads(reference("marks", *part, data=document))}
    address = "file://" + os.path.join(folder, name + ".html")
    with open(address[len("file://"):], "w") as file:
        file.write(page)
    browser.look(1280, 800)
    browser.go(address)
    with open(os.path.join(HERE, "check_page.js")) as file:
        browser.run(file.read())
    verdict = browser.run("checkPage(%s)" % json.dumps(wanted))
    faults = verdict["bad"] + looks(browser, folder)
    if browser.run("LINES.join('\\n') + '\\n'") != text.decode(errors="replace"):
        faults.append("the text is shown otherwise")
    stale, lists = len([pairs for pairs in wanted["marks"]["states"] if pairs]), len([one for one in wanted["marks"]["said"] if one["lists"]])
    print("%s: %d events, %d states with stale copies, %d sentences of lists, %d faults%s" % (
        name, verdict["events"], stale, lists, max(verdict["count"], len(faults)), "".join("; " + bad for bad in faults)), flush=True)
    if options.shot:
        stale_at = [at for at, pairs in enumerate(wanted["marks"]["states"]) if pairs]
        shots(browser, options.shot, name, address, stale_at[len(stale_at) // 2] if stale_at else 25)
    differ = differing_states(document, options.first, verdict["events"]) if options.program else []
    if options.program:
        print("%s: %d texts of the mode state differ%s" % (name, len(differ), "".join("; event " + event for event in differ[:20])))
    return not faults and not differ


def looks(browser, folder):
    """Faults of contrast in both schemes, and of paper."""
    faults = []
    for dark in (False, True):
        browser.look(1280, 800, dark=dark)
        for part in (0, 0.3, 0.6, 1):
            faults += browser.run("go(Math.round(COUNT * %s)), lowContrast()" % part)
    browser.look(1280, 800)
    for view in (False, True):
        sheets = browser.paper(os.path.join(folder, "sheet.pdf"))
        faults += ["an event prints on %d sheets" % sheets] if sheets != 1 else []
        browser.run("togglePresenter()")
    return sorted(set(faults))


def shots(browser, folder, name, address, event):
    os.makedirs(folder, exist_ok=True)
    for width, height, scale, is_presenter in SHOTS:
        for scheme in ("light", "dark"):
            browser.look(width, height, scale, scheme == "dark")
            browser.go(address + "#event=%d&present=%d" % (event, is_presenter))
            view = "-presenter" if is_presenter else ""
            browser.shot(os.path.join(folder, "%s-%dx%d-%d%s-%s.png" % (name, width, height, 100 * scale, view, scheme)))


def main():
    words = argparse.ArgumentParser(description=__doc__, formatter_class=argparse.RawDescriptionHelpFormatter)
    words.add_argument("--first", type=int, default=0)
    words.add_argument("--rows", type=int, default=4096)
    words.add_argument("--program", action="store_true")
    words.add_argument("--shot")
    words.add_argument("texts", nargs="*")
    options = words.parse_args()
    if command() is None:
        print("no browser is here: nothing was checked")
        return 0
    with tempfile.TemporaryDirectory() as folder, Browser() as browser:
        comments = os.path.join(folder, "comments.s")
        with open(comments, "wb") as file:
            file.write(COMMENTS.encode())
        texts = options.texts or [comments] + [os.path.join(HERE, "..", "examples", name + ".s") for name in EXAMPLES]
        return 0 if all([check(browser, folder, path, options) for path in texts]) else 1


if __name__ == "__main__":
    sys.exit(main())
