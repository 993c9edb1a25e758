"""The cases of a folder such as crates/worked_rows/data, whose README.md has their form: which of their outputs are the computed ones,
and what kinds of events and rows of the tables they reach."""

import os
import re
import sys

from .answers import answer, opened, options
from .documents import replayed
from .kinds import KINDS, ROWS, reached_rows
from .report import STATUS, agree_with_flat, count_text, outcome, run_text
from .scripts import play
from .texts import assemble
from .ticks import searched


def sections(text):
    """The cases of a file, each as a list of lines."""
    cases, lines = [], None
    for line in text.split("\n"):
        if line.startswith("case "):
            lines = []
            cases.append(lines)
        if lines is not None:
            lines.append(line)
    return cases


def expanded(lines):
    """The case, once for each of its rows: (number or None, lines)."""
    for place, line in enumerate(lines):
        if line == "each" or line.startswith("each "):
            if line == "each":
                rows = [[column.strip() for column in row[2:].split("|")] for row in lines[place + 1:] if row and row[0] != "#"]
            else:
                low, high = line[5:].split(" to ")
                rows = [[str(n)] for n in range(int(low), int(high) + 1)]
            for row in rows:
                yield " / ".join(row), [re.sub(r"\$([1-9])", lambda m: row[int(m.group(1)) - 1], other)
                                        for other in lines[:place]]
            return
    yield None, lines


def read_case(lines, texts):
    """The case's name, and what it gives. An output is a list of parts."""
    case, given = {}, None
    for line in lines:
        if line == "" or line.startswith("#"):
            continue
        if line.startswith("  "):
            given[-1] += line[2:].encode() + b"\n"
            continue
        word, _, rest = line.partition(" ")
        if word in ("text", "output", "script"):
            given = case[word] = [texts[rest[3:]] if rest else b""]
        elif word == "repeat":
            count, _, what = rest.partition(" ")
            for n in range(int(count)):
                given[-1] += what.replace("@", str(n)).encode() + b"\n"
        elif word == "part":
            given[-1] += rest.encode()
        elif word == "bytes":
            given[-1] += bytes(int(piece, 16) for piece in rest.split())
        elif word == "times":
            given[-1] *= int(rest)
        elif word == "grants":
            given[-1] += "".join("grant %s\n" % grant.replace(".", " ") for grant in rest.split()).encode()
        elif word == "counts":
            counts, named = dict.fromkeys(KINDS, 0), rest.split()
            for kind, count in zip(named[::2], named[1::2]):
                assert kind in counts
                counts[kind] = int(count)
            given[-1] += "".join(line + "\n" for line in count_text(counts)).encode()
        elif word == "front":
            given[-1] = given[-1][:int(rest)]
        elif word == "...":
            given.append(b"")
        else:
            case[word] = rest
    return case


def stand_in(parts, output):
    """Whether the parts stand in the output, with any whole lines between them."""
    if len(parts) == 1:
        return output == parts[0]
    if not output.startswith(parts[0]):
        return False
    rest = output[len(parts[0]):]
    return any((at == 0 or rest[at - 1:at] == b"\n") and stand_in(parts[1:], rest[at:]) for at in range(len(rest) + 1))


def run_cases(folder, only=None):
    texts, agree, runs, times, differ, left, reached = {}, 0, 0, 0, 0, 0, dict.fromkeys(KINDS, 0)
    rows_reached = dict.fromkeys(ROWS, 0)
    for name in sorted(os.listdir(folder)):
        with open(os.path.join(folder, name), "rb") as file:
            texts[name] = file.read()
    files = sorted(name for name in texts if name.endswith(".cases"))
    for number, name in enumerate(files, 1):
        print("file %d of %d: %s, %d cases agree so far" % (number, len(files), name, agree), file=sys.stderr, flush=True)
        for lines in sections(texts[name].decode()):
            title = lines[0][5:]
            for row, filled in expanded(lines):
                case = read_case(filled, texts)
                texts[title] = case.get("text", [b""])[0]
                if only and only != title:
                    continue
                text = case.get("text", [b""])[0].decode("utf-8", "replace")
                words = case.get("words", "").split()
                refused = case["exit"] not in ("0", "3", "4", "5", "7") or case["output"][0].startswith(b"refus")
                # of the words it refuses only those of the order and of the network
                by_order = case["exit"] == "1" and re.search(r"--(order|latency|net)\b", " ".join(words)) is not None
                if "check" in words or "list" in words or refused and not by_order and not case["output"][0].startswith(b"refused trace "):
                    left += 1
                    continue
                reached_rows.clear()
                searched.clear()
                try:
                    if "script" in case:
                        machine = opened(assemble(text), options(words))
                        play(machine, case["script"][0].decode().splitlines())
                        agree_with_flat(machine)
                        status, out = STATUS[outcome(machine.ending()[0])], run_text(machine)
                    else:
                        status, out = replayed(case["text"][0]) if "replay" in words else answer(words, text)
                except Exception as why:
                    print("%s (%s): not run, %s: %s" % (title, row, type(why).__name__, why))
                    differ += 1
                    continue
                output = "".join(line + "\n" for line in out).encode()
                if case["exit"] == "7":
                    good = len(case["output"]) == 1 and output.startswith(case["output"][0])
                    output = output[:len(case["output"][0])]
                else:
                    good = str(status) == case["exit"] and stand_in(case["output"], output)
                for row_reached in reached_rows:
                    rows_reached[row_reached] += 1
                # a run of several workers may have other events each time
                if not by_order and options(words)["workers"] == 1:
                    for kind in KINDS:
                        reached[kind] += bool(re.search(rb"^count %s [1-9]" % kind.encode(), output, re.M))
                agree, differ = agree + good, differ + (not good)
                times += len(searched) if case["exit"] != "7" else 0
                runs += "script" in case or (case["exit"] != "7" and not by_order and options(words)["mode"] == "run")
                if not good:
                    print("%s (%s): exit code %d, and the output is" % (title, row, status))
                    print(output.decode(), end="")
    print("%d cases agree, %d differ, and %d aren't for this program" % (agree, differ, left))
    print("%d runs agree with the flat machine" % runs)
    print("%d times are those of the slowest of all chains" % times)
    for kind in KINDS:
        print("%s came in %d cases" % (kind, reached[kind]))
    for row_reached in ROWS:
        print("the row %s came in %d cases" % (row_reached, rows_reached[row_reached]))
    return differ == 0 and (only is not None or all(rows_reached.values()))
