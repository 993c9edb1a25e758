"""The tables of docs/RULES.md and of the page of this folder, from verdicts.csv, kills.txt, states.csv and murphi/counts.csv."""
import csv
import pathlib
import textwrap

from arguments import ARGUMENTS, GROUPS

HERE = pathlib.Path(__file__).resolve().parent


def numbered(number):
    return "{:,}".format(int(number))


def cell(line):
    return "`%s`" % line.replace("|", "\\|")


def brief(what):
    """What is wrong, in the words of a table."""
    for begin, short in (("a load", "load"), ("the run is stuck", "stuck"), ("a run has no end", "no end"), ("messages", "flood"), ("two cores hold", "two holders"),
                         ("tasks of the phases", "phases overlap"), ("the task of", "end of a task"), ("word", "memory"), ("core", "end of a task")):
        if what.startswith(begin):
            return short
    return what


def killed_lines(rules, rows):
    """Each killed rule: what it is for, what goes wrong without it, in which text, after how many events."""
    lines = ["| Rule | What it is for | Wrong without it | Text | Cache | Events |", "|---|---|---|---|---|---|"]
    for name, rule in rules.items():
        row = rows[name]
        if row["verdict"] == "killed":
            lines.append("| `%s` | %s | %s | %s | %s | %s |" % (name, rule.purpose, brief(row["what"]), cell(row["text"]), row["shape"], row["steps"]))
    return lines


def surviving_lines(rules, rows):
    """Each rule that survives, with its argument, by groups."""
    lines = ["| Rule | Why nothing goes wrong without it | Invariant | States | Texts |", "|---|---|---|---|---|"]
    for group, title in GROUPS.items():
        lines.append("| **%s** | | | | |" % title)
        for name, (of, argument) in ARGUMENTS.items():
            if of == group:
                row = rows[name]
                lines.append("| `%s` | %s | %s | %s | %s |" % (name, argument, "breaks part `%s`" % row["part"] if row["part"] else "holds",
                                                            numbered(row["states"]), row["texts"]))
    return lines


def state_lines(states):
    """States here and of the directory: a row for each text, with the barrier as one event and with its messages."""
    with open(HERE / "murphi/counts.csv", newline="") as file:
        counted = {(row["model"], row["pattern"], row["cores"], row["words"], row["ways"]): numbered(row["states"]) for row in csv.DictReader(file)}
    lines = ["| Pattern | Cores | Words | Ways | Here | Directory | Here, with messages | Directory, with messages | `rumur`: here, directory |",
             "|---|---|---|---|---|---|---|---|---|"]
    found = {}
    for row in states:
        key = row["pattern"], row["cores"], row["words"], row["ways"]
        numbers = [numbered(row[side]) if row[side + "-whole"] == "yes" else "over " + numbered(row[side]) for side in ("rules", "directory")]
        found.setdefault(key, {})[row["barrier"]] = numbers
    for key, numbers in found.items():
        third = [counted.get((model, *key)) for model in ("rules", "directory")]
        lines.append("| %s | %s | %s | %s | %s | %s | %s | %s | %s |" % (*key, *numbers["one event"], *numbers["messages"], "" if None in third else ", ".join(third)))
    return lines


def free_rows():
    with open(HERE / "murphi/free.csv", newline="") as file:
        return list(csv.DictReader(file))


def free_lines(rows):
    """States of all programs of a size: here, and on the directory with the same programs and with any."""
    found = {(row["model"], row["programs"], row["cores"], row["words"], row["ways"]): numbered(row["states"]) for row in rows if not row["rule"]}
    lines = ["| Cores | Words | Ways | Here | Directory, the same programs | Directory, any programs | Here, with a lock |", "|---|---|---|---|---|---|---|"]
    for key in dict.fromkeys(key[2:] for key in found):
        lines.append("| %s | %s | %s | %s | %s | %s | %s |" % (*key, *(found.get((*of, *key), "") for of in (
            ("free", "plain"), ("free_directory", "plain"), ("free_directory", "any"), ("free", "locks")))))
    return lines


def free_names(rows):
    """The rules without which all loads hold in all programs that were searched, and those without which they don't."""
    names = dict.fromkeys(row["rule"] for row in rows if row["rule"])
    wrong = {row["rule"] for row in rows if row["verdict"] != "holds"}
    return [name for name in names if name not in wrong], [name for name in names if name in wrong]


def free_text(rows):
    """What is found of rules in all programs of a size, as lines of prose."""
    held, wrong = (", ".join("`%s`" % name for name in names) for names in free_names(rows))
    return textwrap.wrap("In the first model rules can be taken out as well. With one of these out each load still reads the last value, in all programs with "
                         "two cores, of one word with a lock and of two words in caches of one place: %s. Five were searched with two words and the lock "
                         "too, in over a million states each: %s. With one of these out a load doesn't: %s. `signature-both-ways` takes three cores."
                         % (held, ", ".join("`%s`" % row["rule"] for row in rows if row["rule"] and int(row["states"]) > 1000000), wrong), 150, break_on_hyphens=False)


def summary_line(rules, rows):
    """How many rules have which verdict; pairs are counted apart."""
    single = [rows[name] for name, rule in rules.items() if rule.kind != "pair"]
    pairs = [rows[name] for name, rule in rules.items() if rule.kind == "pair"]
    killed, broken, both = (sum(row["verdict"] == verdict for row in of) for of, verdict in (
        (single, "killed"), (single, "breaks the invariant"), (pairs, "killed")))
    return "Of %d rules %d are killed, and %d survive; without %d of these a part of the invariant doesn't hold. Of %d pairs of survivors %d are killed." % (
        len(single), killed, len(single) - killed, broken, len(pairs), both)


def page_lines(rules, rows, states):
    """The lines that docs/RULES.md has to have."""
    return [summary_line(rules, rows), *state_lines(states), *free_lines(free_rows()), *free_text(free_rows())]


def folder_lines(rules, rows):
    """The lines that the page of this folder has to have."""
    return killed_lines(rules, rows) + surviving_lines(rules, rows)
