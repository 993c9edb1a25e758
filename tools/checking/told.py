"""What the documents and the heads of examples say that commands print, against what they print and what tools/reference.py computes."""
import pathlib
import re
import sys

import reference
from .counting import check, programs, run, text_of, written


def account_of(example, words, by="run"):
    """The account of a run, by the second program: its measures, each with a number for each group."""
    document = written(reference.answer(["--mode", "trace"] + words, text_of(example).decode())[1])
    numbers = {}
    for line in reference.account(document, by)[1][1:]:
        measure, _, count = line.split(",")
        numbers.setdefault(measure, []).append(int(count))
    return numbers


def by_the_reference(command):
    """What the second program has to say of a command that makes an account or lists, as a text, or shows a state; nothing for other commands."""
    made = re.fullmatch(r"\./denovo (.*)--mode trace < examples/(\S+)\.s \| \./view --mode (account|lists|traffic|state)(?: --(?:by|event) (\w+))?", command)
    if not made:
        return None
    document = written(reference.answer(["--mode", "trace"] + made[1].split(), text_of(made[2]).decode())[1])
    if made[3] == "state":
        return written(reference.state(document, int(made[4] or "0"))[1])
    return written({"lists": reference.lists, "traffic": reference.traffic, "account": reference.account}[made[3]](document, made[4] or "run", "text")[1])


def pages_show_what_is_printed():
    """Each block behind a command of these pages is a part of what the command prints, and for an account of what it has to print."""
    for page in ("docs/TUTORIAL.md", "docs/ACCOUNT.md", "docs/SHARERS.md", "docs/VIEWS.md", "docs/COMPARING.md"):
        text = pathlib.Path(page).read_text()
        for command, block in re.findall(r"^    ((?:\./denovo|\./outcomes|examples/)[^\n]*)\n\n```\n(.*?)^```$", text, re.M | re.S):
            ran = run(["bash", "-c", command])
            check(f"{page}: {command}", block.encode() in ran.stdout, ran.stdout[:300])
            wanted = by_the_reference(command)
            check(f"{page}: {command}, by tools/reference.py", wanted is None or ran.stdout == wanted, ran.stdout[:300])
        for command, kind_of_file in re.findall(r"^    (\./denovo.*) > \S+\.(svg|html)$", text, re.M):
            ran = run(["bash", "-o", "pipefail", "-c", command])
            head = {"svg": b"<svg", "html": b"<!DOCTYPE html>"}[kind_of_file]
            check(f"{page}: {command}", ran.returncode == 0 and ran.stdout.startswith(head))


def claims_on_a_page_agree():
    """Each whole claim of docs/COMPARING.md agrees."""
    claims = re.findall(r"^```\n(denovo-claim 1\n.*?)^```$", pathlib.Path("docs/COMPARING.md").read_text(), re.M | re.S)
    check("docs/COMPARING.md has a claim", claims)
    for claim in claims:
        ran = run(programs("referee")[0], claim.encode())
        check("docs/COMPARING.md: its claim agrees", (ran.returncode, ran.stdout) == (0, b"agrees\n"), ran.stdout)


def the_tutorial_shows_a_whole_answer():
    """The tutorial explains an answer line by line: its text, its lines and the program's are those of the example."""
    page = pathlib.Path("docs/TUTORIAL.md").read_text()
    shown, printed = (re.search(rf"{before}\n\n((?:    .*\n)+)", page)[1] for before in ("core 1 copies it again in phase 2:", "The program prints"))
    for block, wanted in ((shown, text_of("stale-copy").decode().split("\n")), (printed, reference.answer([], text_of("stale-copy").decode())[1])):
        lines = [re.split("  +", line.strip())[0] for line in block.splitlines()]
        wanted = [line for line in wanted if not line.startswith("#")]
        check(f"docs/TUTORIAL.md: {lines[0]} and so on", lines == wanted[:len(lines)] and (block is shown or len(lines) == len(wanted)))


def the_first_page_shows_what_is_printed():
    """README quotes lines of an answer, and numbers of runs beside lists of sharers: they are those of the second program."""
    page = pathlib.Path("README.md").read_text()
    printed = reference.answer([], text_of("stale-copy").decode())[1]
    for line in re.findall(r"^    ((?:outcome|word|count) .*?)(?:  .*)?$", page, re.M):
        check(f"README.md: {line}", line in printed)
    check("README.md: how many lines", f"of the {len(printed)} lines" in page)
    for row, cores, told in re.findall(r"^\| `([a-z-]+)`(?: with (\d+) cores)?[^|`]*(?:`experiments/sharing`)?: [^|]*\|((?: [\d,]+ \|)+)$", page, re.M):
        numbers = counted_beside_lists(run(["experiments/sharing/texts", row, cores]).stdout if cores else text_of(row))
        wanted = [numbers[name] for name in ("messages", "list-messages", "list-invalidations", "waits-here-alone")]
        check(f"README.md: {row} beside lists", [int(cell.replace(",", "")) for cell in told.strip("|").split("|")] == wanted, wanted)
    check("README.md: rows beside lists", len(re.findall(r"^\| `[a-z-]+`.*\d \|$", page, re.M)) == 6)


def every_command_of_the_exercises_answers():
    """The commands of docs/LAB.md give what tools/reference.py says, whether they print a run or its account."""
    for command in re.findall(r"^    (\./denovo.*)$", pathlib.Path("docs/LAB.md").read_text(), re.M):
        if "examples/" in command:
            ran, wanted = run(["bash", "-c", command]), by_the_reference(command)
            if wanted is None:
                words, example = re.fullmatch(r"\./denovo (.*)< examples/(\S+)\.s", command).groups()
                wanted = written(reference.answer(words.split(), text_of(example).decode())[1])
            check(f"docs/LAB.md: {command}", ran.stdout == wanted, ran.stdout[:300])


def the_answers_to_exercises_have_the_numbers():
    """The tables of docs/LAB_ANSWERS.md whose rows are runs, and the numbers that stand beside them."""
    page = pathlib.Path("docs/LAB_ANSWERS.md").read_text()

    def table(head):
        found = re.search(r"^(?: *|\d\. )\| (" + re.escape(head) + r".*) \|\n *\|[-|]*\|\n((?: *\|.*\n)+)", page, re.M)
        heads = [cell.strip(" `") for cell in found[1].split("|")]
        return [dict(zip(heads, (cell.strip() for cell in row.strip(" |").split("|")))) for row in found[2].splitlines()]

    for row in table("Sets, ways"):
        sets, ways = row.pop("Sets, ways").split(", ")
        numbers = account_of("stencil", ["--sets", sets, "--ways", ways])
        whole = {name: total for name, (total,) in numbers.items()}
        whole |= {"Words": int(sets) * int(ways), "evict": whole["evicted-copies"] + whole["evicted-registered"]}
        check(f"docs/LAB_ANSWERS.md: {sets} sets, {ways} ways", all(whole[name] == int(told) for name, told in row.items()), row)
    for row in table("Order of cores"):
        words = ["--seed", row.pop("Seed")]
        lines, numbers = reference.answer(words, text_of("signature").decode())[1], account_of("signature", words)
        orders = ", ".join(line.split()[2] for line in lines if line.startswith("grant "))
        values = ", ".join(str(int(line.split()[2], 16)) for line in lines if line.startswith("word "))
        check(f"docs/LAB_ANSWERS.md: the order {orders}", row.pop("Order of cores") == orders, orders)
        check(f"docs/LAB_ANSWERS.md: what is read in the order {orders}", values.endswith(row.pop("Values read")), values)
        check(f"docs/LAB_ANSWERS.md: the account of the order {orders}", all(numbers[name] == [int(told)] for name, told in row.items()), row)
    pairs = {}
    for seed in range(1, 61):
        words = ["--sets", "1", "--ways", "1", "--seed", str(seed)]
        counts = dict(line.split()[1:] for line in reference.answer(words, text_of("eviction-race").decode())[1] if line.startswith("count "))
        pair = f"{counts['evict']}, {counts['reg-fwd']}"
        pairs[pair] = pairs.get(pair, 0) + 1
        check(f"docs/LAB_ANSWERS.md: taken, of the pair {pair}", account_of("eviction-race", words)["taken"] == [int(pair == "0, 1")])
    told = {row["evict, reg-fwd"]: int(row["Seeds of 1 to 60"]) for row in table("evict, reg-fwd")}
    check("docs/LAB_ANSWERS.md: three orders of one race", told == pairs, pairs)
    for example, words, by, measure, wanted in (
            ("tutorial-two-cores", [], "core", "loads", [2, 2]), ("tutorial-two-cores", [], "core", "stores", [2, 2]),
            ("tutorial-two-cores", [], "core", "registers", [2, 2]), ("tutorial-two-cores", [], "core", "misses-first", [2, 2]),
            ("tutorial-two-cores", [], "core", "misses", [2, 2]), ("stale-copy", [], "phase", "dropped-phase", [0, 1, 0]),
            ("stale-copy", [], "phase", "misses-phase", [0, 0, 1]), ("stale-copy", [], "run", "dropped-phase-current", [0]),
            ("touched-bit", [], "run", "misses", [2]), ("touched-bit", [], "phase", "kept-touched", [1, 1, 0, 0]),
            ("touched-bit", [], "phase", "dropped-phase-current", [0, 0, 1, 0]), ("touched-bit", [], "phase", "misses-phase", [0, 0, 0, 1]),
            ("locked-counter", [], "core", "taken", [3, 2, 3, 3]), ("stale-copy", [], "phase", "untold-copies", [0, 1, 0]),
            ("read-sharing", [], "run", "untold-copies", [0]), ("many-readers", [], "phase", "untold-copies", [0, 240]),
            ("many-readers", [], "phase", "registers", [15, 16]), ("stencil", [], "run", "untold-copies", [0]),
            ("stencil", ["--sets", "64", "--ways", "1"], "run", "untold-copies", [4])):
        check(f"docs/LAB_ANSWERS.md: {measure} of {example}", account_of(example, words, by)[measure] == wanted)


def heads_of_examples_say_what_is_printed():
    """Where the comment at the head of an example quotes a line of an answer, or its first words, one of its commands prints such a line."""
    for path in sorted(pathlib.Path("examples").glob("*.s")):
        head = [line.strip("# \n") for line in path.read_text().split("\n") if line.startswith("#")]
        printed = "".join(run(["bash", "-c", line]).stdout.decode() for line in head if line.startswith("./denovo")).split("\n")
        for told in re.findall(r"`((?:count|outcome|task|refused|proved|unbounded) [^`]*)`", " ".join(line for line in head if not line.startswith("./"))):
            check(f"{path}: {told}", any((line + " ").startswith(told + " ") for line in printed))


def explained_measures(page):
    """The measures of the table that says what each of them counts. A row may have two."""
    rows = re.search(r"^\| Measure \| It counts \|\n\|[-|]*\|\n((?:\|.*\n)+)", page, re.M)[1]
    return [name for row in rows.splitlines() for name in re.findall(r"`([a-z-]+)`", row.split("|")[1])]


def the_page_on_accounts_has_the_numbers():
    """The table of docs/ACCOUNT.md: a column for a program and the words of its run, and a row for some of the measures."""
    page = pathlib.Path("docs/ACCOUNT.md").read_text()
    heads, rows = re.search(r"^\| Measure \|(.*`.*)\|\n\|[-|]*\|\n((?:\|.*\n)+)", page, re.M).groups()
    rows = [[cell.strip() for cell in row.strip("|").split("|")] for row in rows.splitlines()]
    told = {row[0].strip("`"): row[1:] for row in rows}
    wanted = {measure: [] for measure in reference.MEASURES}
    for head in heads.split("|"):
        example, *words = head.replace("`", "").split()
        document = written(reference.answer(["--mode", "trace"] + words, text_of(example).decode())[1])
        for line in reference.account(document, "run")[1][1:]:
            wanted[line.split(",")[0]].append(line.split(",")[2])
    differ = [(name, counts, wanted.get(name)) for name, counts in told.items() if counts != wanted.get(name)]
    check("docs/ACCOUNT.md: the numbers of its runs", len(told) > 9 and not differ, differ)
    measures = explained_measures(page)
    check("docs/ACCOUNT.md: what each measure counts", sorted(measures) == sorted(reference.MEASURES), set(measures) ^ set(reference.MEASURES))


def the_page_on_lists_has_the_numbers():
    """The table of docs/SHARERS.md: the numbers of ten runs beside lists, as the program and the second program count them."""
    page = pathlib.Path("docs/SHARERS.md").read_text()
    heads, rows = re.search(r"^\| Measure \|(.*`.*)\|\n\|[-|]*\|\n((?:\|.*\n)+)", page, re.M).groups()
    rows = [[cell.strip(" `") for cell in row.strip("|").split("|")] for row in rows.splitlines()]
    for place, example in enumerate(heads.replace("`", "").split("|"), 1):
        document = run(programs("denovo")[0] + ["--mode", "trace"], text_of(example.strip())).stdout
        for lines in (reference.lists(document, "run")[1], run(programs("view")[0] + ["--mode", "lists", "--form", "csv"], document).stdout.decode().split()):
            counts = dict(line.split(",run,") for line in lines if ",run," in line)
            check(f"docs/SHARERS.md: the numbers of {example}", all(counts.get(row[0]) == row[place] for row in rows), counts)
    heads, rows = re.search(r"^\| Program \|(.*`.*)\|\n\|[-|]*\|\n((?:\|.*\n)+)", page, re.M).groups()
    heads = [cell.strip(" `") for cell in heads.split("|")]
    for row in rows.splitlines():
        example, *cells = [cell.strip(" `") for cell in row.strip("|").split("|")]
        document = run(programs("denovo")[0] + ["--mode", "trace"], text_of(example)).stdout
        for lines in (reference.traffic(document, "run")[1], run(programs("view")[0] + ["--mode", "traffic", "--form", "csv"], document).stdout.decode().split()):
            counts = dict(line.split(",run,") for line in lines if ",run," in line)
            check(f"docs/SHARERS.md: the bytes of {example}", [counts.get(head) for head in heads] == cells, counts)
    measures = explained_measures(page)
    check("docs/SHARERS.md: what each measure counts", sorted(measures) == sorted(reference.LIST_MEASURES), set(measures) ^ set(reference.LIST_MEASURES))


def counted_beside_lists(text, words=()):
    """The second program's numbers of a run beside lists, and how many messages of each kind the run has."""
    document = written(reference.answer(["--mode", "trace", *words], text.decode())[1])
    numbers = {line.split(",")[0]: int(line.split(",")[2]) for line in reference.lists(document, "run")[1][1:]}
    lines = reference.answer(list(words), text.decode())[1]
    return numbers | {line.split()[1]: int(line.split()[2]) for line in lines if line.startswith("count ")}


def messages_of_the_other_directory(text):
    """How many messages the directory machine of examples/ sends with lines of one word; its run has to agree."""
    ran = run([sys.executable, "examples/another-simulator/directory.py", "--line=1", "--sets=64", "--ways=4", "--counts"], text)
    return int(ran.stderr.decode().split()[1]) if reference.judged(ran.stdout)[1] == ["agrees"] else None


LISTS_RULES = ("--line=1", "--states=msi", "--shared=told", "--stores=wait")
NOT_OF_WORDS = ("acquire", "release", "grant", "arrived", "go", "halt")


def of_a_directory(text, *words):
    """The messages about words, the bytes and the ticks of a run of baseline/directory.py."""
    lines = [line.split() for line in run([sys.executable, "baseline/directory.py", "--latency=20", "--form=counts", *words], text).stdout.decode().splitlines()]
    counts = [(line[1], int(line[2]), int(line[4])) for line in lines if line[0] == "count"]
    return sum(count for kind, count, _ in counts if kind not in NOT_OF_WORDS), sum(size for _, _, size in counts), int(lines[0][1])


def bytes_of_a_run(text):
    """The bytes of words and of locks in the run with seed 1, here and with lists."""
    document = written(reference.answer(["--mode", "trace"], text.decode())[1])
    counts = {line.split(",")[0]: int(line.split(",")[2]) for line in reference.traffic(document, "run")[1][1:]}
    return counts["bytes"] + counts["lock-bytes"], counts["list-bytes"] + counts["list-lock-bytes"]


def the_page_on_lists_says_what_it_leaves_out():
    """The numbers of docs/SHARERS.md on directories with lines, with the state Exclusive, in ticks and bytes, and with copies that go silently."""
    raw, pattern = pathlib.Path("docs/SHARERS.md").read_text(), lambda *words: run(["experiments/sharing/texts", *words]).stdout
    page, ticks = " ".join(raw.split()), ["--mode", "time", "--order", "time", "--latency", "20"]
    lines = [of_a_directory(text_of(name))[0] for name in ("many-readers", "stencil", "constants")]
    said = ["sends %d messages for `many-readers`, %d for `stencil` and %d for `constants`" % tuple(lines),
            "MESI with single words sends %d messages" % of_a_directory(pattern("private", "8"), "--line=1")[0],
            "%d with lines of four" % of_a_directory(text_of("neighbours"))[0]]
    here = next(line for line in reference.answer(ticks, text_of("stencil").decode())[1] if line.startswith("time "))
    waits = [of_a_directory(text_of("stencil"), *words)[2] for words in (LISTS_RULES, ["--line=1"])]
    said.append("{:,} ticks with stores that wait, {:,} with MESI and stores that go on, {:,} here".format(*waits, int(here.split()[1])))
    sizes = *bytes_of_a_run(text_of("locked-counter")), *bytes_of_a_run(pattern("reduction", "16"))
    said.append("`locked-counter` has {:,} bytes here and {:,} with lists; `reduction` with 16 cores {:,} and {:,}".format(*sizes))
    small = counted_beside_lists(text_of("constants"), ["--sets", "4", "--ways", "1"])
    silent = small["list-messages"] - 2 * small["list-put-shares"]
    said.append("lists send %d messages, of which %d are for copies that go. Without these they are %d, as here" % (small["list-messages"], 2 * small["list-put-shares"], silent))
    check("docs/SHARERS.md: copies that go silently", (silent, 0) == (small["messages"], small["list-invalidations"]), silent)
    for sentence in said:
        check(f"docs/SHARERS.md: {sentence}", sentence in page)
    for name in re.search(r"^\| Measure \|(.*`.*)\|$", raw, re.M)[1].replace("`", "").split("|"):
        wanted = counted_beside_lists(text_of(name.strip()))["list-messages"] + (name.strip() == "eviction-race")
        sent = messages_of_the_other_directory(text_of(name.strip()))
        check(f"docs/SHARERS.md: a directory of words sends as many for {name.strip()}", sent == wanted, sent)
