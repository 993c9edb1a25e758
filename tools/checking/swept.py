"""The runs of one text by many seeds: the program `sweep` beside tools/reference.py, and each of its rows beside what denovo prints of that seed."""
import reference
from .counting import KIND, check, programs, run, text_of

# examples whose runs differ by the seed, with options under which some of them end by fuel, stuck, or with evictions
RUNS = (("locked-counter", []), ("crossed-locks", []), ("trap", []), ("endless", ["--fuel", "40"]), ("stencil", ["--sets", "1", "--ways", "1", "--banks", "2"]))
# how many seeds are compared with the second program, and how many with denovo
SEEDS, ALONE = (40, 40) if KIND == "proved" else (5, 10)


def row_of(seed, lines):
    """The row of a seed, of the lines that denovo prints of it."""
    counts = [line.split()[2] for line in lines if line.startswith("count ")]
    retired = sum(int(line.split()[-1]) for line in lines if line.startswith("task "))
    grants = [line for line in lines if line.startswith("grant ")]
    answer = [line for line in lines if not line.startswith(("count ", "grant "))]
    return ",".join([str(seed), lines[0].split()[1], str(retired), *counts, reference.checksum(answer), reference.checksum(grants)])


def outputs_are_those_of_the_reference():
    for example, form, words in ((example, form, words) for example, words in RUNS
                                 for form in ([], ["--form", "answers"], ["--form", "answers", "--retired=off"], ["--retired", "off"], ["--form", "csv"])):
        words = ["--seeds", f"1..{SEEDS}", *form, *words]
        status, lines = reference.sweep(words, text_of(example).decode())
        for program in programs("sweep"):
            ran = run(program + words, text_of(example))
            check(f"{program[0]} {' '.join(words)} < {example}", (ran.returncode, ran.stdout.decode().splitlines()) == (status, lines), ran.stdout[:300])


def rows_are_of_what_denovo_prints():
    """Seeds at both ends of their range, and in between."""
    sweep, denovo = programs("sweep")[0], programs("denovo")[0]
    for example, words in RUNS:
        for first in (0, 4294967296 - ALONE // 2):
            last = first + ALONE // 2 - 1
            table = run(sweep + ["--form", "csv", f"--seeds={first}..{last}", *words], text_of(example)).stdout.decode().splitlines()
            seeds = range(first, last + 1)
            check(f"the table of {example} has a row for each seed", [row.split(",")[0] for row in table[1:]] == [str(seed) for seed in seeds], len(table))
            for seed, row in zip(seeds, table[1:]):
                lines = run(denovo + ["--seed", str(seed), *words], text_of(example)).stdout.decode().splitlines()
                check(f"the row of seed {seed} of {example}", row == row_of(seed, lines), row)
            check(f"the head of the table of {example}", table[0].split(",")[3:-2] == [line.split()[1] for line in lines if line.startswith("count ")], table[0])


def forms_agree():
    """What the forms answers and summary say, counted from the rows of the form csv."""
    sweep, denovo = programs("sweep")[0], programs("denovo")[0]
    for example, words in RUNS:
        words = ["--seeds", "1..200", *words]
        forms = {form: run(sweep + ["--form", form, *words], text_of(example)).stdout.decode().splitlines() for form in ("csv", "answers", "summary")}
        rows = [dict(zip(forms["csv"][0].split(","), row.split(","), strict=True)) for row in forms["csv"][1:]]
        having = {}
        for row in rows:
            having.setdefault(row["answer"], []).append(row)
        wanted = [",".join([of[0]["seed"], str(len(of)), of[0]["outcome"], of[0]["retired"], answer]) for answer, of in having.items()]
        check(f"the answers of {example}", forms["answers"] == ["seed,runs,outcome,retired,answer", *wanted], forms["answers"][:3])
        wanted = [f"runs {len(rows)}"]
        wanted += [f"outcome {name} {sum(row['outcome'] == name for row in rows)}" for name in ("done", "trapped", "fuel", "stuck")]
        wanted += [f"{plural} {len({row[column] for row in rows})}" for plural, column in (("answers", "answer"), ("grants", "grants"))]
        for name in forms["csv"][0].split(",")[2:-2]:
            column = [int(row[name]) for row in rows]
            line = f"{name} least {min(column)} most {max(column)}"
            wanted.append(f"{line} sum {sum(column)}" if name in ("retired", "events") else f"count {line}")
        check(f"the summary of {example}", forms["summary"] == wanted, forms["summary"][:9])
        for row in forms["answers"][1:4]:
            seed, _, outcome, retired, answer = row.split(",")
            lines = run(denovo + ["--seed", seed, *words[2:]], text_of(example)).stdout.decode().splitlines()
            lines = [line for line in lines if not line.startswith(("count ", "grant "))]
            check(f"the answer of seed {seed} of {example}", reference.checksum(lines) == answer, row)


def texts_and_words_are_refused():
    sweep, denovo = programs("sweep")[0], programs("denovo")[0]
    for name, text in (("a conflict", text_of("conflict")), ("a text without a program", b"nothing\n")):
        ran, alone = run(sweep + ["--seeds", "1..2"], text), run(denovo, text)
        check(f"sweep refuses {name} as denovo does", (ran.returncode, ran.stdout) == (2, alone.stdout) == (alone.returncode, alone.stdout), ran.stdout)
    for seeds in ("", "7", "1..", "..7", "1.7", "1...7", "2..1", "1..1000001", "1..4294967296", "-1..1", " 1..2", "1..2 ", "1..2..3", "0x1..2"):
        ran = run(sweep + ["--seeds", seeds], text_of("trap"))
        check(f"sweep refuses the seeds '{seeds}'", (ran.returncode, ran.stdout) == (1, b"refused usage\n"), ran.stdout[:80])
    for seeds, count in (("7..7", 1), ("+1..2", 2), ("4294967295..4294967295", 1), ("0..0", 1)):
        ran = run(sweep + ["--form=csv", "--seeds", seeds], text_of("trap"))
        check(f"sweep takes the seeds {seeds}", (ran.returncode, ran.stdout.count(b"\n")) == (0, count + 1), ran.stdout[:80])
    for words in (["--form", "text"], ["--banks", "17"], ["--sets", "257"], ["--ways", "0"], ["--fuel", "32769"], ["--retired", "no"], ["--seed", "1"], ["--workers", "1"]):
        ran = run(sweep + words, text_of("trap"))
        check(f"sweep refuses {' '.join(words)}", (ran.returncode, ran.stdout) == (1, b"refused usage\n"), ran.stdout[:80])
