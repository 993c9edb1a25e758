#!/usr/bin/env python3
"""Says which names in the documents are nowhere in the repository: run it at the top of the repository, `tools/check_documents.py`.

Of README.md, CONTRIBUTING.md, CHANGELOG.md, docs/*.md, bench/*.md, crates/TESTS.md, the README.md of each crate, of each folder of experiments/,
of examples/ and its folders, and those of tools/editors/, tools/adapters/, tools/bare_metal/ and crates/worked_rows/data/ it looks at all that stands between
backquotes, and at the commands
of their indented blocks and of the comments in examples/:
- a path has to be there, from the top, from crates/, or from the folder that the same line names;
- a name of code (with a capital, or with `_` or `::`) has to be in the code, its contracts or its definitions;
- a command `./denovo ..` has to read a text that is there;
- each fenced block of docs/LIBRARY.md, docs/FROM_C.md, docs/AUDIT.md and docs/TUTORIAL.md has to stand in the file that it quotes, unless it is a
  command's output;
- the map of docs/ARCHITECTURE.md has the layers and crates of crates.txt, in its order, and each crate depends on crates before it;
- each sentence of the crate `sentences` on how a fault, a trap or a conflict is fixed has to stand in an answer of tools/explained.txt;
- `File.name` of docs/DEFINITION.md has to be defined in that file of the source language's definition;
- each crate has a page README.md, or a place in crates/TESTS.md;
- no line of a table has more than 300 characters, no cell of one more than 40 words, and no page more words than tools/checking/lengths.py says;
- the logic of the toolchain that README.md names is that of the one here, where `rt` is on the path; a kit of another name is told;
- no prose, and no doc comment of the code, has a house word of tools/checking/house_words.txt but where it is explained.
The syntax files of tools/editors/ have to have each word of docs/LANGUAGE.md. Each text of examples/ has to be the same as its copy in
crates/worked_rows/data, which the cases run, each of examples/litmus the same as that of its case in litmus.cases, and the text at the head of
docs/LANGUAGE.md the same as that of the case language-page.
It exits 0 where it found nothing, 1 otherwise."""
import os
import pathlib
import re
import shutil
import subprocess
import sys

sys.dont_write_bytecode = True
sys.path[:0] = [str(pathlib.Path(__file__).resolve().parent / "editors"), str(pathlib.Path(__file__).resolve().parent)]
from check_syntax import lacking_words  # noqa: E402
from checking.house import house_words, pages, sources as code_files  # noqa: E402
from checking.lengths import too_long  # noqa: E402

tracked = [name for name in subprocess.run(["git", "ls-files"], capture_output=True, text=True).stdout.split("\n") if name]
folders = {str(parent) for name in tracked for parent in pathlib.PurePath(name).parents}
there = set(tracked) | folders
names = {pathlib.PurePath(name).name for name in there} | {pathlib.PurePath(name).stem for name in there if name.endswith(".edit")}
code = "\n".join(pathlib.Path(name).read_text() for name in tracked
                 if name.endswith((".rt", ".antt", ".py", ".txt", ".cases", ".s")) or name.startswith(("bench/", "experiments/", ".ci/")) and not name.endswith((".svg", ".csv", ".md")))
words = set(re.findall(r"[A-Za-z_]\w*(?:-\w+)*'?", code))
documents = ["README.md", "CONTRIBUTING.md", "CHANGELOG.md", "crates/TESTS.md", "tools/editors/README.md", "tools/adapters/README.md", "tools/bare_metal/README.md",
             "crates/worked_rows/data/README.md"] + [n for n in tracked if re.fullmatch(r"examples/(?:[\w-]+/)?README\.md", n)] + [
    n for n in tracked if re.fullmatch(r"(?:docs|bench)/\w+\.md|(?:crates|experiments)/[\w-]+/README\.md", n)]
examples = sorted(n for n in tracked if re.fullmatch(r"examples/[\w-]+\.s", n))
found = []


def is_path(piece):
    return bool(re.fullmatch(r"[\w./*-]+\.(?:md|rt|antt|py|s|cases|txt|edit)|\.?[\w-]+/[\w./*-]*", piece)) and "::" not in piece


def with_braces(piece):
    """The paths that a piece with {A,B} stands for."""
    parts = re.fullmatch(r"(.*/)\{([\w,]+)\}(.*)", piece)
    return [parts[1] + name + parts[3] for name in parts[2].split(",")] if parts else [piece]


def has_path(piece, document):
    bare = piece.rstrip("/")
    beside = os.path.normpath(pathlib.PurePath(document).parent / bare)
    if any(place in there for place in (bare, "crates/" + bare, beside)):
        return True
    ends = [name for name in there if name.endswith("/" + bare)]
    return bool(ends) or "*" in bare or bare in ("run.trace", ".quick", "generated") or bare.startswith("crates/") and "/out" in bare or "NAME" in bare


for document in documents:
    text = pathlib.Path(document).read_text()
    prose = re.sub(r"```.*?```", "", text, flags=re.S)
    for number, line in enumerate(prose.split("\n"), 1):
        if line.startswith("    "):
            continue
        bare = re.findall(r"(?<![\w`/.])((?:docs|crates|tools|bench|examples|experiments)/[\w./-]*\w)", line)
        for piece in [whole for piece in re.findall(r"`([^`]+)`", line) + bare for whole in with_braces(piece)]:
            if is_path(piece):
                if not has_path(piece, document):
                    found.append(f"{document}: no such path: {piece}")
            elif re.fullmatch(r"[A-Za-z_][\w']*(?:::[A-Za-z_]\w*)*", piece) and re.search(r"[A-Z_:]", piece):
                for name in piece.split("::"):
                    if name not in words and name not in names:
                        found.append(f"{document}: no such name: {piece}")
    for path in re.findall(r"\]\(([^)#:]+)\)|^\[\w+\]: (\S+)$", text, re.M):
        path = path[0] or path[1].removeprefix("../").split("#")[0]
        if not has_path(path, document):
            found.append(f"{document}: no such link: {path}")
    for place in re.findall(r"\]\(([^\s()]*#[\w-]+)\)|^\[\w+\]: (\S*#[\w-]+)$", text, re.M):
        path, anchor = (place[0] or place[1]).split("#")
        page = pathlib.Path(document).parent / path if path else pathlib.Path(document)
        heads = re.findall(r"^#+ (.*)$", page.read_text(), re.M) if page.is_file() else []
        if anchor not in [re.sub(r"[^\w -]", "", head.lower()).replace(" ", "-") for head in heads]:
            found.append(f"{document}: no such heading: {path}#{anchor}")
for document in documents + examples:
    for path in re.findall(r"^[# ]+\./denovo[^\n]*< (\S+)", pathlib.Path(document).read_text(), re.M):
        if path not in there and path not in ("run.trace", "TEXT"):
            found.append(f"{document}: a command reads what isn't there: {path}")
for file, name in re.findall(r"`([A-Z]\w+)\.(\w+)`", pathlib.Path("docs/DEFINITION.md").read_text()):
    specs = [pathlib.Path(f"crates/{crate}/specs/{file}.antt") for crate in ("rv_assembler", "src_text")]
    defined = [path for path in specs if path.exists() and re.search(rf"^[a-z ]*\b{name}\b", path.read_text(), re.M)]
    if not defined:
        found.append(f"docs/DEFINITION.md: no such definition: {file}.{name}")
# each sentence on how a fault, a trap or a conflict is fixed is seen in an answer, but those in whose place a more precise one is always known
shown = pathlib.Path("tools/explained.txt").read_text()
fixes = re.findall(r'^(?:amendment|remedy) \(?\w+\.TheVariants\.(\w+).* = codes "(.*)"$', code, re.M) + [
    ("a conflict", sentence) for sentence in re.findall(r'^\w+_remedy = codes "  ((?:Give|Have) .*)" \+\+ newline$', code, re.M)]
for kind, sentence in fixes:
    if (sentence in shown) == (kind in ("Outside", "OutOfRange", "Misplaced", "Memory")):
        found.append(f"tools/explained.txt: of {kind}: {sentence}")
if len(fixes) < 26:
    found.append(f"tools/explained.txt is compared with {len(fixes)} sentences on fixes alone")
# the map: the crates of docs/ARCHITECTURE.md by layers are those of crates.txt, in the same order, and each depends on crates before it
layers, listed_crates = re.findall(r"^# ([a-z ]+): .*\n((?:\w.*\n)+)", pathlib.Path("crates.txt").read_text(), re.M), []
for layer, lines in layers:
    for line in lines.splitlines():
        name, _, libraries = line.partition(":")
        listed_crates.append((layer, name.split()[0]))
        for library in libraries.split():
            if f"crates/{library}" in folders and library not in [crate for _, crate in listed_crates]:
                found.append(f"crates.txt: {name} depends on {library}, which isn't named before it")
drawn, layer = [], ""
for cell, crates in re.findall(r"^\| ([a-z ]*) \| ((?:`\w+`(?:, )?)+) \|", pathlib.Path("docs/ARCHITECTURE.md").read_text(), re.M):
    layer = cell.strip() or layer
    drawn += [(layer, name) for name in re.findall(r"`(\w+)`", crates)]
if drawn != listed_crates:
    found.append(f"docs/ARCHITECTURE.md: the map isn't that of crates.txt: {sorted(set(drawn) ^ set(listed_crates)) or 'the order differs'}")
for crate in sorted({folder for folder in folders if re.fullmatch(r"crates/\w+", folder)} - {"crates/" + crate for _, crate in listed_crates}):
    found.append(f"crates.txt: {crate} isn't named")
shared = pathlib.Path("crates/TESTS.md").read_text()
for _, crate in listed_crates:
    if f"crates/{crate}/README.md" not in there and not re.search(rf"^## .*\b{crate}\b", shared, re.M):
        found.append(f"crates/{crate}: it has no page, and no heading of crates/TESTS.md names it")
# the limits of form
for page in (name for name in tracked if name.endswith(".md")):
    lines = pathlib.Path(page).read_text().split("\n")
    for number, line in enumerate(lines, 1):
        if re.match(r" *(?:\d+\. )?\|", line):
            if len(line) > 300:
                found.append(f"{page}: line {number}, of a table, has {len(line)} characters: more than 300")
            for cell in re.split(r"(?<!\\)\|", line):
                if len(cell.split()) > 40:
                    found.append(f"{page}: line {number}, of a table, has a cell of {len(cell.split())} words: more than 40")
QUOTED = {"docs/LIBRARY.md": ("crates/library_tour/src/main.rt", "crates/library_tour/stdout"),
          "docs/FROM_C.md": ("examples/c/histogram.c", "examples/c/histogram.s"),
          "docs/AUDIT.md": ("crates/dn_top/src/lib.rt", "crates/machine_rules/src/laws.rt"),
          "docs/TUTORIAL.md": tuple(name for name in examples if "tutorial" in name)}
for document, sources in QUOTED.items():
    whole = "\n".join(pathlib.Path(source).read_text() for source in sources)
    for command, block in re.findall(r"^(    \./(?:denovo|outcomes)[^\n]*\n\n)?```\w*\n(.*?)^```$", pathlib.Path(document).read_text(), re.M | re.S):
        if not command and block not in whole:  # tools/check_programs.py compares what a command prints
            found.append(f"{document}: a block that isn't in {' or '.join(sources)}: {block.split(chr(10))[0]}")
for name in examples:
    copy = pathlib.Path("crates/worked_rows/data") / pathlib.PurePath(name).name
    if not copy.exists() or copy.read_text() != pathlib.Path(name).read_text():
        found.append(f"{name}: differs from {copy}")
cases = pathlib.Path("crates/worked_rows/data/examples.cases").read_text()
litmus = pathlib.Path("crates/worked_rows/data/litmus.cases").read_text()
copies = {name: re.sub(r"(?m)^  ", "", text) for name, text in re.findall(r"^case litmus-(\S+)\ntext\n((?:  .*\n)+)", litmus, re.M)}
texts = {pathlib.PurePath(n).stem: pathlib.Path(n).read_text() for n in tracked if re.fullmatch(r"examples/litmus/[\w-]+\.s", n)}
for name in sorted(copies.keys() | texts.keys()):
    if copies.get(name) != texts.get(name):
        found.append(f"examples/litmus/{name}.s: differs from the case litmus-{name}")
case = re.search(r"case language-page\ntext\n((?:  .*\n)+)", cases)[1]
page = re.search(r"\n\n((?:    .*\n)+)", pathlib.Path("docs/LANGUAGE.md").read_text())[1]
if case != re.sub(r"(?m)^  ", "", page):
    found.append("docs/LANGUAGE.md: its text differs from the case language-page")
if shutil.which("rt"):
    kit, _, logic = subprocess.run(["rt", "version"], capture_output=True, text=True).stdout.strip().partition(" logic ")
    named = re.search(r"^    (\S+) logic (\S+)$", pathlib.Path("README.md").read_text(), re.M)
    if not named or named[2] != logic:
        found.append(f"README.md: the logic of the toolchain here is {logic}, and it names {named[2] if named else 'none'}")
    elif named[1] != kit:
        print(f"the toolchain here is {kit}; README.md names {named[1]}, whose logic is the same", file=sys.stderr)
found += lacking_words()
found += too_long(tracked)
found += [f"{name}:{number}: a house word: {word}; the field says: {field}" for name, number, word, field in house_words([*pages(), *code_files()])]
for line in found:
    print(line)
sys.exit(1 if found else 0)
