#!/usr/bin/env python3
"""Looks at the syntax files of this folder: whether they lack a word of the language, and whether they class the tokens of the examples rightly.

    tools/editors/check_syntax.py [TEXT ..]

The words are those of docs/LANGUAGE.md: the statements of its tables, and the registers that it names. Each word is looked for in both files.
Then each token of the texts (those of examples/ where none is named) is classed three times: here, by the rules of docs/LANGUAGE.md, by the
expressions of the TextMate file, which are run as an editor runs them, and by Vim, where there is one. It prints what differs, then a count.
It exits with 0 where nothing differs, and 1 otherwise."""
import json
import pathlib
import re
import shutil
import subprocess
import sys
import tempfile

TOP = pathlib.Path(__file__).resolve().parent.parent.parent
VIM = TOP / "tools/editors/vim"
TEXTMATE = TOP / "tools/editors/textmate/syntaxes/denovo.tmLanguage.json"
NAME = r"[A-Za-z_.][A-Za-z0-9_.]*"
# what each file calls a class of tokens
SCOPES = {"comment.line": "comment", "entity.name.label": "label", "keyword.control.directive": "directive", "keyword.operator.instruction": "instruction",
          "keyword.operator.pseudo": "pseudo", "variable.language.register": "register", "constant.numeric": "number", "punctuation.separator": "separator",
          "variable.other": "name", "invalid.illegal.statement": "unknown", "invalid.illegal.number": "not-number"}
GROUPS = {"denovoComment": "comment", "denovoLabel": "label", "denovoDirective": "directive", "denovoInstruction": "instruction", "denovoPseudo": "pseudo",
          "denovoRegister": "register", "denovoNumber": "number", "denovoSeparator": "separator", "denovoName": "name", "denovoUnknown": "unknown",
          "denovoNotNumber": "not-number"}


# ---------------------------------------------------------------- the language

def words_of_the_language():
    """The class of each word: a statement of a table of docs/LANGUAGE.md, or a register that it names."""
    page = (TOP / "docs/LANGUAGE.md").read_text()
    classes = {".version": "directive"}
    for head, rows in re.findall(r"^\| Statement \| Operands \| (Code|Meaning) \|.*\n\|[-|]*\|\n((?:\|.*\n)+)", page, re.M):
        for row in rows.splitlines():
            cells = row.strip("| ").split(" | ")
            # a statement that stands for others has their names, or its two words, behind what it comes to
            stands_for = head == "Code" and re.match(r"one word: `|two words", cells[2]) or cells[0] in ("`nop`, `ret`", "`j`", "`jr`")
            for word in re.findall(r"`([^`]+)`", cells[0]):
                classes[word] = "directive" if word[0] == "." else "pseudo" if stands_for else "instruction"
    told = " ".join(re.search(r"`r` is a register: (.*?)\. `n`", page, re.S)[1].split())
    for first, last in re.findall(r"\b([a-z]\d+)`? to `?([a-z]\d+)", told):
        classes.update({first[0] + str(number): "register" for number in range(int(first[1:]), int(last[1:]) + 1)})
    classes.update({name: "register" for name in re.findall(r"[a-z]+\d*", told.split("(")[1]) if name in ("zero", "ra", "sp", "gp", "tp", "s0", "fp")})
    return classes


def classed(line, words):
    """The class of each character of a line by the rules of the language; blanks have none."""
    classes = [None] * len(line)

    def mark(begin, end, kind):
        classes[begin:end] = [kind] * (end - begin)
    code = line.split("#")[0]
    if len(code) < len(line):
        mark(len(code), len(line), "comment")
    label = re.match(rf"\s*({NAME})\s*:", code)
    at = label.end() if label else 0
    if label:
        mark(*label.span(1), "label")
        mark(at - 1, at, "separator")
    is_first = True
    for token in re.compile(rf"{NAME}|[0-9-][A-Za-z0-9_.]*|[,:()]").finditer(code, at):
        text, kind = token[0], words.get(token[0])
        if text in ",:()":
            kind = "separator"
        elif text[0] in "-0123456789":
            kind = "number" if re.fullmatch(r"-?(0x[0-9a-fA-F]+|[0-9]+)", text) else "not-number"
        elif is_first:
            kind = kind if kind in ("directive", "instruction", "pseudo") else "unknown"
        else:
            kind = kind if kind == "register" else "name"
        mark(*token.span(), kind)
        is_first = False
    return classes


# ---------------------------------------------------------------- TextMate

def scope_class(scope):
    return next(kind for start, kind in SCOPES.items() if scope.startswith(start))


class Grammar:
    """The expressions of the TextMate file. `\\G` is the place where the beginning of a line has matched."""

    def __init__(self):
        self.data = json.loads(TEXTMATE.read_text())
        (self.line,) = self.data["patterns"]
        self.begin = re.compile(self.line["begin"])
        self.rows = [(row["match"].startswith("\\G"), re.compile(row["match"].removeprefix("\\G")), scope_class(row["name"]))
                     for row in self.rows_of(self.line["patterns"])]

    def rows_of(self, patterns):
        for pattern in patterns:
            if "include" in pattern:
                found = self.data["repository"][pattern["include"].removeprefix("#")]
                yield from self.rows_of(found.get("patterns", [found]))
            else:
                yield pattern

    def classed(self, line):
        """As an editor does: at each place the first row that matches soonest."""
        classes, begun = [None] * len(line), self.begin.match(line)
        for number, capture in self.line["beginCaptures"].items():
            first, last = begun.span(int(number))
            if first >= 0:
                classes[first:last] = [scope_class(capture["name"])] * (last - first)
        at = begun.end()
        while at < len(line):
            found = [(match.start(), place, match, kind) for place, (anchored, row, kind) in enumerate(self.rows)
                     for match in [row.match(line, at) if anchored and at == begun.end() else None if anchored else row.search(line, at)] if match]
            if not found:
                break
            _, _, match, kind = min(found, key=lambda it: it[:2])
            classes[match.start():match.end()] = [kind] * (match.end() - match.start())
            at = match.end()
        return classes


def lacking_words():
    """What check_documents says too: the words of the language that a syntax file doesn't class as such."""
    words, grammar, lists = words_of_the_language(), Grammar(), set((VIM / "syntax/denovo.vim").read_text().replace("'", " ").split())
    for word, kind in words.items():
        line = "mv " + word if kind == "register" else word
        if grammar.classed(line)[-1] != kind:
            yield f"{TEXTMATE.relative_to(TOP)}: it lacks the {kind} {word}"
        if word not in lists:
            yield f"tools/editors/vim/syntax/denovo.vim: it lacks the {kind} {word}"


# ---------------------------------------------------------------- Vim

ASK = """set runtimepath^={vim}
filetype on
syntax on
let s:out = []
for s:file in {files}
  execute 'edit' s:file
  if &filetype !=# 'denovo' | call add(s:out, 'filetype ' . s:file . ' ' . &filetype) | endif
  set filetype=denovo
  for s:line in range(1, line('$'))
    call add(s:out, join(map(range(1, len(getline(s:line))), 'synIDattr(synID(s:line, v:val, 1), "name")'), ' '))
  endfor
endfor
call writefile(s:out, '{told}')
qall!
"""


def vim_classes(vim, paths):
    """The classes of each line of the files by Vim, and the files that it takes for another language."""
    with tempfile.TemporaryDirectory() as room:
        script, told = pathlib.Path(room, "ask.vim"), pathlib.Path(room, "told")
        script.write_text(ASK.format(vim=VIM, files=[str(path) for path in paths], told=told))
        subprocess.run([vim, "-u", "NONE", "-i", "NONE", "-N", "-n", "-es", "-S", str(script)], stdin=subprocess.DEVNULL, stdout=subprocess.DEVNULL, timeout=300)
        rows = told.read_text().split("\n")[:-1]
    others = [row for row in rows if row.startswith("filetype ")]
    return [[GROUPS.get(name) for name in row.split(" ")] if row else [] for row in rows if not row.startswith("filetype ")], others


def main():
    paths = [pathlib.Path(path).resolve() for path in sys.argv[1:]] or sorted((TOP / "examples").glob("*.s"))
    found, words, grammar, tokens = list(lacking_words()), words_of_the_language(), Grammar(), 0
    lines = [(path, number, line) for path in paths for number, line in enumerate(path.read_bytes().decode("latin-1").splitlines(), 1)]
    vim, seen = shutil.which("vim"), None
    if vim:
        seen, others = vim_classes(vim, paths)
        found += others
    for at, (path, number, line) in enumerate(lines):
        wanted = classed(line, words)
        tokens += sum(1 for kind, before in zip(wanted, [None] + wanted) if kind and kind != before)
        for file, given in (("TextMate", grammar.classed(line)), ("Vim", seen[at] if vim and line.isascii() else wanted)):
            for place in [place for place, kind in enumerate(wanted) if kind and given[place] != kind][:1]:
                found.append(f"{path}:{number}: {file} takes {line[place:]!r} for a {given[place]}, not a {wanted[place]}")
    for line in found:
        print(line)
    print(f"editors: {len(words)} words, {tokens} tokens of {len(paths)} texts, by TextMate's file{' and by Vim' if vim else ''}: {len(found)} differ")
    return 1 if found else 0


if __name__ == "__main__":
    sys.exit(main())
