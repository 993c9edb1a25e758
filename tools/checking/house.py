"""House words in prose: tools/checking/house_words.txt is the list. What is looked at: pages, help texts, messages of launchers, and
(in a list of its own) the comments of public items in the code."""
import pathlib
import re
import subprocess

LIST = pathlib.Path("tools/checking/house_words.txt")
# what is no prose in a line: code, links, the words of pictures, and what is quoted
NAMES = r'`[^`]*`|!\[[^\]]*\]|\]\([^)]*\)|"[^"]*"'


def words():
    """The words of the list: a pattern, the field's word, and the names of the pages that may have it."""
    for line in LIST.read_text().split("\n"):
        if line and not line.startswith("#"):
            pattern, field, pages = re.split(r"\s+\| ?", line, maxsplit=2)
            yield re.compile(pattern, re.I), field, {"GLOSSARY", "CHANGELOG", *pages.split()}


def page_name(name):
    """The name that the list uses for a page: of a crate's page or source the crate, of an experiment's the folder, else the page."""
    path = pathlib.PurePath(name)
    if name.endswith(".rt"):
        return path.parts[1]
    return path.parts[-2] if path.name == "README.md" and len(path.parts) > 1 else path.stem


def prose_of(name, text):
    """The lines of a file that are prose, with their numbers, without what is between backquotes."""
    fenced, comment = False, re.compile(r"\s*(?:///|//!) ?(.*)")
    for number, line in enumerate(text.split("\n"), 1):
        if name.endswith(".rt"):
            match = comment.match(line)
            line = match[1] if match else ""
        elif name.endswith(".md"):
            fenced ^= line.startswith("```")
            if fenced or line.startswith("    "):
                continue
        elif name.endswith(".txt"):
            pass
        else:  # a script: its messages and its head
            line = " ".join(re.findall(r'(?:say|echo|printf)\b.*', line))
        yield number, re.sub(NAMES if name.endswith((".md", ".rt")) else r"`[^`]*`|--[\w-]+", " ", line)


def tracked():
    return subprocess.run(["git", "ls-files"], capture_output=True, text=True).stdout.split("\n")


def pages():
    return [name for name in tracked() if name.endswith(".md") or re.fullmatch(r"tools/help/\w+\.txt", name) or name == "tools/launch"]


def sources():
    return [name for name in tracked() if name.endswith(".rt") and "/src/" in name]


def house_words(names):
    """Each house word in these files: the file, the line, the word and the field's word."""
    listed = list(words())
    for name in names:
        lines = list(prose_of(name, pathlib.Path(name).read_text()))
        for pattern, field, allowed in listed:
            if page_name(name) not in allowed:
                for number, line in lines:
                    for match in pattern.finditer(line):
                        yield name, number, match[0], field
