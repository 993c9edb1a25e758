"""How long pages may be, in words. A word is what has a letter or a digit between blanks, so that the bars of tables don't count."""
import pathlib
import re

# pages of docs/, by their names, and others by their paths
MOST = {
    "PROMISES": 5150, "LIMITS": 1400, "AUDIT": 1440, "NOTATION": 1200, "DEFINITION": 650, "ARCHITECTURE": 1950, "DECISIONS": 2050, "COST": 350,
    "GLOSSARY": 1250, "PROOFS": 1100, "REFERENCES": 560, "ACCOUNT": 1100, "COMMAND": 2460, "COMPARING": 1850, "C_AND_PYTHON": 930, "EXPERIMENTS": 860,
    "FAQ": 800, "FROM_C": 750, "INSTRUCTOR": 600, "LAB": 1750, "LAB_ANSWERS": 1950, "LANGUAGE": 2500, "LIBRARY": 650, "MESI_AND_DENOVO": 1000,
    "PAGE_DATA": 1050, "PROTOCOL": 3000, "QUICKREF": 370, "SHARERS": 1650, "TUTORIAL": 2350, "VIEWS": 1810, "RELATED_WORK": 650, "BASELINE": 2200,
    "RULES": 1850, "README.md": 1550, "CONTRIBUTING.md": 830, "crates/TESTS.md": 650, "crates/worked_rows/data/README.md": 1150, "PLAY": 900,
}
MOST_OF_DOCS = 48800
MOST_OF_A_CRATE = 400
MOST_OF_ALL_CRATES = 15000


def words(page):
    return len([piece for piece in pathlib.Path(page).read_text().split() if re.search(r"\w", piece)])


def too_long(tracked):
    """The pages that have more words than they may have, and pages of docs/ without a limit."""
    crates = [name for name in tracked if re.fullmatch(r"crates/\w+/README\.md", name)]
    for page in [name for name in tracked if re.fullmatch(r"docs/\w+\.md", name)] + [name for name in MOST if "/" in name or name.endswith(".md")]:
        most = MOST.get(page) or MOST.get(pathlib.PurePath(page).stem)
        if most is None:
            yield f"tools/checking/lengths.py: no limit for {page}"
        elif words(page) > most:
            yield f"{page}: {words(page)} words, and it has at most {most}"
    for page in crates:
        if words(page) > MOST_OF_A_CRATE:
            yield f"{page}: {words(page)} words, and a crate's page has at most {MOST_OF_A_CRATE}"
    total = sum(words(name) for name in tracked if re.fullmatch(r"docs/\w+\.md", name))
    if total > MOST_OF_DOCS:
        yield f"the pages of docs/ have {total} words: more than {MOST_OF_DOCS}"
    total = sum(map(words, crates + ["crates/TESTS.md", "crates/worked_rows/data/README.md"]))
    if total > MOST_OF_ALL_CRATES:
        yield f"the pages of all crates have {total} words: more than {MOST_OF_ALL_CRATES}"
