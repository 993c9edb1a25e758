"""The commands that stand in indented blocks of the documents: each is run once, and ends with an exit code that the page COMMAND has for work done.

A page's commands run in its order in a folder of their own, in which all that stands at the top of the repository can be found."""
import pathlib
import re
import shutil
import tempfile

from .counting import check, run

# how a line begins that is a command, and not a part of a program or of an output
COMMAND = re.compile(r"(?:[A-Z_]+=\S+ )?(?:\./[a-z]|tools/|experiments/|examples/|/tmp/|for |sed |cc |apt-get )")
# what stands for something of the reader's own
MEANT = {"[OPTIONS] ": "", "[--fuel N] ": "--fuel 9 ", "[--seeds 1..1000] ": "--seeds 1..9 ", "[--mode diagnose] ": "--mode diagnose ", "chart|account|lists|traffic|state|answer|page|data": "account",
         "MINE.s examples/lab/sum": "examples/lab/sum.s examples/lab/sum", "MINE.s": "examples/lab/transfer.s", "YOURS": "examples/another-simulator/simulate.py", "TEXT": "examples/trap.s", "CLAIM": "a.claim", "TRACE": "a.trace"}
# how loops are made short: a few programs and seeds show that the command runs
SHORT = {"examples/litmus/*.s": "examples/litmus/f*.s", "--seeds 1..20": "--seeds 1..2", "--sets 1,4,16 --ways 1,2": "--sets 1,4",
         "--y misses --by ways": "--y misses", "readers=1,4,15": "readers=1,4", "seq 60": "seq 3", "--count 100": "--count 2"}
# commands that aren't run here: one installs a compiler, tools/check_library makes and tries the library, tools/check_play the page and its module
ELSEWHERE = ("apt-get ", "tools/library", "tools/play", "tools/wasm", "tools/arm64", "tools/release", "cc ", "/tmp/seeds ", "/tmp/steps ")


def commands_of(page):
    """The commands of a page's indented blocks, each in one line, without what is said behind it."""
    text = re.sub(r"^ *```.*?^ *```$", "", pathlib.Path(page).read_text(), flags=re.M | re.S)
    lines = [line.strip() for line in re.sub(r"\|\n +", "| ", text).split("\n") if re.match("    ", line)]
    lines = [re.split(r" {3,}", line)[0] for line in lines if COMMAND.match(line)]
    # told.py compares what the exercises' commands print
    return [line for line in lines if page != "docs/LAB.md" or not re.match(r"\./denovo .*examples/", line)]


def pages_with_commands():
    pages = ["README.md", "examples/README.md"] + sorted(str(page) for page in pathlib.Path("docs").glob("*.md"))
    return [page for page in pages if any(not command.startswith(ELSEWHERE) for command in commands_of(page))]


def every_command_of_a_page_runs(page):
    commands = [command for command in commands_of(page) if not command.startswith(ELSEWHERE)]
    with tempfile.TemporaryDirectory() as room:
        for name in pathlib.Path().iterdir():
            pathlib.Path(room, name.name).symlink_to(name.resolve())
        for script, made in (("./denovo --mode trace < examples/trap.s", "a.trace"), ("tools/reference.py claim < examples/trap.s", "a.claim")):
            pathlib.Path(room, made).write_bytes(run(["bash", "-c", script]).stdout)
        for command in commands:
            script = command.replace("/tmp/", room + "/")
            for word, meant in {**MEANT, **SHORT}.items():
                script = script.replace(word, meant)
            if "tools/from_c.py" in script and not shutil.which("riscv64-unknown-elf-gcc"):
                continue
            ran = run(["bash", "-o", "pipefail", "-c", script], cwd=room)
            done = (0, 1, 2, 3, 4, 5) if "| diff " in script else (0, 2, 3, 4, 5)
            check(f"{page}: {command}", ran.returncode in done and b"refused usage" not in ran.stdout, (ran.returncode, ran.stderr[-300:]))
