"""A second program for the machine: what `denovo` has to write, computed without any of its code.

`tools/reference.py` is its command, and its page. Here are the names that other tools use; each module says at its head what it is for.
None imports one that stands below it in this list:

    isa, signatures, kinds              instructions; signatures; kinds of events and rows of tables
    texts, work                         texts of the language, and the generated one
    task, one_memory, parts, machine    one task; tasks on one memory; cores, banks and keeper; the machine
    time_order                          a run in time order, and the network
    prove, ticks, report                the prover of effects; the longest chain; what is written of a run
    outcomes                            what every run of a text has in common
    documents, readers, chart, accounts the document of a run, and what is shown of one
    lists, state_text, pages
    answers, claims, scripts            the program's answers; claims of other simulators; scripts of events
    sweep                               the runs of one text by many seeds
    cases, small_examples, command      what looks at stored cases and at runs of small texts; the command
"""
from .accounts import MEASURES, account
from .answers import answer, opened, options
from .cases import expanded, read_case, run_cases, sections
from .chart import Chart
from .claims import batch, claim, claim_text, diagnosed, judged, settled
from .documents import document, read_document, replayed
from .isa import decode, instruction_text
from .kinds import KINDS, ROWS
from .lists import LIST_MEASURES, lists, traffic
from .machine import Machine, Pcg32
from .one_memory import flat
from .outcomes import against, outcomes, outcomes_text
from .pages import page, run_data, state_lines, states
from .prove import proved
from .readers import readers_answer
from .report import STATUS, agree_with_flat, answer_text, count_text, grant_text, outcome, run_text, summary
from .scripts import event_line, event_of, play
from .small_examples import STORE_FIVE, SHARED, STALE, IDLE, ONE_PLACE, PART, COUNTER, CROSSED, TRAP, MARKS, rows
from .state_text import StateText, state
from .sweep import checksum, sweep
from .task import TaskState
from .texts import Program, Task, Unfit, assemble, statements
from .ticks import longest, ticks_by, timed
from .time_order import Network, run_in_time_order
from .work import work_text

__all__ = [
    "COUNTER", "CROSSED", "Chart", "IDLE", "KINDS", "LIST_MEASURES", "MARKS", "MEASURES", "Machine", "Network", "ONE_PLACE", "PART", "Pcg32", "Program", "ROWS", "SHARED", "STALE",
    "STATUS", "STORE_FIVE", "StateText", "TRAP", "Task", "TaskState", "Unfit", "account", "agree_with_flat", "answer", "answer_text", "assemble", "batch", "claim",
    "against", "checksum", "claim_text", "count_text", "decode", "diagnosed", "document", "event_line", "event_of", "expanded", "flat", "grant_text", "instruction_text", "judged",
    "lists", "longest", "opened", "options", "outcome", "outcomes", "outcomes_text", "page", "play", "proved", "read_case", "read_document", "readers_answer", "replayed",
    "rows", "run_cases", "run_data", "run_in_time_order", "run_text", "sections", "settled",
    "state", "state_lines", "statements", "states", "summary", "sweep", "ticks_by", "timed", "traffic", "work_text"]
