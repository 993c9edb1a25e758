#!/usr/bin/env python3
"""Checks the programs and their launchers as a user meets them, since no contract reaches a `main`: run it after the gate, as
.ci/run does, `tools/check_programs.py`. With `--quick` it takes whatever the launchers run, also builds without proof. With `--times`
it says how long each part takes, and with `--long` it takes 300 made texts for runs in time order.

It looks that the command words are handed on, that each exit code from 0 to 7 comes out, and 9 for words that aren't UTF-8, that a run goes
by a pipe into its picture, its account, its states, its answer and its page, that all are those of tools/reference.py, that explained answers are those
of tools/explained.txt and tools/verdicts.txt, that claims are judged as tools/reference.py judges them, that what all runs of a text have in common is that of
tools/outcomes.txt and, on made texts, of tools/reference.py, that the rows of many seeds are those of tools/reference.py and of denovo, that runs in time order are those of tools/reference.py,
that what other tools get of runs and listings says what the rules say, that standard error helps, that the tutorial and the documents on
accounts, states and pages show what their commands print, that the numbers of accounts, of lists, of answers to exercises and at the heads
of examples are those of runs, that every command of the pages runs, that their constants are those of the definitions, and that the proved
programs are used exactly where they were made of these sources. What a run has to write comes from tools/reference.py. It names each check
that fails, and ends with a count."""
import functools
import multiprocessing
import os
import pathlib
import sys
import time

TOP = pathlib.Path(__file__).resolve().parent.parent
os.chdir(TOP)
sys.dont_write_bytecode = True
from checking import calls, charts, claimed, commands, constants, explained, exported, from_python, settled, shown, swept, timed, told  # noqa: E402
from checking.counting import KIND, take  # noqa: E402

# Each part runs in a process of its own, as many at once as there are processors: those that take longest begin first.
PARTS = [functools.partial(shown.states_are_those_of_the_reference, example, words, share, shares)
         for example, words, shares in reversed(shown.STATE_RUNS if KIND == "proved" else shown.STATE_RUNS[:3]) for share in range(shares)] + [
    functools.partial(commands.every_command_of_a_page_runs, page) for page in commands.pages_with_commands()] + [
    shown.pages_are_those_of_the_reference,
    shown.a_run_without_an_event_has_one_state,
    shown.a_state_has_as_many_mails_as_may_be,
    shown.accounts_are_those_of_the_reference,
    shown.answers_for_readers_are_those_of_the_reference,
    claimed.claims_of_runs_agree,
    claimed.claims_are_judged,
    claimed.claims_are_diagnosed,
    claimed.claims_are_judged_by_what_is_settled,
    claimed.claims_follow_each_other,
    claimed.a_machine_without_a_rule_is_found,
    claimed.claims_are_refused,
    explained.answers_are_explained,
    explained.verdicts_are_explained,
    explained.remedies_lead_on,
    explained.texts_are_refused_alike,
    explained.answers_are_explained_one_after_the_other,
    explained.answers_of_other_texts_are_refused,
    explained.answers_before_any_text_are_taken,
    claimed.another_simulator_is_compared,
    claimed.the_largest_claims_are_read,
    exported.data_are_those_of_the_reference,
    exported.traces_are_read_back,
    exported.waves_are_read_back,
    exported.words_with_like_names_have_scopes_of_their_own,
    exported.no_tool_ends_in_a_traceback,
    exported.listings_are_read_by_the_gnu_assembler,
    exported.expectations_are_compared,
    from_python.calls_are_refused,
    from_python.options_go_where_they_belong,
    from_python.states_have_parts,
    charts.each_mode_has_its_own_options,
    settled.made_texts_have_the_outcomes_of_the_reference,
    settled.cases_have_their_outcomes,
    timed.made_texts_in_time_order_are_those_of_the_reference,
    timed.runs_in_time_order_are_those_of_the_reference,
    timed.drawn_runs_with_a_latency_are_timed_as_by_the_reference,
    swept.outputs_are_those_of_the_reference,
    swept.rows_are_of_what_denovo_prints,
    swept.forms_agree,
    swept.texts_and_words_are_refused,
    calls.words_are_handed_on,
    calls.stored_runs,
    calls.every_exit_code_comes,
    calls.empty_words_are_words,
    calls.there_is_memory_enough,
    calls.workers_draw_by_the_seed,
    calls.input_without_end_is_left,
    calls.no_more_is_read_than_is_taken,
    explained.every_exit_code_of_explain_comes,
    charts.a_run_is_drawn_by_a_pipe,
    charts.a_chart_begins_at_an_event,
    calls.standard_error_helps,
    constants.constants_of_the_pages_are_those_of_the_definitions,
    constants.the_options_have_the_ranges_of_the_definition,
    told.pages_show_what_is_printed,
    told.claims_on_a_page_agree,
    told.the_tutorial_shows_a_whole_answer,
    told.the_first_page_shows_what_is_printed,
    told.every_command_of_the_exercises_answers,
    told.the_answers_to_exercises_have_the_numbers,
    told.heads_of_examples_say_what_is_printed,
    told.the_page_on_accounts_has_the_numbers,
    told.the_page_on_lists_has_the_numbers,
    told.the_page_on_lists_says_what_it_leaves_out,
]
if KIND == "proved":
    PARTS.append(calls.proved_programs_are_used_where_they_are_those_of_the_sources)


def counted(part):
    """Runs a part, and gives how many of its checks passed and failed. What failed is printed at once."""
    begun = time.monotonic()
    part()
    sys.stdout.flush()
    name = part.func.__name__ + " " + part.args[0] if isinstance(part, functools.partial) else part.__name__
    return name, *take(), time.monotonic() - begun


def main():
    passed, failed = 0, 0
    with multiprocessing.get_context("fork").Pool() as pool:
        for name, *counts, seconds in pool.imap_unordered(counted, PARTS, chunksize=1):
            passed, failed = passed + counts[0], failed + counts[1]
            if "--times" in sys.argv[1:]:
                print(f"programs: {name}: {sum(counts)} checks, {seconds:.1f} s")
    print(f"programs: {passed} passed, {failed} failed")
    return 1 if failed else 0


if __name__ == "__main__":
    sys.exit(main())
