"""The parts of tools/check_programs.py, by what each looks at. A part is a function without arguments that calls `check` for each thing that has
to hold; tools/check_programs.py lists them all.

    counting        what all parts use: a check and its count, the programs, the words of a run
    calls           words, exit codes, stored runs, standard error, and which build answers
    charts          pictures of runs, and the options of `view`
    shown           accounts, pages and states, each against tools/reference.py
    claimed         claims of other simulators
    settled         what all runs of a text have in common
    explained       answers that `explain` explains, refuses or takes
    told            what the documents say that commands print
"""
