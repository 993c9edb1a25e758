"""How the tools here end: what a file, a device or an input refuses is said in one line."""
import os
import sys

WRITE_FAULT = 7


def end(program, main):
    """Calls the tool's `main` and gives its exit code: 7 if standard output failed, and 1 if a file couldn't be read or written."""
    try:
        code = main()
        sys.stdout.flush()
        return code
    except OSError as fault:
        if fault.filename is None:
            return end_unwritten(program, fault)
        print(f"{program}: {fault.filename}: {fault.strerror}", file=sys.stderr)
    except UnicodeDecodeError as fault:
        print(f"{program}: its input isn't UTF-8: {fault.reason} at byte {fault.start}", file=sys.stderr)
    except RecursionError:
        print(f"{program}: its input is nested too deeply", file=sys.stderr)
    return 1


def end_unwritten(program, fault):
    """What is still in the buffer can't be written either, so it goes nowhere. A reader that stops early is told nothing."""
    os.dup2(os.open(os.devnull, os.O_WRONLY), 1)
    if not isinstance(fault, BrokenPipeError):
        print(f"{program}: standard output failed: {fault.strerror}", file=sys.stderr)
    return WRITE_FAULT
