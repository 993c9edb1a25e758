"""The numbers of the documents that a definition has too: limits, ranges, addresses, hashes, and the options of the command."""
import pathlib
import re

from .counting import check

# what a page says, and what the definition says, in a file of crates/: the numbers in brackets are compared, in order
SAID = [
    ("LANGUAGE", r"A source has at most ([\d,]+) bytes", "rv_assembler/specs/Source.antt", r"nat_lt (\d+) \(length text\)"),
    ("LANGUAGE", r"more than ([\d,]+) bytes in the line, or ([\d,]+) lines before it", "src_text/specs/Line.antt",
     r"is_over_limit number line = nat_lt (\d+) \(length line\) \|\| nat_lt (\d+) number"),
    ("LANGUAGE", r"from -(\d+) to (\d+)\.\n- Each of", "src_text/specs/Number.antt", r"if_at_most (\d+) \(magnitude_of \(drop.*\n.*if_at_most (\d+)"),
    ("LANGUAGE", r"\(([\d,]+) in version 2\)", "rv_assembler/specs/Fault.antt", r"if version_2 then (\d+) else"),
    ("LANGUAGE", r"more than ([\d,]+) code words, ([\d,]+) data words, .* version 2\), (\d+) locks, (\d+) phases or (\d+) tasks", "rv_assembler/specs/Fault.antt",
     r"nat_lt (\d+) \(length d.code\) \|\| \(nat_lt (\d+) d.count.words .*\n.*nat_lt (\d+) \(length d.locks\) \|\| \(nat_lt (\d+) d.phases \|\| nat_lt (\d+)"),
    ("LANGUAGE", r"the next n data words, from (\d+) to (\d+)", "rv_assembler/specs/Number.antt", r"is_length z = int_le \(pos (\d+)\) z && int_le z \(pos (\d+)\)"),
    ("LANGUAGE", r"n is from -(\d+) to \d+\.", "rv_assembler/specs/Number.antt", r"is_immediate z = is_within \(neg_ℤ \(pos (\d+)\)\) \(pos \1\)"),
    ("LANGUAGE", r"has the address (0x\d+) \+ 4i, and data word `w` the address (0x\d+) \+ 4w", "rv_assembler/specs/Emission.antt",
     r"label_address place = (0x\d+) \+ 4(?:.*\n)+?region_address word = (0x\d+) \+ 4"),
    ("LANGUAGE", r"one instruction after the other, at most ([\d,]+), or", "dn_top/specs/Command.antt", r"fuel : IsInRange 1 (\d+)"),
    ("PROTOCOL", r"a Bloom filter of (\d+) bits", "write_signature/specs/Signature.antt", r"h1 w = w % (\d+)"),
    ("PROTOCOL", r"its product with (\d+) modulo 2\^(\d+)", "write_signature/specs/Signature.antt", r"h2 w = w \* (\d+) % 2 \^ (\d+) / 2 \^ 24"),
    ("COMMAND", r"of a line, without its newline \| ([\d,]+); ([\d,]+) \|\n\| lines \| ([\d,]+)", "src_text/specs/Line.antt", None),
    ("COMMAND", r"\| code words \| ([\d,]+) \|", "region_table/specs/Program.antt", r"length p.code ≤ (\d+)"),
    ("COMMAND", r"\| data words, in all regions \| ([\d,]+)", "dn_base/src/limits.rt", r"MOST_WORDS: usize = ([\d_]+)"),
    ("COMMAND", r"\| events of a run \| ([\d,]+)", "dn_base/src/limits.rt", r"MOST_EVENTS: usize = ([\d_]+)"),
    ("COMMAND", r"\| bytes of a trace or a claim \| ([\d,]+)", "claims/specs/Claim.antt", r"most_bytes = (\d+)"),
    ("COMMAND", r"it has more than (\d+) bytes", "run_replay/specs/Faults.antt", r"most_bytes = (\d+)"),
]


def numbers(found):
    return [int(number.replace(",", ""), 0) for number in found.groups()] if found else None


def page(name):
    return pathlib.Path("docs", name + ".md").read_text()


def constants_of_the_pages_are_those_of_the_definitions():
    for name, said, file, defined in SAID:
        if defined is None:
            limits = numbers(re.search(SAID[0][3], pathlib.Path("crates", SAID[0][2]).read_text())) + numbers(re.search(SAID[1][3], pathlib.Path("crates", file).read_text()))
        else:
            limits = numbers(re.search(defined, pathlib.Path("crates", file).read_text()))
        told = numbers(re.search(said.replace(" ", r"\s+"), page(name)))
        check(f"docs/{name}.md: {said}", told is not None and told == limits, (told, limits))


def the_options_have_the_ranges_of_the_definition():
    """The table of docs/COMMAND.md and the help have each option's range and default as the definition of the command has them."""
    definition = pathlib.Path("crates/dn_top/specs/Command.antt").read_text()
    defaults = dict(re.findall(r'_rule \(codes "([\w-]+)"\) \(codes "(\w+)"\)', definition))
    ranges = {name: (low, high) for name, low, high in re.findall(r'number_in rows \(codes "([\w-]+)"\) (\d+) (\d+)', definition)}
    words = {name: ", ".join(re.findall(r'codes "(\w+)"', body)) for name, body in re.findall(r"^(\w+)_named text =\n((?:    .*\n)+)", definition, re.M)}
    switches = re.findall(r'switch_in rows \(codes "([\w-]+)"\)', definition)
    help_text, told = pathlib.Path("tools/help/denovo.txt").read_text(), {}
    for options, values, default in re.findall(r"^\| (`--.*?) \| (.*?) \| (.*?) \|", page("COMMAND"), re.M):
        names = re.findall(r"--([\w-]+)", options)
        parts, sets = default.split(", "), values.split(", ")
        for at, name in enumerate(names):
            told[name] = (sets[at] if name not in (*words, *switches) and len(sets) > 1 else values, parts[at])
    check("docs/COMMAND.md has the options", sorted(told) == sorted(defaults), set(told) ^ set(defaults))
    for name, (values, default) in told.items():
        wanted = words[name] if name in words else "on, off" if name in switches else "%s to %s" % ranges[name]
        check(f"docs/COMMAND.md: --{name}", (values, default) == (wanted, defaults[name]), (values, default, wanted, defaults[name]))
        if name in switches:
            line = re.search(rf"^  --{name} on\|off .*", help_text, re.M)[0]
            check(f"tools/help/denovo.txt: --{name}", f"({defaults[name]})" in line, line)
        elif name not in words:
            line = re.search(rf"^  --{name} N .*", help_text, re.M)[0]
            check(f"tools/help/denovo.txt: --{name}", f"({defaults[name]})" in line and (name.startswith("tick-") or f"{wanted} (" in line), line)
