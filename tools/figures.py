#!/usr/bin/env python3
"""Figures of the repository, from its root. Lines do not count blank ones, comments, attributes and imports.

    figures.py [LOG]                functions, lines, edits and seconds of each crate; LOG is what .ci/run printed
    figures.py --path [--write]     the buyer's path: the files in reading order with their lines, those that must be believed first, and
                                    the definitions that the contracts of the delivered calls name; --write puts it into README.md
    figures.py --above CRATE [LOG]  the crates that are proved anew after a change of CRATE, with the seconds of LOG
    figures.py --seconds LOG        the table tools/seconds.txt, which tools/progress.py reads; LOG is what .ci/run printed where nothing was kept

The seconds of a crate are those from when the last of its libraries was proved until it was: `rt ci` tells no others.
"""
import glob
import os
import re
import sys

import closure
import gate_log

BELIEVED = "### Must be believed"


def lines(files):
    return sum(len(closure.counted(open(f).read().split("\n"))) for f in files)


def seconds(log):
    return gate_log.proofs(open(log).read(), closure.uses())


def table(log):
    took = seconds(log) if log else {}
    print("| Crate | Functions | Code lines | Definitions and trials | Steps of the code | Laws | Proof lines | Proof lines a code line | Edits | Seconds |")
    print("|---|---|---|---|---|---|---|---|---|---|")
    total = [0] * 7
    for crate in closure.uses():
        source = glob.glob(f"crates/{crate}/src/*.rt")
        functions = sum(len(re.findall(r'^(?:pub )?(?:extern "C" )?fn ', open(f).read(), flags=re.M)) for f in source)
        every = set(glob.glob(f"crates/{crate}/specs/**/*.antt", recursive=True)) | set(glob.glob(f"crates/{crate}/proofs/**/*.antt", recursive=True))
        code, laws = ({f for f in every if f"/{part}/" in f and f.split("/")[3] == part} for part in ("Code", "Laws"))
        read = {closure.path_of(crate, module) for module in closure.read_files(crate)}
        edits = glob.glob(f"crates/{crate}/must-fail/*.edit")
        row = [functions, lines(source), lines(read), lines(code), lines(laws), lines(every - code - laws - read), len(edits)]
        total = [a + b for a, b in zip(total, row)]
        print(line_of(crate, row, took.get(crate, "")))
    print(line_of("all", total, sum(took.values()) if took else ""))


def line_of(crate, row, took):
    functions, source, definitions, code, laws, proofs, edits = row
    ratio = f"{proofs / source:.1f}" if functions else ""
    return f"| {crate} | {functions} | {source} | {definitions} | {code} | {laws} | {proofs} | {ratio} | {edits} | {took} |"


def contract_names(specs, crate):
    """The definitions of this repository that the contracts of a crate's public functions name, by their files."""
    named = {}
    for call in specs.calls(crate):
        for item in specs.named(call):
            names = named.setdefault(f"{item.crate} / {closure.shown(item.module)}", [])
            if item.module != "src" and item.name not in names:
                names.append(item.name)
    return [f"{home} . {', '.join(names)}" for home, names in named.items() if names]


def kinds(specs):
    """The files that a buyer may read, in reading order, by what they are to him, each with its lines: what the delivered contracts rest on,
    must be believed; statements, with what only they name; examples."""
    below, general = specs.below(specs.delivered()), [item for item in specs.statements() if item.general()]
    believed = {item.key for item in below}
    stated = {item.key for item in [*specs.below(general), *general]} - believed
    parts = {"believed": {}, "stated": {}, "example": {}}
    for crate in closure.with_below(closure.DELIVERED):
        for module in closure.read_files(crate):
            file = specs.files[crate, module]
            keys, whole = {item.key for item in file.items.values()}, lines([file.path])
            needed = whole - sum(item.counted() for item in file.items.values() if item.key not in believed)
            part = "believed" if keys & believed else "stated" if keys & stated else "example"
            counted = f"{needed} of {whole}" if part == "believed" and needed < whole else str(whole)
            parts[part].setdefault(crate, []).append((f"{closure.shown(module)} ({counted})", needed if part == "believed" else whole))
    return parts


def listed(part, mark):
    return [f"{mark(number)} {crate}: {', '.join(shown for shown, _ in files)}" for number, (crate, files) in enumerate(part.items(), 1)]


def lines_in(part):
    return sum(count for files in part.values() for _, count in files)


def path():
    specs = closure.Specs()
    parts = kinds(specs)
    whole = sum(lines([closure.path_of(crate, module)]) for crate in closure.with_below(closure.DELIVERED) for module in closure.read_files(crate))
    believed = lines_in(parts["believed"])
    types = sum(item.counted() for item in specs.below(specs.delivered()) if item.module == "src")
    counted = f"{believed} of {whole} lines, and {types} lines of types and constants of the sources."
    said = [BELIEVED, "", f"What the contracts of the delivered calls and the statement of demand 3 rest on: {counted}", ""]
    said += [*listed(parts["believed"], lambda number: f"{number}."), "", "The contracts of the delivered calls name these definitions:", ""]
    said += [f"- {crate}: {'; '.join(contract_names(specs, crate))}" for crate in closure.DELIVERED]
    said += ["", "### Checked", "", f"Statements about any values, with the definitions that only they name, {lines_in(parts['stated'])} lines:", ""]
    said += [*listed(parts["stated"], lambda number: "-"), "", f"Examples, which the checker computes, {lines_in(parts['example'])} lines:", ""]
    return "\n".join([*said, *listed(parts["example"], lambda number: "-")]) + "\n"


def write_path():
    before, rest = open("README.md").read().split(BELIEVED)
    text = before + path() + "".join(rest.partition("\n## ")[1:])
    open("README.md", "w").write(text)


def above(crate, log):
    took = seconds(log) if log else {}
    anew = [crate]
    for name, uses in closure.uses().items():
        if name not in anew and set(uses) & set(anew):
            anew.append(name)
    for name in anew:
        print(name, took.get(name, ""))
    if log:
        print("all", sum(took.get(n, 0) for n in anew))


def seconds_table(log):
    text = open(log).read()
    took = seconds(log)
    lacking = [crate for crate in closure.uses() if crate not in took]
    if lacking:
        sys.exit(f"figures: {log} has no seconds of {', '.join(lacking)}: kept from an earlier run, or not proved")
    print("# Seconds of each crate, of what `rt ci` does besides, and of the tests, by python3 tools/figures.py --seconds LOG.")
    whole = ("rest", gate_log.rest(text)), ("tests", gate_log.tests(text)), ("gate", gate_log.whole(text)), ("processors", os.cpu_count())
    for name, seen in [*took.items(), *whole]:
        print(name, seen)


def main():
    asked = sys.argv[1:]
    if not asked:
        table(None)
    elif asked[0] == "--path":
        write_path() if "--write" in asked else print(path(), end="")
    elif asked[0] == "--above":
        above(asked[1], asked[2] if len(asked) > 2 else None)
    elif asked[0] == "--seconds":
        seconds_table(asked[1])
    elif asked[0].startswith("-"):
        sys.exit(__doc__)
    else:
        table(asked[0])


if __name__ == "__main__":
    main()
