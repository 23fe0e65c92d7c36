#!/usr/bin/env python3
"""The lines of crates.txt.

    python3 tools/order.py [LOG]      prints them: each crate with the dependencies that it needs, by level and, within a level, by falling
                                      seconds of LOG (what .ci/run printed), without LOG in the order of today
    python3 tools/order.py --check    fails where crates.txt lists more or fewer dependencies than are needed, or where the picture of
                                      docs/ARCHITECTURE.md has a crate beside other definitions than the highest that it uses

A crate needs the crates that it names in its code, specs and proofs, and those whose types it reaches: through the fields of the types that
it names, and through the parameters and answers of the functions of a crate that it calls.
"""
import functools
import glob
import os
import re
import subprocess
import sys

import closure
import gate_log

text = open("crates.txt").read()
listed = closure.uses()
heads = {m.group(1): m.group(0) for m in re.finditer(r"^(\w+)(?: [^:#\n]*)?(?=:)", text, flags=re.M)}


def read(crate, *patterns):
    return "\n".join(open(f).read() for p in patterns for f in sorted(glob.glob(f"crates/{crate}/{p}", recursive=True)))


def without_comments(code):
    return re.sub(r"(?m)(//|--).*$", "", code)


code = {c: without_comments(read(c, "src/*.rt")) for c in listed}
all_text = {c: code[c] + without_comments(read(c, "specs/**/*.antt", "proofs/**/*.antt")) for c in listed}
declared = {c: set(re.findall(r"(?m)^pub (?:struct|enum) (\w+)", code[c])) for c in listed}
imported = {c: {name: d for d, name in closure.used(code[c]) if d in listed} for c in listed}


def home(crate, name):
    """The crate that declares a type which `crate` names."""
    return crate if name in declared[crate] else imported[crate].get(name)


def types_in(crate, part):
    return {name for name in re.findall(r"\b[A-Z]\w*[a-z]\w*", part) if home(crate, name)}


def reach(crate, name, seen):
    """The types that a type holds, and those that they hold."""
    if (crate, name) in seen:
        return
    seen.add((crate, name))
    body = re.search(rf"(?ms)^pub (?:struct|enum) {name} \{{(.*?)^\}}", code[crate])
    for inner in types_in(crate, body.group(1)) if body else ():
        reach(home(crate, inner), inner, seen)


def signatures(crate):
    """The types of a crate's public functions."""
    heads = re.findall(r'(?ms)^pub (?:extern "C" )?fn \w+(.*?)(?=^\s*(?:ensures|requires)|\{\n)', code[crate])
    return set().union(*(types_in(crate, head) for head in heads))


def needed(crate):
    of_std = set(re.findall(r"\w+", " ".join(re.findall(r"(?m)^use std::([^;]+);", code[crate]))))
    names = set(re.findall(r"\bRattle\.(\w+)\.", all_text[crate])) | set(re.findall(r"(?<![\w:])(\w+)::", code[crate])) - of_std
    seen = set()
    for name in types_in(crate, code[crate]):
        reach(home(crate, name), name, seen)
    for other in set(re.findall(r"(?<![\w:])(\w+)::[a-z_]+\(", code[crate])) & set(listed):
        for name in signatures(other):
            reach(home(other, name), name, seen)
    return {d for d in names if d in listed or d in of_kit()} | {d for d, _ in seen} - {crate}


@functools.lru_cache
def of_kit():
    """The libraries of the kit that a crate lists where it uses them: all but std and what comes with it."""
    kit = os.path.dirname(subprocess.run(["rt", "doc"], capture_output=True, text=True, check=True).stdout.strip())
    names = {name.removesuffix(".rlib") for name in os.listdir(f"{kit}/rlibs")}
    return {name for name in names if name != "core" and not name.startswith("std")}


uses = {c: needed(c) - {c} for c in listed}


def misplaced():
    """What the picture of the layers says and crates.txt does not: its lines from the top, each a crate of definitions, words, crates of code."""
    picture = open("docs/ARCHITECTURE.md").read().split("## Layers")[1].split("\n## ")[0]
    lines = [re.split(r" {2,}", line.strip()) for line in picture.split("\n") if line.startswith("    ")]
    layers = [(line[0], " ".join(line[2:]).split()) for line in lines]
    names = [layer for layer, _ in layers]
    drawn = {crate: layer for layer, codes in layers for crate in codes}
    for crate in set(listed) - set(names) - set(drawn):
        yield f"{crate} is not in the picture"
    for crate, layer in drawn.items():
        highest = next((name for name in names if name in all_uses(crate)), None)
        if layer != highest:
            yield f"{crate} stands beside {layer}, the highest definitions that it uses are {highest}"
    for above, below in zip(names, names[1:]):
        if above in all_uses(below):
            yield f"{below} uses {above}, which stands above it"


def all_uses(crate):
    return uses.get(crate, set()).union(*(all_uses(d) for d in uses.get(crate, ())))


if "--check" in sys.argv:
    wrong = [
        f"crates.txt: {c} lists too many: {sorted(set(listed[c]) - uses[c])}, too few: {sorted(uses[c] - set(listed[c]))}" for c in listed if set(listed[c]) != uses[c]
    ] + [f"docs/ARCHITECTURE.md: {line}" for line in misplaced()]
    print("\n".join(wrong), end="\n" if wrong else "")
    sys.exit(1 if wrong else 0)


def level(crate):
    return 1 + max((level(d) for d in uses[crate] if d in uses), default=0)


log = open(sys.argv[1]).read() if len(sys.argv) > 1 else ""
seconds = gate_log.proofs(log, listed)
today = list(listed)
order = sorted(uses, key=lambda c: (level(c), -seconds.get(c, 0), today.index(c)))
place = {c: i for i, c in enumerate(order)}
print(text.split("\n")[0])
for crate in order:
    print(f"{heads[crate]}: {' '.join(sorted(uses[crate], key=lambda d: place.get(d, len(order))))}".rstrip())
