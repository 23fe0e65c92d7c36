#!/usr/bin/env python3
"""places.py [-v] [POINT ..]: the places of old forms in crates/*/src, for docs/DESIGN-PASS.md: a count for each point, and with -v each place. From the
repository's root. It goes by text: what a place is worth is said in docs/DESIGN-PASS.md.

    1  enums of two variants of which one or both carry a value: the shape of Option or Result
    2  functions that are the same once names, types and numbers are left out, of 40 tokens and more
    3  while loops
    4  casts by `as` between numbers, and conditions that choose the smaller or the larger of two
    5  functions of eight parameters and more, and facts that stand in the `requires` of three functions and more
    6  parameters `x: [T; N], n: usize`: an array with a length beside it
    7  matches with arms that hand the same four arguments and more on to a function each
    8  files of answers, and the answers in them
"""
import collections
import glob
import re
import sys

FUNCTION = re.compile(
    r"^ *(?:pub |pub\(crate\) )?(?:extern \"C\" )?fn (\w+)(?:<[^(]*>)?\((.*?)\)(?: -> ([^\n{]*?))?(?: \{\n|\n(.*?)^( *)\{\n)(.*?)^ *\}\n(?=\n|\}|$)", re.M | re.S
)


def sources():
    for path in sorted(glob.glob("crates/*/src/*.rt")):
        yield path.split("/")[1], re.sub(r"//[^\n]*", "", open(path).read())


def functions():
    for crate, text in sources():
        for m in FUNCTION.finditer(text):
            yield crate, m[1], m[2], m[4], m[6]


def parameters(text):
    text = re.sub(r"<[^<>]*>", "", text)
    return [p for p in re.split(r",(?![^\[(]*[\])])", text) if p.strip()]


def enums():
    for crate, text in sources():
        for m in re.finditer(r"enum (\w+)(?:<\w+>)? \{\n(.*?)^\}", text, re.M | re.S):
            variants = re.findall(r"^    (\w+)(\(.*\))?,", m[2], re.M)
            if len(variants) == 2 and any(v[1] for v in variants):
                yield f"{crate} {m[1]}"


def twins():
    groups = collections.defaultdict(list)
    for crate, name, given, _, body in functions():
        words = re.findall(r"\w+|[^\w\s]", body)
        order = {}
        kept = {"if", "else", "return", "while", "for", "let", "mut", "match", "in"}
        shape = tuple(w if w in kept or not re.match(r"\w", w) else "1" if w[0].isdigit() else order.setdefault(w, len(order)) for w in words)
        if len(shape) >= 40:
            groups[shape].append(f"{crate} {name}")
    for names in groups.values():
        if len(names) > 1:
            yield ", ".join(names)


def loops():
    for crate, name, _, _, body in functions():
        for m in re.finditer(r"while [^\n]*\{$", body, re.M):
            yield f"{crate} {name}: {m[0]}"


def conversions():
    for crate, name, _, _, body in functions():
        for m in re.finditer(r" as (?:u|i)(?:8|16|32|64|128|size)\b", body):
            yield f"{crate} {name}:{m[0]}"
        for m in re.finditer(r"if (\w+) <=? (\w+) \{\s*(?:return )?(?:\1|\2);?\s*\}", body):
            yield f"{crate} {name}: {m[0]}"


def together():
    facts = collections.defaultdict(set)
    for crate, name, given, clauses, _ in functions():
        if len(parameters(given)) >= 8:
            yield f"{crate} {name}: {len(parameters(given))} parameters"
        for clause in re.findall(r"requires(?: \w+)? \{ (.*) \}", clauses or ""):
            for fact in re.split(r" × ", clause):
                facts[fact.strip("() ")].add(f"{crate} {name}")
    for fact, users in facts.items():
        if len(users) >= 3:
            yield f"{fact}: {len(users)} functions"


def lengths():
    for crate, name, given, _, _ in functions():
        for m in re.finditer(r"(\w+: &?(?:mut )?\[\w+; \w+\]),\s*(\w+: usize)", given):
            yield f"{crate} {name}: {m[1]}, {m[2]}"


def switches():
    for crate, name, _, _, body in functions():
        for m in re.finditer(r"match [^\n]*\{\n(.*?)^( *)\}", body, re.M | re.S):
            calls = [re.findall(r"\w+", c) for c in re.findall(r"=> [\w:]+\((.*?)\),", m[1], re.S)]
            if len(calls) >= 3 and len(set.intersection(*map(set, calls))) >= 4:
                yield f"{crate} {name}: {len(calls)} arms"


def proofs():
    files = glob.glob("crates/*/proofs/*/Answers.antt")
    yield from files
    for path in files:
        for name in re.findall(r"^pub (\S+) : goal", open(path).read(), re.M):
            yield f"{path}: {name}"


POINTS = {"1": enums, "2": twins, "3": loops, "4": conversions, "5": together, "6": lengths, "7": switches, "8": proofs}


def main():
    chosen = [a for a in sys.argv[1:] if a in POINTS] or list(POINTS)
    for point in chosen:
        places = list(POINTS[point]())
        print(f"{point}: {len(places)}")
        if "-v" in sys.argv:
            print("".join(f"    {p}\n" for p in places), end="")


main()
