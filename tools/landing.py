#!/usr/bin/env python3
"""What moved between two commits, from the repository's root, as the tables of a landing's note (docs/landings).

    landing.py BEFORE AFTER                 what moved and what stayed of each kind in crates/, by name, with the lines gained and lost; lines elsewhere by folder
    landing.py --seconds BEFORE AFTER       the seconds of each crate and of the gate, from two logs of .ci/run (`time bash .ci/run`)

A definition is marked unfoldable, abbrev, record or data; any other name of specs/ is a statement, below Laws a law, below Code a step of the code; so are
those of proofs/ in a crate of definitions, and those below Laws there. A contract is the `requires` and `ensures` of a function, a body what
else the function has; a proof is what stands in the folder of a function, or another file of proofs/. Comments, attributes, imports and blank lines are
left out: what differs only in them has stayed."""
import re
import subprocess
import sys

import closure
import gate_log

SPEC = re.compile(r"^\s*((?:(?:unfoldable|abbrev|opaque|pub|data|record)\s+)*)([^\s:({]+)(?:\s+(?:[({].*?[)}]))*\s*:(?!:)")
FUNCTION = re.compile(r'^\s*(?:pub )?(?:extern "C" )?(?:fn|struct|enum|const) (\w+)')
PASSED_OVER = ("--", "//", "use ", "ghost use ", "pub use ", "unfoldable pub use ", "pub mod ", "mod ", "#[")
KINDS = ["definition", "statement", "step of the code", "law", "contract", "body", "proof", "edit"]


def git(*words):
    return subprocess.run(["git", *words], capture_output=True, text=True, check=True).stdout


def blocks(text):
    """The parts of a file between blank lines, without what is passed over."""
    for part in re.split(r"\n\s*\n", text):
        lines = [re.sub(r"\s+(?:--|//) .*$", "", line.rstrip()) for line in part.split("\n") if line.strip() and not line.strip().startswith(PASSED_OVER)]
        if lines:
            yield lines


def spec_items(path, text):
    part = path.split("/")[3]
    for lines in blocks(text):
        if lines[0].lstrip().startswith("module "):
            lines = lines[next(i for i, line in enumerate(lines) if line.endswith(" where")) + 1 :]
        if not lines:
            continue
        m = SPEC.match(lines[0])
        name = m.group(2) if m else next(word for word in lines[0].split() if word not in ("pub", "record", "data"))
        kind = {"Laws": "law", "Code": "step of the code"}.get(part)
        if not kind:
            kind = "definition" if m and re.search(r"unfoldable|abbrev|data|record", m.group(1)) else "statement"
        yield kind, name, lines


def source_items(text):
    for lines in blocks(text):
        if m := FUNCTION.match(lines[0]):
            promised = [line for line in lines if re.match(r"\s*(requires|ensures)\b", line)]
            if promised:
                yield "contract", m.group(1), promised
            yield "body", m.group(1), [line for line in lines if line not in promised]


def items(commit):
    """All that a commit's crates have: by kind, crate and name the lines."""
    found, paths = {}, [path for path in git("ls-tree", "-r", "--name-only", commit, "crates").split() if path.split("/")[2] != "out"]
    # the crates with definitions that are no step of the code
    of_definitions = {path.split("/")[1] for path in paths if re.fullmatch(r"crates/\w+/specs/\w+\.antt", path) and not path.endswith(("Lib.antt", "Laws.antt", "Code.antt"))}
    for path in paths:
        crate, part = path.split("/")[1:3]
        if part not in ("specs", "src", "proofs", "must-fail") or path.endswith(("specs/Lib.antt", "specs/Laws.antt", "specs/Code.antt", "proofs/Lib.antt")):
            continue
        text, inner = git("show", f"{commit}:{path}"), path.split("/", 3)[3]
        stated = "/" not in inner and crate in of_definitions and closure.for_a_buyer(crate, inner.removesuffix(".antt"))
        if part == "specs" or part == "proofs" and (inner.startswith(("Laws/", "Code/")) or stated):
            new = spec_items(path, text)
        elif part == "src":
            new = source_items(text)
        else:
            name = re.sub(r"(/(Proof|Answers|Invariants))?\.antt$|\.edit$", "", inner)
            new = [("edit" if part == "must-fail" else "proof", name, [line for lines in blocks(text) for line in lines])]
        for kind, name, lines in new:
            found.setdefault((kind, crate, name), []).extend(lines)
    return found


def changed(before, after):
    """The lines that an item gains and loses."""
    rest = list(before)
    gained = [line for line in after if not (line in rest and not rest.remove(line))]
    return len(gained), len(rest)


def moved(before, after):
    old, new = items(before), items(after)
    print(f"From {git('rev-parse', '--short', before).strip()} to {git('rev-parse', '--short', after).strip()}, by `tools/landing.py`.\n")
    lists = []
    print("| Kind | Stayed | Moved | New | Gone |\n|---|---|---|---|---|")
    for kind in KINDS:
        cells, stayed = {"moved, with lines gained and lost": [], "new, with lines": [], "gone": []}, 0
        moves, news, gone = cells.values()
        for key in sorted(k for k in set(old) | set(new) if k[0] == kind):
            name = f"{key[1]} / {key[2]}"
            if key not in new:
                gone.append(name)
            elif key not in old:
                news.append(f"{name} {len(new[key])}")
            elif old[key] == new[key]:
                stayed += 1
            else:
                moves.append("{} +{} -{}".format(name, *changed(old[key], new[key])))
        print(f"| {kind} | {stayed} | {len(moves)} | {len(news)} | {len(gone)} |")
        lists += [(kind, how, names) for how, names in cells.items() if names]
    for kind, how, names in lists:
        print(f"\n{kind.capitalize()}, {how}:\n")
        print("\n".join(f"- {name}" for name in names))


def outside(before, after):
    """Lines gained and lost outside the crates, by folder."""
    total = {}
    for line in git("diff", "--numstat", before, after, "--", ".", ":!crates").splitlines():
        gained, lost, path = line.split("\t")
        row = total.setdefault(path.split("/")[0] if "/" in path else "in no folder", [0, 0])
        row[0], row[1] = row[0] + int(gained), row[1] + int(lost)
    print("\n| Outside the crates | Lines gained | Lost |\n|---|---|---|")
    for folder, (gained, lost) in sorted(total.items()):
        print(f"| {folder} | {gained} | {lost} |")


def times(log):
    text = open(log).read()
    took = gate_log.proofs(text, closure.uses())
    whole = re.search(r"^real\s+(\d+)m([\d.]+)s", text, flags=re.M)
    return took, {
        "proofs, added up": sum(took.values()),
        "all of rt ci": gate_log.whole(text),
        "tests": gate_log.tests(text),
        "the gate": f"{whole.group(1)} min {float(whole.group(2)):.0f} s" if whole else "",
    }


def seconds(before, after):
    (old, old_all), (new, new_all) = times(before), times(after)
    print("| Crate | Before, s | After, s |\n|---|---|---|")
    for crate in list(new) + [c for c in old if c not in new]:
        print(f"| {crate} | {old.get(crate, '')} | {new.get(crate, '')} |")
    for name in new_all:
        print(f"| {name} | {old_all[name]} | {new_all[name]} |")


if len(sys.argv) == 4 and sys.argv[1] == "--seconds":
    seconds(*sys.argv[2:])
elif len(sys.argv) == 3:
    moved(*sys.argv[1:])
    outside(*sys.argv[1:])
else:
    sys.exit(__doc__)
