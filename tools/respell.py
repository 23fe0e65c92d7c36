#!/usr/bin/env python3
"""Spells the definitions, lemmas and record fields of specs/ and proofs/ in snake case, as today's Rattle does, in the crates below this folder.

usage: respell.py [--check]

A name that a file of specs/ or proofs/ declares turns where it has a dash or a capital within: `rowOf` becomes `row_of`, `row-told` `row_told`; so
do names that a `let` or an `as` gives, and either with primes or numbers behind it. Types and modules keep their names, as do functions, fields
and constants of src/, the goals and steps that Rattle makes, and the names of its library. A lemma whose plain spelling a definition has ends in
`_lem`: APART lists those that still have a dash, LEMMAS those that port.py spelled already, with the files where the name is the lemma's.
It reads and writes .antt and .rt files below crates/. --check writes nothing and lists names that fall together. Run it once, after port.py.
"""

import collections
import os
import re
import sys

NAME = r"[^\s(){}\[\].;,@\"«»⌜⌝:]+"
DECLARED = re.compile(
    r"(?m)^ *(?:(?:pub|abbrev|unfoldable|pattern|axiom|data|record|ruleset) )*"
    rf"({NAME}(?: {NAME})*?)(?: \{{[^{{}}\n]*\}})*(?: \([^\n]*?)? :(?= |$)([^\n]*)"
)
GIVEN = re.compile(rf"\b(?:let|as) ({NAME})(?= [:=]|\s*$|[,}}])", re.M)
WORD = re.compile(NAME)
TAIL = re.compile(r"['₀-₉]+$")
STRING = re.compile(r'b?"(?:[^"\\\n]|\\.)*"')
# Lemmas that still have a dash, whose plain spelling a definition of the repository has.
APART = """add-fits all-free attempt-by byte-below cell-bytes cell-length cells-length course-result create-waits created-psws data-writes
destination-below fate-result fixed-of free-from full-tag head-decides image-bytes item-sound line-of longest-report longest-row lowest-free masked-in
mul-fits no-attempt no-trap ones-in output-scheduled own-counts own-number perform-load perform-store place-below process-length
processes-bytes processes-length psw-sound psws-of put-at put-row quality-sound register-writes row-length row-sound run-leaves run-number
sfu-number source-below step-leaves step-number store-from sub-fits tag-sound tags-left trapped-row window-of word-length write-leaves
write-number""".split()
# Names of Rattle's library, at the head of a line that reads as a declaration.
KEPT = ["add-one", "append-nil", "suc-add"]
# Modules under a short name.
OTHERS = {"run-answer": "RunAnswers", "step-answer": "StepAnswers", "live-laws": "LiveLaws"}
# Lemmas that port.py spelled as a definition, in these files.
LEMMAS = {
    "sum_of": ["run/specs/Laws/Run"],
    "row_of": ["hep/proofs/store_rows/Proof", "run/specs/Laws/Isolation"],
    "table_of": ["step/specs/Laws/TableKept"],
    "next_of": ["image_write/proofs/Parts", "step_soundness/proofs/Loops", "step_soundness/proofs/live_sound/Proof", "step_soundness/proofs/queues_sound/Proof"],
    "goes_on": [
        "operation_data/proofs/load_indexed_found/Proof",
        "operation_data/proofs/load_indirect_found/Proof",
        "operation_data/proofs/store_indexed_found/Proof",
        "operation_data/proofs/store_indirect_found/Proof",
        "operation_data/specs/Laws/Reached",
    ],
    "held_after": ["run_schedule/specs/Laws/Cut"],
    "is_read": ["benchmark/proofs/benchmark_read/Proof", "library/specs/Laws/InTurn"],
    "item_by": ["step/specs/Laws/Item"],
    "item_in": ["run_schedule/proofs/run_items/Proof", "run_schedule/specs/Laws/Items"],
    "left_in": ["run_next/specs/Laws/Next", "run_rings/specs/Laws/Rings", "run_schedule/proofs/next/leaves/Proof"],
    "left_over": ["image_check/proofs/Ends", "image_check/proofs/check_end/Proof"],
    "number_read": ["image_bytes/specs/Laws/Spans"],
    "own_in": ["run_schedule/specs/Laws/Carried"],
    "own_is": ["image/specs/Laws/Sections", "run_next/specs/Laws/Next"],
    "read_number": ["library/specs/Laws/Numbers"],
    "room_of": ["image_read/proofs/read_fitting/Proof", "image_read/specs/Laws/Room", "step/specs/Laws/TableKept"],
    "rows_in": [
        "hep/proofs/read_owned/Proof",
        "hep/proofs/run_owned/Proof",
        "hep/proofs/step_owned/Proof",
        "hep/proofs/write_owned/Proof",
        "image/specs/Laws/Fields",
    ],
    "tries_of": ["run/specs/Laws/Run"],
    "waits_in": ["operation_checks/specs/Laws/Found", "operation_checks/specs/Laws/Operands"],
    "word_sound": ["operation/specs/Laws/SoundDecisions", "step_soundness/proofs/Memories", "window/specs/Laws/Sound"],
    "words_left": ["operation_checks/specs/Laws/Operands"],
}


def texts(root, endings):
    for folder, dirs, files in os.walk(os.path.join(root, "crates")):
        dirs[:] = sorted(d for d in dirs if d != "out")
        for name in sorted(files):
            if name.endswith(endings):
                yield os.path.join(folder, name)


def read(path):
    with open(path, encoding="utf-8") as f:
        return f.read()


def plain(name):
    return re.sub(r"(?<=[a-z0-9])[A-Z]", lambda m: "_" + m[0].lower(), name).replace("-", "_")


def turned(name):
    if name in OTHERS:
        return OTHERS[name]
    return plain(name) + ("_lem" if name in APART else "")


def declared(root):
    """Each name that begins in lower case and that a file of specs/ or proofs/ declares, with those files."""
    found = collections.defaultdict(set)
    for path in texts(root, ".antt"):
        text = read(path)
        for m in DECLARED.finditer(text):
            if not re.match(r"\s*(tie|goal)\.", m[2]):
                for name in m[1].split():
                    if name[:1].islower() and name not in KEPT:
                        found[name].add(path)
        if not path.endswith("/Proof.antt"):
            for m in GIVEN.finditer(text):
                if m[1][:1].islower():
                    found[m[1]].add(path)
    return found


def functions(root):
    """The functions of src/, as Rattle names their steps in an older proof."""
    return {name.replace("_", "-") for path in texts(root, ".rt") for name in re.findall(r"\bfn (\w+)", read(path))}


def turn(path, text, table, steps):
    lemmas = {it for it, files in LEMMAS.items() if any(path.endswith(f"/crates/{f}.antt") for f in files)}
    proof = path.endswith("/Proof.antt")

    def word(m):
        tail = TAIL.search(m[0])
        name = m[0][: tail.start()] if tail else m[0]
        tail = tail[0] if tail else ""
        dotted = text[m.start() - 1 : m.start()] == "."
        if name in lemmas and not dotted:
            return name + "_lem" + tail
        if dotted and proof and name in steps:
            return plain(name) + tail
        if name in table:
            return table[name] + tail
        return m[0]

    if path.endswith(".rt"):
        at, out = 0, []
        for m in STRING.finditer(text):
            out += [spelled(text, at, m.start(), word), m[0]]
            at = m.end()
        return "".join(out) + spelled(text, at, len(text), word)
    return spelled(text, 0, len(text), word)


def spelled(text, start, end, word):
    """The text from start to end, with each word as `word` has it."""
    out, at = [], start
    for m in WORD.finditer(text, start, end):
        out += [text[at : m.start()], word(m)]
        at = m.end()
    return "".join(out) + text[at:end]


def main(argv):
    root = "."
    found = declared(os.path.abspath(root))
    table = {it: turned(it) for it in found if turned(it) != it}
    if argv == ["--check"]:
        back = collections.defaultdict(set)
        for it in found:
            back[table.get(it, it)].add(it)
        for new, olds in sorted(back.items()):
            if len(olds) > 1:
                print(new, sorted(olds), sorted({p for it in olds for p in found[it]})[:4])
        return 0
    steps = functions(os.path.abspath(root))
    n = 0
    for path in texts(os.path.abspath(root), (".antt", ".rt")):
        text = read(path)
        new = turn(path, text, table, steps)
        if new != text:
            with open(path, "w", encoding="utf-8") as f:
                f.write(new)
            n += 1
    print(f"{len(table)} names, {n} files")
    return 0


if __name__ == "__main__":
    sys.exit(main(sys.argv[1:]))
