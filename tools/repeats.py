#!/usr/bin/env python3
"""repeats.py [LINES [FOLDER]]: places of .rt and .antt files below FOLDER (crates) that share LINES (6) or more lines in a row: the same lines, or in
src/ and specs/ also LINES + 2 lines of one shape, with other names and numbers. Imports, comments, blank lines, the heads of a proof's answers and the
lines of a struct or enum do not count. The 40 largest of each kind."""
import pathlib
import re
import sys

WORD = re.compile(r"[A-Za-z_ℕ][A-Za-z0-9_'\-]*|\d+")
KEPT = {"fn", "pub", "let", "if", "else", "match", "while", "return", "record", "cond", "λ", "refl", "simp", "omega", "rw", "unfolding", "unfold"}
SKELETON = re.compile(r"(ghost )?use |pub mod |#|[{}\])(;,]+$|(abbrev )?(pub )?[\w-]+ : (goal|given)\.|[\w-]+( c)? = search rules$")
FIELD = re.compile(r"(pub )?\w+: [\w\[\]; ]+,$|\w+(\([\w, ]*\))?,$")


def lines_of(path):
    """The lines that count: number, text, shape."""
    out = []
    for number, line in enumerate(path.read_text().splitlines(), 1):
        text = line.split("//")[0] if path.suffix == ".rt" else re.sub(r"(^|\s)--.*", "", line)
        text = " ".join(text.split())
        if text and not SKELETON.match(text) and not (path.suffix == ".rt" and FIELD.match(text)):
            out.append((number, text, WORD.sub(lambda m: m.group() if m.group() in KEPT else "x", text)))
    return out


def length(files, key, least, one, other):
    """How many lines two places share from there on; 0 where they share the line before, or overlap."""
    (f, i), (g, j) = one, other
    if f == g and abs(i - j) < least or i and j and files[f][i - 1][key] == files[g][j - 1][key] and not (f == g and abs(i - j) <= least):
        return 0
    n = least
    while i + n < len(files[f]) and j + n < len(files[g]) and files[f][i + n][key] == files[g][j + n][key] and not (f == g and i + n >= j):
        n += 1
    return n


def runs(files, key, least):
    """Pairs of places that share lines, the largest first: length, file and line, file and line."""
    seen = {}
    for f, lines in files.items():
        for i in range(len(lines) - least + 1):
            seen.setdefault(tuple(line[key] for line in lines[i:i + least]), []).append((f, i))
    found, kept = [], []
    for places in seen.values():
        for a, one in enumerate(places):
            for other in places[a + 1:a + 8]:
                if n := length(files, key, least, one, other):
                    (f, i), (g, j) = one, other
                    found.append((n, f, files[f][i][0], g, files[g][j][0]))
    for n, f, i, g, j in sorted(found, key=lambda run: -run[0]):
        if not any((f, g) == (a, b) and k <= i < k + 2 * m and l <= j < l + 2 * m for m, a, k, b, l in kept):
            kept.append((n, f, i, g, j))
    return kept


def main():
    least = int(sys.argv[1]) if len(sys.argv) > 1 else 6
    root = pathlib.Path(sys.argv[2] if len(sys.argv) > 2 else "crates")
    files = {str(p): lines_of(p) for p in sorted(root.rglob("*")) if p.suffix in (".rt", ".antt") and not {"target", "out"} & set(p.parts)}
    same = runs(files, 1, least)
    known = {run[1:] for run in same}
    plain = {path: lines for path, lines in files.items() if "/proofs/" not in path}
    alike = [run for run in runs(plain, 2, least + 2) if run[1:] not in known]
    for title, found in (("same lines", same), ("one shape", alike)):
        print(f"{title}: {len(found)} pairs")
        for n, f, i, g, j in found[:40]:
            print(f"  {n:3} lines  {f}:{i}  {g}:{j}")


if __name__ == "__main__":
    main()
