#!/usr/bin/env python3
"""Writes docs/TEST-CODES.md: the sixteen tests of C, line by line of the source, the definition and the code, side by side.

    python3 tools/test_codes.py --write [MANUAL]    writes the page; the source's lines from the manual's text, without it as the page has them
    python3 tools/test_codes.py --check [MANUAL]    fails where the page is not what --write writes

Fails where a file doesn't have sixteen lines in the order of the codes, or where one's words aren't those of the source.
"""
import pathlib
import re
import sys

ROOT = pathlib.Path(__file__).resolve().parent.parent
PAGE = ROOT / "docs/TEST-CODES.md"
DEFINITION = ROOT / "crates/word/specs/Tests.antt"
CODE = ROOT / "crates/word/src/lib.rt"
CODES = "0123456789ABCDEF"
MARK = ": code F"
HEAD = """# The sixteen tests of C

The table of the source's section 5.5 beside the definition (word / Tests . tests) and the code (word `holds`), made from these files by
tools/test_codes.py; the gate fails where a line differs. The code is modulo 16, so the last arm of the match is code F.

"""
FOOT = """
w is the word and t the tag of S2, psw the running PSW. The names behind the lines:

| Definition | Code | Meaning |
|---|---|---|
| word / Tests . negative | word `negative` | the signed value is below 0: the leftmost bit is one |
| word / Tests . empty_tag, full_tag | word `empty_tag`, `full_tag` | the tag is from 8 up, below 8 |
| word / Fields . ri_of, ci_of | word `ri`, `ci` | the field of the PSW |
| word / Bits . parity_of | word `parity` | the number of ones modulo 2 |

That the code answers what the definition says, for every code, word, tag and PSW, is the contract of word `holds`. Codes 0 to 3 each give the
opposite of 7 less the code, and each even code from 8 the opposite of the next: word / Opposites . low_opposite, even_opposite.
"""


def part(path, start, end):
    """The lines of a file behind the line `start` and before the next line `end`."""
    _, found, rest = path.read_text().partition(f"\n{start}\n")
    if not found:
        sys.exit(f"test_codes: {path}: no line {start!r}")
    return rest.partition(f"\n{end}\n")[0].splitlines()


def column(lines, pattern):
    """Code, line and words of each test; a line that is none has no code."""
    return [(m["code"], m["line"], m["words"]) if (m := re.fullmatch(pattern, line)) else ("?", line, "") for line in lines]


def of_manual(path):
    """The scan has other lines too, and some capitals in Cyrillic."""
    lines = part(path, "The possible test modes and the corresponding values for C are:", "5.6 BIT CLEAR")
    found = column([line.strip().translate(str.maketrans("ВС", "BC")) for line in lines], r"(?P<line>\w*\s*\((?P<words>.*)\))\s+(?P<code>\w)")
    return [(code, line.replace("\t", " "), words) for code, line, words in found if code != "?"]


def of_page():
    return re.findall(r"^\| (\w) \| (\w* ?\(([^|]*)\)) \|", PAGE.read_text(), flags=re.M)


def of_definition():
    return column(part(DEFINITION, "tests w t psw =", "    []"), r" +(?P<line>.*) ∷ +-- (?P<code>\w) (?P<words>.*)")


def of_code():
    """The last arm is the default of the match, marked as code F."""
    arms = column(part(CODE, "    match c % 16 {", "    }"), r" +(?P<line>(?:0x)?(?P<code>\w) => .*), // (?P<words>.*)")
    return [("F", line, words.removesuffix(MARK)) if code == "_" and words.endswith(MARK) else (code, line, words) for code, line, words in arms]


def quoted(text):
    return "`" + text.replace("|", "\\|") + "`"


def page(source):
    """The page, or an end with what does not agree."""
    columns = {"source": source, str(DEFINITION.relative_to(ROOT)): of_definition(), str(CODE.relative_to(ROOT)): of_code()}
    for name, lines in columns.items():
        if [code for code, _, _ in lines] != list(CODES):
            sys.exit(f"test_codes: {name}: the lines are {' '.join(code for code, _, _ in lines)}")
        for (code, _, words), (_, line, own) in zip(source, lines):
            if own != words:
                sys.exit(f"test_codes: {name}: code {code} is {words}, not {own}: {line}")
    rows = [f"| {code} | {line} | {quoted(defined)} | {quoted(arm)} |\n" for (code, line, _), (_, defined, _), (_, arm, _) in zip(*columns.values())]
    return HEAD + "| C | Source | Definition | Code |\n|---|---|---|---|\n" + "".join(rows) + FOOT


def main():
    if sys.argv[1:2] not in (["--write"], ["--check"]):
        sys.exit(__doc__)
    text = page(of_manual(pathlib.Path(sys.argv[2])) if sys.argv[2:] else of_page())
    if sys.argv[1] == "--write":
        PAGE.write_text(text)
    elif text != (there := PAGE.read_text()):
        wrong = [line for line in text.splitlines() if line not in there.splitlines()]
        sys.exit("\n".join([f"test_codes: {PAGE.relative_to(ROOT)} is not what --write writes:", *wrong]))


if __name__ == "__main__":
    main()
