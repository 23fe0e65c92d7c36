#!/usr/bin/env python3
"""CHANGELOG.md, made of the title and the first paragraph of each landing's note (docs/landings). From the repository's root.

    python3 tools/changelog.py [--check]    writes it, or fails where it is not what it would write
"""
import glob
import re
import sys

import version

FILE = "CHANGELOG.md"
HEAD = """# Changelog

Made by tools/changelog.py from the notes of docs/landings. Version 0.N.0 has the requests L1 to LN of document 02; a request that landed before its turn
has no version of its own until those before it have landed.
"""


def landings():
    for path in sorted(glob.glob("docs/landings/L*.md"), key=lambda path: int(re.search(r"L(\d+)", path).group(1)), reverse=True):
        title, first = open(path).read().split("\n\n")[:2]
        yield int(re.search(r"L(\d+)", path).group(1)), title.removeprefix("# "), first, path


def text():
    row = version.last_in_a_row()
    parts = [HEAD]
    for number, title, first, path in landings():
        name = f"0.{number}.0" if number <= row else "before its turn"
        parts.append(f"## {name}: {title}\n\n{first.strip()}\n\nMore: {path}\n")
    return "\n".join(parts)


if sys.argv[1:] == ["--check"]:
    if open(FILE).read() != text():
        sys.exit(f"{FILE} is not what tools/changelog.py writes")
elif sys.argv[1:]:
    sys.exit(__doc__)
else:
    open(FILE, "w").write(text())
