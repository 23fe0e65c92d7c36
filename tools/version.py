#!/usr/bin/env python3
"""The version is the line of the file VERSION: 0.N.0, where every request from L1 to LN has landed (docs/landings). From the repository's root.

    python3 tools/version.py --write    puts it into include/hep.h and into each Cargo.toml and Cargo.lock
    python3 tools/version.py --check    fails where one of these, or the landings, say otherwise

install.sh puts it into the man pages and hep.pc, in place of @VERSION@.
"""
import glob
import os
import re
import sys

VERSION = open("VERSION").read().strip()


def last_in_a_row():
    landed = {int(number) for path in glob.glob("docs/landings/L*.md") if (number := os.path.basename(path)[1:-3]).isdigit()}
    return next(n for n in range(len(landed) + 1) if n + 1 not in landed)


def places():
    """Each file with the patterns of what stands before its versions."""
    packages = [re.search(r'^name = "(.*)"', open(path).read(), flags=re.M).group(1) for path in glob.glob("*/Cargo.toml")]
    yield "include/hep.h", [r'#define HEP_VERSION "']
    for path in sorted(glob.glob("*/Cargo.toml")):
        yield path, [r'^version = "']
    for path in sorted(glob.glob("*/Cargo.lock")):
        text = open(path).read()
        yield path, [rf'^name = "{name}"\nversion = "' for name in packages if f'name = "{name}"\n' in text]


def main():
    if sys.argv[1:] not in (["--write"], ["--check"]):
        sys.exit(__doc__)
    wrong = [] if VERSION == f"0.{last_in_a_row()}.0" else [f"VERSION is {VERSION}, and the last landing in a row is L{last_in_a_row()}"]
    for path, patterns in places():
        text = new = open(path).read()
        for before in patterns:
            new, found = re.subn(rf'({before})[^"]*', rf"\g<1>{VERSION}", new, flags=re.M)
            wrong += [] if found == 1 else [f"{path}: {found} versions behind {before}"]
        if new != text and "--write" in sys.argv:
            open(path, "w").write(new)
        elif new != text:
            wrong.append(f"{path} has another version than VERSION ({VERSION})")
    for path in sorted(glob.glob("install/hep*")):
        if "@VERSION@" not in open(path).read() and path.endswith((".pc", ".1", ".3", ".5")):
            wrong.append(f"{path} has no @VERSION@")
    if wrong:
        sys.exit("\n".join(wrong))


if __name__ == "__main__":
    main()
