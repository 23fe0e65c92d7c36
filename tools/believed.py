#!/usr/bin/env python3
"""Writes what must be believed, and nothing else, as a repository of its own. It has the definitions, types and constants that the
contracts of the delivered calls and demand 3 rest on (tools/closure.py), without statements, laws, functions and proofs. `rt all check` must then
accept it, so nothing that they name was left out. From the repository's root.

    python3 tools/believed.py [FOLDER]      keeps it as FOLDER, which must be new and lie outside this repository, where `rt ci` allows no other crates
"""
import os
import re
import shutil
import subprocess
import sys
import tempfile

import closure


def commented(item, mark):
    return [f"{mark} {line}" for line in item.comment] + item.lines


def source(specs, crate, items):
    """The types and constants of a crate, with the imports that they need."""
    text = "\n\n".join("\n".join(commented(item, "//")) for item in items)
    known = sorted(specs.source_imports[crate].items())
    uses = [f"use {lower}::{name};" for name, (lower, module, _, _) in known if module == "src" and re.search(rf"\b{name}\b", text)]
    return "\n".join(["// Types and constants.", "#![tactic(auto)]", "", *uses, "", text]) + "\n"


def import_line(specs, line, keys):
    """An import without the names that are left out; nothing where none stays."""
    found = closure.IMPORT.match(line)
    if not found or found.group(2) not in specs.crates:
        return line
    _, crate, module, names, alias = found.groups()
    home = lambda name: getattr(specs.home(crate, closure.module_of(module), name), "key", None)
    # here all of it stands in specs/
    line = line.replace(f"Rattle.{crate}.proofs.", f"Rattle.{crate}.specs.")
    if alias:
        return line if home("") in keys else ""
    kept = [name for name in names.split(", ") if home(name.partition(" as ")[0]) in keys]
    return line[: line.index("{")] + "{" + ", ".join(kept) + "}" if kept else ""


def spec(specs, module, items, keys):
    """A file with these items alone, from the file of specs/ and that of proofs/ with its name."""
    paths = dict.fromkeys(item.path for item in items)
    imports = [line for path in paths for line in open(path).read().split("\n") if re.match(r"(unfoldable )?(pub )?use ", line)]
    kept = dict.fromkeys(line for line in (import_line(specs, line, keys) for line in imports) if line)
    lines, inside = [line for line in kept if f"Rattle.{items[0].crate}.specs.{module}." not in line], []
    for item in items:
        if item.parameters != inside:
            inside = item.parameters
            lines += ["", *("  " * depth + head for depth, head in enumerate(inside))]
        lines += ["", *("  " * len(inside) + line if line.startswith("--") else line for line in commented(item, "--"))]
    return "\n".join(lines) + "\n"


def write(specs, out):
    below, listed = specs.below(specs.delivered()), closure.uses()
    keys, crates = {item.key for item in below}, list(dict.fromkeys(item.crate for item in below))
    for crate in crates:
        own = [item for item in below if item.crate == crate]
        os.makedirs(f"{out}/crates/{crate}/src")
        open(f"{out}/crates/{crate}/src/lib.rt", "w").write(source(specs, crate, [item for item in own if item.module == "src"]))
        modules = list(dict.fromkeys(closure.shown(item.module) for item in own if item.module != "src"))
        os.makedirs(f"{out}/crates/{crate}/specs")
        open(f"{out}/crates/{crate}/specs/Lib.antt", "w").write("".join(f"pub mod {module}\n" for module in modules))
        for module in modules:
            items = [item for item in own if closure.shown(item.module) == module]
            open(f"{out}/crates/{crate}/specs/{module}.antt", "w").write(spec(specs, module, items, keys))
    open(f"{out}/crates.txt", "w").write("".join(f"{crate}: {' '.join(d for d in listed[crate] if d in crates)}\n" for crate in crates))
    return below


def main():
    if len(sys.argv) > 2 or sys.argv[1:] and os.path.exists(sys.argv[1]):
        sys.exit(__doc__)
    with tempfile.TemporaryDirectory() as folder:
        out = f"{folder}/believed"
        below = write(closure.Specs(), out)
        done = subprocess.run(["rt", "all", "check"], cwd=out, capture_output=True, text=True)
        said = (done.stdout + done.stderr).splitlines()
        if done.returncode:
            sys.exit("\n".join(line for line in said if re.search(r"\berror\b|^rt: |^logic=not", line)))
        if sys.argv[1:]:
            shutil.copytree(out, sys.argv[1], ignore=shutil.ignore_patterns("out"))
    proved = sum(line.startswith("logic=proved") for line in said)
    print(f"{closure.summary(below)}, in {proved} crates; the checker accepts them alone")


if __name__ == "__main__":
    main()
