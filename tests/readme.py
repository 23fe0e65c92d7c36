#!/usr/bin/env python3
"""The README's three programs, taken from its text: the Rattle one is the source of hep_batch, the C one and the Rust one are built and run.
The archive must stand (tools/archive.sh).

    python3 tests/readme.py
"""
import pathlib
import re
import subprocess
import sys
import textwrap

ROOT = pathlib.Path(__file__).resolve().parent.parent
BUILD = ROOT / "target" / "readme"
CARGO = '[package]\nname = "readme"\nversion = "0.1.0"\nedition = "2021"\n\n[dependencies]\nhep = { path = "../../hep-rust" }\n\n[workspace]\n'


def program(mark):
    """The one indented block of the README that has this mark."""
    blocks = re.findall(r"(?:^    .*\n|^\n(?=    ))+", (ROOT / "README.md").read_text(), flags=re.M)
    found = [textwrap.dedent(block).strip() + "\n" for block in blocks if mark in block]
    if len(found) != 1:
        sys.exit(f"readme: {len(found)} programs with {mark}")
    return found[0]


def held(name, output, expected):
    if output != expected:
        sys.exit(f"readme: the {name} program wrote:\n{output}expected:\n{expected}")


def main():
    batch = ROOT / "crates" / "hep_batch"
    if program("batch::batch(") not in (batch / "src" / "main.rt").read_text():
        sys.exit("readme: the Rattle program is not that of crates/hep_batch")
    (BUILD / "src").mkdir(parents=True, exist_ok=True)
    (BUILD / "main.c").write_text(program('#include "hep.h"'))
    archive = ROOT / "target" / "staticlib" / "libhep_c.a"
    command = ["cc", "-std=c11", "-Wall", "-Wextra", "-Werror", "-I", ROOT / "include", "-o", BUILD / "main", BUILD / "main.c", archive]
    subprocess.run(command, check=True)
    done = subprocess.run([BUILD / "main"], input=(batch / "stdin").read_bytes(), stdout=subprocess.PIPE, check=True)
    held("C", done.stdout.decode(), (batch / "stdout").read_text())
    (BUILD / "Cargo.toml").write_text(CARGO)
    (BUILD / "src" / "main.rs").write_text(program("hep::run("))
    done = subprocess.run(["cargo", "run", "--quiet", "--offline"], cwd=BUILD, stdout=subprocess.PIPE, text=True, check=True)
    held("Rust", done.stdout, "1 1 14 00000 E0 W0 T1 I2 S0\nE0 W0 T1 I2 S0 CF0\n")
    print("readme: 3 programs, as it says")


if __name__ == "__main__":
    main()
