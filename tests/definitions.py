#!/usr/bin/env python3
"""Holds the definitions to the emulator of hep-tools: for random inputs, the output bytes and the image after the run that the
definitions compute must be those of the emulator. The prover does the computing (tools/by_definition.py).

    python3 tests/definitions.py [SEED [COUNT]]
"""
import pathlib
import sys

sys.path.insert(0, str(pathlib.Path(__file__).resolve().parent.parent / "tools"))
import by_definition


def main():
    seed = int(sys.argv[1]) if len(sys.argv) > 1 else 1
    count = int(sys.argv[2]) if len(sys.argv) > 2 else 60
    by_definition.prepare()
    inputs = by_definition.lines_of("hep-generate", "--small", str(seed), str(count))
    if failed := by_definition.refused("definitions", by_definition.proposed(inputs)):
        sys.exit(f"definitions and emulator differ on seed {seed}: {' '.join(failed)} (target/log/definitions.out)")
    print(f"definitions and emulator agree on {count} random inputs of seed {seed}")


if __name__ == "__main__":
    main()
