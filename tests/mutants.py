#!/usr/bin/env python3
"""Mutants of the emulator in Rust: each edit of hep-tools/mutants is made on a copy below target/, built, and must be told from the
emulator by a trial, a random input or a pair for isolation. An edit that names a test of hep-tools/tests, as those of the comparison do,
must fail it.

    python3 tests/mutants.py [LABEL..]
"""
import pathlib
import shutil
import subprocess
import sys

ROOT = pathlib.Path(__file__).resolve().parent.parent
TOOLS = ROOT / "hep-tools"
COPY = ROOT / "target" / "mutants"
CARGO = ["cargo", "--offline"]
CONFIG = ["--config", "profile.dev.opt-level=0", "--config", "profile.dev.debug=0"]


def edit_of(path):
    """File, old text, new text and test, if it has one, of an edit."""
    fields = dict(line.split(": ", 1) for line in path.read_text().splitlines())
    return fields["file"], fields["old"], fields["new"], fields.get("test")


def apply(path):
    """Makes the edit on the copy; gives what undoes it."""
    name, old, new, _ = edit_of(path)
    source = COPY / name
    text = source.read_text()
    if text.count(old) != 1:
        sys.exit(f"mutants: {path.name}: the old text stands {text.count(old)} times in {name}")
    source.write_text(text.replace(old, new))
    return source, text


def built(*arguments):
    """Runs cargo on the copy, which must succeed."""
    subprocess.run([*CARGO, *arguments], cwd=COPY, check=True, stdout=subprocess.DEVNULL, stderr=subprocess.DEVNULL)


def caught(path):
    """The line that says how the mutant was told apart, or none."""
    test = edit_of(path)[3]
    return failed(test) if test else differing()


def failed(test):
    """The line that says which test failed, or none."""
    built("test", "--test", test, "--no-run", *CONFIG)
    done = subprocess.run([*CARGO, "test", "--test", test, *CONFIG], cwd=COPY, capture_output=True, text=True)
    lines = [line for line in done.stdout.splitlines() if line.endswith("... FAILED")]
    return lines[0] if done.returncode != 0 and lines else None


def differing():
    """The line that says what differs from the emulator, or none."""
    built("build", "--bin", "hep-emulator", *CONFIG)
    program = COPY / "target" / "debug" / "hep-emulator"
    command = [TOOLS / "target" / "release" / "hep-compare", "--lines", "--save", COPY / "cases", program, "--lines"]
    done = subprocess.run(command, capture_output=True, text=True)
    lines = [line for line in done.stdout.splitlines() if "differs" in line]
    return lines[0] if done.returncode == 1 and lines else None


def main():
    subprocess.run(["cargo", "build", "--quiet", "--offline", "--release", "--manifest-path", TOOLS / "Cargo.toml"], check=True)
    shutil.rmtree(COPY / "src", ignore_errors=True)
    COPY.mkdir(parents=True, exist_ok=True)
    for name in ("src", "trials", "tests"):
        shutil.copytree(TOOLS / name, COPY / name, dirs_exist_ok=True)
    for name in ("Cargo.toml", "Cargo.lock"):
        shutil.copy(TOOLS / name, COPY / name)
    edits = sorted((TOOLS / "mutants").glob("*.edit"))
    edits = [edit for edit in edits if not sys.argv[1:] or edit.stem in sys.argv[1:]]
    missed = []
    for edit in edits:
        source, text = apply(edit)
        found = caught(edit)
        print(f"{edit.stem}: {found or 'not caught'}", flush=True)
        missed += [] if found else [edit.stem]
        source.write_text(text)
    print(f"mutants: {len(edits) - len(missed)} of {len(edits)} caught")
    sys.exit(1 if missed else 0)


if __name__ == "__main__":
    main()
