#!/usr/bin/env python3
"""What an auditor is given, held to the tree after `rt ci` and tools/proved.sh: the page of tools/audit.py, the definitions that must be believed alone by
tools/believed.py, the commands of docs/TRUST.md, and the definitions run on an input of his own by tools/by_definition.py.

    python3 tests/auditor.py
"""
import html
import os
import pathlib
import re
import subprocess
import sys
import textwrap

ROOT = pathlib.Path(__file__).resolve().parent.parent
sys.path.insert(0, str(ROOT / "tools"))
os.chdir(ROOT)
import by_definition
import closure

BATCH = ROOT / "crates" / "hep_batch"


def output(*words, **more):
    return subprocess.run(words, capture_output=True, text=True, check=True, **more).stdout


def page():
    """Both pages after everything is proved, and every edit refused, by the log of that run."""
    output(sys.executable, "tools/audit.py", "--as-is")
    return [(ROOT / f"target/audit/audit.{end}").read_text() for end in ("md", "html")]


def facts(markdown):
    crates = len(closure.uses())
    edits = len(list(ROOT.glob("crates/*/must-fail/*.edit")))
    for fact in (f"| crates proved | {crates} of {crates} |", f"| must-fail edits refused | {edits} of {edits} |"):
        assert fact in markdown, fact
    axioms = re.search(r"^\| axioms, by the crates that reach one \| (.*) \|$", markdown, flags=re.M).group(1)
    reached = {crate: names for crate, _, names in (part.partition(": ") for part in axioms.split("; "))}
    assert set(reached) <= {"hep_batch", "trials"} and reached["hep_batch"] == ", ".join(f"`{name}`" for name in told_axioms()), axioms
    assert re.search(r"public functions with a `requires` \| 0 of [1-9]\d+ \|", markdown)
    for built in ("target/bin/hep_batch", "target/staticlib/libhep_c.a"):
        digest = output("sha256sum", built).split()[0]
        assert re.search(rf"\| {built} \| sha256 `{digest}`, `rattle logic=[0-9a-f]+` \|", markdown), built


def told_axioms():
    """The axioms of the program, as docs/TRUST.md lists them."""
    lines = re.findall(r"`axioms \w+: (.*?) \(", pathlib.Path("docs/TRUST.md").read_text())
    return [name for names in lines for name in names.split(", ")]


def links(markdown, shown):
    """Every link leads to a place of the page or to a line of a file that has the name."""
    places = re.findall(r' id="([^"]+)"', shown)
    assert len(places) == len(set(places))
    targets = re.findall(r'href="([^"]+)"', shown)
    assert len(targets) > 2000, len(targets)
    for target in map(html.unescape, set(targets)):
        if target.startswith("#"):
            assert target[1:] in places, target
    defined = re.findall(r"\[`([^`]+)`\]\(\.\./\.\./([^)#]+)#L(\d+)\)", markdown)
    assert len(defined) > 500, len(defined)
    for name, file, line in defined:
        assert name in pathlib.Path(file).read_text().split("\n")[int(line) - 1], (name, file, line)


def trust():
    """The commands of docs/TRUST.md print what it says."""
    text = pathlib.Path("docs/TRUST.md").read_text()
    commands = [line for block in re.findall(r"(?:^    .*\n)+", text, flags=re.M) for line in textwrap.dedent(block).splitlines()]
    done = {command: subprocess.run(command, shell=True, capture_output=True, text=True) for command in commands}
    assert all(ran.returncode == 0 for command, ran in done.items() if command.startswith("bash ")), done
    said = {command: ran.stdout for command, ran in done.items()}
    axioms, none, mark = (said[next(c for c in commands if c.startswith(start))] for start in ("grep axioms", "grep -c", "readelf"))
    listed = re.findall(r"`(axioms \w+: .*?declared\))`", text)
    assert listed and all(f"{line}\n" in axioms for line in listed), axioms
    assert len(re.findall(r"^axioms \w+: (?!none )", axioms, flags=re.M)) == len(listed), axioms
    assert f"axioms={re.search(r'`axioms=([0-9]+)`', text).group(1)} " in axioms, axioms
    assert none.strip() == "0" and "logic=proved" in pathlib.Path("target/log/hep_c.say").read_text(), none
    assert re.search(r"`(rattle logic=\w+)`", text).group(1) in mark, mark


def definitions():
    """The printed case by the definitions; an answer with a wrong byte is refused."""
    assert output(sys.executable, "tools/by_definition.py", BATCH / "stdin") == (BATCH / "stdout").read_text()
    data, right, image = next(by_definition.proposed([(BATCH / "stdin").read_bytes().hex()]))
    wrong = [bytes([text[0] ^ 1]) + text[1:] for text in (right, image)]
    assert by_definition.refused("auditor", [(data, wrong[0], image), (data, right, wrong[1])]) == ["image_1", "output_0"]


def main():
    markdown, shown = page()
    facts(markdown)
    links(markdown, shown)
    output(sys.executable, "tools/believed.py")
    trust()
    definitions()
    print("auditor: the page, the definitions alone, docs/TRUST.md's commands and the definitions on an input, as they say")


if __name__ == "__main__":
    main()
