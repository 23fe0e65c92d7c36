#!/usr/bin/env python3
"""What the definitions say of an input of your own: the batch program's output, and the image after the run. From the repository's root.

    python3 tools/by_definition.py [--image OUT] FILE       FILE is text (hep-tools/FORMAT.md), hex digits or bytes; OUT takes the image

No program of the product runs for it. The emulator of hep-tools proposes the bytes of both; the prover works out the definitions on the input
(report / Report . output_of, run / Run . run, image / Image . encode), in a repository of its own among the temporary files, over the crates as they
are proved, and accepts the bytes or refuses them: exit 1 if the definitions say otherwise. The crate report is proved first, if it isn't.
"""
import argparse
import hashlib
import os
import pathlib
import re
import shutil
import subprocess
import sys
import tempfile

import over_ci

ROOT = pathlib.Path(__file__).resolve().parent.parent
TOOLS = ROOT / "hep-tools"

HEADER = """-- Made by tools/by_definition.py.
use Rattle.std.specs.Prelude.{◌≡◌, refl, ℕ, List, [], ◌∷◌}
use Rattle.run.specs.Run.{run}
use Rattle.image.specs.Codec.{Codec, Result, refused, accepted}
use Rattle.image.specs.Image.{Decoded, bad, good, decode, state_of, encode}
use Rattle.report.specs.Report.{schedule_codec, output_of}
use Rattle.report.proofs.Laws.Opened.{opened}

-- the image that is written after the run
written : (schedule : List ℕ) → Decoded → List ℕ
written schedule (bad e) = []
written schedule (good i) = encode (run schedule (state_of i)).state

scheduled : Result (List ℕ) → List ℕ
scheduled (refused e) = []
scheduled (accepted schedule image) = written schedule (decode image)

image_after : List ℕ → List ℕ
image_after input = scheduled (schedule_codec.dec input)
"""


def lines_of(program, *arguments, lines=()):
    """The lines that a program of hep-tools answers to these lines."""
    text = "".join(line + "\n" for line in lines)
    done = subprocess.run([TOOLS / "target" / "release" / program, *arguments], input=text, capture_output=True, text=True, check=True)
    return done.stdout.splitlines()


def proposed(inputs):
    """For each input, in hex, its bytes with the emulator's output and the image after the run, or none where it is refused."""
    for data, line in zip(inputs, lines_of("hep-emulator", "--lines", lines=inputs), strict=True):
        output, image = line.split()
        yield bytes.fromhex(data), bytes.fromhex(output), None if image == "-" else bytes.fromhex(image)


def byte_list(data):
    return " ∷ ".join([str(b) for b in data] + ["[]"])


def statements(number, data, output, image):
    text = f"\ninput_{number} : List ℕ\ninput_{number} = {byte_list(data)}\n"
    text += f"\noutput_{number} : output_of input_{number} ≡ {byte_list(output)}\n"
    text += f"unfolding opened input_{number}\noutput_{number} = refl\n"
    if image is not None:
        text += f"\nimage_{number} : image_after input_{number} ≡ {byte_list(image)}\n"
        text += f"unfolding opened input_{number} image_after scheduled written\nimage_{number} = refl\n"
    return text


def linked(one, other):
    """A library's file under a second name; a source is copied, since a link would touch it."""
    try:
        os.link(one, other)
    except OSError:
        shutil.copyfile(one, other)


def make_repository(copy, vectors):
    """The libraries below as they are proved, and above them the crate vectors; gives that crate."""
    report = over_ci.crate_of(ROOT, "report")
    lower = [*report.below(), report]
    for crate in lower:
        for part in ("src", "specs", "proofs", "out/rlib"):
            if os.path.isdir(f"{crate.folder}/{part}"):
                how = linked if part == "out/rlib" else shutil.copyfile
                shutil.copytree(f"{crate.folder}/{part}", copy / "crates" / crate.name / part, copy_function=how)
    lines = [f"{crate.name}: {' '.join([*(dep.name for dep in crate.deps), *crate.of_kit[1:]])}" for crate in lower]
    (copy / "crates.txt").write_text("\n".join([*lines, "vectors: " + " ".join(crate.name for crate in lower)]) + "\n")
    crate = copy / "crates" / "vectors"
    for part in ("src", "proofs"):
        (crate / part).mkdir(parents=True)
    (crate / "src" / "lib.rt").write_text("// No code.\n#![tactic(auto)]\n")
    (crate / "proofs" / "Lib.antt").write_text("pub mod Vectors\n")
    (crate / "proofs" / "Vectors.antt").write_text(vectors)
    return over_ci.crate_of(copy, "vectors")


def prepare():
    """The crate report proved, as `rt ci` or else `rt lib` leaves it, and hep-tools built."""
    report = over_ci.crate_of(ROOT, "report")
    if not over_ci.passed(ROOT) or not over_ci.left([*report.below(), report]):
        forecast = subprocess.run([sys.executable, "tools/progress.py", "--forecast", "report"], cwd=ROOT, capture_output=True, text=True, check=True)
        print("The crate report and what it rests on come first.", forecast.stdout.strip(), file=sys.stderr)
        below = subprocess.run(["rt", "lib"], cwd=report.folder, capture_output=True, text=True)
        if below.returncode:
            sys.exit(below.stdout + below.stderr)
    subprocess.run(["cargo", "build", "--quiet", "--release", "--offline", "--manifest-path", TOOLS / "Cargo.toml"], check=True)


def refused(name, answers):
    """The statements of these answers that the prover refuses, by name; what it says goes to target/log/NAME.out."""
    with tempfile.TemporaryDirectory(prefix=f"{name}-") as folder:
        crate = make_repository(pathlib.Path(folder), HEADER + "".join(statements(number, *answer) for number, answer in enumerate(answers)))
        done = over_ci.rattle("check", crate)
    (ROOT / "target" / "log").mkdir(parents=True, exist_ok=True)
    (ROOT / "target" / "log" / f"{name}.out").write_text(done.stdout)
    failed = sorted(set(re.findall(r"error: `((?:output|image)_\d+)`", done.stdout)))
    if not done.returncode and not re.search(r"^logic=proved ", done.stdout, flags=re.M) or done.returncode and not failed:
        sys.exit("\n".join(done.stdout.splitlines()[-20:]))
    return failed


def assembled(file):
    """The bytes of a text, by the program hep as examples/run.sh builds it."""
    for built in ("hep-cli/target/release/hep", "target/native/cargo/debug/hep"):
        if (ROOT / built).exists():
            done = subprocess.run([ROOT / built, "asm", file], capture_output=True)
            sys.stderr.buffer.write(done.stderr)
            return done.stdout if done.returncode == 0 else sys.exit(done.returncode)
    sys.exit("by_definition: a text is assembled by hep, which is not built: bash examples/run.sh builds it")


def bytes_of(file):
    try:
        data = pathlib.Path(file).read_bytes()
    except OSError as error:
        print(f"by_definition: {file}: {error.strerror}", file=sys.stderr)
        sys.exit(2)
    if text := re.search(rb"^\s*hep +(image|input)\b", data, flags=re.M):
        return assembled(file) if text.group(1) == b"input" else sys.exit(f"by_definition: {file} is an image, and has no schedule: `hep input` has one")
    return bytes.fromhex(data.decode()) if re.fullmatch(rb"[0-9a-fA-F\s]+", data) else data


def main():
    parser = argparse.ArgumentParser(description=__doc__, formatter_class=argparse.RawDescriptionHelpFormatter)
    parser.add_argument("file", metavar="FILE")
    parser.add_argument("--image", metavar="OUT")
    asked = parser.parse_args()
    prepare()
    data, output, image = next(proposed([bytes_of(asked.file).hex()]))
    if failed := refused("by_definition", [(data, output, image)]):
        sys.exit(f"by_definition: the definitions say otherwise than the emulator of hep-tools: {' '.join(failed)} (target/log/by_definition.out)")
    print(output.decode(), end="")
    if image is None:
        print("refused: there is no image after it", file=sys.stderr)
    else:
        print(f"image after the run: {len(image)} bytes, sha256 {hashlib.sha256(image).hexdigest()}", file=sys.stderr)
    if asked.image and image is not None:
        pathlib.Path(asked.image).write_bytes(image)


if __name__ == "__main__":
    main()
