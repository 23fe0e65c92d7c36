#!/usr/bin/env python3
"""over_ci.py NAME [ARCHIVE]: what `rattle` says of crate NAME over the libraries as `rt ci` has proved them, into target/log/NAME.say; of a static library
also its archive. `rt ci` checks a static library and builds none, and `rt lib` would prove every library below anew. It ends with 3 where a library is
not as the last `rt ci` left it: then `rt lib`, `rt run` and `rt check` are what to use. From the repository's root.
"""
import os
import pathlib
import re
import subprocess
import sys

import progress

KIT = pathlib.Path(subprocess.run(["rt", "doc"], capture_output=True, text=True, check=True).stdout.strip()).parent
sys.path.insert(0, str(KIT / "bin"))
sys.dont_write_bytecode = True
import rtlib

NOT_AS_CI_LEFT_IT = 3


def crate_of(root, name):
    crate = rtlib.Crate(f"{root}/crates/{name}", str(root), {})
    crate.out = sys.stderr
    return crate


def passed(root):
    """Whether the last `rt ci` passed, and no file that it read was changed since."""
    log = pathlib.Path(root, progress.KEPT)
    if not log.exists() or not re.search(r"^\d+ passed, 0 failed$", log.read_text().rstrip().split("\n")[-1]):
        return False
    read = [pathlib.Path(root, "crates.txt"), *(path for part in rtlib.PARTS for path in pathlib.Path(root, "crates").glob(f"*/{part}/**/*"))]
    return all(path.stat().st_mtime <= log.stat().st_mtime for path in read)


def left(crates):
    """Whether each of these libraries is as `rt ci` leaves it: built, and without the stamp that `rt check` and `rt lib` leave."""
    built = lambda crate: os.path.isfile(f"{crate.rlib}/format") and not os.path.exists(f"{os.path.dirname(crate.rlib)}/stamp")
    return all(map(built, crates))


def rattle(verb, crate, *more):
    """Checks or builds a crate over the libraries below it as they are built, from nothing."""
    words = crate.words(["--jobs", str(len(os.sched_getaffinity(0)))], keeps=False)
    return subprocess.run([rtlib.RATTLE, verb, *words, *more], cwd=crate.folder, stdout=subprocess.PIPE, stderr=subprocess.STDOUT, text=True, errors="replace")


def main():
    if len(sys.argv) not in (2, 3):
        sys.exit(__doc__)
    name, archive = sys.argv[1], sys.argv[2] if len(sys.argv) == 3 else None
    crate = crate_of(os.getcwd(), name)
    if not passed(os.getcwd()) or not left(crate.below()):
        sys.exit(NOT_AS_CI_LEFT_IT)
    building = ["--toolchain", f"{KIT}/toolchain", "--backend", "llvm", "-o", os.path.abspath(archive)] if archive else []
    done = rattle("build" if archive else "check", crate, *building)
    if done.returncode:
        sys.exit(f"{done.stdout}over_ci: {name} ended with status {done.returncode}")
    with open(progress.SAID.format(name), "w") as file:
        file.write(done.stdout)
    print(f"{name}, over what rt ci proved: {done.stdout.strip().splitlines()[-1].split(' sum=')[0]}")


if __name__ == "__main__":
    main()
