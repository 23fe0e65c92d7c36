#!/usr/bin/env python3
"""where.py BENCH CLASS [COUNT]: the instructions a step of a class of the benchmark by the function that they come from, inlined ones told apart, and
by that function with its caller (the first COUNT, 40 if not given). Counted by valgrind, a run with all items less one with none. BENCH is a
hep-bench that is linked, without stripping, to an archive with locations:

    python3 tools/native.py hep_c --locations
    HEP_LIB_DIR=$PWD/target/native CARGO_PROFILE_RELEASE_STRIP=none cargo build --release --offline --manifest-path hep-trials/Cargo.toml --bin hep-bench
"""
import collections
import os
import re
import subprocess
import sys
import tempfile

ITEMS = 60_000


def costs(bench, workload, items):
    """Executed instructions by their address in the program."""
    with tempfile.TemporaryDirectory() as folder:
        out = os.path.join(folder, "out")
        words = ["--tool=callgrind", "--dump-instr=yes", "--compress-pos=no", "--compress-strings=no", f"--callgrind-out-file={out}"]
        subprocess.run(["valgrind", *words, bench, "--once", "proved", workload, str(items)], capture_output=True, check=True)
        lines = open(out).read().split("\n")
    cost, called, own = collections.Counter(), False, True
    for line in lines:
        if line.startswith("ob="):
            own = line.endswith(os.path.basename(bench))
        elif line.startswith("calls="):
            called = True
        elif m := re.match(r"0x([0-9a-f]+) (\d+) (\d+)", line):
            if own and not called:
                cost[int(m.group(1), 16)] += int(m.group(3))
            called = False
    return cost


def chains(bench, addresses):
    """For each address its function and those that it is inlined into."""
    text = "\n".join(hex(address) for address in addresses)
    lines = subprocess.run(["addr2line", "-e", bench, "-f", "-i", "-a"], input=text, capture_output=True, text=True, check=True).stdout.split("\n")
    found, at, place = {}, None, 0
    while place < len(lines):
        if lines[place].startswith("0x"):
            at = int(lines[place], 16)
            found[at], place = [], place + 1
        else:
            found.setdefault(at, []).append(lines[place])
            place += 2
    return found


def main():
    if len(sys.argv) < 3:
        sys.exit(__doc__)
    bench, workload, most = sys.argv[1], sys.argv[2], int(sys.argv[3]) if len(sys.argv) > 3 else 40
    whole, none = costs(bench, workload, ITEMS), costs(bench, workload, 0)
    step = {at: (whole[at] - none[at]) / ITEMS for at in sorted(whole) if whole[at] - none[at] > ITEMS // 1000}
    alone, called = collections.Counter(), collections.Counter()
    found = chains(bench, step)
    for at, cost in step.items():
        chain = found.get(at) or ["?"]
        alone[chain[0]] += cost
        called[" in ".join(chain[:2])] += cost
    for title, counted in (("function", alone), ("function and its caller", called)):
        print(f"   a step  {title}")
        for name, cost in counted.most_common(most):
            print(f"{cost:9.1f}  {name}")
    print(f"{sum(step.values()):9.1f}  all")


if __name__ == "__main__":
    main()
