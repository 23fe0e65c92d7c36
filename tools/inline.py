#!/usr/bin/env python3
"""inline.py [--left] MODULE.ll FUNCTION..: what the compiler's inliner does with these functions (as operation_decide::decide) at each call, with cost
and threshold; it inlines what costs less, and a function with a single call site has a bonus of 15,000. native.py writes the module of an archive.
With --left a table of the units that each has left below its threshold; it fails where one stays a call."""
import collections
import re
import subprocess
import sys

from native import CLANG, TARGET


def remarks_of(module):
    command = [CLANG, TARGET, "-march=x86-64", "-O3", "-c", "-Rpass=inline", "-Rpass-missed=inline", "-x", "ir", module, "-o", "/dev/null"]
    return [re.sub(r".*remark: (<unknown>:0:0: )?", "", line) for line in subprocess.run(command, capture_output=True, text=True).stderr.split("\n")]


def show(function, told):
    for remark, times in collections.Counter(told).items():
        print(f"{times} x {remark}")
    if not told:
        print(f"{function}: no call of it is left to inline")


def show_left(function, told):
    costs = [re.search(r" inlined into '(\S+)' with \(cost=(-?\d+), threshold=(\d+)\)", remark) for remark in told]
    if len(told) != 1 or " not inlined " in told[0] or not costs[0]:
        sys.exit(f"inline.py: {function} is not inlined at a single call: {told}")
    into, cost, threshold = costs[0].groups()
    print(f"| {function} | {into} | {int(threshold) - int(cost)} |")


words = sys.argv[1:]
left = words[:1] == ["--left"]
module, *functions = words[left:] or [None]
if not functions:
    sys.exit(__doc__)
if left:
    print("| Function | Inlined into | Units left |\n|---|---|---|")
remarks = remarks_of(module)
for function in functions:
    (show_left if left else show)(function, [remark for remark in remarks if re.search(rf"'{re.escape(function)}' (not )?inlined", remark)])
