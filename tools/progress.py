#!/usr/bin/env python3
"""A line for each crate that `rt` is through with, and how long the rest will take. From the repository's root.

    rt ci | progress.py --gate                      what `rt ci` prints, made short, without the last line, which .ci/run prints in the end
    rt lib 2>&1 | progress.py CRATE                 the same of a build of CRATE and the libraries below it (tools/archive.sh, tools/proved.sh)
    progress.py --forecast [--gate | CRATE..]       how long it takes where nothing is proved yet

A line says how many seconds after the start it came: `rt` itself tells no time. With --gate all that `rt ci` printed is kept in
target/log/gate.txt, and what it said of the proof of each crate in target/log/CRATE.say; a crate that is kept from an earlier run has nothing new there.
Of a crate that is not proved, or an edit that is not refused, all is shown that rt says. The time that is left comes from tools/seconds.txt
(figures.py --seconds makes it), scaled by what the part that is done took here.
"""
import os
import re
import sys
import time

import closure

TABLE = "tools/seconds.txt"
KEPT = "target/log/gate.txt"
SAID = "target/log/{}.say"
# What `rt ci` says of a crate or an edit where all is well.
PROVED = re.compile(r"rt: (\w+) proved$")
GIVEN = re.compile(r"rt: (\w+) is kept: ")
REFUSED = re.compile(r"rt: must-fail (\w+)/(\S+?)(?:\.edit)?: refused, as it must be")
TESTS = re.compile(r"rt: \w+: its tests (are proved|passed)$")
QUIET = re.compile(
    r"rt: (chose --jobs"
    r"|\w+: (trying its must-fail edits|begins with what a check kept|\d+ of its \d+ must-fail edits were tried by an earlier run)"
    r"|\S+ ran\b.*, and wrote what its file stdout has"
    r"|running out/"
    r"|.*: another run on this machine is proving the same)"
)
# The verdict of a check, and the crate that it is of.
OF_CRATE = re.compile(r"crate (\w+): modules loaded=")
VERDICT = re.compile(r"logic=proved ")


def table():
    """Seconds by crate, of what `rt ci` does behind the last of them, of the tests and of all of `rt ci`; and how many processors they were seen on."""
    return {name: int(n) for name, n in re.findall(r"^(\S+) (\d+)$", open(TABLE).read(), flags=re.M)}


class Plan:
    """What is to be done, and how long it takes by the table."""

    def __init__(self, wanted, gate):
        self.took, self.gate, self.crates = table(), gate, closure.with_below(wanted or closure.uses())
        self.rest = self.took.get("rest", 0) if gate else 0
        self.tests = self.took.get("tests", 0) if gate else 0

    def seconds(self, names):
        return sum(self.took.get(name, 0) for name in names)

    def chain(self):
        """The longest chain of crates, each above the one before."""
        ends, listed = {}, closure.uses()
        for crate in listed:
            ends[crate] = self.took.get(crate, 0) + max((ends.get(lower, 0) for lower in listed[crate]), default=0)
        return max((ends[crate] for crate in self.crates), default=0)

    def whole(self):
        """The seconds of all of it, where nothing is proved yet."""
        if self.gate:
            return self.took.get("gate", 0)
        return max(self.chain(), self.seconds(self.crates) / max(1, self.took.get("processors", 1)))

    def left(self, done, given, elapsed):
        """The seconds that are left, at the pace of what this run proved so far; what was kept from an earlier run took no time."""
        work = self.seconds(self.crates) + self.rest
        proved, rest = self.seconds(done - given), work - self.seconds(done)
        pace = elapsed / proved if proved > 20 and elapsed > 1 else self.whole() / work if work else 1
        return rest * pace + self.tests


def duration(seconds):
    return f"{max(10, round(seconds, -1)):.0f} s" if seconds < 95 else f"{seconds / 60:.0f} min"


class Filter:
    def __init__(self, plan, gate):
        self.plan, self.gate, self.file, self.start = plan, gate, None, time.monotonic()
        self.done, self.given, self.refused, self.said, self.crate = set(), set(), 0, [], None

    def elapsed(self):
        return time.monotonic() - self.start

    def keep(self, line):
        if self.gate and not self.file:
            os.makedirs(os.path.dirname(KEPT), exist_ok=True)
            self.file = open(KEPT, "w")
        if self.file:
            self.file.write(line)
            self.file.flush()

    def report(self, crate):
        """Keeps what was said of a crate's proof."""
        os.makedirs(os.path.dirname(SAID), exist_ok=True)
        with open(SAID.format(crate), "w") as file:
            file.writelines(self.said)

    def end(self, crate, how):
        self.done.add(crate)
        names = self.plan.crates
        place = f"[{sum(n in self.done for n in names):{len(str(len(names)))}}/{len(names)}]"
        left = duration(self.plan.left(self.done, self.given, self.elapsed()))
        self.print(f"{place} {crate:<20} {how} at {self.elapsed():5.0f} s   (about {left} left)")

    def print(self, text):
        print(text, flush=True)

    def line(self, line):
        self.keep(line)
        text = line.rstrip("\n")
        if found := OF_CRATE.match(text):
            self.crate = found.group(1)
        if not self.gate and VERDICT.match(text) and self.crate:
            self.said.append(line)
            self.report(self.crate)
            self.end(self.crate, "proved")
            self.said = []
        elif self.gate and text.startswith("rt: "):
            self.told(text)
        elif "waiting for" in text and text.startswith("rt: "):
            self.print(text)
        else:
            self.said.append(line)

    def told(self, text):
        """A line of `rt ci` of its own."""
        if (found := PROVED.match(text)) and found.group(1) in self.plan.crates:
            self.report(found.group(1))
            self.end(found.group(1), "proved")
        elif found := GIVEN.match(text):
            self.given.add(found.group(1))
            self.end(found.group(1), "kept  ")
        elif REFUSED.match(text):
            self.refused += 1
        elif QUIET.match(text):
            self.said.append(text + "\n")
            return
        elif not TESTS.match(text):
            self.print("".join(line for line in self.said if not QUIET.match(line)) + text)
        self.said = []

    def close(self):
        """What came last: an end without a verdict is shown whole."""
        if self.gate and self.refused:
            self.print(f"must-fail edits: {self.refused} refused")
        if self.gate:
            self.print(f"rt ci ended at {self.elapsed():.0f} s")
        rest = self.said[:-1] if self.gate else self.said
        wrong = re.compile(r".*\berror\b|logic=not-proved|rt: (?!chose --jobs|running |note: |rt |must-fail)")
        if any(wrong.match(line) for line in rest):
            self.print("".join(rest).rstrip("\n"))


def forecast(plan):
    what = f"{len(plan.crates)} crates" + (", their must-fail edits and the tests" if plan.gate else "")
    time_taken = duration(plan.whole() + plan.tests)
    return f"{what}: about {time_taken} on {max(1, plan.took.get('processors', 1))} idle processors where nothing is proved yet"


def main():
    gate = "--gate" in sys.argv
    plan = Plan([word for word in sys.argv[1:] if not word.startswith("--")], gate)
    if "--forecast" in sys.argv:
        print(forecast(plan))
        return
    shown = Filter(plan, gate)
    for line in sys.stdin:
        shown.line(line)
    shown.close()


if __name__ == "__main__":
    main()
