"""The seconds in a log of .ci/run, as tools/progress.py prints them: `rt` tells none, so each line of progress.py says how long after the start
it came."""
import re

# A crate that this run proved, the end of `rt ci`, and a part of the tests behind it.
PROVED = re.compile(r"^\[ *\d+/\d+\] (\w+) +proved at +(\d+) s\b", re.M)
ENDED = re.compile(r"^rt ci ended at (\d+) s$", re.M)
PART = re.compile(r"^gate: (\d+) s:", re.M)


def moments(text):
    """When each crate was proved, in seconds after the start."""
    return {crate: int(at) for crate, at in PROVED.findall(text)}


def proofs(text, uses):
    """The seconds of each crate's proof: from when the last of its libraries was proved until it was."""
    at = moments(text)
    return {crate: at[crate] - max((at.get(lower, 0) for lower in uses[crate]), default=0) for crate in at}


def whole(text):
    """The seconds of all of `rt ci`."""
    return sum(map(int, ENDED.findall(text)))


def rest(text):
    """The seconds of `rt ci` behind the last crate: edits that were left, programs run."""
    return whole(text) - max(moments(text).values(), default=0)


def tests(text):
    """The seconds of the gate's tests after `rt ci`, added up."""
    return sum(map(int, PART.findall(text)))
