#!/usr/bin/env python3
"""same.py A B: whether two programs, or two archives, have the same functions, instruction by instruction. Where a function stands, and with
it the addresses in its code, is left out: the linker orders the functions of a proved program and of one built without proof differently. What an
archive's code refers to is compared by its relocations; a constant of the code's own has no name there that lasts.
"""
import re
import subprocess
import sys


def functions(file):
    """The instructions of each function, without addresses."""
    found, name = {}, None
    for line in subprocess.run(["objdump", "-dr", "--no-show-raw-insn", file], capture_output=True, text=True, check=True).stdout.splitlines():
        if head := re.match(r"^[0-9a-f]+ <(.*)>:$", line):
            name = head.group(1)
            found[name] = []
        elif name and (code := re.match(r"^ +[0-9a-f]+:\t(.*)$", line)):
            text = re.sub(r"# [0-9a-f]+ ?(<[^>]*>)?", "", code.group(1))
            text = re.sub(r"\b[0-9a-f]+ (<[^>]*>)", r"\1", text)
            text = re.sub(r"<\.L[^>]*>", "<local>", text)
            found[name].append(re.sub(r"-?0x[0-9a-f]+\(%rip\)", "X(%rip)", text).strip())
        elif name and (refers := re.match(r"^\s+[0-9a-f]+: (R_\S+)\s+([^\s+]+?)(?:[-+]0x[0-9a-f]+)?$", line)):
            found[name].append(f"{refers.group(1)} {'local' if refers.group(2).startswith(('.L', '.rodata')) else refers.group(2)}")
    return found


def main():
    if len(sys.argv) != 3:
        sys.exit(__doc__)
    first, second = map(functions, sys.argv[1:])
    differ = sorted(name for name in first.keys() | second.keys() if first.get(name) != second.get(name))
    if differ or not first:
        sys.exit(f"{sys.argv[1]} and {sys.argv[2]} differ in {', '.join(differ) or 'everything: no function is there'}")
    print(f"{sys.argv[1]} and {sys.argv[2]} have the same {len(first)} functions, {sum(map(len, first.values()))} instructions")


if __name__ == "__main__":
    main()
