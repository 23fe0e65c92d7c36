#!/usr/bin/env python3
"""One page for whoever must rely on the proofs: what was proved and with what, what is assumed, what was built, the contracts of the delivered calls,
the definitions that these rest on in reading order, and apart from them what is checked and need not be believed. From the repository's root.

    python3 tools/audit.py              runs `rt ci`, then writes target/audit/audit.html and audit.md
    python3 tools/audit.py --as-is      the same from the log of the last `rt ci` as it is (target/log/gate.txt)

What a definition rests on is told by the names in its text (tools/closure.py); tools/believed.py has the checker accept what is found alone.
"""
import collections
import glob
import hashlib
import html
import os
import re
import subprocess
import sys

import closure
import progress
import version

OUT = "target/audit"
BUILT = ("target/bin/hep_batch", "target/staticlib/libhep_c.a")
STYLE = """
body { font: 16px/1.5 system-ui, sans-serif; max-width: 70rem; margin: 2rem auto; padding: 0 1rem; color: #222; background: #fff }
pre { background: #f5f5f2; padding: .6rem .8rem; white-space: pre-wrap; font: 13px/1.45 ui-monospace, monospace; border-left: 3px solid #ccc; margin: .3rem 0 1rem }
table { border-collapse: collapse; margin: 1rem 0 } td, th { border: 1px solid #ccc; padding: .25rem .6rem; text-align: left; vertical-align: top }
code { font: 14px ui-monospace, monospace } a { color: #0b5394; text-decoration: none } a:hover { text-decoration: underline }
p.item { margin: 1rem 0 0 } h2 { border-bottom: 1px solid #ccc; margin-top: 2.5rem }
"""


def run(*words):
    return subprocess.run(words, capture_output=True, text=True).stdout.strip()


def anchor(item):
    return f"{item.crate}-{item.module}-{item.name}".replace("/", "-")


class Page:
    """Blocks in Markdown, and the same in HTML. Inline text has [text](target) and `code`."""

    def __init__(self, specs, shown):
        self.specs, self.shown, self.markdown, self.html, self.headings = specs, {item.key for item in shown}, [], [], []

    def inline(self, text):
        text = re.sub(r"`([^`]+)`", r"<code>\1</code>", html.escape(text, quote=False))
        return re.sub(r"\[([^\]]+)\]\(([^)]+)\)", r'<a href="\2">\1</a>', text)

    def heading(self, level, text):
        place = re.sub(r"\W+", "-", text)
        self.headings.append((level, text, place))
        self.markdown += [f'<a id="{place}"></a>', "", "#" * level + " " + text, ""]
        self.html.append(f'<h{level} id="{place}">{self.inline(text)}</h{level}>')

    def contents(self, at):
        """The headings, put where the page was this long."""
        lines = []
        for level, text, place in self.headings[1:]:
            if level == 2:
                lines.append([f"[{text}](#{place})"])
            else:
                lines[-1].append(f"[{text}](#{place})")
        for part, row in enumerate(lines):
            said = row[0] + (": " + ", ".join(row[1:]) if row[1:] else "")
            self.markdown[at[0] + 2 * part:at[0] + 2 * part] = [said, ""]
            self.html.insert(at[1] + part, f"<p>{self.inline(said)}</p>")

    def paragraph(self, text):
        self.markdown += [text, ""]
        self.html.append(f"<p>{self.inline(text)}</p>")

    def table(self, head, rows):
        self.markdown += ["| " + " | ".join(head) + " |", "|" + "---|" * len(head), *("| " + " | ".join(row) + " |" for row in rows), ""]
        cells = lambda row, tag: "<tr>" + "".join(f"<{tag}>{self.inline(cell)}</{tag}>" for cell in row) + "</tr>"
        self.html.append("<table>" + cells(head, "th") + "".join(cells(row, "td") for row in rows) + "</table>")

    def link(self, item):
        """A name to its place on the page, or in the tree where it isn't shown."""
        return f"#{anchor(item)}" if item.key in self.shown else source(item)

    def item(self, item, mark=""):
        """A definition, statement or contract with its comment; its names lead to where they are defined."""
        said = f"[`{item.name}`]({source(item)}) {item.path}:{item.line}{mark}. {' '.join(item.comment)}"
        named = self.specs.named(item)
        self.markdown += [f'<a id="{anchor(item)}"></a>{said}', "", "```", *item.parameters, *item.says(), "```", ""]
        if named:
            self.markdown += ["names: " + ", ".join(f"[{n.name}]({self.link(n)})" for n in named), ""]
        links = {word: self.link(found) for word, found in self.specs.words(item)}
        code = "\n".join([*item.parameters, *item.says()])
        link = lambda m: f'<a href="{links[m.group()]}">{m.group()}</a>' if m.group() in links else m.group()
        linked = re.sub(r"[\w'-]+", link, html.escape(code, quote=False))
        self.html.append(f'<p class="item" id="{anchor(item)}">{self.inline(said)}</p><pre>{linked}</pre>')

    def write(self, title):
        os.makedirs(OUT, exist_ok=True)
        open(f"{OUT}/audit.md", "w").write("\n".join(self.markdown))
        head = f'<!doctype html><html lang="en"><meta charset="utf-8"><title>{html.escape(title)}</title><style>{STYLE}</style>'
        open(f"{OUT}/audit.html", "w").write("\n".join([head, *self.html, "</html>"]))


def source(item):
    """A file of the tree, from target/audit, at its line."""
    return f"../../{item.path}#L{item.line}"


def gate_lines():
    return open(progress.KEPT).read().splitlines() if os.path.exists(progress.KEPT) else []


def changed(*parts):
    """When a file of a crate that a proof or an edit reads was last changed; all crates' where none is named."""
    paths = [path for part in ("src", "specs", "proofs", "must-fail") for path in glob.glob(f"crates/{parts[0] if parts else '*'}/{part}/**/*", recursive=True)]
    return max(map(os.path.getmtime, paths), default=0)


def fresh(path, *parts):
    return os.path.exists(path) and os.path.getmtime(path) > changed(*parts)


def told(pattern):
    """The crates of which the last `rt ci` said this, if nothing has changed since."""
    return {found.group(1) for line in gate_lines() if (found := pattern.match(line))} if fresh(progress.KEPT) else set()


def logs(crates):
    """Of each crate whether the last `rt ci` proved it or kept it from an earlier run, then what the last report of its proof said: its words, and the
    axioms that it reached. There is no report of a crate that was kept and never proved here."""
    proved, kept = told(progress.PROVED), told(progress.GIVEN)
    for crate in crates:
        path = progress.SAID.format(crate)
        text = open(path).read() if fresh(path, crate) else ""
        words = re.search(r"^logic=proved (.*)$", text, flags=re.M)
        axioms = [name for names in re.findall(r"^axioms \w+: (.*?) \(", text, flags=re.M) for name in names.split(", ")]
        yield crate, crate in proved | kept, dict(word.split("=", 1) for word in words.group(1).split()) if words else {}, axioms


def public_functions(crates):
    """How many there are, and those that ask something of their caller."""
    text = "\n".join(open(path).read() for crate in crates for path in glob.glob(f"crates/{crate}/src/*.rt"))
    heads = re.findall(r'^pub (?:extern "C" )?fn \w+.*?^\{', text, flags=re.M | re.S)
    return len(heads), [head.split("(")[0] for head in heads if re.search(r"^\s*requires\b", head, flags=re.M)]


def edits():
    """All edits, those that the last `rt ci` refused since the last change below crates/, and the others."""
    refused = {f"{found.group(1)}/{found.group(2)}" for line in gate_lines() if (found := progress.REFUSED.match(line))} if fresh(progress.KEPT) else set()
    for path in sorted(glob.glob("crates/*/must-fail/*.edit")):
        name = f"{path.split('/')[1]}/{os.path.basename(path)[:-5]}"
        yield name, "refused" if name in refused else "not refused"


def built(path):
    if not os.path.exists(path):
        return "not built (tools/proved.sh builds it)"
    marks = sorted(set(re.findall(rb"rattle[ -][ -~]+", open(path, "rb").read())))
    return f"sha256 `{hashlib.sha256(open(path, 'rb').read()).hexdigest()}`, {', '.join(f'`{mark.decode()}`' for mark in marks)}"


def commit():
    changed = ", with changes that are not committed" if run("git", "status", "--porcelain") else ""
    return f"commit `{run('git', 'rev-parse', 'HEAD')}`{changed}"


def edits_told():
    tried = list(edits())
    refused, others = [name for name, end in tried if end == "refused"], [f"{name} {end}" for name, end in tried if end != "refused"]
    rest = f"; {', '.join(others)}" if refused and others else "; `rt ci` tries them" if others else ""
    return f"{len(refused)} of {len(tried)}{rest}"


def summary(page, specs):
    found = list(logs(specs.crates))
    unproved = [crate for crate, proved, _, _ in found if not proved]
    axioms = [f"{crate}: {', '.join(f'`{name}`' for name in names)}" for crate, _, _, names in found if names]
    reported = [(crate, words) for crate, proved, words, _ in found if proved and words]
    count, asking = public_functions(specs.crates)
    apart = ("functions", "axioms", "target")
    words = collections.Counter(f"{key}={value}" for _, words in reported for key, value in words.items() if key not in apart)
    page.table(("What", "Found"), [
        ("version", f"{version.VERSION}, with the requests L1 to L{version.last_in_a_row()} of document 02; {commit()}"),
        ("kit", f"`{run('rt', 'version')}`"),
        ("crates proved", f"{len(found) - len(unproved)} of {len(found)}" + (f"; not: {', '.join(unproved)}" if unproved else "")),
        ("functions proved", f"{sum(int(words.get('functions', 0)) for _, words in reported)}, in the {len(reported)} crates whose last report is here"),
        ("words of the proved lines", ", ".join(f"`{word}` {n} times" for word, n in words.items()) + " (docs/TRUST.md, the toolchain)"),
        ("axioms, by the crates that reach one", "; ".join(axioms) or "none"),
        ("public functions with a `requires`", f"{len(asking)} of {count}" + "".join(f", {name}" for name in asking)),
        ("must-fail edits refused", edits_told()),
        *((path, built(path)) for path in BUILT),
    ])


def roots(specs):
    """The delivered calls by crate, and demand 3; each with what it rests on."""
    for crate in closure.DELIVERED:
        yield crate, specs.calls(crate)
    yield "demand 3", specs.delivered()[-len(closure.DEMAND_3):]


def contracts(page, specs):
    page.heading(2, "Contracts of the delivered calls, and demand 3")
    page.paragraph(
        "The program hep_batch hands standard input and output to its function `answer`, whose contract is over any reader and writer: it reads, calls "
        "batch `batch` and writes what that answers. "
        "A contract's names lead to their definitions below."
    )
    rows = [(f"[{item.crate} `{item.name}`](#{anchor(item)})", *map(str, lines_below(specs, item))) for _, items in roots(specs) for item in items]
    page.table(("Call or statement", "Definitions", "Lines", "Types and constants of the sources", "Lines of these"), rows)
    for _, items in roots(specs):
        for item in items:
            page.item(item)


def lines_below(specs, item):
    below = specs.below([item])
    for part in ([i for i in below if i.module != "src"], [i for i in below if i.module == "src"]):
        yield len(part)
        yield sum(i.counted() for i in part)


def definitions(page, specs, below):
    page.heading(2, "Must be believed: the definitions that they rest on")
    lines = sum(item.counted() for item in below)
    page.paragraph(
        f"In reading order, {len(below)} definitions and types, {lines} lines; comments and imports are not counted. "
        "Behind each stands what rests on it."
    )
    marks = {name: {item.key for item in specs.below(items)} for name, items in roots(specs)}
    at = None
    for item in below:
        if at != (item.crate, item.path):
            at = item.crate, item.path
            page.heading(3, f"{item.crate} / {closure.shown(item.module) if item.module != 'src' else 'types and constants of the source'}")
        page.item(item, f" ({', '.join(name for name, keys in marks.items() if item.key in keys)})")
    page.heading(3, "Names of the kit's libraries")
    kit = [f"{module}: {', '.join(f'`{name}`' for name in sorted(names))}" for module, names in sorted(specs.known_names(below).items()) if names]
    page.paragraph(f"The definitions also use these, of the kit (`rt doc` leads to its guides): {'; '.join(kit)}.")


def stated(specs, believed):
    """The statements about any values and the definitions that only they name, in reading order."""
    general = [item for item in specs.statements() if item.general()]
    known = {item.key for item in [*believed, *specs.delivered()]}
    return sorted({item.key: item for item in [*general, *specs.below(general)] if item.key not in known}.values(), key=specs.place)


def checked(page, specs, believed):
    page.heading(2, "Checked: statements about any values")
    page.paragraph(
        "Each is proved of the definitions above; docs/PROMISES.md says which sentence of the order each stands for. "
        "Read what you want to rely on, with the definitions that only statements name; no statement need be believed."
    )
    for item in stated(specs, believed):
        page.item(item)
    page.heading(2, "Checked: trials and examples")
    page.paragraph("Each computes by the definitions, and the checker has computed it.")
    examples = sorted((item for item in specs.statements() if not item.general()), key=specs.place)
    page.table(("Trial", "Where"), [(f"[`{item.name}`]({source(item)})", f"{item.path}:{item.line}") for item in examples])


def main():
    if sys.argv[1:] not in ([], ["--as-is"]):
        sys.exit(__doc__)
    if not sys.argv[1:]:
        print(f"Running rt ci: what it passed before on this machine is kept. {run(sys.executable, 'tools/progress.py', '--forecast')}", flush=True)
        checked_now = subprocess.run("set -o pipefail; rt ci | python3 tools/progress.py --gate", shell=True, executable="/bin/bash")
        if checked_now.returncode:
            sys.exit("audit: not everything is proved")
    specs = closure.Specs()
    below = specs.below(specs.delivered())
    page = Page(specs, below + specs.delivered() + stated(specs, below))
    page.heading(1, "What was proved, and what must be believed")
    page.paragraph(
        "Made by tools/audit.py from the sources and the logs of the proofs. docs/TRUST.md says what the toolchain has to be trusted for. "
        "What a definition rests on is told by the names in its text; tools/believed.py writes what is found as a repository of its own, "
        "which the checker accepts."
    )
    summary(page, specs)
    top = len(page.markdown), len(page.html)
    contracts(page, specs)
    definitions(page, specs, below)
    checked(page, specs, below)
    page.contents(top)
    page.write("What was proved")
    print(f"{OUT}/audit.html and {OUT}/audit.md: {closure.summary(below)} to be believed")


if __name__ == "__main__":
    main()
