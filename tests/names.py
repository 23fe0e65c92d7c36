#!/usr/bin/env python3
"""Checks the names in the documents against the tree: each must still be there.

    python3 tests/names.py [-v] [DOCUMENT..]        -v: every name that was looked up

docs/PORT.md and docs/DESIGN-PASS.md, which set names that were beside those that are, are passed over.

What counts as a name, in the text of a paragraph or of a table's cell:
- a definition or statement: `crate / File . name, name`, `crate/File.name`, `crate/File: name, name`, `crate File.name`; behind it more names
  of that file, or `File.name` of that crate. The file stands in the crate's specs/ or proofs/, in Laws or Code there, or beside them;
- a function or a type: a crate, then names in backquotes, such as  word `psw`, `next`;
- a must-fail edit: `crate/name`, and all that stands behind M in a table;
- a trial: what stands behind T in a table;
- a crate: the first column of a table headed Crate;
- a file: a path below the root or the document's folder, or a name that ends as files here do. What is built (target/, out/) is passed over;
- any other word in backquotes that has the shape of an identifier: it must be defined somewhere in the tree.
"""
import pathlib
import re
import sys

ROOT = pathlib.Path(__file__).resolve().parent.parent
DOCUMENTS = ["README.md", "CONTRIBUTING.md", "hep-tools/FORMAT.md", "examples/README.md", *sorted(f"docs/{p.name}" for p in (ROOT / "docs").glob("*.md") if p.name not in ("PORT.md", "DESIGN-PASS.md"))]
KEYWORDS = {"requires", "ensures"}
FOREIGN = {"main.c", "stdio.h", "first.hep"}         # files of whoever calls the library
SUFFIXES = ("py", "sh", "rs", "hep", "out", "table", "h", "c", "md", "rt", "antt", "trials", "toml", "txt", "edit")
NAME = r"[A-Za-z][\w']*(?:-[\w']+)*"
DEFINED = re.compile(rf"^\s*(?:(?:unfoldable|abbrev|opaque|pub|data|record)\s+)*({NAME}(?:\s+{NAME})*)\s*[:({{]", re.M)
PROOFS = ("Answers.antt", "Invariants.antt")
BUILT = {"target", "out", ".git", "__pycache__"}
OTHERS = re.compile(r"\b(?:fn|struct|enum|trait|type|const|mod|def)\s+(\w+)|^\s+([A-Z]\w+)\s*[,({=]|#define (\w+)|\bpub (\w+):", re.M)


def read(path):
    return path.read_text(errors="replace")


class Tree:
    """What the repository has."""

    def __init__(self):
        self.crates = set(re.findall(r"^(\w+)(?: [^:#\n]*)?:", read(ROOT / "crates.txt"), flags=re.M))
        self.specs, self.functions, self.edits = {}, {}, set()
        for path in [*ROOT.glob("crates/*/specs/**/*.antt"), *ROOT.glob("crates/*/proofs/**/*.antt")]:
            crate, part = path.relative_to(ROOT).parts[1:3]
            file = str(path.relative_to(ROOT / "crates" / crate / part).with_suffix(""))
            if part == "proofs" and "/" in file and path.name in PROOFS:
                continue
            names = {name for line in DEFINED.findall(read(path)) for name in line.split()}
            for key in {file, file.removeprefix("Laws/"), file.removeprefix("Code/")}:
                self.specs.setdefault((crate, key), set()).update(names)
        for path in ROOT.glob("crates/*/src/*.rt"):
            self.functions.setdefault(path.parts[-3], set()).update(re.findall(r"\b(?:fn|struct|enum|const) (\w+)", read(path)))
        for path in ROOT.glob("crates/*/must-fail/*.edit"):
            self.edits.add((path.parts[-3], path.stem))
        self.files = list(self.files_below(ROOT))
        self.words = KEYWORDS.union(self.crates, *self.specs.values(), *self.functions.values(), {name for _, name in self.edits})
        for path in self.files:
            self.words.add(path.stem)
            if path.suffix in (".rs", ".rt", ".h", ".py", ".sh", ".c"):
                self.words.update(name for found in OTHERS.findall(read(path)) for name in found if name)
        for path in ROOT.glob("hep-cli/src/**/*.rs"):
            self.words.update(re.findall(r"[\w-]+", read(path)))

    def files_below(self, folder):
        for path in sorted(folder.iterdir()):
            if path.name not in BUILT:
                yield path
                if path.is_dir() and not path.is_symlink():
                    yield from self.files_below(path)

    def has_path(self, text, folder):
        text = text.rstrip("/.")
        return any(list(base.glob(text)) for base in (folder, ROOT)) or any(str(p).endswith("/" + text) for p in self.files)


class Document:
    """The names of one document that were looked up, and those that do not resolve."""

    def __init__(self, tree, path):
        self.tree, self.path, self.found, self.missing = tree, path, 0, []

    def look(self, line, name, there):
        self.found += 1
        if not there:
            self.missing.append(f"{self.path.relative_to(ROOT)}:{line}: {name}")
        elif "-v" in sys.argv:
            print(f"{self.path.relative_to(ROOT)}:{line}: {name}")

    def definitions(self, line, text):
        """Each reference to a file of definitions, and the list behind it."""
        tree = self.tree
        head = rf"(?<![\w/.-])([a-z]\w*)(?: ?/ ?|(?= [A-Z]\w*\.[a-z])\s)((?:Laws/|Code/)?[A-Z]\w*)(?![\w/]|\.antt)"
        for match in re.finditer(head, text):
            crate, file = match.groups()
            if crate in ("specs", "proofs") or ROOT.joinpath(crate).exists():
                continue
            self.look(line, f"{crate}/{file}", (crate, file) in tree.specs)
            rest = re.sub(r"\([^()]*\)", "", text[match.end():])
            item = re.match(rf"\s?([.:])\s?({NAME})(?=[,;:.)\s]|$)", rest) or re.match(rf"(),\s({NAME}(?:\.{NAME})?)(?=[,;)]|$)", rest)
            while item:
                if item.group(1) == ":" and not re.match(r"[\s]?[,;.)]|\s*$", rest[item.end():]):
                    break
                file = self.item(line, crate, file, item.group(2))
                rest = rest[item.end():]
                item = re.match(rf"()\s*(?:,| and)\s+({NAME}(?:\.{NAME})?)(?=\s*(?:[,;:)]|\.\s|\.?$| and ))", rest)

    def item(self, line, crate, file, name):
        """A name of the file, another file of the crate, or a name of that one; answers the file that goes on."""
        specs = self.tree.specs
        if "." in name:
            file, name = name.split(".", 1)
        elif name[0].isupper() and name not in specs.get((crate, file), ()):
            self.look(line, f"{crate}/{name}", (crate, name) in specs)
            return name
        self.look(line, f"{crate}/{file}.{name}", name in specs.get((crate, file), ()))
        return file

    def functions(self, line, text):
        """A crate and the functions behind it; answers the text without them."""
        def looked(match):
            crate = match.group(1)
            if crate not in self.tree.crates:
                return match.group(0)
            for name in re.findall(r"`(\w+)`", match.group(2)):
                self.look(line, f"{crate} `{name}`", name in self.tree.functions.get(crate, ()))
            return crate
        return re.sub(r"\b([a-z]\w*)(?: code)?((?:(?:,| and)? `\w+`)+)", looked, text)

    def marked(self, line, cell):
        """The edits behind M and the trials behind T of a table's cell."""
        for part in re.split(r";\s*", cell):
            mark = re.match(r"([MT]) (?!and T$)(.*)", part)
            crate = None
            for name in mark.group(2).split(", ") if mark else ():
                if mark.group(1) == "M":
                    crate, name = name.split("/") if "/" in name else (crate, name)
                    self.look(line, f"edit {crate}/{name}", (crate, name) in self.tree.edits)
                elif re.fullmatch(NAME, name):
                    self.look(line, f"trial {name}", name in self.tree.words)

    def paths(self, line, text):
        for token in re.findall(r"(?<![\w/.·-])[\w.*-]+(?:/[\w.*-]+)*/?", text):
            token, first = token.rstrip(".,"), token.split("/")[0]
            if token in FOREIGN or re.match(r"(.*/)?(target|out)/", token):
                continue
            named = re.fullmatch(r"[a-z][\w-]*\.(?:%s)" % "|".join(SUFFIXES), token)
            if named or ("/" in token and ROOT.joinpath(first).exists()):
                self.look(line, token, self.tree.has_path(token, self.path.parent))
            elif first in self.tree.crates and re.fullmatch(r"\w+/[a-z]\w+", token):
                self.look(line, f"edit {token}", tuple(token.split("/")) in self.tree.edits)

    def quoted(self, line, text):
        for name in re.findall(rf"`({NAME})`", text):
            if re.search(r"[_-]|[a-z][A-Z]", name) or len(name) > 3 and name.islower():
                self.look(line, f"`{name}`", name in self.tree.words)

    def listed_files(self, line, text):
        for crate, files in re.findall(r"`crates/(\w+)/(?:specs|proofs)`\s*\(([A-Z][\w,\s]*)\)", text):
            for file in re.split(r",\s*", files):
                self.look(line, f"{crate}/{file}", (crate, file) in self.tree.specs)

    def check(self):
        heading = []
        for line, text in blocks(read(self.path)):
            cells = [cell.strip() for cell in text.strip().strip("|").split("|")] if text.startswith("|") else [text]
            if text.startswith("|") and not heading:
                heading = cells
            elif not text.startswith("|"):
                heading = []
            if heading and heading[0] == "Crate" and re.fullmatch(r"\w+", cells[0]) and cells[0] not in ("Crate", "all"):
                self.look(line, f"crate {cells[0]}", cells[0] in self.tree.crates)
            self.listed_files(line, text)
            for cell in cells:
                self.paths(line, cell)
                if text.startswith("    "):
                    continue
                self.marked(line, cell)
                plain = self.functions(line, cell)
                self.quoted(line, plain)
                self.definitions(line, plain.replace("`", ""))


def blocks(text):
    """Paragraphs, table rows and lines of code, each with the number of its first line."""
    start, kept = 0, []
    for number, line in enumerate(text.split("\n"), 1):
        alone = line.startswith(("|", "    ", "#", "- ")) or not line.strip()
        if alone and kept:
            yield start, " ".join(kept)
            kept = []
        if line.startswith(("|", "    ")):
            yield number, line
        elif line.strip():
            start, kept = (start, kept + [line.strip()]) if kept else (number, [line.strip()])
    if kept:
        yield start, " ".join(kept)


def main():
    tree = Tree()
    named = [name for name in sys.argv[1:] if name != "-v"] or [name for name in DOCUMENTS if (ROOT / name).exists()]
    documents = [Document(tree, ROOT / name) for name in named]
    for document in documents:
        document.check()
        print(*document.missing, sep="\n", end="\n" if document.missing else "")
    found, missing = sum(d.found for d in documents), sum(len(d.missing) for d in documents)
    print(f"names: {found} in {len(documents)} documents, {missing} not in the tree")
    sys.exit(1 if missing else 0)


if __name__ == "__main__":
    main()
