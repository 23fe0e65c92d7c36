#!/usr/bin/env python3
"""What definitions and contracts rest on, by the names in their text. From the repository's root.

    closure.py                      of the contract of each delivered call, and of demand 3: how many definitions and lines
    closure.py CRATE NAME..         the definitions and types below these, in reading order, each with its file and line

A name is looked up in its file, then in what the file imports. A local variable of the same name counts as the definition, so that a closure may
have too much; that it doesn't have too little is checked by tools/believed.py. Of a statement or function only what it says counts, not how it is
proved or done.
"""
import collections
import glob
import os
import re
import sys

DELIVERED = ("hep", "batch", "filling_search", "hep_c")
# The statements of demand 3: of runs, and of the calls.
DEMAND_3 = (("image", "Demand3", "demand_3"), ("library", "Isolation", "calls_demand_3"))
PASSED_OVER = ("//", "--", "#", "use ", "ghost use ", "pub use ", "unfoldable pub use ", "pub mod ", "mod ")
IMPORT = re.compile(r"^(?:ghost )?(?:unfoldable )?(pub )?use Rattle\.(\w+)\.((?:specs|proofs)\.[\w.+-]+?)(?:\.\{(.*?)\}| as (\w+))?;?$", re.M)
OF_KIT = re.compile(r"^use ((?:Rattle\.(\w+)\.|\w+\.)[\w.]+)\.\{(.*?)\}$", re.M)
USE = re.compile(r"^use (\w+)::(?:\{([^}]*)\}|(\w+));", re.M)
# The files of proofs/ that serve the proofs of functions, in the crates that also have statements there.
SERVING = {("word", "Computed"), ("window", "Computed"), ("benchmark", "Own")}
HEAD = re.compile(r"^((?:(?:unfoldable|abbrev|pub|private|opaque|data|record) )*)([^\s:({]+)")
TYPE = re.compile(r"^(?:pub )?(?:struct|enum|const) (\w+)")
FUNCTION = re.compile(r'^pub (?:extern "C" )?fn (\w+)')
WORD = re.compile(r"[^\s(){}\[\],.;:=→λ∷⌜⌝\"&<>]+")


class Item:
    """A definition, type or statement of a spec file, a type or constant of a source file, or a function with its contract."""

    def __init__(self, crate, module, path, line, name, kind, comment):
        self.crate, self.module, self.path, self.line, self.name, self.kind = crate, module, path, line, name, kind
        self.comment, self.lines, self.parameters = comment, [], []

    @property
    def key(self):
        return self.crate, self.module, self.name

    def says(self):
        """The lines that count: of a statement its type alone."""
        if self.kind != "statement":
            return self.lines
        proof = re.compile(rf"\s*(unfolding |{re.escape(self.name)}\s(.*\s)?=)")
        return self.lines[:next((i for i, line in enumerate(self.lines) if i and proof.match(line)), len(self.lines))]

    def general(self):
        """Whether a statement is about any values, and not an example that computes."""
        return self.kind == "statement" and bool(self.parameters or "→" in " ".join(self.says()))

    def counted(self):
        return len(counted(self.lines))


def counted(lines):
    """The lines that count: no blank ones, comments, attributes and imports, also those over several lines."""
    kept, inside = [], False
    for text in map(str.strip, lines):
        if not inside and text and not text.startswith(PASSED_OVER):
            kept.append(text)
        inside = text.startswith("use ") and text.endswith("{") or inside and not text.endswith("};")
    return kept


class File:
    """A file of specs/, or of statements and laws in proofs/: its items and what it imports."""

    def __init__(self, path):
        self.path, self.crate, self.module = path, path.split("/")[1], module_of(path.split("/", 2)[2].removesuffix(".antt"))
        self.items, self.current, self.comment, self.modules = {}, None, [], []
        text = open(path).read()
        self.imports = imports(text)
        for number, line in enumerate(text.split("\n"), 1):
            self.take(number, line)

    def take(self, number, line):
        """Items stand at the left, or two places further in for each `module _ (..) where` that is open."""
        text = line.strip()
        if self.modules and not self.modules[-1].endswith(" where"):
            self.modules[-1] += " " + text
            return
        indent = len(line) - len(line.lstrip())
        while text and indent < 2 * len(self.modules):
            self.modules.pop()
        if not text:
            self.comment = []
        elif indent > 2 * len(self.modules):
            self.current.lines.append(line)
        elif text.startswith("--"):
            self.comment.append(text.removeprefix("--").strip())
        elif text.startswith("module "):
            self.modules.append(text)
        elif not text.startswith(PASSED_OVER):
            self.item(number, line, text)

    def item(self, number, line, text):
        """A line that begins a new item, or goes on with one."""
        marks, name = HEAD.match(text).groups()
        if name != "unfolding" and text[0] not in "})":
            if name not in self.items:
                kind = "type" if re.search("data|record", marks) else "definition" if re.search("unfoldable|abbrev", marks) else "statement"
                self.items[name] = Item(self.crate, self.module, self.path, number, name, kind, self.comment)
                self.items[name].parameters = list(self.modules)
            self.current, self.comment = self.items[name], []
        self.current.lines.append(line)


def module_of(path):
    """A module by its path in its crate: one of specs/ without that folder."""
    return path.replace(".", "/").removeprefix("specs/")


def shown(module):
    """A module as documents name it."""
    return module.removeprefix("proofs/")


def for_a_buyer(crate, module):
    """Whether a buyer may want to read a module of these: no law, no step of the code, nothing that only the proofs of functions need."""
    return "/" not in shown(module) and (crate, shown(module)) not in SERVING


def imports(text):
    """What a file imports: for each name its crate, module and name there; `whole` where a module has a name of its own."""
    found = {}
    for passed_on, crate, module, names, alias in IMPORT.findall(text):
        if alias:
            found[alias] = (crate, module_of(module), "", bool(passed_on))
        for name in names.split(","):
            there, _, here = name.strip().partition(" as ")
            found[here or there] = (crate, module_of(module), there, bool(passed_on))
    return found


def source_items(crate):
    """The types and constants of a crate's source, and its public functions with their contracts."""
    for path in sorted(glob.glob(f"crates/{crate}/src/*.rt")):
        comment, marks, current = [], [], None
        for number, line in enumerate(open(path).read().split("\n"), 1):
            head = TYPE.match(line) or FUNCTION.match(line)
            if line.startswith("//"):
                comment.append(line.removeprefix("//").strip())
            elif head:
                kind = "type" if TYPE.match(line) else "function"
                current = Item(crate, "src", path, number, head.group(1), kind, comment)
                current.lines += marks if kind == "type" else []
                marks = []
                yield current
            elif line.startswith("#["):
                marks.append(line)
            elif not line.strip():
                comment, marks = [], []
            if current and not line.startswith("{"):
                current.lines += [line] if not line.startswith("}") or current.kind == "type" else []
            if line.startswith(("{", "}")) or line.startswith(("const ", "pub const ")):
                current = None


class Specs:
    """The spec files and sources of the repository, with the laws and statements that stand in proofs/."""

    def __init__(self):
        self.crates = list(uses())
        paths = sorted(path for crate in self.crates for path in [*shared_proofs(crate), *glob.glob(f"crates/{crate}/specs/**/*.antt", recursive=True)])
        self.files = {(f.crate, f.module): f for f in map(File, paths)}
        self.source = {item.key: item for crate in self.crates for item in source_items(crate)}
        self.source_imports = {}
        for crate in self.crates:
            text = "\n".join(open(path).read() for path in glob.glob(f"crates/{crate}/src/*.rt"))
            self.source_imports[crate] = imports(text)
            self.source_imports[crate].update((name, (lower, "src", name, False)) for lower, name in used(text))
        self.makers = {}
        for file in self.files.values():
            for item in file.items.values():
                if item.kind == "type" and " data " in f" {item.lines[0]}":
                    inner = [m.group(1) for line in item.lines[1:] if (m := re.match(r"\s+([^\s:]+) :", line))]
                    self.makers.update(((file.crate, file.module, name), item) for name in inner)

    def home(self, crate, module, name):
        """The item that a module gives by this name, itself or by passing it on; a module of declared types gives the source's."""
        if module == "src" or module.startswith("declared/"):
            return self.source.get((crate, "src", name if module == "src" else module.split("/")[1]))
        file = self.files.get((crate, module))
        if not file:
            return None
        if name in file.items:
            return file.items[name]
        if (crate, module, name) in self.makers:
            return self.makers[crate, module, name]
        lower = file.imports.get(name)
        return self.home(*lower[:3]) if lower and lower[3] else None

    def words(self, item):
        """The words of an item's text that name a definition or a type, each with it, in the order of the text. A function that has the name of its
        definition is called nowhere in what counts."""
        known = self.source_imports[item.crate] if item.module == "src" else self.files[item.crate, item.module].imports
        text = " ".join(re.sub(r"(--|//).*", "", line) for line in item.parameters + item.says())
        for word in WORD.findall(text):
            found = self.home(item.crate, item.module, word)
            if (not found or found.kind == "function") and word in known:
                found = self.home(*known[word][:3])
            if found and found is not item and found.kind != "function":
                yield word, found

    def named(self, item):
        return list(dict.fromkeys(found for _, found in self.words(item)))

    def below(self, roots):
        """All that these items rest on, themselves left out, in reading order."""
        seen, waiting = {}, list(roots)
        while waiting:
            for item in self.named(waiting.pop()):
                if item.key not in seen:
                    seen[item.key] = item
                    waiting.append(item)
        return sorted(seen.values(), key=self.place)

    def place(self, item):
        """Crates in the order of crates.txt, of each the source, then its spec files as Lib lists them."""
        return self.crates.index(item.crate), item.module != "src", *self.file_place(item.crate, item.module), item.path, item.line

    def file_place(self, crate, module):
        listed = read_files(crate)
        return (listed.index(module), "") if module in listed else (len(listed), module)

    def calls(self, crate):
        """The delivered calls of a crate: its public functions."""
        return [item for item in self.source.values() if item.crate == crate and item.kind == "function"]

    def delivered(self):
        """The delivered calls, and the statements of demand 3."""
        return [call for crate in DELIVERED for call in self.calls(crate)] + [self.named_item(*place) for place in DEMAND_3]

    def named_item(self, crate, module, name):
        """A definition or statement as documents name it: crate / module . name."""
        found = (self.files.get((crate, place)) for place in (module, f"proofs/{module}"))
        return next(file.items[name] for file in found if file and name in file.items)

    def statements(self):
        """All statements that a buyer may want to read."""
        files = (file for file in self.files.values() if for_a_buyer(file.crate, file.module))
        return [item for file in files for item in file.items.values() if item.kind == "statement"]

    def known_names(self, items):
        """The names of the kit's libraries that these items use, by module."""
        kit = collections.defaultdict(set)
        for path in {item.path for item in items if item.module != "src"}:
            text = " ".join(line for item in items if item.path == path for line in item.says())
            for module, crate, names in OF_KIT.findall(open(path).read()):
                if crate not in self.crates:
                    kit[module] |= {name.strip() for name in names.split(",") if any(part and part in text for part in name.strip().split("◌"))}
        return kit


def used(text):
    """The types and constants that a source file imports, each with the crate that it names."""
    for crate, names, name in USE.findall(text):
        yield from ((crate, one.strip()) for one in (names or name).split(",") if one.strip()[:1].isupper())


def uses():
    """Each crate of crates.txt, in its order, with those that it lists. Between a name and its colon stands what marks it, as `staticlib`."""
    return {m.group(1): m.group(2).split() for m in re.finditer(r"^(\w+)(?: [^:#\n]*)?:(.*)$", open("crates.txt").read(), flags=re.M)}


def with_below(crates):
    """These crates and all that they use, in the order of crates.txt."""
    listed, found, waiting = uses(), set(), list(crates)
    while waiting:
        crate = waiting.pop()
        if crate in listed and crate not in found:
            found.add(crate)
            waiting += listed[crate]
    return [crate for crate in listed if crate in found]


def shared_proofs(crate):
    """The files of proofs/ that are no proof of one function."""
    paths = glob.glob(f"crates/{crate}/proofs/**/*.antt", recursive=True)
    return [path for path in paths if path.count("/") == 3 or os.path.basename(path) not in ("Answers.antt", "Invariants.antt", "Proof.antt")]


def listed_in(lib):
    """The modules that a Lib.antt names, in its order."""
    return re.findall(r"^(?:pub )?mod (\w+)", open(lib).read(), flags=re.M) if os.path.exists(lib) else []


def read_files(crate):
    """The modules of a crate that a buyer reads, in the order of its Lib: those of specs/, then the statements of proofs/. A crate without the first has
    in proofs/ only what serves the proofs of its functions."""
    names = [name for name in listed_in(f"crates/{crate}/specs/Lib.antt") if name not in ("Code", "Laws")]
    stated = [f"proofs/{name}" for name in listed_in(f"crates/{crate}/proofs/Lib.antt") if name not in ("Code", "Laws")]
    return [*names, *(module for module in stated if names and for_a_buyer(crate, module))]


def path_of(crate, module):
    """Where a module stands."""
    return f"crates/{crate}/{module if module.startswith('proofs/') else f'specs/{module}'}.antt"


def summary(items):
    return f"{len(items)} definitions and types, {sum(item.counted() for item in items)} lines"


def main():
    specs = Specs()
    if len(sys.argv) == 1:
        for root in specs.delivered():
            print(f"{root.crate} {root.name}: {summary(specs.below([root]))}")
        print(f"all: {summary(specs.below(specs.delivered()))}")
        return
    crate, names = sys.argv[1], sys.argv[2:]
    roots = [item for file in [*specs.files.values()] for item in file.items.values() if file.crate == crate and item.name in names]
    roots += [call for call in specs.calls(crate) if call.name in names]
    if not roots:
        sys.exit(__doc__)
    below = specs.below(roots)
    for item in below:
        print(f"{item.path}:{item.line}: {item.name} ({item.counted()})")
    print(summary(below))


if __name__ == "__main__":
    main()
