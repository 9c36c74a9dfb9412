"""Holds docs/TRACE.md and the definitions of docs/GLOSSARY.md against the crates and docs/SPECIFICATION.md.

In its tables every rule must be in the specification, linked, and every rule of the specification must have a row or stand among those
that need none; every file, definition, function and theorem must exist, and stand in the
file named before it; every must-fail edit must exist, and every edit there is must be named. It prints what is not so.
"""
import pathlib
import re
import sys

ROOT = pathlib.Path(__file__).resolve().parents[2]
CRATES = ROOT / "crates"
COLUMNS = 5
RULE = re.compile(r"\[(\d+\.\d+)\]\(SPECIFICATION\.md#r(\d+\.\d+)\)")
# a definition, a field, a constructor or a theorem: its name stands first on its line, behind what declares it, before a colon or
# what a record takes
DECLARED = re.compile(r"^\s*(?:(?:abbrev|unfoldable|pub|record|data|module|ruleset)\s+)*([^\s:(){}.,]+)(?=\s|$)")
# words of the language, and the clause of dispatch's contract that equates its outcome
KEYWORDS = {"requires", "loop", "break", "outcome"}
FUNCTION = re.compile(r"\bfn\s+(\w+)")
TYPE = re.compile(r"\b(?:struct|enum)\s+(\w+)")


def antt_files():
    """Every file of specifications and of lemmas, by its name: (crate, part, names that it declares). What stands in a folder that is
    named for a function (Answers, Invariants, Proof) proves that function alone."""
    files = {}
    for path in sorted(CRATES.glob("*/specs/**/*.antt")) + sorted(CRATES.glob("*/proofs/**/*.antt")):
        crate, part, *folders, _ = path.relative_to(CRATES).parts
        if not all(folder[0].isupper() for folder in folders):
            continue
        names = {match.group(1) for line in path.read_text(encoding="utf-8").splitlines() if (match := DECLARED.match(line))}
        files.setdefault(path.stem, []).append((crate, part, names))
    return files


def code():
    """The functions and types of each crate."""
    names = {}
    for path in CRATES.glob("*/src/*.rt"):
        text = path.read_text(encoding="utf-8")
        names.setdefault(path.relative_to(CRATES).parts[0], set()).update(FUNCTION.findall(text), TYPE.findall(text))
    return names


class Cell:
    """A cell of a table: the names in it, each looked for in the file named last, or in any of several of that name."""

    def __init__(self, checker, where, text):
        self.checker, self.where, self.files, self.crate = checker, where, None, None
        for part in re.split(r"(`[^`]*`|\b[a-z_]+/[A-Z]\w*\b)", text):
            if part.startswith("`"):
                self.name(part[1:-1])
            elif re.fullmatch(r"[a-z_]+/[A-Z]\w*", part):
                self.file_of_crate(*part.split("/"))

    def complain(self, what):
        self.checker.complain(f"{self.where}: {what}")

    def file_of_crate(self, crate, name):
        self.files = [file for file in self.checker.files.get(name, []) if file[0] == crate]
        if not self.files:
            self.complain(f"crate {crate} has no file {name}")

    def name(self, name):
        if not re.fullmatch(r"[^\s&\[\]]+", name) or name in KEYWORDS:
            return
        if (ROOT / name).exists() and "/" in name:
            return
        if (CRATES / name).is_dir():
            return
        if "::" in name:
            crate, *inner = name.split("::")
            if inner[-1] not in self.checker.code.get(crate, set()):
                self.complain(f"crate {crate} has no function {inner[-1]}")
        elif "/" in name:
            crate, rest = name.split("/", 1)
            file, _, inner = rest.split("/")[-1].partition(".")
            self.file_of_crate(crate, file)
            if inner:
                self.inside(inner)
        elif re.fullmatch(r"[A-Z]\w*\.\S+", name):
            file, inner = name.split(".", 1)
            if file in self.checker.files:
                self.files = self.checker.files[file]
                self.inside(inner)
            elif not self.declared_in_any(file):
                self.complain(f"there is no file {file}")
        elif name in self.checker.files and self.files is None:
            self.files = self.checker.files[name]
        elif self.files is not None:
            self.inside(name)
        elif not self.declared_in_any(name):
            self.complain(f"nothing is called {name}")

    def inside(self, name):
        if all(any(part in file[2] for file in self.files) for part in name.split(".")):
            return
        crates = {file[0] for file in self.files}
        if name in self.checker.files or any(name in self.checker.code.get(crate, set()) for crate in crates):
            return
        self.complain(f"{name} is not in the file named before it")

    def declared_in_any(self, name):
        declared = any(name in file[2] for files in self.checker.files.values() for file in files)
        return declared or any(name in names for names in self.checker.code.values())


class Checker:
    def __init__(self):
        self.files, self.code, self.complaints = antt_files(), code(), []
        self.edits = {f"{path.parts[-3]}/{path.stem}" for path in CRATES.glob("*/must-fail/*.edit")}
        self.rules = set(re.findall(r"\*\*(\d+\.\d+)\*\*", (ROOT / "docs/SPECIFICATION.md").read_text(encoding="utf-8")))
        self.named, self.traced = set(), set()

    def complain(self, what):
        self.complaints.append(what)

    def rules_in(self, where, text, pattern):
        """Marks the rules that a text names as traced; `A to B` names all between."""
        before = None
        for match in re.finditer(pattern, text):
            first, between = match.group(1), text[before:match.start()] if before else ""
            if match.group(match.lastindex) != first:
                self.complain(f"{where}: the link of rule {first} leads to another")
            section, k = map(int, first.split("."))
            least = last[1] if between == " to " and last[0] == section else k
            for i in range(least, k + 1):
                if f"{section}.{i}" not in self.rules:
                    self.complain(f"{where}: the specification has no rule {section}.{i}")
                self.traced.add(f"{section}.{i}")
            before, last = match.end(), (section, k)
        return before is not None

    def row(self, number, cells):
        where = f"docs/TRACE.md:{number}"
        rule, defined, promised, proved, edits = cells
        if not self.rules_in(where, rule, RULE):
            self.complain(f"{where}: it names no rule")
        for text in (defined, promised, proved):
            Cell(self, where, text)
        for edit in re.findall(r"\b(?!crates/)[a-z_0-9]+/(?!must-fail)[a-z_0-9]+\b", re.sub(r"`[^`]*`", "", edits)):
            self.named.add(edit)
            if edit not in self.edits:
                self.complain(f"{where}: there is no edit {edit}")

    def run(self):
        rows = 0
        text = (ROOT / "docs/TRACE.md").read_text(encoding="utf-8")
        without = re.search(r"have no row: ([^a-z]*(?:to[^a-z]*)*)\. ", text)
        self.rules_in("docs/TRACE.md", without.group(1) if without else "", re.compile(r"(\d+\.\d+)"))
        for number, line in enumerate(text.splitlines(), 1):
            cells = [cell.strip() for cell in line.strip().strip("|").split("|")]
            if line.startswith("|") and not line.startswith(("|---", "| rule ")):
                rows += 1
                if len(cells) != COLUMNS:
                    self.complain(f"docs/TRACE.md:{number}: {len(cells)} columns")
                else:
                    self.row(number, cells)
        for number, line in enumerate((ROOT / "docs/GLOSSARY.md").read_text(encoding="utf-8").splitlines(), 1):
            if line.startswith("|") and "*" not in line:
                Cell(self, f"docs/GLOSSARY.md:{number}", line.strip().strip("|").split("|")[-1])
        for edit in sorted(self.edits - self.named):
            self.complain(f"docs/TRACE.md does not name the edit {edit}")
        for rule in sorted(self.rules - self.traced):
            self.complain(f"docs/TRACE.md has no row of rule {rule}")
        for complaint in self.complaints:
            print(complaint)
        print(f"trace: {rows} rows, {len(self.edits)} edits, {len(self.complaints)} complaints")
        return 1 if self.complaints or not rows else 0


sys.exit(Checker().run())
