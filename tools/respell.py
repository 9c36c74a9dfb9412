#!/usr/bin/env python3
"""Brings the repository's own names of specs/ and proofs/ to the spelling of today's Rattle, over what port.py wrote.

usage: python3 tools/respell.py [FOLDER]     once, in a checkout (or FOLDER) that port.py has just turned

Functions, lemmas, fields and constructors become snake case (`numberAfter`, number_after), what answers with a type upper camel case.
A dash stays only where it joins two names that are declared (`length-each`); a plain word hangs on by an underscore (`one_zero`).
`specs/Contracts.antt` becomes `specs/Clauses.antt`, since Rattle makes a module `specs.contracts`. Names of src/ stay, as do those that
the toolchain's libraries have. Must-fail edits, and what stands between backticks in docs/ and README.md, follow.
"""
import os
import re
import subprocess
import sys

BREAK = r"\s(){}\[\].,;:\"`|«»⌜⌝"
NAME = re.compile(rf"[^{BREAK}]+")
DECLARED = re.compile(rf"^\s*(?:(?:pattern|unfoldable|abbrev|pub|axiom)\s+)*([^{BREAK}=λ]+)(?:\s*\{{[^}}]*\}})?(?: [^{BREAK}=λ]+)*\s+:\s+(.*)$")
KIND = re.compile(rf"^\s*(?:pub\s+)?(?:record|data|ruleset)\s+([^{BREAK}=]+)")
IMPORT = re.compile(r"^\s*(?:pub )?(?:ghost )?use\s+(\S+?)\.\{([^}]*)\}", re.M)
WORDS = {"where", "module", "use", "let", "in", "elim"}

# Two definitions of one name, of which one answers with a type.
ONE_CRATE = {("bisection", "isFinished"): "IsFinished"}
# Fields: what else has the name is a lemma, and is never written behind a dot.
FIELDS = {"notNegative"}
ONE_FILE = {("crates/refining/proofs/NodesHeld.antt", "before"): "Before"}


def files(root, *endings):
    for folder, folders, names in os.walk(root):
        folders[:] = sorted(f for f in folders if f not in ("out", "target", ".git"))
        for name in sorted(names):
            if name.endswith(endings):
                yield os.path.join(folder, name)


def read(path):
    with open(path, encoding="utf-8") as f:
        return f.read()


def snake(word):
    """`numberAfter` as number_after, `atMost18` as at_most_18, `pack2Into` as pack_2_into, `c0At` as c0_at."""
    if word == "getD":  # of the library, get_or today
        return "get_or"
    word = re.sub(r"(?<=[a-z0-9])(?=[A-Z])", "_", word)
    word = re.sub(r"(?<=[a-z][a-z])(?=[0-9])", "_", word) if re.search(r"[A-Z]", word) else word
    return word.lower()


def declared(root, crates):
    """Every name that specs/ and the files of lemmas declare; every name that they take from the toolchain."""
    own, taken = set(), set()
    for path in files(os.path.join(root, "crates"), ".antt", ".rt"):
        text = read(path)
        for module, names in IMPORT.findall(text):
            if module.split(".")[0] != "Rattle" or module.split(".")[1] not in crates:
                taken.update(n.split(" as ")[0].strip() for n in names.split(","))
        if path.endswith(".rt") or os.path.basename(path) == "Proof.antt":
            continue
        for line in text.splitlines():
            if line.lstrip().startswith("--"):
                continue
            found = KIND.match(line) or DECLARED.match(line)
            if found and found.group(1) not in WORDS:
                own.add(found.group(1))
    return own, taken


def spelling(own, taken):
    """Old name to new name."""
    new = {}
    plain = {n for n in own | taken if "-" not in n}
    for name in sorted(own - taken):
        if name[0].isupper() and "-" not in name or not re.search(r"[a-z0-9][A-Z]|-", name):
            continue
        parts = name.split("-")
        if "" in parts:
            continue
        spelled = [p if p[0].isupper() or p in taken else snake(p) for p in parts]
        whole = spelled[0]
        for k in range(1, len(parts)):
            joins = parts[k - 1] in plain and parts[k] in plain and len(parts) == 2
            whole += ("-" if joins or parts[k - 1][0].isupper() else "_") + spelled[k]
        if whole != name:
            new[name] = whole
    for name, whole in sorted(new.items()):
        # of a definition and a lemma that fall together the lemma's name gets longer; a definition may have the name of a function of src/
        falls = whole in own | taken or list(new.values()).count(whole) > 1 and "-" in name
        if falls and name not in FIELDS:
            new[name] = whole + "_lem"
            print(f"two names fall together: {name} is {new[name]}")
    return new


def turned(text, new):
    return NAME.sub(lambda m: new.get(m.group(0), m.group(0)), text)


def main(root):
    crates = {c for c in os.listdir(os.path.join(root, "crates"))}
    own, taken = declared(root, crates)
    new = spelling(own, taken)
    print(f"{len(own)} names are declared, {len(new)} are spelled anew")
    for path in files(os.path.join(root, "crates"), ".antt", ".rt", ".edit"):
        text = read(path)
        short = os.path.relpath(path, root)
        names = dict(new)
        for (crate, name), whole in ONE_CRATE.items():
            if short.startswith(f"crates/{crate}/"):
                names[name] = whole
        after = turned(text, names)
        for (file, name), whole in ONE_FILE.items():
            if short == file:
                after = re.sub(rf"(?<![^{BREAK}])(?<!\.){name}(?![^{BREAK}])", whole, after)
        after = re.sub(r"\.specs\.Contracts\b", ".specs.Clauses", after)
        after = re.sub(r"^pub mod Contracts$", "pub mod Clauses", after, flags=re.M)
        after = after.replace("specs/Contracts.antt", "specs/Clauses.antt")
        if after != text:
            with open(path, "w", encoding="utf-8") as f:
                f.write(after)
    for crate in sorted(crates):
        old = os.path.join(root, "crates", crate, "specs", "Contracts.antt")
        if os.path.exists(old):
            os.rename(old, os.path.join(os.path.dirname(old), "Clauses.antt"))
    pages = [os.path.join(root, "README.md"), *files(os.path.join(root, "docs"), ".md")]
    for path in pages:
        text = read(path)
        after = re.sub(r"`[^`\n]+`", lambda m: turned(m.group(0), new), text)
        after = re.sub(r"Rattle·(\w+)·(specs|proofs)\.(?:\2\.)?", r"Rattle.\1.\2.", after)
        after = re.sub(r"Rattle·(\w+)\.", r"Rattle.\1.", after)
        after = after.replace("Contracts.antt", "Clauses.antt") if path.endswith(("TRACE.md", "PROOF.md")) else after
        if after != text:
            with open(path, "w", encoding="utf-8") as f:
                f.write(after)
    for name, whole in sorted(new.items()):
        print(f"{name} {whole}")


if __name__ == "__main__":
    main(sys.argv[1] if len(sys.argv) > 1 else ".")
