"""Prints what a compiled caller takes from the header and the shared library, one thing to a line, sorted: the library's name and symbols,
the types of calls, and the values of macros and enums, sizes and places of structs. A program in C, made of the names that stand in the
header, prints the values. The version itself is left out, but for its first number in the names of library and symbols."""
import pathlib
import re
import subprocess
import sys

header, library, folder = map(pathlib.Path, sys.argv[1:])
text = re.sub(r"/\*.*?\*/", "", header.read_text(encoding="utf-8"), flags=re.S)


def run(*words):
    return subprocess.run(words, check=True, stdout=subprocess.PIPE, text=True).stdout


def calls():
    """The types of the header's functions, as the compiler has them; those that it has in the header are static."""
    for line in run("gcc", "-aux-info", "/dev/stdout", "-fsyntax-only", "-x", "c", str(header)).splitlines():
        found = re.search(r"\*/ (extern|static) (.*?\bshahfureel_\w+) \((.*?)\);", line)
        if found:
            kind, name, given = found.groups()
            # the names of arguments, which the compiler prints of static functions, are no part of a type
            types = [re.sub(r"(?<=[ *])\w+$", "", t.strip()).strip() if kind == "static" else t.strip() for t in given.split(",")]
            yield f"{'call' if kind == 'extern' else 'inline'} {name}({', '.join(types)})"


def values():
    """Statements in C that print a value each."""
    for name in re.findall(r"^#define (SHAHFUREEL_\w+) (?!\")", text, re.M):
        yield f'printf("macro {name} %lld\\n", (long long){name});'
    for body in re.findall(r"^enum \w+ \{(.*?)\};", text, re.M | re.S):
        for name in re.findall(r"\b(SHAHFUREEL_\w+)\b(?= =|,|\s*$)", body):
            yield f'printf("enum {name} %d\\n", (int){name});'
    for name, body in re.findall(r"^(struct shahfureel_\w+) \{(.*?)\};", text, re.M | re.S):
        yield f'printf("{name} %zu bytes\\n", sizeof({name}));'
        for field in re.findall(r"\b(\w+)(?:\[\w+\])?;", body):
            at = f"offsetof({name}, {field}), sizeof((({name} *)0)->{field})"
            yield f'printf("{name} {field} at %zu, %zu bytes\\n", {at});'


def symbols():
    yield "name " + re.search(r"SONAME.*\[(.*)\]", run("readelf", "-dW", str(library))).group(1)
    for line in run("nm", "-D", "--defined-only", "--with-symbol-versions", str(library)).splitlines():
        _, kind, name = line.split()
        if kind != "A":
            yield f"symbol {name}"


statements = list(values())
source = ['#include "shahfureel.h"', "#include <stdio.h>", "int main(void)", "{", *statements, "return 0;", "}", ""]
(folder / "values.c").write_text("\n".join(source), encoding="utf-8")
run("gcc", "-std=c99", "-Wall", "-Wextra", "-Werror", f"-I{header.parent}", "-o", str(folder / "values"), str(folder / "values.c"))
print("\n".join(sorted([*calls(), *symbols(), *run(str(folder / "values")).splitlines()])))
