"""Holds README.md and the guides in docs/ against the repository, and prints what is not so.

Links: each leads to a file, and its anchor to a heading or to a rule. Paths in backticks exist. Blocks: behind a command that the planner
or a Python user types, or a program in C or Python, what stands in the next block is what it prints; a block of comma-separated values
is one of the examples' files.

With a folder behind it, that of an installed library's guides and examples, it holds docs/C.md there against the library that pkg-config
and the loader find, and the links of the guides for callers.
"""
import pathlib
import re
import shlex
import shutil
import subprocess
import sys
import tempfile

INSTALLED = len(sys.argv) > 1
ROOT = pathlib.Path(sys.argv[1]) if INSTALLED else pathlib.Path(__file__).resolve().parents[2]
if INSTALLED:
    GUIDES = [ROOT / "docs/C.md"]
    LINKED = [ROOT / f"docs/{name}.md" for name in ("C", "CHANGES", "FORMATS", "GLOSSARY", "MODBUS", "PLANNER")]
    LIBRARY = "$(pkg-config --cflags --libs shahfureel)"
else:
    GUIDES = [ROOT / "README.md", *sorted((ROOT / "docs").glob("*.md")), ROOT / "examples/README.md"]
    LINKED = [*GUIDES, *sorted((ROOT / "docs/changes").glob("*.md")), ROOT / "tests/second_solver/README.md"]
    LIBRARY = "-Iinclude target/lib/libshahfureel.a"
PATH = re.compile(r"`((?:crates|docs|examples|tests|tools|include|src|bench|python)/[\w./-]+)`")
COMMAND = re.compile(r"(?:(?:PYTHONPATH=python )?python3 -m shahfureel|target/bin/dispatch|od -An|\./show)\b.*")
# what a guide names although a build makes it
MADE = ("examples/NAME",)


def anchors(path):
    """The anchors of a file: of its headings, and those that it sets."""
    text = path.read_text(encoding="utf-8")
    headings = re.findall(r"^#+ (.*)$", re.sub(r"^```.*?^```", "", text, flags=re.M | re.S), re.M)
    made = {re.sub(r"[^\w\- ]", "", re.sub(r"[`*]", "", heading).lower()).strip().replace(" ", "-") for heading in headings}
    return made | set(re.findall(r'<a id="([^"]+)">', text))


def blocks(text):
    """The fenced blocks of a text, each with the paragraph before it."""
    parts = re.split(r"^```\n(.*?)^```\n?", text, flags=re.M | re.S)
    for before, block in zip(parts[::2], parts[1::2]):
        paragraphs = [p for p in re.split(r"\n\s*\n", before) if p.strip()]
        yield (paragraphs[-1] if paragraphs else ""), block


class Checker:
    def __init__(self):
        self.complaints, self.links, self.paths, self.shown = [], 0, 0, 0
        self.folder = pathlib.Path(tempfile.mkdtemp(dir=None if INSTALLED else ROOT / "target"))

    def complain(self, path, what):
        self.complaints.append(f"{path.relative_to(ROOT)}: {what}")

    def check_links(self, path):
        for link in re.findall(r"\]\(([^)\s]+)\)", path.read_text(encoding="utf-8")):
            if link.startswith("http"):
                continue
            self.links += 1
            name, _, anchor = link.partition("#")
            target = (path.parent / name) if name else path
            if not target.exists():
                self.complain(path, f"the link {link} leads nowhere")
            elif anchor and anchor not in anchors(target):
                self.complain(path, f"the link {link} leads to no place of that file")

    def check_paths(self, path):
        for name in PATH.findall(path.read_text(encoding="utf-8")):
            self.paths += 1
            here = ROOT / name
            if not (here.exists() or here.with_suffix(".antt").exists() or name.startswith(MADE) or "NAME" in name):
                self.complain(path, f"there is no {name}")

    def check_blocks(self, path):
        command = None
        for before, block in blocks(path.read_text(encoding="utf-8")):
            last = block.strip().splitlines()[-1]
            typed = COMMAND.search(last)
            if block.startswith(("#include", "import ")):
                command = self.program(block)
                continue
            if typed or re.match(r"(rt|gcc|cc|mbpoll|export|pkg-config|tools/|tests/|\.ci/)\b", last):
                command = typed.group(0) if typed else None
                continue
            named = re.findall(r"`([^`]+)`", before)
            spoken = [name for name in named if COMMAND.fullmatch(name)]
            if spoken:
                command = spoken[-1]
            if block.startswith("#") and "," in block:
                self.check_file(path, block)
            elif command:
                self.check_output(path, command, block)
            command = None

    def program(self, text):
        """Keeps a program of a guide, and says how it is made and run."""
        program = shlex.quote(str(self.folder / "program"))
        if text.startswith("import"):
            (self.folder / "program.py").write_text(text, encoding="utf-8")
            return f"python3 {program}.py"
        (self.folder / "program.c").write_text(text, encoding="utf-8")
        # (evaluated: what pkg-config prints may have blanks behind backslashes)
        return f'eval "gcc -std=c99 -Wall -Wextra -Werror -pedantic -o {program} {program}.c {LIBRARY}" && {program}'

    def check_file(self, path, block):
        self.shown += 1
        if not any(example.read_text(encoding="utf-8") == block for example in (ROOT / "examples").glob("*.csv")):
            self.complain(path, f"no example is the file that begins {block.splitlines()[0]!r}")

    def check_output(self, path, command, block):
        self.shown += 1
        show = shlex.quote(str(self.folder / "show"))
        if command.startswith("./show"):
            command = f'eval "gcc -o {show} examples/show.c {LIBRARY}" && {show}{command[len("./show"):]}'
        run = subprocess.run(["bash", "-c", command], cwd=ROOT, stdout=subprocess.PIPE, stderr=subprocess.STDOUT, text=True, check=False)
        if run.stdout != block:
            self.complain(path, f"{command} prints\n{run.stdout}and not\n{block}")

    def run(self):
        for path in LINKED:
            self.check_links(path)
        for path in GUIDES:
            if not INSTALLED:
                self.check_paths(path)
            self.check_blocks(path)
        shutil.rmtree(self.folder)
        for complaint in self.complaints:
            print(complaint)
        print(f"guides: {self.links} links, {self.paths} paths, {self.shown} blocks, {len(self.complaints)} complaints")
        return 1 if self.complaints or not (self.links and (self.paths or INSTALLED) and self.shown >= (5 if INSTALLED else 10)) else 0


sys.exit(Checker().run())
