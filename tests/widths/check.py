"""Rule 9.5: the ends of intervals, the candidates and the choice are 16-bit numbers. Looks at the types in the code, because no contract
can: a wider number would meet every contract."""
import pathlib
import re
import sys

ROOT = pathlib.Path(__file__).resolve().parents[2]

# of a struct its fields, of a function its parameters and, as "", its result; "..." where another is not asked for
WANTED = {
    "Window": {"from": "u16", "to": "u16"},
    "Choice": {"greatest": "u16", "least": "u16"},
    "Allocation": {"outputs": "[u16; 32]"},
    "narrow": {"": "[u16; 8]"},
    "ramp_window": {"greatest": "u16", "previous": "u16", "up": "u16", "down": "u16", "": "Window"},
    "write_region": {"low": "u16", "high": "u16"},
    "write_regions": {"ends": "&mut [u16]"},
    "Permitted": {"ends": "&'a [u16; 384]"},
    "region_reaching": {"v": "u16", "": "usize"},
    "better": {"below": "u16", "above": "u16", "": "Choice"},
    "choose_beside": {"v": "u16", "": "Choice"},
    "choose_running": {"": "Choice"},
    "choose": {"ends": "&[u16; 384]", "": "Choice"},
    "cost_of": {"p": "u16"},
    "net_of": {"p": "u16"},
    "priced_cost": {"p": "u16"},
    "evaluate": {"outputs": "&mut [u16]", "least": "&mut [u16]"},
}


def declared(text):
    """The structs and functions of a file, each with the types of its parts."""
    for name, fields in re.findall(r"\bstruct (\w+)(?:<[^>]*>)? \{(.*?)\}", text, re.S):
        yield name, dict(re.findall(r"(\w+): ([^,\n]+),", fields))
    for name, parameters, result in re.findall(r"\bfn (\w+)\((.*?)\)(?: -> ([^\n{]+))?\n", text, re.S):
        yield name, {**dict(re.findall(r"(\w+): ([^,]+?)(?:,|$)", parameters)), "": result.strip()}


def main():
    found = {}
    for path in ROOT.glob("crates/*/src/*.rt"):
        for name, parts in declared(path.read_text(encoding="utf-8")):
            if name in WANTED:
                found.setdefault(name, []).append((path.relative_to(ROOT), parts))
    wrong = [f"there is no {name}" for name in WANTED if name not in found]
    for name, places in found.items():
        for path, parts in places:
            for part, width in WANTED[name].items():
                if parts.get(part) != width:
                    wrong.append(f"{path}: {name}, {part or 'its result'}: {parts.get(part)}, not {width}")
    for line in wrong:
        print(line)
    print(f"widths: {len(WANTED)} structs and functions, {len(wrong)} otherwise than rule 9.5 has them")
    return 1 if wrong else 0


sys.exit(main())
