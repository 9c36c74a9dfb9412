"""The command line: its commands, their words and options, and what is said of them."""

from __future__ import annotations

import argparse
import re

from . import exact, library, matpower, planning
from .site import MONEY_MAX

SITE_HELP = "a CSV file of sets, or a case file; - is standard input"
SHOW_HELP = "a case file, a reply of dispatch or refining, or a CSV file of sets; - is standard input"
SCREEN_HELP = "a CSV file of sets, or a case file; it is read again when it changes"
PORT = 8642
EFFORT_MAX = 1_000_000_000
EFFORT_HELP = f"how long it looks, in nodes: {exact.grouped(planning.EFFORT)}, if not given, are one to two seconds; up to 1,000,000,000"
DEMAND_HELP = "the demand in MW, such as 23.5; a case file has its own, which this replaces"
PICTURE_HELP = "draw it too, into this .svg or .png file; needs matplotlib"


def _minutes(word: str) -> int:
    if not word.isascii() or not word.isdigit() or not 1 <= int(word[:5]) <= 1440 or len(word) > 4:
        raise argparse.ArgumentTypeError(f"{word} is not a number of minutes from 1 to 1440")
    return int(word)


def _whole(word: str) -> int:
    """A whole number, with commas between its thousands or without; 0 for what is none, or is too long."""
    return int(word.replace(",", "")) if len(word) < 20 and re.fullmatch(r"[0-9]+|[0-9]{1,3}(,[0-9]{3})+", word) else 0


def _budget(word: str) -> int:
    if not 1 <= _whole(word) <= library.BUDGET_MAX:
        raise argparse.ArgumentTypeError(f"{word} is not a budget from 1 to 100,000")
    return _whole(word)


def _effort(word: str) -> int:
    if not 1 <= _whole(word) <= EFFORT_MAX:
        raise argparse.ArgumentTypeError(f"{word} is not an effort from 1 to {exact.grouped(EFFORT_MAX)}, a whole number")
    return _whole(word)


def _times(word: str) -> int:
    if not word.isascii() or not word.isdigit() or len(word) > 11 or not 1 <= int(word) <= 10 * MONEY_MAX:
        raise argparse.ArgumentTypeError(f"{word} is not a whole number from 1 to {exact.grouped(10 * MONEY_MAX)}")
    return int(word)


def _port(word: str) -> int:
    if not word.isascii() or not word.isdigit() or len(word) > 5 or int(word) > 65_535:
        raise argparse.ArgumentTypeError(f"{word} is not a port from 0 to 65535")
    return int(word)


def parser(prog: str) -> argparse.ArgumentParser:
    """The command line with all its commands."""
    top = argparse.ArgumentParser(
        prog=prog,
        description="Which set should give how much, what that costs, and how far from the best it is at most: proved.",
        epilog="Status 0: answered. 1: refused, because nothing covers the demand (of a day: that of a slot), or outputs not accepted. Also 1:"
        " a MATPOWER case that cannot be taken. 2: usage, or a file that cannot be taken. docs/PLANNER.md is the guide.",
    )
    top.set_defaults(prog=prog)
    commands = top.add_subparsers(dest="command", required=True, metavar="COMMAND")

    def add(name: str, words: str, more: str = "", site: bool = True) -> argparse.ArgumentParser:
        one = commands.add_parser(name, help=words, description=words[0].upper() + words[1:] + "." + more)
        one.set_defaults(form="text")
        if name != "screen":
            form = one.add_mutually_exclusive_group()
            form.add_argument("--json", dest="form", action="store_const", const="json", help="as JSON, numbers exact")
            form.add_argument("--csv", dest="form", action="store_const", const="csv", help="as CSV for a spreadsheet")
        if site:
            one.add_argument("site", metavar="SITE", help={"show": SHOW_HELP, "screen": SCREEN_HELP}.get(name, SITE_HELP))
        if name not in ("gencost", "matpower"):
            one.add_argument("--times", type=_times, metavar="N", help="money in this case file was divided by N: multiply it again")
        return one

    one = add("dispatch", "dispatch a site: outputs, cost, gap")
    one.add_argument("demand", metavar="MW", nargs="?", help=DEMAND_HELP)
    one = add("refine", "look for cheaper outputs and a smaller gap", " Budgets of 1, 10, 100 dispatches and so on, each a call of its own.")
    one.add_argument("demand", metavar="MW", nargs="?", help=DEMAND_HELP)
    one.add_argument("--budget", type=_budget, default=library.BUDGET_MAX, metavar="N", help="the largest budget, up to 100,000")
    one = add(
        "plan",
        "look for the cheapest outputs, and prove how far above the best they are at most",
        " What is found is judged, and shown only if it is accepted. An interrupt (Ctrl-C) ends it with the best so far.",
    )
    one.add_argument("demand", metavar="MW", nargs="?", help=DEMAND_HELP)
    one.add_argument("--effort", type=_effort, default=planning.EFFORT, metavar="N", help=EFFORT_HELP)
    one = add("judge", "say what outputs of your own cost, or why they will not do")
    one.add_argument("--demand", metavar="MW", help=DEMAND_HELP)
    one.add_argument("outputs", metavar="OUTPUT", nargs="+", help="MW of each set in the order of the file, or NAME=MW; 0: it stands")
    one = add("floors", "say what other demands cost at least", " Without --at: 80 to 120 % of the demand.")
    one.add_argument("demand", metavar="MW", nargs="?", help=DEMAND_HELP)
    one.add_argument("--at", metavar="MW", nargs="+", help="these demands instead")
    one.add_argument("--picture", metavar="FILE", help=PICTURE_HELP)
    one = add("day", "plan a day slot by slot, with the ramps carried from one to the next")
    one.add_argument("demands", metavar="DEMANDS", help="a CSV file of time and MW; - is standard input")
    one.add_argument("--plan", action="store_true", help="plan each slot instead of dispatching it, and say what the day costs either way")
    slot = exact.grouped(planning.SLOT_EFFORT)
    one.add_argument("--effort", type=_effort, metavar="N", help=f"of --plan: nodes for each slot; {slot}, if not given")
    one.add_argument("--minutes", type=_minutes, default=60, metavar="N", help="how long a slot is; 60 if not given")
    one.add_argument("--picture", metavar="FILE", help=PICTURE_HELP)
    one = add(
        "screen",
        "show a site on a page in the browser of this computer",
        " It prints the address to open, and serves the page until an interrupt (Ctrl-C). Nothing is written; no other computer can ask.",
    )
    one.add_argument("demand", metavar="MW", nargs="?", help=DEMAND_HELP)
    one.add_argument("--port", type=_port, default=PORT, metavar="N", help=f"{PORT} if not given; 0: any that is free")
    one.add_argument("--day", metavar="DEMANDS", help="the day to begin with: a CSV file of time and MW; - is standard input")
    one = add("case", "write the case file of a site at a demand")
    one.add_argument("demand", metavar="MW", help="the demand in MW, such as 23.5")
    one.add_argument("file", metavar="FILE", help="the file to write; - is refused, since a case file is not for standard output")
    one = add("show", "say in words what a case file, a reply or a CSV file of sets holds", " --csv of a case file is a CSV file of sets.")
    one.add_argument("--of", metavar="SITE", help="of a reply: the site that it answers, for the sets' names")
    one = add("gencost", "read cost rows of a MATPOWER case as A, B and C", site=False)
    one.add_argument("rows", metavar="ROWS", nargs="?", default="-", help="rows of a gencost matrix, one to a line; - is standard input")
    one = add("matpower", "plan a MATPOWER case", " Its units in service are the sets, and must run.", site=False)
    one.add_argument("case", metavar="CASE.m", help="a MATPOWER case; - is standard input")
    one.add_argument("demand", metavar="MW", nargs="?", help="the demand in MW, such as 23.5; if not given, the sum of Pd in mpc.bus")
    one.add_argument("--may-stand", action="store_true", help="units in service may stand")
    one.add_argument("--ramp", type=int, choices=tuple(matpower.RAMPS), help="the ramps of so many minutes limit them, from Pg on")
    one.add_argument("--round", action="store_true", help="take the nearest to numbers that will not do, and say which")
    one.add_argument("--site", dest="file", metavar="FILE", help="write the site as a CSV file instead, for the other commands")
    one.add_argument("--effort", type=_effort, default=planning.EFFORT, metavar="N", help=EFFORT_HELP)
    return top
