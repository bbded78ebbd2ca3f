"""How far a change reaches, and what a command does to the table of copies: counts over the sources, no measure of time.

- Look-ups of a copy, and searches for a place: how often a function of a row, with all that it calls, asks the map of copies, or the window
  for a place. The walk goes by names, over the sources of row_copy, job_row, row_steps, room_commands and row_commands; it counts both sides of a branch, so each line says
  which calls it leaves out.
- Files that name a command: those that a new command of its kind would have to name too, in all and by folder. Files that take apart or
  make what tells of a copy: those that a new part of it which travels would reach. Tests are left out.
- Sources that spell a command, as one of Command or as the word or the kind of frame that it comes as; the file that declares Command isn't
  among them.
- Places that ask which command one is, in the crates between a session's frame and its reply, each with its function: a match one of whose
  patterns names a command or a kind of command, a matches! and a let. Open ones say nothing if a command is added: those by matches! or let, and those with an
  arm for all others, unless that is proved unreachable.
- Lines of the crates of a row, and functions that have two bare numbers of different meaning side by side.
"""

from __future__ import annotations

import argparse
import re
import subprocess
import sys
from functools import lru_cache
from pathlib import Path
from typing import NamedTuple

from store_testing import ROOT

CRATES = ROOT / "crates"
ROW = ("row_copy", "job_row", "row_steps", "room_commands", "row_commands")
TESTS = re.compile(r"_tests/|^crates/(schedules|assertions)/")
FUNCTION = re.compile(r"^( *)(?:pub(?:\(crate\))? )?fn (\w+)")
OWNER = re.compile(r"^impl(?:<[^>]*>)? (?:\w+(?:<[^>]*>)? for )?(\w+)")
CALL = re.compile(r"(?P<receiver>[\w()]+)\s*\.\s*(?P<method>\w+)\(|(?P<path>[A-Z]\w*)::(?P<made>\w+)\(|(?<![\w.:])(?P<free>\w+)\(")
# whose method a call is, by what stands before the dot
RECEIVERS = {"row": "JobRow", "copies": "Copies", "copy": "RowCopy"}
# what is made or taken apart that tells of a copy, but for the command that makes one
TELLS = r"backed =|(OwnItem|Location) [{]|AddLocation"
NUMBERS = {"node", "session", "number", "from", "index", "job", "source", "work"}


class Root(NamedTuple):
    """A line of the table: what it is called, where the walk starts, and which functions it doesn't enter."""

    title: str
    start: str
    outside: frozenset[str]


LOOKUPS = (
    Root("Get of a sealed copy", "get_sealed", frozenset()),
    Root("Seal", "seal", frozenset()),
    Root("Unpin that removes", "unpin", frozenset()),
    Root("a chunk that fills a gap", "chunk", frozenset({"last_chunk"})),
)
SEARCHES = Root("a Create that fits", "create", frozenset({"victims", "spillable", "place_of_victims", "ask_writes", "plan"}))
# where commands are declared, and what they are called when they come as words or frames
DECLARED, SPELLED = CRATES / "obj_id/src/commands.rt", "(?:Command(?:Kind)?|Word|FrameKind|ObjectKind)"
# the crates that a command goes through from its frame to its reply
WAY = (
    "wire_frames", "session_engine", "session_threads", "shared_nodes", "node_steps", "node_housekeeping", "node_gate", "node_journal",
    "node_core", "row_commands", "room_commands", "row_steps", "job_row", "row_copy", "command_kinds", "obj_id",
)
# a pattern that takes all that is left
OTHERS = re.compile(r"(?:Some\()?(?:_|[a-z]\w*)\)?")
NAMES_COMMAND = re.compile(r"\bCommand(?:Kind)?::[A-Z]")
# what holds brackets and arrows that are none of the code
ASIDE = re.compile(r"//[^\n]*|\"(?:\\.|[^\"\\])*\"|'(?:\\.|[^'\\])'", re.DOTALL)
ASKS_MAP = re.compile(r"\bby_id\s*\.\s*(?:get|get_mut|get_full|get_index_of|insert|swap_remove|contains_key)\(")
ASKS_WINDOW = re.compile(r"\.\s*(?:search|fits_without|first_fit)\(")


def functions() -> dict[tuple[str, str], str]:
    """The bodies of the functions of a row's crates by owner ("" for none) and name, without clauses and comments."""
    found: dict[tuple[str, str], str] = {}
    for crate in ROW:
        for path in sorted((CRATES / crate / "src").glob("*.rt")):
            owner, lines = "", path.read_text(encoding="utf-8").split("\n")
            for at, line in enumerate(lines):
                if match := OWNER.match(line):
                    owner = match[1]
                elif line == "}":
                    owner = ""
                elif match := FUNCTION.match(line):
                    indent = match[1]
                    end = next((k for k in range(at, len(lines)) if lines[k] == indent + "}"), at)
                    body = [text for text in lines[at:end] if not re.match(r"\s*(//|ensures|requires|→)", text)]
                    found[owner if indent else "", match[2]] = "\n".join(body[1:]).replace(".copies()", ".copies")
    return found


def asked(root: Root, leaf: re.Pattern[str]) -> int:
    """How often the leaf is called by the function that the walk starts at, and by what it calls."""
    bodies = functions()

    @lru_cache(maxsize=None)
    def count(owner: str, name: str) -> int:
        body = bodies[owner, name]
        total = len(leaf.findall(body))
        for call in CALL.finditer(body):
            receiver, what = call["receiver"], call["method"] or call["made"] or call["free"]
            whose = call["path"] or (owner if receiver == "self" else RECEIVERS.get(receiver, "?") if receiver else "")
            if what not in root.outside and (whose, what) in bodies and (whose, what) != (owner, name):
                total += count(whose, what)
        return total

    return count("", root.start)


def naming(pattern: str, *folders: str) -> int:
    """How many files of these folders, otherwise of src, specs and proofs, match, but for tests."""
    within = [f"crates/*/{folder}/*" for folder in folders or ("src", "specs", "proofs")]
    listed = subprocess.run(["git", "grep", "-lE", pattern, "--", *within], cwd=ROOT, capture_output=True, text=True, check=False).stdout
    return sum(not TESTS.search(path) for path in listed.split())


def sources() -> dict[Path, str]:
    """The texts of src without comments and strings, but for tests."""
    paths = [path for path in sorted(CRATES.glob("*/src/**/*.rt")) if not TESTS.search(str(path.relative_to(ROOT)))]
    return {path: ASIDE.sub("", path.read_text(encoding="utf-8")) for path in paths}


def commands() -> list[str]:
    """The names of the commands, as they are declared."""
    body = ASIDE.sub("", DECLARED.read_text(encoding="utf-8")).split("pub enum Command<P> {")[1].split("\n}")[0]
    return re.findall(r"^    ([A-Z]\w*)", body, re.MULTILINE)


def spelling(command: str, texts: dict[Path, str]) -> int:
    """How many sources spell a command."""
    return sum(re.search(rf"\b{SPELLED}::{command}\b", text) is not None for path, text in texts.items() if path != DECLARED)


def within(text: str, start: int) -> str:
    """What is in the brackets that open there."""
    depth = 0
    for at in range(start, len(text)):
        depth += (text[at] in "({[") - (text[at] in ")}]")
        if not depth:
            return text[start + 1:at]
    raise ValueError(f"a bracket isn't closed: {text[start:start + 60]}")


def next_of(text: str, at: int, end: str) -> int:
    """Where this stands next, outside of brackets; the text's end if nowhere."""
    while at < len(text) and not text.startswith(end, at):
        at += len(within(text, at)) + 2 if text[at] in "({[" else 1
    return min(at, len(text))


def arms(body: str) -> list[tuple[str, str]]:
    """The arms of a match: the pattern of each without its condition, and what follows."""
    found, at = [], 0
    while (arrow := next_of(body, at, "=>")) < len(body):
        pattern = body[at:arrow].strip(" \n,").split(" if ")[0]
        start = arrow + 2 + len(body[arrow + 2:]) - len(body[arrow + 2:].lstrip())
        # what is in braces ends with them, all else with a comma
        at = start + len(within(body, start)) + 2 if body[start] == "{" else next_of(body, start, ",") + 1
        found.append((pattern, body[start:at]))
    return found


def asks(text: str) -> list[tuple[int, bool]]:
    """The places of a source that ask which command one is, and whether they are open."""
    found = []
    for place in re.finditer(r"\bmatch\b|\bmatches!|\blet\b", text):
        word, after, is_open = place[0], place.end(), True
        if word == "match":
            pairs = arms(within(text, next_of(text, after, "{")))
            patterns = [pattern for pattern, _ in pairs]
            is_open = any(OTHERS.fullmatch(pattern) and not then.startswith("unreachable!") for pattern, then in pairs)
        elif word == "matches!":
            asked = within(text, after)
            patterns = [asked[next_of(asked, 0, ","):]]
        else:
            patterns = [text[after:next_of(text, after, "=")]]
        if any(NAMES_COMMAND.search(pattern) for pattern in patterns):
            found.append((place.start(), is_open))
    return found


def asking(texts: dict[Path, str]) -> list[str]:
    """The places between a frame and its reply that ask which command one is."""
    found = []
    for path, text in texts.items():
        if path.relative_to(CRATES).parts[0] in WAY:
            for start, is_open in asks(text):
                function = re.findall(r"\bfn (\w+)", text[:start])[-1]
                found.append(f"{path.relative_to(CRATES)} {function}{' (open)' * is_open}")
    return found


def lines(folder: str) -> int:
    """The lines of a folder of the row's crates."""
    return sum(len(path.read_text(encoding="utf-8").splitlines())
               for crate in ROW for path in (CRATES / crate / folder).rglob("*") if path.suffix in (".rt", ".antt"))


def bare_neighbours() -> list[str]:
    """The functions that take two bare numbers of different meaning side by side."""
    found = []
    for path in sorted(CRATES.glob("*/src/*.rt")):
        if TESTS.search(str(path.relative_to(ROOT))):
            continue
        for match in re.finditer(r"\bfn\s+(\w+)[^(]*\(([^)]*)\)", path.read_text(encoding="utf-8")):
            typed = [tuple(part.strip() for part in one.split(":", 1)) for one in match[2].split(",") if ":" in one]
            bare = [name in NUMBERS and kind in ("u32", "u64") for name, kind in typed]
            if any(a and b for a, b in zip(bare, bare[1:])):
                found.append(f"{path.relative_to(CRATES)} {match[1]}")
    return found


def tell_of_commands() -> None:
    usage = r"(Command::|command[.])Usage[^a-zA-Z_]"
    parts = ", ".join(f"{naming(usage, folder)} of {folder}" for folder in ("src", "specs", "proofs"))
    print(f"files that name a command that only tells (Usage): {naming(usage)} ({parts})")
    texts = sources()
    spelled = {command: spelling(command, texts) for command in commands()}
    print(f"sources that spell a command: {min(spelled.values())} to {max(spelled.values())}, by command:",
          ", ".join(f"{command} {number}" for command, number in spelled.items()))
    places = asking(texts)
    are_open = sum(place.endswith("(open)") for place in places)
    print(f"places between frame and reply that ask which command one is: {len(places)}, of which {are_open} are open", *places, sep="\n  ")


def main() -> int:
    argparse.ArgumentParser(description=__doc__, formatter_class=argparse.RawDescriptionHelpFormatter).parse_args()
    for root in LOOKUPS:
        print(f"look-ups of a copy, {root.title}: {asked(root, ASKS_MAP)}")
    print(f"searches for a place, {SEARCHES.title}: {asked(SEARCHES, ASKS_WINDOW)}")
    tell_of_commands()
    print(f"files that spell what tells of a copy: {naming(TELLS + '|Create')}, "
          f"or {naming(TELLS + '|Create([^d]|$)')} without those that only name the state Created")
    for folder in ("src", "specs", "proofs"):
        print(f"lines of {folder}, {', '.join(ROW)}: {lines(folder)}")
    neighbours = bare_neighbours()
    print(f"functions with two bare numbers side by side: {len(neighbours)}", *neighbours, sep="\n  ")
    return 0


if __name__ == "__main__":
    sys.exit(main())
