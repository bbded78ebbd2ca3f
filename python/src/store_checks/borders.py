"""What the proofs of one crate cite of another's.

A crate's `proofs/` are its own affair: they may be written anew at any time, as long as its contracts stay. What others cite is in three
places:

- `store_facts`: lemmas on ids, lists, rows and stores. Its module `Ids` passes on what is proved in obj_id itself;
- `proofs/ForCallers.antt` of any other crate: exactly what other crates cite, each with a line that says what for;
- what the compiler makes (`TheSendSync`), and `proofs/Crossing.antt`, which says what may cross threads.

So this script refuses an import of anything else, one that names no file (it would bring all of a crate), one that passes proofs on
elsewhere, a module of proofs that is `pub` without being one of these, a lemma of a door (`Ids`, `ForCallers`) that nobody cites, and a
library of laws or lemmas in crates.txt whose crate names it nowhere. It reads text, and can't see whether a lemma would be better where
it is cited.

First the script tries itself on the files of border_cases, each of which says in its first two lines for which file it stands and what must
be found there. They aren't called .antt, since the gate refuses such a file outside of a crate. The last line counts what it looked at.
"""
import pathlib
import re
import sys
from functools import lru_cache
from typing import Dict, Iterator, List, NamedTuple, Optional, Set, Tuple

from store_testing import ROOT
from store_testing.looks import Looks, text_of

CRATES, CASES = ROOT / "crates", ROOT / "tests/border_cases"
FACTS, LAWS, IDS = "store_facts", "store_laws", "obj_id"
DOORS = {"ForCallers", "Crossing"}
# of one line, as rt fmt leaves it
IMPORT = re.compile(r"^\s*(?P<passes>pub )?(?:ghost )?use Rattle\.(?P<crate>\w+)\.proofs\.(?P<module>[\w+.]*[\w+])(?:\.\{(?P<names>[^}]*)\})?")
# what the tactic of a function is told to use
USED = re.compile(r"\b(\w+)::proofs::(\w+)::([\w'-]+)")
NAMED = re.compile(rf"\bRattle\.({FACTS}|{LAWS})\.|\b({FACTS}|{LAWS})::")
CITED = re.compile(r"\bRattle\.(\w+)\.proofs\b")
# what isn't followed by a crate and a file of its specs or proofs
NO_FILE = re.compile(r"\bRattle\b(?!\.\w+\.(?:specs|proofs)\.[\w+])")
DECLARED = re.compile(r"^\s*pub\s+mod\s+(\w+)")
DEFINED = re.compile(r"^(?:unfoldable |abbrev )*pub (?!use |mod )(?:record |data )?([^\s:]+) ")

# what a line of a file may be refused for
CLOSED, PASSED, SPELLED = "proofs by no door", "proofs passed on by no door", "proofs by no import"
WHOLE, OPENED = "a crate by no file", "a module that others can name"
KINDS = (CLOSED, PASSED, SPELLED, WHOLE, OPENED)
FIRST = re.compile(r"-- As (crates/\w+/(?:proofs|specs|src)/[\w/]+\.(?:antt|rt)): \S.*\.")
SECOND = re.compile(rf"-- (?:Refused: ({'|'.join(KINDS)})|Accepted)\.")

LOOKS = Looks()
look = LOOKS.look


class Seen(NamedTuple):
    """A line that was looked at, what it would be refused for, the same in words, and whether it is right."""

    line: int
    kind: str
    what: str
    good: bool


class Cite(NamedTuple):
    """An import of proofs: of which file and line, whether it passes them on, which module of which crate, and the names."""

    path: pathlib.Path
    line: int
    passes: bool
    crate: str
    module: str
    names: Tuple[str, ...]


def crate_of(path: pathlib.Path) -> str:
    return path.relative_to(CRATES).parts[0]


@lru_cache(maxsize=None)
def sources() -> Tuple[pathlib.Path, ...]:
    """The files of code and proofs, without what was built of them."""
    folders = sorted(folder for folder in CRATES.glob("*/*") if folder.name in ("src", "specs", "proofs"))
    return tuple(path for folder in folders for path in sorted(folder.rglob("*")) if path.suffix in (".rt", ".antt"))


def libraries() -> Dict[str, List[str]]:
    lines = text_of(ROOT / "crates.txt").splitlines()
    pairs = [line.split(":") for line in lines if ":" in line and not line.startswith("#")]
    return {crate.split()[0]: below.split() for crate, below in pairs}


def code_of(line: str) -> str:
    return re.split(r"(?:^|\s)(?:--|//)", line)[0]


def cites(path: pathlib.Path, text: str, crates: Set[str]) -> Iterator[Cite]:
    """The imports of proofs of crates of this repository, and what tactics are told to use of them."""
    for number, line in enumerate(text.splitlines(), 1):
        found = IMPORT.match(line) if ".proofs" in line else None
        if found and found["crate"] in crates:
            names = tuple(name.split(" as ")[0].strip() for name in (found["names"] or "").split(",") if name.strip())
            yield Cite(path, number, bool(found["passes"]), found["crate"], found["module"], names)
        for crate, module, name in USED.findall(line) if "using(" in line else ():
            if crate in crates:
                yield Cite(path, number, False, crate, module, (name,))


def is_door(cite: Cite) -> bool:
    if cite.crate == IDS and cite.path == CRATES / FACTS / "proofs/Ids.antt":
        return True
    return cite.crate == FACTS or cite.module in DOORS or cite.module.split(".")[-1] == "TheSendSync"


def imports_seen(path: pathlib.Path, text: str, crates: Set[str]) -> Iterator[Seen]:
    for cite in cites(path, text, crates):
        if cite.crate != crate_of(path):
            door = {IDS: f"crates/{FACTS}/proofs/Ids.antt", LAWS: f"crates/{FACTS}"}.get(cite.crate, f"crates/{cite.crate}/proofs/ForCallers.antt")
            yield Seen(cite.line, CLOSED, f"{cite.module} is {cite.crate}'s own; what others cite is in {door}", is_door(cite))
        if cite.passes:
            may_pass = crate_of(path) == FACTS or path.match("proofs/ForCallers.antt")
            yield Seen(cite.line, PASSED, "proofs are passed on here, and only proofs/ForCallers.antt may do so", may_pass)


def spellings_seen(path: pathlib.Path, text: str, crates: Set[str]) -> Iterator[Seen]:
    """What names a crate otherwise than by an import of one line from a file: nobody could tell what it brings."""
    for number, line in enumerate(text.splitlines(), 1):
        if "Rattle" not in line:
            continue
        code = code_of(line)
        if NO_FILE.search(code):
            yield Seen(number, WHOLE, "no file of specs/ or proofs/ is named here, so it would bring all of a crate", False)
        elif not IMPORT.match(line):
            for crate in crates.intersection(CITED.findall(code)) - {crate_of(path)}:
                yield Seen(number, SPELLED, f"proofs of {crate} are named here, and no import of one line above brings them", False)


def modules_seen(path: pathlib.Path, text: str) -> Iterator[Seen]:
    """That a crate's modules of proofs are its own. Those of obj_id are named by `Ids`, and those of store_facts are for all."""
    crate = crate_of(path)
    within = path.relative_to(CRATES / crate).as_posix()
    allowed = DOORS if within == "proofs/Lib.antt" else set()
    if not within.startswith("proofs/") or (allowed and crate in (IDS, FACTS)):
        return
    for number, line in enumerate(text.splitlines(), 1):
        declared = DECLARED.match(line)
        if declared:
            yield Seen(number, OPENED, "only ForCallers and Crossing may be pub, and only in proofs/Lib.antt", declared[1] in allowed)


def lines_seen(path: pathlib.Path, text: str, crates: Set[str]) -> Iterator[Seen]:
    """What can be said of a file by itself."""
    yield from imports_seen(path, text, crates)
    yield from spellings_seen(path, text, crates)
    yield from modules_seen(path, text)


def look_at_cases(crates: Set[str]) -> None:
    """That each case is refused for what it says and for nothing else, and that each kind has a case."""
    refused: Set[str] = set()
    for path in sorted(CASES.iterdir()):
        first, second = text_of(path).splitlines()[:2]
        said, due = FIRST.fullmatch(first), SECOND.fullmatch(second)
        if not said or not due or path.suffix != ".case":
            look(path, 1, "its first two lines don't say for what it stands and what is found there", False)
            continue
        wrong = sorted({seen.kind for seen in lines_seen(ROOT / said[1], text_of(path), crates) if not seen.good})
        refused.update(wrong)
        look(path, 2, f"it is refused for {wrong}", wrong == [kind for kind in due.groups() if kind])
    for kind in KINDS:
        look(CASES, 1, f"no case is refused for {kind}", kind in refused)


def look_at_doors(found: List[Cite]) -> None:
    """That each lemma of a door is cited by a crate above, and each line that passes lemmas on has one before it that says what for."""
    doors = [*CRATES.glob("*/proofs/ForCallers.antt"), CRATES / FACTS / "proofs/Ids.antt"]
    for path in sorted(doors):
        here = [cite for cite in found if (cite.crate, cite.module) == (crate_of(path), path.stem)]
        cited = {name for cite in here for name in cite.names}
        lines = text_of(path).splitlines()
        for number, text in enumerate(lines, 1):
            passed, defined = IMPORT.match(text), DEFINED.match(text)
            if passed and passed["passes"]:
                look(path, number, "no line before it says what it is for", lines[number - 2].startswith("-- "))
            for name in names_given(passed, defined):
                look(path, number, f"nobody cites {name}", name in cited)


def names_given(passed: Optional["re.Match[str]"], defined: Optional["re.Match[str]"]) -> List[str]:
    """The names that a line of a door gives to other crates."""
    if passed and passed["passes"]:
        return [name.split(" as ")[-1].strip() for name in passed["names"].split(",")]
    return [defined[1]] if defined else []


def look_at_libraries() -> None:
    """That who stands on the laws, or on the lemmas, names them."""
    named = {(crate_of(path), library) for path in sources() for pair in NAMED.findall(text_of(path)) for library in pair}
    for crate, below in libraries().items():
        for library in sorted({FACTS, LAWS} & set(below)):
            look(ROOT / "crates.txt", 1, f"{crate} names {library} nowhere", (crate, library) in named)


def main() -> int:
    crates = set(libraries())
    look_at_cases(crates)
    for path in sources():
        for seen in lines_seen(path, text_of(path), crates):
            look(path, seen.line, seen.what, seen.good)
    look_at_doors([cite for path in sources() for cite in cites(path, text_of(path), crates)])
    look_at_libraries()
    return LOOKS.end("borders")


if __name__ == "__main__":
    sys.exit(main())
