"""Who asks for memory, and who answers that it ran out.

An answer 19 NoMemory is outside what is guaranteed to a job, and no contract can ask the allocator whether it refused. So the form of the
sources must show it. Of every crate of crates.txt each file is read, its tests too:

- Only memory_growth asks for memory. No other crate names AllocError or AllocFailed, or calls what answers with them. The calls that do
  so all the same, since the kit answers an error of its own there (of the command line, of a thread), are in OURS and BUILDERS.
- NoMemory is a value only in the conversion of an error that came (`impl From<OutOfMemory> for ..`), and at the places of PLACES, each with
  its reason. Elsewhere it is a pattern, a type, or compared.
- Nothing hides one of these: another name, a macro, a default, a refusal by its number, a growth that nothing has room for. Nobody but
  memory_growth can make its error.

A call is known by its name, since the script knows no types: `.push(` of whatever, unless its result is dropped at once or unwrapped,
which is proved to find room. Calls of our own functions that have such a name are in OURS. A call of the kit that says out of memory by another error (of a file, a thread, a decoded
text) isn't looked for; where such an error is handed on as NoMemory, that is in PLACES. The tables are in memory_rules/tables.py; a line of
them that fits nothing any more is refused too.

First the script tries itself on the files of memory_cases, each of which says in its second line what must be found there. They aren't
called .rt, since the gate refuses such a file outside of a crate. All this proves nothing: a body that called something of ours that fails
whenever a neighbour has work would still have to be found by a reader. The last line counts the cases, the files and the tables' lines.
"""
from __future__ import annotations

import pathlib
import re
import sys
from typing import Dict, FrozenSet, List, Optional, Set, Tuple

from store_testing import ROOT

from .memory_rules import rules
from .memory_rules.rules import ALWAYS, OUTSIDE, File, Finding, findings
from .memory_rules.tables import BUILDERS, GROWTH, HUGE, KIT, MACROS, NUMBERED, OURS, PLACES
from .memory_rules.text import Source

CRATES, CASES = ROOT / "crates", ROOT / "tests/memory_cases"
UNLISTED = "a crate that crates.txt doesn't name"
# of which crate a case is, and the name by which that is read
WHERE = {
    "a crate": "any",
    "memory_growth": GROWTH,
    "no crate of crates.txt": "stranger",
}
FIRST = re.compile(rf"// In ({'|'.join(WHERE)}): \S.*")
SECOND = re.compile(r"// (?:Refused: (?P<kinds>\S.*)\.|Accepted\.)")
KINDS = {rules.NAMED, rules.GROWN, rules.VALUE, rules.RENAMED, rules.DEFAULT, rules.MACRO, rules.TOO_MUCH, rules.NUMBER}
KINDS |= {rules.DEFINED, rules.OPENED, rules.ELSEWHERE, UNLISTED}
# the tables, by what they let pass: a text of a file, or all that is in a file
TEXTS: Dict[str, Dict[str, Dict[str, str]]] = {rules.GROWN: OURS, rules.VALUE: PLACES, rules.TOO_MUCH: HUGE}
WHOLE: Dict[str, Dict[str, str]] = {rules.MACRO: MACROS, rules.NUMBER: NUMBERED, rules.GROWN: BUILDERS}
# a line of a table: what it lets pass, the file, and the text if there is one
Line = Tuple[str, str, str]


def listed() -> Set[str]:
    lines = (ROOT / "crates.txt").read_text(encoding="utf-8").splitlines()
    return {line.split(":")[0] for line in lines if line and not line.startswith("#")}


def crate_of(file: File) -> str:
    return file.name.split("/")[0]


def found_in(file: File, crates: Set[str]) -> List[Finding]:
    """All that the rules find in a file, and that its crate is none, if that is so."""
    found = [] if crate_of(file) in crates else [Finding(UNLISTED, 1, crate_of(file))]
    return found + list(findings(file, ALWAYS if file.is_growth else OUTSIDE + ALWAYS))


def line_for(file: File, one: Finding) -> Optional[Line]:
    """The line of a table that lets it pass."""
    if one.text in TEXTS.get(one.kind, {}).get(file.name, {}):
        return one.kind, file.name, one.text
    return (one.kind, file.name, "") if file.name in WHOLE.get(one.kind, {}) else None


def wrong_case(path: pathlib.Path, own: FrozenSet[str]) -> str:
    """What is wrong with a case, or nothing: it has to be refused for what its second line says, and for nothing else."""
    text = path.read_text(encoding="utf-8")
    where, due = (form.fullmatch(line) for form, line in zip((FIRST, SECOND), (text + "\n\n").splitlines()))
    if not where or not due:
        return "doesn't say what it is, or what must be found"
    crate = WHERE[where.group(1)]
    found = found_in(File(f"{crate}/src/{path.stem}.rt", Source(text), own), {"any", GROWTH})
    kinds = {one.kind for one in found}
    expected = set((due.group("kinds") or "").split("; ")) - {""}
    if kinds != expected:
        return f"is {'; '.join(sorted(kinds)) or 'accepted'}, and should be {'; '.join(sorted(expected)) or 'accepted'}"
    return ""


def try_cases(own: FrozenSet[str]) -> Tuple[int, List[str]]:
    """Each case, and that there is one for whatever can be found."""
    paths = sorted(CASES.glob("*.case"))
    wrong = [f"{path.name} {fault}" for path in paths for fault in [wrong_case(path, own)] if fault]
    seconds = [SECOND.fullmatch(path.read_text(encoding="utf-8").splitlines()[1]) for path in paths]
    said = {kind for second in seconds if second for kind in (second.group("kinds") or "").split("; ")}
    return len(paths) + len(KINDS), wrong + [f"no case is refused for: {kind}" for kind in sorted(KINDS - said)]


def sources() -> List[Tuple[str, Source]]:
    """All texts below crates/, but for the edits that must fail and for what a check left there."""
    paths = [path.relative_to(CRATES) for path in sorted(CRATES.rglob("*.rt"))]
    ours = [path for path in paths if path.parts[1] not in ("must-fail", "out")]
    return [(path.as_posix(), Source((CRATES / path).read_text(encoding="utf-8"))) for path in ours]


def look(files: List[File], crates: Set[str]) -> Tuple[Set[Line], List[str]]:
    """The lines of tables that let something pass, and what is wrong."""
    used: Set[Line] = set()
    wrong: List[str] = []
    for file, one in ((file, one) for file in files for one in found_in(file, crates)):
        line = line_for(file, one)
        if line:
            used.add(line)
        else:
            wrong.append(f"{file.name}:{one.line}: {one.kind}: {one.text}")
    return used, wrong


def stale(used: Set[Line]) -> Tuple[int, List[str]]:
    """How many lines the tables have, and those that fit nothing."""
    lines = {(kind, name, text) for kind, table in TEXTS.items() for name, texts in table.items() for text in texts}
    lines |= {(kind, name, "") for kind, table in WHOLE.items() for name in table}
    wrong = [f"{name}: nothing fits this line of a table any more: {kind}: {text}" for kind, name, text in sorted(lines - used)]
    return len(lines), wrong


def main() -> int:
    crates, read = listed(), sources()
    folders = {path.name for path in CRATES.iterdir() if path.is_dir()}
    own = frozenset((crates | set().union(*(source.declared() for _, source in read))) - KIT)
    cases, wrong = try_cases(own)
    files = [File(name, source, own) for name, source in read]
    used, found = look(files, crates)
    lines, unfit = stale(used)
    wrong += found + unfit + [f"crates.txt names {crate}, and there is none" for crate in sorted(crates - folders)]
    for place in wrong:
        print(f"memory: {place}")
    print(f"{cases} cases and kinds, {len(files)} files, {lines} lines of tables")
    print(f"{max(cases + len(files) + lines - len(wrong), 0)} passed, {len(wrong)} failed")
    return 1 if wrong else 0


if __name__ == "__main__":
    sys.exit(main())
