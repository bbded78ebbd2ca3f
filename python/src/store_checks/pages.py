"""What a script can see of the pages: that they name what is there, and give the numbers that the repository has.

It looks at each .md file of the repository:

- links: the file or folder is there, and the anchor on its page;
- words in backticks: a path is there; a name of code occurs in some file that isn't a page;
- `make TARGET`: the Makefile has the target, and each target is on some page;
- each script of tests/ and bench/ is on some page;
- each word of MAP's table of places is defined where the table says;
- MAP, PROMISES and GATE have a row for each crate of crates.txt, in its order, MAP and PROMISES also by its sections; each crate has a
  README that begins with its name; GATE has minutes of edits and of tests for the crates that have them, and no others;
- what a crate's README shows of a test or of a worked file stands there, and five READMEs show something;
- numbers that follow from the repository, listed below with how they are computed;
- the front page is short, and its ratios are those of the page of figures;
- the front page, those of docs/ and that of figures have no "who" and no "answered so" without a noun, as far as a few forms show it.

It reads text and understands none of it. The last line counts what it looked at.
"""
import hashlib
import pathlib
import re
import sys
from functools import lru_cache
from typing import Callable, Iterator, List, Sequence, Set, Tuple

from store_bench.now_table import BEGIN, END, FRONT_BEGIN, FRONT_END, between, front_faults
from store_testing import ROOT
from store_testing.looks import Looks, text_of

# nothing in these is of the repository
ASIDE = {".git", "out", "dist", "target", "__pycache__", ".mypy_cache", ".ruff_cache", ".pytest_cache"}
TOP = ("bench", "clients", "crates", "docs", "examples", "operate", "python", "tests", ".ci")
SUFFIXES = "antt|edit|expected|journal|md|program|py|rt|schedule|svg|toml|vectors"
# words of a pattern, in place of which a page means any
ANY = re.compile(r"NAME|PATH|FILE|\.\.+$")
# "who" that no noun is before, and an answer that is only "so"
NO_NOUN = (
    re.compile(r"(?:^|[.:;(|] |\*\*|^[-*] )Who\b"),
    re.compile(r"(?:^|[.:;(|,] |\b(?:about|and|as|at|but|by|down|for|from|if|is|of|or|than|that|to|with) )who\b"),
    re.compile(r"\b[Aa]nswer(?:ed|s)? so\b"),
)
# of a page: its number, the text, and whether it is shown as it stands
Line = Tuple[int, str, bool]
# of a list of crates: a title, and the crates
Section = Tuple[str, List[str]]
# how a section begins, and how a crate is listed
BEGINS = re.compile(r"^(?:#+ |\| \*\*)([^*]+)")
LISTED = re.compile(r"^(?:(\w+):|\| `(\w+)` \||\| \[(\w+)\]\()")
# tells of calls as they were specified, and of none that are here
OTHER_NAMES = "## Names"


def files_below(folder: pathlib.Path) -> Iterator[pathlib.Path]:
    for path in sorted(folder.iterdir()):
        if path.name in ASIDE or path.is_symlink():
            continue
        yield path
        if path.is_dir():
            yield from files_below(path)


FILES = list(files_below(ROOT))
PAGES = [path for path in FILES if path.suffix == ".md"]
NAMES = [str(path.relative_to(ROOT)) for path in FILES]
LOOKS = Looks()
look = LOOKS.look


@lru_cache(maxsize=None)
def lines_of(page: pathlib.Path) -> List[Line]:
    """The lines of a page, without the names of other places. A line in which code begins that ends in the next one is one with it."""
    lines: List[Line] = []
    fenced, other = False, False
    for number, line in enumerate(text_of(page).splitlines(), 1):
        if line.startswith("## "):
            other = line == OTHER_NAMES and page.name == "DECISIONS.md"
        if line.startswith("```"):
            fenced = not fenced
        elif other:
            continue
        elif line and lines and lines[-1][1].count("`") % 2 and not fenced:
            first, before, shown = lines.pop()
            lines.append((first, f"{before} {line.lstrip()}", shown))
        else:
            lines.append((number, line, fenced or line.startswith("    ")))
    return lines


def spans_of(line: str, shown: bool) -> List[str]:
    """What a line shows as code."""
    return [line] if shown else re.findall(r"`([^`]+)`", line)


# links and anchors


def slug(heading: str) -> str:
    words = re.sub(r"[^\w\- ]", "", re.sub(r"`|\[([^]]*)\]\([^)]*\)", r"\1", heading).lower())
    return words.strip().replace(" ", "-")


@lru_cache(maxsize=None)
def anchors_of(page: pathlib.Path) -> List[str]:
    lines = [line for _, line, shown in lines_of(page) if not shown]
    named = re.findall(r'<a id="([^"]*)">', "\n".join(lines))
    return named + [slug(line.lstrip("# ")) for line in lines if line.startswith("#")]


def look_at_links(page: pathlib.Path) -> None:
    for number, line, shown in lines_of(page):
        if shown:
            continue
        for target in re.findall(r"\]\(([^)\s]+)\)", re.sub(r"`[^`]*`", "", line)):
            if re.match(r"https?:|mailto:", target):
                continue
            name, _, anchor = target.partition("#")
            to = (page.parent / name).resolve() if name else page
            look(page, number, f"no such file as {target}", to.exists())
            if anchor and to.exists():
                look(page, number, f"no such anchor as {target}", anchor in anchors_of(to))
    anchors = re.findall(r'<a id="([^"]*)">', text_of(page))
    for anchor in sorted(set(anchors)):
        look(page, 1, f"the anchor {anchor} is there twice", anchors.count(anchor) == 1)


# words


def look_at_words(page: pathlib.Path) -> None:
    """That "who" stands after a noun, and that what was answered has one. A question may begin with it."""
    if not page.is_relative_to(ROOT / "docs") and page not in (ROOT / "README.md", ROOT / "bench/RESULTS.md"):
        return
    wrong: List[Tuple[int, str]] = []
    for number, line, shown in lines_of(page):
        plain = "" if shown else re.sub(r'"[^"]*"|`[^`]*`|\*\*Who [^*?]*\?\*\*', "", line)
        wrong += [(number, found[0]) for found in (form.search(plain) for form in NO_NOUN) if found]
    for number, found in wrong:
        look(page, number, f"a noun is missing: {found.strip()}", False)
    if not wrong:
        look(page, 1, "no noun is missing", True)


# names


def crates() -> List[str]:
    lines = text_of(ROOT / "crates.txt").splitlines()
    return [line.split(":")[0] for line in lines if ":" in line and not line.startswith("#")]


def is_there(name: str, page: pathlib.Path) -> bool:
    """Whether a path, with its stars, is there: from the top, from the page, in its crate, or as the end of some path."""
    pattern = ANY.sub("*", name).rstrip("/")
    first, _, rest = pattern.partition("/")
    tries = [pattern]
    if first in crates():
        tries = [f"crates/{pattern}", f"crates/{pattern}.antt", f"crates/{first}/must-fail/{rest}.edit"]
    for one in tries:
        if any(True for _ in ROOT.glob(one)) or any(True for _ in page.parent.glob(one)):
            return True
    end = re.compile("(?:^|/)" + re.escape(pattern).replace(r"\*", "[^/]*") + r"(?:\.edit)?$")
    return first not in TOP + tuple(crates()) and any(end.search(one) for one in NAMES) or end_of_edit(pattern)


def end_of_edit(pattern: str) -> bool:
    return pattern.startswith("tests/edits/") and (ROOT / f"{pattern}.edit").exists()


def look_at_paths(page: pathlib.Path) -> None:
    start = "|".join(re.escape(name) for name in TOP)
    from_top = re.compile(rf"(?<![\w/.~$'{{}}-])((?:{start})/[\w./*-]*\w)")
    for number, line, shown in lines_of(page):
        for name in from_top.findall(re.sub(r"\]\([^)]*\)", "]", line)):
            if not any(part in ASIDE for part in name.split("/")):
                look(page, number, f"no such path as {name}", is_there(name, page))
        for span in spans_of(line, shown):
            word = span.split(" ")[0]
            looks_so = re.fullmatch(rf"[\w.*-]+(?:/[\w.*-]+)*(?:\.(?:{SUFFIXES})|/)", word) or word.split("/")[0] in crates()
            if word.split("/")[0] in ASIDE or word.startswith(TOP) or shown or not looks_so or ":" in word:
                continue
            look(page, number, f"no such path as {word}", is_there(word, page))


@lru_cache(maxsize=None)
def words() -> Set[str]:
    """Each word of what isn't a page or a proof, and each part of a file's name."""
    found = set()
    for path in FILES:
        found.update(re.findall(r"\w+", path.name))
        if path.is_file() and path.suffix not in (".md", ".svg", ".expected") and "proofs" not in path.parts:
            found.update(re.findall(r"[^\W\d]\w*", text_of(path)))
    return found


def look_at_names(page: pathlib.Path) -> None:
    """Names of code: with an underscore within, of two words run together, or after two colons."""
    name = re.compile(r"(?:[A-Za-z]\w*::)*[A-Za-z]\w*")
    for number, line, shown in lines_of(page):
        for span in [] if shown else spans_of(line, shown):
            whole = span.split("(")[0].split(" ")[0]
            if not name.fullmatch(whole) or not re.search(r"\w_\w|[a-z][A-Z]|::", whole):
                continue
            missing = [part for part in whole.split("::") if part not in words()]
            look(page, number, f"nothing is named {' or '.join(missing)}", not missing)


# the Makefile and scripts


def targets() -> List[str]:
    return re.findall(r"^([a-z][a-z-]*):", text_of(ROOT / "Makefile"), re.M)


def look_at_targets() -> None:
    named = set()
    for page in PAGES:
        for number, line, shown in lines_of(page):
            for span in spans_of(line, shown):
                for target in re.findall(r"(?:^|[$;&(] ?)\s*make ((?:(?![A-Z-])[\w-]+ ?)+)", span):
                    for one in target.split():
                        named.add(one)
                        look(page, number, f"the Makefile has no target {one}", one in targets())
    for target in targets():
        look(ROOT / "Makefile", 1, f"no page names make {target}", target in named)


def look_at_scripts() -> None:
    pages = "\n".join(text_of(page) for page in PAGES)
    for path in FILES:
        inside = str(path.relative_to(ROOT))
        if inside.startswith(("tests/", "bench/")) and path.is_file() and path.suffix not in (".md", ".edit"):
            if text_of(path).startswith("#!"):
                look(path, 1, "no page names it", inside in pages)
    for number, line in enumerate(text_of(ROOT / "Makefile").splitlines(), 1):
        for name in re.findall(r"(?<![\w/.-])((?:bench|clients|examples|operate|tests)/[\w./-]*\w)", line):
            look(ROOT / "Makefile", number, f"no such path as {name}", (ROOT / name).exists())


def look_at_map() -> None:
    """That each word of MAP's table of places is defined in the file after it."""
    page = ROOT / "docs/MAP.md"
    part = text_of(page).split("## Where is the line that ..")[1].split("\n## ")[0]
    for row in re.findall(r"^\| (.*) \|$", part, re.M)[2:]:
        for cell in row.split(" | ")[1:]:
            spans = re.findall(r"`([^`]+)`", cell)
            named = [span if "/" in span else f"private_store/specs/rules/{span}" for span in spans if "." in span]
            files = [path for path in (ROOT / "crates" / name for name in named) if path.exists()]
            for word in [span for span in spans if "." not in span]:
                defined = re.compile(rf"\b(?:fn|abbrev pub|record|const) {word}\b")
                look(page, 1, f"{word} isn't defined there: {row}", any(defined.search(text_of(path)) for path in files))


def look_at_crates() -> None:
    there = {path.parent.name for path in ROOT.glob("crates/*/src")}
    for crate in sorted(there | set(crates())):
        look(ROOT / "crates.txt", 1, f"{crate} isn't both in crates.txt and in crates/", crate in there and crate in crates())
        readme = ROOT / "crates" / crate / "README.md"
        look(readme, 1, f"it doesn't begin with # {crate}:", readme.exists() and text_of(readme).startswith(f"# {crate}: "))


def sections_of(text: str) -> List[Section]:
    """The sections of a list of crates. One begins with a heading, or with a row in bold letters; what follows ", in" isn't of its title."""
    sections: List[Section] = []
    for line in text.splitlines():
        begins, listed = BEGINS.match(line), LISTED.match(line)
        if begins:
            sections.append((begins[1].split(", in ")[0], []))
        elif listed and sections:
            sections[-1][1].append(next(name for name in listed.groups() if name))
    return [section for section in sections if section[1]]


def look_at_lists() -> None:
    """That the pages list the crates as crates.txt does: a crate is found by its place, and no page lacks a new one."""
    due = sections_of(text_of(ROOT / "crates.txt"))
    layers = text_of(ROOT / "docs/MAP.md").split("## Layers, lowest first")[1].split("\n## ")[0]
    for page, text in ((ROOT / "docs/MAP.md", layers), (ROOT / "docs/PROMISES.md", text_of(ROOT / "docs/PROMISES.md"))):
        said = sections_of(text)
        titles, due_titles = [title for title, _ in said], [title for title, _ in due]
        look(page, 1, f"its sections are {titles}, and those of crates.txt {due_titles}", titles == due_titles)
        for title, listed in due:
            found = dict(said).get(title)
            look(page, 1, f"of {title} it lists {found}, and crates.txt {listed}", found == listed)
    page = ROOT / "docs/GATE.md"
    costs = [row[0] for row in rows_of_gate()]
    look(page, 1, f"its rows are of {costs}, and crates.txt lists {crates()}", costs == crates())


def rows_of_gate() -> List[Tuple[str, ...]]:
    """Of GATE's table the crate, and its minutes for the proof, the edits and the tests."""
    return re.findall(r"^\| `(\w+)` \| *([\d.]*) *\| *([\d.]*) *\| *([\d.]*) *\|$", text_of(ROOT / "docs/GATE.md"), re.M)


def look_at_costs() -> None:
    """That a row of GATE has minutes of edits and of tests if its crate has any, which crates have no edits, and what memory a check is to have."""
    page = ROOT / "docs/GATE.md"
    tests = {path.relative_to(ROOT).parts[1] for path in ROOT.glob("crates/*/src/**/*.rt") if "#[test]" in text_of(path)}
    edits = {path.parent.parent.name for path in ROOT.glob(GATE_EDITS)}
    for crate, _, tried, tested in rows_of_gate():
        look(page, 1, f"{crate} has minutes of edits and no edits, or the reverse", bool(tried) == (crate in edits))
        look(page, 1, f"{crate} has minutes of tests and no tests, or the reverse", bool(tested) == (crate in tests))
    edits |= {path.parent.name for path in ROOT.glob(OTHER_EDITS)}
    part = text_of(page).split("tries the other")[1].split("\n- ")[0]
    without = {crate for crate in crates() if crate not in edits and not crate.endswith("_tests")}
    look_at_list(page, "without edits are", set(re.findall(r"`(\w+)`", part)), without)
    memory = re.search(r"MemAvailable.*int\(\$\$2 / (\d+)\)", text_of(ROOT / "Makefile"))
    said = f"for each {int(memory[1]) / 1e6:g} GB" if memory else "what memory a check is to have"
    look(page, 1, f"it doesn't say, as the Makefile does: {said}", said in text_of(page))


def look_at_tested() -> None:
    """That PROMISES names the section that each crate of tests tests, and has them in the order of the sections."""
    page = ROOT / "docs/PROMISES.md"
    titles = [title for title, _ in sections_of(text_of(ROOT / "crates.txt"))]
    tested = re.findall(r"^\| \[\w+_tests\]\([^)]*\) \| ([^|]*?) \|", text_of(page), re.M)
    for title in tested:
        look(page, 1, f"crates.txt has no section {title}", title in titles)
    places = [titles.index(title) for title in tested if title in titles]
    look(page, 1, "the tests aren't in the order of the sections that they test", places == sorted(places))


def look_at_examples() -> None:
    """That what a crate's README shows stands line for line in the file that is named last before it, which the gate runs."""
    for page in sorted(ROOT.glob("crates/*/README.md")):
        parts = text_of(page).split("```")
        for before, shown in zip(parts[::2], parts[1::2]):
            path = ROOT / "crates" / "".join(re.findall(r"`([\w/.]+)`", before)[-1:])
            is_run = path.match("crates/*_tests/src/*.rt") or path.is_relative_to(ROOT / "crates/schedules/data")
            is_shown = is_run and path.is_file() and shown.partition("\n")[2] in text_of(path)
            look(page, 1, f"{path.relative_to(ROOT)} isn't run, or hasn't what is shown: {shown[:60]!r}", is_shown)
        if page.parent.name in WITH_EXAMPLES:
            look(page, 1, "it shows no example", len(parts) > 2)


# numbers


def count(pattern: str) -> int:
    return sum(1 for _ in ROOT.glob(pattern))


def constant(path: str, name: str) -> int:
    """A number that a source gives a name."""
    found = re.search(rf"\b{name}(?:: \w+)? = ([\d_]+)", text_of(ROOT / path))
    return int(found.group(1).replace("_", "")) if found else -1


def limit(name: str, unit: int = 1) -> int:
    return constant("crates/obj_id/src/limits.rt", name) // unit


def refusals() -> int:
    return len(re.findall(r"^    /// \d+: ", text_of(ROOT / "crates/obj_id/src/refusals.rt"), re.M))


def frames() -> int:
    lines = text_of(ROOT / "docs/rules/frames.vectors").splitlines()
    return sum(1 for line in lines if line and not line.startswith("#"))


def worked() -> int:
    return sum(count(f"crates/schedules/data/*/*.{kind}") for kind in ("schedule", "journal"))


def definitions(crate: str, name: str, found: Set[pathlib.Path]) -> Set[pathlib.Path]:
    """The files of specs/ that one stands on, itself among them."""
    path = ROOT / f"crates/{crate}/specs/{name.replace('.', '/')}.antt"
    if crate in crates() and path not in found:
        found.add(path)
        for its_crate, its_name in re.findall(r"use Rattle\.(\w+)\.specs\.((?:rules\.|laws\.)?[A-Z]\w*)", text_of(path)):
            definitions(its_crate, its_name, found)
    return found


@lru_cache(maxsize=None)
def believed() -> Set[pathlib.Path]:
    """What the headline's words stand on."""
    return definitions("world_core", "Runs", set())


def look_at_list(page: pathlib.Path, what: str, named: Set[str], due: Set[str]) -> None:
    """That these are named on the page, and no others."""
    look(page, 1, f"{what} {sorted(named - due)} too much, and {sorted(due - named)} not", named == due)


def look_at_what_is_believed() -> None:
    """That TRUST lists each of these files, and no other but those of which single lines are cited; and the types with a Model by hand."""
    page = ROOT / "docs/TRUST.md"
    part = text_of(page).split("## The definitions to read")[1].split("\n## ")[0]
    files, types = (table for table in part.split("\n\n") if table.startswith("| "))
    named = set(re.findall(r"`(?:\w+/specs/(?:rules/)?)?([A-Z]\w*)`", files)) - PARTLY_BELIEVED
    look_at_list(page, "it lists", named, {path.stem for path in believed()})
    sources = [*ROOT.glob("crates/obj_id/src/*.rt"), *ROOT.glob("crates/private_store/src/*.rt"), ROOT / "crates/world_core/src/runs.rt"]
    due = {name for path in sources for name in re.findall(r"^impl(?:<\w+>)? Model for (\w+)", text_of(path), re.M)}
    named = {name for row in types.splitlines()[2:] for name in re.findall(r"`(\w+)`", row.split(" | ")[0])}
    look_at_list(page, "it has Models of", named, due)


def lines_in(name: str) -> int:
    return len(text_of(ROOT / name).splitlines())


def minutes() -> List[int]:
    """What the rows of GATE come to: in all, and of its three columns."""
    columns = [sum(float(row[kind] or "0") for row in rows_of_gate()) for kind in (1, 2, 3)]
    return [round(one) for one in (sum(columns), *columns)]


def said_of(sentence: str) -> List[int]:
    """The numbers of a sentence of GATE."""
    found = re.search(sentence, text_of(ROOT / "docs/GATE.md"))
    return [int(number) for number in found.groups()] if found else []


LONGEST_FRONT = 80
# crates that a reader from outside meets first
WITH_EXAMPLES = {"obj_id", "plain_store", "wire_frames", "session_engine", "world_core"}
# files of which TRUST names single lines
PARTLY_BELIEVED = {"Worlds", "Admissions"}
GATE_EDITS, OTHER_EDITS = "crates/*/must-fail/*.edit", "tests/edits/*/*.edit"
# page, sentence, what its numbers have to be
NUMBERS: Sequence[Tuple[str, str, Callable[[], List[int]]]] = [
    ("docs/CONTRIBUTING.md", r"([\d,]+) more must-fail edits", lambda: [count(OTHER_EDITS)]),
    ("docs/CONTRIBUTING.md", r"([\d,]+) schedules drawn by lot", lambda: [constant("python/src/store_bench/model.py", "SCHEDULES")]),
    ("docs/CONTRIBUTING.md", r"([\d,]+) forged ones", lambda: [constant("python/src/store_bench/model.py", "FORGED")]),
    ("README.md", r"[Oo]bjects of ([\d,]+)\s+MiB, windows of ([\d,]+) MiB and ([\d,]+) copies of a job at a node, ([\d,]+) live jobs and "
     r"([\d,]+) GiB a node,\s+([\d,]+) nodes", lambda: [limit("LONGEST_OBJECT", 1 << 20), limit("WIDEST_WINDOW", 1 << 20), limit("MOST_COPIES"), limit("MOST_LIVE_JOBS"),
              limit("LARGEST_MEMORY", 1 << 30), limit("MOST_NODES")]),
    ("docs/GATE.md", r"ends in ([\d,]+) passed, 0 failed, ([\d,]+) edits refused: ([\d,]+) crates",
     lambda: [len(crates()) + count(GATE_EDITS), count(GATE_EDITS), len(crates())]),
    ("docs/GATE.md", r"\| all \| ([\d,]+) \| ([\d,]+) \| ([\d,]+) \|", lambda: minutes()[1:]),
    ("docs/GATE.md", r"it is ([\d,]+) in all \(([\d,]+) for proofs, ([\d,]+) for edits, ([\d,]+) for tests\)", lambda: minutes()),
    ("docs/CONTRIBUTING.md", r"([\d,]+) \(\[per crate\]\(GATE.md\)\)", lambda: minutes()[:1]),
    ("docs/CONTRIBUTING.md", r"some ([\d,]+) by the clock on 4 cores", lambda: said_of(r"some ([\d,]+) by the clock on four")),
    ("README.md", r"the proof from nothing \(([\d,]+) minutes on 4 cores", lambda: said_of(r"some ([\d,]+) by the clock on four")),
    ("docs/GATE.md", r"It tries ([\d,]+), of ([\d,]+) crates", lambda: [count(GATE_EDITS), count("crates/*/must-fail")]),
    ("docs/GATE.md", r"`make edits` tries the other ([\d,]+)", lambda: [count(OTHER_EDITS)]),
    ("docs/TRUST.md", r"some ([\d,]+) lines", lambda: [round(sum(len(text_of(path).splitlines()) for path in believed()), -2)]),
    ("docs/rules/README.md", r"the ([\d,]+) refusals", lambda: [refusals()]),
    ("docs/rules/refusals.md", r"There are ([\d,]+)\.", lambda: [refusals()]),
    ("crates/schedules/README.md", r"\(([\d,]+) lines, printed",
     lambda: [lines_in("crates/schedules/data/worked/many_jobs_and_neighbours.expected")]),
    ("crates/schedules/stdout", r"([\d,]+) schedules", lambda: [worked()]),
    ("crates/schedules/stdout", r"([\d,]+) frames", lambda: [frames()]),
]


def look_at_numbers() -> None:
    for name, sentence, due in NUMBERS:
        page = ROOT / name
        found = re.search(sentence, text_of(page))
        if not found:
            look(page, 1, f"it doesn't say: {sentence}", False)
            continue
        line = text_of(page)[: found.start()].count("\n") + 1
        said = [int(number.replace(",", "")) for number in found.groups()]
        look(page, line, f"it says {said}, and there are {due()}: {sentence}", said == due())
    kits = set()
    for kit_page in ("docs/CONTRIBUTING.md", "docs/TRUST.md"):
        kits.update(re.findall(r"rattle-kit-\w+ logic \w+", re.sub(r"\s+", " ", text_of(ROOT / kit_page))))
    look(ROOT / "docs/TRUST.md", 1, f"CONTRIBUTING and TRUST have to name one kit: {kits}", len(kits) == 1)


def look_at_release() -> None:
    """That one release is kept, with the checksum that stands beside it."""
    notes = sorted(ROOT.glob("dist/*.tar.gz.sha256"))
    look(ROOT / "dist", 1, f"{len(notes)} releases are kept, and one is to be", len(notes) == 1)
    for note in notes:
        digest, name = text_of(note).split()
        archive = note.with_name(name)
        there = hashlib.sha256(archive.read_bytes()).hexdigest() if archive.exists() else "no archive"
        look(note, 1, f"it has another checksum than the archive: {there}", there == digest)


def look_at_figures() -> None:
    """That each ratio beside Redis on the front page stands on the page of figures, where bench/serve --now writes both."""
    page, figures = ROOT / "README.md", ROOT / "bench/RESULTS.md"
    try:
        faults = front_faults(between(text_of(page), FRONT_BEGIN, FRONT_END), between(text_of(figures), BEGIN, END))
    except ValueError as fault:
        faults = [str(fault)]
    look(page, 1, "; ".join(faults), not faults)


def look_at_bounds() -> None:
    """Bounds that pages give, which the repository has to keep; and how long the front page may be."""
    front = ROOT / "README.md"
    look(front, 1, f"it has {lines_in('README.md')} lines, and {LONGEST_FRONT} are the most", lines_in("README.md") <= LONGEST_FRONT)
    for crate in sorted(ROOT.glob("crates/*/must-fail")):
        look(crate, 1, "more than eight edits of one crate in the gate", len(list(crate.glob("*.edit"))) <= 8)
    look(ROOT / "docs/CONTRIBUTING.md", 1, "more than 90 edits in the gate", count(GATE_EDITS) <= 90)
    page = ROOT / "docs/DECISIONS.md"
    entries = [(number, line) for number, line, _ in lines_of(page) if line.startswith("* ")]
    look(page, 1, f"{len(entries)} decisions, and 100 are the most", len(entries) <= 100)
    for number, line in entries:
        look(page, number, "a decision without an anchor", line.startswith('* <a id="'))


def main() -> int:
    for page in PAGES:
        for look_at in (look_at_links, look_at_paths, look_at_names, look_at_words):
            look_at(page)
    for look_at_all in (
        look_at_targets, look_at_scripts, look_at_map, look_at_crates, look_at_lists, look_at_costs, look_at_tested, look_at_examples,
        look_at_numbers, look_at_release, look_at_figures, look_at_bounds, look_at_what_is_believed,
    ):
        look_at_all()
    return LOOKS.end("pages")


if __name__ == "__main__":
    sys.exit(main())
