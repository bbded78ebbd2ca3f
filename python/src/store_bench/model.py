"""Compares the program that operate/program finds with a plain model of it, on schedules that are drawn by lot.

The model (store_model) is written from the rules alone: one private store for each job at each node, told of grants
and messages, with no table that jobs share. Each schedule comes from a seed of its own: 1 to 3 nodes, several jobs and
sessions, all commands, windows so small that copies are evicted and spilled, devices that fail, damage or answer
late, messages that are lost, repeated, damaged and out of order, grants to depth 3, and ends of tasks and jobs; some
take a job to one of its limits. Of each schedule the output, the fault's text and the status are compared. Of those
that differ the seed and the first differing line are printed, and the status is then 1.

The model keeps the journal of each schedule too. `store run --journal` has to save the very same text, and `store replay` to find
every line of it right; and once one of its answers, drawn by lot, is changed, it has to name that very line, with what it had
and what it should be.

Then come forged journals: a schedule's journal with lines that no run would have saved, as words that don't fit their entry, quotas
out of range, answers that nobody waits for, grants that nobody gave, numbers out of order, a line cut, or the form of another
version. `store replay` has to say of each what the model says: that all is due, the first answer that isn't, or the first line that is
no entry.

Before all that the model has to answer the worked schedules of crates/schedules as they were written down, and the program to save
a journal as long as one may be, and to say of one with a line more that it was folded.
"""

import argparse
import random
import subprocess
import sys
import tempfile
from collections import Counter
from pathlib import Path
from typing import Collection, List, NamedTuple, Optional, Tuple

from store_model.drawing import WEIGHTS, Tally, draw
from store_model.forging import forge
from store_model.replay import replayed
from store_model.schedule import DEFAULT_MEMORY, Transcript, run, run_in
from store_model.worked import read_worked
from store_model.world import World
from store_testing import ROOT
from store_testing.program import program_or_end

WORKED = ROOT / "crates/schedules/data"
SCHEDULES = 2000
FORGED = 1000
# that a list of a journal may have
MOST_ENTRIES = 65536
# seconds that a schedule may take
PATIENCE = 60


class Case(NamedTuple):
    """A schedule and how it is run."""

    text: str
    nodes: int = 1
    memory: int = DEFAULT_MEMORY
    # whether the program is to save its journal
    saves: bool = False

    def words(self) -> List[str]:
        return ["run", "--nodes", str(self.nodes), "--memory", str(self.memory)]

    def expected(self) -> Transcript:
        return run(self.text, self.nodes, self.memory)


def printed(program: Path, case: Case) -> Tuple[str, str, int]:
    """What the program prints, the fault that it tells, and its status."""
    return told_by(program, case.words(), case.text)


def told_by(program: Path, words: List[str], given: str = "") -> Tuple[str, str, int]:
    """The same of any words and input."""
    try:
        done = subprocess.run(
            [str(program), *words], input=given.encode("latin-1"), capture_output=True, timeout=PATIENCE, check=False
        )
    except subprocess.TimeoutExpired:
        return "", f"no end after {PATIENCE} seconds\n", -1
    return done.stdout.decode("latin-1"), done.stderr.decode("latin-1"), done.returncode


def difference(program: Path, case: Case, expected: Transcript) -> Optional[str]:
    """The first differing line of a schedule, with what was asked, if there is one."""
    output, fault, status = printed(program, case)
    if (output, fault, status) == (expected.output, expected.error, expected.status):
        return None
    asked = [line for line in case.text.splitlines() if line and not line.startswith("#")]
    had = output.splitlines()
    for number in range(max(len(had), len(expected.lines))):
        program_line, model_line = line_at(had, number), line_at(expected.lines, number)
        if program_line != model_line:
            told = f", and {fault.strip()!r}" if fault else ""
            return f"step {number + 1}, {line_at(asked, number)!r}: {program_line!r}{told} in place of {model_line!r}"
    return f"status {status} and {fault!r} in place of {expected.status} and {expected.error!r}"


def line_at(lines: List[str], number: int) -> str:
    return lines[number] if number < len(lines) else "(nothing)"


def shortened(program: Path, case: Case) -> Case:
    """The schedule without lines that the difference doesn't need."""
    lines = case.text.splitlines(keepends=True)
    size = len(lines) // 2
    while size > 0:
        start = 0
        while start < len(lines):
            fewer = lines[:start] + lines[start + size :]
            tried = case._replace(text="".join(fewer))
            if difference(program, tried, tried.expected()):
                lines = fewer
            else:
                start += size
        size //= 2
    return case._replace(text="".join(lines))


def keep(folder: Path, name: str, program: Path, case: Case) -> None:
    """Writes the schedule, the words that run it, what the model says and what the program says."""
    folder.mkdir(parents=True, exist_ok=True)
    expected = case.expected()
    output, fault, _ = printed(program, case)
    (folder / f"{name}.schedule").write_text(case.text, encoding="latin-1")
    (folder / f"{name}.args").write_text("".join(word + "\n" for word in case.words()))
    (folder / f"{name}.model").write_text(expected.output + expected.error)
    (folder / f"{name}.program").write_text(output + fault, encoding="latin-1")


def run_and_save(program: Path, case: Case) -> Tuple[Tuple[str, str, int], Optional[str]]:
    """What the program prints, the fault that it tells, its status, and the journal that it saves, if it saves one."""
    with tempfile.TemporaryDirectory() as folder:
        path = Path(folder) / "journal"
        told = told_by(program, [*case.words(), "--journal", str(path)], case.text)
        return told, path.read_text(encoding="ascii") if path.exists() else None


def saved_fault(program: Path, case: Case, journal: str) -> Optional[str]:
    """The first line of the journal that the program saves of a schedule which isn't the model's, if there is one."""
    (_, fault, status), saved = run_and_save(program, case)
    if saved is None or status != 0:
        return f"nothing saved, status {status} and {fault!r}"
    had, due = saved.splitlines(), journal.splitlines()
    for number in range(max(len(had), len(due))):
        if line_at(had, number) != line_at(due, number):
            return f"saved line {number + 1}: {line_at(had, number)!r} in place of {line_at(due, number)!r}"
    return None


def full_list_fault(program: Path) -> Optional[str]:
    """What the program does with a list of as many entries as there may be, and of one more, if it isn't as it should be."""
    for entries in (MOST_ENTRIES, MOST_ENTRIES + 1):
        case = Case("admit 0 1 64 0\n" + "cmd 0 1 1 usage\n" * (entries - 1))
        (output, *ending), saved = run_and_save(program, case)
        if output != case.expected().output:
            return f"{entries} entries are answered otherwise"
        if ending != (["", 0] if entries == MOST_ENTRIES else ["store: journal folded\n", 1]):
            return f"{entries} entries end with {ending}"
        if (saved is None) != (entries > MOST_ENTRIES):
            return f"of {entries} entries a journal is {'not ' if saved is None else ''}saved"
        found = None if saved is None else replay_difference(program, saved.splitlines(), f"replayed {entries}\n", 0)
        if found is not None:
            return found
    return None


def replay_fault(program: Path, journal: str, lot: random.Random) -> Optional[str]:
    """What the program says of a right journal, or of the same with one answer changed, if it isn't what it should be."""
    lines = journal.splitlines()
    found = replay_difference(program, lines, f"replayed {len(lines) - 1}\n", 0)
    if found is not None or len(lines) == 1:
        return found
    at = lot.randrange(1, len(lines))
    said, _, answer = lines[at].partition(" = ")
    wrong = "refused 4 Absent" if answer == "ok" else "ok"
    node, job, number = said.split(" ")[:3]
    lines[at] = f"{said} = {wrong}"
    due = f"entry {number} of {job} at {node}: had {wrong}, should be {answer}\n"
    return replay_difference(program, lines, due, 1)


def replay_difference(program: Path, lines: List[str], due: str, status: int) -> Optional[str]:
    """What a replay of these lines says, if it isn't this."""
    told = replay_of(program, "".join(line + "\n" for line in lines))
    return None if told == (due, "", status) else f"{told} in place of {(due, '', status)}"


def replay_of(program: Path, journal: str) -> Tuple[str, str, int]:
    """What the program says of a journal, whose characters are bytes."""
    with tempfile.NamedTemporaryFile("w", suffix=".journal", encoding="latin-1", newline="") as file:
        file.write(journal)
        file.flush()
        return told_by(program, ["replay", file.name])


def compare_forged(asked: argparse.Namespace) -> int:
    """How many forged journals are answered otherwise than by the model. Prints how many met each kind of answer."""
    differing = 0
    kinds: Counter[str] = Counter()
    for seed in range(asked.seed, asked.seed + asked.forged):
        journal = forge(seed)
        due = replayed(journal)
        kinds[(due[0] or due[1]).split(" ")[0]] += 1
        got = replay_of(asked.store, journal)
        if got == due:
            continue
        differing += 1
        print(f"seed {seed}, a forged journal: {got} in place of {due}", flush=True)
        if asked.keep:
            asked.keep.mkdir(parents=True, exist_ok=True)
            (asked.keep / f"{seed}.journal").write_bytes(journal.encode("latin-1"))
    right, wrong, none = (kinds[word] for word in ("replayed", "entry", "store:"))
    told = f"{right} right, {wrong} with a wrong answer, {none} with a line that is no entry"
    print(f"{asked.forged} forged journals ({told}), {differing} differ")
    return differing


def compare_drawn(asked: argparse.Namespace, tally: Tally) -> Tuple[int, int]:
    """How many of the drawn schedules differ, and of how many the journal isn't saved and replayed as it should be."""
    differing, not_replayed = 0, 0
    for seed in range(asked.seed, asked.seed + asked.schedules):
        drawn = draw(seed, asked.without, tally)
        case = Case("".join(line + "\n" for line in drawn.lines), drawn.nodes, drawn.memory)
        found = saved_fault(asked.store, case, drawn.journal)
        if found is None:
            found = replay_fault(asked.store, drawn.journal, random.Random(seed))
        if found is not None:
            not_replayed += 1
            print(f"seed {seed}, the journal: {found}", flush=True)
        found = difference(asked.store, case, Transcript(drawn.answers, None))
        if found is None:
            continue
        differing += 1
        print(f"seed {seed}: {found}", flush=True)
        if asked.keep:
            keep(asked.keep, str(seed), asked.store, shortened(asked.store, case) if asked.shorten else case)
    return differing, not_replayed


def read_case(schedule: Path) -> Optional[Case]:
    """A worked schedule, if its command line is one that runs a schedule."""
    args = schedule.with_suffix(".args")
    words = args.read_text().splitlines() if args.exists() else ["run"]
    options = dict(zip(words[1::2], words[2::2]))
    saves = options.pop("--journal", None) is not None
    nodes, memory = int(options.pop("--nodes", 1)), int(options.pop("--memory", DEFAULT_MEMORY))
    if words[:1] != ["run"] or len(words) % 2 == 0 or options or nodes > 8:
        return None
    return Case(read_worked(schedule), nodes, memory, saves)


def saved_or_folded(journal: str) -> str:
    """What comes of a journal that is asked for: its text, or the fault if a job's list at a node was folded."""
    lists = Counter(tuple(line.split(" ", 2)[:2]) for line in journal.splitlines()[1:])
    return "store: journal folded\nstatus 1\n" if max(lists.values(), default=0) > MOST_ENTRIES else journal


def compare_worked() -> Tuple[int, int]:
    """How many worked schedules the model was tried on, and how many it answers otherwise than was written down."""
    tried, differing = 0, 0
    for schedule in sorted(WORKED.glob("*/*.schedule")):
        case = read_case(schedule)
        if case is None:
            continue
        world = World(case.nodes, case.memory)
        transcript = run_in(world, case.text)
        told = saved_or_folded(world.journal.text) if case.saves and not transcript.fault else ""
        told += f"{transcript.error}status {transcript.status}\n" if transcript.fault else ""
        is_same = transcript.output + told == read_worked(schedule.with_suffix(".expected"))
        tried, differing = tried + 1, differing + (not is_same)
        if not is_same:
            print(f"worked schedule {schedule.stem}: the model answers otherwise")
    return tried, differing


def print_tally(tally: Tally) -> None:
    """How often each word met each answer, and how much of the commands was accepted."""
    words = sorted({word for word, _ in tally})
    for word in words:
        answers = [(count, kind) for (told, kind), count in tally.items() if told == word]
        told = ", ".join(f"{kind} {count}" for count, kind in sorted(answers, reverse=True))
        print(f"  {word:24} {told}")
    commands = [(count, kind) for (word, kind), count in tally.items() if word in WEIGHTS]
    accepted = sum(count for count, kind in commands if not kind[0].isdigit())
    print(f"  {accepted} of {sum(count for count, _ in commands)} commands were accepted")


def read_words(text: str) -> Collection[str]:
    words = text.split(",")
    for word in words:
        if word not in WEIGHTS:
            raise argparse.ArgumentTypeError(f"no command {word!r}")
    return words


def read_options() -> argparse.Namespace:
    options = argparse.ArgumentParser(description=__doc__, formatter_class=argparse.RawDescriptionHelpFormatter)
    options.add_argument("--schedules", type=int, default=SCHEDULES, help=f"how many are drawn (default {SCHEDULES})")
    options.add_argument("--forged", type=int, default=FORGED, help=f"how many journals are forged (default {FORGED})")
    options.add_argument("--seed", type=int, default=1, help="of the first one; the others follow (default 1)")
    options.add_argument("--store", type=Path, help="the program (default: the one that operate/program finds)")
    options.add_argument("--keep", type=Path, metavar="DIR", help="write the schedules and forged journals that differ into this folder")
    options.add_argument("--shorten", action="store_true", help="leave out of them what the difference doesn't need")
    options.add_argument("--tally", action="store_true", help="print how often each line met each answer")
    options.add_argument("--without", type=read_words, default=(), metavar="WORD,..", help="draw none of these commands")
    return options.parse_args()


def main() -> int:
    asked = read_options()
    asked.store = asked.store or Path(program_or_end())
    tried, otherwise = compare_worked()
    print(f"{tried} worked schedules, the model differs in {otherwise}")
    folding = full_list_fault(asked.store)
    if folding is not None:
        print(f"a full list: {folding}", flush=True)
    tally: Tally = Counter()
    differing, not_replayed = compare_drawn(asked, tally)
    if asked.tally:
        print_tally(tally)
    print(f"{asked.schedules} schedules, {differing} differ; {asked.schedules} journals, {not_replayed} not saved and replayed as due")
    forged = compare_forged(asked)
    return 1 if differing or not_replayed or forged or otherwise or folding is not None else 0


if __name__ == "__main__":
    sys.exit(main())
