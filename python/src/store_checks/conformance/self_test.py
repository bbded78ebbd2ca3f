"""What the kit refuses: wrong clients, wrong dialogues, and files that can't be read."""

from __future__ import annotations

import json
import re
import subprocess
import sys
import tempfile
import textwrap
from typing import Any, Callable, Dict, Iterator, List, Tuple

from store_testing import ROOT

from . import across, at_server, with_client
from .dialogue import Act, Dialogue, Fault, exchanges, parse
from .with_client import Client

_HERE = ROOT / "tests/conformance"
_PUPPET = str(_HERE / "drivers/puppet")
_PAGE = _HERE / "README.md"
# seconds for a command that the page shows
_SHOWN = 300
Play = Dict[str, Any]

# texts of files that can't be read, and what is told of each
_UNREADABLE = {
    "job 1 16 0\n> 00\n< 00\n": "for whom",
    "for servers\n> 00\n< 00\n": "which jobs",
    "for servers\njob 1 16 0\n> 00\n": "no server has to do anything",
    "for servers\njob 1 16 0\n> 0\nclosed\n": "two digits",
    "for servers\njob 1 16 0\n>\nclosed\n": "no bytes",
    "for servers\njob 1 16 0\n> 00\njob 2 16 0\nclosed\n": "before what is sent",
    "for servers\njob 1 16\nclosed\n": "nothing is said by job",
    "for nobody\njob 1 16 0\nclosed\n": "nothing is said by for",
    "for servers\njob 1 16 0\nclose\n": "nothing is said by 'close'",
    "for servers\njob 1 16 0\nrepeat 2\nclosed\n": "a repeat has no end",
    "for servers\njob 1 16 0\nany order\nclosed\n": "each order ends",
    "for servers\njob 1 16 0\nend order\nclosed\n": "ends before it begins",
    "for servers\njob 1 16 0\n?> 00\nclosed\n": "needn't come",
    "for clients\njob 1 16 0\n> 00000001 12\n< 00000001 80\n": "first hello",
    "for clients\njob 1 16 0\ndo hello\n> 00000002 12\nclosed\nsaid ok\n": "frames",
    "for clients\njob 1 16 0\ndo hello\nhalf-close\nsaid ok\n": "one direction",
    "for clients\njob 1 16 0\ndo hello\nsaid ok\ndo leave\n": "each time says",
}


def right_play(dialogue: Dialogue) -> Play:
    """What a client does that this dialogue finds right. What needn't come doesn't."""
    frames = [one.command.data.hex() for one in exchanges(dialogue) if not one.command.is_optional]
    return {"connects": True, "frames": frames, "lines": dialogue.said(), "status": 0}


def wrong_plays(dialogue: Dialogue) -> Iterator[Tuple[str, Play]]:
    """What wrong clients do, and what is wrong with each."""
    right = right_play(dialogue)
    frames, lines = right["frames"], right["lines"]
    changed = bytes.fromhex(frames[-1])
    changed = changed[:-1] + bytes([changed[-1] ^ 1])
    yield "it does nothing", {"connects": False, "frames": [], "lines": [], "status": 0}
    yield "it connects, and does nothing more", {**right, "frames": [], "lines": []}
    yield "it prints what is due, and has asked nobody", {**right, "connects": False}
    yield "it prints what is due, and sends nothing", {**right, "frames": []}
    yield "it sends what is due, and prints nothing", {**right, "lines": []}
    yield "a frame is missing", {**right, "frames": frames[:-1]}
    if not any(one.closes for one in exchanges(dialogue)):
        yield "there is a frame more", {**right, "frames": [*frames, "0000000112"]}
    yield "a bit is wrong", {**right, "frames": [*frames[:-1], changed.hex()]}
    yield "a line is missing", {**right, "lines": lines[:-1]}
    yield "there is a line more", {**right, "lines": [*lines, "ok"]}
    yield "a line is wrong", {**right, "lines": [*lines[:-1], f"{lines[-1]} "]}
    yield "it ends with another status", {**right, "status": 1}


def is_refused(try_it: Callable[[], object]) -> bool:
    try:
        try_it()
    except Fault:
        return True
    return False


def play_puppet(dialogue: Dialogue, play: Play) -> None:
    with tempfile.NamedTemporaryFile("w", encoding="ascii") as file:
        json.dump(play, file)
        file.flush()
        with_client.play(dialogue, Client("puppet", [sys.executable, "-S", "-B", _PUPPET, file.name], []))


def clients(dialogues: List[Dialogue]) -> List[str]:
    """Plays right and wrong clients; the wrong ones that are accepted, and the right ones that are refused."""
    faults = []
    for dialogue in [one for one in dialogues if one.is_for_clients]:
        if is_refused(lambda: play_puppet(dialogue, right_play(dialogue))):
            faults.append(f"{dialogue.name}: a right client is refused")
        for what, play in wrong_plays(dialogue):
            if not is_refused(lambda: play_puppet(dialogue, play)):
                faults.append(f"{dialogue.name}: a client is accepted though {what}")
    return faults


def wrong_dialogues(dialogue: Dialogue) -> Iterator[Tuple[str, Dialogue]]:
    """The dialogue with a wrong last answer, without it, and with an end that doesn't come."""
    steps = dialogue.steps
    places = [place for place, step in enumerate(steps) if step.act is Act.ANSWERS]
    if places:
        last = places[-1]
        data = steps[last].data
        changed = steps[last]._replace(data=data[:-1] + bytes([data[-1] ^ 1]))
        yield "its last answer is wrong", dialogue._replace(steps=(*steps[:last], changed, *steps[last + 1 :]))
        yield "its last answer is missing", dialogue._replace(steps=(*steps[:last], *steps[last + 1 :]))
    if steps[-1].act is Act.ANSWERS:
        longer = steps[-1]._replace(data=steps[-1].data + b"\0")
        # the client closes its half, so that the server can't be waited for
        half_close = steps[-1]._replace(act=Act.HALF_CLOSES)
        yield "its last answer is longer", dialogue._replace(steps=(*steps[:-1], half_close, longer))


def servers(dialogues: List[Dialogue], words: List[str]) -> List[str]:
    """Plays wrong dialogues at the server; those that are accepted."""
    faults = []
    for dialogue in [one for one in dialogues if one.is_for_servers]:
        for what, wrong in wrong_dialogues(dialogue):
            if not is_refused(lambda: at_server.play(wrong, words)):
                faults.append(f"{dialogue.name}: it is accepted though {what}")
    return faults


def files() -> List[str]:
    """Reads files that can't be read; those that are, or of which something else is told."""
    faults = []
    for text, due in _UNREADABLE.items():
        try:
            parse("unreadable", text)
            told = "nothing"
        except Fault as fault:
            told = str(fault)
        if due not in told:
            faults.append(f"of {text!r} {told!r} is told, and {due!r} is due")
    return faults


def page(dialogues: List[Dialogue]) -> List[str]:
    """What of README.md isn't so: the dialogue that it shows, the operations in its table, and the commands with what they print."""
    text = _PAGE.read_text(encoding="utf-8")
    shown = [textwrap.dedent(one) for one in re.findall(r"\n\n((?:    [^\n]*\n|\n(?=    ))+)", text)]
    faults = []
    if (_HERE / "dialogues/absent.dialogue").read_text(encoding="utf-8") not in shown:
        faults.append("it doesn't show the dialogue absent as it is")
    table = text.partition("| It reads | It does |")[2].partition("\n\n")[0]
    listed = {word for row in re.findall(r"^\| `[a-z][^|]*\|", table, re.MULTILINE) for word in re.findall(r"`([a-z]+)", row)}
    asked = {line.split()[0] for one in dialogues if one.is_for_clients for line in one.asked()} | across.ASKED
    if listed != asked:
        faults.append(f"of {sorted(listed ^ asked)} either it alone has a row, or the dialogues alone ask")
    for command, due in re.findall(r"^\$ (.*)\n((?:[^$\n].*\n)+)", "".join(shown), re.MULTILINE):
        done = subprocess.run(
            ["bash", "-c", command], cwd=ROOT, stdin=subprocess.DEVNULL, capture_output=True, text=True, check=False,
            timeout=_SHOWN,
        )
        if done.stdout != due or done.returncode:
            faults.append(f"{command} printed {done.stdout!r} with status {done.returncode}, and {due!r} is due")
    return faults


def counted() -> int:
    """How many files are tried that can't be read."""
    return len(_UNREADABLE)
