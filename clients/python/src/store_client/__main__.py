"""The command line: store-client COMMAND .., or python3 -m store_client COMMAND .."""

from __future__ import annotations

import argparse
import os
import sys
import time
from typing import Callable, Optional, Sequence, TypeVar, Union

from . import Connection, ObjectId, Refused, State, StoreError, Task, Usage, __version__, connect
from .checks import LAST_NUMBER, key_bytes, seconds, whole_number
from .encoding import decode_array
from .putting import Progress
from .requests import Pieces
from .steps import GRACE

T = TypeVar("T")
# adds a command: its word, what runs it, and what it does
_Adding = Callable[[str, Callable[[Connection, argparse.Namespace], None], str], argparse.ArgumentParser]

# from which length on it is shown how far a transfer is, and the length of the bar
_LONG, _BAR = 1 << 26, 40
# how long a server may be silent if the command has no timeout, in seconds
_SILENCE = 60.0

_ABOUT = """\
Puts, gets and lists objects of a running store. The key is 64 hexadecimal digits. --key stands in the list of processes for
all users to see: give it in a file, by --key-file, or in the environment, as STORE_KEY. STORE_SOCKET and STORE_JOB are read, too."""


def _progress(what: str) -> Optional[Progress]:
    """Shows how far a long transfer is, if the error stream is a terminal."""
    if not sys.stderr.isatty():
        return None

    def show(moved: int, whole: int) -> None:
        if whole >= _LONG:
            bar = "#" * (_BAR * moved // whole)
            end = "\n" if moved == whole else ""
            print(f"\r{what}: [{bar:{_BAR}}] {100 * moved // whole} % of {whole >> 20} MiB", end=end, file=sys.stderr, flush=True)

    return show


def _usage_line(usage: Usage) -> str:
    return (
        f"window {usage.window_used}/{usage.window}, device {usage.device_used}/{usage.device}, "
        f"copies {usage.copies}, works {usage.works}"
    )


def _id(store: Connection, words: argparse.Namespace) -> ObjectId:
    return ObjectId.parse(words.id, store.job)


def _write(data: Union[bytes, memoryview]) -> None:
    """Writes all of it to the standard output. What Python has there may be unbuffered, and then writes a part and says nothing."""
    with open(sys.stdout.fileno(), "wb", closefd=False) as output:
        output.write(data)


def put(store: Connection, words: argparse.Namespace) -> None:
    if words.file == "-":
        data = sys.stdin.buffer.read()
    else:
        with open(words.file, "rb") as file:
            data = file.read()
    if words.array:
        decode_array(memoryview(data), words.file)
    id = _id(store, words) if words.id else None
    print(store._put_pieces(Pieces([memoryview(data)]), id, words.timeout, _progress("put")).text(store.job))


def get(store: Connection, words: argparse.Namespace) -> None:
    data = store._get_whole(_id(store, words), words.timeout, None, progress=_progress("get"))
    if words.array:
        decode_array(data, words.id)
    _write(data)


def peek(store: Connection, words: argparse.Namespace) -> None:
    _write(store.peek(_id(store, words), words.offset, words.count))


def delete(store: Connection, words: argparse.Namespace) -> None:
    """With its parts, if it is here and has some."""
    id = _id(store, words)
    if store.contains(id):
        try:
            return store.delete_value(id)
        except Refused:
            # it can't be read
            pass
    store.delete(id)


def grant(store: Connection, words: argparse.Namespace) -> None:
    id = _id(store, words)
    (store.grant_value if store.contains(id) else store.grant)(id, words.grantee)


def withdraw(store: Connection, words: argparse.Namespace) -> None:
    id = _id(store, words)
    (store.withdraw_value if store.contains(id) else store.withdraw)(id, words.grantee)


def end_task(store: Connection, words: argparse.Namespace) -> None:
    store.end_task(Task.parse(words.task))


def list_all(store: Connection, words: argparse.Namespace) -> None:
    own, granted = store.list()
    for item in own:
        if item.state is State.CREATED or not words.created:
            print(f"{item.id.text(store.job)} {item.state.name.lower()} {item.kind.name.lower()} {item.length}")
    for given in [] if words.created else granted:
        print(f"{given.id.text(store.job)} granted {given.length} depth {given.depth}")


def usage(store: Connection, words: argparse.Namespace) -> None:
    print(_usage_line(store.usage()))


def watch(store: Connection, words: argparse.Namespace) -> None:
    """A line whenever the usage has changed, until it is interrupted."""
    last: Optional[Usage] = None
    while True:
        now = store.usage()
        if now != last:
            print(_usage_line(now), flush=True)
            last = now
        time.sleep(words.every)


def _number(what: str, least: int = 0) -> Callable[[str], int]:
    """Reads a number in its range."""

    def read(text: str) -> int:
        try:
            number = int(text)
        except ValueError:
            raise argparse.ArgumentTypeError(f"{what} is a whole number, not {text!r}") from None
        try:
            return whole_number(number, what, least, LAST_NUMBER)
        except ValueError as error:
            raise argparse.ArgumentTypeError(str(error)) from None

    return read


_job = _number("a job", 1)


def _seconds(text: str) -> float:
    try:
        return seconds(float(text)) or 0.0
    except ValueError as error:
        raise argparse.ArgumentTypeError(str(error)) from None


def _key(text: str) -> bytes:
    try:
        return key_bytes(bytes.fromhex(text.strip()))
    except ValueError:
        # what was given isn't repeated: it may be most of a key
        raise argparse.ArgumentTypeError("a key is 64 hexadecimal digits") from None


def _key_file(path: str) -> bytes:
    try:
        with open(path, encoding="ascii") as file:
            return _key(file.read())
    except (OSError, UnicodeDecodeError) as error:
        raise argparse.ArgumentTypeError(f"{path}: {getattr(error, 'strerror', None) or 'no text of a key'}") from None


def arguments() -> argparse.ArgumentParser:
    """What the command line may say."""
    parser = _connecting()
    commands = parser.add_subparsers(required=True, metavar="COMMAND")

    def command(word: str, run: Callable[[Connection, argparse.Namespace], None], help: str) -> argparse.ArgumentParser:
        added = commands.add_parser(word, help=help, description=f"{help[0].upper()}{help[1:]}.")
        added.set_defaults(run=run)
        return added

    _add_objects(command)
    _add_grants(command)
    _add_lists(command)
    return parser


def _connecting() -> argparse.ArgumentParser:
    """Where the store is, and who speaks."""
    parser = argparse.ArgumentParser(prog="store-client", description=_ABOUT)
    parser.add_argument("--version", action="version", version=f"%(prog)s {__version__}")
    parser.add_argument("--socket", help="the socket of a node, PATH.0 for the first")
    parser.add_argument("--job", type=_job, help="the job's number")
    keys = parser.add_mutually_exclusive_group()
    keys.add_argument("--key", type=_key, help="the job's key")
    keys.add_argument("--key-file", type=_key_file, metavar="FILE", help="a file with the job's key")
    return parser


def _known(parser: argparse.ArgumentParser, given: Optional[T], option: str, name: str, read: Callable[[str], T]) -> T:
    """What the command line gives, or otherwise the environment, in which nothing is as if it weren't there."""
    if given is not None:
        return given
    text = os.environ.get(name)
    if not text:
        parser.error(f"{option} is needed, or {name} in the environment")
    try:
        return read(text)
    except argparse.ArgumentTypeError as error:
        parser.error(f"{name} in the environment: {error}")


def _add_objects(command: _Adding) -> None:
    added = command("put", put, "stores a file's bytes, and prints the object's id; more than 16 MiB, or than the window, go in parts")
    added.add_argument("file", help="the file's path; - reads the standard input")
    added.add_argument("--id", help="tN.I as t1.1, or 56 hexadecimal digits; a new one otherwise")
    added.add_argument("--timeout", type=_seconds, help="waits at most so many seconds for room; without end otherwise")
    added.add_argument("--array", action="store_true", help="only if it is an array in numpy's format .npy, without Python objects")
    added = command("get", get, "writes an object's bytes, with those of its parts, to the standard output; also of one that was granted")
    added.add_argument("id", help="tN.I as t1.1, or J/tN.I as 2/t1.1 for an object of job J")
    added.add_argument(
        "--timeout", type=_seconds, help="waits at most so many seconds until somebody has put the object; otherwise it has to be there"
    )
    added.add_argument("--array", action="store_true", help="only if it is an array, which is written in numpy's format .npy")
    added = command("delete", delete, "removes an object, with its parts, once nobody holds it")
    added.add_argument("id", help="tN.I as t1.1, or 56 hexadecimal digits")
    added = command("end-task", end_task, "removes all objects of a task once nobody holds them")
    added.add_argument("task", help="tN or 40 hexadecimal digits")


def _add_grants(command: _Adding) -> None:
    added = command("peek", peek, "writes some bytes of an object that another job granted")
    added.add_argument("id", help="J/tN.I")
    added.add_argument("offset", type=_number("an offset"), help="the first byte's, from 0")
    added.add_argument("count", type=_number("a number of bytes"), help="at most 65536")
    added = command("grant", grant, "lets another job get an object, with its parts")
    added.add_argument("id", help="tN.I as t1.1, or J/tN.I for one that job J granted")
    added.add_argument("grantee", metavar="job", type=_number("a job"), help="the other job's number")
    added = command("withdraw", withdraw, "ends a grant")
    added.add_argument("id", help="tN.I as t1.1, or J/tN.I for one that job J granted")
    added.add_argument("grantee", metavar="job", type=_number("a job"), help="the other job's number")


def _add_lists(command: _Adding) -> None:
    added = command("list", list_all, "shows the job's copies at the node, and what others granted")
    added.add_argument("--created", action="store_true", help="only copies that are still being written, or were left so")
    command("usage", usage, "shows what the job uses of its quotas")
    added = command("watch", watch, "shows usage again whenever it has changed")
    added.add_argument("--every", type=_seconds, default=0.5, help="how often it looks, in seconds")


def _patience(words: argparse.Namespace) -> float:
    """How long the server may be silent: as long as the command may take, at least a second."""
    given: Optional[float] = getattr(words, "timeout", None)
    return _SILENCE if given is None else max(given, GRACE)


def main(words: Optional[Sequence[str]] = None) -> int:
    """Runs a command line. 0, or 1 after a fault or a refusal, which is told, or 130 if it is interrupted."""
    parser = arguments()
    chosen = parser.parse_args(words)
    socket = _known(parser, chosen.socket, "--socket", "STORE_SOCKET", str)
    job = _known(parser, chosen.job, "--job", "STORE_JOB", _job)
    key = _known(parser, chosen.key_file or chosen.key, "--key-file", "STORE_KEY", _key)
    try:
        with connect(socket, job, key, _patience(chosen)) as store:
            chosen.run(store, chosen)
    except (StoreError, OSError, ValueError, ImportError) as error:
        print(f"store-client: {error}", file=sys.stderr)
        return 1
    except KeyboardInterrupt:
        return 130
    return 0


if __name__ == "__main__":
    sys.exit(main())
