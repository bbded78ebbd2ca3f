"""The client in C, compiled with all warnings and the sanitizers, at a running server and at scripts that stand in for one."""

from __future__ import annotations

import contextlib
import os
import re
import shutil
import socket
import subprocess
import sys
import tempfile
import threading
import time
import unittest
from pathlib import Path
from typing import TYPE_CHECKING, Dict, Iterator, List, NamedTuple, Optional, Tuple, Union

from support import PATIENCE, ROOT, Server, documented, documented_answers, documented_refusals, key

from store_client.frames import LARGEST, LONGEST_REPLY, Command, Reply, frame, numbers

FOLDER = ROOT / "clients/c"
CLIENT = FOLDER / "store_client.c"
DRIVER = ROOT / "tests/conformance/drivers/c/driver.c"
LOAD = ROOT / "bench/load.c"
HEADER, PAGE = FOLDER / "store_client.h", FOLDER / "README.md"
WARNINGS = "-Wall -Wextra -Wconversion -Werror".split()
SANITIZERS = "-fsanitize=address,undefined -fno-sanitize-recover=all".split()
# the milliseconds of a call that isn't answered, and those of one that is
SHORT, LONG = 300, 1000 * PATIENCE
# what a call that ends in time takes less than, on a machine that does much else: the scripts go on for longer
MUCH = SHORT + 4000
SILENT, LOST, NO_REPLY = "the server is silent", "the connection is lost", "what came is no reply"

ID = bytes(19) + b"\1" + numbers(1, 1)
OK = frame(Reply.OK)
PLACED = frame(Reply.PLACED, numbers(0, 16))
GOT = frame(Reply.GOT, numbers(5))
HELLO = frame(Reply.BYTES, b"Hello")
USED = frame(Reply.USAGE, bytes(48))
NOTHING = frame(Reply.LIST, numbers(0, 0))


def refused(number: int) -> bytes:
    return frame(Reply.REFUSED, bytes([number]))


EXISTS, ABSENT, NOT_SEALED, FULL, PENDING, NOT_HELD, BUSY, NO_MEMORY, MALFORMED = map(refused, (3, 4, 5, 9, 10, 11, 16, 19, 20))


def listed(state: int, length: int = 5) -> bytes:
    return frame(Reply.LIST, numbers(1) + ID + bytes([state, 0]) + numbers(length, 0))


# a number of frames that are taken, bytes that are sent, a pause in seconds, or what each frame of a kind is answered from then on
Act = Union[int, bytes, float, Dict[int, bytes], str]
# or that something has come, which isn't taken
SOMETHING = "something"


class Play:
    """Stands in for a server: takes one session, does what it is told, and keeps the frames that it is sent. The first is a Hello."""

    def __init__(self, acts: List[Act], hang: bool) -> None:
        self.folder = tempfile.TemporaryDirectory()
        self.path = f"{self.folder.name}/socket"
        self.frames: List[bytes] = []
        self._hang = hang
        self._over = threading.Event()
        self._listener = socket.socket(socket.AF_UNIX)
        self._listener.settimeout(PATIENCE)
        self._listener.bind(self.path)
        self._listener.listen()
        self._thread = threading.Thread(target=self._run, args=(acts,))
        self._thread.start()

    def _run(self, acts: List[Act]) -> None:
        # a client that gives up closes
        with self._listener, self._listener.accept()[0] as stream, contextlib.suppress(OSError):
            stream.settimeout(PATIENCE)
            for act in acts:
                self._do(stream, act)
            if self._hang:
                self._over.wait(PATIENCE)

    def _do(self, stream: socket.socket, act: Act) -> None:
        if isinstance(act, bytes):
            stream.sendall(act)
        elif isinstance(act, float):
            self._over.wait(act)
        elif act == SOMETHING:
            stream.recv(1, socket.MSG_PEEK)
        elif isinstance(act, dict):
            while self._take(stream):
                stream.sendall(act[self.frames[-1][4]])
        elif isinstance(act, int):
            for _ in range(act):
                self._take(stream)

    def _take(self, stream: socket.socket) -> bool:
        start = received(stream, 4)
        if start:
            self.frames.append(start + received(stream, int.from_bytes(start, "big")))
        return bool(start)

    def end(self) -> None:
        self._over.set()
        self._thread.join()
        self.folder.cleanup()

    @property
    def kinds(self) -> List[Command]:
        """Of the frames after the Hello."""
        return [Command(one[4]) for one in self.frames[1:]]


def received(stream: socket.socket, count: int) -> bytes:
    """So many bytes, or those before the end."""
    came = b""
    while len(came) < count:
        piece = stream.recv(count - len(came))
        if not piece:
            break
        came += piece
    return came


class Told(NamedTuple):
    """What probe.c tells of a call."""

    call: str
    milliseconds: int
    sends: int
    memory: int
    result: str


def said(words: List[str], place: Optional[Dict[str, str]] = None, asked: str = "") -> subprocess.CompletedProcess[str]:
    return subprocess.run(words, env=place, input=asked, capture_output=True, text=True, check=False, timeout=PATIENCE)


def sanitizers_of(compiler: str, folder: Path) -> List[str]:
    """Those that work here; none, which is said, if they don't."""
    source = folder / "empty.c"
    source.write_text("int main(void)\n{\n    return 0;\n}\n", encoding="ascii")
    if said([compiler, *SANITIZERS, str(source), "-o", str(folder / "empty")]).returncode or said([str(folder / "empty")]).returncode:
        print(f"left out: the sanitizers of {compiler}, which don't work here", file=sys.stderr)
        return []
    return SANITIZERS


# what the tests below are for each compiler; by themselves they are none, or unittest would run them without one
if TYPE_CHECKING:
    Tests = unittest.TestCase
else:
    Tests = object


class Compiled(Tests):
    """What each compiler makes of the client is tested alike."""

    compiler: str
    folder: Path
    flags: List[str]

    @classmethod
    def setUpClass(cls) -> None:
        folder = tempfile.TemporaryDirectory()
        cls.addClassCleanup(folder.cleanup)
        cls.folder = Path(folder.name)
        cls.flags = ["-O1", "-g", *WARNINGS, *sanitizers_of(cls.compiler, cls.folder), f"-I{FOLDER}"]
        cls.compile("probe", FOLDER / "probe.c")

    @classmethod
    def compile(cls, name: str, *sources: Path, standard: str = "gnu11") -> str:
        program = str(cls.folder / name)
        done = said([cls.compiler, f"-std={standard}", *cls.flags, "-o", program, *map(str, sources)])
        if done.returncode or done.stderr:
            raise AssertionError(done.stderr)
        return program

    # ---- probes

    def probed(self, path: str, limit: int, *calls: str) -> List[Told]:
        """What comes of connecting and of the calls."""
        done = said([str(self.folder / "probe"), path, str(limit), *calls])
        self.assertEqual((done.returncode, done.stderr), (0, ""))
        lines = [line.split(" ", 4) for line in done.stdout.splitlines()]
        told = [Told(call, int(milliseconds), int(sends), int(memory), result) for call, milliseconds, sends, memory, result in lines]
        self.assertEqual([one.call for one in told], ["connect", *calls])
        return told

    def played(self, acts: List[Act], *calls: str, limit: int = LONG, hang: bool = False) -> Tuple[List[Told], Play]:
        """What comes of the calls at a server that does so, once the client has entered."""
        play = Play([1, OK, *acts], hang)
        try:
            return self.probed(play.path, limit, *calls)[1:], play
        finally:
            play.end()

    def tells(self, acts: List[Act], call: str, result: str, *kinds: Command) -> Told:
        """The call has this result, and has sent these commands if they are named; what probe.c tells of it."""
        told, play = self.played(acts, call)
        self.assertEqual(told[0].result, result, acts)
        if kinds:
            self.assertEqual(play.kinds, list(kinds))
        return told[0]


class Cases(Compiled):
    """The tests, once for each compiler."""

    # ---- a running server

    def test_sessions(self) -> None:
        for standard in ("c99", "gnu17"):
            program = self.compile("test", CLIENT, FOLDER / "test.c", standard=standard)
            server = Server(nodes=2)
            self.addCleanup(server.close)
            done = said([program, server.path, f"{server.folder.name}/store.1"])
            self.assertEqual((done.returncode, done.stdout, done.stderr), (0, "", ""), standard)

    def at_server(self, program: str) -> str:
        """What a program prints that finds a server of its own in its environment."""
        server = Server()
        self.addCleanup(server.close)
        place = {**os.environ, "STORE_SOCKET": server.path, "STORE_JOB": "1", "STORE_KEY": key(1).hex()}
        done = said([program], place)
        self.assertEqual(done.stderr, "")
        return done.stdout

    def test_the_example(self) -> None:
        names = [path.name for path in (FOLDER / "examples").iterdir()]
        self.assertEqual(names, ["put_get_wait.c"])
        for standard in ("gnu99", "gnu17"):
            program = self.compile("example", CLIENT, FOLDER / "examples" / names[0], standard=standard)
            self.assertEqual(self.at_server(program), "Hello\n4 Absent\nfrom afar\n")

    def test_the_program_of_the_page(self) -> None:
        shown = re.search(r"^```c\n(.*?)^```$", PAGE.read_text(encoding="utf-8"), re.DOTALL | re.MULTILINE)
        assert shown is not None
        self.assertIn('"/tmp/store.0"', shown.group(1))
        server = Server()
        self.addCleanup(server.close)
        source = self.folder / "shown.c"
        source.write_text(shown.group(1).replace("/tmp/store.0", server.path), encoding="utf-8")
        done = said([self.compile("shown", CLIENT, source, standard="c99")])
        self.assertEqual((done.returncode, done.stdout, done.stderr), (1, "Hello\n4 Absent\n", ""))

    def test_sessions_have_nothing_in_common(self) -> None:
        """No variable of the client is that of all threads."""
        made = str(self.folder / "client.o")
        self.assertEqual(said([self.compiler, "-O1", "-fno-pie", "-c", "-o", made, str(CLIENT)]).stderr, "")
        symbols = said(["nm", made]).stdout
        self.assertIn(" T store_put_new\n", symbols)
        self.assertEqual(re.findall(r".* [bBcCdD] .*", symbols), [])

    # ---- replies

    def test_each_refusal(self) -> None:
        refusals = documented_refusals()
        self.assertEqual(len(refusals), 24)
        for number, (name, _) in refusals.items():
            self.tells([1, refused(number)], "seal", name)

    def test_what_is_no_reply(self) -> None:
        refusals = "000000028f00", "000000028f19", "000000018f", "000000038f0404"
        for digits in ("0000000080", "ffffffff80", "0000000181", "0000000280", *refusals):
            self.tells([1, bytes.fromhex(digits)], "seal", NO_REPLY)

    def test_more_than_was_asked_for(self) -> None:
        """It would be taken for the reply to the next command."""
        self.tells([1, OK + OK], "seal", NO_REPLY)
        self.tells([1, PLACED, 1, OK + OK, 1], "put", NO_REPLY)

    def test_another_number_of_bytes(self) -> None:
        for call in ("read", "peek"):
            for count in (0, 3, 5, LONGEST_REPLY - 1):
                self.tells([1, frame(Reply.BYTES, bytes(count))], call, NO_REPLY)
        for count in (0, 4, 6):
            self.tells([1, GOT, 2, frame(Reply.BYTES, bytes(count)) + OK], "get", NO_REPLY)
            self.tells([3, GOT + frame(Reply.BYTES, bytes(count)) + OK], "get_into", NO_REPLY)

    def test_a_frame_that_is_too_long(self) -> None:
        """It is no reply although so many bytes were asked for."""
        self.assertGreater(1 << 20, LONGEST_REPLY)
        self.tells([1, frame(Reply.BYTES, bytes(1 << 20))], "read_long", NO_REPLY)

    def test_a_length_that_no_object_has(self) -> None:
        """It is no reason to take 4 GiB, nor to read without end."""
        for length in (0, LARGEST + 1, 0xFFFF0001, 0xFFFFFFFF):
            got = frame(Reply.GOT, numbers(length))
            self.assertEqual(self.tells([1, got], "get", NO_REPLY, Command.GET).memory, 0)
            self.tells([1, got], "hold", NO_REPLY)
            self.tells([3, got + HELLO + OK], "get_into", NO_REPLY)

    def test_wrong_lists(self) -> None:
        """No memory is taken for items that aren't there."""
        item = ID + bytes([1, 0]) + numbers(5)
        one = numbers(1) + ID
        bodies = [
            b"", numbers(0), numbers(0, 0) + b"\0", numbers(0xFFFFFFFF, 0), numbers(0, 0xFFFFFFFF), numbers(1, 0), numbers(0, 1),
            numbers(2) + item + numbers(0), numbers(1) + item, one + bytes([5, 0]) + numbers(5, 0), one + bytes([1, 2]) + numbers(5, 0),
            one + bytes([1, 0]) + numbers(0, 0), one + bytes([1, 0]) + numbers(LARGEST + 1, 0), numbers(0) + one + numbers(0) + b"\1",
            numbers(0) + one + numbers(LARGEST + 1) + b"\1", numbers(0xF0F0F0F0) + bytes(LONGEST_REPLY - 5),
        ]
        for body in bodies:
            self.assertLessEqual(self.tells([1, frame(Reply.LIST, body)], "list", NO_REPLY).memory, LONGEST_REPLY, body[:50])
        for right in (NOTHING, listed(3, 0), frame(Reply.LIST, numbers(1) + item + numbers(1) + ID + numbers(5) + b"\1")):
            self.tells([1, right], "list", "Ok")
        most = (LONGEST_REPLY - 9) // 33
        longest = numbers(0, most) + (ID + numbers(5) + b"\1") * most
        told = self.tells([1, frame(Reply.LIST, longest)], "list", "Ok")
        self.assertLess(told.memory + LONGEST_REPLY, 1 << 20)

    # ---- the end of a session

    def test_a_server_that_goes_away(self) -> None:
        for part in (b"", GOT[:3], GOT[:5], GOT[:-1]):
            self.tells([1, part], "hold", LOST)
        self.tells([1, GOT, 2, HELLO[:-1]], "get", LOST)

    def test_a_server_that_says_why(self) -> None:
        """It doesn't read the rest of what it is sent, and closes. Why is told, and not that nothing more can be sent."""
        self.tells([1, PLACED, SOMETHING, MALFORMED], "put_long", "Malformed")
        self.tells([SOMETHING, MALFORMED], "put_new", "Malformed")
        told, _ = self.played([1, MALFORMED], "seal", "delete")
        self.assertEqual([one.result for one in told], ["Malformed", LOST])

    # ---- time

    def is_in_time(self, told: Told, result: str = SILENT) -> None:
        self.assertEqual(told.result, result)
        self.assertGreaterEqual(told.milliseconds, SHORT)
        self.assertLess(told.milliseconds, MUCH)

    def test_a_silent_server(self) -> None:
        """It says nothing, or only so much that more is due."""
        gets: List[List[Act]] = [[1], [1, GOT[:2]], [1, GOT[:-1]], [1, GOT, 2, HELLO[:7]]]
        others: List[Tuple[str, List[Act]]] = [("put_long", [1, PLACED]), ("put_new", [3, PLACED + OK]), ("get_into", [3, GOT + HELLO])]
        for call, acts in [*(("get", acts) for acts in gets), *others]:
            told, _ = self.played(acts, call, limit=SHORT, hang=True)
            self.is_in_time(told[0])

    def test_a_slow_server(self) -> None:
        """The time is that of the call, and not that of each byte: this takes some seconds, in small pieces."""
        for reply in (frame(Reply.BYTES, b"abcd"), GOT, GOT + HELLO + OK):
            acts: List[Act] = [1]
            for byte in reply * 10:
                acts += [bytes([byte]), 0.2]
            call = "read" if reply[4] == Reply.BYTES else "get" if reply == GOT else "get_into"
            told, _ = self.played(acts, call, limit=SHORT)
            self.is_in_time(told[0])

    def test_many_steps(self) -> None:
        """Each step is in time, and all together aren't."""
        told, play = self.played([1, 0.2, PLACED, 3, 0.2, OK + OK + OK, 1, 0.2, OK], "put_long", limit=SHORT)
        self.is_in_time(told[0])
        self.assertNotIn(Command.SEAL, play.kinds)
        told, play = self.played([1, OK], "seal_late")
        self.assertEqual((told[0].result, told[0].sends, play.kinds), (SILENT, 0, []))

    def test_the_end_between_two_questions(self) -> None:
        """It is the last refusal, and the session goes on. A busy machine may be late with the last answer, but not each time."""
        cases: List[Tuple[str, Dict[int, bytes], str]] = [
            ("get", {Command.GET: PENDING, Command.READ: NOT_SEALED}, "Pending"),
            ("put", {Command.CREATE: BUSY}, "Busy"),
        ]
        for call, acts, result in cases:
            came: List[List[str]] = []
            while len(came) < 10 and [result, "Ok"] not in came:
                told, _ = self.played([{**acts, Command.USAGE: USED}], call, "usage", limit=SHORT)
                self.assertLess(told[0].milliseconds, MUCH)
                came.append([one.result for one in told])
            self.assertIn([result, "Ok"], came)

    def test_two_gets_in_a_row(self) -> None:
        """From the second look on: the fetch that the first one enters is in a producer's way until the second one is answered."""
        acts: List[Act] = [1, PENDING, 1, ABSENT, 2, PENDING + ABSENT, 2, PENDING + ABSENT, {Command.GET: ABSENT, Command.USAGE: USED}]
        told, play = self.played(acts, "wait", "usage", limit=10000)
        self.assertEqual([one.result for one in told], ["Absent", "Ok"])
        self.assertGreater(play.kinds.count(Command.GET), 6)

    def test_signals(self) -> None:
        """Many of them neither lengthen the time of a call nor end it."""
        told, _ = self.played([1], "signals", "get", limit=SHORT, hang=True)
        self.is_in_time(told[1])
        told, _ = self.played([1, 0.3, GOT, 2, 0.3, HELLO + OK], "signals", "get")
        self.assertEqual(told[1].result, "Ok")
        told, _ = self.played([{Command.GET: ABSENT, Command.USAGE: USED}], "signals", "wait", "usage")
        self.assertEqual([one.result for one in told[1:]], ["Absent", "Ok"])
        self.assertGreaterEqual(told[1].milliseconds, 200)

    def test_a_late_reply(self) -> None:
        """It isn't taken for that of the next command."""
        told, play = self.played([1, 0.6, OK, 0.6, {Command.DELETE: ABSENT}], "seal", "nap", "delete", limit=SHORT)
        self.assertEqual([one.result for one in told], [SILENT, "Ok", LOST])
        self.assertEqual(play.kinds, [Command.SEAL])

    def test_a_silent_server_at_hello(self) -> None:
        cases: List[List[Act]] = [[], [1], [1, OK[:3]]]
        for acts in cases:
            play = Play(acts, hang=True)
            self.is_in_time(self.probed(play.path, SHORT)[0])
            play.end()

    @contextlib.contextmanager
    def full_queue(self) -> Iterator[Tuple[str, socket.socket]]:
        """Of a listener that accepts nobody."""
        with tempfile.TemporaryDirectory() as folder, socket.socket(socket.AF_UNIX) as listener, contextlib.ExitStack() as others:
            listener.bind(f"{folder}/socket")
            listener.listen(0)
            while True:
                other = others.enter_context(socket.socket(socket.AF_UNIX))
                other.setblocking(False)
                if other.connect_ex(f"{folder}/socket"):
                    break
            yield f"{folder}/socket", listener

    def test_a_full_queue(self) -> None:
        with self.full_queue() as (path, listener):
            self.is_in_time(self.probed(path, SHORT)[0])

            def accept() -> None:
                time.sleep(0.3)
                with listener.accept()[0], listener.accept()[0] as stream:
                    stream.settimeout(PATIENCE)
                    stream.recv(100)
                    stream.sendall(OK)

            thread = threading.Thread(target=accept)
            thread.start()
            self.assertEqual(self.probed(path, LONG)[0].result, "Ok")
            thread.join()

    # ---- trips

    def test_one_trip(self) -> None:
        """The script answers nothing before all has come, and all has come by one call."""
        told = self.tells([3, PLACED + OK + OK], "put_new", "Ok", Command.CREATE, Command.WRITE, Command.SEAL)
        self.assertEqual(told.sends, 1)
        told = self.tells([3, GOT + HELLO + OK], "get_into", "Ok", Command.GET, Command.READ, Command.RELEASE)
        self.assertEqual((told.sends, told.memory), (1, 0))
        told = self.tells([1, GOT, 2, HELLO + OK], "get", "Ok", Command.GET, Command.READ, Command.RELEASE)
        self.assertEqual((told.sends, told.memory), (2, 5))

    def test_replies_cut_anywhere(self) -> None:
        for call, reply in (("put_new", PLACED + OK + OK), ("get_into", GOT + HELLO + OK)):
            for at in range(1, len(reply)):
                self.tells([3, reply[:at], 0.002, reply[at:]], call, "Ok")

    def test_one_trip_that_is_refused(self) -> None:
        put = Command.CREATE, Command.WRITE, Command.SEAL
        self.tells([3, FULL + ABSENT + ABSENT], "put_new", "Full", *put)
        self.tells([3, PLACED + NO_MEMORY + OK, 1, OK], "put_new", "NoMemory", *put, Command.DELETE)
        self.tells([3, PLACED + OK + NO_MEMORY, 1, OK], "put_new", "NoMemory", *put, Command.DELETE)
        for wait in (PENDING, BUSY):
            self.tells([3, wait + ABSENT + ABSENT, 1, wait, 1, PLACED, 2, OK + OK], "put_new", "Ok", *put, Command.CREATE, *put)
        get = Command.GET, Command.READ, Command.RELEASE
        self.tells([3, NOT_SEALED + NOT_SEALED + NOT_HELD], "get_into", "NotSealed", *get)
        self.tells([3, GOT + NO_MEMORY + OK], "get_into", "NoMemory", *get)
        self.tells([3, frame(Reply.GOT, numbers(4)) + refused(8) + OK], "get_into", "the object has another length", *get)
        self.tells([3, PENDING + NOT_SEALED + NOT_HELD, 1, ABSENT], "get_into", "Absent", *get, Command.GET)
        self.tells([3, PENDING + NOT_SEALED + NOT_HELD, 1, GOT, 2, HELLO + OK], "get_into", "Ok", *get, *get)

    def test_a_given_id(self) -> None:
        """Others may know it: nothing is written before the copy is known to be ours, and it is sealed once all is written."""
        self.tells([1, PLACED, 1, OK, 1, OK], "put", "Ok", Command.CREATE, Command.WRITE, Command.SEAL)
        self.tells([1, EXISTS, 1, listed(1)], "put", "Exists", Command.CREATE, Command.LIST)
        self.tells([1, PLACED, 1, NO_MEMORY, 1, OK], "put", "NoMemory", Command.CREATE, Command.WRITE, Command.DELETE)
        self.tells([1, PLACED, 1, OK, 1, NO_MEMORY, 1, OK], "put", "NoMemory", Command.CREATE, Command.WRITE, Command.SEAL, Command.DELETE)
        fetch = Command.CREATE, Command.LIST, Command.GET, Command.CREATE
        self.tells([1, EXISTS, 1, listed(3, 0), 2, ABSENT + PLACED, 1, OK, 1, OK], "put", "Ok", *fetch, Command.WRITE, Command.SEAL)
        # the fetch has found the object
        self.tells([1, EXISTS, 1, listed(3, 0), 2, GOT + EXISTS, 1, OK], "put", "Exists", *fetch, Command.RELEASE)
        three = [Command.WRITE] * 3
        self.tells([1, PLACED, 3, OK + OK + OK, 1, OK], "put_long", "Ok", Command.CREATE, *three, Command.SEAL)

    def test_holds_of_the_session(self) -> None:
        """A Release that follows a refused Get would give another hold up."""
        told, play = self.played([1, GOT, 1, GOT, 2, HELLO + OK], "hold", "get_into")
        self.assertEqual([one.result for one in told], ["Ok", "Ok"])
        self.assertEqual(told[1].sends, 2)
        told, play = self.played([1, GOT, 1, NOT_SEALED], "hold", "get_into")
        self.assertEqual([one.result for one in told], ["Ok", "NotSealed"])
        self.assertEqual(play.kinds, [Command.GET, Command.GET])

    def test_what_finds_no_room(self) -> None:
        """A fetch that finds none is deleted, and nothing else is."""
        acts: List[Act] = [1, PENDING, 1, FULL, 1]
        self.tells([*acts, listed(3, 0), 1, OK], "get", "Full", Command.GET, Command.GET, Command.LIST, Command.DELETE)
        self.tells([*acts, listed(4)], "get", "Full", Command.GET, Command.GET, Command.LIST)

    def test_a_read_that_is_refused(self) -> None:
        self.tells([1, GOT, 2, NO_MEMORY + OK], "get", "NoMemory", Command.GET, Command.READ, Command.RELEASE)

    def test_no_memory(self) -> None:
        """The hold is given up, and the session goes on."""
        told, play = self.played([1, GOT, {Command.RELEASE: OK, Command.USAGE: USED}], "without_memory", "get", "usage", "list")
        none = "no memory in this process"
        self.assertEqual([one.result for one in told], ["Ok", none, "Ok", none])
        self.assertEqual(play.kinds, [Command.GET, Command.RELEASE, Command.USAGE])


    # ---- the documented frames, by the driver of the dialogues

    def driven(self, line: str, reply: bytes) -> Tuple[bytes, str]:
        """What the client sends for an operation, and what it makes of the reply."""
        play = Play([1, OK, 1, reply], hang=False)
        try:
            done = said([str(self.folder / "driver"), play.path, "1", key(1).hex()], asked=f"{line}\n")
        finally:
            play.end()
        self.assertEqual((done.returncode, done.stderr), (0, ""), line)
        return play.frames[1], done.stdout.removeprefix("ok\n").rstrip("\n")

    def test_documented_frames(self) -> None:
        """Each command is sent so, and takes the replies that are documented for it and no other kind."""
        self.compile("driver", CLIENT, DRIVER)
        commands, replies = documented()
        due = {int(kind, 16): {int(digits, 16) for digits, _ in answers} for kind, _, answers in documented_answers()}
        first = {one[4]: (one, text) for one, text in reversed(replies)}
        tried = set()
        for sent, line in commands:
            if line.startswith("hello"):
                continue
            tried.add(sent[4])
            if sent[4] in (Command.READ, Command.PEEK):
                count = int(line.split(" ")[3])
                first[Reply.BYTES] = frame(Reply.BYTES, bytes(count)), f"bytes {bytes(count).hex() or '-'}"
            for kind, (reply, text) in first.items():
                came = self.driven(line, reply)
                self.assertEqual(came, (sent, text if kind in due[sent[4]] else "protocol"), line)
        self.assertEqual(tried, set(Command) - {Command.HELLO})

    def test_documented_replies(self) -> None:
        self.compile("driver", CLIENT, DRIVER)
        asked_by = {"ok": "seal t1.1", "refused": "seal t1.1", "placed": "create t1.1 20", "got": "get t1.1", "bytes": "read t1.1 0 {}"}
        for reply, text in documented()[1]:
            word = text.split(" ")[0]
            self.assertEqual(self.driven(asked_by.get(word, word).format(len(reply) - 5), reply)[1], text)

    def test_the_documented_hello(self) -> None:
        self.compile("driver", CLIENT, DRIVER)
        sent, line = documented()[0][0]
        play = Play([1, OK], hang=False)
        done = said([str(self.folder / "driver"), play.path, *line.split(" ")[1:]])
        play.end()
        self.assertEqual((done.stdout, play.frames), ("ok\n", [sent]))


class Page(unittest.TestCase):
    """The page names each call and each result of the header, and no other."""

    def test_names(self) -> None:
        header, page = HEADER.read_text(encoding="utf-8"), PAGE.read_text(encoding="utf-8")
        calls = set(re.findall(r"\b(store_\w+)\(", header))
        rows = re.findall(r"^\| (`store_.*?) \|", page, re.MULTILINE)
        self.assertEqual({name for row in rows for name in re.findall(r"`(\w+)`", row)}, calls)
        faults = set(re.findall(r"^    (STORE_\w+) = -\d", header, re.MULTILINE))
        self.assertEqual(set(re.findall(r"^\| `(STORE_\w+)` \|", page, re.MULTILINE)), faults)

    def test_numbers(self) -> None:
        client, page = CLIENT.read_text(encoding="utf-8"), " ".join(PAGE.read_text(encoding="utf-8").split())
        self.assertIn("ONE_TRIP = 1 << 20,", client)
        self.assertEqual(len(re.findall(r"up to 1 MiB", page)), 2)
        self.assertIn("LAST_LOOK = 20000\n", client)
        self.assertIn("nothing in the last 20 milliseconds", page)


@unittest.skipIf(shutil.which("gcc") is None, "gcc isn't there")
class Load(unittest.TestCase):
    """The load of bench/serve uses sessions that the client has opened."""

    def test_at_its_floor(self) -> None:
        with tempfile.TemporaryDirectory() as folder:
            load, path = f"{folder}/load", f"{folder}/floor"
            flags = ["-O2", "-std=c11", "-Wall", "-Wextra", "-Werror", "-pthread", f"-I{FOLDER}"]
            self.assertEqual(said(["gcc", *flags, "-o", load, str(LOAD), str(CLIENT)]).stderr, "")
            floor = subprocess.Popen([load, "floor", path], stdout=subprocess.PIPE, text=True)
            try:
                assert floor.stdout is not None
                self.assertEqual(floor.stdout.readline(), "ready\n")
                for word in ("get", "put", "get-once", "put-once", "together", "floods"):
                    done = said([load, word, "70000", "0", path, "1", key(1).hex()])
                    self.assertEqual((done.returncode, done.stderr), (0, ""))
            finally:
                floor.kill()
                floor.communicate()


@unittest.skipIf(shutil.which("gcc") is None, "gcc isn't there")
class Gcc(Cases, unittest.TestCase):
    compiler = "gcc"


@unittest.skipIf(shutil.which("clang") is None, "clang isn't there")
class Clang(Cases, unittest.TestCase):
    compiler = "clang"
