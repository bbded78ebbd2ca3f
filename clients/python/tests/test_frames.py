"""Frames and texts, against the documented ones: no server is needed."""

from __future__ import annotations

import unittest
from typing import Any, Dict, List, Sequence, Tuple, Union

from support import Script, documented, documented_answers, key
from store_testing.spelling import CALLS, call, spelled

import store_client
from store_client import JobTask, ObjectId, Task, frames, stream
from store_client.requests import Request, Requests

# for each reply a call that may get it
ASKED_BY = {"ok": "seal t1.1", "refused": "seal t1.1", "placed": "create t1.1 20", "got": "get t1.1"}


def named(kind: Union[frames.Command, frames.Reply]) -> tuple[str, str]:
    """Its digits, and its name as the rules spell it."""
    return f"{kind:02x}", kind.name.title().replace("_", "")


class Frames(unittest.TestCase):
    """Each frame of the documented ones: a command as the client sends it, a reply as it is told to who called."""

    def setUp(self) -> None:
        self.commands, self.replies = documented()
        self.frame_of = {said.split(" ")[0]: frame for frame, said in self.replies}

    def ask(self, said: str, reply: bytes) -> tuple[bytes, object]:
        """What the client sends for a command, and what it makes of the reply."""
        script = Script([self.frame_of["ok"], reply])
        self.addCleanup(script.close)
        with store_client.connect(script.path, 1, key(1)) as store:
            told = call(store, said)
        script.thread.join()
        return script.sent[1], told

    def test_each_kind_is_there(self) -> None:
        self.assertEqual({frame[4] for frame, _ in self.commands}, set(frames.Command))
        self.assertEqual({frame[4] for frame, _ in self.replies}, set(frames.Reply))
        self.assertEqual({frame[5] for frame, said in self.replies if said.startswith("refused")}, set(range(1, 25)))

    def test_commands(self) -> None:
        for frame, said in self.commands:
            if not said.startswith("hello"):
                due = CALLS[said.split(" ")[0]].due
                reply = frames.frame(frames.Reply.BYTES, bytes(int(said.split(" ")[3]))) if due == "bytes" else self.frame_of[due]
                self.assertEqual(self.ask(said, reply)[0].hex(), frame.hex(), said)

    def enter(self, said: str, reply: bytes) -> bytes:
        """What the client sends for a Hello."""
        _, job, secret = said.split(" ")
        script = Script([reply])
        self.addCleanup(script.close)
        store_client.connect(script.path, int(job), bytes.fromhex(secret)).close()
        return script.sent[0]

    def test_hello(self) -> None:
        frame, said = self.commands[0]
        self.assertEqual(self.enter(said, self.frame_of["ok"]).hex(), frame.hex())

    def takes(self, said: str, reply: bytes) -> bool:
        """Whether the client takes this as the reply to the command."""
        try:
            if said.startswith("hello"):
                self.enter(said, reply)
            else:
                self.ask(said, reply)
        except store_client.Refused:
            return True
        except store_client.ProtocolError:
            return False
        return True

    def test_which_reply_answers_which_command(self) -> None:
        rows = documented_answers()
        self.assertEqual([(kind, name) for kind, name, _ in rows], [named(kind) for kind in frames.Command])
        replies = {kind: next(frame for frame, _ in self.replies if frame[4] == kind) for kind in frames.Reply}
        due = {int(kind, 16): answers for kind, _, answers in rows}
        for frame, said in self.commands:
            if frame[4] in (frames.Command.READ, frames.Command.PEEK):
                replies[frames.Reply.BYTES] = frames.frame(frames.Reply.BYTES, bytes(int(said.split(" ")[3])))
            taken = [named(kind) for kind, reply in replies.items() if self.takes(said, reply)]
            self.assertEqual(taken, due[frame[4]], said)

    def test_replies(self) -> None:
        for frame, said in self.replies:
            word = said.split(" ")[0]
            asked = f"read t1.1 0 {len(frame) - 5}" if word == "bytes" else ASKED_BY.get(word, word)
            self.assertEqual(spelled(self.ask(asked, frame)[1], 1), said)

    def test_what_is_no_reply(self) -> None:
        kinds = ("00000001" "99", "00000002" "8f00", "00000002" "8f19", "00000001" "8f", "00000003" "8f0909")
        for digits in ("00000000" "80", "ffffffff" "80", "00000002" "8000", "00000009" "81" "0000000000000020", *kinds):
            with self.assertRaises(store_client.ProtocolError, msg=digits):
                self.ask("seal t1.1", bytes.fromhex(digits))
        for digits in ("00000005" "84" "00000001", "0000000a" "84" "0000000000000000" "00"):
            with self.assertRaises(store_client.ProtocolError, msg=digits):
                self.ask("list", bytes.fromhex(digits))
        # another number of bytes than was asked for, and lengths that no object has
        item = "00" * 19 + "01" "00000001" "00000001"
        for said, digits in [
            ("read t1.1 0 4", "00000003" "83" "6162"),
            ("peek t1.1 0 4", "00000009" "83" "6162636465666768"),
            ("read t1.1 0 0", "00000002" "83" "61"),
            ("get t1.1", "00000005" "82" "ffffffff"),
            ("get t1.1", "00000005" "82" "01000001"),
            ("get t1.1", "00000005" "82" "00000000"),
            ("list", "0000002b" "84" "00000001" + item + "0100" "01000001" "00000000"),
            ("list", "0000002b" "84" "00000001" + item + "0100" "00000000" "00000000"),
            ("list", "0000002a" "84" "00000000" "00000001" + item + "ffffffff" "01"),
            ("list", "0000002a" "84" "00000000" "00000001" + item + "00000000" "01"),
        ]:
            with self.assertRaises(store_client.ProtocolError, msg=said):
                self.ask(said, bytes.fromhex(digits))
        with self.assertRaises(store_client.ConnectionLost):
            self.ask("list", bytes.fromhex("00000009" "84" "000000"))

    def test_a_list_that_is_not_as_long_as_it_says(self) -> None:
        """However it is read, and at once: no more items are looked for than there are."""
        requests, fetch = Requests(1), "00" * 19 + "01" "00000001" "00000001" "0300" "00000000"
        asked: List[Request[Any]] = [requests.list(), requests.list(b"another"), requests.names()]
        for digits in ("", "00000000", "ffffffff" "00000000", "00000001" + "00" * 30, "00000000" "00000001", "00000000" "00000000" "00"):
            for request in asked:
                with self.assertRaises(store_client.ProtocolError, msg=digits):
                    request.answer(frames.Reply.LIST, bytes.fromhex(digits))
        body = bytes.fromhex("00000001" + fetch + "00000000")
        told = [request.answer(frames.Reply.LIST, body) for request in asked]
        self.assertEqual([len(told[0][0]), told[1], list(told[2].values())], [1, ([], []), [store_client.State.FETCHING]])

    def test_more_than_was_asked_for(self) -> None:
        """It isn't taken for the answer to the next call."""
        for more in (self.frame_of["ok"], b"\0"):
            script = Script([self.frame_of["ok"], self.frame_of["ok"] + more, self.frame_of["ok"]], hang=True)
            self.addCleanup(script.close)
            with store_client.connect(script.path, 1, key(1)) as store:
                with self.assertRaisesRegex(store_client.ProtocolError, "more came than was asked for"):
                    call(store, "seal t1.1")
                with self.assertRaisesRegex(store_client.ConnectionLost, "the connection was given up: more came"):
                    call(store, "seal t1.2")


class Cut:
    """A socket that has so many bytes at each call, and then nothing."""

    def __init__(self, sent: bytes, length: int) -> None:
        self.sent = sent
        self.length = length
        self.calls = 0

    def receive(self, spaces: Sequence[memoryview]) -> int:
        if not self.sent:
            return 0
        self.calls += 1
        came, taken = self.sent[: self.length], 0
        for space in spaces:
            space[: len(came) - taken] = came[taken : taken + len(space)]
            taken = min(len(came), taken + len(space))
        self.sent = self.sent[taken:]
        return taken


class Bursts(unittest.TestCase):
    """Replies that come together, or cut anywhere: what Reads bring goes to its place, whatever comes between."""

    LENGTH, STEP = 75, 10

    def data(self) -> bytes:
        return (bytes(range(251)) * (self.LENGTH // 251 + 1))[: self.LENGTH]

    def ask(self, length: int, other: Dict[int, bytes]) -> Tuple[List[object], List[bytes], int]:
        """What is made of Reads between a Get and a Release, of which some are answered otherwise: the answers, what lies in the places
        of the Reads, and how many calls it took."""
        id, requests = Task.numbered(1).object(1, job=1), Requests(1)
        data, into = self.data(), memoryview(bytearray(self.LENGTH))
        places = [slice(at, min(at + self.STEP, self.LENGTH)) for at in range(0, self.LENGTH, self.STEP)]
        reads = [requests.read(id, place.start, len(into[place]), into[place]) for place in places]
        replies = [other.get(number, frames.frame(frames.Reply.BYTES, data[place])) for number, place in enumerate(places)]
        got, ok = frames.frame(frames.Reply.GOT, frames.numbers(self.LENGTH)), frames.frame(frames.Reply.OK)
        answers: list[object] = []
        all: List[Request[Any]] = [requests.get(id), *reads, requests.release(id)]
        cut, replied = Cut(b"".join([got, *replies, ok]), length), stream._Replies()
        while len(answers) < len(all):
            self.assertTrue(replied.receive(cut.receive, all, answers), "it waits for what has come already")
        self.assertEqual((answers[0], answers[-1]), (self.LENGTH, None))
        return answers[1:-1], [bytes(into[place]) for place in places], cut.calls

    def test_cut_anywhere(self) -> None:
        pending = frames.frame(frames.Reply.REFUSED, bytes([10]))
        others: Tuple[Dict[int, bytes], ...] = (
            {}, {0: pending}, {3: pending}, {2: pending, 3: pending, 7: pending}, dict.fromkeys(range(8), pending),
        )
        for other in others:
            for length in (*range(1, 40), 1000):
                answers, places, _ = self.ask(length, other)
                for number, (answer, place) in enumerate(zip(answers, places)):
                    if number in other:
                        self.assertIsInstance(answer, store_client.Pending)
                    else:
                        due = self.data()[self.STEP * number : self.STEP * (number + 1)]
                        self.assertEqual((answer, place), (b"", due), (other, length, number))

    def test_one_call_brings_several(self) -> None:
        self.LENGTH, self.STEP = 75_000, 10_000
        # what the Get and the Release are answered comes by calls of its own
        self.assertLessEqual(self.ask(self.LENGTH * 2, {})[2], 4)

    def test_bytes_of_another_length(self) -> None:
        for length in (1, 7, 1000):
            with self.assertRaisesRegex(store_client.ProtocolError, "9 bytes came, and 10 were asked for"):
                self.ask(length, {4: frames.frame(frames.Reply.BYTES, bytes(9))})


class Texts(unittest.TestCase):
    def test_ids(self) -> None:
        one = Task.numbered(1).object(1, job=1)
        digits = "0000000000000000000000000000000000000001" "00000001" "00000001"
        self.assertEqual(one.to_bytes().hex(), digits)
        self.assertEqual(ObjectId.from_bytes(one.to_bytes()), one)
        for text, job in [("t1.1", 1), ("1/t1.1", 2), (digits, 1), (digits, 9)]:
            self.assertEqual(ObjectId.parse(text, job), one)
        self.assertEqual((one.text(1), one.text(2)), ("t1.1", "1/t1.1"))
        random = ObjectId(Task(b"\x01" * 20), 1, 7)
        self.assertEqual((ObjectId.parse(random.text(1), 1), len(random.text(1))), (random, 56))

    def test_they_are_readable(self) -> None:
        ids = [Task.numbered(1).object(2, job=3), Task.numbered(4), ObjectId(Task(b"\x01" * 20), 1, 7), Task(b"\x01" * 20)]
        self.assertEqual(repr(ids[:2]), "[ObjectId.parse('3/t1.2'), Task.parse('t4')]")
        self.assertEqual(eval(repr(ids)), ids)
        task = JobTask(Task.numbered(4), 3)
        self.assertEqual(repr(task), "JobTask(Task.parse('t4'), 3)")
        self.assertEqual(eval(repr(task)).object(2), task.object(2))
        self.assertEqual(ObjectId.parse(str(ids[0])), ids[0])
        with self.assertRaisesRegex(ValueError, "'t1.2' doesn't say of which job it is: .* like 1/t1.2"):
            ObjectId.parse("t1.2")

    def test_what_is_no_id(self) -> None:
        no_index = "0000000000000000000000000000000000000001" "00000001" "00000000"
        for text in ("t1", "t1.0", "t01.1", "+t1.1", "0/t1.1", "1/t1.1", "t1.4294967296", f"t{2**64}.1", no_index, "AB" * 28, ""):
            with self.assertRaises(ValueError, msg=text):
                ObjectId.parse(text, 1)

    def test_tasks(self) -> None:
        for text in ("t0", "t1", f"t{2**64 - 1}", "01" * 20):
            self.assertEqual(str(Task.parse(text)), text)
        for text in ("t01", f"t{2**64}", "t", "1", "AB" * 20):
            with self.assertRaises(ValueError, msg=text):
                Task.parse(text)


