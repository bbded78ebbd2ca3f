"""Ctrl-C at each line of the package that a put or a get runs: nothing is left, nobody hangs, and the session goes on or is lost."""

from __future__ import annotations

import ast
import collections
import contextlib
import functools
import gc
import os
import random
import signal
import sys
import threading
import time
import warnings
from pathlib import Path
from types import FrameType
from typing import Any, Callable, Counter, FrozenSet, List, Tuple
from unittest import mock

from support import PATIENCE, ServerOfAll

import store_client
from store_client import Absent, Connection, ConnectionLost, ObjectId, OwnItem, State, Task, connection, putting

# of each so many lines one is tried: 1 tries all
STEP = int(os.environ.get("STORE_CUTS", "31"))
SIGNALS = 50
PACKAGE = Path(store_client.__file__).resolve().parent
SMALL_WINDOW = 2**12


@functools.lru_cache(maxsize=None)
def is_ours(path: str) -> bool:
    """Whether a file is of the package."""
    return Path(path).parent == PACKAGE


@functools.lru_cache(maxsize=None)
def uninterrupted(path: str) -> FrozenSet[int]:
    """The lines of a file at which Python looks for no signal, since nothing is called and no jump goes back before them: where
    the cleaning up begins."""
    lines = set()
    for node in ast.walk(ast.parse(Path(path).read_text(encoding="utf-8"))):
        if isinstance(node, ast.Try) and node.finalbody:
            first = node.finalbody[0]
            lines.add(first.lineno)
            if isinstance(first, ast.Try):
                lines.add(first.body[0].lineno)
    return frozenset(lines)


class Cut:
    """A call that is interrupted at a line of the package."""

    def __init__(self, number: int) -> None:
        """The lines are counted as they are run, from 1. One that is run again and again, as for each part of a value, is counted the
        first, second, fourth, .. time."""
        self.left = number
        self.place = ""
        self.times: Counter[Tuple[str, int]] = collections.Counter()

    def trace(self, frame: FrameType, *_: Any) -> Any:
        # what a dropped object's end raises is written away by Python, and goes nowhere
        return self.line if is_ours(frame.f_code.co_filename) and frame.f_code.co_name != "__del__" else None

    def line(self, frame: FrameType, event: str, _: Any) -> Any:
        place = frame.f_code.co_filename, frame.f_lineno
        if event == "line" and place[1] not in uninterrupted(place[0]):
            self.times[place] += 1
            if self.times[place] & (self.times[place] - 1) == 0:
                self.count(place)
        return self.line

    def count(self, place: Tuple[str, int]) -> None:
        self.left -= 1
        if not self.left:
            self.place = f"{Path(place[0]).name}:{place[1]}"
            raise KeyboardInterrupt

    def run(self, call: Callable[[], Any]) -> bool:
        """Whether it was interrupted. If it has no such line it ends."""
        before = sys.gettrace()
        sys.settrace(self.trace)
        try:
            call()
            return False
        except KeyboardInterrupt:
            return True
        finally:
            sys.settrace(before)


class Cuts(ServerOfAll):
    @classmethod
    def setUpClass(cls) -> None:
        super().setUpClass()
        cls.server.admit(0, 4, SMALL_WINDOW, 2**20)
        # what other tests have loaded isn't looked at after each cut
        gc.freeze()
        cls.addClassCleanup(gc.unfreeze)

    def setUp(self) -> None:
        # however slow the machine is, the server has the time to delete what was left
        respects = mock.patch.object(connection, "_LAST_RESPECTS", PATIENCE)
        respects.start()
        self.addCleanup(respects.stop)
        # a hold that is dropped warns
        catcher = warnings.catch_warnings()
        catcher.__enter__()
        self.addCleanup(catcher.__exit__, None, None, None)
        warnings.simplefilter("ignore", ResourceWarning)

    def go_on(self, store: Connection, place: str) -> None:
        """The connection is usable, or lost; another thread learns it in any case."""
        told: List[Any] = []

        def ask() -> None:
            try:
                told.append(store.usage())
            except ConnectionLost:
                told.append(None)

        thread = threading.Thread(target=ask, daemon=True)
        thread.start()
        thread.join(PATIENCE)
        self.assertEqual(len(told), 1, f"the connection hangs after {place}")

    def comes_to(self, look: Callable[[], Any], due: Any, place: str) -> None:
        """A session that was cut off ends a little later."""
        end = time.monotonic() + PATIENCE
        while look() != due and time.monotonic() < end:
            time.sleep(0.002)
        self.assertEqual(look(), due, place)

    def cut_everywhere(self, job: int, prepare: Callable[[Connection], Any], call: Callable[[Connection, Any], Any], check: Any) -> None:
        """Interrupts the call at one line after the other, each time of another connection, until it has no more."""
        number, was_cut = 1, True
        with self.server.connect(job) as other:
            self.clear(other, "another test")
            while was_cut:
                given, cut = prepare(other), Cut(number)
                with self.server.connect(job) as store:
                    was_cut = cut.run(lambda: call(store, given))
                    self.go_on(store, cut.place)
                    check(other, store, given, was_cut, cut.place)
                number += STEP
        self.assertGreater(number, 3 * STEP)

    def check_put(self, other: Connection, _: Connection, made: List[putting.NewCopy], was_cut: bool, place: str) -> None:
        """What is left is known: a put that had just been done, and copies of which nobody has learned whose they are."""
        if not any(copy._tries > len(copy._answers) and not copy._is_secret for copy in made):
            if was_cut and not (made and all(copy._answers for copy in made)):
                self.comes_to(lambda: other.list()[0], [], place)
            self.comes_to(lambda: self.unsealed(other), [], place)
        self.clear(other, place)
        made.clear()

    def unsealed(self, other: Connection) -> List[OwnItem]:
        return [item for item in other.list()[0] if item.state is State.CREATED]

    def clear(self, other: Connection, place: str) -> None:
        """Deletes all. A copy that is being spilled is listed until that is done, also if it was deleted long ago."""

        def delete_all() -> List[OwnItem]:
            items, _ = other.list()
            for item in items:
                with contextlib.suppress(Absent):
                    other.delete(item.id)
            return items

        self.comes_to(delete_all, [], place)

    def cut_puts(self, job: int, call: Callable[[Connection, Any], Any]) -> None:
        made: List[putting.NewCopy] = []
        create = putting.NewCopy.create

        def noted(copy: putting.NewCopy, length: int) -> Any:
            made.append(copy)
            return create(copy, length)

        with mock.patch.object(putting.NewCopy, "create", noted):
            self.cut_everywhere(job, lambda _: made, call, self.check_put)

    def test_a_put_under_a_new_id(self) -> None:
        self.cut_puts(1, lambda store, _: store.put(bytes(100)))

    def test_a_put_under_a_new_id_that_is_not_sent_in_one_burst(self) -> None:
        with mock.patch.object(putting, "_BURST", 10):
            self.cut_puts(1, lambda store, _: store.put(bytes(100)))

    def test_a_put_under_an_id_that_was_given(self) -> None:
        self.cut_puts(1, lambda store, _: store.put(bytes(100), Task(os.urandom(20)).object(1, job=1)))

    def test_a_value_in_parts(self) -> None:
        self.cut_puts(4, lambda store, _: store.put_value(bytes(SMALL_WINDOW)))

    def check_get(self, other: Connection, store: Connection, id: ObjectId, done: List[bool], place: str) -> None:
        """The session that got the object doesn't hold it any more, whether it goes on or not, but for a get that had just been done."""
        gc.collect()
        if done:
            store.close()
        other.delete(id)
        # a Get of a session that was cut off may come to the server now, and enters a fetch, which holds nothing
        self.comes_to(lambda: [item for item in other.list()[0] if item.id == id and item.state is not State.FETCHING], [], place)
        done.clear()

    def cut_gets(self, call: Callable[[Connection, Any], Any]) -> None:
        done: List[bool] = []
        get = putting.get

        def noted(*words: Any, **more: Any) -> Any:
            view = yield from get(*words, **more)
            done.append(True)
            return view

        def check(other: Connection, store: Connection, id: ObjectId, _: bool, place: str) -> None:
            self.check_get(other, store, id, done, place)

        with mock.patch.object(putting, "get", noted):
            self.cut_everywhere(1, lambda other: other.put_value(b"abcd"), call, check)

    def test_a_get(self) -> None:
        self.cut_gets(lambda store, id: store.get(id).release())

    def test_a_get_that_would_wait(self) -> None:
        self.cut_gets(lambda store, id: store.get(id, timeout=PATIENCE).release())

    def test_a_value(self) -> None:
        self.cut_gets(lambda store, id: store.get_value(id))

    def test_a_wait(self) -> None:
        self.cut_gets(lambda store, id: store.wait([id, id.task.object(2**31, job=1)], 2, timeout=0.005))

    def test_signals_at_any_moment(self) -> None:
        """Real ones, drawn by lot, whose handler raises. Every put that was not done is gone, and no session is stuck."""

        def stop(*_: Any) -> None:
            raise KeyboardInterrupt

        handler = signal.signal(signal.SIGALRM, stop)
        self.addCleanup(signal.signal, signal.SIGALRM, handler)
        chance, data, cuts = random.Random(1), bytes(1000), 0
        for _ in range(SIGNALS):
            with self.server.connect() as store:
                try:
                    signal.setitimer(signal.ITIMER_REAL, 10 ** chance.uniform(-5, -2))
                    try:
                        id = store.put(data)
                        with store.get(id) as view:
                            self.assertEqual(view, data)
                        store.wait([id])
                    finally:
                        signal.setitimer(signal.ITIMER_REAL, 0)
                except KeyboardInterrupt:
                    cuts += 1
                self.go_on(store, "a signal")
        with self.server.connect() as other:
            self.comes_to(lambda: self.unsealed(other), [], "a signal")
            self.clear(other, "a signal")
        self.assertGreater(cuts, 0)
