"""What docs/PROTOCOL.md tells who writes another client, at a running server: its session by hand, and a pipeline that is half-closed."""

from __future__ import annotations

import re
import socket
import subprocess
import sys
import threading
import time
from typing import Any, List, Tuple

from support import PATIENCE, ROOT, Server, ServerOfAll, key

from store_client import Absent, Busy, Connection, NotSealed, ObjectId, Pending, Refused
from store_client.frames import read_usage
from store_client.requests import Request, Requests, hello

PAGE = ROOT / "docs/PROTOCOL.md"


class Protocol(ServerOfAll):
    def said(self) -> Tuple[str, List[str]]:
        """The program of the session by hand, and what it prints."""
        text = re.sub("^    ", "", PAGE.read_text(encoding="ascii"), flags=re.MULTILINE)
        found = re.search(r"<<'END'\n(.*?)END\n(.*?)\n\n", text, re.DOTALL)
        assert found
        return found[1], found[2].split()

    def test_a_session_by_hand(self) -> None:
        program, printed = self.said()
        for written, here in (("/tmp/store.0", self.server.path), ('32 * "00"', f'"{key(1).hex()}"')):
            self.assertEqual(program.count(written), 1)
            program = program.replace(written, here)
        done = subprocess.run([sys.executable, "-c", program], capture_output=True, text=True, check=True, timeout=PATIENCE)
        self.assertEqual(done.stdout.split(), printed)

    def waited_for(self, store: Connection, one: ObjectId) -> int:
        """The length of an object, by the page's recipe. A hold of it is left."""
        requests, began, moving = store._requests, time.monotonic(), False
        answer: object = None
        while time.monotonic() < began + PATIENCE:
            if moving and isinstance(store._exchange([requests.read(one, 0, 0)], None)[0], NotSealed):
                time.sleep(0.001)
                continue
            first, answer = store._exchange([requests.get(one), requests.get(one)], None)
            if not isinstance(first, Refused):
                store.release(one)
            if isinstance(answer, int):
                return answer
            self.assertIsInstance(answer, (Absent, NotSealed, Busy, Pending))
            moving = isinstance(first, Pending) and isinstance(answer, Pending)
            time.sleep(min(0.05, max(0.001, (time.monotonic() - began) / 32)))
        raise AssertionError(f"it didn't come: {answer}")

    def test_the_recipe_of_waiting(self) -> None:
        """At the producer's node and at another one, and the consumer first."""
        server = Server(nodes=2)
        self.addCleanup(server.close)
        with server.connect() as near, server.connect(node=1) as far, server.connect() as consumer:
            for index, producer in enumerate((near, far), 1):
                one = ObjectId.parse(f"t20.{index}", 1)
                thread = threading.Timer(0.05, lambda: producer.put(bytes(100_000), one))
                thread.start()
                self.assertEqual(self.waited_for(consumer, one), 100_000)
                thread.join()
                consumer.release(one)

    def test_the_layout_of_an_id(self) -> None:
        found = re.search(r"^    (0{24} [0-9a-f]{16} [0-9a-f]{8} [0-9a-f]{8})$", PAGE.read_text(encoding="ascii"), re.MULTILINE)
        assert found
        one = ObjectId.from_bytes(bytes.fromhex(found[1]))
        self.assertEqual((one.text(4), one.text(1)), ("t20.7", "4/t20.7"))

    def test_a_pipeline_whose_sending_half_is_closed(self) -> None:
        """All is answered. The first Get of an unknown id enters a fetch, in whose place nothing is created, and the next one ends it."""
        requests, one = Requests(3), ObjectId.parse("t20.7", 3)
        asked: List[Request[Any]] = [requests.read(one, 0, 0), requests.get(one), requests.create(one, 20)]
        asked += [requests.read(one, 0, 0), requests.get(one), requests.create(one, 20), requests.usage()]
        with socket.socket(socket.AF_UNIX) as stream:
            stream.settimeout(PATIENCE)
            stream.connect(self.server.path)
            stream.sendall(b"".join(part for request in [hello(3, key(3)), *asked] for part in request.parts))
            stream.shutdown(socket.SHUT_WR)
            with stream.makefile("rb") as file:
                told = file.read()
        refused = "00000002" "8f"
        refusals = [f"{refused}{number}" for number in ("04", "0a", "03", "05", "04")]
        due = ["0000000180", *refusals, "0000000981" "0000000000000020", "0000003185"]
        self.assertEqual(told[:-48].hex(), "".join(due))
        usage = read_usage(told[-48:])
        told_of = (usage.window, usage.window_used, usage.device, usage.device_used, usage.copies, usage.works)
        self.assertEqual(told_of, (144, 32, 1024, 0, 1, 0))
