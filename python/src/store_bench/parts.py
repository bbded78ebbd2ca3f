"""Draws the parts of a store that serves: jobs and their sessions, sockets, nodes with a window for each job, a grant, devices, the
directory."""

from __future__ import annotations

import argparse
import sys
from pathlib import Path
from typing import NamedTuple

from .drawing import COLOURS, INK, PALE_INK, Drawing

WIDTH, HEIGHT = 900, 572
JOB_COLOURS = COLOURS[:2]
PALE = 0.35
EDGE = "#888888"
# the process, with a node on each side, whose socket lies on the edge of both
PROCESS_LEFT, PROCESS_TOP, PROCESS_WIDTH, PROCESS_HEIGHT = 196, 92, 508, 370
NODE_LEFTS, NODE_TOP, NODE_WIDTH, NODE_HEIGHT = (222, 470), 186, 208, 262
SOCKETS, SOCKET_TOP, SOCKET_WIDTH, SOCKET_HEIGHT = (209, 691), NODE_TOP + 36, 70, 26
# clients come to each node from its side
CLIENT_LEFTS, CLIENT_TOPS, CLIENT_WIDTH, CLIENT_HEIGHT = (16, 756), (162, 236), 128, 52
INSIDE = 188
DEVICE_TOP, DEVICE_HEIGHT = 494, 62
# of each node's memory, which part is which job's window: (job, left, width), in pixels
WINDOWS = (((0, 0, 92), (1, 100, 72)), ((0, 0, 64), (1, 72, 100)))
WINDOW_HEIGHT = 54
# in a window: (left, width) of the objects
OBJECTS = ((4, 24), (32, 14))


class Client(NamedTuple):
    job: int
    node: int


CLIENTS = tuple(Client(job, node) for node in range(len(NODE_LEFTS)) for job in range(len(JOB_COLOURS)))


class Parts:
    """The picture, drawn from the outside in."""

    def __init__(self) -> None:
        self.drawing = Drawing(WIDTH, HEIGHT, "The parts of a store that serves two jobs at two nodes")
        self.box(PROCESS_LEFT, PROCESS_TOP, PROCESS_WIDTH, PROCESS_HEIGHT, "store serve: one process", "#f4f4f4")
        for node in range(len(NODE_LEFTS)):
            self.node(node)
            self.device(node)
        self.grant()
        self.between_nodes()
        for client in CLIENTS:
            self.client(client)
        self.operator()

    def box(self, left: float, top: float, width: float, height: float, words: str, fill: str = "white", opacity: float = 1) -> None:
        self.drawing.box(left, top, width, height, fill, EDGE, opacity)
        self.drawing.text(left + 8, top + 17, words, 13)

    def note(self, x: float, y: float, words: str, anchor: str = "start") -> None:
        self.drawing.text(x, y, words, 12, anchor, PALE_INK)

    def inside(self, node: int) -> float:
        """Where what lies in the node begins."""
        return NODE_LEFTS[node] + (NODE_WIDTH - INSIDE) / 2

    def node(self, node: int) -> None:
        self.drawing.box(NODE_LEFTS[node], NODE_TOP, NODE_WIDTH, NODE_HEIGHT, "white", EDGE)
        self.drawing.text(NODE_LEFTS[node] + NODE_WIDTH / 2, NODE_TOP + 20, f"node {node}: one lock, one journal", 13, "middle")
        self.drawing.box(SOCKETS[node] - SOCKET_WIDTH / 2, SOCKET_TOP, SOCKET_WIDTH, SOCKET_HEIGHT, "white", INK)
        self.drawing.text(SOCKETS[node], SOCKET_TOP + 18, f"PATH.{node}", 13, "middle")
        left, top = self.inside(node), NODE_TOP + 98
        self.note(left, top - 8, "its memory: a window a job")
        self.drawing.box(left, top, INSIDE, 106, "#eeeeee", EDGE)
        for job, offset, width in WINDOWS[node]:
            self.window(job, left + 8 + offset, top + 8, width)
        self.box(left, NODE_TOP + 222, INSIDE, 28, "worker: spills, restores")

    def window(self, job: int, left: float, top: float, width: float) -> None:
        colour = JOB_COLOURS[job]
        self.drawing.box(left, top, width, WINDOW_HEIGHT, colour, colour, PALE)
        self.drawing.text(left + 5, top + 16, f"job {job + 1}", 12)
        for offset, length in OBJECTS:
            self.drawing.box(left + offset, top + 24, length, 24, colour, INK)

    def grant(self) -> None:
        """Of the second object of job 1 at the first node, to job 2."""
        (_, first, _), (_, second, width) = WINDOWS[0]
        left, top = self.inside(0) + 8, NODE_TOP + 98 + 8
        start, end = left + first + OBJECTS[1][0] + OBJECTS[1][1] / 2, left + second + width / 2
        self.drawing.arrow([(start, top + 48), (start, top + 72), (end, top + 72), (end, top + WINDOW_HEIGHT)], JOB_COLOURS[0], 2)
        self.note(left, top + 88, "a grant: job 2 may peek")

    def device(self, node: int) -> None:
        left = self.inside(node)
        self.box(left, DEVICE_TOP, INSIDE, DEVICE_HEIGHT, f"device: SPILL/{node}")
        for number, (job, name) in enumerate(((0, "1.1"), (0, "1.2"), (1, "2.1"))):
            at = left + 10 + 46 * number
            self.drawing.box(at, DEVICE_TOP + 27, 38, 26, JOB_COLOURS[job], INK, PALE)
            self.drawing.text(at + 19, DEVICE_TOP + 45, name, 12, "middle")
        worker = NODE_TOP + 250
        self.drawing.arrow([(left + 70, worker), (left + 70, DEVICE_TOP)])
        self.drawing.arrow([(left + INSIDE - 70, DEVICE_TOP), (left + INSIDE - 70, worker)])

    def between_nodes(self) -> None:
        first, second = NODE_LEFTS[0] + NODE_WIDTH, NODE_LEFTS[1]
        left, top, width = 300, PROCESS_TOP + 28, 300
        self.box(left, top, width, 44, "directory")
        self.note(left + 8, top + 36, "of each job: which nodes have its objects")
        for middle in (left + 60, left + width - 60):
            self.drawing.arrow([(middle, NODE_TOP), (middle, top + 44)])
        for y, start, end in ((NODE_TOP + 152, first, second), (NODE_TOP + 174, second, first)):
            self.drawing.arrow([(start, y), (end, y)])
        self.note((first + second) / 2, NODE_TOP + 144, "links", "middle")

    def client(self, client: Client) -> None:
        """A job's clients at a node, and their sessions at its socket."""
        colour, left, top = JOB_COLOURS[client.job], CLIENT_LEFTS[client.node], CLIENT_TOPS[client.job]
        self.drawing.box(left, top, CLIENT_WIDTH, CLIENT_HEIGHT, colour, colour, PALE)
        self.drawing.text(left + 8, top + 21, f"clients of job {client.job + 1}", 13)
        self.note(left + 8, top + 40, f"sessions at node {client.node}")
        side = 1 if client.node == 0 else -1
        start = left + CLIENT_WIDTH if client.node == 0 else left
        end, at_socket = SOCKETS[client.node] - side * SOCKET_WIDTH / 2, SOCKET_TOP + 7 + 12 * client.job
        turn, middle = (start + end) / 2, top + CLIENT_HEIGHT / 2
        self.drawing.arrow([(start, middle), (turn, middle), (turn, at_socket), (end, at_socket)], colour)

    def operator(self) -> None:
        self.box(CLIENT_LEFTS[0], 16, CLIENT_WIDTH, 46, "storectl")
        self.note(CLIENT_LEFTS[0] + 8, 52, "the operator")
        self.box(PROCESS_LEFT, 16, 320, 46, "store-daemon")
        self.note(PROCESS_LEFT + 8, 52, "starts, admits, watches, ends the server")
        self.drawing.arrow([(CLIENT_LEFTS[0] + CLIENT_WIDTH, 39), (PROCESS_LEFT, 39)])
        self.note((CLIENT_LEFTS[0] + CLIENT_WIDTH + PROCESS_LEFT) / 2, 32, "control", "middle")
        self.drawing.arrow([(PROCESS_LEFT + 60, 62), (PROCESS_LEFT + 60, PROCESS_TOP)])


def main() -> int:
    options = argparse.ArgumentParser(description=__doc__)
    options.add_argument("-o", "--output", type=Path, required=True, metavar="SVG", help="the file that is written")
    try:
        Parts().drawing.save(options.parse_args().output)
    except OSError as error:
        print(f"parts: {error}", file=sys.stderr)
        return 1
    return 0


if __name__ == "__main__":
    sys.exit(main())
