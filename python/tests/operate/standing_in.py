#!/usr/bin/env python3
"""A program that stands in for one whose control socket has the lines `counts`: it runs the program that STANDS_FOR names, and takes its
control connections.

A line `counts ..` is answered by the line that the file `counts`, in JSON beside the socket, has for it; by nothing if that is empty;
otherwise by zeros for a node, and for a job that it doesn't live. All other lines are passed on.
"""

from __future__ import annotations

import json
import os
import socket
import sys
import threading
from pathlib import Path

# of a node of which the file says nothing
ZEROS = "hellos:0 hellos-refused:0 malformed:0 lock-waits:0 lock-sleeps:0 end-folds:0"


def main() -> None:
    words = [os.environ["STANDS_FOR"], *sys.argv[1:]]
    place = words.index("--control") + 1
    path = words[place]
    words[place] = f"{path}.own"
    listening = socket.socket(socket.AF_UNIX)
    listening.bind(path)
    listening.listen()
    ending, living = os.pipe()
    # the program holds it until it ends, however it does
    os.set_inheritable(living, True)
    if os.fork():
        listening.close()
        os.execv(words[0], words)
    keep_only(listening.fileno(), ending)
    threading.Thread(target=take_all, args=(listening, path), daemon=True).start()
    os.read(ending, 1)
    os._exit(0)


def keep_only(*kept: int) -> None:
    """The program's streams and its lock are its own."""
    for descriptor in range(3, 256):
        if descriptor not in kept:
            os.closerange(descriptor, descriptor + 1)
    nowhere = os.open(os.devnull, os.O_RDWR)
    for descriptor in range(3):
        os.dup2(nowhere, descriptor)


def take_all(listening: socket.socket, path: str) -> None:
    while True:
        threading.Thread(target=answer_all, args=(listening.accept()[0], path), daemon=True).start()


def answer_all(stream: socket.socket, path: str) -> None:
    with stream, stream.makefile() as lines:
        for line in lines:
            answer = counted(line, path) if line.startswith("counts ") else passed_on(line, path)
            if not answer:
                return
            stream.sendall(answer.encode())


def counted(line: str, path: str) -> str:
    file = Path(path).with_name("counts")
    told = json.loads(file.read_text()) if file.exists() else {}
    words = line.split()
    usual = f"n{words[1]} op counts {ZEROS}" if len(words) == 2 else f"n{words[1]} op refused 1 NotAdmitted"
    answer = told.get(line.rstrip("\n"), usual)
    return f"{answer}\n" if answer else ""


def passed_on(line: str, path: str) -> str:
    with socket.socket(socket.AF_UNIX) as stream:
        stream.connect(f"{path}.own")
        stream.sendall(line.encode())
        with stream.makefile() as answers:
            return answers.readline()


if __name__ == "__main__":
    main()
