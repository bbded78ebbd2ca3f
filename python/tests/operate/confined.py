"""Runs a program that may make no sockets but Unix ones, as the unit file has systemd do it: `confined.py PROGRAM WORD ..`."""

from __future__ import annotations

import ctypes
import errno
import os
import struct
import sys

# of prctl, and of what the kernel runs at each call of x86-64: it loads a word, jumps if that equals another, or answers
NO_NEW_PRIVILEGES, SECCOMP, FILTER = 38, 22, 2
LOAD, JUMP_IF_EQUAL, ANSWER = 0x20, 0x15, 0x06
NUMBER_OF_CALL, FIRST_WORD = 0, 16
SOCKET, UNIX = 41, 1
REFUSED, ALLOWED = 0x50000 | errno.EAFNOSUPPORT, 0x7FFF0000
STEPS = (
    (LOAD, 0, 0, NUMBER_OF_CALL),
    (JUMP_IF_EQUAL, 0, 3, SOCKET),
    (LOAD, 0, 0, FIRST_WORD),
    (JUMP_IF_EQUAL, 1, 0, UNIX),
    (ANSWER, 0, 0, REFUSED),
    (ANSWER, 0, 0, ALLOWED),
)


class Program(ctypes.Structure):
    _fields_ = [("length", ctypes.c_ushort), ("steps", ctypes.c_char_p)]


def confine() -> None:
    libc = ctypes.CDLL(None, use_errno=True)
    program = Program(len(STEPS), b"".join(struct.pack("HBBI", *step) for step in STEPS))
    for words in ((NO_NEW_PRIVILEGES, 1, 0, 0, 0), (SECCOMP, FILTER, ctypes.byref(program), 0, 0)):
        if libc.prctl(*words):
            raise OSError(ctypes.get_errno(), os.strerror(ctypes.get_errno()))


if __name__ == "__main__":
    confine()
    os.execv(sys.argv[1], sys.argv[1:])
