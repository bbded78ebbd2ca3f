"""The daemon's settings: an ini file with a section `store`, and a section `job N` for each job that is admitted at each start.

Paths are taken from the file's own folder on. An option that isn't known is a fault, as a mistyped one would be left out unseen.
"""

from __future__ import annotations

import ast
import configparser
import grp
import logging
import os
import shutil
import stat
from dataclasses import dataclass
from pathlib import Path
from typing import Callable, Optional, Tuple, TypeVar, Union

from .keys import KeyFault, read_key
from .orders import Admit
from .sizes import parse_size

MOST_NODES = 8
# of a Unix socket's path, in bytes
LONGEST_SOCKET = 107
_MOST_JOB = (1 << 32) - 1
_MOST_MEMORY = 1 << 34
STORE_OPTIONS = {
    "program", "nodes", "memory", "overcommit", "socket", "socket_mode", "socket_group", "spill", "control", "ready", "log", "log_level",
    "grace", "watch", "watch_patience", "restart_stuck", "metrics",
}
JOB_OPTIONS = {"nodes", "window", "device", "key_file"}
# whoever may connect has to write to the socket; nobody runs one
_USUAL_MODE = 0o600
_MODES = (0o600, 0o660, 0o666)
_USUAL_GRACE, _USUAL_WATCH, _USUAL_PATIENCE = 10.0, 5.0, 30.0
# as the log's lines name them
_LEVELS = {"info": logging.INFO, "warning": logging.WARNING, "error": logging.ERROR}

LOOPBACK = "127.0.0.1"

Value = TypeVar("Value")
# a port of 127.0.0.1, or the path of a socket
Place = Union[int, Path]


class SettingsFault(Exception):
    """Settings that can't be used; the text says which and why."""


@dataclass(frozen=True)
class Settings:
    """What the server is started with, and the jobs in the order in which they are admitted.

    `memory` is of each node, in bytes, and with `overcommit` that of all may be more than the machine has; `grace` is how long sessions
    may stay open after a close, in seconds. Node K listens on `socket`.K and spills into the folder `spill`/K. Each `watch` seconds the
    server is looked at, never with 0; after `watch_patience` seconds without an answer it is stuck.
    """

    program: Path
    nodes: int
    memory: int
    overcommit: bool
    socket: Path
    socket_mode: int
    socket_group: Optional[int]
    spill: Path
    control: Path
    ready: Optional[Path]
    log: Optional[Path]
    log_level: int
    grace: float
    watch: float
    watch_patience: float
    restart_stuck: bool
    metrics: Optional[Place]
    jobs: Tuple[Admit, ...]

    def sockets(self) -> Tuple[Path, ...]:
        """The nodes' sockets, in order."""
        return tuple(Path(f"{self.socket}.{node}") for node in range(self.nodes))

    def epoch(self) -> Path:
        """The file by which clients tell one run of the server from the next."""
        return Path(f"{self.socket}.epoch")

    def starting(self) -> Path:
        """What the server is told to listen on: sessions find its sockets only once its jobs are admitted."""
        return Path(f"{self.socket}.new")

    def starting_sockets(self) -> Tuple[Path, ...]:
        """Where the server makes the nodes' sockets, in order."""
        return tuple(Path(f"{self.starting()}.{node}") for node in range(self.nodes))

    def server_control(self) -> Path:
        """Where the server itself takes orders, also those that its standard input hasn't. Its path is no longer than a node's."""
        return Path(f"{self.starting()}.c")

    def folders(self) -> Tuple[Path, ...]:
        """The folders that the nodes spill into, in order."""
        return tuple(self.spill / str(node) for node in range(self.nodes))


def read_settings(path: Path, usual_program: Callable[[], Path]) -> Settings:
    """The settings that a file has; if it names no program, `usual_program` is asked for one."""
    parser = configparser.ConfigParser(interpolation=None, default_section="every section")
    try:
        with open(path, encoding="utf-8") as file:
            _check_writers(path, os.fstat(file.fileno()))
            parser.read_file(file)
    except OSError as error:
        raise SettingsFault(f"{path}: {error.strerror}") from error
    except configparser.MissingSectionHeaderError as error:
        raise SettingsFault(f"{path}: line {error.lineno}: {error.line.strip()!r} stands before any section, as [store] is one") from error
    except configparser.ParsingError as error:
        number, line = error.errors[0]
        raise SettingsFault(f"{path}: line {number}: {_text_of(line)!r} is neither an option, as window = 64M, nor a section") from error
    except (configparser.Error, UnicodeDecodeError) as error:
        raise SettingsFault(" ".join(str(error).split())) from error
    return _Reader(path, parser).settings(usual_program)


def _text_of(line: str) -> str:
    """A line of a file, of which configparser gives what Python would show of it."""
    try:
        return str(ast.literal_eval(line)).strip()
    except (SyntaxError, ValueError):
        return line.strip()


def _check_writers(path: Path, found: os.stat_result) -> None:
    """`SettingsFault` if others may write the file: who writes it says which program is run."""
    mode = stat.S_IMODE(found.st_mode)
    if mode & 0o002:
        raise SettingsFault(f"{path}: every user may write it (mode {mode:04o}): chmod o-w {path}")
    if mode & 0o020 and found.st_gid != os.getegid():
        raise SettingsFault(f"{path}: group {found.st_gid} may write it (mode {mode:04o}): chmod g-w {path}")
    if found.st_uid not in (0, os.geteuid()):
        raise SettingsFault(f"{path}: user {found.st_uid} owns it, who is neither root nor runs this: chown {os.geteuid()} {path}")


class _Section:
    """A section's options, whose faults name file, section and option."""

    def __init__(self, path: Path, options: configparser.SectionProxy, known: "set[str]") -> None:
        self.path = path
        self.options = options
        for option in options:
            if option not in known:
                raise self.fault(option, f"there is no such option: {', '.join(sorted(known))}")

    def fault(self, option: str, why: str) -> SettingsFault:
        return SettingsFault(f"{self.path}: [{self.options.name}] {option}: {why}")

    def get(self, option: str, read: Callable[[str], Value], usual: Optional[Value] = None) -> Value:
        """The option's value as it is read, or the usual one if it isn't there."""
        text = self.options.get(option)
        if text is None:
            if usual is None:
                raise self.fault(option, "it isn't there")
            return usual
        try:
            return read(text)
        except (ValueError, KeyFault) as error:
            raise self.fault(option, str(error)) from error

    def get_path(self, option: str) -> Path:
        return self.get(option, self.place)

    def get_path_if_there(self, option: str) -> Optional[Path]:
        return self.get_path(option) if option in self.options else None

    def place(self, text: str) -> Path:
        if not text:
            raise ValueError("a path is expected")
        # made absolute without following links: what is there is looked at when it is used
        return Path(os.path.normpath(Path.cwd() / self.path.parent / text))


class _Reader:
    def __init__(self, path: Path, parser: configparser.ConfigParser) -> None:
        self.path = path
        self.parser = parser
        if not parser.has_section("store"):
            raise SettingsFault(f"{path}: there is no section [store]")
        self.store = _Section(path, parser["store"], STORE_OPTIONS)

    def settings(self, usual_program: Callable[[], Path]) -> Settings:
        store = self.store
        nodes = store.get("nodes", _within(1, MOST_NODES, "nodes"))
        settings = Settings(
            program=self.program(usual_program),
            nodes=nodes,
            memory=store.get("memory", _size_up_to(_MOST_MEMORY)),
            overcommit=store.get("overcommit", _choice, False),
            socket=store.get_path("socket"),
            socket_mode=store.get("socket_mode", _mode, _USUAL_MODE),
            socket_group=store.get("socket_group", _group) if "socket_group" in store.options else None,
            spill=store.get_path("spill"),
            control=store.get_path("control"),
            ready=store.get_path_if_there("ready"),
            log=store.get_path_if_there("log"),
            log_level=store.get("log_level", _level, logging.INFO),
            grace=store.get("grace", _seconds_from(0), _USUAL_GRACE),
            watch=store.get("watch", _seconds_from(0), _USUAL_WATCH),
            watch_patience=store.get("watch_patience", _seconds_from(0.1), _USUAL_PATIENCE),
            restart_stuck=store.get("restart_stuck", _choice, False),
            metrics=store.get("metrics", self.metrics) if "metrics" in store.options else None,
            jobs=self.jobs(nodes),
        )
        served = [settings.metrics] if isinstance(settings.metrics, Path) else []
        for socket in (*settings.starting_sockets(), settings.control, *served):
            if len(os.fsencode(socket)) > LONGEST_SOCKET:
                raise SettingsFault(f"{self.path}: socket {socket}: longer than {LONGEST_SOCKET} bytes")
        return settings

    def program(self, usual: Callable[[], Path]) -> Path:
        program = self.store.get_path("program") if "program" in self.store.options else usual()
        if not shutil.which(str(program)):
            raise SettingsFault(f"{self.path}: program {program}: there is no such program")
        return program

    def metrics(self, text: str) -> Place:
        return metrics_place(text) or self.store.place(text)

    def jobs(self, nodes: int) -> Tuple[Admit, ...]:
        """By number, since at a node each job's number is greater than all before."""
        orders = []
        for name in self.parser.sections():
            if name != "store":
                orders += self.job(name, nodes)
        orders.sort(key=lambda order: (order.job, order.node))
        for first, second in zip(orders, orders[1:]):
            if (first.job, first.node) == (second.job, second.node):
                raise SettingsFault(f"{self.path}: job {first.job} has two sections for node {first.node}")
        return tuple(orders)

    def job(self, name: str, nodes: int) -> "list[Admit]":
        word, _, text = name.partition(" ")
        if word != "job":
            raise SettingsFault(f"{self.path}: there is no section [{name}]: [store] and [job NUMBER]")
        try:
            number = _within(1, _MOST_JOB, "a job's number")(text)
        except ValueError as error:
            raise SettingsFault(f"{self.path}: section [{name}]: {error}") from error
        section = _Section(self.path, self.parser[name], JOB_OPTIONS)
        window = section.get("window", parse_size)
        device = section.get("device", parse_size, 0)
        key = section.get("key_file", lambda text: read_key(section.place(text)))
        at_nodes = section.get("nodes", _some_of(nodes), tuple(range(nodes)))
        return [Admit(node, number, window, device, key) for node in at_nodes]


def _within(least: int, most: int, what: str) -> Callable[[str], int]:
    def read(text: str) -> int:
        if not (text.isascii() and text.isdigit() and least <= int(text) <= most):
            raise ValueError(f"{text!r} isn't {what} from {least} to {most}")
        return int(text)

    return read


def _size_up_to(most: int) -> Callable[[str], int]:
    def read(text: str) -> int:
        size = parse_size(text)
        if size > most:
            raise ValueError(f"{text} is more than {most} bytes")
        return size

    return read


def _some_of(nodes: int) -> Callable[[str], Tuple[int, ...]]:
    def read(text: str) -> Tuple[int, ...]:
        chosen = sorted({_within(0, nodes - 1, "a node")(word) for word in text.split()})
        if not chosen:
            raise ValueError("a list of nodes is expected, like 0 1")
        return tuple(chosen)

    return read


def _choice(text: str) -> bool:
    if text not in ("yes", "no"):
        raise ValueError(f"{text!r} isn't yes or no")
    return text == "yes"


def _mode(text: str) -> int:
    for mode in _MODES:
        if text in (f"{mode:o}", f"{mode:04o}"):
            return mode
    raise ValueError(f"{text!r} isn't one of {', '.join(f'{mode:04o}' for mode in _MODES)}")


def _group(text: str) -> int:
    try:
        return grp.getgrnam(text).gr_gid
    except KeyError:
        raise ValueError(f"there is no group {text!r}") from None


def _level(text: str) -> int:
    if text not in _LEVELS:
        raise ValueError(f"{text!r} isn't one of {', '.join(_LEVELS)}")
    return _LEVELS[text]


def _seconds_from(least: float) -> Callable[[str], float]:
    def read(text: str) -> float:
        try:
            seconds = float(text)
        except ValueError:
            seconds = -1
        if not least <= seconds <= 86_400:
            raise ValueError(f"{text!r} isn't a number of seconds from {least:g} to 86400")
        return seconds

    return read


def metrics_place(text: str) -> Optional[int]:
    """The port of 127.0.0.1 that the text names; None of a path. What names another address is a fault: none but this machine may ask."""
    address, colon, port = text.rpartition(":")
    if not colon or "/" in text:
        return None
    if address != LOOPBACK:
        raise ValueError(f"{text!r} isn't {LOOPBACK}:PORT, nor a path: only this machine may ask")
    return _within(1, 65_535, "a port")(port)
