"""The command line of `store-daemon`."""

from __future__ import annotations

import argparse
import asyncio
import dataclasses
import logging
import logging.handlers
import os
import shlex
import shutil
import signal
import sys
import time
from pathlib import Path
from typing import Callable, Optional, Sequence

from . import __version__
from .checks import faults_of, warnings_of
from .control import Control
from .first import make_first
from .looking import Looks
from .metrics import Metrics
from .reloading import Reloading
from .serving import MetricsServer
from .settings import Place, Settings, SettingsFault, metrics_place, read_settings
from .sizes import many
from .sockets import SocketFault
from .spill import SpillFault
from .supervisor import StartFault, Supervisor
from .terminal import Terminal
from .watching import tell_watchdog


def usual_program() -> Path:
    """The program that STORE_PROGRAM names, or in a release the one beside the daemon, or in the repository what operate/program finds."""
    named = os.environ.get("STORE_PROGRAM")
    if named:
        return Path(named).absolute()
    beside = Path(sys.argv[0]).resolve().parent / "store"
    if shutil.which(str(beside)):
        return beside
    try:
        from store_release.faults import DistFault
        from store_release.program import program_path
    except ImportError:
        return beside
    try:
        return Path(program_path())
    except DistFault as fault:
        raise SettingsFault(str(fault)) from fault


def open_log(path: Optional[Path], level: int) -> logging.Logger:
    """Lines with times, to standard error or at the end of a file, which is made anew if it is moved away."""
    log = logging.getLogger("store-daemon")
    log.setLevel(level)
    handler: logging.Handler = logging.StreamHandler()
    if path:
        handler = logging.handlers.WatchedFileHandler(path, encoding="utf-8")
    formatter = logging.Formatter("%(asctime)s.%(msecs)03dZ %(levelname)s %(message)s", "%Y-%m-%dT%H:%M:%S")
    formatter.converter = time.gmtime
    handler.setFormatter(formatter)
    log.addHandler(handler)
    return log


def take_signals(supervisor: Supervisor, reloading: Reloading, terminal: Terminal) -> None:
    """SIGHUP tells of new settings. If it comes since the terminal has just gone that the daemon was started from it ends it, unless it was
    started by nohup."""
    loop, outlasts = asyncio.get_running_loop(), signal.getsignal(signal.SIGHUP) is signal.SIG_IGN

    def read_again() -> None:
        if not terminal.has_just_gone:
            reloading.ask()
        elif not outlasts:
            supervisor.stop(False)

    for number in (signal.SIGTERM, signal.SIGINT):
        # as a shell does it in the background
        if signal.getsignal(number) is not signal.SIG_IGN:
            loop.add_signal_handler(number, supervisor.stop, False)
    loop.add_signal_handler(signal.SIGHUP, read_again)


async def serve(settings: Settings, read: Callable[[], Settings], log: logging.Logger) -> None:
    supervisor = Supervisor(settings, log)
    looks = Looks(supervisor)
    metrics = Metrics(looks)
    control, served = Control(supervisor, looks, metrics, log), MetricsServer(settings, looks, metrics)
    reloading, terminal = Reloading(supervisor, read, log), Terminal()
    take_signals(supervisor, reloading, terminal)
    aside = [asyncio.ensure_future(work) for work in (tell_watchdog(), reloading.run(), terminal.watch())]
    try:
        # of two daemons with the same settings only one goes on from here
        supervisor.take()
        await control.open()
        served.open()
        await supervisor.run()
    finally:
        for task in aside:
            task.cancel()
        await served.close()
        await control.close()


def arguments() -> argparse.ArgumentParser:
    parser = argparse.ArgumentParser(prog="store-daemon", description="Runs a store server as a service, and takes orders for it.")
    parser.add_argument("settings", metavar="FILE", type=Path, nargs="?", help="the settings, an ini file: store-daemon(1)")
    parser.add_argument("--check", action="store_true", help="reads the settings and the keys, and starts nothing")
    parser.add_argument("--metrics", metavar="PLACE", help="serves /metrics and /health: the path of a socket, or 127.0.0.1:PORT")
    parser.add_argument("--new", metavar="FOLDER", type=Path, help="makes a folder with settings and a job's key to begin with")
    parser.add_argument("--version", action="version", version=f"store-daemon {__version__}")
    return parser


def run(words: argparse.Namespace) -> None:
    if words.new:
        # as it was called, since it may not be on the path
        print(shlex.join([sys.argv[0], str(make_first(words.new, usual_program()))]))
        return
    settings = read(words)
    if words.check:
        check(settings, words.settings)
        return
    # all that is made from here on is the owner's alone
    os.umask(0o077)
    asyncio.run(serve(settings, lambda: read(words), open_log(settings.log, settings.log_level)))


def read(words: argparse.Namespace) -> Settings:
    """The settings of the file, and what the command line says beside it."""
    settings = read_settings(words.settings, usual_program)
    return settings if words.metrics is None else dataclasses.replace(settings, metrics=served_at(words.metrics))


def served_at(text: str) -> Place:
    try:
        return metrics_place(text) or Path(text).absolute()
    except ValueError as error:
        raise SettingsFault(f"--metrics: {error}") from error


def check(settings: Settings, path: Path) -> None:
    """All that is wrong, a line each; `SettingsFault` has the last of them."""
    for warning in warnings_of(settings):
        print(f"store-daemon: {path}: a warning: {warning}", file=sys.stderr)
    *first, last = faults_of(settings) or [""]
    for fault in first:
        print(f"store-daemon: {path}: {fault}", file=sys.stderr)
    if last:
        raise SettingsFault(f"{path}: {last}")
    print(f"{path}: {many(settings.nodes, 'node')}, {many(len(settings.jobs), 'admission')}")


def main(given: Optional[Sequence[str]] = None) -> int:
    parser = arguments()
    words = parser.parse_args(given)
    if (words.settings is None) == (words.new is None):
        parser.error("either FILE or --new FOLDER")
    try:
        run(words)
    except (SettingsFault, SocketFault, SpillFault, StartFault, OSError) as fault:
        print(f"store-daemon: {fault}", file=sys.stderr)
        return 1
    return 0
