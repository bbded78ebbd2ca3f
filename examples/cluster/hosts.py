"""Hosts for a cluster on this machine: each with a store and workers of two jobs, and a scheduler for each job beside them."""

from __future__ import annotations

import contextlib
import ctypes
import importlib
import json
import multiprocessing
import os
import subprocess
import sys
import time
from dataclasses import dataclass, field
from pathlib import Path
from typing import Any, Dict, Iterator, List, Optional

from distributed import Client
from inside import has_network

from store_client import dask

# seconds that a start or an end may take, on a machine that does much else
PATIENCE = 120
# of the first job's scheduler, and the first part of all addresses
_PORT, _NETWORK = 8800, "10.77.0"
# a host that is gone is to be seen soon; what goes over a link is to be what is passed; who runs a task is to be the same each time
_SETTINGS = {
    "DASK_DISTRIBUTED__COMM__COMPRESSION": "None",
    "DASK_DISTRIBUTED__COMM__TIMEOUTS__TCP": "15s",
    "DASK_DISTRIBUTED__SCHEDULER__WORK_STEALING": "False",
    # a dozen processes that look at themselves 150 times a second are much for one machine
    "DASK_DISTRIBUTED__ADMIN__TICK__INTERVAL": "1s",
    "DASK_DISTRIBUTED__ADMIN__TICK__LIMIT": "60s",
    "DASK_DISTRIBUTED__ADMIN__SYSTEM_MONITOR__INTERVAL": "5s",
    "DASK_DISTRIBUTED__WORKER__PROFILE__INTERVAL": "1s",
    "DASK_LOGGING__DISTRIBUTED": "error",
    "OPENBLAS_NUM_THREADS": "1",
}


@dataclass
class Job:
    """A job: what it may use of each node of a store, and how many workers of one thread it has on each host."""

    window: int
    device: int
    workers: int

    def key(self, number: int) -> str:
        """The key of the job of this number, in hexadecimal digits."""
        return f"{number:064x}"


@dataclass
class Host:
    """What runs on a host."""

    name: str
    address: str
    store: Optional[subprocess.Popen[str]] = None
    # whose network namespace is the host's
    keeper: Optional[subprocess.Popen[bytes]] = None
    workers: Dict[str, Any] = field(default_factory=dict)
    is_lost: bool = False


class Hosts:
    """The hosts while they run."""

    def __init__(self, folder: Path, names: str, jobs: Dict[int, Job], nodes: int = 2, **words: Any) -> None:
        """A name is one letter. Each store has so many nodes. The other words go to `attach`."""
        self._folder, self.jobs, self._nodes, self._words = folder, jobs, nodes, words
        self.hosts = {name: Host(name, f"{_NETWORK}.{number}") for number, name in enumerate(names, 2)}
        self.clients: Dict[int, Client] = {}
        self._schedulers: List[Any] = []
        os.environ.update(_SETTINGS)
        # a process that has read all modules, from which the others are forked off
        self._processes = multiprocessing.get_context("forkserver")
        self._processes.set_forkserver_preload(["distributed.cli.dask_scheduler", "distributed.cli.dask_worker", "numpy"])

    def __enter__(self) -> Hosts:
        try:
            self._begin()
        except BaseException:
            self.__exit__()
            raise
        return self

    def _begin(self) -> None:
        if has_network():
            self._connect_hosts()
        for host in self.hosts.values():
            self.serve(host)
        for job in self.jobs:
            self._schedule(job)
        for job, told in self.jobs.items():
            for number in range(told.workers):
                for name in self.hosts:
                    self.work(name, job, number)
        for job, told in self.jobs.items():
            self._attach(job, told.workers * len(self.hosts))

    def _attach(self, job: int, workers: int) -> None:
        client = self.clients[job] = Client(self._scheduler_address(job), timeout=PATIENCE, set_as_default=job == 1)
        client.wait_for_workers(workers, timeout=PATIENCE)
        # the sockets and keys are in each worker's environment
        dask.attach(client, "", job, nodes=self._nodes, **self._words)

    def __exit__(self, *_: object) -> None:
        for client in self.clients.values():
            with contextlib.suppress(Exception):
                client.close(timeout=5)
        for host in self.hosts.values():
            end(*host.workers.values())
        end(*self._schedulers)
        for host in self.hosts.values():
            end(host.store, host.keeper)
        if has_network():
            for link in ("bridge", *(self.link(host.name) for host in self.hosts.values() if not host.is_lost)):
                subprocess.run(["ip", "link", "del", link], stderr=subprocess.DEVNULL, check=False)

    # ---- the network: a bridge, and a namespace for each host

    def _connect_hosts(self) -> None:
        run("ip", "link", "set", "lo", "up")
        run("ip", "link", "add", "bridge", "type", "bridge")
        run("ip", "addr", "add", f"{_NETWORK}.1/24", "dev", "bridge")
        run("ip", "link", "set", "bridge", "up")
        for host in self.hosts.values():
            host.keeper = subprocess.Popen(["unshare", "--net", "sleep", "infinity"])
            link, inside = self.link(host.name), ["nsenter", "--target", str(host.keeper.pid), "--net", "ip"]
            wait_until(lambda: own_network(host.keeper), "a namespace")
            run("ip", "link", "add", link, "type", "veth", "peer", "name", "eth0", "netns", str(host.keeper.pid))
            run("ip", "link", "set", link, "master", "bridge", "up")
            run(*inside, "addr", "add", f"{host.address}/24", "dev", "eth0")
            run(*inside, "link", "set", "eth0", "up")
            run(*inside, "link", "set", "lo", "up")

    def link(self, host: str) -> str:
        """The end of the host's link that is here."""
        return f"to{host}"

    def socket(self, host: str, node: int) -> str:
        """Where a node of the host's store listens."""
        return f"{self._folder / host}.{node}"

    def delivered(self, host: str) -> int:
        """How many bytes went over the link to the host."""
        words = ["ip", "-json", "-statistics", "link", "show", self.link(host)]
        told = json.loads(subprocess.run(words, stdout=subprocess.PIPE, check=True).stdout)
        return int(told[0]["stats64"]["tx"]["bytes"])

    # ---- what is started

    def serve(self, host: Host) -> None:
        """Starts the host's store, and admits the jobs."""
        for left in self._folder.glob(f"{host.name}.*"):
            # of a store that was killed, as store-daemon removes it
            left.unlink()
        memory = sum(job.window for job in self.jobs.values())
        # which was found before; not by what starts servers for tests, as a release has this and no tests
        words = [os.environ["STORE_PROGRAM"], "serve", "--socket", str(self._folder / f"{host.name}.new"), "--nodes", str(self._nodes)]
        words += ["--memory", str(memory), "--spill", str(self._folder / f"spill{host.name}")]
        host.store = subprocess.Popen(words, stdin=subprocess.PIPE, stdout=subprocess.PIPE, text=True)
        assert host.store.stdin and host.store.stdout
        for number, job in self.jobs.items():
            for node in range(self._nodes):
                host.store.stdin.write(f"admit {node} {number} {job.window} {job.device} {job.key(number)}\n")
                host.store.stdin.flush()
                if host.store.stdout.readline() != f"n{node} op ok\n":
                    raise SystemExit(f"the store of host {host.name} admits no job {number}")
        # only now sessions find it
        for node in range(self._nodes):
            os.rename(self._folder / f"{host.name}.new.{node}", self._folder / f"{host.name}.{node}")

    def _schedule(self, job: int) -> None:
        host, port = self._scheduler_address(job)[6:].split(":")
        words = ["--host", host, "--port", port, "--no-dashboard", "--dashboard-address", f"{host}:0"]
        self._schedulers.append(self._start("distributed.cli.dask_scheduler", words, {}, 0))

    def _scheduler_address(self, job: int) -> str:
        return f"tcp://{f'{_NETWORK}.1' if has_network() else '127.0.0.1'}:{_PORT + job}"

    def work(self, name: str, job: int, number: int) -> None:
        """Starts a worker: of job 1 on host A they are A1.0, A1.1, .."""
        host, worker = self.hosts[name], f"{name}{job}.{number}"
        words = [self._scheduler_address(job), "--name", worker, "--nthreads", "1", "--no-nanny", "--memory-limit", "6GB"]
        words += ["--host", host.address if has_network() else "127.0.0.1", "--no-dashboard", "--local-directory", str(self._folder)]
        place = {"STORE_HOST": name, "STORE_SOCKET": str(self._folder / name), "STORE_KEY": self.jobs[job].key(job)}
        host.workers[worker] = self._start("distributed.cli.dask_worker", words, place, host.keeper.pid if host.keeper else 0)

    def _start(self, module: str, words: List[str], place: Dict[str, str], keeper: int) -> Any:
        process = self._processes.Process(target=become, args=(module, words, place, keeper, str(self._folder / "log")), daemon=True)
        process.start()
        return process

    # ---- what is looked at, and what goes wrong

    def process(self, worker: str) -> Any:
        """The worker's process."""
        return self.hosts[worker[0]].workers[worker]

    def kill_worker(self, worker: str) -> None:
        """The worker is gone, without a word."""
        kill(self.process(worker))

    def kill_store(self, host: str) -> None:
        """The host's store is gone, without a word."""
        kill(self.hosts[host].store)

    def kill_host(self, host: str) -> None:
        """The host is gone: first its link, if it has one, and then all that runs there."""
        if has_network():
            run("ip", "link", "del", self.link(host))
        there = self.hosts[host]
        there.is_lost = True
        for process in (*there.workers.values(), there.store):
            kill(process)

    def resident(self, process: Any, at_most: bool = False) -> int:
        """How much memory a process has, in bytes; or the most that it had since `forget_most`."""
        wanted = "VmHWM:" if at_most else "VmRSS:"
        for line in Path(f"/proc/{process.pid}/status").read_text(encoding="ascii").splitlines():
            if line.startswith(wanted):
                return int(line.split()[1]) * 1024
        return 0

    def forget_most(self, process: Any) -> None:
        """From now on the most memory that a process has is looked at anew."""
        Path(f"/proc/{process.pid}/clear_refs").write_text("5", encoding="ascii")


def become(module: str, words: List[str], place: Dict[str, str], keeper: int, log: str) -> None:
    """What a process of Dask's does: it goes to the network of the host's keeper, and calls the module's main."""
    os.environ.update(place)
    file = os.open(log, os.O_WRONLY | os.O_CREAT | os.O_APPEND)
    os.dup2(file, 1)
    os.dup2(file, 2)
    if keeper:
        network = os.open(f"/proc/{keeper}/ns/net", os.O_RDONLY)
        if ctypes.CDLL(None, use_errno=True).setns(network, 0):
            raise OSError(ctypes.get_errno(), "setns")
    sys.argv = [module, *words]
    importlib.import_module(module).main()


def run(*words: str) -> None:
    """A command that has to succeed."""
    subprocess.run(words, check=True)


def own_network(process: Any) -> bool:
    """Whether the process has a network namespace of its own by now."""
    return os.readlink(f"/proc/{process.pid}/ns/net") != os.readlink("/proc/self/ns/net")


def wait_until(is_so: Any, what: str, seconds: float = PATIENCE) -> None:
    """Until it is so. `TimeoutError`."""
    end_of_wait = time.monotonic() + seconds
    while not is_so():
        if time.monotonic() > end_of_wait:
            raise TimeoutError(f"{what} didn't come in {seconds:.0f} seconds")
        time.sleep(0.02)


def kill(process: Any) -> None:
    """A process of ours ends at once."""
    process.kill()
    await_end(process, PATIENCE)


def await_end(process: Any, seconds: float) -> None:
    """Until the process has ended, or so many seconds."""
    if isinstance(process, subprocess.Popen):
        with contextlib.suppress(subprocess.TimeoutExpired):
            process.wait(seconds)
    else:
        process.join(seconds)


def end(*processes: Any) -> None:
    """Processes of ours are told to end, and end at last."""
    for process in processes:
        if process:
            process.terminate()
    for process in processes:
        if process:
            await_end(process, 5)
            kill(process)


@contextlib.contextmanager
def timed(what: str) -> Iterator[None]:
    """Says how long it took."""
    start = time.monotonic()
    yield
    print(f"{what}: {time.monotonic() - start:.1f} s", flush=True)
