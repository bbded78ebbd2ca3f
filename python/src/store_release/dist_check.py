"""Makes a release and its Debian package twice and compares; unpacks both in empty folders, looks at checksums, manual pages and the
wheels, and serves from there with an empty environment; runs the program below a root that has nothing but the libraries that
it names, if this user may do so; and makes the release that is kept in dist/ again, if there is one. The last line counts.

The releases are made in clones of the last commit, in each of which the program that operate/program finds lies as if it had been built
and proved there: what is tried is how it is packed, not of which sources it is.

With --root FOLDER the package is installed and serves in a Debian system, and is removed from it again. Such a folder is made by
debootstrap --variant=minbase --include=python3 bookworm FOLDER
"""

from __future__ import annotations

import argparse
import contextlib
import functools
import gzip
import hashlib
import os
import re
import shlex
import shutil
import subprocess
import sys
import tempfile
import time
import zipfile
from pathlib import Path
from typing import Callable, List, Optional, Sequence

from .debian import NAME, unpacked as files_of
from .faults import ROOT, DistFault, output
from .kept import newest
from .program import BUILT, NOTE, built_program, program_or_end
from .proved import ENDING, PROVED, read_proved
from .sources import committed_tree

EXAMPLES = ROOT / "examples"
PAGES = sorted((ROOT / "operate/man").glob("*.1"))
CLIENT_PAGE = ROOT / "clients/python/README.md"
# what differs if only what is known of the program does
TOLD = {PROVED, "SHA256SUMS"}
# seconds that a step may take
PATIENCE = 100
A_MINUTE = 60
# what a release is run with
NAMES = {"PATH": "/usr/sbin:/usr/bin:/sbin:/bin"}


def printed(words: Sequence[str], given: bytes = b"") -> bytes:
    """What a program prints that does its work."""
    done = subprocess.run(words, input=given, capture_output=True, timeout=PATIENCE, env=NAMES, cwd="/", check=False)
    assert done.returncode == 0, f"{' '.join(words)}: status {done.returncode}: {done.stderr.decode()}{done.stdout.decode()}"
    return done.stdout


def cloned(clone: Path, commit: str = "HEAD") -> Path:
    """A clone of this repository, with the files of the commit."""
    if not clone.exists():
        printed(["git", "clone", "-q", "--no-checkout", str(ROOT), str(clone)])
        printed(["git", "-C", str(clone), "checkout", "-q", commit])
    return clone


def ran(clone: Path, script: str, *words: str, named: Optional[Path] = None) -> None:
    """Runs a script of a clone, which takes the program that is named, or the one that was built there."""
    names = {name: value for name, value in os.environ.items() if name != "STORE_PROGRAM"}
    command = [sys.executable, str(clone / "operate" / script), *words]
    if named:
        names["STORE_PROGRAM"] = str(named)
    done = subprocess.run(command, capture_output=True, text=True, check=False, timeout=PATIENCE, env=names)
    assert done.returncode == 0, f"{' '.join(command)}: status {done.returncode}: {done.stderr}"


def built(folder: Path, gate: Optional[Path] = None) -> Path:
    """A clone with the program, of which its file says that it was proved there, and what this gate printed."""
    clone = cloned(folder / "built")
    program = clone / BUILT.relative_to(ROOT)
    if not program.exists():
        program.parent.mkdir(exist_ok=True)
        shutil.copy(os.environ["STORE_PROGRAM"], program)
    ran(clone, "note-program", "--proved", "yes", *(["--gate", str(gate)] if gate else []))
    return clone


def release(clone: Path, folder: Path, named: Optional[Path] = None) -> Path:
    """A release in this folder."""
    ran(clone, "dist", "-o", str(folder), named=named)
    found = list(folder.glob("*.tar.gz"))
    assert len(found) == 1, f"{found}"
    return found[0]


def package(folder: Path) -> Path:
    """A package."""
    made = folder / "packaged"
    if not made.exists():
        ran(built(folder), "dist", "--deb", "-o", str(made))
    return next(made.glob("*.deb"))


def twice_the_same(folder: Path) -> None:
    for name in ("first", "second"):
        release(built(folder), folder / name)
        ran(built(folder), "dist", "--deb", "-o", str(folder / name))
        # a file's time may be counted in seconds
        time.sleep(1.1)
    made = {path.name for path in (folder / "first").iterdir()}
    kinds = sorted(path.suffix for path in (folder / "first").iterdir() if path.suffix != ".sha256")
    assert (kinds, len(made)) == ([".deb", ".gz", ".whl", ".whl"], 8), f"{made}"
    for name in made:
        assert (folder / "first" / name).read_bytes() == (folder / "second" / name).read_bytes(), f"{name} is another one"


def unpacked(folder: Path) -> Path:
    """What a release is unpacked to."""
    there = folder / "unpacked"
    if not there.exists():
        there.mkdir()
        printed(["tar", "-xzf", str(release(built(folder), folder / "third")), "-C", str(there)])
    tops = list(there.iterdir())
    assert len(tops) == 1, f"{tops}"
    return tops[0]


def checksums(folder: Path) -> None:
    top = unpacked(folder)
    printed(["sh", "-c", f"cd '{top}' && sha256sum --strict --quiet -c SHA256SUMS"])
    listed = {line.split(None, 1)[1] for line in (top / "SHA256SUMS").read_text().splitlines()}
    there = {str(path.relative_to(top)) for path in top.rglob("*") if path.is_file()}
    assert listed == there - {"SHA256SUMS"}, f"{listed ^ there}"


def proved(archive: Path) -> str:
    """What a release says of its program."""
    return files_of(archive.read_bytes())[PROVED].data.decode()


GATE = """\
== two
logic=proved functions=7
rt: two proved
rt: one is kept: an earlier run proved it
== two: its tests
logic=proved tests=3
rt: two: its tests are proved

13 passed, 0 failed

"""
VERDICTS = "\n  one: kept\n  two: proved: logic=proved functions=7\n  two (tests): proved: logic=proved tests=3\n"


def says_what_is_known(folder: Path) -> None:
    """What the gate printed last and of each crate, if it is given; and otherwise that it isn't known."""
    gate = folder / "gate"
    gate.write_text(GATE)
    text = proved(release(built(folder, gate), folder / "gated"))
    assert read_proved(text)["gate"] == "13 passed, 0 failed" and text.endswith(VERDICTS), text
    text = proved(release(built(folder), folder / "alone"))
    told = read_proved(text)
    program = hashlib.sha256((unpacked(folder) / "bin/store").read_bytes()).hexdigest()
    assert (told["proved"], told["gate"], told["program"]) == ("yes", "not known", f"sha256 {program}"), text
    assert re.fullmatch("[0-9a-f]{40}", told["commit"]), text
    assert told["sources"] == committed_tree(), text


def wheels(folder: Path) -> List[Path]:
    """The client's and the server's, beside a release, of which the first is in it too."""
    top = unpacked(folder)
    found = sorted((folder / "third").glob("*.whl"))
    assert [path.name.split("-")[0] for path in found] == ["store_client", "store_server"], f"{found}"
    assert [path.read_bytes() for path in (top / "share/store/python").iterdir()] == [found[0].read_bytes()], "the release has another"
    return found


def wheels_are_whole(folder: Path) -> None:
    """Each has the files that it lists, and the licence. Python runs the client's as it is; the server's has the release's program."""
    for path in wheels(folder):
        with zipfile.ZipFile(path) as archive:
            files = {name: archive.read(name) for name in archive.namelist()}
        about = "-".join(path.name.split("-")[:2]) + ".dist-info"
        listed = files[f"{about}/RECORD"].decode().splitlines()
        assert [line.split(",")[0] for line in listed] == list(files), f"{path.name}: {listed}"
        assert files[f"{about}/LICENSE"] == (unpacked(folder) / "LICENSE").read_bytes(), f"{path.name}: another licence"
    for name in ("bin/store", "PROVED"):
        assert files[f"store_server/{Path(name).name}"] == (unpacked(folder) / name).read_bytes(), f"{path.name}: another {name}"
    client = wheels(folder)[0]
    said = printed(["env", f"PYTHONPATH={client}", sys.executable, "-m", "store_client", "--version"])
    assert said.decode() == f"store-client {client.name.split('-')[1]}\n", f"{said!r}"


HELLO = """\
import store_client
with store_client.local("1M") as store, store.get(store.put(b"Hello")) as view:
    print(bytes(view).decode())
"""


def pip_installs_the_wheels(folder: Path) -> None:
    """The client, and by its extra the server, from the release's folder alone, as the client's page says. Then Python has a store with
    one call."""
    client, server = wheels(folder)
    found = re.search(r"^    \$ pip (install .*--find-links dist .*)$", CLIENT_PAGE.read_text(encoding="utf-8"), re.MULTILINE)
    assert found, f"{CLIENT_PAGE} shows no such line"
    shown = [str(client.parent) if word == "dist" else word for word in shlex.split(found[1])]
    there = folder / "environment"
    printed([sys.executable, "-m", "venv", "--without-pip", str(there)])
    pip = [sys.executable, "-m", "pip", "--isolated", "--disable-pip-version-check", "--python", str(there / "bin/python")]
    printed([*pip, *shown, "-q", "--no-cache-dir"])
    assert printed([str(there / "bin/python"), "-c", HELLO]) == b"Hello\n", "no Hello"
    for program, wheel in (("store-client", client), ("store", server)):
        said = printed([str(there / "bin" / program), "--version"]).decode()
        assert said == f"{program} {wheel.name.split('-')[1]}\n", f"{program} says {said!r}"


def serves(folder: Path) -> None:
    serves_from(unpacked(folder) / "bin", folder / "place")


def the_package_serves(folder: Path) -> None:
    """From a folder that it is unpacked into, with the manual pages in it."""
    top = folder / "package"
    printed(["dpkg-deb", "-x", str(package(folder)), str(top)])
    pages = {path.name: gzip.decompress(path.read_bytes()) for path in (top / "usr/share/man/man1").iterdir()}
    assert pages == {f"{page.name}.gz": page.read_bytes() for page in PAGES}, f"{sorted(pages)}"
    assert b"/opt/" not in (top / "usr/lib/systemd/system/store.service").read_bytes()
    printed(["env", f"PYTHONPATH={top}/usr/lib/python3/dist-packages", sys.executable, "-B", "-c", "import store_client"])
    serves_from(top / "usr/bin", folder / "place2")


def a_system_serves(system: Path, folder: Path) -> None:
    """In a Debian system: installed as an administrator does, and removed again."""
    shutil.copy(package(folder), system / "tmp/store.deb")
    within = ["chroot", str(system)]
    printed([*within, "dpkg", "-i", "/tmp/store.deb"])
    try:
        assert printed([*within, "stat", "-c", "%U %G %a", "/etc/store/store.ini"]) == b"root store 640\n"
        assert printed([*within, "python3", "-c", HELLO]) == b"Hello\n", "no Hello"
        serves_from(Path("/usr/bin"), Path("/tmp/place"), within)
    finally:
        printed([*within, "dpkg", "--purge", NAME])
        assert not (system / "usr/lib/store").exists(), "something of the package is left"
        shutil.rmtree(system / "tmp/place", ignore_errors=True)
        (system / "tmp/store.deb").unlink()


def serves_from(binaries: Path, place: Path, within: Sequence[str] = ()) -> None:
    """The programs in this folder, run in an empty environment: an object in and out, an order, and the end. All within a minute."""
    began = time.monotonic()
    printed([*within, str(binaries / "store-daemon"), "--new", str(place)])
    words = [*within, str(binaries / "store-daemon"), str(place / "store.ini")]
    # not by store_testing: what a release has starts it, maybe below another root
    daemon = subprocess.Popen(words, env=NAMES, cwd="/", stdout=subprocess.PIPE, stderr=subprocess.DEVNULL)
    try:
        assert daemon.stdout and daemon.stdout.readline() == b"store-daemon: ready\n", "it isn't ready"
        client = [*within, str(binaries / "store-client"), "--socket", str(place / "store.0"), "--job", "1"]
        client += ["--key-file", str(place / "job1.key")]
        assert printed([*client, "put", "-", "--id", "t1.1"], b"Hello") == b"t1.1\n"
        assert printed([*client, "get", "t1.1"]) == b"Hello"
        orders = [*within, str(binaries / "storectl"), "--control", str(place / "control")]
        assert b" 64M    16 " in printed([*orders, "usage"]), "no object of 16 bytes"
        assert re.fullmatch(rb"report (\d+) \1 0 0 0\n", printed([*orders, "close"])), "no report"
        assert daemon.wait(PATIENCE) == 0, f"status {daemon.returncode}"
    finally:
        daemon.kill()
        daemon.wait()
    assert time.monotonic() - began < A_MINUTE, "it took longer than a minute"


def runs_without_anything(folder: Path) -> None:
    """Below a root with the program and the libraries that the loader finds for it."""
    root = folder / "root"
    program = unpacked(folder) / "bin/store"
    for library in re.findall(r"(/\S+) \(0x", printed(["ldd", str(program)]).decode()):
        there = root / library[1:]
        there.parent.mkdir(parents=True, exist_ok=True)
        shutil.copy(library, there)
    shutil.copy(program, root / "store")
    for schedule in sorted(EXAMPLES.glob("*.schedule")):
        answers = printed(["chroot", str(root), "/store", "run"], schedule.read_bytes())
        assert answers == schedule.with_suffix(".expected").read_bytes(), f"{schedule.name}: other answers"


def the_kept_release_again(folder: Path) -> None:
    """The commit that it is of makes the same from its program, but for what the gate printed; and so does the built program, if it is
    of the same sources."""
    kept = newest()
    program = folder / "kept"
    program.write_bytes(kept.program)
    program.chmod(0o700)
    program.with_name(f"{program.name}{ENDING}").write_bytes(kept.files[PROVED].data)
    made = release(cloned(folder / "clone", kept.told["commit"]), folder / "again", named=program)
    old, new = kept.files, files_of(made.read_bytes())
    differ = [name for name in {*old, *new} - TOLD if old.get(name) != new.get(name)]
    assert not differ, f"{kept.path}: others are {differ}"
    with contextlib.suppress(DistFault):
        built_program(kept.told["sources"])
        other = f"{BUILT} has other bytes than the program of {kept.path}, which is of the same sources by {NOTE.name}"
        assert BUILT.read_bytes() == kept.program, f"{other}: is it of an older build?"


def the_kept_releases_package(folder: Path) -> None:
    """Of a checkout in which no program was built: it says of its program what that release says."""
    clone, made = cloned(folder / "empty"), folder / "kept_package"
    shutil.copytree(newest().path.parent, clone / "dist", dirs_exist_ok=True)
    ran(clone, "dist", "--deb", "-o", str(made))
    assert sorted(path.suffix for path in made.iterdir()) == [".deb", ".sha256"], f"{list(made.iterdir())}"
    top = folder / "package3"
    printed(["dpkg-deb", "-x", str(next(made.glob("*.deb"))), str(top)])
    for name, there in ((PROVED, f"usr/share/doc/{NAME}/{PROVED}"), ("bin/store", "usr/bin/store")):
        assert (top / there).read_bytes() == newest().files[name].data, f"{there} is another one"


def cases(system: Optional[Path]) -> "tuple[List[Callable[[Path], None]], List[str]]":
    """What is tried, and what isn't."""
    tried: List[Callable[[Path], None]] = [
        twice_the_same, checksums, says_what_is_known, wheels_are_whole, serves, the_package_serves,
    ]
    left_out: List[str] = []
    if subprocess.run([sys.executable, "-m", "pip", "--version"], capture_output=True, check=False).returncode == 0:
        tried.append(pip_installs_the_wheels)
    else:
        left_out.append("pip_installs_the_wheels: there is no pip")
    if os.geteuid() == 0 and shutil.which("chroot"):
        tried.append(runs_without_anything)
    else:
        left_out.append("runs_without_anything: only root may change the root")
    try:
        output("git", "cat-file", "-e", f"{newest().told['commit']}^{{commit}}")
        tried += [the_kept_release_again, the_kept_releases_package]
    except DistFault as fault:
        left_out.append(f"the kept release's: {fault}")
    if system:
        in_system = functools.partial(a_system_serves, system)
        tried.append(functools.update_wrapper(in_system, a_system_serves))
    else:
        left_out.append("a_system_serves: no --root was given")
    return tried, left_out


def main(given: Optional[List[str]] = None) -> int:
    options = argparse.ArgumentParser(prog="dist-check", description=__doc__, formatter_class=argparse.RawDescriptionHelpFormatter)
    options.add_argument("--root", type=Path, metavar="FOLDER", help="a Debian system in which the package is installed")
    tried, left_out = cases(options.parse_args(given).root)
    program_or_end()
    failed = 0
    with tempfile.TemporaryDirectory(prefix="dist-") as folder:
        for case in tried:
            began = time.monotonic()
            try:
                case(Path(folder))
                print(f"passed: {case.__name__} ({time.monotonic() - began:.1f} s)", flush=True)
            except (AssertionError, DistFault, OSError, subprocess.SubprocessError) as fault:
                failed += 1
                print(f"FAILED: {case.__name__}: {fault}", flush=True)
    for name in left_out:
        print(f"not run: {name}")
    print(f"{len(tried) - failed} passed, {failed} failed")
    return 1 if failed else 0


if __name__ == "__main__":
    sys.exit(main())
