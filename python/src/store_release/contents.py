"""The files of a release: the program, what the last commit has for it, what is known of the program, and checksums."""

from __future__ import annotations

import hashlib
import io
import tarfile
from typing import Dict, NamedTuple

from .faults import output
from .proved import PROVED
from .wheel import wheel

# where what the commit has goes; the first that fits
PLACES = (
    ("operate/store-daemon", "bin/store-daemon"), ("operate/storectl", "bin/storectl"), ("operate/store-client", "bin/store-client"),
    ("python/src/store_operator/", "lib/store/store_operator/"), ("clients/python/src/store_client/", "lib/store/store_client/"),
    ("operate/store.service", "lib/systemd/system/store.service"), ("operate/store.ini", "etc/store.ini"),
    ("operate/man/", "share/man/man1/"), ("LICENSE", "LICENSE"), ("README.md", "share/doc/store/README.md"),
    ("docs/", "share/doc/store/docs/"), ("examples/", "share/doc/store/examples/"),
    ("clients/python/README.md", "share/doc/store/clients/python/README.md"),
    ("clients/c/store_client.", "share/store/c/store_client."), ("clients/c/README.md", "share/store/c/README.md"),
    ("clients/python/pyproject.toml", "pyproject.toml"),
)
# read to make the wheel, and not in the release
PROJECT = "pyproject.toml"
CLIENT, CLIENT_PAGE = "lib/store/", "share/doc/store/clients/python/README.md"


class Content(NamedTuple):
    data: bytes
    is_program: bool


Files = Dict[str, Content]


def commit_time() -> int:
    """Of the last commit, in seconds since 1970."""
    return int(output("git", "log", "-1", "--format=%ct"))


def committed() -> Files:
    """The files that the last commit has for a release, by their places in it."""
    archive = output("git", "archive", "--format=tar", "HEAD", "--", *_given())
    found: Files = {}
    with tarfile.open(fileobj=io.BytesIO(archive)) as tar:
        for member in tar:
            file = tar.extractfile(member)
            if file is not None:
                found[_place(member.name)] = Content(file.read(), bool(member.mode & 0o100))
    return found


def _given() -> "list[str]":
    return [f"{source}*" if source.endswith(".") else source for source, _ in PLACES]


def _place(name: str) -> str:
    source, there = next(pair for pair in PLACES if name.startswith(pair[0]))
    return there + name[len(source) :]


def contents(program: bytes, proved: str) -> Files:
    """All files of a release of this program, of which this is known. The last of them has the checksums of the others."""
    files = committed()
    project = files.pop(PROJECT).data
    package = {name[len(CLIENT) :]: file.data for name, file in files.items() if name.startswith(f"{CLIENT}store_client/")}
    name, data = wheel(project, package, files[CLIENT_PAGE].data, files["LICENSE"].data)
    files[f"share/store/python/{name}"] = Content(data, False)
    files["bin/store"] = Content(program, True)
    files[PROVED] = Content(proved.encode(), False)
    sums = (f"{hashlib.sha256(files[name].data).hexdigest()}  {name}\n" for name in sorted(files))
    files["SHA256SUMS"] = Content("".join(sums).encode(), False)
    return files
