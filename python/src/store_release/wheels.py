"""The wheels that lie beside a release: the client's, which is in the release too, and the server's, which has the program."""

from __future__ import annotations

from pathlib import PurePosixPath
from typing import Iterator, Tuple

from .contents import Files
from .debian import newest_libc
from .faults import output

NAME = "store-server"
# where the client's lies in the release
_CLIENT_WHEEL = "share/store/python/*.whl"
_PACKAGE = "store_server"
# what the package says itself, in the commit
_MODULE = "python/src/store_release/server_package.py"
_CLASSIFIERS = [
    "Development Status :: 4 - Beta", "Intended Audience :: Developers", "License :: OSI Approved :: MIT License",
    "Operating System :: POSIX :: Linux", "Programming Language :: Python :: 3 :: Only", "Topic :: System :: Distributed Computing",
    "Typing :: Typed",
]
_PAGE = """\
# store-server: the program `store`

The server of a shared, immutable object store for the jobs of one machine. The command `store` runs it (`store --help`),
`store_server.path()` says where it is, and `store_client.local()` of the package store-client starts it.
The file `store_server/PROVED` says of which sources it is, and what was known of it when this was made.

It needs Linux on x86-64, and a C library that isn't older than the wheel's name says.
"""


def wheels(files: Files, version: str) -> Iterator[Tuple[str, bytes]]:
    """The name and the bytes of each, from a release's files and the version that its program says."""
    for name, file in files.items():
        if PurePosixPath(name).match(_CLIENT_WHEEL):
            yield PurePosixPath(name).name, file.data
    yield server_wheel(files, version)


def server_wheel(files: Files, version: str) -> Tuple[str, bytes]:
    """The package store_server, with a release's program, and what is known of it."""
    from . import builder

    project = builder.Project(
        NAME, version, "The server of the object store, for programs that start one of their own", ">=3.9", "MIT", _CLASSIFIERS, _PAGE,
        files["LICENSE"].data, scripts={"store": f"{_PACKAGE}:main"},
    )
    package = {
        f"{_PACKAGE}/__init__.py": (output("git", "show", f"HEAD:{_MODULE}"), False), f"{_PACKAGE}/py.typed": (b"", False),
        f"{_PACKAGE}/store": (files["bin/store"].data, True), f"{_PACKAGE}/PROVED": (files["PROVED"].data, False),
    }
    return builder.pack_wheel(project, f"py3-none-{_platform(files['bin/store'].data)}", package)


def _platform(program: bytes) -> str:
    """On which machines the program runs: those whose C library has all that it names."""
    libc = newest_libc(program)
    return f"manylinux_{libc.replace('.', '_')}_x86_64" if libc else "linux_x86_64"
