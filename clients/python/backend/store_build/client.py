"""The client's package: the files that it is built from, and what is made of them."""

from __future__ import annotations

from pathlib import Path
from typing import Dict, Tuple

from .archives import Files, pack
from .project import SOURCES, Project, read_project
from .wheels import ANY, information, metadata, wheel

# what stands beside the package and the backend
_BESIDE = ("API.md", "CHANGELOG.md", "LICENSE", "README.md", "pyproject.toml")
_FOLDERS = ("backend", SOURCES)
# which files of these folders matter
_KINDS = (".py", "/py.typed")
# seconds from 1970 to 1980: nothing is dated to when it was built
_MOMENT = 315_532_800


def client_files(folder: Path) -> Dict[str, bytes]:
    """All files of the client's folder that a distribution is made from, by their paths in it."""
    paths = [folder / name for name in _BESIDE]
    paths += [path for name in _FOLDERS for path in (folder / name).rglob("*") if _is_source(path.as_posix())]
    return {path.relative_to(folder).as_posix(): path.read_bytes() for path in paths}


def client_wheel(files: Dict[str, bytes]) -> Tuple[str, bytes]:
    """The wheel's name and its bytes: of the files those that are the package's."""
    project = read_project(files)
    return wheel(project, ANY, _package(project, files))


def editable_wheel(files: Dict[str, bytes], folder: Path) -> Tuple[str, bytes]:
    """A wheel by which Python finds the package in this folder, as it is there."""
    project = read_project(files)
    return wheel(project, ANY, {f"{project.package}.pth": (f"{folder / SOURCES}\n".encode(), False)})


def source_archive(files: Dict[str, bytes]) -> Tuple[str, bytes]:
    """The name and the bytes of an archive from which the same wheel is built."""
    project = read_project(files)
    top = f"{project.package}-{project.version}"
    all = {**{name: (data, False) for name, data in files.items()}, "PKG-INFO": (metadata(project), False)}
    return f"{top}.tar.gz", pack(all, top, _MOMENT)


def metadata_files(files: Dict[str, bytes]) -> Tuple[str, Dict[str, bytes]]:
    """What the wheel says of itself, and the folder in it that has this."""
    return information(read_project(files), ANY)


def _package(project: Project, files: Dict[str, bytes]) -> Files:
    """The package's files, by their paths where it is installed."""
    within = {name[len(f"{SOURCES}/") :]: data for name, data in files.items() if name.startswith(f"{SOURCES}/")}
    return {name: (data, False) for name, data in within.items() if name.startswith(f"{project.package}/") and _is_source(name)}


def _is_source(name: str) -> bool:
    return name.endswith(_KINDS)
