"""What pyproject.toml says of the package. It is read here, since Python has a reader of its own only from 3.11 on."""

from __future__ import annotations

import ast
import re
from typing import Dict, List, Mapping, NamedTuple, Tuple, Union

_Value = Union[str, List[str]]

# the tables that are read; all others are some tool's
_TABLE = re.compile(r"^\[(project[\w.-]*)\]\n(.*?)(?=^\[|\Z)", re.MULTILINE | re.DOTALL)
# a field is a text or a list of texts, which may take several lines. Python reads both alike
_FIELD = re.compile(r'^([\w-]+) = (".*"|\[.*\]|\[\n(?:[ \t].*\n)*\])[ \t]*(?:#.*)?$', re.MULTILINE)
_COMMENT = re.compile(r"#.*")
# in the project's folder, the folder of the package
SOURCES = "src"
_VERSION = re.compile(r'^__version__ = "([0-9.]+)"$', re.MULTILINE)


class ProjectFault(Exception):
    """The package can't be built; the text says why."""


class Project(NamedTuple):
    """A package: what its metadata say, its page, and its licence's text."""

    name: str
    version: str
    description: str
    python: str
    license: str
    classifiers: List[str]
    page: str
    license_text: bytes
    # what each extra needs, and which function each script calls
    extras: Mapping[str, List[str]] = {}
    scripts: Mapping[str, str] = {}

    @property
    def package(self) -> str:
        """Its name in Python, and in the names of files."""
        return self.name.replace("-", "_")


def read_project(files: Mapping[str, bytes]) -> Project:
    """The package that these files are."""
    try:
        tables = read_tables(files["pyproject.toml"].decode("utf-8"))
        fields = tables["project"]
        name, version = _text(fields["name"]), _version(files, _text(fields["name"]))
        return Project(
            name, version, _text(fields["description"]), _text(fields["requires-python"]), _text(fields["license"]),
            _texts(fields["classifiers"]), files[_text(fields["readme"])].decode("utf-8"), files["LICENSE"],
            {extra: _texts(needs) for extra, needs in tables.get("project.optional-dependencies", {}).items()},
            {word: _text(place) for word, place in tables.get("project.scripts", {}).items()},
        )
    except KeyError as error:
        raise ProjectFault(f"{error.args[0]} is missing") from error


def read_tables(text: str) -> Dict[str, Dict[str, _Value]]:
    """The tables of the project, by name."""
    return {name: _fields(body) for name, body in _TABLE.findall(text)}


def _fields(body: str) -> Dict[str, _Value]:
    left = _COMMENT.sub("", _FIELD.sub("", body)).strip()
    if left:
        raise ProjectFault(f"pyproject.toml has what isn't read here: {left.splitlines()[0]}")
    pairs: List[Tuple[str, str]] = _FIELD.findall(body)
    return {name: ast.literal_eval(value) for name, value in pairs}


def _version(files: Mapping[str, bytes], name: str) -> str:
    place = f"{SOURCES}/{name.replace('-', '_')}/__init__.py"
    found = _VERSION.search(files[place].decode("utf-8"))
    if not found:
        raise ProjectFault(f"{place} says no version")
    return found[1]


def _text(value: _Value) -> str:
    if not isinstance(value, str):
        raise ProjectFault(f"pyproject.toml: a text was expected, not {value}")
    return value


def _texts(value: _Value) -> List[str]:
    if isinstance(value, str):
        raise ProjectFault(f"pyproject.toml: a list of texts was expected, not {value!r}")
    return value
