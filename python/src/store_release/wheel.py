"""The wheel of the Python client in a release: the one that pip builds from the client's folder."""

from __future__ import annotations

from typing import Dict, Tuple

from .faults import DistFault


def wheel(project: bytes, package: Dict[str, bytes], page: bytes, license: bytes) -> Tuple[str, bytes]:
    """The wheel's name and its bytes, from the text of pyproject.toml, the package's files by their paths where it is installed, its page,
    and its licence."""
    from . import builder

    sources = {f"{builder.SOURCES}/{name}": data for name, data in package.items()}
    try:
        return builder.client_wheel({**sources, "pyproject.toml": project, "README.md": page, "LICENSE": license})
    except builder.ProjectFault as fault:
        raise DistFault(f"the client's package: {fault}") from fault
