"""What builds the client's package packs releases too: it lies in the client's folder, which stands alone.

It is imported once something is packed: what only looks for a program, or reads a release, does without it.
"""

from __future__ import annotations

from store_build.archives import pack
from store_build.client import client_wheel
from store_build.project import SOURCES, Project, ProjectFault
from store_build.wheels import wheel as pack_wheel

__all__ = ["SOURCES", "Project", "ProjectFault", "client_wheel", "pack", "pack_wheel"]
