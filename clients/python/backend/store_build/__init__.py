"""Builds the package from this folder, for pip and for a release, with nothing but Python. These are the calls of PEP 517 and PEP 660."""

from __future__ import annotations

from pathlib import Path
from typing import Any, Dict, Optional

from .client import client_files, client_wheel, editable_wheel, metadata_files, source_archive

FOLDER = Path(__file__).resolve().parents[2]
_Settings = Optional[Dict[str, Any]]


def build_wheel(wheel_directory: str, config_settings: _Settings = None, metadata_directory: Optional[str] = None) -> str:
    """Writes the wheel into the folder; its name."""
    name, data = client_wheel(client_files(FOLDER))
    Path(wheel_directory, name).write_bytes(data)
    return name


def build_editable(wheel_directory: str, config_settings: _Settings = None, metadata_directory: Optional[str] = None) -> str:
    """Writes a wheel that leads to this folder; its name."""
    name, data = editable_wheel(client_files(FOLDER), FOLDER)
    Path(wheel_directory, name).write_bytes(data)
    return name


def build_sdist(sdist_directory: str, config_settings: _Settings = None) -> str:
    """Writes an archive of what the package is built from; its name."""
    name, data = source_archive(client_files(FOLDER))
    Path(sdist_directory, name).write_bytes(data)
    return name


def prepare_metadata_for_build_wheel(metadata_directory: str, config_settings: _Settings = None) -> str:
    """Writes what a wheel says of itself; the name of its folder."""
    folder, files = metadata_files(client_files(FOLDER))
    Path(metadata_directory, folder).mkdir()
    for name, data in files.items():
        Path(metadata_directory, name).write_bytes(data)
    return folder


prepare_metadata_for_build_editable = prepare_metadata_for_build_wheel
