"""Makes wheels, as PEP 427 says. The same files give the same bytes."""

from __future__ import annotations

import base64
import hashlib
import io
import zipfile
from typing import Dict, List, Tuple

from .archives import Files
from .project import Project

# of a wheel that has no machine's code
ANY = "py3-none-any"
# the earliest day that an archive of this kind can say
_DAY = (1980, 1, 1, 0, 0, 0)


def wheel(project: Project, tag: str, files: Files) -> Tuple[str, bytes]:
    """The name and the bytes of a wheel with these files, for the machines of this tag."""
    folder, about = information(project, tag)
    packed = io.BytesIO()
    # first the package, then what is said of it, in the order in which a reader looks for it
    listed = [*sorted(files.items()), *((name, (data, False)) for name, data in sorted(about.items()))]
    listed.append((f"{folder}/RECORD", (_record(listed, f"{folder}/RECORD"), False)))
    with zipfile.ZipFile(packed, "w") as archive:
        for name, (data, is_program) in listed:
            member = zipfile.ZipInfo(name, _DAY)
            member.external_attr = (0o100755 if is_program else 0o100644) << 16
            archive.writestr(member, data, zipfile.ZIP_DEFLATED, 9)
    return f"{project.package}-{project.version}-{tag}.whl", packed.getvalue()


def information(project: Project, tag: str) -> Tuple[str, Dict[str, bytes]]:
    """The folder in which a wheel says what it is, and the files in it but for their list."""
    folder = f"{project.package}-{project.version}.dist-info"
    scripts = "".join(f"{word} = {place}\n" for word, place in sorted(project.scripts.items()))
    is_pure = "true" if tag == ANY else "false"
    return folder, {
        f"{folder}/METADATA": metadata(project),
        f"{folder}/WHEEL": f"Wheel-Version: 1.0\nGenerator: store_build\nRoot-Is-Purelib: {is_pure}\nTag: {tag}\n".encode(),
        f"{folder}/entry_points.txt": f"[console_scripts]\n{scripts}".encode(),
        f"{folder}/LICENSE": project.license_text,
    }


def metadata(project: Project) -> bytes:
    """The text of METADATA, and of PKG-INFO in an archive of sources."""
    lines = [
        "Metadata-Version: 2.1", f"Name: {project.name}", f"Version: {project.version}", f"Summary: {project.description}",
        f"License: {project.license}", "License-File: LICENSE", *(f"Classifier: {kind}" for kind in project.classifiers),
        f"Requires-Python: {project.python}",
    ]
    for extra, needs in project.extras.items():
        lines += [f"Provides-Extra: {extra}", *(f'Requires-Dist: {need}; extra == "{extra}"' for need in needs)]
    return "\n".join([*lines, "Description-Content-Type: text/markdown", "", project.page]).encode()


def _record(listed: List[Tuple[str, Tuple[bytes, bool]]], own: str) -> bytes:
    return "".join([*(f"{name},sha256={_digest(data)},{len(data)}\n" for name, (data, _) in listed), f"{own},,\n"]).encode()


def _digest(data: bytes) -> str:
    return base64.urlsafe_b64encode(hashlib.sha256(data).digest()).rstrip(b"=").decode()
