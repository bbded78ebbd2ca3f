"""Packs a release as a Debian package: the same files, where a system has them. The same release gives the same bytes."""

from __future__ import annotations

import email.utils
import gzip
import io
import os
import re
import tarfile
import tempfile
from pathlib import Path
from typing import Dict, Optional

from .contents import Content, Files
from .faults import DistFault, output

NAME = "store-server"
_MAINTAINER = "The maintainers of store <maintainers@users.noreply.gechumpa.example>"
# what goes where; the first that fits, and all else beside the documentation
_PLACES = (
    ("etc/store.ini", "etc/store/store.ini"), ("LICENSE", f"usr/share/doc/{NAME}/copyright"),
    ("share/doc/store/", f"usr/share/doc/{NAME}/"), ("PROVED", f"usr/share/doc/{NAME}/PROVED"), ("bin/", "usr/bin/"), ("lib/", "usr/lib/"), ("share/", "usr/share/"),
)
# a link to the client, which lies where the programs find it, from where Debian's Python looks for packages
_LINK, _LEADS_TO = "usr/lib/python3/dist-packages/store_client", "../../store/store_client"
# dpkg has checksums of its own
_LEFT_OUT = ("SHA256SUMS",)
_CONTROL = """\
Package: {name}
Version: {version}
Architecture: amd64
Maintainer: {maintainer}
Installed-Size: {size}
Depends: libc6{libc}, libgcc-s1, python3 (>= 3.9), passwd
Section: net
Priority: optional
Description: shared, immutable object store for many jobs
 Objects are created, filled, sealed, read, spilled to a device, and granted
 from job to job, over Unix sockets. A job's replies don't show its neighbours.
 .
 The package has the server, store-daemon, which runs it as a service, storectl,
 and the client of Debian's Python, store_client. The service isn't started: its
 settings come first.
"""
_INSTALLED = """\
#!/bin/sh
set -e
if [ "$1" = configure ]; then
    getent passwd store > /dev/null || useradd --system --user-group --home-dir /var/lib/store --shell /usr/sbin/nologin store
    chgrp store /etc/store /etc/store/store.ini
    chmod 0750 /etc/store
    chmod 0640 /etc/store/store.ini
    if [ -d /run/systemd/system ]; then systemctl daemon-reload; fi
fi
"""
_REMOVING = """\
#!/bin/sh
set -e
if [ "$1" = remove ] && [ -d /run/systemd/system ]; then systemctl disable --now store.service; fi
# what Python has compiled belongs to no package
find /usr/lib/store -name __pycache__ -prune -exec rm -r {} +
"""


def unpacked(archive: bytes) -> Files:
    """The files of a release's archive, without the folder above them."""
    with tarfile.open(fileobj=io.BytesIO(archive)) as tar:
        opened = ((member, tar.extractfile(member)) for member in tar)
        return {m.name.partition("/")[2]: Content(file.read(), bool(m.mode & 0o100)) for m, file in opened if file is not None}


def pack_deb(archive: bytes, version: str, moment: int) -> bytes:
    """The package of a release's archive; no file in it is dated later than this moment."""
    files = {_place(name): _adapted(name, file) for name, file in unpacked(archive).items() if name not in _LEFT_OUT}
    files = {name if not _is_page(name) else f"{name}.gz": file for name, file in files.items()}
    files[f"usr/share/doc/{NAME}/changelog.gz"] = Content(gzip.compress(_changes(version, moment), 9, mtime=0), False)
    with tempfile.TemporaryDirectory(prefix="deb-") as folder:
        top = Path(folder) / "package"
        for name, file in {**files, **_control(files, version)}.items():
            _write(top / name, file)
        (top / _LINK).parent.mkdir(parents=True)
        (top / _LINK).symlink_to(_LEADS_TO)
        made = Path(folder) / "made.deb"
        for path in (top, *top.rglob("*")):
            if path.is_dir() and not path.is_symlink():
                path.chmod(0o755)
            os.utime(path, (moment, moment), follow_symlinks=False)
        output("dpkg-deb", "--root-owner-group", "-Zgzip", "-z9", "--build", str(top), str(made), names=_names(moment))
        return made.read_bytes()


def _names(moment: int) -> Dict[str, str]:
    return {"PATH": os.environ.get("PATH", os.defpath), "SOURCE_DATE_EPOCH": str(moment), "LC_ALL": "C"}


def _place(name: str) -> str:
    for source, there in _PLACES:
        if name.startswith(source):
            return there + name[len(source) :]
    raise DistFault(f"{name} has no place in a Debian package")


def _is_page(name: str) -> bool:
    return name.startswith("usr/share/man/")


def _adapted(name: str, file: Content) -> Content:
    """Manual pages are compressed, and the unit file names the program where it is."""
    if name.startswith("share/man/"):
        return Content(gzip.compress(file.data, 9, mtime=0), False)
    if name.endswith(".service"):
        return Content(file.data.replace(b"/opt/store/bin/", b"/usr/bin/"), False)
    return file


def _control(files: Files, version: str) -> Files:
    size = sum(-(-len(file.data) // 1024) for file in files.values())
    libc = newest_libc(files["usr/bin/store"].data)
    text = _CONTROL.format(
        name=NAME, version=version, maintainer=_MAINTAINER, size=size, libc=f" (>= {libc})" if libc else "",
    )
    kept = "".join(f"/{name}\n" for name in files if name.startswith("etc/"))
    return {
        "DEBIAN/control": Content(text.encode(), False), "DEBIAN/conffiles": Content(kept.encode(), False),
        "DEBIAN/postinst": Content(_INSTALLED.encode(), True), "DEBIAN/prerm": Content(_REMOVING.encode(), True),
    }


def newest_libc(program: bytes) -> Optional[str]:
    """The newest version of the C library of which the program names a symbol."""
    found = {(int(first), int(second)) for first, second in re.findall(rb"\0GLIBC_(\d+)\.(\d+)(?=[.\d]*\0)", program)}
    return "{}.{}".format(*max(found)) if found else None


def _changes(version: str, moment: int) -> bytes:
    """What Debian wants of each package; what has changed says the repository."""
    day = email.utils.formatdate(moment)
    return f"{NAME} ({version}) stable; urgency=medium\n\n  * See PROVED for the commit.\n\n -- {_MAINTAINER}  {day}\n".encode()


def _write(path: Path, file: Content) -> None:
    path.parent.mkdir(parents=True, exist_ok=True)
    path.write_bytes(file.data)
    path.chmod(0o755 if file.is_program else 0o644)
