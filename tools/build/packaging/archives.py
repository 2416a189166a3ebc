"""Archives whose bytes follow from their contents alone: names in order, one date, no owner but root.

A tree is a dict: the path of each file, with its bytes and its mode, or of each link, with its target. A folder is there if a
file is below it, or if it is named itself.
"""

import dataclasses
import gzip
import hashlib
import io
import tarfile
import time
import zipfile

# a zip knows no earlier date
EARLIEST = 315532800


@dataclasses.dataclass(frozen=True)
class File:
    """A regular file."""

    data: bytes
    mode: int = 0o644


@dataclasses.dataclass(frozen=True)
class Link:
    """A symbolic link."""

    to: str


@dataclasses.dataclass(frozen=True)
class Folder:
    """A folder that is there even if nothing is in it."""


def folders_of(tree):
    """Each folder above a path of a tree, the upper ones first."""
    found = {path for path, it in tree.items() if isinstance(it, Folder)}
    for path in tree:
        parts = path.split("/")[:-1]
        found.update("/".join(parts[:count]) for count in range(1, len(parts) + 1))
    return sorted(found)


def member(path, kind, mode, date):
    """The head of a member of a tar."""
    info = tarfile.TarInfo(path)
    info.type, info.mode, info.mtime = kind, mode, date
    info.uname = info.gname = "root"
    return info


def tar_gz(tree, date, top):
    """A compressed tar of a tree, each path behind the words of `top`."""
    plain = io.BytesIO()
    with tarfile.open(fileobj=plain, mode="w", format=tarfile.GNU_FORMAT) as tar:
        if top.endswith("/"):
            tar.addfile(member(top.rstrip("/"), tarfile.DIRTYPE, 0o755, date))
        for path in folders_of(tree):
            tar.addfile(member(top + path, tarfile.DIRTYPE, 0o755, date))
        for path, it in sorted(tree.items()):
            if isinstance(it, File):
                info = member(top + path, tarfile.REGTYPE, it.mode, date)
                info.size = len(it.data)
                tar.addfile(info, io.BytesIO(it.data))
            elif isinstance(it, Link):
                info = member(top + path, tarfile.SYMTYPE, 0o777, date)
                info.linkname = it.to
                tar.addfile(info)
    return gzip.compress(plain.getvalue(), 9, mtime=0)


def ar(members, date):
    """An archive of the form of ar, as a Debian package has it."""
    made = [b"!<arch>\n"]
    for name, data in members:
        made.append(f"{name:<16}{date:<12}{0:<6}{0:<6}{100644:<8}{len(data):<10}`\n".encode())
        made.append(data + b"\n" * (len(data) % 2))
    return b"".join(made)


def deb(tree, control, scripts, date):
    """A Debian package: its tree, the lines of its control file, its other control files by name."""
    sums = "".join(f"{hashlib.md5(it.data).hexdigest()}  {path}\n" for path, it in sorted(tree.items()) if isinstance(it, File))
    size = sum(len(it.data) // 1024 + 1 for it in tree.values() if isinstance(it, File))
    described = control.replace("\nDescription:", f"\nInstalled-Size: {size}\nDescription:")
    own = {"control": File(described.encode()), "md5sums": File(sums.encode()), **scripts}
    parts = [("control.tar.gz", tar_gz(own, date, "./")), ("data.tar.gz", tar_gz(tree, date, "./"))]
    return ar([("debian-binary", b"2.0\n"), *parts], date)


def zipped(tree, date):
    """A zip of the files of a tree."""
    made = io.BytesIO()
    when = time.gmtime(max(date, EARLIEST))[:6]
    with zipfile.ZipFile(made, "w") as archive:
        for path, it in tree.items():
            info = zipfile.ZipInfo(path, when)
            info.external_attr, info.create_system = (0o100000 | it.mode) << 16, 3
            archive.writestr(info, it.data, zipfile.ZIP_DEFLATED, 9)
    return made.getvalue()
