"""Archives that are the same bytes for the same files: names in order, one time, one owner, and no name of the
machine."""

import gzip
import io
import tarfile
import zipfile
from dataclasses import dataclass

from bindings.shared import stop

# The time of each file, in seconds since 1970: the first of 1980.
TIME = 315532800


@dataclass(frozen=True)
class File:
    """A file of an archive: its bytes, or the name that a link leads to."""

    content: bytes = b""
    is_program: bool = False
    link: str = ""


def read(path, is_program=False, made_by="./do gate"):
    if not path.exists():
        stop(f"there is no {path}: `{made_by}` comes first")
    return File(path.read_bytes(), is_program)


def under(folder, files):
    return {f"{folder}/{name}": file for name, file in files.items()}


def folders_above(names):
    """The folders that hold these names, outermost first."""
    return sorted({"/".join(name.split("/")[:end]) for name in names for end in range(1, name.count("/") + 1)})


def entry(name, kind, mode):
    info = tarfile.TarInfo(name)
    info.type, info.mode, info.mtime, info.uname, info.gname = kind, mode, TIME, "root", "root"
    return info


def tar(files, has_folders=True):
    """A tar archive of files, by their names, and of their folders."""
    written = io.BytesIO()
    with tarfile.open(fileobj=written, mode="w", format=tarfile.GNU_FORMAT) as archive:
        for folder in folders_above(files) if has_folders else []:
            archive.addfile(entry(folder, tarfile.DIRTYPE, 0o755))
        for name, file in sorted(files.items()):
            # a link has all rights, as the system gives it
            mode = 0o777 if file.link else 0o755 if file.is_program else 0o644
            info = entry(name, tarfile.SYMTYPE if file.link else tarfile.REGTYPE, mode)
            info.linkname, info.size = file.link, len(file.content)
            archive.addfile(info, io.BytesIO(file.content))
    return written.getvalue()


def zipped(files):
    """A zip archive of files, by their names."""
    written = io.BytesIO()
    with zipfile.ZipFile(written, "w", zipfile.ZIP_DEFLATED) as archive:
        for name, file in files.items():
            archive.writestr(zipfile.ZipInfo(name, (1980, 1, 1, 0, 0, 0)), file.content, zipfile.ZIP_DEFLATED)
    return written.getvalue()


def packed(content):
    """The bytes, compressed by gzip."""
    return gzip.compress(content, 9, mtime=TIME)


def ar(parts):
    """An archive of ar(1), in this order: the form of a Debian package."""
    head = b"!<arch>\n"
    for name, content in parts:
        head += (
            f"{name:<16}{TIME:<12}{0:<6}{0:<6}{'100644':<8}{len(content):<10}`\n".encode()
            + content
            + b"\n" * (len(content) % 2)
        )
    return head
