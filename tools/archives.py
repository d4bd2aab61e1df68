"""Archives of folders: the same files always give the same bytes."""

import gzip
import hashlib
import pathlib
import tarfile
from typing import IO, cast


def checksum_lines(folder: pathlib.Path) -> str:
    """A line of `sha256sum` for each file below the folder, sorted by their paths."""
    files = sorted(path for path in folder.rglob("*") if path.is_file() and not path.is_symlink())
    return "".join(
        f"{hashlib.sha256(path.read_bytes()).hexdigest()}  {path.relative_to(folder)}\n" for path in files
    )


def plain(entry: tarfile.TarInfo) -> tarfile.TarInfo:
    """The entry without what differs from one machine, user or day to another."""
    entry.mtime = entry.uid = entry.gid = 0
    entry.uname = entry.gname = ""
    entry.mode = 0o755 if entry.isdir() or entry.mode & 0o100 else 0o644
    return entry


def write_archive(folder: pathlib.Path, path: pathlib.Path) -> None:
    with path.open("wb") as file, gzip.GzipFile("", "wb", mtime=0, fileobj=file) as packed:
        with tarfile.open(mode="w", fileobj=cast(IO[bytes], packed)) as archive:
            archive.add(folder, folder.name, recursive=False, filter=plain)
            for each in sorted(folder.rglob("*")):
                archive.add(each, str(each.relative_to(folder.parent)), recursive=False, filter=plain)
