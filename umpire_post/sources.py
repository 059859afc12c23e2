"""Messages from a file, an mbox, a Maildir, a folder of files, or standard input.

An mbox is a file whose first line with something in it begins with `From `. Messages are given in the
order in which they arrived, and each with the moment of it:

    an mbox             the order in the file, with the dates of its `From ` lines
    a Maildir           the times that begin the names of its files, compared as numbers
    a folder, a file    the order of the names, with the times of the files
    standard input      now
"""

import hashlib
import mailbox
import os
import re
import shutil
import stat
import tempfile
import time
from collections.abc import Iterable, Iterator
from dataclasses import dataclass
from email.utils import mktime_tz, parsedate_tz
from itertools import accumulate
from pathlib import Path
from typing import BinaryIO

from umpire_post.errors import PostError

MAX_BYTES = 2 * 1024 * 1024
KEPT_OF_LARGE = 64 * 1024
COMPARED_OF_LARGE = 16 * 1024  # bytes of a body of which only the front is kept
LONGEST_FROM_LINE = 1024
# What a message is known by, besides its body; its date only if it has no Message-ID.
KNOWN_BY = re.compile(rb"^(From|Message-ID|Date):(.*(?:\n[ \t].*)*)", re.M | re.I)
# Heads that mail programs write into a message that they keep.
KEEPERS = re.compile(rb"^(?:Status|X-Status|X-Keywords|X-UID|X-IMAP|X-Mozilla-[\w-]+|Content-Length|Lines):.*\n"
                     rb"(?:[ \t].*\n)*", re.M | re.I)
# The name of a file of a Maildir: the second; in old ones a number; the part in which letters name numbers.
IN_MAILDIR = re.compile(r"(\d{1,15})(?:_(\d{1,15}))?(?:\.([^.:,]*))?")
MICROSECONDS = re.compile(r"M(\d{1,15})")
DELIVERY = re.compile(r"[Q_](\d{1,15})")

# When a message arrived: seconds, microseconds or 0, and a place in the mailbox or the number of a delivery.
Moment = tuple[int, int, int]


@dataclass(frozen=True)
class Raw:
    """A message as it came. Of one with too many bytes only its front is kept."""

    content: bytes
    size: int
    arrived: Moment = (0, 0, 0)

    @property
    def is_too_large(self) -> bool:
        return self.size > MAX_BYTES

    def is_known(self, digests: set[str]) -> bool:
        """Returns whether one of these digests is its own, or was by an earlier version of the post."""
        return self.digest in digests or self.former_digest in digests

    @property
    def digest(self) -> str:
        """What tells it from other messages: its sender, its Message-ID and its body. Heads that a mail
        host or a mail program adds later do not change it."""
        head, _, body = self._normal().partition(b"\n\n")
        found = [(name.lower(), b" ".join(value.split())) for name, value in KNOWN_BY.findall(head)]
        is_named = any(name == b"message-id" for name, _ in found)
        heads = sorted(it for it in found if it[0] != b"date" or not is_named)
        front = body[:COMPARED_OF_LARGE] if self.is_too_large else body.rstrip(b"\n")
        told = [b"%s:%d:%s\n" % (name, len(value), value) for name, value in heads]
        return hashlib.sha256(b"".join(told) + b"\n" + front).hexdigest()

    @property
    def former_digest(self) -> str:
        """The digest in the records of earlier versions: of all bytes, without the heads of mail programs."""
        head, blank, rest = self._normal().partition(b"\n\n")
        known = KEEPERS.sub(b"", head + b"\n") + blank + rest.rstrip(b"\r\n")
        return hashlib.sha256(known + str(self.size if self.is_too_large else "").encode()).hexdigest()

    def _normal(self) -> bytes:
        return self.content.replace(b"\r\n", b"\n")


def messages(source: Path | None, stdin: BinaryIO) -> Iterator[Raw]:
    """Yields the messages of a source, or of standard input if none is named."""
    if source is None:
        yield from _of_stream(stdin)
    elif source.is_dir():
        yield from _of_folder(source)
    elif source.is_file():
        yield from _of_file(source)
    elif source.exists():
        with open(source, "rb") as stream:
            yield from _of_stream(stream)
    else:
        raise PostError(f"there is no {source}")


def _of_stream(stream: BinaryIO) -> Iterator[Raw]:
    """Yields the messages of a stream. They arrive now."""
    with tempfile.TemporaryDirectory() as spool:
        path = Path(spool) / "messages"
        with open(path, "wb") as file:
            shutil.copyfileobj(stream, file)
        seconds, nanoseconds = divmod(time.time_ns(), 10**9)
        for at, raw in enumerate(_of_file(path)):
            yield Raw(raw.content, raw.size, (seconds, nanoseconds // 1000, at))


def _of_file(path: Path) -> Iterator[Raw]:
    with open(path, "rb") as file:
        first = next((it for it in iter(lambda: file.readline(LONGEST_FROM_LINE), b"") if it.strip()), b"")
    if first.startswith(b"From "):
        yield from _of_mbox(path)
    elif path.stat().st_size > 0:
        yield _read(path, (_modified(path), 0, 0))


def _of_mbox(path: Path) -> Iterator[Raw]:
    """Yields the messages of an mbox. None arrived before the one above it, or after the file was written."""
    box, latest, seconds = mailbox.mbox(path, create=False), _modified(path), 0
    try:
        for at, key in enumerate(box.iterkeys()):
            with box.get_file(key, from_=True) as file:
                seconds = max(seconds, min(_dated(file.readline(LONGEST_FROM_LINE)), latest))
            with box.get_file(key) as file:
                yield _taken(file, (seconds, 0, at))
    finally:
        box.close()


def _dated(line: bytes) -> int:
    """Returns the second that a `From ` line names, in the local time of the machine, or 0."""
    try:
        date = parsedate_tz(line.decode("latin-1").partition(" ")[2].partition(" ")[2])
        return int(mktime_tz(date)) if date else 0
    except (ValueError, OverflowError, IndexError, TypeError):
        return 0


def _of_folder(path: Path) -> Iterator[Raw]:
    inner = [path / "cur", path / "new"] if (path / "new").is_dir() else [path]
    found = [it for folder in inner if folder.is_dir() for it in folder.iterdir() if not it.name.startswith(".")]
    files = [(path, int(it.st_mtime)) for path, it in ((it, _status(it)) for it in found) if it and stat.S_ISREG(it.st_mode)]
    for file, moment in _of_names(files) if inner != [path] else _of_times(files):
        try:
            raw = _read(file, moment)
        except FileNotFoundError:  # (a mail program may have moved it meanwhile: then it is read next time)
            continue
        yield raw


def _status(path: Path) -> os.stat_result | None:
    """Returns what a path is, or nothing if it is not there."""
    try:
        return path.stat()
    except FileNotFoundError:
        return None


def _of_names(files: Iterable[tuple[Path, int]]) -> list[tuple[Path, Moment]]:
    """Returns the files of a Maildir, each with its time, in the order in which they came."""
    return sorted(((path, _named(path, seconds)) for path, seconds in files), key=lambda it: (it[1], _by_number(it[0])))


def _named(path: Path, seconds: int) -> Moment:
    """Returns the moment that the name of a file of a Maildir tells, or the time of the file."""
    name = IN_MAILDIR.match(path.name)
    if name is None:
        return (seconds, 0, 0)
    micro, delivery = MICROSECONDS.search(name[3] or ""), DELIVERY.search(name[3] or "")
    return (int(name[1]), int(micro[1]) if micro else 0, int(delivery[1] if delivery else name[2] or 0))


def _of_times(files: Iterable[tuple[Path, int]]) -> list[tuple[Path, Moment]]:
    """Returns the files of a folder, each with its time, in the order of their names. None came before the
    one above it."""
    ordered = sorted(files, key=lambda it: _by_number(it[0]))
    latest = accumulate((seconds for _, seconds in ordered), max)
    return [(path, (seconds, 0, at)) for at, ((path, _), seconds) in enumerate(zip(ordered, latest))]


def _by_number(path: Path) -> list[tuple[int, str]]:
    """Returns a key by which names are compared, the numbers in them as numbers."""
    return [(int(it), "") if it.isdecimal() else (0, it) for it in re.split(r"(\d{1,15})", path.name, flags=re.A)]


def _modified(path: Path) -> int:
    return int(os.stat(path).st_mtime)


def _read(path: Path, arrived: Moment) -> Raw:
    with open(path, "rb") as file:
        return _taken(file, arrived)


def _taken(file: BinaryIO, arrived: Moment) -> Raw:
    content = file.read(MAX_BYTES + 1)
    size = len(content)
    if size > MAX_BYTES:
        while more := file.read(1 << 20):
            size += len(more)
        content = content[:KEPT_OF_LARGE]
    return Raw(content, size, arrived)
