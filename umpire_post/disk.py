"""Steps that are done whole or not at all.

A step changes several files below a folder. It writes what they are to become into `.step.new`, and
flushes it. Then it renames that folder to `.step-`, followed by what it does: this is the moment at
which the step is done. Each file of it is then renamed to its place. A step that was interrupted before that moment has changed
nothing; one that was interrupted after it is finished by the next command. So no reader sees a file
that is half written, and none misses one file of a step for good.
"""

import fcntl
import os
import shutil
import time
from collections.abc import Iterable, Iterator
from contextlib import contextmanager, suppress
from dataclasses import dataclass
from pathlib import Path

from umpire_post.errors import TRY_AGAIN, PostError

BEGUN = ".step.new"
DONE = ".step-"
FILES, REMOVED = "files", "removed"
LOCK = ".lock"
PAUSE = 0.05  # seconds between two tries to get the lock
FEW = 64  # files that are flushed one by one; for more the device writes out all that waits


@dataclass(frozen=True)
class Work:
    """What a step does: the word of its command, and the game and the round that it is about. None of
    them has a comma."""

    word: str
    game: str = ""
    round: str = ""

    def folder(self) -> str:
        """Returns the name of the folder of such a step that is done."""
        return f"{DONE}{self.word},{self.game},{self.round}"

    @classmethod
    def of(cls, folder: str) -> "Work":
        return cls(*folder.removeprefix(DONE).split(","))


class Step:
    """A step of a command, as it is written."""

    def __init__(self, top: Path, work: Work) -> None:
        self.top = top
        self.work = work
        self.removed: list[Path] = []
        drop_begun(top)
        (top / BEGUN / FILES).mkdir(parents=True)

    def put(self, place: Path, content: bytes) -> None:
        """Puts a file in its place below the folder, instead of one that is there."""
        path = self.top / BEGUN / FILES / place.relative_to(self.top)
        path.parent.mkdir(parents=True, exist_ok=True)
        write(path, content)

    def remove(self, place: Path) -> None:
        """Removes a file, or a folder if it is empty by then."""
        self.removed.append(place.relative_to(self.top))

    def commit(self) -> None:
        """Does the step."""
        begun = self.top / BEGUN
        write(begun / REMOVED, "".join(f"{it}\n" for it in self.removed).encode())
        flush([begun, *begun.rglob("*")])
        os.rename(begun, self.top / self.work.folder())
        flush([self.top])
        finish(self.top)


def finish(top: Path) -> Work | None:
    """Finishes a step that was interrupted after the moment at which it was done. Returns what it does,
    if there is one."""
    work = None
    for done in top.glob(f"{DONE}*"):
        work = Work.of(done.name)
        _put_in_place(done, top)
        # (the folder itself goes last, so that what was done is told if that is interrupted)
        shutil.rmtree(done)
    return work


def drop_begun(top: Path) -> None:
    """Forgets a step that was interrupted before the moment at which it was done."""
    if (top / BEGUN).is_dir():
        shutil.rmtree(top / BEGUN)


def write(path: Path, content: bytes) -> None:
    """Writes a file. The device need not have it yet."""
    with _named(path), open(path, "wb") as file:
        file.write(content)


def flush(paths: Iterable[Path]) -> None:
    """Waits until the device has these files and folders."""
    waiting = list(paths)
    if len(waiting) > FEW:
        os.sync()
        return
    for path in waiting:
        at = os.open(path, os.O_RDONLY)
        try:
            with _named(path):
                os.fsync(at)
        finally:
            os.close(at)


@contextmanager
def _named(path: Path) -> Iterator[None]:
    """Has an error name the file that it is about, as that of a write does not."""
    try:
        yield
    except OSError as wrong:
        wrong.filename = wrong.filename or str(path)
        raise


def move(path: Path, place: Path) -> None:
    """Moves a file, and waits until the device has its name."""
    place.parent.mkdir(exist_ok=True)
    os.replace(path, place)
    flush({path.parent, place.parent})


@contextmanager
def locked(top: Path, seconds: float = 0) -> Iterator[Work | None]:
    """Keeps the folder to one command, and finishes a step that was interrupted, of which it gives what
    it does. Fails with TRY_AGAIN if another command has the folder for so many seconds."""
    with open(top / LOCK, "wb") as lock:
        until = time.monotonic() + seconds
        while not _is_taken(lock.fileno()):
            if time.monotonic() >= until:
                raise PostError(f"another command works on {top}, and did not end within {seconds:g} seconds: try again later", TRY_AGAIN)
            time.sleep(PAUSE)
        drop_begun(top)
        yield finish(top)


def _is_taken(lock: int) -> bool:
    """Takes the lock, if no other command has it. Returns whether it did."""
    try:
        fcntl.flock(lock, fcntl.LOCK_EX | fcntl.LOCK_NB)
    except BlockingIOError:
        return False
    return True


def _put_in_place(done: Path, top: Path) -> None:
    """Moves the files of a step to their places, and removes those that it removes."""
    changed = set()
    for path in sorted(it for it in (done / FILES).rglob("*") if not it.is_dir()):
        place = top / path.relative_to(done / FILES)
        place.parent.mkdir(parents=True, exist_ok=True)
        os.replace(path, place)
        changed.add(place.parent)
    listed = done / REMOVED
    for name in listed.read_text(encoding="utf-8").splitlines() if listed.exists() else ():
        _remove(top / name)
        changed.add((top / name).parent)
    # (and the folders above these, in which one may be new)
    above = {it for folder in changed for it in folder.parents if it == top or top in it.parents}
    flush(it for it in changed | above if it.is_dir())


def _remove(path: Path) -> None:
    """Removes a file, or a folder if it is empty."""
    if path.is_dir():
        with suppress(OSError):
            path.rmdir()
    else:
        path.unlink(missing_ok=True)
