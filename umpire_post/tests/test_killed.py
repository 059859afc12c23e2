"""Each command is killed at each of its writes, or finds the disk full there, and is then run again:
nothing is lost, doubled or half done."""

import builtins
import contextlib
import errno
import io
import os
import secrets
import shutil
import time
from collections.abc import Callable, Sequence
from datetime import datetime, timezone
from pathlib import Path
from typing import IO, Any
from unittest import mock

from umpire_post import disk, message
from umpire_post.commands import main
from umpire_post.errors import DEVICE_FAILED, SET_ASIDE
from umpire_post.tests.evenings import MARK, THREE, UMPIRE, Evenings, mail, mbox, tree
from umpire_post.tests.programs import PROGRAMS

KILLED, BROKEN, WELL = 77, 78, 79
NOON = datetime(2026, 11, 2, 12, 0, tzinfo=timezone.utc)
MOST = 400  # writes of a command
WRITES = ("rename", "replace", "unlink", "rmdir", "mkdir", "fsync", "sync")
SENDMAIL = "#!/bin/sh\nwhile [ \"$1\" != -- ]; do shift; done\n{ echo \"$2\"; cat; } > \"$(mktemp \"${0%/*}/gone/XXXXXX\")\"\n"


class Killer:
    """Counts the writes of this process, and ends it at one of them, or finds the disk full: before it, or in
    its middle."""

    def __init__(self, at: int, is_full: bool) -> None:
        self.left = at
        self.is_full = is_full

    def counted(self, write: Callable[..., Any]) -> Callable[..., Any]:
        def run(*words: Any, **named: Any) -> Any:
            self.count()
            return write(*words, **named)
        return run

    def count(self) -> None:
        self.left -= 1
        if self.left == 0 and self.is_full:
            raise OSError(errno.ENOSPC, os.strerror(errno.ENOSPC))
        if self.left == 0:
            os._exit(KILLED)

    def open(self, path: Path, mode: str) -> "HalfWritten":
        return HalfWritten(builtins.open(path, mode), self)


class HalfWritten:
    """A file of which a write may be its process's last, and comes half onto the disk."""

    def __init__(self, file: IO[bytes], killer: Killer) -> None:
        self.file = file
        self.killer = killer

    def write(self, content: bytes) -> int:
        if self.killer.left == 1:
            self.file.write(content[:len(content) // 2])
            self.file.flush()
        self.killer.count()
        return self.file.write(content)

    def __getattr__(self, name: str) -> Any:
        return getattr(self.file, name)

    def __enter__(self) -> "HalfWritten":
        return self

    def __exit__(self, *_: object) -> None:
        self.file.close()


def run(words: Sequence[str]) -> int:
    with contextlib.redirect_stdout(io.StringIO()), contextlib.redirect_stderr(io.StringIO()):
        return main(words, now=lambda: NOON, programs=PROGRAMS)


def is_killed(words: Sequence[str], at: int) -> bool:
    """Runs a command in a process of its own that is killed at a write. Returns whether it came so far."""
    status = status_of(words, at, False)
    assert status in (0, KILLED), f"the child ended with status {status}"
    return status == KILLED


def status_of(words: Sequence[str], at: int, is_full: bool) -> int:
    """Runs a command in a process of its own that is killed at a write, or finds the disk full there. Returns
    its status, or WELL if it succeeded all the same, and 0 if it does not write so often."""
    child = os.fork()
    if child == 0:
        try:
            killer = Killer(at, is_full)
            for name in WRITES:
                setattr(os, name, killer.counted(getattr(os, name)))
            setattr(disk, "open", killer.open)
            status = run(words)
            os._exit(0 if killer.left > 0 else WELL if status in (0, SET_ASIDE) else status)
        finally:
            os._exit(BROKEN)  # (no test goes on in the child)
    return os.waitstatus_to_exitcode(os.waitpid(child, 0)[1])


class Killed(Evenings):
    """A test that kills a command."""

    def setUp(self) -> None:
        super().setUp()
        self.enterContext(mock.patch.object(secrets, "token_hex", lambda _: MARK))
        # (a process that reads messages takes most of the time of one that is killed, and writes nothing)
        self.enterContext(mock.patch.object(message, "_LIMITED", message.contents_of))

    def look_at(self, words: Sequence[str], named: str = "") -> None:
        """Kills a command at each write. Run again, it must leave what it leaves when nothing happens; so
        must it with another command between, if it names the round that it is about."""
        before = self.place / "before"
        if self.game.exists():
            shutil.copytree(self.game, before)
        run(words)
        owed = tree(self.game)
        for at in range(1, MOST):
            for between in (False, True):
                shutil.rmtree(self.game)
                if before.exists():
                    shutil.copytree(before, self.game)
                was_killed = is_killed(words, at)
                if was_killed and between:
                    run(["status", str(self.game)])
                    run([*words, *([named] if named else [])])
                elif was_killed:
                    run(words)
                self.assertEqual(owed.keys(), tree(self.game).keys(), f"write {at}, {between}")
                self.assertEqual(owed, tree(self.game), f"write {at}, {between}")
            if not was_killed:
                break
        self.assertGreater(at, 5)
        self.assertLess(at, MOST - 1)

    def look_at_full(self, words: Sequence[str]) -> None:
        """Has a command find the disk full at each write. It must fail, and change nothing; or it did its work
        all the same, or the next command finishes it. Run again it must leave what it leaves when nothing happens."""
        before = self.place / "before"
        shutil.copytree(self.game, before)
        run(words)
        owed = tree(self.game)
        for at in range(1, MOST):
            shutil.rmtree(self.game)
            shutil.copytree(before, self.game)
            status = status_of(words, at, True)
            if status == 0:
                break
            is_done = status == WELL or any(self.game.glob(f"{disk.DONE}*"))
            self.assertIn(status, (DEVICE_FAILED, WELL), f"write {at}")
            if not is_done:
                self.assertEqual(tree(before), {name: it for name, it in tree(self.game).items() if not name.startswith(disk.BEGUN)}, f"write {at}")
            if status != WELL:
                run(words)
            self.assertEqual(owed, tree(self.game), f"write {at}")
        self.assertGreater(at, 5)
        self.assertLess(at, MOST - 1)

    def begun(self) -> None:
        run(["new", str(self.game), "--umpire", UMPIRE, "--due", "Sunday 18:00", *THREE])

    def came(self) -> Path:
        path = self.place / "mbox"
        sheets = (("ANN", ["SHEET ANN PR1", "TURN", "BUY SV", "SHEET BOB PR1"]), ("BOB", ["SHEET BOB PR1"]),
                  ("CYD", ["SHEET CYD PR1", "TURN", "BYU CS"]))
        path.write_bytes(mbox([mail(name, lines, at) for at, (name, lines) in enumerate(sheets)]))
        return path


class Steps(Killed):
    def test_new(self) -> None:
        self.look_at(["new", str(self.game), "--umpire", UMPIRE, "--due", "Sunday 18:00", *THREE])

    def test_in(self) -> None:
        self.begun()
        self.look_at(["in", str(self.game), str(self.came())])
        self.assertEqual(3 * 2, len(self.names("inbox")))

    def test_undo(self) -> None:
        self.begun()
        run(["round", str(self.game), "--without", "ANN", "BOB", "CYD"])
        run(["round", str(self.game), "--without", "ANN", "BOB", "CYD"])
        self.look_at(["undo", str(self.game)], "PR2")

    def test_due(self) -> None:
        self.begun()
        self.look_at(["due", str(self.game), "2026-11-08 18:00"])

    def test_accept(self) -> None:
        self.begun()
        run(["in", str(self.game), str(self.came())])
        self.look_at(["in", str(self.game), "--accept", "1"])

    def test_status_that_reminds(self) -> None:
        self.begun()
        self.look_at(["status", str(self.game), "--remind"])


class Full(Killed):
    def test_in(self) -> None:
        self.begun()
        self.look_at_full(["in", str(self.game), str(self.came())])

    def test_round(self) -> None:
        self.begun()
        run(["in", str(self.game), str(self.came())])
        self.look_at_full(["round", str(self.game)])

    def test_undo(self) -> None:
        self.begun()
        run(["round", str(self.game), "--without", "ANN", "BOB", "CYD"])
        self.look_at_full(["undo", str(self.game), "PR1"])

    def test_due(self) -> None:
        self.begun()
        self.look_at_full(["due", str(self.game), "2026-11-08 18:00"])


class Clubs(Killed):
    """A club with two games, in which ANN plays."""

    def club(self) -> list[str]:
        """Returns the words that make the club."""
        return ["club", str(self.game), "--umpire", UMPIRE, *THREE, "DOT=dot@example.org"]

    def test_club(self) -> None:
        self.look_at(self.club())

    def test_in(self) -> None:
        run(self.club())
        run(["new", str(self.game / "alpha"), "ANN", "BOB", "CYD"])
        run(["new", str(self.game / "beta"), "ANN", "CYD", "DOT"])
        path = self.place / "mbox"
        path.write_bytes(mbox([mail(it, [f"SHEET {it} PR1"], at) for at, it in enumerate(("ANN", "BOB", "DOT"))]))
        self.look_at(["in", str(self.game), str(path)])
        self.assertEqual([2, 2, 2], [len(self.names(it)) for it in ("inbox", "alpha/inbox", "beta/inbox")])


class Rounds(Killed):
    def test_round(self) -> None:
        self.begun()
        run(["in", str(self.game), str(self.came())])
        self.look_at(["round", str(self.game)], "PR1")

    def test_round_is_not_followed_by_the_next_one(self) -> None:
        self.begun()
        path = self.place / "mbox"
        names = ("ANN", "BOB", "CYD")
        path.write_bytes(mbox([mail(it, [f"SHEET {it} PR1", f"SHEET {it} PR2"], at) for at, it in enumerate(names)]))
        run(["in", str(self.game), str(path)])
        self.look_at(["round", str(self.game)], "PR1")

    def test_send(self) -> None:
        """No letter is lost or sent twice: if nobody knows whether it was, the umpire is told."""
        self.begun()
        for path in (self.game / "outbox").iterdir():
            path.unlink()
        self.enterContext(mock.patch.object(time, "sleep", lambda _: None))
        run(["round", str(self.game), "--without", "ANN", "BOB", "CYD"])
        gone = self.place / "gone"
        sendmail = self.place / "sendmail"
        sendmail.write_text(SENDMAIL)
        sendmail.chmod(0o755)
        self.change("club.toml", 'by = "program"', f'sendmail = ["{sendmail}"]\nby = "sendmail"')
        before = self.place / "before"
        shutil.copytree(self.game, before)
        doubts = 0
        for at in range(1, MOST):
            shutil.rmtree(self.game)
            shutil.copytree(before, self.game)
            shutil.rmtree(gone, ignore_errors=True)
            gone.mkdir()
            was_killed = is_killed(["send", str(self.game)], at)
            run(["send", str(self.game)])
            sent, doubtful = self.names("sent"), [it for it in self.names("outbox") if it.endswith(".sending")]
            letters = [it.read_bytes() for it in gone.iterdir()]
            self.assertEqual(len(letters), len(set(letters)), f"write {at}: a letter was sent twice")
            self.assertEqual(3, len(sent) + len(doubtful))
            self.assertIn(len(letters) - len(sent), (0, len(doubtful)))
            doubts += len(doubtful)
            if not was_killed:
                break
        self.assertGreater(doubts, 0)
        self.assertEqual([], doubtful)
