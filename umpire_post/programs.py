"""The two programs that rule, and what is read from their answers.

A program that does not end in time is ended. What one writes is believed only if its end is there: a
program may have been stopped, or a disk may have been full.
"""

import copy
import os
import re
import shutil
import signal
import subprocess
from collections.abc import Sequence
from dataclasses import dataclass
from pathlib import Path

from umpire_post.club import SECONDS
from umpire_post.errors import DEVICE_FAILED, FILE_REFUSED, PostError

ROUND = r"[PS]R[1-9][0-9]*|OR[1-9][0-9]*\.[123]"
PLAYED = re.compile(rf"^ROUND ({ROUND})$", re.M)
AWAITING = re.compile(rf"AWAITING ({ROUND})((?: [A-Z0-9]+)+)")
FINDING = re.compile(r"([0-9]+) \| (?:[A-Z0-9]+ (?:" + ROUND + r") \| )?(.*)", re.S)
RANKED = re.compile(r"[0-9]+ +([A-Z0-9]+) +[0-9]+")
ALONE = "FOR THE UMPIRE ALONE"
FOUND = 3
FORCED = "FORCED"
BANKRUPT = "BANKRUPT"
# The lines of a report that tell of a purchase that a company must make, and those that end it.
OF_FORCED = (FORCED, "SELLS", "PRESIDENT", "AID", "TRADED", "TRAIN", BANKRUPT)
ENDS_FORCED = ("TRAIN", BANKRUPT)
ENDS_ROUND = re.compile(r"\n(?:AWAITING|END) ")
REFUSED = re.compile(r"^[A-Z0-9]+ [0-9]+ REFUSED .*(?:\n .*)*", re.M)


@dataclass(frozen=True)
class Report:
    """What a report says of the course of a game."""

    text: str
    players: tuple[str, ...]
    played: tuple[str, ...]
    awaited: str | None
    owing: tuple[str, ...]

    @classmethod
    def of(cls, text: str) -> "Report":
        """Reads the report of a file that is not refused. Fails if its end is not there."""
        lines = text.split("\n")
        players = tuple(lines[1].split()[1:]) if len(lines) > 1 and lines[1].startswith("PLAYERS ") else ()
        last = AWAITING.fullmatch(lines[-2]) if players and not lines[-1] else None
        if not last and not _is_over(lines, players):
            raise PostError("the report of the umpire has no end", DEVICE_FAILED)
        owing = tuple(last[2].split()) if last else ()
        return cls(text, players, tuple(PLAYED.findall(text)), last[1] if last else None, owing)

    def owed_without(self, *sheets: tuple[str, str]) -> tuple[str, ...]:
        """Returns the players of whom the desk says that they owe a sheet, once these are there, each of a
        player for a round: it names them if they are some, and not all."""
        owed = tuple(it for it in self.owing if (it, self.awaited) not in sheets)
        return owed if len(owed) < len(self.players) else ()

    def forced(self) -> list[str]:
        """Returns the lines of the last round that tell what companies had to buy, and what their
        presidents had to sell and to pay for it."""
        found, within = [], False
        for line in self.last_round():
            word = line.partition(" ")[0]
            within = within or word == FORCED
            if within and word in OF_FORCED:
                found.append(line)
            within = within and word not in ENDS_FORCED
        return found

    def bankrupt(self) -> list[str]:
        """Returns who went bankrupt in the last round."""
        return [it.partition(" ")[2] for it in self.last_round() if it.startswith(f"{BANKRUPT} ")]

    def last_round(self) -> list[str]:
        """Returns the lines of the last round."""
        _, begin, rest = self.text.rpartition("\nROUND ")
        return ENDS_ROUND.split(f"ROUND {rest}")[0].split("\n") if begin else []


@dataclass(frozen=True)
class Finding:
    """A finding of `desk check`: the line of the file, and what is said of it."""

    line: int
    said: str


class Programs:
    """The programs `umpire` and `umpire-desk`, each with the words by which it is called, and the seconds
    within which each must end, if there is such a limit."""

    def __init__(self, umpire: Sequence[str], desk: Sequence[str], seconds: int | None = SECONDS) -> None:
        self.umpire = tuple(umpire)
        self.desk = tuple(desk)
        self.seconds = seconds

    @classmethod
    def found(cls, home: Path) -> "Programs":
        """Finds them: those that UMPIRE and UMPIRE_DESK name, or those installed at home or on the path,
        or the scripts `umpire` and `desk` at home, which build them first and so have no limit."""
        named = [os.environ.get(it) for it in ("UMPIRE", "UMPIRE_DESK")]
        beside = [_file(home / it) for it in ("umpire", "umpire-desk")]
        installed = [shutil.which(it) for it in ("umpire", "umpire-desk")]
        for umpire, desk in (named, beside, installed):
            if umpire and desk:
                return cls([umpire], [desk])
        umpire, desk = (_file(home / it) for it in ("umpire", "desk"))
        if umpire and desk:
            return cls([umpire], [desk], None)
        raise PostError("neither the programs umpire and umpire-desk nor the scripts that build them are there")

    def within(self, seconds: int | None) -> "Programs":
        """Returns the same programs with a limit, if there is one, instead of their own."""
        if seconds is None or self.seconds is None:
            return self
        limited = copy.copy(self)
        limited.seconds = seconds
        return limited

    def report(self, orders: bytes) -> Report:
        """Returns the report of an order file. Fails if the file is refused."""
        status, out = self._run([*self.umpire, "report"], orders)
        if status == FILE_REFUSED:
            raise PostError(f"{out.strip()}: {self._why(orders)}", FILE_REFUSED)
        self._succeeded("report", status)
        return Report.of(out)

    def findings(self, orders: bytes, first: int, owed: Sequence[str] = ()) -> list[Finding]:
        """Returns what `check` finds from a line of the file on and a player may know of their own
        sheet: neither who owes one nor what depends on the sheets of others. `owed` is as in `check`."""
        text = self.check(orders, first, owed).partition(ALONE)[0]
        found = [FINDING.fullmatch(line) for line in text.split("\n")]
        return [Finding(int(it[1]), it[2]) for it in found if it]

    def check(self, orders: bytes, first: int, owed: Sequence[str] = ()) -> str:
        """Returns all that `check` says from a line of the file on. Of some players, `owed`, and not of
        all it must say at its end that they owe a sheet. If nobody or everybody owes one, no line tells the
        end: half of what it says is believed then, if that is whole lines."""
        status, out = self._run([*self.desk, "check", "--from", str(first)], orders)
        if status == FILE_REFUSED:
            raise PostError(out.strip() or "the desk refuses the file", FILE_REFUSED)
        if status != FOUND:
            self._succeeded("check", status)
        last = out.rpartition("\n")[0].rpartition("\n")[2]
        if (out or status == FOUND) and not out.endswith("\n") or owed and not last.endswith(f": {', '.join(owed)}"):
            raise PostError("what desk check says has no end", DEVICE_FAILED)
        return out

    def refused(self, orders: bytes, report: Report) -> list[str]:
        """Returns the lines that the last round refuses, and below each why. Fails if the round is not there
        to its end."""
        status, out = self._run([*self.desk, "round", "--why"], orders)
        self._succeeded("round", status)
        lines = [it for it in out.split("\n") if it and not it.startswith(" ")]
        if lines != report.last_round() or not out.endswith("\n"):
            raise PostError("the round of the desk has no end", DEVICE_FAILED)
        return [line for it in REFUSED.findall(out) for line in it.split("\n")]

    def bulletin(self, orders: bytes, report: Report, due: str) -> str:
        """Returns the last round for its players, and when the next sheets are due. Fails if the end of it
        is not there."""
        status, out = self._run([*self.desk, "bulletin", *(["--due", due] if due else [])], orders)
        self._succeeded("bulletin", status)
        if report.awaited:
            end = f"NEXT {report.awaited}: sheets are owed by {' '.join(report.owing)}{', due ' if due else ''}{due}"
            is_whole = " ".join(out.split()).endswith(end)
        else:
            ranked = [RANKED.fullmatch(it) for it in out.split("\n")[:-1][-len(report.players):]]
            is_whole = {it[1] for it in ranked if it} == {*report.players}
        if not is_whole or not out.endswith("\n"):
            raise PostError("the bulletin of the desk has no end", DEVICE_FAILED)
        return out

    def page(self, orders: bytes, due: str = "") -> str:
        """Returns the game as a page of HTML, with what may be done next. Fails if the end of it is not
        there."""
        words = ["page", "--lays", *(["--due", due] if due and "--due" in self._help("page") else [])]
        status, out = self._run([*self.desk, *words], orders)
        self._succeeded("page", status)
        if not out.rstrip().endswith("</html>"):
            raise PostError("the page of the desk has no end", DEVICE_FAILED)
        return out

    def _help(self, word: str) -> str:
        return self._run([*self.desk, word, "--help"], b"")[1]

    def _succeeded(self, word: str, status: int) -> None:
        if status != 0:
            raise PostError(f"{word} failed with status {status}", DEVICE_FAILED)

    def _why(self, orders: bytes) -> str:
        return self._run([*self.desk, "check"], orders)[1].strip()

    def _run(self, words: Sequence[str], orders: bytes) -> tuple[int, str]:
        """Runs a program. Returns its status, and what it writes. Fails if it does not run, does not end
        within the limit, or is stopped."""
        # (a group of its own, so that what the program has started ends with it; only the desk at a page
        # reports progress, which nobody waits for)
        said = subprocess.DEVNULL if "page" in words else None
        try:
            program = subprocess.Popen(words, stdin=subprocess.PIPE, stdout=subprocess.PIPE, stderr=said, start_new_session=True)
        except OSError as wrong:
            raise PostError(f"{words[0]} does not run: {wrong.strerror}", DEVICE_FAILED) from wrong
        with program:
            try:
                out = program.communicate(orders, self.seconds)[0]
            except subprocess.TimeoutExpired as wrong:
                raise PostError(f"{' '.join(words)} did not end within {self.seconds} seconds", DEVICE_FAILED) from wrong
            finally:
                if program.returncode is None:
                    os.killpg(program.pid, signal.SIGKILL)
        if program.returncode < 0 or program.returncode in (1, 4):
            raise PostError(f"{' '.join(words)} failed with status {program.returncode}", DEVICE_FAILED)
        return program.returncode, out.decode("ascii", "replace")


def _is_over(lines: Sequence[str], players: Sequence[str]) -> bool:
    """Returns whether the lines of a report end with the end of a game, and what each player is worth."""
    end = lines[-2 - len(players):]
    return bool(players) and not lines[-1] and end[0].startswith("END ") \
        and [it.split()[:2] for it in end[1:-1]] == [["WORTH", it] for it in players]


def _file(path: Path) -> str | None:
    return str(path) if path.is_file() else None
