"""A club for the tests, and what reads its messages without the programs."""

from collections.abc import Sequence
from datetime import datetime, timedelta, timezone
from pathlib import Path

from umpire_post.club import Club, Player
from umpire_post.folder import Folder, Record
from umpire_post.programs import Finding, Programs, Report
from umpire_post.reading import Reader, Reading
from umpire_post.message import take_apart
from umpire_post.sources import Raw

HERE = Path(__file__).resolve().parent
NAMES = ("ANN", "BOB", "CYD", "DOT", "EVE")
KEY = "Heron-7"
CAME = "2026-11-02T18:00:00+00:00"
CLUB = Club("our-game", "umpire@example.org", "5eed", "2026-11-01T12:00:00+00:00", {
    "ANN": Player("ANN", ("ann@example.org", "ann.archer@work.example", "archers@home.example")),
    "BOB": Player("BOB", ("bob@example.org",)),
    "CYD": Player("CYD", ("cyd@gmail.example",)),
    "DOT": Player("DOT", ("archers@home.example",)),
    "EVE": Player("EVE", ("eve@example.org",), KEY),
})
REPORT = Report("", NAMES, ("PR1", "SR1"), "SR2", NAMES)


class Clock:
    """A clock that goes on by a minute each time that it is asked."""

    def __init__(self) -> None:
        self.time = datetime(2026, 11, 2, 18, 0, tzinfo=timezone.utc)

    def __call__(self) -> datetime:
        self.time += timedelta(minutes=1)
        return self.time


class Silent(Programs):
    """Programs that find nothing."""

    def __init__(self) -> None:
        super().__init__((), ())

    def findings(self, orders: bytes, first: int, owed: Sequence[str] = ()) -> list[Finding]:
        return []


class Unwritten(Folder):
    """A folder in which nothing has come yet, on no disk."""

    def __init__(self) -> None:
        self.root = self.top = Path("nowhere")
        self.club, self.orders, self.records, self.rounds = CLUB, b"", [], []
        self.digests, self.done = set(), set()
        self._pending, self._round_due, self._due = {}, "", ""


class Inbox:
    """A folder on no disk, into which messages come."""

    def __init__(self) -> None:
        self.folder = Unwritten()
        self.reader = Reader(self.folder, Silent(), REPORT)

    def comes(self, content: bytes, at: int = 0, accepted: Record | None = None) -> Reading:
        """Reads a message that arrived at a second, and keeps its record."""
        reading = self.read(content, at, accepted)
        incoming = reading.incoming
        self.folder.keep(Record(self.folder.next_message(), f"{len(self.folder.records)}", CAME, incoming.sender, incoming.subject,
                                tuple(it.sheet for it in reading.counting()), tuple(reading.aside), arrived=incoming.arrived,
                                wrong_keys=tuple(reading.wrong_keys)))
        return reading

    def read(self, content: bytes, at: int = 0, accepted: Record | None = None) -> Reading:
        """Reads a message, and keeps nothing."""
        return self.reader.read(take_apart(Raw(content, len(content), (at, 0, 0))), accepted)


def read(content: bytes) -> Reading:
    """Reads a message as the first one that came."""
    return EMPTY.read(content)


EMPTY = Inbox()
