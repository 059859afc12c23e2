"""What `in` does: messages are read, recorded and answered, many in one step."""

from collections.abc import Callable, Iterable, Iterator, Sequence
from dataclasses import replace
from datetime import datetime
from pathlib import Path
from typing import TypeVar

from umpire_post.club import Player
from umpire_post.entries import Entry, Written
from umpire_post.errors import DEVICE_FAILED, SET_ASIDE, PostError
from umpire_post.evening import Evening
from umpire_post.folder import DEALT_WITH, Folder, Messages, Record
from umpire_post.games import Place, named
from umpire_post.message import Incoming, take_apart
from umpire_post.reading import Reader, Reading
from umpire_post.routing import game_of
from umpire_post.sources import Raw
from umpire_post.strangers import MOST_TO_PLAYER, Players, Strangers
from umpire_post.words import counted, listed, plain, shown

# What is read before it is written, in one step.
MOST_MESSAGES, MOST_BYTES = 500, 8 << 20
OVER = f"after {MOST_TO_PLAYER} answers within a day to this address"
Made = TypeVar("Made")


class Intake:
    """Reads messages for the games of a place. Those on which the post itself fails are `failing`, each
    with a sentence: nothing of them counts."""

    def __init__(self, evening: Evening, place: Place) -> None:
        self.evening = evening
        self.place = place
        self.failing: dict[str, str] = {}
        self.readers: dict[Path, Reader] = {}
        self.known = 0
        self._begin()

    def _begin(self) -> None:
        """Looks at the folders as they are now."""
        self.close()
        self.games = self.place.games()
        self.shared = self.place.shared()
        self.boxes: list[Messages] = [*self.games, *([self.shared] if self.shared else [])]
        self.digests = set().union(*(it.digests for it in self.boxes))
        most = (self.shared or self.games[0]).club.strangers
        self.strangers = Strangers((record for it in self.boxes for record in it.records), most)
        self.players = Players(record for it in self.boxes for record in it.records)

    def __enter__(self) -> "Intake":
        return self

    def __exit__(self, *_: object) -> None:
        self.close()

    def close(self) -> None:
        """Ends what the desk is asked."""
        for it in self.readers.values():
            it.close()
        self.readers.clear()

    def reader(self, game: Folder) -> Reader:
        """Returns what reads messages for a game."""
        if game.top not in self.readers:
            self.readers[game.top] = Reader(game, self.evening.programs_of(game.club), self.evening.report_of(game))
        return self.readers[game.top]

    def take(self, batch: Sequence[Raw]) -> int:
        """Reads those messages that were not read before, writes them, and tells of them. Returns of how many
        something was set aside. If the post fails on one, all are read anew: what is said of the others may
        depend on it."""
        while True:
            failed, entries, known = len(self.failing), [], 0
            for raw in batch:
                if raw.is_known(self.digests):
                    known += 1
                elif entry := self._tried(raw, lambda: self.read(raw)):
                    entries.append(entry)
            written = self._written(entries)
            if len(self.failing) == failed:
                self.known += known
                return self.write(written)
            self._begin()

    def read(self, raw: Raw) -> Entry:
        """Reads a message, for the game that it belongs to."""
        incoming = take_apart(raw)
        if raw.digest in self.failing:
            box = self.shared or self.games[0]
            return self._kept(Entry(box, raw, replace(self._record(box, raw, incoming), aside=(self.failing[raw.digest],)), incoming))
        game = game_of(incoming, self.games, self._goes_on) if self.shared else self.games[0]
        if game:
            return self._read_for(game, raw, incoming)
        assert self.shared is not None
        record = replace(self._record(self.shared, raw, incoming), aside=(self._why_aside(incoming),))
        choice = () if incoming.automatic else tuple(it.club for it in self._played(incoming))
        if choice and not self.players.gets_answer(incoming.sender, record.is_genuine, datetime.fromisoformat(record.came)):
            record, choice = replace(record, aside=(f"{record.aside[0]}, not answered",)), ()
        return self._kept(Entry(self.shared, raw, record, incoming, choice=choice))

    def accept(self, game: Folder, messages: Iterable[tuple[Record, bytes]]) -> list[Written]:
        """Reads messages once more, as the umpire accepts them, for a game. Fails if the post fails on one."""
        entries = []
        for record, content in messages:
            raw = Raw(content, len(content), record.arrived)
            if entry := self._tried(raw, lambda: self._read_for(game, raw, take_apart(raw), record)):
                entries.append(entry)
        written = self._written(entries)
        for why in self.failing.values():
            raise PostError(why)
        return written

    def write(self, written: Sequence[Written], dealt_with: Iterable[Path] = ()) -> int:
        """Writes messages in one step, and tells of them. Returns of how many something was set aside."""
        if not written:
            return 0
        step = written[0].entry.box.step("in")
        for path, content in (*(file for it in written for file in it.files), *((it, b"") for it in dealt_with)):
            step.put(path, content)
        step.commit()
        for it in written:
            whose = f"{it.entry.box.club.game} " if self.place.is_club else ""
            self.evening.tell(whose + it.told())
            tell_aside(self.evening, it.record, whose)
        return sum(bool(it.record.aside) for it in written)

    def _written(self, entries: Sequence[Entry]) -> list[Written]:
        found = [self._tried(it.raw, lambda: it.written(self.evening.now())) for it in entries]
        return [it for it in found if it]

    def _tried(self, raw: Raw, make: Callable[[], Made]) -> Made | None:
        """Returns what is made of a message, or nothing if that fails, which is no fault of a program or a
        device."""
        try:
            return make()
        except (PostError, OSError, MemoryError):
            raise
        except Exception as wrong:  # (whatever is wrong with one message, the next one is read)
            if raw.digest in self.failing:
                raise PostError(f"{self.failing[raw.digest]}, and it cannot be kept", DEVICE_FAILED) from wrong
            self.failing[raw.digest] = f"the post fails on it ({type(wrong).__name__}), so nothing of it counts"
            return None

    def _read_for(self, game: Folder, raw: Raw, incoming: Incoming, accepted: Record | None = None) -> Entry:
        reader = self.reader(game)
        reading, record = reader.read(incoming, accepted), self._record(game, raw, incoming)
        record = replace(record, is_genuine=record.is_genuine or reading.has_key)
        if reading.is_answered and accepted is None:
            self._bound(reading, record)
        record = replace(record, sheets=tuple(it.sheet for it in reading.counting()), aside=tuple(reading.aside),
                         wrong_keys=tuple(reading.wrong_keys))
        entry = self._kept(Entry(game, raw, record, incoming, reading, (), accepted is not None))
        return replace(entry, owed=tuple((it, _owed(reader, it)) for it in _answered(entry)))

    def _bound(self, reading: Reading, record: Record) -> None:
        """Leaves a message unanswered if its address had as many answers as it gets."""
        now = datetime.fromisoformat(record.came)
        if reading.is_of_stranger:
            if not self.strangers.gets_answer(record.sender, now):
                reading.leave_unanswered()
        elif not self.players.gets_answer(record.sender, record.is_genuine, now):
            reading.hold_back(OVER)

    def _record(self, box: Messages, raw: Raw, incoming: Incoming) -> Record:
        is_reply = any(it.endswith(other.club.identity_end) for it in incoming.answers for other in self.boxes)
        return Record(box.next_message(), raw.digest, self.evening.time(), incoming.sender, incoming.subject, is_cut=raw.is_too_large,
                      arrived=raw.arrived, is_genuine=is_reply)

    def _kept(self, entry: Entry) -> Entry:
        entry.box.keep(entry.record)
        self.digests.add(entry.record.digest)
        return entry

    def _goes_on(self, game: Folder) -> bool:
        return self.reader(game).report.awaited is not None

    def _why_aside(self, incoming: Incoming) -> str:
        """Says why a message that belongs to no game is set aside."""
        games = self._played(incoming)
        if incoming.refused or incoming.automatic:
            return incoming.refused or incoming.automatic
        if games:
            return f"it names none of the games of its sender, {listed(it.club.game for it in games)}"
        return "it is from nobody of the club, and belongs to no game" if incoming.sender else "it has not exactly one sender"

    def _played(self, incoming: Incoming) -> list[Folder]:
        return [it for it in self.games if it.club.players_at(incoming.sender)]


def read_messages(evening: Evening, place: Place, messages: Iterable[Raw]) -> int:
    """Reads messages. Returns as a status whether something was set aside."""
    with Intake(evening, place) as intake:
        aside = sum(intake.take(batch) for batch in _batches(messages))
        if intake.known:
            evening.tell(f"{intake.known} read before")
    return SET_ASIDE if aside else 0


def accept(evening: Evening, place: Place, numbers: Sequence[int], game: str | None) -> int:
    """Reads messages once more as if they came from an address of the players of their sheets: the sheets
    that were set aside. Messages of no game are read for the game that is named."""
    with Intake(evening, place) as intake:
        box: Messages = intake.shared or intake.games[0]
        if intake.shared and not game:
            raise PostError("say with --game for which game the message is")
        to = named(intake.games, game) if game else intake.games[0]
        written = intake.accept(to, [_not_accepted(to, *box.message(it)) for it in numbers])
        return SET_ASIDE if intake.write(written, [box.in_inbox(it, DEALT_WITH) for it in numbers]) else 0


def say_done(evening: Evening, place: Place, numbers: Sequence[int]) -> int:
    """Notes that the umpire has dealt with messages of which something was set aside."""
    box: Messages = place.shared() or place.games()[0]
    waiting = {it.number for it in box.waiting()}
    for number in numbers:
        if number not in waiting:
            raise PostError(f"message {number} does not wait for you")
    step = box.step("in")
    for number in numbers:
        step.put(box.in_inbox(number, DEALT_WITH), b"")
    step.commit()
    evening.tell(f"{counted(len(waiting.difference(numbers)), 'message')} left to deal with")
    return 0


def tell_aside(evening: Evening, record: Record, whose: str = "") -> None:
    """Tells why something of a message was set aside."""
    for why in record.aside:
        subject = f" ({plain(record.subject)})" if record.subject else ""
        evening.tell(f"set aside: {whose}message {record.number} from {record.sender or 'nobody'}{subject}: {shown(why)}")


def _not_accepted(game: Folder, record: Record, content: bytes) -> tuple[Record, bytes]:
    """Returns a message again. Fails if it was accepted for the game before."""
    last = max((it.number for it in game.records if it.digest == record.digest), default=0)
    if last > (record.number if record in game.records else 0):
        raise PostError(f"message {record.number} was accepted before, as message {last} of {game.club.game}")
    return record, content


def _answered(entry: Entry) -> list[Player]:
    """Returns the players of whom an answer speaks: its senders, or if the umpire accepts a message those of
    its sheets."""
    assert entry.reading is not None
    if not entry.is_accepted:
        return list(entry.reading.senders)
    players = entry.box.club.players
    return [players[it] for it in dict.fromkeys(it.found.player for it in entry.reading.sheets) if it in players]


def _owed(reader: Reader, player: Player) -> list[str]:
    """Says whether a player owes a sheet once a message is read. After the end of the game nobody does."""
    awaited = reader.report.awaited
    if awaited is None:
        return []
    if player.name in reader.folder.pending(awaited) or player.name not in reader.report.owing:
        return [f"{player.name} owes nothing now: a sheet for {awaited} is here."]
    due = reader.folder.due(awaited)
    return [f"{player.name} still owes a sheet for {awaited}{', due ' if due else ''}{due}."]


def _batches(messages: Iterable[Raw]) -> Iterator[list[Raw]]:
    """Yields messages by the number that are written in one step."""
    batch: list[Raw] = []
    size = 0
    for raw in messages:
        batch.append(raw)
        size += len(raw.content)
        if len(batch) >= MOST_MESSAGES or size >= MOST_BYTES:
            yield batch
            batch, size = [], 0
    yield batch
