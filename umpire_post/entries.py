"""A message that was read: the folder that it belongs to, and what is written of it."""

from dataclasses import dataclass, replace
from datetime import datetime
from pathlib import Path

from umpire_post import letters
from umpire_post.answers import answer
from umpire_post.club import Club, Player
from umpire_post.folder import OUTBOX, Messages, Record, answer_to
from umpire_post.letters import Letter
from umpire_post.message import Incoming
from umpire_post.programs import BANKRUPT
from umpire_post.reading import Reading
from umpire_post.sources import Raw
from umpire_post.words import counted, listed


@dataclass(frozen=True)
class Entry:
    """A message that was read: the folder that it belongs to, and its record as far as it is known. For a
    game there are its reading, and what its answer says of sheets that are owed. If it is for no game,
    there are those that its sender is to choose from."""

    box: Messages
    raw: Raw
    record: Record
    incoming: Incoming
    reading: Reading | None = None
    owed: tuple[tuple[Player, list[str]], ...] = ()
    is_accepted: bool = False
    choice: tuple[Club, ...] = ()

    def written(self, now: datetime) -> "Written":
        """Makes what is written of the message, once the desk has said what it finds."""
        answers = self._answers(now)
        findings = [it for judged in (self.reading.counting() if self.reading else ()) for it in judged.findings]
        warned = {it.player for it in self.record.sheets if any(f"{it.player} IS {BANKRUPT}" in said for said in findings)}
        is_to_stranger = bool(answers and self.reading and self.reading.is_of_stranger)
        record = replace(self.record, letters=tuple(it.file for it in answers), warned=tuple(sorted(warned)), is_to_stranger=is_to_stranger)
        box, number = self.box, record.number
        files = [(box.in_inbox(number, ".eml"), self.raw.content), (box.in_inbox(number, ".json"), record.to_json()),
                 *((box.top / OUTBOX / it.file, it.content) for it in answers)]
        return Written(self, record, tuple(files))

    def _answers(self, now: datetime) -> list[Letter]:
        """Makes the answers to the message: one to its sender, or if the umpire accepts it one to each player
        of whom it has a sheet."""
        club, number = self.box.club, self.record.number
        if self.reading is None:
            return self._question(now)
        if self.is_accepted:
            return [answer(club, self.reading, number, owed, now, to=it.addresses[0], name=f"{answer_to(number)}-{it.name}", player=it)
                    for it, owed in self.owed]
        if not self.reading.is_answered or not self.incoming.sender:
            return []
        owed = [line for _, lines in self.owed for line in lines]
        return [answer(club, self.reading, number, owed, now, to=self.incoming.sender, name=answer_to(number))]

    def _question(self, now: datetime) -> list[Letter]:
        """Makes the letter that asks the sender for which game the message is."""
        if not self.choice:
            return []
        to, name = self.incoming.sender, answer_to(self.record.number)
        names = dict.fromkeys(player.name for it in self.choice for player in it.players_at(to))
        answers = [it for it in (self.incoming.message_id,) if it]
        return [letters.which_game(self.box.club, name, to, listed(names), self.choice, answers, now)]


@dataclass(frozen=True)
class Written:
    """What is written of a message: its whole record, and files, each with its content."""

    entry: Entry
    record: Record
    files: tuple[tuple[Path, bytes], ...]

    def told(self) -> str:
        """Says what became of the message."""
        sheets = self.entry.reading.sheets if self.entry.reading else []
        names = ", ".join(f"{it.player} {it.round}" for it in self.record.sheets) or ("no sheet that counts" if sheets else "no sheet")
        found = sum(len(it.findings) for it in sheets)
        return (f"{self.record.number:04} {self.record.sender or 'without a sender'}: {names}"
                + (f", {counted(found, 'finding')}" if found else ""))
