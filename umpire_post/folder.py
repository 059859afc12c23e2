"""A game's folder: the order file, messages, sheets, rounds and letters.

    game.orders         the order file, up to the last round that was played
    club.toml           addresses, and how mail is sent
    due.json            when the awaited round is due, if there is a deadline
    inbox/0007.eml      a message as it came
    inbox/0007.json     what was read in it: its record
    inbox/0007.done     the umpire has dealt with what was set aside of it
    outbox/             letters to be sent
    sent/               letters that were accepted
    rounds/003-SR2/     a round: the order file before it, its sheets, its report, and so on
    rounds/undone/      rounds that were taken back

Records never change: what a message counted for as it came stays so, whatever becomes of `club.toml`.
A club of several games has a folder with their folders in it. There it has its own `club.toml`, and
an inbox and an outbox for messages that belong to no game.
"""

import json
import re
from collections.abc import Iterable
from dataclasses import asdict, dataclass, field
from datetime import datetime
from pathlib import Path
from typing import Any

from umpire_post.club import Club, read_club
from umpire_post.disk import Step, Work
from umpire_post.errors import PostError
from umpire_post.sources import Moment

ORDERS = "game.orders"
CLUB = "club.toml"
DUE = "due.json"
INBOX, OUTBOX, SENT, ROUNDS = "inbox", "outbox", "sent", "rounds"
UNDONE = f"{ROUNDS}/undone"
HANDED_OVER, DEALT_WITH = ".sending", ".done"
ROUND_FOLDER = re.compile(r"(\d{3,})-([A-Z0-9.]+)")


@dataclass(frozen=True)
class Sheet:
    """A sheet as it is put into the order file. `lines` begin with its SHEET line."""

    player: str
    round: str
    lines: tuple[str, ...]

    def text(self) -> bytes:
        """Returns its lines, each with its end."""
        return "".join(f"{line}\n" for line in self.lines).encode("utf-8", "replace")


@dataclass(frozen=True)
class Record:
    """What was read in a message: the sheets that count, and why others were set aside. It arrived at
    a moment that its mailbox told, and was read when it `came`. Of one that is cut only the front was
    kept. `warned` names the players who were told that their sheet makes them bankrupt, `wrong_keys` those
    for whose sheets it brought a wrong key. One that `is_to_stranger` has an answer to somebody outside the
    club. One that `is_genuine` answers a letter or has the right key, so its sender is hardly forged."""

    number: int
    digest: str
    came: str
    sender: str
    subject: str = ""
    sheets: tuple[Sheet, ...] = ()
    aside: tuple[str, ...] = ()
    letters: tuple[str, ...] = ()
    is_cut: bool = False
    arrived: Moment = (0, 0, 0)
    warned: tuple[str, ...] = ()
    wrong_keys: tuple[str, ...] = ()
    is_to_stranger: bool = False
    is_genuine: bool = False

    @property
    def is_answered(self) -> bool:
        """Whether its sender got an answer, and not only the players of sheets that the umpire accepted."""
        return answer_to(self.number) + ".eml" in self.letters

    def to_json(self) -> bytes:
        return _json(asdict(self))

    @classmethod
    def from_json(cls, text: bytes) -> "Record":
        whole = json.loads(text)
        whole["sheets"] = tuple(Sheet(it["player"], it["round"], tuple(it["lines"])) for it in whole["sheets"])
        # (an earlier version kept no moment of arrival)
        whole.setdefault("arrived", (int(datetime.fromisoformat(whole["came"]).timestamp()), 0, whole["number"]))
        return cls(**{name: tuple(it) if isinstance(it, list) else it for name, it in whole.items()})


@dataclass(frozen=True)
class Round:
    """A round that was played: whose sheets came by which message, none for an empty sheet, the letters
    that tell of it, each with its player, and when its sheets were due, if they had a deadline. `after`
    is the digest of the order file."""

    number: int
    round: str
    played: str
    after: str
    sheets: dict[str, int | None] = field(default_factory=dict)
    letters: dict[str, str] = field(default_factory=dict)
    due: str = ""

    @property
    def place(self) -> str:
        """Its folder, below the game's."""
        return f"{ROUNDS}/{self.number:03}-{self.round}"

    def to_json(self) -> bytes:
        return _json(asdict(self))

    @classmethod
    def from_json(cls, text: bytes) -> "Round":
        whole = json.loads(text)
        whole.pop("last_message", None)  # (of an earlier version)
        return cls(**whole)


@dataclass(frozen=True)
class Pending:
    """A sheet that counts for a round, with the record of its message."""

    record: Record
    sheet: Sheet


class Messages:
    """The messages that came into a folder, and what was read in them; the letters in its outbox."""

    def __init__(self, root: Path, top: Path, club: Club) -> None:
        self.root = root
        self.top = top
        self.club = club
        self.records: list[Record] = sorted(_read(top.glob(f"{INBOX}/*.json"), Record.from_json), key=lambda it: it.number)
        self.digests = {it.digest for it in self.records}
        self.done = {int(it.stem) for it in top.glob(f"{INBOX}/*{DEALT_WITH}") if it.stem.isdecimal()}

    def next_message(self) -> int:
        """Returns the number of the next message."""
        return self.records[-1].number + 1 if self.records else 1

    def message(self, number: int) -> tuple[Record, bytes]:
        """Returns the record of a message, and the message as it came."""
        record = next((it for it in self.records if it.number == number), None)
        path = self.in_inbox(number, ".eml")
        if record is None or not path.is_file():
            raise PostError(f"there is no message {number}")
        if record.is_cut:
            raise PostError(f"message {number} had too many bytes, and is kept only in part")
        return record, path.read_bytes()

    def keep(self, record: Record) -> None:
        """Adds a record that is written, or will be in this step."""
        self.records.append(record)
        self.digests.add(record.digest)

    def waiting(self) -> list[Record]:
        """Returns the messages of which something was set aside, and which the umpire has not dealt with."""
        return [it for it in self.records if it.aside and it.number not in self.done]

    def in_inbox(self, number: int, end: str) -> Path:
        return self.top / INBOX / f"{number:04}{end}"

    def step(self, word: str, round_: str = "") -> Step:
        """Begins a step of a command."""
        return Step(self.root, Work(word, self.club.game, round_))


class Folder(Messages):
    """A game's folder, read as it is now. `root` is that of its club, if it is one of several games."""

    def __init__(self, top: Path, root: Path | None = None) -> None:
        try:
            club = read_club(top / CLUB, root / CLUB if root and root != top else None)
            self.orders = (top / ORDERS).read_bytes()
        except FileNotFoundError as wrong:
            raise PostError(f"{top} is not a game's folder: it has no {Path(wrong.filename).name}") from wrong
        self._pending: dict[str, dict[str, Pending]] = {}
        super().__init__(root or top, top, club)
        for record in self.records:
            self._count(record)
        self._round_due, self._due = _read_due(top / DUE)
        self.rounds: list[Round] = sorted(_read(top.glob(f"{ROUNDS}/*-*/round.json"), Round.from_json), key=lambda it: it.number)

    def keep(self, record: Record) -> None:
        super().keep(record)
        self._count(record)

    def pending(self, round_: str) -> dict[str, Pending]:
        """Returns the sheets that count for a round: of each player the one that arrived last."""
        return self._pending.get(round_, {})

    def rounds_of(self, player: str) -> list[str]:
        """Returns the rounds for which a player has sent a sheet."""
        return sorted(round_ for round_, it in self._pending.items() if player in it)

    def next_round(self) -> int:
        """Returns the number of the next round's folder. That of a round taken back is not used again."""
        names = [it.name for it in (*self.top.glob(f"{ROUNDS}/*"), *self.top.glob(f"{UNDONE}/*"))]
        return 1 + max((int(it[1]) for it in map(ROUND_FOLDER.fullmatch, names) if it), default=0)

    def since(self) -> datetime:
        """Returns the time from which on the awaited round has been awaited."""
        return datetime.fromisoformat(self.rounds[-1].played if self.rounds else self.club.begun)

    def due(self, round_: str) -> str:
        """Returns when the sheets of the awaited round are due, as a letter tells it, or nothing."""
        moment = self.deadline(round_)
        return self.club.zone.told(datetime.fromisoformat(moment)) if moment else ""

    def deadline(self, round_: str) -> str:
        """Returns when the sheets of the awaited round are due, as a file tells it, or nothing."""
        return self._due if self._round_due == round_ else ""

    def letter_to(self, player: str) -> str:
        """Returns the name of the letter that asked a player for the awaited round."""
        letters = self.rounds[-1].letters if self.rounds else {}
        return next((file.removesuffix(".eml") for file, name in letters.items() if name == player), first_letter(player))

    def _count(self, record: Record) -> None:
        """Counts the sheets of a record, unless one that arrived later counts already."""
        for sheet in record.sheets:
            kept = self._pending.setdefault(sheet.round, {})
            if sheet.player not in kept or kept[sheet.player].record.arrived <= record.arrived:
                kept[sheet.player] = Pending(record, sheet)


def answer_to(number: int) -> str:
    """Returns the name of the answer to a message."""
    return f"{number:04}-answer"


def first_letter(player: str) -> str:
    """Returns the name of the first letter to a player."""
    return f"new-{player}"


def due_text(round_: str, due: str) -> bytes:
    """Returns the content of `due.json`."""
    return _json({"round": round_, "due": due})


def _read_due(path: Path) -> tuple[str, str]:
    """Reads `due.json`: a round, and when its sheets are due."""
    try:
        kept = json.loads(path.read_bytes())
        if datetime.fromisoformat(kept["due"]).tzinfo is None:
            raise ValueError
        return str(kept["round"]), kept["due"]
    except FileNotFoundError:
        return "", ""
    except (ValueError, KeyError, TypeError) as wrong:
        raise PostError(f"{path} was changed, and cannot be read") from wrong


def letters_in(top: Path) -> list[Path]:
    """Returns the letters that are to be sent, in the order of their names."""
    return sorted((top / OUTBOX).glob("*.eml"))


def in_doubt_in(top: Path) -> list[Path]:
    """Returns the letters that were being handed over when `send` was interrupted."""
    return sorted((top / OUTBOX).glob(f"*{HANDED_OVER}"))


def with_sheets(orders: bytes, sheets: Iterable[Sheet]) -> bytes:
    """Returns an order file with sheets at its end."""
    joined = orders if not orders or orders.endswith(b"\n") else orders + b"\n"
    return joined + b"".join(it.text() for it in sheets)


def empty_sheet(player: str, round_: str) -> Sheet:
    """Returns the sheet of a player who orders nothing."""
    return Sheet(player, round_, (f"SHEET {player} {round_}",))


def line_count(orders: bytes) -> int:
    """Returns how many lines an order file has."""
    return orders.count(b"\n") + (bool(orders) and not orders.endswith(b"\n"))


def _read(paths: Iterable[Path], read: Any) -> list[Any]:
    found = []
    for path in paths:
        try:
            found.append(read(path.read_bytes()))
        except (ValueError, KeyError, TypeError) as wrong:
            raise PostError(f"{path} was changed, and cannot be read") from wrong
    return found


def _json(whole: Any) -> bytes:
    return (json.dumps(whole, indent=1) + "\n").encode()
