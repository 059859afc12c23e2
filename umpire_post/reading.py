"""Who may send what: the sheets of a message that count, and why the others were set aside.

A sheet counts if it came from an address of its player alone, with the player's key if they have one,
and for a round that is not played yet. The last one that comes for a round counts. What the desk finds
in a sheet is asked of the order file with this sheet alone, so it tells nothing of another's.
"""

import os
import re
from collections.abc import Sequence
from concurrent.futures import Future, ThreadPoolExecutor
from dataclasses import dataclass, field, replace
from datetime import datetime

from umpire_post.club import Club, Player
from umpire_post.folder import Folder, Pending, Record, Sheet, line_count, with_sheets
from umpire_post.message import Incoming
from umpire_post.programs import Programs, Report
from umpire_post.sheets import Found
from umpire_post.words import plain

DAY = 24 * 60 * 60
MOST_WRONG_KEYS = 5  # for a player within a day; after these the player's sheets wait for the umpire
NO_SHEET = "No line of it begins with SHEET, so it has no sheet, and changes none. The umpire is told."
LONGEST_MENDED = 200  # characters of a SHEET line with a fault
WORD = re.compile(r"[A-Za-z][A-Za-z0-9]*")
SLIP = re.compile(r"\b(?P<kind>[PS]R|OR)[^\w\n]{0,3}(?P<number>[1-9][0-9]{0,3})(?:[^\w\n]{1,3}(?P<of_set>[1-3]))?(?![0-9])", re.I | re.A)
NUMBER = re.compile(r"\d+")
CITED = re.compile(r"\b([Ll]ines?) (\d+(?:(?: to |, )\d+)*)\b")  # lines of the file


@dataclass(frozen=True)
class Judged:
    """A sheet of a message: what became of it in a sentence and in paragraphs below it, whether it counts,
    and what was asked of the desk about it."""

    found: Found
    said: str
    counts: bool = False
    asked: Future[tuple[str, ...]] | None = None
    is_shown: bool = True
    below: tuple[str, ...] = ()

    @property
    def findings(self) -> tuple[str, ...]:
        """What the desk finds in it, once the desk has said so."""
        return self.asked.result() if self.asked else ()

    @property
    def sheet(self) -> Sheet:
        return Sheet(self.found.player, self.found.round, self.found.texts())

    @property
    def name(self) -> str:
        return f"SHEET {self.found.player} {self.found.round}" if self.found.player else "a SHEET line"


@dataclass
class Reading:
    """A message as it was read: its sheets, what is said of it as a whole, why something of it was set
    aside, whether it has the right key, and the players for whose sheets it brought a wrong one."""

    incoming: Incoming
    senders: Sequence[Player] = ()
    sheets: list[Judged] = field(default_factory=list)
    said: list[str] = field(default_factory=list)
    aside: list[str] = field(default_factory=list)
    wrong_keys: list[str] = field(default_factory=list)
    has_key: bool = False
    is_answered: bool = True
    is_of_stranger: bool = False

    def leave_unanswered(self) -> None:
        """Leaves a message without an answer, and has the umpire know."""
        self.is_answered = False
        self.aside = [f"{it}, not answered" for it in self.aside]

    def hold_back(self, why: str) -> None:
        """Leaves a message without an answer. Its sheets wait for the umpire: none counts of which its player
        is not told."""
        held = [f"the sheet of {it.found.player} for {it.found.round}, {why}" for it in self.counting()]
        self.aside += held if held or self.aside else [f"it came {why}"]
        self.sheets = [replace(it, counts=False, asked=None) for it in self.sheets]
        self.leave_unanswered()

    def counting(self) -> list[Judged]:
        """Returns the sheets that count."""
        return [it for it in self.sheets if it.counts]


@dataclass(frozen=True)
class Fault:
    """Why a sheet is set aside, for the umpire and for its player."""

    why: str
    said: str


class Reader:
    """Reads messages for a game as it stands. The desk looks at their sheets meanwhile, at several of them
    side by side."""

    def __init__(self, folder: Folder, programs: Programs, report: Report) -> None:
        self.folder = folder
        self.programs = programs
        self.report = report
        self.desk = ThreadPoolExecutor(os.cpu_count())

    def close(self) -> None:
        """Ends what the desk has not begun yet."""
        self.desk.shutdown(cancel_futures=True)

    @property
    def club(self) -> Club:
        return self.folder.club

    def read(self, incoming: Incoming, accepted: Record | None = None) -> Reading:
        """Reads a message. If the umpire accepts one that was read before, its record is given: then the
        sender and the key are not looked at, and the sheets that counted are left out."""
        reading = Reading(incoming, self.club.players_at(incoming.sender))
        if incoming.refused:
            reading.said = [f"It was not read: {incoming.refused}.", *self._unchanged(reading)]
            return self._set_aside(reading, incoming.refused, bool(reading.senders))
        if incoming.automatic:
            return self._set_aside(reading, incoming.automatic, False)
        if accepted is None and not incoming.sender:
            return self._set_aside(reading, "it has not exactly one sender", False)
        if accepted is None and not reading.senders:
            return self._of_stranger(reading)
        if not incoming.contents.found.sheets:
            reading.said = [NO_SHEET, *self._unchanged(reading), *self._example(reading)]
            return self._set_aside(reading, "it has no sheet", True)
        if accepted is None and len(incoming.contents.found.keys) > 1:
            return self._of_many_keys(reading)
        self._judge_all(reading, accepted)
        return reading

    def _judge_all(self, reading: Reading, accepted: Record | None) -> None:
        counted = {(it.player, it.round) for it in accepted.sheets} if accepted else set()
        sheets = reading.incoming.contents.found.sheets
        for at, one in enumerate(sheets):
            if (one.player, one.round) in counted:
                continue
            if any((it.player, it.round) == (one.player, one.round) for it in sheets[at + 1:]) and one.player:
                self._add(reading, one, "Your message has a later sheet for this round. This one does not count.", is_shown=False)
            else:
                self._judge(reading, one, accepted is not None)

    def _set_aside(self, reading: Reading, why: str, is_answered: bool) -> Reading:
        reading.aside.append(why)
        reading.is_answered = is_answered
        return reading

    def _of_stranger(self, reading: Reading) -> Reading:
        """A message from an address that is nobody's: its sheets do not count."""
        reading.is_of_stranger = True
        sheets = reading.incoming.contents.found.sheets
        if not sheets:
            return self._set_aside(reading, "it is from nobody of the club, and has no sheet", False)
        for one in sheets:
            whose = f"for {one.player} " if one.player in self.club.players else ""
            reading.aside.append(f"a sheet {whose}from an address that is nobody's")
            self._add(reading, one, "This address is nobody's in the club, so the sheet does not count. The umpire is told.", is_shown=False)
        if reading.incoming.is_of_list or reading.incoming.sender.lower() == self.club.umpire.lower():
            reading.leave_unanswered()
        return reading

    def _of_many_keys(self, reading: Reading) -> Reading:
        """A message with more KEY lines than one, which may be guesses: none is compared."""
        found = reading.incoming.contents.found
        named = {it.player for it in found.sheets}
        reading.wrong_keys = [it.name for it in reading.senders if it.key and it.name in named]
        reading.said = [f"It has {len(found.keys)} KEY lines, and a message may have one. Nothing of it counts. The umpire is told.",
                        *self._unchanged(reading)]
        return self._set_aside(reading, f"it has {len(found.keys)} KEY lines", True)

    def _judge(self, reading: Reading, one: Found, is_vouched: bool) -> None:
        """Judges a sheet, and says what became of it."""
        player = self.club.players.get(one.player)
        if player is None:
            self._mend(reading, one)
            return
        fault = None if is_vouched else self._fault_of_sender(reading, player)
        fault = fault or self._fault_of_sheet(one, player)
        if fault is None:
            self._weigh(reading, one)
            return
        reading.aside.append(f"the sheet of {one.player} for {one.round}, {fault.why}")
        self._add(reading, one, fault.said, is_shown=False)

    def _fault_of_sender(self, reading: Reading, player: Player) -> Fault | None:
        """Returns why a sheet of a player does not count in this message, if it does not. After too many
        wrong keys none is compared."""
        if player not in reading.senders:
            return Fault(f"from an address that is not {player.name}'s",
                         f"This is a sheet of {player.name}, and did not come from an address of {player.name}. "
                         "It does not count. The umpire is told.")
        if player.key is None:
            return None
        if self._wrong_keys(player, reading.incoming.arrived[0]) >= MOST_WRONG_KEYS:
            return Fault(f"after {MOST_WRONG_KEYS} wrong KEY lines within a day",
                         f"{MOST_WRONG_KEYS} messages of one day had a wrong KEY line, so sheets of {player.name} wait for the umpire, "
                         "who is told of this one.")
        if reading.incoming.contents.found.has_key(player.key):
            reading.has_key = True
            return None
        reading.wrong_keys += [player.name] if reading.incoming.contents.found.keys else []
        return Fault("with a wrong KEY line" if reading.incoming.contents.found.keys else "without a KEY line",
                     f"A sheet of {player.name} counts only with the line KEY and the word that was agreed upon. "
                     "The message has none with that word, so the sheet does not count. The umpire is told.")

    def _wrong_keys(self, player: Player, arrived: int) -> int:
        """Returns how many messages within a day before a moment brought a wrong key for a player."""
        return sum(player.name in it.wrong_keys for it in self.folder.records if arrived - DAY < it.arrived[0] <= arrived)

    def _fault_of_sheet(self, one: Found, player: Player) -> Fault | None:
        """Returns why a sheet counts from nobody, if it does not."""
        if player.key and any(player.key in it for it in one.texts()):
            return Fault("with the key in a line of its own orders",
                         "A line of the sheet has your key in it, and others may come to see the sheet. It does not count. "
                         "Write KEY and the word on a line of its own.")
        if self.report.awaited is None:
            return Fault("after the end of the game", "The game is over. The sheet does not count.")
        if one.round in self.report.played:
            return Fault(f"after {one.round} was played",
                         f"{one.round} was played before this message came. The sheet does not count. The umpire is told.")
        return None

    def _weigh(self, reading: Reading, one: Found) -> None:
        """Takes a sheet, unless one is here that arrived later."""
        before = self.folder.pending(one.round).get(one.player)
        if before and before.record.arrived > reading.incoming.arrived:
            self._add(reading, one, f"A sheet of {one.player} for {one.round} that arrived later is here, in message "
                                    f"{before.record.number}. That one counts, and this one does not.", is_shown=False)
        else:
            reading.sheets.append(Judged(one, self._welcome(one, before), True, self._asked(one)))

    def _welcome(self, one: Found, before: Pending | None) -> str:
        """Says for what a sheet counts, and which other sheet it replaces."""
        instead = f", in place of the one in message {before.record.number}" if before else ""
        if one.round == self.report.awaited:
            return f"It counts for {one.round}{instead}."
        return f"It is kept for {one.round}{instead}. The round that comes next is {self.report.awaited}."

    def _mend(self, reading: Reading, one: Found) -> None:
        """Sets aside what is below a SHEET line with a fault, and says how the line may be mended."""
        line = one.lines[0].text
        reading.aside.append(f"a sheet with a fault in its first line: {plain(line)}")
        player, round_ = mended_player(line, reading.senders, self.club), mended_round(line)
        mended = [f"Perhaps you meant this line:\n\n    SHEET {player} {round_}"] if round_ else []
        below = (*self._unchanged(reading), *mended, *([] if round_ == self.report.awaited else self._example(reading, player)))
        self._add(reading, one, "No sheet begins with this line, so nothing of it counts. The umpire is told.", self._asked(one), below=below)

    def _unchanged(self, reading: Reading) -> list[str]:
        """Says which sheets of its senders for the awaited round a message leaves as they are."""
        changed = [it.player for it in reading.incoming.contents.found.sheets if it.round == self.report.awaited]
        here = {name: it for name, it in self.folder.pending(self.report.awaited or "").items() if name not in changed}
        whose = "Your sheet" if len(reading.senders) == 1 else "The sheet of {}"
        return [f"{whose.format(it.name)} for {self.report.awaited} as it came on "
                f"{self.club.zone.told(datetime.fromisoformat(here[it.name].record.came))} stands unchanged."
                for it in reading.senders if it.name in here]

    def _example(self, reading: Reading, player: str = "") -> list[str]:
        """Says how a sheet for the awaited round begins."""
        name = player or (reading.senders[0].name if reading.senders else next(iter(self.club.players)))
        awaited = self.report.awaited
        return [f"A sheet for {awaited}, which is awaited, begins with a line such as\n\n    SHEET {name} {awaited}"] if awaited else []

    def _add(self, reading: Reading, one: Found, said: str, asked: Future[tuple[str, ...]] | None = None, is_shown: bool = True,
             below: tuple[str, ...] = ()) -> None:
        reading.sheets.append(Judged(one, said, False, asked, is_shown, below))

    def _asked(self, one: Found) -> Future[tuple[str, ...]]:
        """Asks the desk what it finds in a sheet, with the numbers of its own lines."""
        sheet = Sheet(one.player, one.round, one.texts())
        return self.desk.submit(findings_in, sheet, one, self.folder.orders, self.report, self.programs)


def mended_player(line: str, senders: Sequence[Player], club: Club) -> str:
    """Returns whose sheet a SHEET line with a fault may begin: a player whom it names, or the first sender."""
    words = [it.upper() for it in WORD.findall(line[:LONGEST_MENDED])]
    named = [it for it in words if it in club.players]
    return (*named, *(it.name for it in senders), *club.players)[0]


def mended_round(line: str) -> str:
    """Returns the round that a SHEET line with a fault may name, or nothing."""
    found = SLIP.search(line[:LONGEST_MENDED])
    if found is None or (found["kind"].upper() == "OR") != (found["of_set"] is not None):
        return ""
    return f"{found['kind'].upper()}{int(found['number'])}" + (f".{found['of_set']}" if found["of_set"] else "")


def findings_in(sheet: Sheet, found: Found, orders: bytes, report: Report, programs: Programs) -> tuple[str, ...]:
    """Returns what the desk finds in a sheet alone at the end of an order file that has this report, with
    the numbers that its lines have in the sheet instead of those in the file."""
    first = line_count(orders) + 1
    numbers = {first + at: number for at, (number, _) in enumerate(found.numbered())}

    def named(cited: re.Match[str]) -> str:
        own = [numbers.get(int(it)) for it in NUMBER.findall(cited[2])]
        each = iter(own)
        return f"{cited[1]} " + NUMBER.sub(lambda _: str(next(each)), cited[2]) if all(own) else cited[0]

    def shown(line: int, said: str) -> str:
        number = numbers.get(line)
        return f"line {number} | {said}" if number else said

    owed = report.owed_without((sheet.player, sheet.round))
    return tuple(shown(it.line, CITED.sub(named, it.said)) for it in programs.findings(with_sheets(orders, [sheet]), first, owed))
