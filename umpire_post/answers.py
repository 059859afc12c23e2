"""The answer to a message: what became of each of its sheets, and what was not read."""

from collections.abc import Sequence
from datetime import datetime

from umpire_post.club import Club, Player
from umpire_post.letters import Letter, findings_text, letter, wrapped
from umpire_post.message import Contents, Incoming
from umpire_post.prose import ANSWERS, READ
from umpire_post.reading import Judged, Reading
from umpire_post.words import counted, plain

MAX_UNREAD = 10  # parts that were not read
MAX_LEFT_OUT = 5  # lines that were left out of a sheet
LONGEST_SHOWN = 160  # characters of a line of a sheet in an answer
LONGEST_THREAD = 10  # messages before the one that is answered


def answer(club: Club, reading: Reading, number: int, owed: Sequence[str], now: datetime, *, to: str, name: str,
           player: Player | None = None) -> Letter:
    """Makes the answer to a message: of the sheets of this player, if one is named, and otherwise of all."""
    sheets = [it for it in reading.sheets if player is None or it.found.player == player.name]
    who = player.name if player else " and ".join(it.name for it in reading.senders) or to
    parts = [club.spoken(club.greeting, who), f"{ANSWERS} {number} of this game.", *map(_paragraph, reading.said)]
    parts += [part for it in sheets for part in _of_sheet(it)]
    parts += _unread(reading.incoming.contents) + list(owed) + [club.spoken(club.closing, who)]
    text = _masked("\n\n".join(parts) + "\n", [player] if player else reading.senders)
    return letter(club, name, to, _subject(club, reading, sheets), text, now, automatic="auto-replied", answers=_thread(reading.incoming))


def _subject(club: Club, reading: Reading, sheets: Sequence[Judged]) -> str:
    """Returns the subject of an answer: the game, the rounds of the sheets, and what became of them."""
    rounds = dict.fromkeys(it.found.round for it in sheets if it.found.round)
    about = f"Re: {club.game}{' ' if rounds else ''}{', '.join(rounds)}"
    if reading.incoming.refused:
        return f"{about}: your message was not read"
    if not sheets:
        return f"{about}: your message has no sheet"
    what = "your sheet" if len(sheets) == 1 else "your sheets"
    if not any(it.counts for it in sheets):
        return f"{about}: {what} {'does' if len(sheets) == 1 else 'do'} not count"
    found = sum(len(it.findings) for it in sheets)
    return f"{about}: {what}, {counted(found, 'finding') if found else 'no findings'}"


def _thread(incoming: Incoming) -> list[str]:
    """Returns the Message-IDs of a message and of those that it answers, if it has one."""
    return [*incoming.answers[-LONGEST_THREAD:], incoming.message_id] if incoming.message_id else []


def _of_sheet(judged: Judged) -> list[str]:
    """Returns what an answer says of a sheet."""
    if not judged.is_shown:
        return [f"{judged.name}\n\n" + wrapped(judged.said, "")]
    parts = [f"{judged.name}{READ}\n\n" + "\n".join(_numbered(judged)), wrapped(judged.said, ""), *map(_paragraph, judged.below)]
    if judged.found.left_out:
        parts.append("Left out below its last order, since no order begins so:\n\n" + "\n".join(_left_out(judged.found.left_out)))
    undone = [f"    {_line_name(number)}: {', '.join(line.undone)}"
              for line, (number, _) in zip(judged.found.lines, judged.found.numbered()) if line.undone]
    if undone:
        parts.append("Mail had changed these lines, and that was undone:\n\n" + "\n".join(undone))
    if judged.counts or judged.findings:
        parts.append(findings_text(judged.findings))
    return parts


def _numbered(judged: Judged) -> list[str]:
    cut = (lambda it: it if len(it) <= LONGEST_SHOWN else it[:LONGEST_SHOWN] + " ..")
    return [f"{number or '':>6}  {cut(text)}".rstrip() for number, text in judged.found.numbered()]


def _left_out(lines: Sequence[str]) -> list[str]:
    """Returns lines that were left out of a sheet as an answer shows them."""
    more = [f"    and {counted(len(lines) - MAX_LEFT_OUT, 'line')} more"] if len(lines) > MAX_LEFT_OUT else []
    return [f"    {plain(it)}" for it in lines[:MAX_LEFT_OUT]] + more


def _paragraph(text: str) -> str:
    """Returns a paragraph in lines of a letter, and lines below it as they are."""
    first, blank, rest = text.partition("\n")
    return wrapped(first, "") + blank + rest


def _line_name(number: int | None) -> str:
    return f"line {number}" if number else "a line without a number"


def _unread(contents: Contents) -> list[str]:
    """Says what of a message was not read."""
    counts = [(contents.quoted, "quoted line"), (contents.signature, "line of a signature"), (contents.found.others, "line above a sheet")]
    said = [f"{number} {what if number == 1 else what.replace('line', 'lines')}" for number, what in counts if number]
    said += contents.unread[:MAX_UNREAD]
    return [wrapped(f"Not read: {', '.join(said)}.", "")] if said else []


def _masked(text: str, readers: Sequence[Player]) -> str:
    """Takes the keys of the readers of a letter out of its text. To mask another's would tell that a guess
    was right."""
    for player in readers:
        if player.key:
            text = text.replace(player.key, "****")
    return text
