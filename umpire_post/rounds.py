"""What `round` and `undo` do."""

import hashlib
from collections.abc import Sequence
from dataclasses import dataclass
from datetime import datetime
from pathlib import Path

from umpire_post import letters
from umpire_post.club import Player
from umpire_post.disk import Step
from umpire_post.errors import FILE_REFUSED, PostError
from umpire_post.evening import Evening
from umpire_post.folder import (DUE, HANDED_OVER, ORDERS, OUTBOX, UNDONE, Folder, Round, Sheet, due_text, empty_sheet,
                                line_count, with_sheets)
from umpire_post.letters import Attached, Letter
from umpire_post.programs import ALONE, Programs, Report
from umpire_post.reading import findings_in
from umpire_post.sheets import Found
from umpire_post.text import Line
from umpire_post.words import counted, listed


@dataclass(frozen=True)
class Played:
    """A round as it would be played: the sheets, the message that each came by, the order file with them,
    and the reports before and after."""

    round: str
    sheets: tuple[Sheet, ...]
    came: dict[str, int | None]
    orders: bytes
    before: Report
    after: Report


def report_of(evening: Evening, folder: Folder) -> Report:
    """Returns the report of a game. Fails if `club.toml` lacks one of its players."""
    report = evening.report_of(folder)
    missing = [it for it in report.players if it not in folder.club.players]
    if missing:
        raise PostError(f"club.toml of {folder.club.game} has no {listed(missing)}, who {'plays' if len(missing) == 1 else 'play'}")
    return report


def play(evening: Evening, folder: Folder, without: Sequence[str], round_: str | None, due: str | None, goes: bool) -> None:
    """Plays the awaited round, and writes its letters. Before that it tells what the desk finds with all
    sheets, and what is bought and sold by force."""
    programs = evening.programs_of(folder.club)
    report = report_of(evening, folder)
    if report.awaited is None:
        raise PostError("the game is over")
    if round_ not in (None, report.awaited):
        raise PostError(f"{round_} is not the round that comes next: that is {report.awaited}")
    played = _played(folder, programs, report, report.awaited, [it.upper() for it in without])
    until = folder.club.until(due, evening.now()) if played.after.awaited else None
    tell_outlook(evening, programs, folder, played)
    if not goes:
        _look_for_bankrupt(folder, played)
    _write(evening, folder, programs, played, until)
    evening.tell(f"{played.round} was played. {letters.next_of(played.after, _told(folder, until))}")
    if waiting := len(folder.waiting()):
        evening.tell(f"{counted(waiting, 'message')} {'waits' if waiting == 1 else 'wait'} for you: see status")


def outlook(folder: Folder, programs: Programs, report: Report) -> Played | None:
    """Returns how the awaited round would be played with an empty sheet for each player who owes one, or
    nothing if no round is awaited."""
    if report.awaited is None:
        return None
    owing = [it for it in report.owing if it not in folder.pending(report.awaited)]
    return _played(folder, programs, report, report.awaited, owing)


def tell_outlook(evening: Evening, programs: Programs, folder: Folder, played: Played) -> None:
    """Tells what the desk finds in the sheets that are there, what the round refuses, and what is bought and
    sold by force. Part of it is for the umpire alone."""
    here = [it for it in played.sheets if played.came[it.player] is not None]
    owed = played.before.owed_without(*((it.player, it.round) for it in here))
    text = programs.check(with_sheets(folder.orders, here), line_count(folder.orders) + 1, owed)
    evening.tell_all(text)
    of_all = {"refuses these lines": programs.refused(played.orders, played.after),
              "has these purchases and sales by force": played.after.forced()}
    if ALONE not in text and any(of_all.values()):
        evening.tell(f"  {ALONE}")
    for what, lines in of_all.items():
        if lines:
            evening.tell(f"{played.round} {what}:")
            evening.tell_all("\n".join(lines))
    if ALONE in text or any(of_all.values()):
        evening.tell(f"Keep everything below {ALONE} to yourself.")


def undo(evening: Evening, folder: Folder, round_: str | None) -> None:
    """Takes the last round back: the order file before it returns, and letters not yet sent go."""
    if not folder.rounds:
        raise PostError("no round was played by post")
    last = folder.rounds[-1]
    if round_ not in (None, last.round):
        raise PostError(f"{round_} is not the last round that was played: that is {last.round}")
    if hashlib.sha256(folder.orders).hexdigest() != last.after:
        raise PostError(f"{ORDERS} was changed after {last.round}. {last.place}/before.orders is the one before that round")
    step = folder.step("undo", last.round)
    place = folder.top / last.place
    undone = folder.top / UNDONE / place.name
    for path in sorted(it for it in place.iterdir() if it.is_file()):
        step.put(undone / path.name, path.read_bytes())
        step.remove(path)
    step.remove(place)
    step.put(folder.top / ORDERS, (place / "before.orders").read_bytes())
    _put_due(step, folder, last.round, last.due)
    told, doubtful = _take_letters(step, folder, last, undone)
    step.commit()
    evening.tell(f"{last.round} was taken back, and is awaited again.")
    if told:
        evening.tell(f"Tell {listed(told)}: their letters of the round have been sent.")
    if doubtful:
        evening.tell(f"Tell {listed(doubtful)}: their letters of the round were being handed over when send was interrupted.")
    if not told and not doubtful:
        evening.tell("Nobody needs to be told: none of its letters was sent.")


def _played(folder: Folder, programs: Programs, report: Report, round_: str, without: Sequence[str]) -> Played:
    """Returns how a round is played. Fails if a sheet is owed, or if the umpire does not play it."""
    sheets, came = _sheets_of(folder, report, round_, without)
    orders = with_sheets(folder.orders, sheets)
    after = programs.report(orders)
    if after.played != (*report.played, round_):
        raise PostError(f"the umpire does not play {round_} by these sheets: desk check says\n"
                        + programs.check(orders, line_count(folder.orders) + 1), FILE_REFUSED)
    return Played(round_, tuple(sheets), came, orders, report, after)


def _sheets_of(folder: Folder, report: Report, round_: str, without: Sequence[str]) -> tuple[list[Sheet], dict[str, int | None]]:
    """Returns the sheets by which a round is played, in the order of the players, and their messages."""
    pending = folder.pending(round_)
    owing = [it for it in report.owing if it not in pending]
    for name in without:
        if name not in owing:
            raise PostError(f"{name} does not owe a sheet for {round_}")
    left = [it for it in owing if it not in without]
    if left:
        raise PostError(f"{listed(left)} {'owes' if len(left) == 1 else 'owe'} a sheet for {round_}")
    names = [it for it in report.players if it in pending or it in owing]
    sheets = [pending[it].sheet if it in pending else empty_sheet(it, round_) for it in names]
    return sheets, {it: pending[it].record.number if it in pending else None for it in names}


def _look_for_bankrupt(folder: Folder, played: Played) -> None:
    """Fails if a player goes bankrupt to whom no answer has said so."""
    pending = folder.pending(played.round)
    untold = [it for it in played.after.bankrupt() if it not in pending or it not in pending[it].record.warned]
    if untold:
        name = untold[0]
        raise PostError(f"{name} goes bankrupt in {played.round}, and no letter has told {name}. Tell {name}, or run round with --go")


def _told(folder: Folder, until: datetime | None) -> str:
    return folder.club.zone.told(until) if until else ""


def _write(evening: Evening, folder: Folder, programs: Programs, played: Played, until: datetime | None) -> None:
    """Writes a round that is played, and its letters, in one step."""
    club, number, due = folder.club, folder.next_round(), _told(folder, until)
    bulletin, page = programs.bulletin(played.orders, played.after, due), programs.page(played.orders, due)
    attached = [Attached(f"{club.game}-{played.round}.html", "html", page.encode())]
    if not club.report_link:
        attached.append(Attached(f"{club.game}-{played.round}.report", "plain", played.after.text.encode()))
    if not club.orders_link:
        attached.append(Attached(f"{club.game}.orders", "plain", played.orders))
    written = {name: letters.round_letter(club, f"round-{number:03}-{played.round}-{name}", club.players[name], played.after, bulletin, due,
                                          _of_early(folder, programs, played, club.players[name]), attached, evening.now())
               for name in played.after.players}
    kept = Round(number, played.round, evening.time(), hashlib.sha256(played.orders).hexdigest(), played.came,
                 {it.file: name for name, it in written.items()}, folder.deadline(played.round))
    step = folder.step("round", played.round)
    for name, content in (("before.orders", folder.orders), ("sheets", with_sheets(b"", played.sheets)),
                          ("report", played.after.text.encode()), ("bulletin", bulletin.encode()), ("page.html", page.encode()),
                          ("round.json", kept.to_json())):
        step.put(folder.top / kept.place / name, content)
    step.put(folder.top / ORDERS, played.orders)
    _put_due(step, folder, played.after.awaited or "", until.isoformat(timespec="minutes") if until else "")
    put_letters(step, folder, list(written.values()))
    step.commit()


def put_letters(step: Step, folder: Folder, written: Sequence[Letter]) -> None:
    """Puts letters into the outbox of a game."""
    for it in written:
        step.put(folder.top / OUTBOX / it.file, it.content)


def _put_due(step: Step, folder: Folder, round_: str, due: str) -> None:
    """Puts the deadline of the awaited round into its place, if there is one."""
    if due:
        step.put(folder.top / DUE, due_text(round_, due))
    else:
        step.remove(folder.top / DUE)


def _take_letters(step: Step, folder: Folder, last: Round, undone: Path) -> tuple[list[str], list[str]]:
    """Takes the letters of a round out of the outbox; those in doubt are kept with the round. Returns to
    whom one was sent, and whose is in doubt."""
    told, doubtful = [], []
    for file, name in last.letters.items():
        path = folder.top / OUTBOX / file
        handed = path.with_suffix(HANDED_OVER)
        if path.exists():
            step.remove(path)
        elif handed.exists():
            step.put(undone / file, handed.read_bytes())
            step.remove(handed)
            doubtful.append(name)
        else:
            told.append(name)
    return told, doubtful


def _of_early(folder: Folder, programs: Programs, played: Played, player: Player) -> list[str]:
    """Says what the desk finds in a sheet of a player that is there for the next round already."""
    after = played.after
    early = folder.pending(after.awaited).get(player.name) if after.awaited else None
    if not early:
        return []
    found = findings_in(early.sheet, Found.of(map(Line, early.sheet.lines)), played.orders, after, programs)
    return [f"Your sheet for {after.awaited} is here already: it came in message {early.record.number}.", letters.findings_text(found)]
