"""What `status` and `due` do."""

from datetime import datetime

from umpire_post import letters
from umpire_post.deadlines import deadline
from umpire_post.errors import PostError
from umpire_post.evening import Evening
from umpire_post.folder import DUE, HANDED_OVER, OUTBOX, SENT, Folder, Messages, due_text, in_doubt_in, letters_in
from umpire_post.games import Place
from umpire_post.intake import tell_aside
from umpire_post.letters import Letter
from umpire_post.programs import Report
from umpire_post.rounds import outlook, put_letters, report_of, tell_outlook
from umpire_post.words import counted, listed


def status(evening: Evening, place: Place, finds: bool, reminds: bool) -> None:
    """Tells of each game who has sent, who owes, since when and until when, and which messages wait."""
    games, shared = place.games(), place.shared()
    for folder in games:
        whose = f"{folder.club.game} " if place.is_club else ""
        report = report_of(evening, folder)
        if report.awaited is None:
            evening.tell(f"{folder.club.game}: the game is over.")
        else:
            _tell_sheets(evening, folder, report, report.awaited)
        if finds and (played := outlook(folder, evening.programs_of(folder.club), report)):
            tell_outlook(evening, evening.programs_of(folder.club), folder, played)
        _tell_waiting(evening, folder, whose)
        if reminds and report.awaited:
            _remind(evening, folder, report, report.awaited)
    if shared:
        _tell_waiting(evening, shared, f"{shared.club.game} ")
    if any(it.waiting() for it in (*games, *([shared] if shared else []))):
        evening.tell("Deal with a message by: in FOLDER --accept NUMBER, or in FOLDER --done NUMBER")


def set_due(evening: Evening, folder: Folder, text: str) -> None:
    """Sets when the sheets of the awaited round are due, and tells the players."""
    report = report_of(evening, folder)
    if report.awaited is None:
        raise PostError("the game is over")
    club, now = folder.club, evening.now()
    until = deadline(text, now, club.zone)
    pending, round_, due = folder.pending(report.awaited), report.awaited, club.zone.told(until)
    written = [letters.deadline_letter(club, f"due-{round_}-{it}-{now:%Y-%m-%d-%H%M%S}", club.players[it], round_, due,
                                       it in report.owing and it not in pending, club.identity(folder.letter_to(it)), now)
               for it in report.players]
    step = folder.step("due", round_)
    step.put(folder.top / DUE, due_text(round_, until.isoformat(timespec="minutes")))
    put_letters(step, folder, written)
    step.commit()
    evening.tell(f"{round_} is due {due}. Letters that say so are in {OUTBOX}.")


def _tell_sheets(evening: Evening, folder: Folder, report: Report, round_: str) -> None:
    """Tells who has sent a sheet and who owes one."""
    pending, told, due = folder.pending(round_), folder.club.zone.told, folder.due(round_)
    evening.tell(f"{folder.club.game}: {round_} has been awaited since {told(folder.since())}" + (f", and is due {due}" if due else ""))
    for name in report.players:
        if name in pending:
            record = pending[name].record
            evening.tell(f"  {name:8} sent message {record.number}, read {told(datetime.fromisoformat(record.came))}")
        else:
            evening.tell(f"  {name:8} {'owes a sheet' if name in report.owing else 'has a sheet in the order file'}")
        if later := [it for it in folder.rounds_of(name) if it not in (*report.played, round_)]:
            evening.tell(f"           has sent a sheet for {listed(later)} already")


def _tell_waiting(evening: Evening, box: Messages, whose: str) -> None:
    """Tells which messages wait for the umpire, how many letters are to be sent, and of which it is not
    known whether they are."""
    for record in box.waiting():
        tell_aside(evening, record, whose)
    if letters_in(box.top):
        evening.tell(f"{counted(len(letters_in(box.top)), 'letter')} in {whose}{OUTBOX}")
    for path in in_doubt_in(box.top):
        evening.tell(f"in doubt: {whose}{path.name.removesuffix(HANDED_OVER)} was being handed over when send was interrupted")


def _remind(evening: Evening, folder: Folder, report: Report, round_: str) -> None:
    """Writes a letter to each player who owes a sheet, at most one a day."""
    club, now = folder.club, evening.now()
    owing = [it for it in report.owing if it not in folder.pending(round_)]
    names = {it: f"reminder-{round_}-{it}-{now.astimezone(club.zone.rule):%Y-%m-%d}" for it in owing}
    written = {it: _reminder(folder, it, name, round_, now) for it, name in names.items() if not _is_written(folder, name)}
    step = folder.step("status")
    put_letters(step, folder, list(written.values()))
    step.commit()
    whose = f"{club.game}: "
    evening.tell(f"{whose}reminders for {listed(written)} are in {OUTBOX}" if written else f"{whose}nobody needs a reminder today")


def _is_written(folder: Folder, name: str) -> bool:
    return any((folder.top / place / f"{name}{end}").exists() for place in (OUTBOX, SENT) for end in (".eml", HANDED_OVER))


def _reminder(folder: Folder, player: str, name: str, round_: str, now: datetime) -> Letter:
    club = folder.club
    return letters.reminder(club, name, club.players[player], round_, club.zone.told(folder.since()), folder.due(round_),
                            club.identity(folder.letter_to(player)), now)
