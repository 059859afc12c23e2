"""Letters: how each is made, and the mail of a round."""

import textwrap
from collections.abc import Iterable, Sequence
from dataclasses import dataclass
from datetime import datetime
from email import policy
from email.message import EmailMessage
from email.utils import format_datetime

from umpire_post.club import Club, Player
from umpire_post.programs import Report
from umpire_post.words import listed, shown

COLUMNS = 78
LABELS = ("whatever others do:", "if nobody orders anything before it:")  # of the rules that a line breaks, in a finding
OF_LABELS = ("A line that is refused whatever others do is refused in any case: correct it. One that is refused if nobody orders anything "
             "before it may be obeyed once others have bought, sold or built.")
# (a line of a bulletin has up to 80 columns, and is to be left as it is; a host may take no other bytes
# than those of ASCII)
FORM = policy.default.clone(max_line_length=100, cte_type="7bit")


@dataclass(frozen=True)
class Letter:
    """A letter and the name of its file, without the ending."""

    name: str
    content: bytes

    @property
    def file(self) -> str:
        return f"{self.name}.eml"


@dataclass(frozen=True)
class Attached:
    """What a letter has attached: the name of a file, a subtype of text, and a content in UTF-8."""

    name: str
    kind: str
    content: bytes


def letter(club: Club, name: str, to: str, subject: str, text: str, now: datetime, *, automatic: str, answers: Sequence[str] = (),
           attached: Iterable[Attached] = ()) -> Letter:
    """Makes a letter. `answers` are the Message-IDs of the messages before it, the last one of which it
    answers. No part of a head comes from a message but its address and these, and all have a fixed
    form. Each byte of the letter is ASCII, so that any mail host takes it."""
    message = EmailMessage(policy=FORM)
    message["From"] = club.umpire
    message["To"] = to
    message["Subject"] = subject
    message["Date"] = format_datetime(now.astimezone(club.zone.rule))
    message["Message-ID"] = club.identity(name)
    message["Auto-Submitted"] = automatic
    if answers:
        message["In-Reply-To"] = answers[-1]
        message["References"] = " ".join(answers)
    message.set_content(shown(text))
    for it in attached:
        # (as bytes, so that it arrives as it is)
        message.add_attachment(it.content, maintype="text", subtype=it.kind, filename=it.name, params={"charset": "utf-8"})
    _name_boundaries(message, f"{name}.{club.mark}")
    return Letter(name, message.as_bytes())


def first_letter_of(club: Club, name: str, player: Player, report: Report, due: str, rules: Sequence[Attached], now: datetime) -> Letter:
    """Makes the first letter of a game for a player: who plays, the rules, the first round and its
    deadline."""
    players = [f"    {it:8}  {club.players[it].addresses[0]}" for it in report.players]
    parts = [
        wrapped(f"The game {club.game} of 1830 begins. These are the players, in the order of play:", ""),
        "\n".join(players),
        _of_rules(club, rules),
        wrapped(next_of(report, due), ""),
        wrapped(f"Answer this letter to send your sheet. Its first line is SHEET {player.name} {report.awaited or 'SR1'}, and your "
                "orders stand below it. You may send it again as often as you like: the last one counts. Each time you get an answer "
                "that says what was read and what is wrong with it.", ""),
        wrapped("If you write about another game as well, send each sheet as an answer to a letter of its game.", ""),
    ]
    return _of_umpire(club, name, player, f"{report.awaited or 'end'}: the game begins", [it for it in parts if it], now, attached=rules)


def round_letter(club: Club, name: str, player: Player, report: Report, bulletin: str, due: str, own: Sequence[str],
                 attached: Iterable[Attached], now: datetime) -> Letter:
    """Makes the letter of a round for a player: the bulletin, and what comes next."""
    played = report.played[-1]
    files = list(attached)
    linked = [f"The {what} is at {link}" for what, link in (("report", club.report_link), ("order file", club.orders_link)) if link]
    parts = [f"{played} was played.", bulletin.rstrip("\n"), wrapped(next_of(report, due), ""), *own, _of_files(report, player, files),
             "\n".join(linked)]
    after = f"{report.awaited} is next" if report.awaited else "the game is over"
    return _of_umpire(club, name, player, f"{played}: played, {after}", [it for it in parts if it], now, attached=files)


def reminder(club: Club, name: str, player: Player, round_: str, since: str, due: str, before: str, now: datetime) -> Letter:
    """Makes the letter that asks a player for a sheet. It answers the letter that asked first."""
    by = f"It is due {due}." if due else f"It has been awaited since {since}."
    parts = [wrapped(f"You still owe a sheet for {round_}. {by}", ""),
             f"Even with nothing to order, send the line SHEET {player.name} {round_}."]
    return _of_umpire(club, name, player, f"{round_}: you owe a sheet{', due ' if due else ''}{due}", parts, now, answers=[before])


def deadline_letter(club: Club, name: str, player: Player, round_: str, due: str, owes: bool, before: str, now: datetime) -> Letter:
    """Makes the letter that tells a player of another deadline. It answers the letter that asked for the
    round."""
    parts = [f"Sheets for {round_} are now due {due}.", "You still owe one." if owes else "Yours is here. You may replace it until then."]
    return _of_umpire(club, name, player, f"{round_}: due {due}", parts, now, answers=[before])


def which_game(club: Club, name: str, to: str, who: str, games: Sequence[Club], answers: Sequence[str], now: datetime) -> Letter:
    """Makes the letter that asks for which of several games a message is."""
    tagged = club.umpire.replace("@", f"+{games[0].game}@", 1)
    parts = [club.spoken(club.greeting, who),
             wrapped(f"You play in {listed(it.game for it in games)}, and your message names none of them. Nothing of it counts.", ""),
             wrapped(f"Send it again: as an answer to a letter of its game, to {tagged} (with the name of the game), or with the name of "
                     "the game in the subject.", ""), club.spoken(club.closing, who)]
    return letter(club, name, to, f"Re: {club.game}: which game is your message for?", "\n\n".join(parts) + "\n", now,
                  automatic="auto-replied", answers=answers)


def next_of(report: Report, due: str = "") -> str:
    """Says which round comes next, whose sheets it awaits, and until when."""
    if report.awaited is None:
        return "The game is over."
    return f"{report.awaited} comes next. It awaits a sheet from each of {listed(report.owing)}{', due ' if due else ''}{due}."


def _of_umpire(club: Club, name: str, player: Player, subject: str, parts: Sequence[str], now: datetime, *,
               answers: Sequence[str] = (), attached: Iterable[Attached] = ()) -> Letter:
    """Makes a letter of the umpire's own to a player, about a round that its subject begins with."""
    text = "\n\n".join([club.spoken(club.greeting, player.name), *parts, club.spoken(club.closing, player.name)]) + "\n"
    return letter(club, name, player.addresses[0], f"{'Re: ' if answers else ''}{club.game} {subject}", text, now,
                  automatic="auto-generated", answers=answers, attached=attached)


def _of_rules(club: Club, rules: Sequence[Attached]) -> str:
    """Says where the rules are."""
    if club.rules_link:
        return f"The rules are at {club.rules_link}"
    return "The rules and a page on how to write sheets are attached." if rules else ""


def _of_files(report: Report, player: Player, files: Sequence[Attached]) -> str:
    """Says what the attached files are for."""
    said = f"Attached: {listed(it.name for it in files)}."
    if report.awaited:
        said += (f" The page shows what you and your companies may do in {report.awaited}. If you have the umpire's desk, add your sheet "
                 f"to the order file, and ask it, for example: desk may {player.name}, desk trial {player.name}, desk lays PRR.")
    return wrapped(said, "")


def findings_text(findings: Sequence[str]) -> str:
    """Says what the desk found in a sheet."""
    if not findings:
        return "The desk finds nothing to correct in it, as things stand."
    text = "The desk finds:\n\n" + "\n".join(wrapped(it) for it in findings)
    if any(label in it for it in findings for label in LABELS):
        text += "\n\n" + wrapped(OF_LABELS, "")
    return text


def wrapped(text: str, indent: str = "    ") -> str:
    """Returns a paragraph in lines of a letter."""
    return textwrap.fill(text, COLUMNS, initial_indent=indent, subsequent_indent=indent and indent + "  ", break_long_words=False,
                         break_on_hyphens=False)


def _name_boundaries(message: EmailMessage, name: str) -> None:
    """Gives each letter with parts a boundary of its own, the same one each time it is made."""
    if message.is_multipart():
        message.set_boundary(f"=_{name.replace('/', '_')}")
