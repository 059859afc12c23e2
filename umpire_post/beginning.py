"""What `club` and `new` do: the folder of a club, and that of a game with its first letters."""

import os
import secrets
import shutil
from collections.abc import Mapping, Sequence
from dataclasses import dataclass
from pathlib import Path

from umpire_post import letters
from umpire_post.club import Club, Player, club_text, game_text, is_address, read_club
from umpire_post.deadlines import Rule, Zone, is_rule
from umpire_post.disk import flush, write
from umpire_post.errors import FILE_REFUSED, PostError
from umpire_post.evening import Evening
from umpire_post.folder import CLUB, DUE, INBOX, ORDERS, OUTBOX, ROUNDS, SENT, due_text, first_letter
from umpire_post.games import is_club
from umpire_post.letters import Attached
from umpire_post.programs import Report
from umpire_post.words import listed

RULES = ("playing.md", "rules.md")  # for players, in the order in which they are read


@dataclass(frozen=True)
class Wish:
    """What a club or a game is to be: its players as `NAME=ADDRESS`, or as names that the club knows; the
    umpire's address, the zone and the deadline, or what the club has; the version of the order file; the
    order file of a game that has begun."""

    players: Sequence[str]
    umpire: str | None = None
    zone: str | None = None
    due: str | None = None
    version: int = 2
    orders: Path | None = None


def begin_club(evening: Evening, top: Path, wish: Wish) -> None:
    """Makes the folder of a club of several games, or makes one of a folder with games in it."""
    if (top / CLUB).exists() or (top / ORDERS).exists():
        raise PostError(f"{top} already is the folder of a {'game' if (top / ORDERS).exists() else 'club'}")
    rule = _rule(wish.due)
    club = _club(evening, top, wish, _players(wish.players, {}))
    for name in (INBOX, OUTBOX, SENT):
        (top / name).mkdir(parents=True, exist_ok=True)
    new = top / f".{CLUB}.new"
    write(new, club_text(club, rule, "club").encode())
    flush([new])
    os.replace(new, top / CLUB)
    flush([top, *(top / it for it in (INBOX, OUTBOX, SENT))])
    evening.tell(f"{top} is the folder of a club. Make a game with: new {top / 'NAME'} and its players")


def begin_game(evening: Evening, top: Path, wish: Wish) -> None:
    """Makes a game's folder, with its first letters. Nothing is left of one that is refused."""
    if top.exists() and (not top.is_dir() or any(top.iterdir())):
        raise PostError(f"{top} already exists")
    made = top.parent / f".{top.name}.new"
    shutil.rmtree(made, ignore_errors=True)
    try:
        said = _make(evening, top, made, wish)
    except BaseException:
        shutil.rmtree(made, ignore_errors=True)
        raise
    os.replace(made, top)
    flush([top.parent])
    for line in said:
        evening.tell(line)


def _make(evening: Evening, top: Path, made: Path, wish: Wish) -> list[str]:
    """Makes the folder of a game beside its place. Returns what there is to tell."""
    above = top.parent / CLUB if is_club(top.parent.resolve()) else None
    rule = wish.due if wish.due and is_rule(wish.due) else ""
    players = _players(wish.players, read_club(above).players if above else {})
    for name in (INBOX, OUTBOX, SENT, ROUNDS):
        (made / name).mkdir(parents=True)
    own = _club(evening, top, wish, players, is_shared=above is not None)
    write(made / CLUB, (game_text(own, rule) if above else club_text(own, _rule(rule))).encode())
    club = read_club(made / CLUB, above)
    text = wish.orders.read_bytes() if wish.orders else f"GAME 1830 {wish.version}\nPLAYERS {' '.join(club.players)}\n".encode()
    programs = evening.programs_of(club)
    report = programs.report(text)
    if set(report.players) != set(club.players):
        raise PostError(f"the file has the players {listed(report.players)}, but the addresses are for {listed(club.players)}",
                        FILE_REFUSED)
    write(made / ORDERS, text)
    until = club.until(wish.due, evening.now()) if report.awaited else None
    if until and report.awaited:
        write(made / DUE, due_text(report.awaited, until.isoformat(timespec="minutes")))
    due = club.zone.told(until) if until else ""
    _write_letters(evening, made, club, report, due)
    flush([made, *made.rglob("*")])
    findings = programs.check(text, 1, report.owed_without())
    return [*findings.splitlines(), letters.next_of(report, due), f"The first letters are in {OUTBOX}."]


def _write_letters(evening: Evening, made: Path, club: Club, report: Report, due: str) -> None:
    """Writes the first letter to each player."""
    rules = [] if club.rules_link else _rules(evening.home)
    for player in club.players.values():
        it = letters.first_letter_of(club, first_letter(player.name), player, report, due, rules, evening.now())
        write(made / OUTBOX / it.file, it.content)


def _club(evening: Evening, top: Path, wish: Wish, players: Mapping[str, Player], is_shared: bool = False) -> Club:
    """Returns what a new `club.toml` says. That of a game in a club needs no umpire's address."""
    umpire = wish.umpire or ""
    if (umpire or not is_shared) and not is_address(umpire):
        raise PostError(f"the umpire's address is not valid: {umpire}" if umpire else "name the umpire's address with --umpire ADDRESS")
    zone = Zone.of(wish.zone) if wish.zone else Zone.of_machine()
    return Club(_name_of(top), umpire, secrets.token_hex(4), evening.time(), players, zone=zone)


def _players(words: Sequence[str], known: Mapping[str, Player]) -> dict[str, Player]:
    """Reads NAME=ADDRESS words, or names that the club knows. A name may be there several times, each with
    an address."""
    found: dict[str, Player] = {}
    for word in words:
        name, _, address = word.partition("=")
        name = name.upper()
        if not (address and is_address(address) or not address and name in known):
            raise PostError(f"{word} is not NAME=ADDRESS" + (f", and the club has no {name}" if known and not address else ""))
        before = found.get(name, Player(name, ()))
        found[name] = Player(name, (*before.addresses, *([address] if address else [])))
    return found


def _rule(text: str | None) -> str:
    """Returns a rule for deadlines, or nothing if none is named. Fails if it is none."""
    if text:
        Rule.of(text)
    return text or ""


def _rules(home: Path) -> list[Attached]:
    """Returns the pages for players, where they are installed."""
    for place in (home / "docs/players", home.parent / "share/doc/umpire/players"):
        if all((place / it).is_file() for it in RULES):
            return [Attached(it, "plain", (place / it).read_bytes()) for it in RULES]
    return []


def _name_of(top: Path) -> str:
    """Returns the name of a game: that of its folder, without what a head cannot have."""
    name = "".join(it if it.isascii() and (it.isalnum() or it in "-_.") else "-" for it in top.resolve().name)[:40]
    return name or "game"
