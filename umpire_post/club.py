"""Who plays, from which addresses, and how mail is sent: `club.toml` of a game's folder, or of the
folder of a club with several games. What the file of a game lacks stands in that of its club."""

import json
import re
import tomllib
from collections.abc import Mapping, Sequence
from dataclasses import dataclass, field
from datetime import datetime
from pathlib import Path
from typing import Any

from umpire_post.deadlines import UTC, Rule, Zone, deadline
from umpire_post.errors import PostError

# An address as a letter's head may have it: no space, no control character, one @.
ADDRESS = re.compile(r"[A-Za-z0-9.!#$%&'*+/=?^_`{|}~-]{1,64}@[A-Za-z0-9-]+(\.[A-Za-z0-9-]+)*")
LONGEST_ADDRESS = 254
KEY = re.compile(r"[!-~]{4,64}")
NAME = re.compile(r"[\w.-]{1,40}", re.ASCII)

GREETING = "{name},"
CLOSING = "-- \nThe umpire of {game}"
SECONDS = 300  # within which a program ends
STRANGERS = 10  # who are answered within a day
OWN = ("club", "mark", "begun")  # what the file of a game has only for itself


@dataclass(frozen=True)
class Player:
    """A player: the addresses from which a sheet may come, and the word that it must bring."""

    name: str
    addresses: tuple[str, ...]
    key: str | None = None


@dataclass(frozen=True)
class Delivery:
    """How letters leave: `by` is `program` (the umpire's own), `sendmail` or `smtp`."""

    by: str = "program"
    sendmail: tuple[str, ...] = ("/usr/sbin/sendmail",)
    host: str = "localhost"
    port: int = 587
    tls: str = "starttls"
    user: str = ""
    password_file: str = ""


@dataclass(frozen=True)
class Club:
    """What `club.toml` says of a game; `game` is its name, or that of a club of several games. Sheets are
    due by `due`, if it has such a rule; `seconds` is how long a program may run, if it says so; so many
    `strangers` get an answer within a day; links stand in letters instead of what they would have
    attached."""

    game: str
    umpire: str
    mark: str
    begun: str
    players: Mapping[str, Player]
    delivery: Delivery = field(default_factory=Delivery)
    greeting: str = GREETING
    closing: str = CLOSING
    report_link: str = ""
    orders_link: str = ""
    rules_link: str = ""
    zone: Zone = field(default_factory=lambda: Zone.of(UTC))
    due: Rule | None = None
    seconds: int | None = None
    strangers: int = STRANGERS

    def players_at(self, address: str) -> list[Player]:
        """Returns the players who have this address. Upper and lower case are the same."""
        own = address.lower()
        return [it for it in self.players.values() if own in map(str.lower, it.addresses)]

    def until(self, asked: str | None, now: datetime) -> datetime | None:
        """Returns when the sheets of a round are due that is awaited from now on: as it is asked for, or by
        the rule of the club, if there is one."""
        if asked:
            return deadline(asked, now, self.zone)
        return self.due.next(now, self.zone) if self.due else None

    def spoken(self, text: str, name: str) -> str:
        """Returns a text of the club with the name of a player and of the game in their places."""
        return text.replace("{name}", name).replace("{game}", self.game)

    def identity(self, letter: str) -> str:
        """Returns the Message-ID of a letter."""
        return f"<{letter}{self.identity_end}"

    @property
    def identity_end(self) -> str:
        """What the Message-ID of each letter of the game ends with, and of no other."""
        return f".{self.mark}@{self.umpire.partition('@')[2]}>"


def is_address(text: str) -> bool:
    """Returns whether a letter may go there. An address with an encoded word in it may mean another one."""
    return len(text) <= LONGEST_ADDRESS and "=?" not in text and ADDRESS.fullmatch(text) is not None


def read_club(path: Path, above: Path | None = None) -> Club:
    """Reads `club.toml`, and that of the club of several games above it, if it is in one. Fails with the
    entry that is wrong."""
    own, shared = _toml(path), _toml(above) if above else {}
    try:
        return _club(_merged(own, shared))
    except PostError as wrong:
        raise PostError(f"{path}: {wrong}") from wrong


def _toml(path: Path) -> Mapping[str, Any]:
    try:
        return tomllib.loads(path.read_bytes().decode())
    except tomllib.TOMLDecodeError as wrong:
        raise PostError(f"{path} is not valid TOML: {wrong}") from wrong
    except UnicodeDecodeError as wrong:
        line = wrong.object[:wrong.start].count(b"\n") + 1
        raise PostError(f"{path} is not UTF-8: see line {line}. Save it as UTF-8") from wrong


def _merged(own: Mapping[str, Any], shared: Mapping[str, Any]) -> dict[str, Any]:
    """Returns what the file of a game says, with what stands in that of its club. The players are those
    of the game."""
    whole = {**{name: it for name, it in shared.items() if name not in OWN}, **own}
    players, known = _table(own, "players"), _table(shared, "players")
    whole["players"] = {name: {**_table(known, name), **_table(players, name)} for name in players}
    whole["texts"] = {**_table(shared, "texts"), **_table(own, "texts")}
    return whole


def _club(whole: Mapping[str, Any]) -> Club:
    umpire = _text(whole, "umpire")
    if not is_address(umpire):
        raise PostError(f"umpire is not an address: {umpire}")
    players = {name: _player(name, it) for name, it in _table(whole, "players").items()}
    if not players and "club" not in whole:
        raise PostError("it has no players")
    texts = _table(whole, "texts")
    rule = _text(whole, "due", "")
    return Club(
        game=_line(whole, "club" if "club" in whole else "game"),
        umpire=umpire,
        mark=_line(whole, "mark"),
        begun=_begun(whole),
        players=players,
        delivery=_delivery(_table(whole, "send")),
        greeting=_text(texts, "greeting", GREETING),
        closing=_text(texts, "closing", CLOSING),
        report_link=_text(texts, "report_link", ""),
        orders_link=_text(texts, "orders_link", ""),
        rules_link=_text(texts, "rules_link", ""),
        zone=Zone.of(_text(whole, "zone", UTC)),
        due=Rule.of(rule) if rule else None,
        seconds=_number(whole, "seconds", 1, 86400, SECONDS) if "seconds" in whole else None,
        strangers=_number(whole, "strangers", 0, 1000, STRANGERS),
    )


def club_text(club: Club, due: str, kind: str = "game") -> str:
    """Returns the `club.toml` of a new game alone, or of a `club` of several."""
    addresses = [line for it in club.players.values() for line in _player_lines(it)]
    lines = [
        "# The addresses of a club, and how its mail is sent.",
        *_head_lines(club, kind),
        f"umpire = {json.dumps(club.umpire)}  # the address that letters come from",
        f"zone = {json.dumps(club.zone.name)}  # the time zone of all times in letters",
        f'due = {json.dumps(due)}  # when sheets are due, such as "Sunday 18:00"; "" for no rule',
        f"seconds = {club.seconds or SECONDS}  # how long a program may run",
        f"strangers = {club.strangers}  # answers within a day to sheets from outside the club",
        "",
        "# A sheet may come from any address of its player. Letters go to the first one.",
        '# With a line key = "WORD" a sheet counts only in a message with the line KEY WORD.',
        *addresses,
        "",
        "[send]",
        'by = "program"  # the umpire\'s own; or "sendmail", or "smtp"',
        '# sendmail = ["/usr/sbin/sendmail"]',
        '# host = "smtp.example.org"',
        "# port = 587",
        '# tls = "starttls"  # or "tls" from the start, or "none"',
        '# user = "umpire"',
        '# password_file = "/etc/umpire/smtp-password"',
        "",
        "[texts]",
        f"greeting = {json.dumps(club.greeting)}",
        f"closing = {json.dumps(club.closing)}",
        "# Links, instead of the attached report, order file and rules:",
        '# report_link = "https://example.org/our-game.report"',
        '# orders_link = "https://example.org/our-game.orders"',
        '# rules_link = "https://example.org/rules"',
        "",
    ]
    return "\n".join(lines)


def game_text(club: Club, due: str) -> str:
    """Returns the `club.toml` of a new game in a folder of several: what is its own."""
    lines = ["# A game of a club: what is not here stands in ../club.toml.", *_head_lines(club)]
    lines += [f"due = {json.dumps(due)}"] if due else []
    lines += ["", "# Its players. A player may have other addresses here, or another key."]
    lines += [line for it in club.players.values() for line in _player_lines(it)]
    return "\n".join([*lines, ""])


def _head_lines(club: Club, kind: str = "game") -> Sequence[str]:
    return (f"{kind} = {json.dumps(club.game)}  # used in subjects and in the names of attachments",
            f"mark = {json.dumps(club.mark)}  # part of the Message-ID of each letter: do not change it",
            f"begun = {json.dumps(club.begun)}")


def _player_lines(player: Player) -> list[str]:
    """Returns the entry of a player. Without an address of its own it is that of the club."""
    addresses = [f"addresses = {json.dumps(list(player.addresses))}"] if player.addresses else []
    return [f"[players.{player.name}]", *addresses]


def _player(name: str, entry: Any) -> Player:
    addresses = entry.get("addresses")
    if not isinstance(addresses, list) or not addresses:
        raise PostError(f"players.{name} has no addresses")
    for address in addresses:
        if not isinstance(address, str) or not is_address(address):
            raise PostError(f"an address of {name} is not valid: {address}")
    key = entry.get("key")
    if key is not None and not (isinstance(key, str) and KEY.fullmatch(key)):
        raise PostError(f"the key of {name} is not one word of 4 to 64 characters")
    return Player(name, tuple(addresses), key)


def _delivery(entry: Mapping[str, Any]) -> Delivery:
    by, tls = _text(entry, "by", "program"), _text(entry, "tls", "starttls")
    if by not in ("program", "sendmail", "smtp"):
        raise PostError(f'by must be "program", "sendmail" or "smtp", not {by}')
    if tls not in ("starttls", "tls", "none"):
        raise PostError(f'tls must be "starttls", "tls" or "none", not {tls}')
    sendmail = entry.get("sendmail", ["/usr/sbin/sendmail"])
    if not isinstance(sendmail, list) or not sendmail or not all(isinstance(it, str) for it in sendmail):
        raise PostError("sendmail is not a list of a program and its arguments")
    return Delivery(by, tuple(sendmail), _text(entry, "host", "localhost"), _number(entry, "port", 1, 65535, 587), tls,
                    _text(entry, "user", ""), _text(entry, "password_file", ""))


def _begun(whole: Mapping[str, Any]) -> str:
    begun = _text(whole, "begun")
    try:
        is_full = datetime.fromisoformat(begun).tzinfo is not None
    except ValueError as wrong:
        raise PostError(f"begun is not a time: {begun}") from wrong
    if not is_full:
        raise PostError(f"begun is not a time with its distance from UTC: {begun}")
    return begun


def _table(whole: Mapping[str, Any], name: str) -> Mapping[str, Any]:
    table = whole.get(name, {})
    if not isinstance(table, dict):
        raise PostError(f"{name} is not a table")
    return table


def _text(table: Mapping[str, Any], name: str, otherwise: str | None = None) -> str:
    text = table.get(name, otherwise)
    if not isinstance(text, str):
        raise PostError(f"it has no text {name}")
    return text


def _number(table: Mapping[str, Any], name: str, least: int, most: int, otherwise: int) -> int:
    number = table.get(name, otherwise)
    if type(number) is not int or not least <= number <= most:
        raise PostError(f"{name} is not a number from {least} to {most}")
    return number


def _line(table: Mapping[str, Any], name: str) -> str:
    text = _text(table, name)
    if not NAME.fullmatch(text):
        raise PostError(f"{name} may only have letters, digits, points and hyphens: {text!r}")
    return text
