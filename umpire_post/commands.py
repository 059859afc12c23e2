"""The command line: `post new`, `in`, `status`, `round`, `undo`, `due`, `send`, `club`."""

import argparse
import io
import os
import sys
from collections.abc import Callable, Iterator, Sequence
from contextlib import contextmanager
from datetime import datetime
from pathlib import Path
from typing import Any, NoReturn

from umpire_post import delivery, intake, overview, rounds
from umpire_post.beginning import Wish, begin_club, begin_game
from umpire_post.disk import Work, locked
from umpire_post.errors import DEVICE_FAILED, WRONG_ASKED, PostError
from umpire_post.evening import Evening
from umpire_post.games import Place, is_club
from umpire_post.programs import Programs
from umpire_post.sources import messages
from umpire_post.words import shown

TOP = Path(__file__).resolve().parent.parent
SECONDS = 60  # for which a command waits for another one
STATUSES = """The status is 0 for success, 1 if it cannot be done now or the command line is wrong, 2 for an order
file that is refused, 3 if `in` set something aside, 4 if a read, a write, a program or the delivery
failed, 75 if another command works on the folder: try again later."""
WIDTH = 100


class _Parser(argparse.ArgumentParser):
    """A command line in the form of the other programs: the same order of its help, the same status."""

    def __init__(self, **named: Any) -> None:
        super().__init__(formatter_class=lambda prog: argparse.HelpFormatter(prog, max_help_position=32, width=WIDTH), **named)
        self._positionals.title, self._optionals.title = "Arguments", "Options"
        self.commands: dict[str, str] = {}

    def format_help(self) -> str:
        """Returns what it does, how it is called, and then what each word means."""
        formatter = self._get_formatter()
        formatter.add_text(self.description)
        formatter.add_usage(self.usage, self._actions, self._mutually_exclusive_groups, "Usage: ")
        for group in self._action_groups:
            others = [it for it in group._group_actions if not isinstance(it, argparse._SubParsersAction)]
            formatter.start_section(group.title)
            formatter.add_arguments(others)
            formatter.end_section()
        listed = "".join(f"  {word:<8}{what}\n" for word, what in self.commands.items())
        commands = f"\nCommands:\n{listed}" if listed else ""
        return f"{formatter.format_help().rstrip()}\n{commands}\n{self.epilog}\n"

    def error(self, message: str) -> NoReturn:
        self.print_usage(sys.stderr)
        self.exit(WRONG_ASKED, f"{self.prog}: {message}\n")


# Adds a word to the command line: what it does, an example, and what its folder is of.
_Word = Callable[[str, str, str, str], argparse.ArgumentParser]
GAME, ANY = "the folder of the game", "the folder of the game, or of a club of several games"


def parser(name: str = "post") -> argparse.ArgumentParser:
    """Returns the command line."""
    top = _Parser(prog=name, description="Handles the mail of postal games of 1830, from the umpire's inbox to the outbox",
                  epilog=STATUSES)
    words = top.add_subparsers(dest="word", required=True, metavar="WORD")

    def word(called: str, what: str, example: str, folder: str) -> argparse.ArgumentParser:
        top.commands[called] = what
        one = words.add_parser(called, description=what, epilog=f"Example: {name} {called} {example}")
        one.add_argument("folder", metavar="FOLDER", type=Path, help=folder)
        one.add_argument("--wait", metavar="SECONDS", type=_seconds, default=SECONDS,
                         help=f"how long to wait for another command on the folder; {SECONDS} if not named")
        return one

    _add_new(word)
    _add_in(word)
    one = word("status", "Shows who has sent a sheet, who owes one, and what waits for you", "our-game", ANY)
    one.add_argument("--check", action="store_true", help="show what the desk finds with all sheets, and what is bought and sold by "
                                                          "force; part of it is for the umpire only")
    one.add_argument("--remind", action="store_true", help="write a letter to each player who owes a sheet, at most one a day")
    _add_round(word)
    one = word("undo", "Takes the last round back", "our-game OR5.1", GAME)
    one.add_argument("round", metavar="ROUND", nargs="?", type=str.upper, help="take nothing back if the last round is another")
    one = word("due", "Sets when the sheets of the awaited round are due, and writes it to each player",
               "our-game '2026-12-06 18:00'", GAME)
    one.add_argument("due", metavar="WHEN", help="a date and a time, or a day of the week and a time")
    one = word("send", "Sends the letters of the outbox, as club.toml says", "our-game", ANY)
    said = one.add_mutually_exclusive_group()
    said.add_argument("--sent", action="store_true", help="the letters in doubt were sent; if there are none, all of the outbox")
    said.add_argument("--again", action="store_true", help="the letters in doubt were not sent")
    one = word("club", "Makes the folder of a club of several games with one mailbox",
               "our-club --umpire umpire@example.org ANN=ann@example.org BOB=bob@example.org", "the folder of the club")
    _add_players(one, "a player of the club; a name again for another address", True)
    return top


def _add_players(one: argparse.ArgumentParser, whom: str, needs_umpire: bool) -> None:
    one.add_argument("players", metavar="NAME=ADDRESS", nargs="+", help=whom)
    one.add_argument("--umpire", required=needs_umpire, metavar="ADDRESS", help="the address that letters come from")
    one.add_argument("--zone", metavar="ZONE",
                     help="the time zone of all times, such as Europe/Berlin; that of this machine if none is named")
    one.add_argument("--due", metavar="WHEN", help="when sheets are due, such as 'Sunday 18:00'")


def _add_new(word: _Word) -> None:
    example = "our-game --umpire umpire@example.org ANN=ann@example.org BOB=bob@example.org CYD=cyd@example.org"
    one = word("new", "Makes a game's folder, and writes the first letters", example, GAME)
    _add_players(one, "a player, in the order of play; a name again for another address; "
                      "the name alone of a player of the club", False)
    one.add_argument("--game-version", type=int, choices=(1, 2), default=2,
                     help="the version of the order file: 2, with conditions, unless 1 is named")
    one.add_argument("--orders", type=Path, metavar="FILE", help="the order file of a game that has begun")


def _add_in(word: _Word) -> None:
    one = word("in", "Reads messages, and writes an answer to each", "our-game ~/mail/our-game.mbox", ANY)
    one.add_argument("file", metavar="FILE", type=Path, nargs="?",
                     help="a message, an mbox, a Maildir or a folder of messages; standard input if none is named")
    said = one.add_mutually_exclusive_group()
    said.add_argument("--accept", metavar="NUMBER", type=int, nargs="+",
                      help="take the sheets of a message that was set aside, whoever sent it")
    said.add_argument("--done", metavar="NUMBER", type=int, nargs="+", help="you have dealt with a message that was set aside")
    one.add_argument("--game", metavar="NAME", help="with --accept on a club: the game that the message is for")


def _add_round(word: _Word) -> None:
    one = word("round", "Plays the round, and writes a letter to each player", "our-game --without CYD", GAME)
    one.add_argument("round", metavar="ROUND", nargs="?", type=str.upper, help="play nothing if another round comes next")
    one.add_argument("--without", metavar="NAME", nargs="+", default=[], help="players who owe a sheet and get an empty one")
    one.add_argument("--due", metavar="WHEN", help="when the next sheets are due, such as '2026-12-06 18:00' or 'Sunday 18:00'")
    one.add_argument("--go", action="store_true", help="play even if a player goes bankrupt whom no letter has told")


def _seconds(text: str) -> float:
    """Reads how long to wait."""
    seconds = float(text)
    if not 0 <= seconds <= 86400:
        raise argparse.ArgumentTypeError(f"{text} is not a number of seconds from 0 to 86400")
    return seconds


def main(words: Sequence[str], name: str = "post", now: Callable[[], datetime] = lambda: datetime.now().astimezone(),
         programs: Programs | None = None, home: Path = TOP) -> int:
    """Runs a command. Returns the status of the program. `home` is the folder of the script."""
    if hasattr(sys.stdout, "reconfigure"):
        sys.stdout.reconfigure(errors="backslashreplace")
    asked = parser(name).parse_args(words)
    try:
        status = _run(Evening(programs or Programs.found(home), now, print, home), asked)
        if sys.stdout:
            sys.stdout.flush()
        return status
    except PostError as wrong:
        print(f"{name}: {shown(str(wrong))}", file=sys.stderr)
        return wrong.status
    except MemoryError:
        print(f"{name}: there is not enough memory", file=sys.stderr)
        return DEVICE_FAILED
    except OSError as wrong:
        print(f"{name}: {_file_of(wrong)}: {wrong.strerror}", file=sys.stderr)
        _drop_output()
        return DEVICE_FAILED


def _file_of(wrong: OSError) -> str:
    """Returns the name of the file that an error is about."""
    if isinstance(wrong.filename, (str, bytes, Path)):
        return shown(os.fsdecode(wrong.filename))
    return "a file, standard input or standard output"


def _drop_output() -> None:
    """Forgets what standard output does not take, so that the end of the program does not try again."""
    try:
        if sys.stdout:
            sys.stdout.flush()
    except OSError:
        os.dup2(os.open(os.devnull, os.O_WRONLY), sys.stdout.fileno())


def _run(own: Evening, asked: argparse.Namespace) -> int:
    """Runs a command."""
    if asked.word == "club":
        begin_club(own, asked.folder, Wish(asked.players, asked.umpire, asked.zone, asked.due))
        return 0
    if asked.word == "new":
        wish = Wish(asked.players, asked.umpire, asked.zone, asked.due, asked.game_version, asked.orders)
        above = asked.folder.resolve().parent
        if not is_club(above):
            begin_game(own, asked.folder, wish)
            return 0
        with _taken(own, above, asked.wait):
            begin_game(own, asked.folder, wish)
            return 0
    place = Place.of(asked.folder)
    if asked.word == "send" and not asked.sent and not asked.again:
        return delivery.send(own, place, lambda: _taken(own, place.root, asked.wait))
    with _taken(own, place.root, asked.wait) as finished:
        if finished and finished.word == asked.word and _is_again(finished, place, asked):
            return 0
        return _run_on(own, place, asked)


@contextmanager
def _taken(own: Evening, root: Path, seconds: float) -> Iterator[Work | None]:
    """Takes a folder for a command. Tells of a round or an undo that was interrupted and is finished now."""
    with locked(root, seconds) as finished:
        if finished and finished.word in ("round", "undo"):
            own.tell(f"The {finished.word} of {finished.round} of {finished.game} that was interrupted is finished now: "
                     f"do not repeat it, or name it, as in {finished.word} {finished.game} {finished.round}.")
        yield finished


def _is_again(finished: Work, place: Place, asked: argparse.Namespace) -> bool:
    """Returns whether the command is the round or the undo that was interrupted, and so is done now."""
    if finished.word not in ("round", "undo") or place.is_club:
        return False
    return place.games()[0].club.game == finished.game and asked.round in (None, finished.round)


def _run_on(own: Evening, place: Place, asked: argparse.Namespace) -> int:
    """Runs a command on a folder that is taken."""
    if asked.word == "in":
        return _run_in(own, place, asked)
    if asked.word == "status":
        overview.status(own, place, asked.check, asked.remind)
    elif asked.word == "round":
        rounds.play(own, place.game("round"), asked.without, asked.round, asked.due, asked.go)
    elif asked.word == "undo":
        rounds.undo(own, place.game("undo"), asked.round)
    elif asked.word == "due":
        overview.set_due(own, place.game("due"), asked.due)
    elif asked.sent:
        delivery.say_sent(own, place)
    else:
        delivery.say_again(own, place)
    return 0


def _run_in(own: Evening, place: Place, asked: argparse.Namespace) -> int:
    if asked.accept:
        return intake.accept(own, place, asked.accept, asked.game)
    if asked.done:
        return intake.say_done(own, place, asked.done)
    if not place.is_club and place.root != place.tops[0]:
        raise PostError(f"{place.tops[0].name} is one of several games with one mailbox. Read it for all of them: in {place.root}")
    if asked.file is None and sys.stdin is None:
        raise PostError("standard input is closed", DEVICE_FAILED)
    stdin = sys.stdin.buffer if sys.stdin else io.BytesIO()
    return intake.read_messages(own, place, messages(asked.file, stdin))
