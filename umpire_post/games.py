"""Where a command works: on a game alone, on one game of a club, or on all games of a club.

A club of several games has a folder with `club.toml` and without an order file. Each folder below it
with an order file is one of its games. All share one lock, and a step may change several of them.
"""

from collections.abc import Iterable
from dataclasses import dataclass
from pathlib import Path

from umpire_post.club import read_club
from umpire_post.errors import PostError
from umpire_post.folder import CLUB, ORDERS, Folder, Messages


@dataclass(frozen=True)
class Place:
    """What a folder is: `root` has the lock, `tops` are the folders of the games that a command on it is
    about, and `is_club` says that these are all games of a club."""

    root: Path
    tops: tuple[Path, ...]
    is_club: bool = False

    @classmethod
    def of(cls, path: Path) -> "Place":
        """Finds out what a folder is. Fails if there is none."""
        if not path.is_dir():
            raise PostError(f"there is no folder {path}")
        if not (path / CLUB).is_file():
            raise PostError(f"{path} is not the folder of a game or a club: it has no {CLUB}")
        top = path.resolve()
        if is_club(top):
            return cls(top, tuple(sorted(it.parent for it in top.glob(f"*/{ORDERS}"))), True)
        return cls(top.parent if is_club(top.parent) else top, (top,))

    def games(self) -> list[Folder]:
        """Returns the games as they are now."""
        return [Folder(it, self.root) for it in self.tops]

    def game(self, word: str) -> Folder:
        """Returns the one game that a command is about. Fails if the folder is a club's."""
        if self.is_club:
            raise PostError(f"{word} needs the folder of a game: {' or '.join(map(str, self.tops)) or f'{self.root} has none'}")
        return self.games()[0]

    def shared(self) -> Messages | None:
        """Returns the messages of a club that belong to none of its games, if it is about all of them."""
        return Messages(self.root, self.root, read_club(self.root / CLUB)) if self.is_club else None

    def outboxes(self) -> Iterable[Path]:
        """Returns the folders with an outbox."""
        return (*self.tops, *((self.root,) if self.is_club else ()))


def is_club(top: Path) -> bool:
    """Returns whether a folder is that of a club of several games."""
    return (top / CLUB).is_file() and not (top / ORDERS).exists()


def named(games: Iterable[Folder], name: str) -> Folder:
    """Returns the game of a name. Fails if there is none."""
    found = [it for it in games if it.club.game.lower() == name.lower()]
    if len(found) != 1:
        raise PostError(f"the club has no game {name}")
    return found[0]
