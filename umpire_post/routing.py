"""Which game of a club a message belongs to.

It belongs to the game of the letter that it answers; otherwise of the address with a tag to which it
was sent, such as `umpire+alpha@example.org`; otherwise of the game that its subject names; otherwise
to the only game that its sender plays in, or the only one of them that goes on. A message that is left
belongs to none.
"""

import re
from collections.abc import Callable, Iterable, Sequence

from umpire_post.folder import Folder
from umpire_post.message import Incoming


def game_of(incoming: Incoming, games: Sequence[Folder], goes_on: Callable[[Folder], bool]) -> Folder | None:
    """Returns the game that a message belongs to, or none."""
    for answered in reversed(incoming.answers):
        found = [it for it in games if answered.endswith(it.club.identity_end)]
        if found:
            return found[0]
    played = [it for it in games if it.club.players_at(incoming.sender)]
    return (_only(it for it in games if _is_tagged(incoming, it))
            or _named(incoming, games, played)
            or _only(played) or _only(it for it in played if goes_on(it)))


def _named(incoming: Incoming, games: Sequence[Folder], played: Sequence[Folder]) -> Folder | None:
    """Returns the one game that the subject names; of several the one that its sender plays in."""
    named = [it for it in games if _is_named(incoming.subject, it.club.game)]
    return _only(named) or _only(it for it in named if it in played)


def _is_tagged(incoming: Incoming, game: Folder) -> bool:
    name, _, host = game.club.umpire.lower().partition("@")
    return f"{name}+{game.club.game.lower()}@{host}" in map(str.lower, incoming.recipients)


def _is_named(subject: str, name: str) -> bool:
    """Returns whether a subject has the name as a word."""
    return re.search(rf"(?<![\w.-]){re.escape(name)}(?![\w-])(?!\.\w)", subject, re.I) is not None


def _only(games: Iterable[Folder]) -> Folder | None:
    found = list(games)
    return found[0] if len(found) == 1 else None
