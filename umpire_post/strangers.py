"""Which messages are answered. A sender may be forged, and then the answer goes to somebody who wrote
nothing: so strangers get few answers, and no address gets many."""

from collections.abc import Iterable
from datetime import datetime, timedelta

from umpire_post.folder import Record

DAY = timedelta(days=1)
MOST_TO_PLAYER = 20


class Strangers:
    """The answers to strangers. Within a day an address gets at most one, and all of them at most so many."""

    def __init__(self, records: Iterable[Record], most: int) -> None:
        self.most = most
        self.recent = [(datetime.fromisoformat(it.came), it.sender.lower()) for it in records if it.is_to_stranger]

    def gets_answer(self, address: str, now: datetime) -> bool:
        """Returns whether a stranger is answered now, which counts."""
        self.recent = [it for it in self.recent if it[0] > now - DAY]
        if len(self.recent) >= self.most or address.lower() in (it for _, it in self.recent):
            return False
        self.recent.append((now, address.lower()))
        return True


class Players:
    """The answers to players. Within a day an address gets at most `MOST_TO_PLAYER`, and as many more to
    messages that are genuine: so a player is answered whatever others send in their name."""

    def __init__(self, records: Iterable[Record]) -> None:
        self.recent = [(datetime.fromisoformat(it.came), it.sender.lower(), it.is_genuine) for it in records
                       if it.is_answered and not it.is_to_stranger]

    def gets_answer(self, address: str, is_genuine: bool, now: datetime) -> bool:
        """Returns whether a message from a player's address is answered now, which counts."""
        self.recent = [it for it in self.recent if it[0] > now - DAY]
        if sum(it[1:] == (address.lower(), is_genuine) for it in self.recent) >= MOST_TO_PLAYER:
            return False
        self.recent.append((now, address.lower(), is_genuine))
        return True
