"""The sheets among the lines of a message.

A line whose first word is SHEET begins a sheet, and the next such line or the end of the text ends it. A
greeting, a closing or an attribution below its last order ends it, too. What else is below a SHEET line
goes into the sheet as it is: the umpire decides whether it is an order.
"""

import hmac
import re
from collections.abc import Collection, Iterable
from dataclasses import dataclass, field, replace

from umpire_post.parts import Refused
from umpire_post.programs import ROUND
from umpire_post.prose import is_closing, is_order
from umpire_post.text import SHEET_WORD, Line

LONGEST_LINE = 1024  # bytes of a line that the umpire reads
MAX_SHEETS = 24
HEAD = re.compile(rf" *SHEET +([A-Z][A-Z0-9]*) +({ROUND}) *(?:#.*)?", re.I | re.A)
MAX_BELOW = 100  # lines below the last order that are looked at
KEY_WORD = re.compile(r"\s*KEY(?=[\s:])", re.I)


@dataclass(frozen=True)
class Found:
    """A sheet in a message, or lines below a SHEET line with a fault: then it has no player. What was
    `left_out` stood below its last order."""

    lines: tuple[Line, ...]
    player: str = ""
    round: str = ""
    left_out: tuple[str, ...] = ()

    def texts(self) -> tuple[str, ...]:
        return tuple(it.text for it in self.lines)

    @classmethod
    def of(cls, lines: Iterable[Line]) -> "Found":
        """Returns the sheet of lines that begin with a SHEET line."""
        own = tuple(lines)
        head = HEAD.fullmatch(own[0].text) if size(own[0].text) <= LONGEST_LINE else None
        return cls(own, head[1].upper(), head[2].upper()) if head else cls(own)

    def ended(self, names: Collection[str]) -> "Found":
        """Returns the sheet without what is no part of it below its last order. `names` are those of its
        writer."""
        end = _end(self.lines, {*names, self.player.lower()})
        return replace(self, lines=self.lines[:end], left_out=tuple(it.text.strip() for it in self.lines[end:] if it.text.strip()))

    def numbered(self) -> list[tuple[int | None, str]]:
        """Returns its lines, each with the number by which a report calls it, if it has one."""
        found: list[tuple[int | None, str]] = []
        number = 0
        for at, line in enumerate(self.lines):
            counts = at > 0 and (line.text.partition("#")[0].strip(" ") or size(line.text) > LONGEST_LINE)
            number += bool(counts)
            found.append((number if counts else None, line.text))
        return found


@dataclass
class InMessage:
    """What the texts of a message have: sheets, the words of KEY lines, and other lines."""

    sheets: list[Found] = field(default_factory=list)
    keys: list[str] = field(default_factory=list)
    others: int = 0

    def add(self, lines: list[Line], names: Collection[str]) -> None:
        """Adds the sheet of lines, if there are any."""
        if lines and len(self.sheets) == MAX_SHEETS:
            raise Refused(f"it has more than {MAX_SHEETS} sheets")
        self.sheets += [Found.of(lines).ended(names)] if lines else []

    def has_key(self, key: str | None) -> bool:
        """Returns whether the message brings the key of a player, who may have none, and no other."""
        return key is None or len(self.keys) == 1 and hmac.compare_digest(self.keys[0].encode("utf-8", "replace"), key.encode())


def find_sheets(texts: Iterable[list[Line]], names: Collection[str] = ()) -> InMessage:
    """Returns the sheets of the texts of a message, in order. A sheet ends with its text. `names` are those
    of the writer, in lower case. Fails with Refused if there are too many."""
    found = InMessage()
    for lines in texts:
        below: list[Line] = []
        for line in lines:
            key = key_in(line.text)
            if key is not None:
                found.keys.append(key)
            elif SHEET_WORD.match(line.text):
                found.add(below, names)
                below = [line]
            elif below:
                below.append(line)
            else:
                found.others += bool(line.text.strip())
        found.add(below, names)
    return found


def key_in(text: str) -> str | None:
    """Returns the word of a KEY line: the word KEY, perhaps a colon, and one word."""
    word = KEY_WORD.match(text)
    words = text[word.end():].strip().removeprefix(":").split(maxsplit=1) if word else []
    return words[0] if len(words) == 1 else None


def _end(lines: tuple[Line, ...], names: Collection[str]) -> int:
    """Returns how many of the lines of a sheet belong to it."""
    last = next((at for at in range(len(lines) - 1, 0, -1) if is_order(lines[at].text)), 0)
    below = range(last + 1, min(last + 1 + MAX_BELOW, len(lines)))
    end = next((at for at in below if is_closing(lines[at].text, names, not lines[at - 1].text.strip())), len(lines))
    while end > 1 and not lines[end - 1].text.strip():
        end -= 1
    return end


def size(text: str) -> int:
    """Returns how many bytes a line has in the order file."""
    return len(text.encode("utf-8", "replace"))
