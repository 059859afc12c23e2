"""A message taken apart: who sent it, whether a program did, and the sheets in it.

Nothing of a message is trusted. Its heads are read first, within bounds. The rest is read in a process
of its own, with a limit of time and memory: whatever a message holds, it is read or set aside.
"""

from dataclasses import dataclass, field

from umpire_post.heads import Heads, read_heads
from umpire_post.limited import Exceeded, Limited
from umpire_post.parts import Refused, texts_of
from umpire_post.prose import WORD
from umpire_post.sheets import InMessage, find_sheets
from umpire_post.sources import MAX_BYTES, Moment, Raw
from umpire_post.text import lines_of

SECONDS = 1.5  # of a processor for what is below the heads
MEMORY = 64 * 1024 * 1024
DAMAGED = "it is damaged, and cannot be taken apart"


@dataclass
class Contents:
    """What is below the heads of a message: the sheets and the other lines of its texts, how many lines
    are not its writer's own, and the names of parts that were not read. Of one that is `refused` there
    is nothing."""

    found: InMessage = field(default_factory=InMessage)
    quoted: int = 0
    signature: int = 0
    unread: list[str] = field(default_factory=list)
    refused: str = ""


@dataclass(frozen=True)
class Incoming(Heads):
    """A message taken apart: its heads, when it arrived, and what is below them."""

    arrived: Moment = (0, 0, 0)
    contents: Contents = field(default_factory=Contents)

    @property
    def refused(self) -> str:
        """Says why the message was not read, if it was not."""
        return self.contents.refused


def take_apart(raw: Raw) -> Incoming:
    """Takes a message apart. Of one that is refused it returns what its heads say. It fails only if no process
    can be begun."""
    try:
        heads = read_heads(raw.content)
    except Exception:  # (whatever the library raises on heads that no mail program writes)
        return Incoming(arrived=raw.arrived, contents=Contents(refused=DAMAGED))
    return Incoming(**vars(heads), arrived=raw.arrived, contents=_contents(raw, heads))


def _contents(raw: Raw, heads: Heads) -> Contents:
    if raw.is_too_large:
        return Contents(refused=f"it has {raw.size:,} bytes, and at most {MAX_BYTES:,} are read")
    if heads.are_too_long:
        return Contents(refused="its heads are too long")
    if heads.automatic:
        return Contents()
    try:
        return _LIMITED(raw.content)
    except Exceeded:
        return Contents(refused="it takes too much time or memory to read")


def contents_of(content: bytes) -> Contents:
    """Reads what is below the heads of a message. It fails only if memory runs out."""
    try:
        heads = read_heads(content)
        names = {it.lower() for it in WORD.findall(f"{heads.name} {heads.sender.partition('@')[0]}")}
        texts = texts_of(content)
        lines = [lines_of(it) for it in texts.found]
        found = find_sheets((it.own for it in lines), names)
    except Refused as why:
        return Contents(refused=str(why))
    except MemoryError:
        raise
    except Exception:  # (whatever the library raises on parts that no mail program writes)
        return Contents(refused=DAMAGED)
    unread = [*texts.unread, *(name for it in lines for name in it.unread)]
    return Contents(found, sum(it.quoted for it in lines), sum(it.signature for it in lines), unread)


_LIMITED = Limited(contents_of, SECONDS, MEMORY)
