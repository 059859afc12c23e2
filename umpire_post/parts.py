"""The texts in the parts of a message, within bounds: the number of lines, of parts, their depth and the
size of a text. No name in a message becomes the name of a file, and nothing that is packed is opened.
"""

import codecs
import email.errors
import re
from collections.abc import Callable
from dataclasses import dataclass, field
from email.message import Message
from email.parser import BytesParser
from typing import Any

from umpire_post.heads import BOUNDED, decoded, split
from umpire_post.words import plain

MAX_LINES = 60_000
MAX_PARTS = 40
MAX_DEPTH = 8
MAX_TEXT = 256 * 1024  # bytes of a text, decoded
MAX_TEXT_LINES = 20_000
NAMES_OF_TEXTS = (".txt", ".text", ".orders")
READABLE = re.compile(r"ascii|utf-8|utf-8-sig|utf-16.*|utf-32.*|iso8859.*|cp\d+|koi8.*|mac-roman|gb\w*|big5\w*"
                      r"|euc_\w+|iso2022\w*|shift_jis\w*")
MARKS = ((codecs.BOM_UTF8, "utf-8-sig"), (codecs.BOM_UTF32_LE, "utf-32"), (codecs.BOM_UTF32_BE, "utf-32"),
         (codecs.BOM_UTF16_LE, "utf-16"), (codecs.BOM_UTF16_BE, "utf-16"))


class Refused(Exception):
    """A message that is not read: a sentence says why."""


@dataclass(frozen=True)
class Text:
    """A text of a message, decoded."""

    content: str
    is_html: bool = False
    is_flowed: bool = False
    deletes_spaces: bool = False


@dataclass
class Texts:
    """The texts of a message in order, and the names of the parts that were not read."""

    found: list[Text] = field(default_factory=list)
    unread: list[str] = field(default_factory=list)


def texts_of(content: bytes) -> Texts:
    """Returns the texts of a message. Fails with Refused, or with what the library raises on parts that
    no mail program writes."""
    if (lines := _line_count(content)) > MAX_LINES:
        raise Refused(f"it has {lines:,} lines, and at most {MAX_LINES:,} are read")
    heads, rest = split(content)
    found = Texts()
    _walk(BytesParser(_counting(), policy=BOUNDED).parsebytes(heads + b"\n\n" + rest), found, 0, True)
    return found


def _line_count(content: bytes) -> int:
    return content.count(b"\n") + content.count(b"\r") - content.count(b"\r\n")


def _counting() -> Callable[..., Message]:
    """Returns what makes the parts of one message, and refuses to make too many."""
    made = -2  # (the library makes one to see how it is made; and one is the message)

    def make(**named: Any) -> Message:
        nonlocal made
        made += 1
        if made > MAX_PARTS:
            raise Refused(f"it has more than {MAX_PARTS} parts")
        return Message(**named)

    return make


def _walk(part: Message, found: Texts, depth: int, is_chosen: bool) -> None:
    """Collects the texts of a part. Of an alternative that is not chosen only what is attached is read, and
    no picture of a page."""
    if depth > MAX_DEPTH:
        raise Refused(f"its parts are nested more than {MAX_DEPTH} deep")
    kind = part.get_content_type()
    if kind.startswith("multipart/"):
        inner = [it for it in part.get_payload() if isinstance(it, Message)] if part.is_multipart() else []
        chosen = _chosen(inner) if kind == "multipart/alternative" else None
        for one in inner[:1] if kind == "multipart/signed" else inner:
            _walk(one, found, depth + 1, is_chosen and chosen in (None, one))
    elif kind == "message/rfc822":
        found.unread.append("a message that is attached")
    elif is_chosen or part.get_content_disposition() == "attachment" or kind.startswith("text/") and part.get_filename():
        _leaf(part, kind, found)


def _chosen(inner: list[Message]) -> Message | None:
    """Returns the alternative to read: the first with a plain text that says something, or the last."""
    plain_ones = (it for it in inner if any(_says(one) for one in it.walk()))
    return next(plain_ones, inner[-1] if inner else None)


def _says(part: Message) -> bool:
    return part.get_content_type() == "text/plain" and not _is_attached(part) and bool(_content(part).strip())


def _is_attached(part: Message) -> bool:
    return part.get_content_disposition() == "attachment" or bool(part.get_filename())


def _leaf(part: Message, kind: str, found: Texts) -> None:
    name = plain(decoded(part.get_filename() or ""))
    is_text = kind == "text/plain" or (kind == "text/html" and not _is_attached(part))
    is_named = name.lower().endswith(NAMES_OF_TEXTS) and (kind == "application/octet-stream" or kind.startswith("text/"))
    if not is_text and not is_named:
        found.unread.append(f"{name or 'a part'} ({plain(kind)})")
        return
    content = _content(part)
    if len(content) > MAX_TEXT:
        raise Refused(f"it has a text of {len(content):,} bytes, and at most {MAX_TEXT:,} are read")
    if (lines := _line_count(content)) > MAX_TEXT_LINES:
        raise Refused(f"it has a text of {lines:,} lines, and at most {MAX_TEXT_LINES:,} are read")
    is_html = kind == "text/html"
    flowed = str(part.get_param("format", "")).lower() == "flowed"
    deletes = str(part.get_param("delsp", "")).lower() == "yes"
    found.found.append(Text(_text_of(content, str(part.get_content_charset() or "")), is_html, flowed and not is_html, deletes))


def _content(part: Message) -> bytes:
    content = part.get_payload(decode=True)
    return content if isinstance(content, bytes) else b""


def _text_of(content: bytes, charset: str) -> str:
    """Decodes a text by its mark, by its charset, by what its zeros say, or by guess. It never fails."""
    for mark, name in MARKS:
        if content.startswith(mark):
            return content.decode(name, "replace")
    if not charset.startswith("utf-16") and content.count(0) * 3 > len(content):
        return content.decode("utf-16-be" if content[:1] == b"\0" else "utf-16-le", "replace")
    for name in (charset, "utf-8"):
        try:
            known = codecs.lookup(name).name
            if READABLE.fullmatch(known):
                # (programs that name Latin 1 mean the page of Windows, which has curly quotes)
                return content.decode("cp1252" if known == "iso8859-1" else known)
        except (LookupError, UnicodeError, ValueError):
            pass
    return content.decode("cp1252", "replace")
