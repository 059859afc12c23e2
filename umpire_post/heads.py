"""The heads of a message: who sent it, to whom, what it answers, and whether a program wrote it.

Nothing of them is trusted. Only the front of a message is read for them, and of each head only the
front, so that no head takes long.
"""

import email.errors
import email.header
import email.utils
import re
from dataclasses import dataclass
from email.message import Message
from email.parser import BytesHeaderParser
from email.policy import Compat32

from umpire_post.club import is_address
from umpire_post.words import one_line, plain

MAX_HEADS = 100 * 1024  # bytes of all heads
MAX_HEAD = 4096  # characters of a head that is read
MAX_SUBJECT = 1000  # characters of a subject
MAX_SENDERS = 4  # From heads that are compared
MAX_ANSWERED = 50  # messages that one answers
MAX_RECIPIENTS = 100
RECIPIENTS = ("To", "Cc", "Delivered-To", "X-Original-To")
HEADS_END = re.compile(rb"\r?\n\r?\n")
MESSAGE_ID = re.compile(r"<[!-;=?-~]{3,93}>")  # (longer ones are not written back whole)
# A name with a lone @ in it, which the library takes for a part of an address.
NAMED = re.compile(r"(?P<name>[^<>\"\\,;:()]*)<(?P<address>[^<>\s]+)>\s*")
IN_NAME = re.compile(r"\S@")


class BoundedHeads(Compat32):
    """How the library reads heads: each is cut."""

    def header_source_parse(self, sourcelines: list[str]) -> tuple[str, str]:
        name, value = super().header_source_parse(sourcelines)
        return name[:MAX_HEAD], value[:MAX_HEAD + 1]


BOUNDED = BoundedHeads()


@dataclass(frozen=True)
class Heads:
    """What the heads say. `sender` is empty if there is not exactly one; `answers` has the Message-IDs of
    those that the message answers, the newest last; `recipients` the addresses to which it was sent;
    `automatic` says which program wrote it, if one did; `is_of_list` that a mailing list sent it on;
    `are_too_long` that they were read in part."""

    sender: str = ""
    name: str = ""
    subject: str = ""
    message_id: str = ""
    answers: tuple[str, ...] = ()
    recipients: tuple[str, ...] = ()
    automatic: str = ""
    is_of_list: bool = False
    are_too_long: bool = False


def split(content: bytes) -> tuple[bytes, bytes]:
    """Returns the heads of a message and the rest. Empty lines above them are none of it. A bare CR in the
    midst of a head is a space: nothing behind it is another head."""
    whole = content.lstrip(b"\r\n")
    end = HEADS_END.search(whole)
    heads, rest = (whole[:end.start()], whole[end.end():]) if end else (whole, b"")
    heads = heads.replace(b"\r\n", b"\n")
    return (heads.replace(b"\r", b" ") if b"\n" in heads else heads), rest


def read_heads(content: bytes) -> Heads:
    """Reads the heads of a message. Fails only with what the library raises on heads that no mail program
    writes."""
    heads, _ = split(content[:MAX_HEADS])
    parsed = BytesHeaderParser(policy=BOUNDED).parsebytes(heads)
    sender, name = _sender(parsed)
    return Heads(
        sender, name,
        one_line(decoded(parsed.get("Subject", "")))[:MAX_SUBJECT],
        (*_identities(parsed, "Message-ID"), "")[0],
        _identities(parsed, "References", "In-Reply-To")[-MAX_ANSWERED:],
        _recipients(parsed),
        _automatic(parsed, sender),
        _precedence(parsed) == "list" or "List-Id" in parsed,
        len(content) > MAX_HEADS and HEADS_END.search(content, 0, MAX_HEADS) is None,
    )


def decoded(head: object) -> str:
    """Decodes a head with encoded words, as far as it can."""
    text = str(head)[:MAX_HEAD]
    try:
        return str(email.header.make_header(email.header.decode_header(text)))
    except (UnicodeError, LookupError, ValueError, TypeError, AttributeError, email.errors.HeaderParseError):
        return text


def _sender(parsed: Message) -> tuple[str, str]:
    """Returns the one address of the From heads and the name before it, or nothing."""
    heads = [str(it) for it in parsed.get_all("From", [])]
    if not 0 < len(heads) <= MAX_SENDERS:
        return "", ""
    found = [_address(it) for it in heads]
    if len({it.lower() for it in found}) != 1 or not found[0]:
        return "", ""
    name = decoded(heads[0].rpartition("<")[0] or heads[0].partition("(")[2])
    return found[0], plain(name.strip(' "()'))


def _address(head: str) -> str:
    """Returns the one address of a From head, or nothing. A name with an address in it may be read in
    two ways, unless it is quoted or the same one."""
    if len(head) > MAX_HEAD:
        return ""
    named = NAMED.fullmatch(head)
    if named and not IN_NAME.search(named["name"]):
        return named["address"] if is_address(named["address"]) else ""
    found = _addresses(head)
    is_one = len(found) == 1 and is_address(found[0]) and (head.count("@") == 1 or _is_plain_name(head, found[0]))
    return found[0] if is_one else ""


def _is_plain_name(head: str, address: str) -> bool:
    """Returns whether the address stands alone in the only angle brackets, at the end."""
    return head.count("<") == 1 and head.rstrip().endswith(f"<{address}>") and "," not in head.split('"')[-1]


def _addresses(head: str) -> list[str]:
    """Returns the addresses in a head, or none of one that the library cannot read."""
    try:
        return [address for _, address in email.utils.getaddresses([head])]
    except (RecursionError, ValueError, IndexError, TypeError, AttributeError):
        return []


def _identities(parsed: Message, *names: str) -> tuple[str, ...]:
    """Returns the Message-IDs in these heads, each where it is last."""
    heads = [str(head) for name in names for head in parsed.get_all(name, [])[:MAX_SENDERS]]
    found = [identity for head in heads for identity in MESSAGE_ID.findall(head)]
    return tuple(dict.fromkeys(reversed(found)))[::-1]


def _recipients(parsed: Message) -> tuple[str, ...]:
    """Returns the addresses to which the message was sent, each once."""
    heads = [str(head) for name in RECIPIENTS for head in parsed.get_all(name, [])[:MAX_SENDERS]]
    found = [address for head in heads for address in _addresses(head[:MAX_HEAD]) if is_address(address)]
    return tuple(dict.fromkeys(found))[:MAX_RECIPIENTS]


def _automatic(parsed: Message, sender: str) -> str:
    """Returns which program's message it is, so that it is neither a sheet nor answered."""
    submitted = str(parsed.get("Auto-Submitted", "no")).split(";")[0].strip().lower()
    local = sender.partition("@")[0].lower()
    if (parsed.get_content_type() in ("multipart/report", "message/delivery-status") or local in ("mailer-daemon", "postmaster")
            or "".join(str(parsed.get("Return-Path", "x")).split()) in ("<>", "") or "X-Failed-Recipients" in parsed):
        return "a notice of a mail system: perhaps a letter did not arrive"
    if submitted != "no" or _precedence(parsed) in ("bulk", "junk", "auto_reply") or any(
            it in parsed for it in ("X-Autoreply", "X-Autorespond", "X-Autoresponder")):
        return "an automatic answer, such as a notice of absence"
    return ""


def _precedence(parsed: Message) -> str:
    return str(parsed.get("Precedence", "")).strip().lower()
