"""The lines of a text: joined where mail broke them, without quotations and signatures, and cleaned of
what mail did to them. Each change of a line is kept beside it, since the answer names it."""

import re
from collections.abc import Callable, Iterable
from dataclasses import dataclass, field

from umpire_post.html import html_lines
from umpire_post.parts import Text
from umpire_post.prose import (CONTEXT, are_heads_of_mail, begins_attribution, begins_quotation, is_above_quotation, is_attribution,
                               is_full_attribution, is_head_of_mail, is_order)

# A soft break is one only where the next word would not have fitted on the line.
FLOWED_COLUMNS = 60
LONGEST_ATTRIBUTION = 3  # lines

QUOTED_LINE = re.compile(r"\s*(\w{0,3}>|\|)")
SHEET_WORD = re.compile(r"\s*SHEET(?![A-Z0-9])", re.I | re.A)
SIGNATURE = re.compile(r"-- ?")
DEVICE = re.compile(r"\s*(Sent (from|via|with) (my|the|Mail|Yahoo|Outlook|Proton|Gmail|Samsung|AOL)\b.*|Get Outlook for .*"
                    r"|Von meinem .* gesendet.*|Gesendet (mit|von) .*|Envoyé de mon .*|Enviado desde mi .*|Inviato da .*"
                    r"|Verstuurd vanaf .*)", re.I)
SIGNED = "-----BEGIN PGP SIGNED MESSAGE-----"
PACKED = re.compile(r"-----BEGIN PGP (SIGNATURE|MESSAGE|PUBLIC KEY BLOCK)-----")
PACKED_END = re.compile(r"-----END PGP (SIGNATURE|MESSAGE|PUBLIC KEY BLOCK)-----")
HEAD_OF_SIGNED = re.compile(r"[A-Za-z]+:.*")

CHARACTERS = {
    "a curly quotation mark": ("“”„‟", '"'),
    "a curly apostrophe": ("‘’‚‛", "'"),
    "a no-break space": ("\u00a0\u2007\u202f", " "),
    "a wide or thin space": ("\u2000\u2001\u2002\u2003\u2004\u2005\u2006\u2008\u2009\u200a\u3000", " "),
    "a long dash": ("‐‑‒–—―", "-"),
    "an ellipsis": ("…", "..."),
    "a sign for at least": ("≥", ">="),
    "an invisible character": ("\u200b\u200c\u200d\u2060\ufeff\u00ad\u200e\u200f", ""),
}
PLAINLY = str.maketrans({it: plainly for characters, plainly in CHARACTERS.values() for it in characters})
ENCODED_END = "=20"
LONG_ENOUGH = 70  # columns of a line that mail broke with = at its end


@dataclass(frozen=True)
class Line:
    """A line, and what mail had done to it."""

    text: str
    undone: tuple[str, ...] = ()


@dataclass
class Lines:
    """The lines of a text that are its writer's own, how many were not, and what of it cannot be read."""

    own: list[Line] = field(default_factory=list)
    quoted: int = 0
    signature: int = 0
    unread: list[str] = field(default_factory=list)


def lines_of(text: Text) -> Lines:
    """Returns the lines of a text."""
    lines = html_lines(text.content) if text.is_html else _split(text.content)
    joined = [Line(it) for it in (lines[:-1] if lines and not lines[-1] else lines)]
    if text.is_flowed:
        joined = _unflowed(joined, text.deletes_spaces)
    found = Lines()
    _Own(_unsigned(joined, found), found).read()
    found.own = [cleaned(it) for it in _unbroken(found.own)]
    return found


def cleaned(line: Line) -> Line:
    """Undoes what mail did to the characters of a line."""
    text, undone = line.text, list(line.undone)
    if not text.isascii():
        own = set(text)
        undone += [name for name, (characters, _) in CHARACTERS.items() if not own.isdisjoint(characters)]
        text = text.translate(PLAINLY)
    end = _encoded_end(text)
    if end < len(text):
        undone.append("=20 at its end")
        text = text[:end]
    if "=3D" in text:
        undone.append("=3D for =")
        text = text.replace("=3D", "=")
    return Line(text, tuple(undone))


def _split(content: str) -> list[str]:
    """Returns the lines of a text. CRs before a line end belong to it; another one is a line end itself."""
    return [one for it in content.split("\n") for one in it.rstrip("\r").split("\r")]


def _encoded_end(text: str) -> int:
    """Returns where the =20 at the end of a line begin. The = of >= is none of theirs."""
    end = len(text)
    while text.endswith(ENCODED_END, 0, end):
        end -= len(ENCODED_END)
    return end + len(ENCODED_END) if end < len(text) and text.endswith(">", 0, end) else end


def _unflowed(lines: list[Line], deletes_spaces: bool) -> list[Line]:
    """Joins the lines of a flowed text, and takes off the spaces that it stuffs."""
    def is_soft(line: str, following: str) -> bool:
        word = following.partition(" ")[0]
        return line.endswith(" ") and line != "-- " and len(line) + len(word) > FLOWED_COLUMNS and not following.startswith(">")

    stuffed = [Line(it.text.removeprefix(" "), it.undone) for it in lines]
    trimmed = _joined(stuffed, is_soft, lambda it: it[:-1] if deletes_spaces else it, "two lines that were one")
    return [Line(it.text if it.text == "-- " else it.text.rstrip(" "), it.undone) for it in trimmed]


def _unbroken(lines: list[Line]) -> list[Line]:
    """Joins lines that end in the = of a text whose encoding was not undone."""
    def is_broken(line: str, _: str) -> bool:
        return len(line) >= LONG_ENOUGH and line.endswith("=") and not line.endswith(">=")

    return _joined(lines, is_broken, lambda it: it[:-1], "= at the end of a line that goes on")


def _joined(lines: Iterable[Line], is_soft: Callable[[str, str], bool], front: Callable[[str], str], why: str) -> list[Line]:
    """Joins each line that goes on with the next one."""
    found: list[Line] = []
    parts: list[Line] = []  # of the line that goes on
    for line in lines:
        if parts and not parts[0].text.startswith(">") and is_soft(parts[-1].text, line.text):
            parts.append(line)
        else:
            found += [_one(parts, front, why)] if parts else []
            parts = [line]
    return found + ([_one(parts, front, why)] if parts else [])


def _one(parts: list[Line], front: Callable[[str], str], why: str) -> Line:
    """Returns the line that parts of it make."""
    if len(parts) == 1:
        return parts[0]
    undone = (*parts[0].undone, why, *(it for part in parts[1:] for it in part.undone))
    return Line("".join([*(front(it.text) for it in parts[:-1]), parts[-1].text]), tuple(dict.fromkeys(undone)))


def _unsigned(lines: list[Line], found: Lines) -> list[Line]:
    """Takes off what PGP puts around a text, and counts it as a signature."""
    kept: list[Line] = []
    is_signed = is_head = is_packed = False
    for line in lines:
        text = line.text.rstrip()
        was_head, is_head = is_head, is_head and HEAD_OF_SIGNED.fullmatch(text) is not None
        if is_packed:
            is_packed = PACKED_END.fullmatch(text) is None
        elif is_head or was_head and not text:
            pass
        elif text == SIGNED:
            is_signed = is_head = True
        elif packed := PACKED.fullmatch(text):
            is_packed, is_signed = True, False
            found.unread += ["an encrypted text"] if packed[1] == "MESSAGE" else []
        else:
            kept.append(Line(text.removeprefix("- "), line.undone) if is_signed else line)
    found.signature += len(lines) - len(kept)
    return kept


class _Own:
    """Goes over the lines of a text, and finds those that the writer wrote, without quotations and
    signatures. `end` is how many of them there are up to the last that is not blank."""

    def __init__(self, lines: list[Line], found: Lines) -> None:
        self.lines = lines
        self.found = found
        self.end = 0
        self.has_sheet = False

    def read(self) -> None:
        was_quoted = False
        for at, line in enumerate(self.lines):
            is_quoted = QUOTED_LINE.match(line.text) is not None
            if is_quoted:
                self.found.quoted += 1 + (0 if was_quoted else self._drop_attribution(is_above_quotation))
            elif self._ends(at):
                return
            elif DEVICE.fullmatch(line.text):
                self.found.signature += 1
            else:
                self._keep(line)
            was_quoted = is_quoted

    def _keep(self, line: Line) -> None:
        self.found.own.append(line)
        if line.text.strip():
            self.end = len(self.found.own)
            self.has_sheet = self.has_sheet or SHEET_WORD.match(line.text) is not None

    def _ends(self, at: int) -> bool:
        """Returns whether a line and all below it are a signature or another message, and counts them."""
        if SIGNATURE.fullmatch(self.lines[at].text):
            self.found.signature += len(self.lines) - at
            return True
        if self._begins_quotation(at):
            self.found.quoted += len(self.lines) - at
            return True
        return False

    def _begins_quotation(self, at: int) -> bool:
        text = self.lines[at].text
        if begins_quotation(text):
            return True
        if is_head_of_mail(text) and are_heads_of_mail([it.text for it in self.lines[at:at + 1 + CONTEXT]]):
            return True
        if not is_attribution(text):
            return False
        own = self.found.own
        is_full = is_full_attribution(" ".join([*(it.text for it in own[len(own) - self._front(len(own)):]), text]))
        if not (is_full or self.has_sheet) or self._goes_on(at, is_full):
            return False
        self._keep(self.lines[at])
        self.found.quoted += self._drop_attribution(is_attribution) - 1
        return True

    def _goes_on(self, at: int, is_full: bool) -> bool:
        """Returns whether an attribution has another line, or marks of a quotation below it. One that does not
        say who and when may be a remark, if it is right above an order."""
        text, below = self.lines[at].text, next((it.text for it in self.lines[at + 1:at + 1 + CONTEXT] if it.text.strip()), "")
        return (QUOTED_LINE.match(below) is not None or not is_above_quotation(text) and is_above_quotation(below)
                or is_order(below) and not is_full)

    def _front(self, end: int) -> int:
        """Returns how many of the own lines up to one are the front of an attribution that ends below them."""
        count = 0
        while count < min(LONGEST_ATTRIBUTION - 1, end) and begins_attribution(self.found.own[end - 1 - count].text):
            count += 1
        return count

    def _drop_attribution(self, is_last: Callable[[str], bool]) -> int:
        """Takes off the lines that say who wrote what follows. Returns how many."""
        own = self.found.own
        if not self.end or not is_last(own[self.end - 1].text):
            return 0
        count = 1 + self._front(self.end - 1)
        del own[self.end - count:]
        while own and not own[-1].text.strip():
            own.pop()
        self.end = len(own)
        return count
