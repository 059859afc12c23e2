"""The lines of a text in HTML, for messages without a plain text."""

import re
from html.parser import HTMLParser

from umpire_post.parts import Refused

BLOCKS = {"p", "div", "tr", "li", "ul", "ol", "table", "h1", "h2", "h3", "h4", "h5", "h6", "blockquote", "pre", "hr", "section", "article"}
HIDDEN = {"head", "style", "script", "title"}
VOID = {"br", "hr", "img", "input", "meta", "link", "col", "area", "base", "wbr", "source", "embed", "track", "param"}
QUOTING = re.compile(r"\b(gmail_quote|gmail_attr|moz-cite-prefix|yahoo_quoted|protonmail_quote|divRplyFwdMsg|appendonsend|mail-quote)\b")
# What comes behind these belongs to the message that is answered, to the end.
TO_THE_END = re.compile(r"\b(divRplyFwdMsg|appendonsend)\b")
SIGNATURES = re.compile(r"\b(gmail_signature|moz-signature|ms-outlook-mobile-signature|Signature)\b")
QUOTATION = ">"  # the line in place of a quotation
MAX_ELEMENTS = 20_000
LONGEST_MARKS = 1000  # characters of the class and the id of an element
DEEPEST = 50  # elements around one that its end closes
SPACES = re.compile(r"[ \t\r\n\f]+")
LINE_END = re.compile(r"\r\n|\r|\n")
# Comments and declarations, and all behind one that does not end; a < that begins no element.
NO_ELEMENT = re.compile(r"<!--.*?(?:-->|\Z)|<[!?][^>]*>?|(?P<lone><)(?!/?[a-zA-Z][^<>]*>)", re.S)


class _Reader(HTMLParser):
    """Collects lines. `open` has the elements around, each with whether it hides what is in it."""

    def __init__(self) -> None:
        super().__init__(convert_charrefs=True)
        self.lines: list[str] = []
        self.line: list[str] = []  # the pieces of the last line
        self.is_blank = True
        self.open: list[tuple[str, bool]] = []
        self.hidden = 0
        self.elements = 0
        self.ended = False

    def handle_starttag(self, tag: str, attrs: list[tuple[str, str | None]]) -> None:
        self.elements += 1
        if self.elements > MAX_ELEMENTS:
            raise Refused(f"its HTML has more than {MAX_ELEMENTS:,} elements")
        if self.ended:
            return
        marks = " ".join(value or "" for name, value in attrs if name in ("class", "id"))[:LONGEST_MARKS]
        self.ended = TO_THE_END.search(marks) is not None
        if tag == "br":
            self._end_line()
        elif tag in BLOCKS:
            self._end_block()
        if tag in VOID:
            return
        is_quotation = tag == "blockquote" or QUOTING.search(marks) is not None
        if is_quotation and not (self.hidden or self.ended):
            self._end_block()
            self._add(QUOTATION)
            self._end_line()
        hides = is_quotation or tag in HIDDEN or SIGNATURES.search(marks) is not None
        self.open.append((tag, hides))
        self.hidden += hides

    def handle_endtag(self, tag: str) -> None:
        if tag in BLOCKS:
            self._end_block()
        depth = next((at for at in range(len(self.open) - 1, max(-1, len(self.open) - DEEPEST), -1) if self.open[at][0] == tag), None)
        if depth is not None:
            self.hidden -= sum(hides for _, hides in self.open[depth:])
            del self.open[depth:]

    def handle_data(self, data: str) -> None:
        if self.hidden or self.ended:
            return
        if any(tag == "pre" for tag, _ in self.open[-20:]):
            first, *others = LINE_END.split(data)
            self._add(first)
            for it in others:
                self._end_line()
                self._add(it)
        else:
            text = SPACES.sub(" ", data)
            self._add(text if self.line else text.lstrip(" "))

    def _add(self, piece: str) -> None:
        if piece:
            self.line.append(piece)
            self.is_blank = self.is_blank and not piece.strip(" ")

    def _end_line(self) -> None:
        if not (self.hidden or self.ended):
            self.lines.append("".join(self.line).rstrip(" "))
            self.line, self.is_blank = [], True

    def _end_block(self) -> None:
        if not self.is_blank:
            self._end_line()


def html_lines(content: str) -> list[str]:
    """Returns the lines that a reader of the page sees, with one in place of each quotation. Fails with
    Refused if it has too many elements."""
    reader = _Reader()
    # (the library raises on some declarations, and looks through the whole page for the end of an element)
    reader.feed(NO_ELEMENT.sub(lambda it: "&lt;" if it["lone"] else "", content))
    reader.close()
    return [*reader.lines, "".join(reader.line).rstrip(" ")]
