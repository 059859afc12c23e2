"""Messages of somebody who wants the post to stop: each is as long as one may be, and of a kind that a
careless reader takes long for, or fails on."""

from collections.abc import Callable, Iterator

from umpire_post.sources import MAX_BYTES

SHEET = "SHEET ANN SR2\nTURN\nBUY PRR IPO\n"
IN_TEXT = 250_000  # bytes of a text that is read


def message(body: str, heads: str = "", sender: str = "Ann <ann@example.org>") -> bytes:
    return f"From: {sender}\nSubject: sheet\nMessage-ID: <1@example.org>\n{heads}\n{body}".encode()


def filled(piece: str, size: int = MAX_BYTES - 2000) -> str:
    """Returns a piece as often as it goes into a size."""
    return piece * (size // len(piece.encode()))


def text(piece: str, size: int = IN_TEXT) -> bytes:
    """A sheet, a text of one piece again and again, and a quotation."""
    return message(f"{SHEET}{filled(piece, size)}\n> x\n")


def html(piece: str, size: int = IN_TEXT) -> bytes:
    return message(f"<p>SHEET ANN SR2<br>TURN</p>{filled(piece, size)}", "Content-Type: text/html\n")


def flowed(piece: str) -> bytes:
    return message(SHEET + filled(piece, IN_TEXT), "Content-Type: text/plain; format=flowed; delsp=yes\n")


def head(name: str, piece: str) -> bytes:
    return message(SHEET, f"{name}: {filled(piece)}\n")


def part(heads: str, content: str, size: int = MAX_BYTES - 3000) -> bytes:
    """A message with a sheet, and a part with this content again and again."""
    return message(f"--b\n\n{SHEET}\n--b\n{heads}\n{filled(content, size)}\n--b--\n", "Content-Type: multipart/mixed; boundary=b\n")


def nested(deep: int, boundary: Callable[[int], str], filling: str = "x\n") -> bytes:
    """Parts within parts, and below them lines that may end each."""
    inner = "".join(f"--{boundary(at)}\nContent-Type: multipart/mixed; boundary={boundary(at + 1)}\n\n" for at in range(deep))
    heads = f"Content-Type: multipart/mixed; boundary={boundary(0)}\n"
    return message(inner + filled(filling, MAX_BYTES - len(inner) - 2000), heads)


TEXTS = {
    "KEY and spaces": "KEY" + " " * 16_000,
    "KEY, spaces and a word": "KEY" + " " * 16_000 + "x y",
    "spaces at the end of orders": "TURN" + " " * 30_000 + "\n",
    "KEY lines": "KEY x\n",
    "=20 without an end": "=20",
    "=20 within lines": "=20" * 5_000 + "x\n",
    "=3D": "=3D",
    "lines that end in =": "x" * 75 + "=\n",
    "blank lines above quoted ones": "\n\n\n\n\n\n\n\n>\n",
    "quoted lines": "> \n",
    "quoted lines and prose": "x\n>\n",
    "wrote": "On wrote ",
    "wrote in lines": "On wrote wrote wrote wrote:\n",
    "attributions": "On Mon, 2 Nov 2026, Umpire <umpire@example.org> wrote:\n> x\n",
    "attributions broken in three": "On Mon, 2 Nov\n2026, Umpire\n<umpire@example.org> wrote:\n> x\n",
    "bare CRs": "\r",
    "CRs before line ends": "\r\r\r\r\r\r\r\r\n",
    "CRs before one line end": "\r" * 30_000 + "\n",
    "blank lines": "\n",
    "short lines": "x\n",
    "spaces": " ",
    "dashes": "-",
    "dashes and words": "---- w ----w",
    "lines of dashes": "-----\n",
    "underscores": "_" * 20_000 + "x\n",
    "heads of mail": "From: x\nx\n",
    "heads of mail in a row": "From: x\nSent: x\n",
    "SHEET lines": "SHEET ANN SR2\n",
    "SHEET lines without a round": "SHEET ANN\n",
    "SHEET and spaces": "SHEET " + " " * 1000 + "\n",
    "closings": "Kind regards\nAnn\n",
    "one word": "x",
    "signs of mail": "“”‘’\u00a0–…\u200b\n",
    "invisible characters": "\u200b",
    "wide characters": "\U0001f682",
    "colons": "a: \n",
    "bars": "| x\n",
    "PGP": "-----BEGIN PGP SIGNED MESSAGE-----\nHash: x\n",
    "PGP without an end": "-----BEGIN PGP SIGNATURE-----\n",
    "names alone": "Ann\n",
    "addresses": "<ann@example.org>:\n",
    "at signs": "@:",
    "dates": "2026-11-02 18:00:\n",
    "zeros": "\0",
    "sent from": "Von meinem ",
    "the post's own letter": "SHEET ANN SR2, as it was read:\n\n        SHEET ANN SR2\n     1  TURN\n",
}
LONGER = ("bare CRs", "blank lines above quoted ones", "short lines", "one word", "zeros", "wide characters")
PAGES = {
    "a broken declaration": "<<!---->![x[>",
    "broken declarations": "<<!>!doctype<!---->[<![CDATA[",
    "elements": "<div>", "breaks": "<br>", "comments without an end": "<!--", "comments": "<!---->", "CDATA": "<![CDATA[",
    "instructions": "<?x", "tags without an end": "<a ", "attributes": "<a b='", "attributes in turn": "<a b='\"' c=\"'\" ",
    "ends": "</", "ends of nothing": "</p>", "references": "&#", "long references": "&#" + "9" * 5_000 + ";", "ampersands": "&&&&",
    "entities": "&lt;&amp;&nbsp;&zwnj;", "quotations": "<p class=gmail_quote>", "quotations within each other": "<blockquote>",
    "ends that cross": "<b></i>", "declarations": "<!", "words in elements": "<b>x</b>", "words before elements": "x<b>",
    "cells": "<td>x", "text of pre": "<pre>\n", "scripts": "<script>", "scripts with ends": "<script></a>", "styles": "<style></",
    "greater": ">", "less": "<", "spaces in tags": "<p" + " " * 5_000 + ">", "slashes in tags": "<p" + "/" * 5_000 + ">",
    "equals in tags": "<p" + "=" * 5_000, "quotes in tags": "<p a=\"" + "'" * 5_000, "title": "<title>", "zero tags": "<\0>",
    "plaintext": "<plaintext>", "surrogates": "&#xD800;&#x110000;", "entity bombs": "<!DOCTYPE x [<!ENTITY a 'aaaa'><!ENTITY b '&a;&a;'>]>&b;",
}
HEADS = {
    "Content-Type": (";", "; a=b", "; a*0=b", "; a*1*=utf-8''%41", '; a="', "; charset*=x''", "/", "; boundary=b", "; name*999=x"),
    "Content-Disposition": (";", '; filename="', "; filename*0=a", "; filename*=utf-8''%41", "attachment; "),
    "Content-Transfer-Encoding": ("base64", " "),
    "Subject": ("=?utf-8?q?", "=?utf-8?q?a?= ", "=?punycode?b?YWJj?= ", "(", "=?x?", "\x1b[2J", "a\n "),
    "To": ("ann@example.org, ", "(", "a:", "<", '"', "@", "a@b;", "\\", ","),
    "References": ("<1@example.org> ", "<", "<a@", ">"),
    "Received": ("x", ";", "from x by y\n\t"),
    "X": ("x\n\t", "(", "=?utf-8?q?a?="),
}
SENDERS = ("(", '"', "<", "@", "=?utf-8?q?", ",", "\\", "a.", "=?utf-8?q?a?= ", "ann@example.org, ", "<ann@example.org>", ";", ":", "\r", "\n ", "a@b ")
BYTES: dict[str, Callable[[], bytes]] = {
    "a base64 text": lambda: part("Content-Type: text/plain\nContent-Transfer-Encoding: base64\n", "U0hFRVQgQU5OIFNSMgo=\n"),
    "base64 of signs that are none": lambda: part("Content-Type: text/plain\nContent-Transfer-Encoding: base64\n", "*=-!"),
    "base64 of padding": lambda: part("Content-Type: text/plain\nContent-Transfer-Encoding: base64\n", "="),
    "base64 in one line": lambda: part("Content-Type: application/zip\nContent-Transfer-Encoding: base64\n", "AAAA"),
    "quoted-printable": lambda: part("Content-Type: text/plain\nContent-Transfer-Encoding: quoted-printable\n", "=41"),
    "quoted-printable breaks": lambda: part("Content-Type: text/plain\nContent-Transfer-Encoding: quoted-printable\n", "=\n"),
    "quoted-printable spaces": lambda: part("Content-Type: text/plain\nContent-Transfer-Encoding: quoted-printable\n", " " * 30_000 + "=\n"),
    "uuencode": lambda: part("Content-Type: text/plain\nContent-Transfer-Encoding: x-uuencode\n", "begin 644 x\n#0V%T\nend\n"),
    "uuencode without an end": lambda: part("Content-Type: text/plain\nContent-Transfer-Encoding: uuencode\n", "begin 644 x\n"),
    "parts without a type": lambda: message(filled("--b\n\n"), "Content-Type: multipart/mixed; boundary=b\n"),
    "parts without a line": lambda: message(filled("--b\n"), "Content-Type: multipart/mixed; boundary=b\n"),
    "parts with a head": lambda: message(filled("--b\nA: b\n\nx\n"), "Content-Type: multipart/mixed; boundary=b\n"),
    "digests": lambda: message(filled("--b\n\nA: b\n\n"), "Content-Type: multipart/digest; boundary=b\n"),
    "messages within messages": lambda: message(filled("Content-Type: message/rfc822\n\n"), "Content-Type: message/rfc822\n"),
    "reports": lambda: message(filled("A: b\n\n"), "Content-Type: message/delivery-status\n"),
    "reports within": lambda: part("Content-Type: message/delivery-status\n", "A: b\n\n"),
    "parts within parts": lambda: nested(20_000, lambda at: f"b{at}"),
    "parts within parts, and lines": lambda: nested(30, lambda at: f"b{at}", "--b\n"),
    "parts of one boundary": lambda: nested(40, lambda _: "b"),
    "a boundary and spaces": lambda: nested(7, lambda _: "b", "--b" + " " * 100_000 + "x\n"),
    "a boundary and one line of spaces": lambda: nested(39, lambda _: "b", "--b" + " " * 1_900_000 + "x\n"),
    "a boundary of dashes": lambda: message(filled("-"), "Content-Type: multipart/mixed; boundary=" + "-" * 60 + "\n"),
    "a boundary of nothing": lambda: message(filled("--\n"), 'Content-Type: multipart/mixed; boundary=""\n'),
    "an alternative of alternatives": lambda: nested(30, lambda at: f"b{at}").replace(b"multipart/mixed", b"multipart/alternative"),
    "heads": lambda: message(SHEET, filled("A: b\n")),
    "heads without a name": lambda: message(SHEET, filled(":\n")),
    "heads of a part": lambda: part(filled("A: b\n"), "x", 10),
    "types of a part": lambda: part(filled("Content-Type: text/plain\n"), "x", 10),
    "a type of a part": lambda: part("Content-Type: text/plain" + filled(";") + "\n", "x", 10),
    "a name of a part": lambda: part('Content-Disposition: attachment; filename="' + filled("x") + '"\n', "x", 10),
    "names of a part": lambda: part("Content-Disposition: attachment" + filled("; filename*0*=a%41") + "\n", "x", 10),
    "senders": lambda: message(SHEET, filled("From: ann@example.org\n")),
    "one line of heads": lambda: b"From: ann@example.org" + b" " * (MAX_BYTES - 2000),
    "no heads": lambda: b"x" * (MAX_BYTES - 10),
    "bytes that are none": lambda: b"From: ann@example.org\n\n" + b"\xff\xfe" * (IN_TEXT // 2),
    "UTF-16": lambda: b"From: ann@example.org\nContent-Type: text/plain; charset=utf-16\n\n" + (SHEET * 9_000).encode("utf-16")[:IN_TEXT],
    "marks of UTF-8": lambda: b"From: ann@example.org\n\n" + b"\xef\xbb\xbf" * (IN_TEXT // 3),
    "CRs as line ends": lambda: message(SHEET + filled("x\n")).replace(b"\n", b"\r"),
    "CRs and heads": lambda: message(SHEET, filled("A: b\r")),
}
CHARSETS = ("utf-7", "punycode", "idna", "unicode_escape", "zlib", "rot13", "hz", "gb18030", "iso2022_jp_ext", "utf-32", "undefined", "../x", "x" * 4000)


def attacks() -> Iterator[tuple[str, bytes]]:
    """Yields all of them, each with its name."""
    for name, piece in TEXTS.items():
        yield f"text: {name}", text(piece)
        if name in LONGER:
            yield f"longer text: {name}", text(piece, MAX_BYTES - 2000)
        yield f"one line: {name}", text(piece.replace("\n", " "))
        yield f"flowed: {name}", flowed(piece.replace("\n", " \n"))
    for name, piece in PAGES.items():
        yield f"page: {name}", html(piece)
        yield f"page of words: {name}", html(f"x {piece} y\n")
    for name, pieces in HEADS.items():
        for piece in pieces:
            yield f"head: {name} {piece!r}", head(name, piece)
    for piece in SENDERS:
        yield f"sender {piece!r}", message(SHEET, "", filled(piece))
    for name in CHARSETS:
        yield f"charset {name[:20]}", message(filled("xn--a-", IN_TEXT), f"Content-Type: text/plain; charset={name}\n")
    for name, content in BYTES.items():
        yield name, content()
