"""Messages that are made by chance from a seed, each with what is expected of it."""

import random
from collections.abc import Callable, Sequence
from dataclasses import dataclass, field
from email.message import EmailMessage
from email.policy import default
from html import escape

from umpire_post.tests.club import CLUB, KEY

SEED = 1830
AWAITED, PLAYED = "SR2", "SR1"
FIRST = {name: player.addresses[0] for name, player in CLUB.players.items()}
ORDERS = ("TURN", "BUY PRR IPO", "BUY CO IPO # if it is there", "SELL NYC 2", "IF PRICE BO >= 68 SELL BO 1", "LAY 57 F16 4", "COMPANY PRR",
          "RUN 4 I15.0 H16.0 G17.1", "RUN BEST", "PAY", "withhold", " TURN", "buy sv", "BYU SV", "# a remark", "TRAIN 3 BANK", "PAR NYNH 82")
GREETINGS = ("Hello umpire,", "here are my orders for Monday:", "As Bob wrote on Monday:", "Thanks for the map!", "")
CLOSINGS = (("Kind regards", "{name}"), ("Best, {name}",), ("{name}",), ("Viele Grüße",), ("Cheers!", "", "{name}", "PS: see you on Friday"),
            ("Hi umpire, that is all",), ("Pozdrawiam,", "{name}"), ("Thank you and good night",), ("Cordialement",), ())
ATTRIBUTIONS = (
    "On Mon, 2 Nov 2026 at 18:00, Umpire <umpire@example.org> wrote:", "Am 02.11.26 um 18:00 schrieb Umpire:",
    "Le lun. 2 nov. 2026 à 18:00, Umpire <umpire@example.org> a écrit :", "W dniu 2.11.2026 o 18:00, Umpire pisze:",
    "Em seg., 2 de nov. de 2026 às 18:00, Umpire <umpire@example.org> escreveu:", "ma 2. marrask. 2026 klo 18.00 Umpire kirjoitti:",
    "po 2. 11. 2026 v 18:00 odesílatel Umpire <umpire@example.org> napsal:", "пн, 2 нояб. 2026 г. в 18:00, Umpire <umpire@example.org>:",
    "2026年11月2日(月) 18:00 Umpire <umpire@example.org>:", "On Mon, 2 Nov 2026 at 18:00, Umpire\n<umpire@example.org> wrote:",
    "Den mån 2 nov. 2026 kl 18:00 skrev Umpire <umpire@example.org>:", "El lun, 2 nov 2026 a las 18:00, Umpire escribió:")
HEADS_OF_MAIL = ("-----Original Message-----\nFrom: umpire@example.org\nSent: Monday\nTo: x@example.org\nSubject: y",
                 "Von: umpire@example.org\nGesendet: Montag\nAn: x@example.org\nBetreff: y",
                 "Gesendet: Montag, 02. November 2026 um 18:00 Uhr\nVon: umpire@example.org\nAn: x@example.org\nBetreff: y")
QUOTED = ("SHEET {name} SR2", "TURN", "SELL PRR 9", "KEY nobody", "SHEET ANN SR2", "-- ", "Best, Umpire", "")
SIGNATURE = "-- \n{name} of the club\nSHEET {name} SR2\nBUY BO IPO"


@dataclass
class Made:
    """A message, and what is expected of it: the lines of the sheets that count, lines that are left out,
    words of what the umpire is told, and whether it is answered."""

    content: bytes
    sheets: list[tuple[str, ...]] = field(default_factory=list)
    left_out: tuple[str, ...] = ()
    aside: str = ""
    is_answered: bool = True


class Maker:
    """Makes the message of a number, the same each time."""

    def __init__(self, number: int) -> None:
        self.chance = random.Random(SEED * 10**6 + number)
        self.number = number
        self.name = self.chance.choice(("ANN", "BOB", "CYD", "DOT"))
        self.letter = EmailMessage(policy=default.clone(linesep=self.chance.choice(("\n", "\r\n"))))

    def made(self) -> Made:
        how = self.chance.choices(list(WAYS), list(WAYS.values()))[0]
        self.heads(FIRST[self.name])
        return how(self)

    def heads(self, address: str) -> None:
        name = self.chance.choice(("", self.name.title(), f'"{self.name.title()} Archer"', "Änne"))
        self.letter["From"] = f"{name} <{address}>" if name else address
        self.letter["To"] = "umpire@example.org"
        self.letter["Subject"] = self.chance.choice(("sheet", "Re: our-game", "=?utf-8?q?x?=", "Änne", "x" * 300))
        self.letter["Message-ID"] = f"<{self.number}@example.org>"

    def sheet(self, name: str, round_: str = AWAITED) -> tuple[str, ...]:
        orders = [self.chance.choice(ORDERS) for _ in range(self.chance.randrange(9))]
        return (f"SHEET {name} {round_}", *orders, "TURN")  # (its last order is one)

    def around(self, own: Sequence[str]) -> tuple[list[str], tuple[str, ...]]:
        """Returns lines with others above and below, and which of these are left out of the sheet."""
        closing = [it.format(name=self.name.title()) for it in self.chance.choice(CLOSINGS)]
        blank = [""] * self.chance.randrange(3)
        below = self.chance.choice((self.quotation, self.quotation, self.other_message, self.signature, lambda: []))()
        return [self.chance.choice(GREETINGS), *own, *blank, *closing, "", *below], tuple(it for it in closing if it)

    def quotation(self) -> list[str]:
        mark = self.chance.choice(("> ", ">", "| "))
        return [*self.chance.choice(ATTRIBUTIONS).split("\n"), *[""] * self.chance.randrange(2), *(mark + it for it in self.quoted())]

    def other_message(self) -> list[str]:
        above = self.chance.choice((*HEADS_OF_MAIL, *ATTRIBUTIONS))
        return [*above.split("\n"), "", *self.quoted()]

    def quoted(self) -> list[str]:
        return [self.chance.choice(QUOTED).format(name=self.name) for _ in range(1 + self.chance.randrange(6))]

    def signature(self) -> list[str]:
        return SIGNATURE.format(name=self.name).split("\n")

    def write(self, lines: Sequence[str]) -> None:
        """Puts lines into the message in one of the ways of mail programs."""
        text = "\n".join(lines) + "\n"
        self.chance.choice((self.as_plain, self.as_plain, self.as_flowed, self.as_alternative, self.as_page, self.as_attached))(text)

    def as_plain(self, text: str) -> None:
        charset = self.chance.choice(("utf-8", "utf-16", "us-ascii" if text.isascii() else "utf-8"))
        if charset == "utf-16":
            self.letter.set_content(text.encode(charset), maintype="text", subtype="plain", params={"charset": charset})
        else:
            self.letter.set_content(text, charset=charset, cte=self.chance.choice(("base64", "quoted-printable")))

    def as_flowed(self, text: str) -> None:
        stuffed = "".join(f"{' ' if it.startswith(' ') else ''}{it}\n" for it in text.splitlines())
        self.letter.set_content(stuffed, cte="8bit", params={"format": "flowed"})

    def as_alternative(self, text: str) -> None:
        self.letter.set_content(text)
        self.letter.add_alternative("<p>SHEET CYD SR2<br>BUY BM IPO</p>", subtype="html")

    def as_page(self, text: str) -> None:
        """(A page keeps spaces where it is preformatted.)"""
        self.letter.set_content(f"<html><head><title>SHEET x</title></head><body><pre>{escape(text)}</pre></body></html>", subtype="html")

    def as_attached(self, text: str) -> None:
        self.letter.set_content("see below")
        self.letter.add_attachment(text.encode(), maintype="application", subtype="octet-stream", filename="../../orders.txt")
        self.letter.add_attachment(b"SHEET BOB SR2", maintype="application", subtype="zip", filename="x.zip")

    def bytes(self) -> bytes:
        return self.letter.as_bytes()

    def good(self) -> Made:
        own = self.sheet(self.name)
        lines, left_out = self.around(own)
        self.write(lines)
        return Made(self.bytes(), [own], left_out)

    def twice(self) -> Made:
        """Two sheets for a round, of which the last counts, and one for a later round."""
        first, later, last = self.sheet(self.name), self.sheet(self.name, "OR1.1"), self.sheet(self.name)
        self.write([*first, "", *later, "", *last])
        return Made(self.bytes(), [later, last])

    def other_sender(self, address: str, aside: str, is_answered: bool = True) -> Made:
        del self.letter["From"]
        self.letter["From"] = address
        lines, _ = self.around(self.sheet(self.name))
        self.write(lines)
        return Made(self.bytes(), aside=aside, is_answered=is_answered)

    def of_stranger(self) -> Made:
        return self.other_sender(self.chance.choice(("eve@elsewhere.example", "ann@example.org.elsewhere.example")), "an address that is nobody's")

    def of_another(self) -> Made:
        return self.other_sender(FIRST["EVE"], f"from an address that is not {self.name}'s")

    def of_nobody(self) -> Made:
        content = self.other_sender(FIRST[self.name], "").content
        bad = self.chance.choice((b"From: ann@example.org, bob@example.org", b"From: ann@example.org <eve@elsewhere.example>",
                                  b"From: \"x\" ann@example.org", b"Form: ann@example.org", b"From: ann@example.org\nFrom: bob@example.org"))
        content = content.replace(f"From: {FIRST[self.name]}".encode(), bad, 1)
        return Made(content, aside="it has not exactly one sender", is_answered=False)

    def of_program(self) -> Made:
        name, value = self.chance.choice((("Auto-Submitted", "auto-replied"), ("Precedence", "junk"), ("X-Autoreply", "yes"), ("Return-Path", "<>")))
        self.letter[name] = value
        self.write(self.sheet(self.name))
        aside = "a notice of a mail system" if name == "Return-Path" else "an automatic answer"
        return Made(self.bytes(), aside=aside, is_answered=False)

    def of_eve(self, keys: Sequence[str], aside: str) -> Made:
        """A message of the player who has a key."""
        self.letter.replace_header("From", FIRST["EVE"])
        self.name = "EVE"
        own = list(self.sheet("EVE"))
        sent = list(own)
        for key in keys:
            line = self.chance.choice(("KEY {}", "key {}", "Key: {}", "  KEY:  {}  ", "KEY : {}")).format(key)
            sent.insert(self.chance.randrange(len(sent) + 1), line)
        self.write(sent)
        return Made(self.bytes(), [] if aside else [tuple(own)], aside=aside)

    def with_key(self) -> Made:
        return self.of_eve([KEY], "")

    def without_key(self) -> Made:
        return self.of_eve([], "without a KEY line")

    def with_wrong_key(self) -> Made:
        return self.of_eve([self.chance.choice(("heron-7", "Heron-8", "Heron-77", "x", "Hérôn-7", KEY[::-1]))], "with a wrong KEY line")

    def with_many_keys(self) -> Made:
        return self.of_eve([KEY, self.chance.choice((KEY, "Heron-8"))], "it has 2 KEY lines")

    def with_key_inside(self) -> Made:
        self.letter.replace_header("From", FIRST["EVE"])
        self.write([*self.sheet("EVE"), f"TURN # {KEY}", f"KEY {KEY}"])
        return Made(self.bytes(), aside="with the key in a line of its own orders")

    def too_late(self) -> Made:
        lines, _ = self.around(self.sheet(self.name, PLAYED))
        self.write(lines)
        return Made(self.bytes(), aside=f"after {PLAYED} was played")

    def prose(self) -> Made:
        self.write(["Please change my second order to BUY PRR IPO.", "And may I sell two shares?", self.name.title()])
        return Made(self.bytes(), aside="it has no sheet")

    def with_fault(self) -> Made:
        head = self.chance.choice(("Sheet {} SR 2", "SHEET {}", "SHEET SR2 {}", "SHEET {} SR0", "SHEET {}, SR2", "SHEET: {} SR2", "SHEET NOBODY SR2",
                                   "SHEET {} SR2 please", "SHEET {} OR1.4")).format(self.name.title())
        self.write([head, *self.sheet(self.name)[1:]])
        return Made(self.bytes(), aside="a sheet with a fault in its first line")

    def too_much(self) -> Made:
        """More than is read of something."""
        what, aside = self.chance.choice((
            (lambda: self.write(self.sheet(self.name) * 1 + ("#" * 300_000,)), "are read"),
            (lambda: self.write(self.sheet(self.name) + ("x",) * 20_001), "lines, and at most"),
            (lambda: self.write((f"SHEET {self.name} SR2",) * 25), "more than 24 sheets"),
            (self.many_parts, "more than 40 parts")))
        what()
        return Made(self.bytes(), aside=aside)

    def many_parts(self) -> None:
        self.letter.set_content("\n".join(self.sheet(self.name)))
        for at in range(45):
            self.letter.add_attachment(b"x", maintype="image", subtype="png", filename=f"{at}.png")


WAYS: dict[Callable[[Maker], Made], int] = {
    Maker.good: 40, Maker.twice: 5, Maker.of_stranger: 5, Maker.of_another: 5, Maker.of_nobody: 5, Maker.of_program: 4, Maker.with_key: 4,
    Maker.without_key: 3, Maker.with_wrong_key: 4, Maker.with_many_keys: 4, Maker.with_key_inside: 3, Maker.too_late: 4, Maker.prose: 4,
    Maker.with_fault: 5, Maker.too_much: 1,
}
