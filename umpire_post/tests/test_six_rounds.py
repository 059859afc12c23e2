"""Six rounds, from an mbox to the outbox: each evening the umpire reads the mbox, which has grown, and
plays the round. BOB sends none for the last. All letters together are `six-rounds.outbox`, in which
`{bulletin}`, `{page}`, `{report}` and `{orders}` stand for what the programs say of the round and for
the order file, and `{rules}` for a page for players.

    python3 -m umpire_post.tests.test_six_rounds --write

writes that file anew: read it before it is kept."""

import email
import re
import secrets
import sys
import unittest
from email.message import EmailMessage
from email.policy import default
from pathlib import Path
from unittest import mock

from umpire_post.tests.club import HERE
from umpire_post.tests.evenings import MARK, UMPIRE, Evenings
from umpire_post.tests.programs import PROGRAMS

MBOX, OUTBOX = HERE / "six-rounds.mbox", HERE / "six-rounds.outbox"
ADDRESSES = ("ANN=ann@example.org", "BOB=bob@example.org", "CYD=cyd@gmail.example", "DOT=dot@example.org")
RULES = [HERE.parents[1] / "docs" / "players" / it for it in ("playing.md", "rules.md")]
DUE = "Sunday 2026-11-08 18:00 (Europe/Berlin)"
DAY = re.compile(rb"^From umpire-mailbox (\w+ \w+ +\d+)", re.M)
EVENINGS_WITH_ASIDE = {2, 3, 4, 5}


def evenings() -> list[bytes]:
    """Returns the mbox as it is at the end of each evening."""
    whole = MBOX.read_bytes()
    starts = [it for it in DAY.finditer(whole)]
    ends = [after.start() for before, after in zip(starts, starts[1:]) if before[1] != after[1]]
    return [whole[:it] for it in (*ends, len(whole))]


class SixRounds(Evenings):
    maxDiff = None

    def letters(self) -> str:
        """Plays the six rounds. Returns all letters, with what the programs say taken out."""
        with mock.patch.object(secrets, "token_hex", lambda _: MARK):
            self.post("new", "--umpire", UMPIRE, "--zone", "Europe/Berlin", "--due", "Sunday 18:00", *ADDRESSES)
        self.change("club.toml", re.escape('addresses = ["cyd@gmail.example"]'), 'addresses = ["cyd@gmail.example"]\nkey = "heron-7"')
        box = self.place / "mbox"
        for number, content in enumerate(evenings(), 1):
            box.write_bytes(content)
            self.post("in", str(box), status=3 if number in EVENINGS_WITH_ASIDE else 0)
            self.post("round", *(["--without", "BOB"] if number == 6 else []))
        paths = sorted((self.game / "outbox").iterdir())
        return "".join(f"==== {path.name}\n{self.told(path)}\n" for path in paths)

    def told(self, path: Path) -> str:
        """Returns a letter as it is in the file: heads, text, and what is attached."""
        letter = email.message_from_bytes(path.read_bytes(), policy=default)
        assert isinstance(letter, EmailMessage)
        heads = "".join(f"{name}: {value}\n" for name, value in letter.items()
                        if name not in ("Content-Type", "Content-Transfer-Encoding", "MIME-Version"))
        body = letter.get_body()
        assert body is not None
        text = f"{heads}\n{body.get_content()}"
        attached = [(str(it.get_filename()), it.get_content()) for it in letter.iter_attachments()]
        said = {it.read_text(encoding="utf-8"): "{rules}" for it in RULES}
        if path.name.startswith("round-"):
            orders = self.orders_after(path.name.split("-")[1])
            report = PROGRAMS.report(orders)
            text = text.replace(PROGRAMS.bulletin(orders, report, DUE).rstrip("\n"), "{bulletin}")
            said |= {PROGRAMS.page(orders, DUE): "{page}", report.text: "{report}", orders.decode(): "{orders}"}
        return text + "".join(f"[{name}: {said.get(content, content)}]\n" for name, content in attached)

    def orders_after(self, number: str) -> bytes:
        """Returns the order file as a round left it."""
        rounds = sorted((self.game / "rounds").glob(f"{int(number) + 1:03}-*"))
        return (rounds[0] / "before.orders" if rounds else self.game / "game.orders").read_bytes()

    def test_each_letter_is_as_it_is_owed(self) -> None:
        self.assertEqual(OUTBOX.read_text(encoding="utf-8").splitlines(), self.letters().splitlines())
        session = sorted((HERE.parents[1] / "games" / "desk" / "ten-rounds").glob("0[0-6]*.sheets"))
        orders = b"".join(it.read_bytes() for it in session)
        self.assertEqual(PROGRAMS.report(orders), PROGRAMS.report((self.game / "game.orders").read_bytes()))


if __name__ == "__main__":
    if "--write" in sys.argv:
        one = SixRounds("test_each_letter_is_as_it_is_owed")
        one.setUp()
        OUTBOX.write_text(one.letters(), encoding="utf-8")
        one.doCleanups()
    else:
        unittest.main()
