"""The evening of `docs/umpires/post.md`: each command tells what the page says."""

import contextlib
import email
import io
import os
import re
import shlex
import unittest
from datetime import datetime, timezone
from email.policy import default

from umpire_post.commands import main
from umpire_post.tests.club import HERE
from umpire_post.tests.evenings import Evenings, letter_of, mbox
from umpire_post.tests.programs import PROGRAMS

PAGE = HERE.parents[1] / "docs" / "umpires" / "post.md"
BLOCK = re.compile(r"^```\n(.*?)^```\n", re.S | re.M)
EVENING = datetime(2026, 11, 2, 19, 0, tzinfo=timezone.utc)
MAILBOX = "~/mail/club.mbox"
MESSAGES = (
    letter_of("ANN", ["SHEET ANN PR1", "TURN", "BUY SV"], 1, subject="Re: alpha PR1: the game begins"),
    letter_of("BOB", ["SHEET BOB PR1", "TURN", "BYU CS", "", "SHEET CYD PR1"], 2, subject="my orders"),
    letter_of("ANN", ["SHEET ANN PR1", "TURN", "BUY SV"], 3, subject="my orders"),
)


class Page(Evenings):
    def setUp(self) -> None:
        super().setUp()
        here = os.getcwd()
        os.chdir(self.place)
        self.addCleanup(os.chdir, here)
        (self.place / "mbox").write_bytes(mbox(MESSAGES))
        self.blocks = BLOCK.findall(PAGE.read_text(encoding="utf-8"))

    def run_post(self, line: str) -> str:
        """Runs a line of the page. Returns what it tells."""
        words = shlex.split(line.replace(MAILBOX, "mbox"))[1:]
        told = io.StringIO()
        with contextlib.redirect_stdout(told), contextlib.redirect_stderr(told):
            main(words, now=lambda: EVENING, programs=PROGRAMS)
        return told.getvalue()

    def test_each_command_tells_what_the_page_says(self) -> None:
        commands = 0
        for block in (it for it in self.blocks if it.startswith("$ post ")):
            for part in block.removeprefix("$ ").split("\n$ "):
                line, _, owed = part.partition("\n")
                self.assertEqual(owed.rstrip("\n"), self.run_post(line).rstrip("\n"), line)
                commands += 1
        self.assertGreater(commands, 10)
        letter = next(self.place.glob("our-club/alpha/*/0002-answer.eml"))
        answer = email.message_from_bytes(letter.read_bytes(), policy=default)
        self.assertEqual("Re: alpha PR1: your sheets, 1 finding", answer["Subject"])
        self.assertIn(next(it for it in self.blocks if it.startswith("SHEET BOB PR1")), answer.get_content())


if __name__ == "__main__":
    unittest.main()
