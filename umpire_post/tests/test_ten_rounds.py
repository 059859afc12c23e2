"""The ten rounds of `games/desk/ten-rounds` by post, in a club with another game that goes on beside it:
each round is sent with every slip that there is and sent again, as it was mended. The report is that of
the game's file, and each slip is told to its sender alone."""

import email
import re
import unittest
import unittest.mock
from collections.abc import Iterator
from contextlib import AbstractContextManager
from datetime import timedelta
from email.policy import default
from pathlib import Path

from umpire_post.programs import Programs
from umpire_post.tests.evenings import UMPIRE, Clubs, Evenings, letter_of, mail, mbox
from umpire_post.tests.programs import PROGRAMS

SESSION = Path(__file__).resolve().parents[2] / "games" / "desk" / "ten-rounds"
NAMES = ("ANN", "BOB", "CYD", "DOT")
ADDRESSES = {it: f"{it.lower()}@example.org" for it in NAMES}
MEANT = {"DTO": "DOT"}
UNDONE_AFTER = "05-OR2.1"
WITH_ASIDE = ("04-SR2", "06-SR3")  # a name with a slip, and a sheet for a round that was played
SENDMAIL = "#!/bin/sh\ncat > /dev/null\n"

# What the desk says of lines of the file that the post has put right or left out: ends of lines, =20, a
# no-break space, heads of mail, and a quotation; and of a sheet that came late, which it sets aside.
PUT_RIGHT = {"01-PR1": {3, 4, 5, 6, 7, 16, 18}, "04-SR2": {72, 73, 79, 80}, "06-SR3": {108}}
# The curly quotation marks are plain ones now.
CITED = re.compile(r"(?<=then lines )\d+(?:, \d+)*")  # lines of the file that fail below another
TOLD_OTHERWISE = {("01-PR1", 19): 'G4: the words after the first do not fit any of its forms'}


def chunks(path: Path) -> Iterator[tuple[str, list[str], int]]:
    """Yields of each sheet its sender, the lines as they were sent, and where they begin. Heads of mail
    above a SHEET line belong to it."""
    lines = path.read_bytes().decode().split("\n")[:-1]
    begins = [at for at, line in enumerate(lines) if line.startswith("SHEET ")]
    starts = [0, *begins[1:]]
    for start, begun, end in zip(starts, begins, [*starts[1:], len(lines)]):
        name = lines[begun].split()[1]
        yield MEANT.get(name, name), lines[start:end], start


def own_numbers(cited: str, head: int) -> str:
    """Returns a list of lines of a file with the numbers that they have in the sheet below this line."""
    return re.sub(r"\d+", lambda it: str(int(it[0]) - head), cited)


def flat(text: str) -> str:
    """Returns a text on one line. Lines that a finding cites have other numbers in an answer."""
    return re.sub(r"\b(on line|Lines) \d+( to \d+)?\b", r"\1 N", " ".join(text.split()))


def without(programs: Programs, word: str, answer: object) -> AbstractContextManager[object]:
    """Has the programs answer a word at once."""
    return unittest.mock.patch.object(type(programs), word, lambda *_: answer)


class TenRounds(Clubs):
    def setUp(self) -> None:
        super().setUp()
        # (a page takes most of the time, and other tests have one)
        self.enterContext(without(PROGRAMS, "page", "<html></html>"))
        self.post("club", "--umpire", UMPIRE, *(f"{it}={ADDRESSES[it]}" for it in NAMES))
        self.on("ten", "new", *NAMES)
        self.on("other", "new", *NAMES[:3])
        sendmail = self.place / "sendmail"
        sendmail.write_text(SENDMAIL)
        sendmail.chmod(0o755)
        self.change("club.toml", 'by = "program"', f'sendmail = ["{sendmail}"]\nby = "sendmail"')
        self.mail = self.place / "mail"
        self.number = self.others = 0

    def arrive(self, sheets: list[tuple[str, list[str]]], status: int = 0) -> dict[str, str]:
        """Adds messages to the umpire's mailbox, each of which says in one of three ways for which game it is,
        and reads all of it. Returns the answer to each player, without those sent before."""
        with open(self.mail, "ab") as box:
            for name, lines in sheets:
                self.number += 1
                ways = ({"subject": "Re: ten"}, {"to": "umpire+ten@example.org"}, {"answers": self.identity(name)})
                box.write(mbox([letter_of(name, lines, self.number, **ways[self.number % 3])]))
        self.post("in", str(self.mail), status=status)
        found = {}
        for path in (self.club / "ten" / "outbox").glob("*-answer.eml"):
            letter = email.message_from_bytes(path.read_bytes(), policy=default)
            found[str(letter["To"])] = letter.get_content()
        self.post("send")
        return found

    def identity(self, name: str) -> str:
        """Returns the Message-ID of the first letter to a player of the game."""
        letter = next((self.club / "ten").glob(f"*/new-{name}.eml"))
        return str(email.message_from_bytes(letter.read_bytes(), policy=default)["Message-ID"])

    def play_other(self) -> None:
        """Has ANN send a sheet for a round of the other game, which is read with the mailbox, and plays that
        round."""
        self.others += 1
        with open(self.mail, "ab") as box:
            box.write(mbox([letter_of("ANN", [f"SHEET ANN PR{self.others}", "TURN"], 1000 + self.others, subject="other")]))
        self.post("in", str(self.mail))
        self.on("other", "round", "--without", "BOB", "CYD")

    def look_at_slips(self, sent: Path, answers: dict[str, str], before: int) -> None:
        """Each finding of the session is in the answer to the player of its sheet, and in no other of a line of this text."""
        own = sent.with_suffix(".told").read_text().partition("FOR THE UMPIRE ALONE")[0]
        told = [it.split(" | ") for it in own.splitlines() if not it.startswith("OWED")]
        whose = {before + 1 + start + at: name for name, lines, start in chunks(sent) for at in range(len(lines))}
        heads = {name: before + 1 + start + next(at for at, line in enumerate(lines) if line.startswith("SHEET "))
                 for name, lines, start in chunks(sent)}
        for number, *_, text, said in told:
            if int(number) in PUT_RIGHT.get(sent.stem, ()):
                continue
            said = TOLD_OTHERWISE.get((sent.stem, int(number)), said)
            name = whose[int(number)]
            said = CITED.sub(lambda its: own_numbers(its[0], heads[name]), said)
            self.assertIn(flat(said), flat(answers[ADDRESSES[name]]), f"{sent.stem} line {number}")
            others = [flat(it) for address, it in answers.items() if address != ADDRESSES[name]]
            self.assertFalse([it for it in others if flat(f"{text} | {said}") in it], f"{sent.stem} line {number}")
        for name, lines, _ in chunks(sent):
            for address, answer in answers.items():
                if address != ADDRESSES[name]:
                    self.assertNotRegex(answer, rf"SHEET {name} ")

    def play(self, sheets: Path, lines: int) -> int:
        """Plays a round of the session, on a day of its own. Returns how many lines the session's file has then."""
        self.clock.time += timedelta(days=1)
        mended = [(name, text) for name, text, _ in chunks(sheets)]
        sent = sheets.with_suffix(".sent")
        if sent.exists():
            first = [(name, text) for name, text, _ in chunks(sent)]
            self.look_at_slips(sent, self.arrive(first, 3 if sent.stem in WITH_ASIDE else 0), lines)
            mended = [it for it in mended if it not in first]
        for answer in self.arrive(mended).values():
            # (what is right once another has ordered first is refused if nobody does)
            for found in re.findall(r"^ {4}line [\s\S]*?(?=^ {4}line|^$)", answer, re.M):
                self.assertIn("| if nobody orders anything before it: ", flat(found))
        self.play_other()
        self.on("ten", "round")
        if sheets.stem == UNDONE_AFTER:
            self.on("ten", "undo", "OR2.1")
            self.on("ten", "round", "OR2.1")
        self.post("send")
        return lines + len(sheets.read_bytes().splitlines())

    def test_ten_rounds(self) -> None:
        lines = 2
        paths = sorted(SESSION.glob("*.sheets"))
        for sheets in paths[1:]:
            lines = self.play(sheets, lines)
        owed = PROGRAMS.report(b"".join(it.read_bytes() for it in paths))
        self.assertEqual(10, len(owed.played))
        self.assertEqual(owed, PROGRAMS.report((self.club / "ten" / "game.orders").read_bytes()))
        self.assertEqual(owed.text, (self.club / "ten" / "rounds" / "011-OR4.1" / "report").read_text())
        self.assertRegex(self.on("ten", "status"), r"^ten: OR4.2 has been awaited since .*\n  ANN      owes a sheet\n")
        sheets_of_other = [f"SHEET ANN PR{it}\nTURN\nSHEET BOB PR{it}\nSHEET CYD PR{it}\n" for it in range(1, 11)]
        other = PROGRAMS.report(f"GAME 1830 2\nPLAYERS ANN BOB CYD\n{''.join(sheets_of_other)}".encode())
        self.assertEqual(10, len(other.played))
        self.assertEqual(other, PROGRAMS.report((self.club / "other" / "game.orders").read_bytes()))
        self.assertEqual([[], [], []], [self.names(it) for it in ("ten/outbox", "other/outbox", "outbox")])
        self.assertEqual(10 * len(NAMES), sum(it.startswith("round-") for it in self.names("ten/sent")))
        self.assertEqual([], self.names("inbox"))


class AtOnce(Evenings):
    def test_one_mbox_of_all_rounds(self) -> None:
        """All sheets of the ten rounds come at once, before the first is played."""
        self.post("new", "--umpire", UMPIRE, *(f"{it}={ADDRESSES[it]}" for it in NAMES))
        paths = sorted(SESSION.glob("*.sheets"))
        sheets = [it for path in paths[1:] for it in chunks(path)]
        with without(PROGRAMS, "findings", []):
            self.comes(*(mail(name, lines, at) for at, (name, lines, _) in enumerate(sheets)))
        with without(PROGRAMS, "page", "<html></html>"):
            for _ in paths[1:]:
                self.post("round")
        owed = PROGRAMS.report(b"".join(it.read_bytes() for it in paths))
        self.assertEqual(owed, PROGRAMS.report((self.game / "game.orders").read_bytes()))


if __name__ == "__main__":
    unittest.main()
