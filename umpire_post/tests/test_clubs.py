"""A club of two games with one mailbox: each message counts in one game, or in none."""

import email
import re
import unittest
from email.policy import default

from umpire_post.tests.club import HERE
from umpire_post.tests.evenings import UMPIRE, Clubs, letter_of, mail

FOUR = ("ANN=ann@example.org", "BOB=bob@example.org", "CYD=cyd@example.org", "DOT=dot@example.org")
SENDMAIL = "#!/bin/sh\nwhile [ \"$1\" != -- ]; do shift; done\n{{ echo \"to $2\"; cat; }} >> '{gone}'\n"


class TwoGames(Clubs):
    """A test with ANN, BOB and CYD in alpha, and ANN, CYD and DOT in beta."""

    def setUp(self) -> None:
        super().setUp()
        self.post("club", "--umpire", UMPIRE, "--zone", "Europe/Berlin", "--due", "Sunday 18:00", *FOUR)
        for name, players in (("alpha", ("ANN", "BOB", "CYD")), ("beta", ("ANN", "CYD", "DOT"))):
            self.on(name, "new", *players)

    def told(self, *messages: bytes, status: int = 0) -> list[str]:
        """Has `in` read messages. Returns the lines that it tells."""
        return self.comes(*messages, status=status).splitlines()

    def identity(self, game: str, letter: str) -> str:
        """Returns the Message-ID of a letter."""
        for place in ("outbox", "sent"):
            path = self.club / game / place / f"{letter}.eml"
            if path.exists():
                return str(email.message_from_bytes(path.read_bytes(), policy=default)["Message-ID"])
        raise AssertionError(letter)


class Making(TwoGames):
    def test_the_folders(self) -> None:
        self.assertEqual(["alpha", "beta", "club.toml", "inbox", "outbox", "sent"], [it for it in self.names(".") if it[0] != "."])
        self.assertEqual(["ANN", "BOB", "CYD", "DOT"], re.findall(r"players\.(\w+)", (self.club / "club.toml").read_text()))
        text = (self.club / "beta" / "club.toml").read_text()
        self.assertEqual(["ANN", "CYD", "DOT"], re.findall(r"players\.(\w+)", text))
        self.assertNotIn("@", text)
        self.assertEqual("GAME 1830 2\nPLAYERS ANN CYD DOT\n", (self.club / "beta" / "game.orders").read_text())

    def test_the_first_letters(self) -> None:
        self.assertEqual(["new-ANN.eml", "new-CYD.eml", "new-DOT.eml"], self.names("beta/outbox"))
        letter = email.message_from_bytes((self.club / "beta" / "outbox" / "new-DOT.eml").read_bytes(), policy=default)
        self.assertEqual(["dot@example.org", "beta PR1: the game begins"], [letter["To"], letter["Subject"]])
        text = letter.get_body().get_content()
        for line in ("    ANN       ann@example.org\n    CYD       cyd@example.org\n    DOT       dot@example.org\n", "SHEET DOT PR1",
                     "PR1 comes next. It awaits a sheet from each of ANN, CYD and DOT, due Sunday\n2026-11-08 18:00 (Europe/Berlin).\n"):
            self.assertIn(line, text)
        self.assertEqual(["playing.md", "rules.md"], [it.get_filename() for it in letter.iter_attachments()])

    def test_who_is_not_known_needs_an_address(self) -> None:
        self.assertIn("EVE is not NAME=ADDRESS, and the club has no EVE", self.on("gamma", "new", "ANN", "BOB", "EVE", status=1))
        self.on("gamma", "new", "ANN", "BOB", "EVE=eve@example.org")
        self.assertIn("eve@example.org", (self.club / "gamma" / "club.toml").read_text())

    def test_a_folder_with_games_becomes_a_club(self) -> None:
        self.game = self.place / "games" / "solo"
        self.game.parent.mkdir()
        self.post("new", "--umpire", UMPIRE, *FOUR[:3])
        self.game = self.game.parent
        self.post("club", "--umpire", UMPIRE, FOUR[0])
        self.assertIn("already is the folder of a club", self.post("club", "--umpire", UMPIRE, FOUR[0], status=1))
        self.assertEqual(["solo 0001 ann@example.org: ANN PR1"], self.told(mail("ANN", ["SHEET ANN PR1"], 1)))
        self.assertIn("solo: PR1 has been awaited", self.post("status"))


class Routing(TwoGames):
    def test_by_the_letter_that_it_answers(self) -> None:
        answers = self.identity("beta", "new-ANN")
        told = self.told(letter_of("ANN", ["SHEET ANN PR1"], 1, subject="Re: alpha", to="umpire+alpha@example.org", answers=answers))
        self.assertEqual(["beta 0001 ann@example.org: ANN PR1"], told)

    def test_by_the_address_with_a_tag(self) -> None:
        told = self.told(letter_of("ANN", ["SHEET ANN PR1"], 1, subject="alpha", to="Umpire+Beta@Example.org"))
        self.assertEqual(["beta 0001 ann@example.org: ANN PR1"], told)

    def test_by_the_subject(self) -> None:
        subjects = ("Re: alpha PR1", "ALPHA", "[alpha] my sheet", "my sheet for alpha.", "alpha: PR1")
        told = self.told(*(letter_of("ANN", ["SHEET ANN PR1"], at, subject=it) for at, it in enumerate(subjects)))
        self.assertEqual([f"alpha {at + 1:04} ann@example.org: ANN PR1" for at in range(len(subjects))], told)

    def test_by_the_only_game_of_its_sender(self) -> None:
        told = self.told(mail("BOB", ["SHEET BOB PR1"], 1), mail("DOT", ["SHEET DOT PR1"], 2))
        self.assertEqual(["alpha 0001 bob@example.org: BOB PR1", "beta 0001 dot@example.org: DOT PR1"], told)

    def test_a_message_for_no_game_is_set_aside_and_asked_back(self) -> None:
        told = self.told(mail("ANN", ["SHEET ANN PR1"], 1), letter_of("ANN", ["SHEET ANN PR1"], 2, subject="alphabet, alpha-2 and beta.1"),
                         letter_of("ANN", ["SHEET ANN PR1"], 3, subject="alpha and beta"), status=3)
        why = "it names none of the games of its sender, alpha and beta"
        self.assertIn(f"set aside: our-club message 1 from ann@example.org (sheet): {why}", told)
        self.assertEqual(3, sum(why in it for it in told))
        letter = email.message_from_bytes((self.club / "outbox" / "0001-answer.eml").read_bytes(), policy=default)
        self.assertEqual(["ann@example.org", "Re: our-club: which game is your message for?", "<1@example.org>"],
                         [letter["To"], letter["Subject"], letter["In-Reply-To"]])
        self.assertIn("You play in alpha and beta, and your message names none of them.", letter.get_content())
        self.assertIn("umpire+alpha@example.org", letter.get_content())
        self.assertIn("ANN      owes a sheet", self.post("status"))

    def test_the_umpire_says_which_game(self) -> None:
        self.told(mail("ANN", ["SHEET ANN PR1"], 1), status=3)
        self.assertIn("set aside: our-club message 1", self.post("status"))
        self.assertIn("say with --game", self.post("in", "--accept", "1", status=1))
        self.assertIn("the club has no game gamma", self.post("in", "--accept", "1", "--game", "gamma", status=1))
        self.assertEqual("beta 0001 ann@example.org: ANN PR1\n", self.post("in", "--accept", "1", "--game", "beta"))
        self.assertNotIn("set aside", self.post("status"))

    def test_a_sheet_counts_in_one_game(self) -> None:
        self.told(letter_of("CYD", ["SHEET CYD PR1", "TURN", "BUY SV"], 1, subject="alpha"), mail("BOB", ["SHEET BOB PR1"], 2))
        self.on("alpha", "round", "--without", "ANN")
        self.on("beta", "round", "--without", "ANN", "CYD", "DOT")
        self.assertIn("BUY SV", (self.club / "alpha" / "game.orders").read_text())
        self.assertEqual("GAME 1830 2\nPLAYERS ANN CYD DOT\nSHEET ANN PR1\nSHEET CYD PR1\nSHEET DOT PR1\n",
                         (self.club / "beta" / "game.orders").read_text())

    def test_a_game_that_is_over_takes_no_message_from_the_other(self) -> None:
        with self.at("alpha"):
            (self.game / "game.orders").write_bytes((HERE.parents[1] / "games" / "a-president-is-bankrupt.orders").read_bytes())
        self.assertEqual(["beta 0001 ann@example.org: ANN PR1"], self.told(mail("ANN", ["SHEET ANN PR1"], 1)))

    def test_strangers_and_programs(self) -> None:
        away = mail("ANN", ["I am away."], 1).replace(b"Subject:", b"Auto-Submitted: auto-replied\nSubject:")
        told = self.told(away, mail("ZOE", ["SHEET ANN PR1"], 2, "zoe@x.example"), letter_of("ZOE", ["SHEET ANN PR1"], 3, subject="alpha",
                         sender="zoe@x.example"), status=3)
        self.assertIn("set aside: our-club message 1 from ann@example.org (sheet): an automatic answer, such as a notice of absence", told)
        self.assertIn("set aside: our-club message 2 from zoe@x.example (sheet): it is from nobody of the club, and belongs to no game", told)
        self.assertIn("set aside: alpha message 1 from zoe@x.example (alpha): a sheet for ANN from an address that is nobody's", told)
        self.assertEqual([], self.names("outbox"))
        self.assertIn("0001-answer.eml", self.names("alpha/outbox"))

    def test_a_game_may_have_another_address_and_a_key(self) -> None:
        with self.at("beta"):
            self.change("club.toml", r"\[players.ANN\]", '[players.ANN]\naddresses = ["ann@work.example"]\nkey = "heron-7"')
        told = self.told(mail("ANN", ["SHEET ANN PR1"], 1), mail("ANN", ["KEY heron-7", "SHEET ANN PR1"], 2, "ann@work.example"))
        self.assertEqual(["alpha 0001 ann@example.org: ANN PR1", "beta 0001 ann@work.example: ANN PR1"], told)


class Commands(TwoGames):
    def test_one_mailbox_is_read_once_for_all_games(self) -> None:
        messages = [mail("BOB", ["SHEET BOB PR1"], 1), mail("DOT", ["SHEET DOT PR1"], 2), mail("ANN", ["hello"], 3)]
        self.comes(*messages, status=3)
        self.assertEqual(["3 read before"], self.told(*messages))
        self.assertEqual([2, 2, 2], [len(self.names(it)) for it in ("alpha/inbox", "beta/inbox", "inbox")])
        with self.at("alpha"):
            self.assertIn("alpha is one of several games with one mailbox", self.comes(*messages, status=1))

    def test_status_of_all_games_and_of_one(self) -> None:
        self.told(mail("BOB", ["SHEET BOB PR1"], 1), mail("ANN", ["hello"], 2), status=3)
        self.assertEqual([
            "alpha: PR1 has been awaited since Monday 2026-11-02 19:02 (Europe/Berlin), and is due Sunday 2026-11-08 18:00 (Europe/Berlin)",
            "  ANN      owes a sheet",
            "  BOB      sent message 1, read Monday 2026-11-02 19:12 (Europe/Berlin)",
            "  CYD      owes a sheet",
            "4 letters in alpha outbox",
            "beta: PR1 has been awaited since Monday 2026-11-02 19:07 (Europe/Berlin), and is due Sunday 2026-11-08 18:00 (Europe/Berlin)",
            "  ANN      owes a sheet",
            "  CYD      owes a sheet",
            "  DOT      owes a sheet",
            "3 letters in beta outbox",
            "set aside: our-club message 1 from ann@example.org (sheet): it names none of the games of its sender, alpha and beta",
            "1 letter in our-club outbox",
            "Deal with a message by: in FOLDER --accept NUMBER, or in FOLDER --done NUMBER",
        ], self.post("status").splitlines())
        self.assertEqual(5, len(self.on("alpha", "status").splitlines()))

    def test_reminders_for_all_games(self) -> None:
        self.post("status", "--remind")
        self.assertEqual(3, sum(it.startswith("reminder-PR1-") for it in self.names("alpha/outbox")))
        self.assertEqual(3, sum(it.startswith("reminder-PR1-") for it in self.names("beta/outbox")))
        letter = email.message_from_bytes((self.club / "beta" / "outbox" / "reminder-PR1-DOT-2026-11-02.eml").read_bytes(), policy=default)
        self.assertEqual("Re: beta PR1: you owe a sheet, due Sunday 2026-11-08 18:00 (Europe/Berlin)", letter["Subject"])
        self.assertEqual(self.identity("beta", "new-DOT"), letter["In-Reply-To"])

    def test_a_round_needs_a_game(self) -> None:
        for word in (["round"], ["undo"], ["due", "Sunday 18:00"]):
            self.assertIn(f"{word[0]} needs the folder of a game", self.post(*word, status=1))

    def test_send_sends_the_letters_of_all_games(self) -> None:
        gone, program = self.place / "gone", self.place / "sendmail"
        program.write_text(SENDMAIL.format(gone=gone))
        program.chmod(0o755)
        self.change("club.toml", 'by = "program"', f'sendmail = ["{program}"]\nby = "sendmail"')
        self.told(mail("ANN", ["hello"], 1), status=3)
        self.post("send")
        self.assertEqual(7, gone.read_text().count("\nSubject: "))
        self.assertEqual([[], [], []], [self.names(it) for it in ("alpha/outbox", "beta/outbox", "outbox")])

    def test_a_file_that_is_refused_is_that_of_a_game(self) -> None:
        (self.club / "beta" / "game.orders").write_text("GAME 1831 1\n")
        self.assertIn("post: beta: FILE REFUSED F1", self.comes(mail("DOT", ["SHEET DOT PR1"], 1), status=2))
        self.assertEqual(["alpha 0001 bob@example.org: BOB PR1"], self.told(mail("BOB", ["SHEET BOB PR1"], 2)))

    def test_a_step_of_one_game_is_finished_by_a_command_on_the_other(self) -> None:
        work = self.club / ".step-undo,alpha,PR1"
        (work / "files" / "alpha").mkdir(parents=True)
        (work / "files" / "alpha" / "note").write_text("done")
        told = self.on("beta", "status")
        self.assertIn("The undo of PR1 of alpha that was interrupted is finished now", told)
        self.assertEqual("done", (self.club / "alpha" / "note").read_text())


if __name__ == "__main__":
    unittest.main()
