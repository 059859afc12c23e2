"""Each command, what it tells, and what it refuses."""

import io
import os
import re
import sys
import unittest
from pathlib import Path
from unittest import mock

from umpire_post.disk import Step, locked
from umpire_post.programs import Report
from umpire_post.sources import KEPT_OF_LARGE, MAX_BYTES
from umpire_post.tests.club import HERE
from umpire_post.tests.evenings import THREE, UMPIRE, Evenings, mail, mbox, tree
from umpire_post.tests.programs import PROGRAMS

EMPTY = [[f"SHEET {it} PR1"] for it in ("ANN", "BOB", "CYD")]


class New(Evenings):
    def test_a_folder_is_made(self) -> None:
        told = self.post("new", "--umpire", UMPIRE, *THREE)
        self.assertEqual("PR1 comes next. It awaits a sheet from each of ANN, BOB and CYD.\nThe first letters are in outbox.\n", told)
        self.assertEqual("GAME 1830 2\nPLAYERS ANN BOB CYD\n", (self.game / "game.orders").read_text())
        self.assertEqual(["club.toml", "game.orders", "inbox", "outbox", "rounds", "sent"], self.names("."))

    def test_what_the_umpire_refuses_leaves_nothing(self) -> None:
        told = self.post("new", "--umpire", UMPIRE, *THREE[:2], status=2)
        self.assertIn("F2", told)
        self.post("new", "--umpire", UMPIRE, "ANN=ann", "BOB=b@x.org", "CYD=c@x.org", status=1)
        self.post("new", "--umpire", "nobody", *THREE, status=1)
        self.assertEqual([], sorted(self.place.iterdir()))

    def test_a_folder_that_is_there_stays_as_it_is(self) -> None:
        self.game.mkdir()
        (self.game / "other").write_text("mine")
        self.assertIn("already exists", self.post("new", "--umpire", UMPIRE, *THREE, status=1))
        self.assertEqual(["other"], self.names("."))

    def test_a_game_that_has_begun(self) -> None:
        orders = self.place / "old.orders"
        orders.write_text("GAME 1830 1\nPLAYERS ANN BOB CYD\nSHEET ANN PR1\nSHEET BOB PR1\nSHEET CYD PR1")
        told = self.post("new", "--umpire", UMPIRE, "--orders", str(orders), *THREE)
        self.assertIn("PR2 comes next", told)
        self.assertIn("the file has the players ANN, BOB and CYD", self.again(orders, "ANN=a@x.org"))
        self.comes(*(mail(it, [f"SHEET {it} PR2"], 1) for it in ("ANN", "BOB", "CYD")))
        self.post("round")
        self.assertIn(b"SHEET CYD PR1\nSHEET ANN PR2\n", (self.game / "game.orders").read_bytes())

    def again(self, orders: Path, *players: str) -> str:
        here, self.game = self.game, self.place / "another"
        told = self.post("new", "--umpire", UMPIRE, "--orders", str(orders), *players, status=2)
        self.game = here
        return told

    def test_a_name_of_which_the_desk_warns(self) -> None:
        told = self.post("new", "--umpire", UMPIRE, "BO=a@x.org", "BOB=b@x.org", "CYD=c@x.org")
        self.assertIn("BO", told.splitlines()[0])


class In(Evenings):
    def setUp(self) -> None:
        super().setUp()
        self.new()

    def test_each_message_is_read_once(self) -> None:
        messages = [mail("ANN", EMPTY[0], 1), mail("BOB", EMPTY[1], 2)]
        self.comes(*messages)
        told = self.comes(*messages, mail("CYD", EMPTY[2], 3))
        self.assertEqual(["0003 cyd@example.org: CYD PR1", "2 read before"], told.splitlines())
        self.assertEqual(["0001-answer.eml", "0002-answer.eml", "0003-answer.eml"], self.names("outbox"))

    def test_many_messages_are_one_step_and_one_report(self) -> None:
        with mock.patch.object(Step, "commit", autospec=True, side_effect=Step.commit) as commit, \
                mock.patch.object(PROGRAMS, "report", side_effect=PROGRAMS.report) as report:
            self.comes(*(mail(("ANN", "BOB", "CYD")[at % 3], EMPTY[at % 3], at) for at in range(60)))
        self.assertEqual((1, 1), (commit.call_count, report.call_count))
        self.assertEqual(60, len(self.names("outbox")))

    def test_what_a_mail_program_writes_into_an_mbox_makes_no_other_message(self) -> None:
        content = mail("ANN", EMPTY[0], 1)
        self.comes(content)
        noted = content.replace(b"Subject:", b"Status: RO\nX-Mozilla-Status: 0001\nX-Keywords: a\n b\nSubject:").replace(b"\n", b"\r\n")
        self.assertEqual("1 read before\n", self.comes(noted))

    def test_the_same_words_in_two_messages_are_two(self) -> None:
        self.comes(mail("ANN", EMPTY[0], 1), mail("ANN", EMPTY[0], 2))
        self.assertEqual(2, len(self.names("outbox")))

    def test_a_maildir_a_folder_a_file_and_standard_input(self) -> None:
        maildir = self.place / "Maildir"
        for inner in ("new", "cur", "tmp"):
            (maildir / inner).mkdir(parents=True)
        (maildir / "cur" / "1700000002.M1.host:2,S").write_bytes(mail("ANN", [*EMPTY[0], "TURN"], 2))
        (maildir / "new" / "1700000001.M9.host").write_bytes(mail("ANN", EMPTY[0], 1))
        self.post("in", str(maildir))
        self.assertIn("TURN", (self.game / "inbox" / "0002.json").read_text())
        folder = self.place / "saved"
        folder.mkdir()
        (folder / "b.eml").write_bytes(mail("BOB", EMPTY[1], 3))
        self.post("in", str(folder))
        self.post("in", str(folder / "b.eml"))
        with mock.patch.object(sys, "stdin", mock.Mock(buffer=io.BytesIO(mbox([mail("CYD", EMPTY[2], 4)])))):
            self.post("in")
        with mock.patch.object(sys, "stdin", mock.Mock(buffer=io.BytesIO(b""))):
            self.post("in")
        self.assertEqual(8, len(self.names("inbox")))
        self.assertIn("there is no", self.post("in", str(self.place / "nothing"), status=1))

    def test_the_last_sheet_counts(self) -> None:
        self.comes(mail("ANN", [*EMPTY[0], "TURN", "BUY SV"], 1), mail("ANN", [*EMPTY[0], "TURN", "BUY CS"], 2))
        self.assertIn("It counts for PR1, in place of the one in message 1.", (self.game / "outbox" / "0002-answer.eml").read_text())
        self.post("round", "--without", "BOB", "CYD")
        self.assertIn("SHEET ANN PR1\nTURN\nBUY CS\nSHEET BOB PR1\nSHEET CYD PR1\n", (self.game / "game.orders").read_text())

    def test_an_answer_tells_nothing_of_anothers_sheet(self) -> None:
        """CYD's answer is the same whether BOB has ordered what makes CYD's order bad or not."""
        cyd = mail("CYD", [*EMPTY[2], "TURN", "BUY CS"], 9)
        self.comes(mail("ANN", EMPTY[0], 1), cyd)
        alone = (self.game / "outbox" / "0002-answer.eml").read_text()
        other = self.place / "other"
        self.game, here = other, self.game
        self.clock.__init__()  # type: ignore[misc]
        self.new()
        (self.game / "club.toml").write_text((here / "club.toml").read_text())
        self.comes(mail("ANN", [*EMPTY[0], "TURN", "BUY SV", "TURN", "BUY CS"], 1), cyd)
        self.assertEqual(alone, (self.game / "outbox" / "0002-answer.eml").read_text())

    def test_the_umpire_accepts_what_was_set_aside(self) -> None:
        told = self.comes(mail("ANN", EMPTY[0], 1, "ann@new.example"), status=3)
        self.assertIn("set aside: message 1 from ann@new.example (sheet): a sheet for ANN from an address that is nobody's", told)
        self.assertIn("ANN      owes", self.post("status"))
        self.post("in", "--accept", "1")
        self.assertIn("ANN      sent message 2", self.post("status"))
        self.assertIn("To: ann@example.org\n", (self.game / "outbox" / "0002-answer-ANN.eml").read_text())
        self.assertIn("there is no message 7", self.post("in", "--accept", "7", status=1))

    def test_a_message_of_many_bytes_is_kept_in_part_and_not_accepted(self) -> None:
        large = mail("ANN", [*EMPTY[0], "TURN", "#" * MAX_BYTES], 1)
        self.assertIn("bytes, and at most", self.comes(large, status=3))
        self.assertEqual(KEPT_OF_LARGE, (self.game / "inbox" / "0001.eml").stat().st_size)
        self.assertIn("is kept only in part", self.post("in", "--accept", "1", status=1))
        self.assertEqual("1 read before\n", self.comes(large))

    def test_a_sheet_after_its_round_is_set_aside(self) -> None:
        self.post("round", "--without", "ANN", "BOB", "CYD")
        told = self.comes(mail("ANN", EMPTY[0], 1), status=3)
        self.assertIn("the sheet of ANN for PR1, after PR1 was played", told)
        self.assertIn("ANN still owes a sheet for PR2.", (self.game / "outbox" / "0001-answer.eml").read_text())

    def test_a_sheet_before_its_round_is_kept_and_looked_at_again(self) -> None:
        self.comes(mail("BOB", ["SHEET BOB PR2", "TURN", "BUY DH"], 1))
        answer = (self.game / "outbox" / "0001-answer.eml").read_text()
        self.assertIn("It is kept for PR2. The round that comes next is PR1.", answer)
        self.assertIn("BOB still owes a sheet for PR1.", answer)
        self.assertIn("has sent a sheet for PR2 already", self.post("status"))
        self.post("round", "--without", "ANN", "BOB", "CYD")
        letter = (self.game / "outbox" / "round-001-PR1-BOB.eml").read_text()
        self.assertIn("Your sheet for PR2 is here already: it came in message 1.", letter)
        self.assertIn("line 2 | BUY DH | if nobody orders anything before it: A3", " ".join(letter.split()))
        self.assertNotIn("is here already", (self.game / "outbox" / "round-001-PR1-ANN.eml").read_text())

    def test_a_sheet_that_no_umpire_reads_does_not_stop_the_round(self) -> None:
        self.comes(mail("ANN", [f"SHEET ANN PR1 #{'x' * 1100}", "TURN"], 1), status=3)
        self.assertIn("No sheet begins with this line", (self.game / "outbox" / "0001-answer.eml").read_text())


class Round(Evenings):
    def setUp(self) -> None:
        super().setUp()
        self.new()

    def test_it_waits_for_those_who_owe(self) -> None:
        self.comes(mail("BOB", EMPTY[1], 1))
        before = (self.game / "game.orders").read_bytes()
        self.assertIn("ANN and CYD owe a sheet for PR1", self.post("round", status=1))
        self.assertIn("CYD owes a sheet for PR1", self.post("round", "--without", "ANN", status=1))
        self.assertIn("BOB does not owe a sheet for PR1", self.post("round", "--without", "ANN", "BOB", "CYD", status=1))
        self.assertEqual(before, (self.game / "game.orders").read_bytes())
        self.post("round", "--without", "cyd", "ANN")
        self.assertEqual(["before.orders", "bulletin", "page.html", "report", "round.json", "sheets"], self.names("rounds/001-PR1"))
        self.assertEqual(before, (self.game / "rounds" / "001-PR1" / "before.orders").read_bytes())

    def test_undo_and_who_must_be_told(self) -> None:
        self.assertIn("no round was played by post", self.post("undo", status=1))
        self.comes(mail("BOB", [*EMPTY[1], "TURN", "BUY SV"], 1))
        before = (self.game / "game.orders").read_bytes()
        self.post("round", "--without", "ANN", "CYD")
        os.rename(self.game / "outbox" / "round-001-PR1-CYD.eml", self.game / "sent" / "round-001-PR1-CYD.eml")
        told = self.post("undo")
        self.assertEqual(["PR1 was taken back, and is awaited again.", "Tell CYD: their letters of the round have been sent."], told.splitlines())
        self.assertEqual(before, (self.game / "game.orders").read_bytes())
        self.assertEqual(["0001-answer.eml"], self.names("outbox"))
        self.assertIn("BOB      sent message 1", self.post("status"))
        self.post("round", "--without", "ANN", "CYD")
        self.assertEqual(["002-PR1", "undone"], self.names("rounds"))

    def test_undo_does_not_lose_what_somebody_wrote_into_the_file(self) -> None:
        self.post("round", "--without", "ANN", "BOB", "CYD")
        with open(self.game / "game.orders", "a", encoding="utf-8") as file:
            file.write("# by hand\n")
        self.assertIn("game.orders was changed after PR1", self.post("undo", status=1))

    def test_a_file_that_is_refused(self) -> None:
        (self.game / "game.orders").write_text("GAME 1831 1\n")
        message = self.place / "message"
        message.write_bytes(mail("ANN", EMPTY[0], 1))
        for words in (["status"], ["round"], ["in", str(message)]):
            self.assertIn("F1", self.post(*words, status=2))

    def test_the_report_and_the_order_file_may_be_linked(self) -> None:
        self.change("club.toml", "# report_link = .*", 'report_link = "https://example.org/report"')
        self.change("club.toml", "# orders_link = .*", 'orders_link = "https://example.org/orders"')
        self.post("round", "--without", "ANN", "BOB", "CYD")
        letter = (self.game / "outbox" / "round-001-PR1-ANN.eml").read_text()
        self.assertIn("The report is at https://example.org/report\nThe order file is at https://example.org/orders\n", letter)
        self.assertEqual(1, letter.count("Content-Disposition: attachment"))


class Outlook(Evenings):
    """What `round` tells before it plays: ANN presides over PRR, which must buy a train that she cannot pay
    for."""

    def begin(self, round_: str) -> None:
        """Makes a game that awaits this round."""
        orders, front = self.place / "old.orders", f"SHEET ANN {round_}\n".encode()
        orders.write_bytes((HERE.parents[1] / "games" / "a-president-is-bankrupt.orders").read_bytes().partition(front)[0])
        self.new("--orders", str(orders), *THREE)

    def sell_a_train(self) -> None:
        """PRR sells its only train to BO before its turn, so that it must buy another."""
        self.comes(mail("ANN", ["SHEET ANN OR3.1", "OFFER TRAIN 2 PRR BO 1"], 1),
                   mail("BOB", ["SHEET BOB OR3.1", "COMPANY BO", "TRAIN 2 PRR 1", "BYU"], 2))

    def test_what_is_bought_and_sold_by_force(self) -> None:
        self.begin("OR3.1")
        self.sell_a_train()
        told = self.post("round", "--without", "CYD")
        self.assertIn("OR3.1 has these purchases and sales by force:\n  FORCED PRR\n  SELLS BO ANN 1 45\n  AID ANN PRR 79\n  TRAIN PRR 2 BANK 80\n", told)
        self.assertRegex(told, r"(?s)\| BYU \|.*by force.*OR3\.1 was played")

    def test_the_outlook_of_a_round_that_is_not_played_yet(self) -> None:
        self.begin("OR3.1")
        self.sell_a_train()
        self.assertIn("  AID ANN PRR 79\n", self.post("status", "--check"))

    def test_what_the_round_refuses_with_all_sheets(self) -> None:
        self.new()
        self.comes(*(mail(it, [f"SHEET {it} PR1", "TURN", "BUY SV"], at) for at, it in enumerate(("ANN", "BOB"))))
        refused = ("PR1 refuses these lines:\n  BOB 2 REFUSED A2 BUY SV\n    A2: the private is sold (ANN owns it)\n"
                   "Keep everything below FOR THE UMPIRE ALONE to yourself.\n")
        self.assertIn(refused, self.post("status", "--check"))
        self.comes(mail("CYD", ["SHEET CYD PR1"], 3))
        self.assertRegex(self.post("round"), rf"(?s)^  FOR THE UMPIRE ALONE.*{re.escape(refused)}PR1 was played")

    def test_a_round_in_which_nothing_is_found(self) -> None:
        self.new()
        self.comes(*(mail(it, [f"SHEET {it} PR1"], at) for at, it in enumerate(("ANN", "BOB", "CYD"))))
        self.assertEqual("PR1 was played. PR2 comes next. It awaits a sheet from each of ANN, BOB and CYD.\n", self.post("round"))

    def test_a_bankruptcy_of_which_no_letter_has_told(self) -> None:
        self.begin("OR5.1")
        before = tree(self.game)
        told = self.post("round", "--without", "ANN", "BOB", "CYD", status=1)
        self.assertIn("ANN goes bankrupt in OR5.1, and no letter has told ANN", told)
        self.assertEqual(before, tree(self.game))
        self.assertIn("OR5.1 was played. The game is over.", self.post("round", "--go", "--without", "ANN", "BOB", "CYD"))
        self.assertIn("our-game: the game is over.", self.post("status"))

    def test_a_bankruptcy_that_the_sheet_of_another_brings(self) -> None:
        """The answer to ANN cannot tell of it."""
        self.new()
        self.comes(*(mail(it, [f"SHEET {it} PR1"], at) for at, it in enumerate(("ANN", "BOB", "CYD"))))
        with mock.patch.object(Report, "bankrupt", lambda _: ["ANN"]):
            self.assertIn("ANN goes bankrupt in PR1, and no letter has told ANN", self.post("round", status=1))
            self.post("round", "--go")

    def test_a_bankruptcy_of_which_the_answer_has_told(self) -> None:
        self.begin("OR5.1")
        self.comes(mail("ANN", ["SHEET ANN OR5.1"], 1))
        self.assertIn("ANN IS BANKRUPT", (self.game / "outbox" / "0001-answer.eml").read_text())
        self.post("round", "--without", "BOB", "CYD")


class Waiting(Evenings):
    def test_a_message_waits_until_the_umpire_has_dealt_with_it(self) -> None:
        self.new()
        self.comes(mail("ANN", EMPTY[1], 1), mail("BOB", EMPTY[2], 2), status=3)
        self.assertEqual(2, self.post("status").count("set aside"))
        self.assertIn("2 messages wait for you: see status", self.post("round", "--without", "ANN", "BOB", "CYD"))
        self.assertEqual(2, self.post("status").count("set aside"))
        self.assertEqual("1 message left to deal with\n", self.post("in", "--done", "1"))
        self.assertIn("set aside: message 2 from bob@example.org", self.post("status"))
        self.assertIn("message 1 does not wait for you", self.post("in", "--done", "1", status=1))
        self.post("in", "--done", "2")
        self.assertNotIn("set aside", self.post("status"))


class Status(Evenings):
    def test_who_owes_since_when_and_what_was_set_aside(self) -> None:
        self.new()
        self.comes(mail("ANN", EMPTY[0], 1), mail("BOB", EMPTY[2], 2), status=3)
        self.assertEqual([
            "our-game: PR1 has been awaited since Monday 2026-11-02 18:01 (UTC)",
            "  ANN      sent message 1, read Monday 2026-11-02 18:06 (UTC)",
            "  BOB      owes a sheet",
            "  CYD      owes a sheet",
            "set aside: message 2 from bob@example.org (sheet): the sheet of CYD for PR1, from an address that is not CYD's",
            "2 letters in outbox",
            "Deal with a message by: in FOLDER --accept NUMBER, or in FOLDER --done NUMBER",
        ], self.post("status").splitlines())

    def test_what_is_for_the_umpire_alone(self) -> None:
        self.new()
        self.comes(mail("ANN", [*EMPTY[0], "TURN", "BUY SV"], 1), mail("BOB", [*EMPTY[1], "TURN", "BUY SV"], 2))
        told = self.post("status", "--check")
        self.assertIn("with all sheets: A2", told)
        self.assertIn("Keep everything below FOR THE UMPIRE ALONE to yourself.", told)
        for name in self.names("outbox"):
            self.assertNotIn("A2", (self.game / "outbox" / name).read_text())

    def test_a_reminder_a_day(self) -> None:
        self.new()
        self.comes(mail("ANN", EMPTY[0], 1))
        self.assertIn("reminders for BOB and CYD are in outbox", self.post("status", "--remind"))
        self.assertIn("nobody needs a reminder today", self.post("status", "--remind"))
        letter = (self.game / "outbox" / "reminder-PR1-BOB-2026-11-02.eml").read_text()
        self.assertIn("You still owe a sheet for PR1. It has been awaited since Monday 2026-11-02\n18:01 (UTC).\n", letter)
        self.assertIn("Subject: Re: our-game PR1: you owe a sheet\n", letter)
        self.assertIn("In-Reply-To: <new-BOB.5eed@example.org>\n", letter)

    def test_a_folder_that_is_none(self) -> None:
        self.assertIn("there is no folder", self.post("status", status=1))
        self.game.mkdir()
        self.assertIn("is not the folder of a game or a club: it has no club.toml", self.post("status", status=1))
        self.assertEqual([], self.names("."))

    def test_a_club_that_is_wrong(self) -> None:
        self.new()
        for pattern, to, why in (('umpire = "[^"]*"', 'umpire = "x"', "umpire is not an address"), ("mark = .*", "mark = 7", "no text mark"),
                                 ('addresses = .*', 'addresses = ["a@b\\nc"]', "is not valid"),
                                 (r"\[send\]", "[send]\nport = 0", "port is not a number"), ("by = .*", 'by = "pigeon"', "by must be"),
                                 ("begun = .*", 'begun = "now"', "begun is not a time"), (r"\[texts\]", "[texts", "not valid TOML")):
            kept = (self.game / "club.toml").read_text()
            self.change("club.toml", pattern, to)
            self.assertIn(why, self.post("status", status=1))
            (self.game / "club.toml").write_text(kept)

    def test_a_record_that_was_changed(self) -> None:
        self.new()
        self.comes(mail("ANN", EMPTY[0], 1))
        (self.game / "inbox" / "0001.json").write_text("{}")
        self.assertIn("0001.json was changed, and cannot be read", self.post("status", status=1))

    def test_two_commands_at_once(self) -> None:
        self.new()
        with locked(self.game):
            self.assertIn("another command works on", self.post("status", "--wait", "0", status=75))


if __name__ == "__main__":
    unittest.main()
