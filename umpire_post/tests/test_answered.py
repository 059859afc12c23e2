"""Which strangers are answered, and what becomes of a message on which the post itself fails."""

import unittest
from collections.abc import Callable
from datetime import timedelta
from typing import Any
from unittest import mock

from umpire_post import entries, intake
from umpire_post.folder import Record
from umpire_post.intake import OVER
from umpire_post.reading import Reader
from umpire_post.tests.evenings import MARK, UMPIRE, Clubs, Evenings, letter_of, mail, tree

SHEETS = {it: [f"SHEET {it} PR1"] for it in ("ANN", "BOB", "CYD")}
FOUR = ("ANN=ann@example.org", "BOB=bob@example.org", "CYD=cyd@example.org", "DOT=dot@example.org")
NOBODYS = "a sheet for ANN from an address that is nobody's"
FAILS = "the post fails on it (KeyError), so nothing of it counts"


def of_stranger(number: int, address: str = "", heads: str = "") -> bytes:
    """Returns a message with a sheet from an address that is nobody's."""
    return heads.encode() + mail("ZOE", SHEETS["ANN"], number, address or f"zoe{number}@elsewhere.example")


class Strangers(Evenings):
    def setUp(self) -> None:
        super().setUp()
        self.new()

    def answers(self) -> list[int]:
        """Returns the numbers of the messages that were answered."""
        return [int(it[:4]) for it in self.names("outbox") if it.endswith("-answer.eml")]

    def test_an_address_is_answered_once_a_day(self) -> None:
        told = self.comes(*(of_stranger(at, it) for at, it in enumerate(("zoe@x.example", "Zoe@X.example", "zed@x.example"))), status=3)
        self.assertEqual([1, 3], self.answers())
        self.assertIn(f"set aside: message 1 from zoe@x.example (sheet): {NOBODYS}\n", told)
        self.assertIn(f"set aside: message 2 from Zoe@X.example (sheet): {NOBODYS}, not answered\n", told)
        self.clock.time += timedelta(hours=23)
        self.comes(of_stranger(3, "zoe@x.example"), status=3)
        self.clock.time += timedelta(hours=1)
        self.comes(of_stranger(4, "zoe@x.example"), of_stranger(5, "zoe@x.example"), status=3)
        self.assertEqual([1, 3, 5], self.answers())

    def test_all_of_them_get_so_many_answers_a_day(self) -> None:
        told = self.comes(*map(of_stranger, range(500)), status=3)
        self.assertEqual(list(range(1, 11)), self.answers())
        self.assertEqual(490, told.count("not answered"))
        self.change("club.toml", "strangers = 10 .*", "strangers = 12")
        self.comes(*map(of_stranger, range(500, 505)), status=3)
        self.assertEqual([*range(1, 11), 501, 502], self.answers())
        self.change("club.toml", "strangers = 12", "strangers = 0")
        self.clock.time += timedelta(days=1)
        self.comes(of_stranger(600), status=3)
        self.assertEqual(12, len(self.answers()))

    def test_a_number_that_is_none(self) -> None:
        for text in ("-1", "1001", '"10"', "true", "1.5"):
            self.change("club.toml", "strangers = .*", f"strangers = {text}")
            self.assertIn("strangers is not a number from 0 to 1000", self.post("status", status=1))

    def test_an_address_of_a_player_is_answered_so_often_a_day(self) -> None:
        """What is over that waits for the umpire: no sheet counts of which its player is not told."""
        told = self.comes(*(mail("ANN", [*SHEETS["ANN"], "TURN"] if at % 2 else ["hello"], at) for at in range(24)), status=3)
        self.assertEqual(list(range(1, 21)), self.answers())
        self.assertIn(f"set aside: message 21 from ann@example.org (sheet): it has no sheet, not answered\n", told)
        self.assertIn(f"set aside: message 22 from ann@example.org (sheet): the sheet of ANN for PR1, {OVER}, not answered\n", told)
        self.assertIn("ANN      sent message 20", self.post("status"))
        self.comes(mail("ANN", SHEETS["ANN"], 30, "ANN@example.org"), mail("BOB", SHEETS["BOB"], 31), status=3)
        self.assertEqual(26, self.answers()[-1])
        self.post("in", "--accept", "24")
        self.assertIn("ANN      sent message 27", self.post("status"))
        self.clock.time += timedelta(days=1)
        self.comes(mail("ANN", SHEETS["ANN"], 32))
        self.assertEqual(28, self.answers()[-1])

    def test_a_flood_in_a_players_name_leaves_the_players_own_answered(self) -> None:
        """What answers a letter of the game counts apart, and so does what has the right key."""
        self.change("club.toml", r"\[players.BOB\]", '[players.BOB]\nkey = "heron-7"')
        self.comes(*(mail("ANN", ["hello"], at) for at in range(30)), *(mail("BOB", ["hello"], at) for at in range(30, 60)), status=3)
        self.assertEqual([*range(1, 21), *range(31, 51)], self.answers())
        reply = f"<new-ANN.{MARK}@example.org>"
        self.comes(letter_of("ANN", SHEETS["ANN"], 60, answers=reply), letter_of("ANN", SHEETS["ANN"], 61, answers=reply),
                   mail("BOB", ["KEY heron-7", *SHEETS["BOB"]], 62))
        self.assertEqual([61, 62, 63], self.answers()[-3:])
        told = self.comes(*(letter_of("ANN", SHEETS["ANN"], at, answers=reply) for at in range(70, 90)),
                          *(mail("BOB", SHEETS["BOB"], at) for at in range(90, 92)), status=3)
        self.assertEqual(81, self.answers()[-1])
        self.assertIn(f"set aside: message 84 from bob@example.org (sheet): the sheet of BOB for PR1, without a KEY line, not answered\n", told)

    def test_players_are_answered_whatever_strangers_send(self) -> None:
        self.comes(*map(of_stranger, range(20)), *(mail("ANN", SHEETS["ANN"], at) for at in range(20, 40)), status=3)
        self.assertEqual([*range(1, 11), *range(21, 41)], self.answers())

    def test_what_the_umpire_accepts_is_no_answer_to_a_stranger(self) -> None:
        self.change("club.toml", "strangers = 10", "strangers = 2")
        self.comes(of_stranger(1), status=3)
        self.post("in", "--accept", "1")
        self.comes(of_stranger(2), of_stranger(3), status=3)
        self.assertEqual([1, 3], self.answers())

    def test_no_program_no_list_and_not_the_umpire_is_answered(self) -> None:
        heads = ("Auto-Submitted: auto-replied\n", "Auto-Submitted: auto-generated (x)\n", "Precedence: bulk\n", "Precedence: List\n",
                 "Precedence: junk\n", "List-Id: <x.example>\n", "Return-Path: <>\n", "Return-Path:\t< >\n", "Return-Path:\n", "X-Autoreply: yes\n")
        self.comes(*(of_stranger(at, "", it) for at, it in enumerate(heads)), of_stranger(50, "MAILER-DAEMON@x.example"),
                   of_stranger(51, "postmaster@x.example"), of_stranger(52, UMPIRE.title()), status=3)
        self.assertEqual((13 * 2, []), (len(self.names("inbox")), self.answers()))

    def test_a_player_may_write_by_a_list(self) -> None:
        self.comes(b"Precedence: list\nList-Id: <x.example>\n" + mail("ANN", SHEETS["ANN"], 1))
        self.assertEqual([1], self.answers())


class StrangersOfClubs(Clubs):
    def test_the_games_of_a_club_count_together(self) -> None:
        self.post("club", "--umpire", UMPIRE, *FOUR)
        for name in ("alpha", "beta"):
            self.on(name, "new", "ANN", "BOB", "CYD")
        self.change("club.toml", "strangers = 10", "strangers = 3")
        self.comes(*(letter_of("ZOE", SHEETS["ANN"], at, subject=("alpha", "beta")[at % 2], sender=f"z{at}@x.example") for at in range(9)), status=3)
        answers = [it for game in ("alpha", "beta") for it in self.names(f"{game}/outbox") if "answer" in it]
        self.assertEqual(["0001-answer.eml", "0002-answer.eml", "0001-answer.eml"], answers)

    def test_a_player_is_asked_so_often_for_which_game_a_message_is(self) -> None:
        self.post("club", "--umpire", UMPIRE, *FOUR)
        for name in ("alpha", "beta"):
            self.on(name, "new", "ANN", "BOB", "CYD")
        told = self.comes(*(letter_of("ANN", SHEETS["ANN"], at, subject="alpha" if at < 5 else "sheet") for at in range(22)), status=3)
        answers = [it for folder in ("alpha/outbox", "outbox") for it in self.names(folder) if "answer" in it]
        self.assertEqual(20, len(answers))
        self.assertIn("(sheet): it names none of the games of its sender, alpha and beta, not answered\n", told)


class Failing(Evenings):
    """Something fails on ANN's second message. Nothing of it counts, and the others are read as if it had
    nothing in it."""

    def setUp(self) -> None:
        super().setUp()
        self.new()

    def fails(self, owner: Any, name: str, is_second: Callable[..., bool]) -> None:
        """Has a function raise what nobody expects, if it is about the second message."""
        real = getattr(owner, name)

        def call(*words: Any, **named: Any) -> Any:
            if is_second(*words, **named):
                raise KeyError("x")
            return real(*words, **named)

        self.enterContext(mock.patch.object(owner, name, call))

    def look_at(self) -> None:
        first, second = ([*SHEETS["ANN"], "TURN", f"BUY {it}"] for it in ("SV", "CS"))
        told = self.comes(mail("ANN", first, 1), mail("ANN", second, 2), mail("BOB", SHEETS["BOB"], 3), mail("ANN", ["hello"], 4), status=3)
        self.assertEqual(["0001 ann@example.org: ANN PR1", "0002 ann@example.org: no sheet",
                          f"set aside: message 2 from ann@example.org (sheet): {FAILS}", "0003 bob@example.org: BOB PR1"], told.splitlines()[:4])
        self.assertEqual(["0001-answer.eml", "0003-answer.eml", "0004-answer.eml"], self.names("outbox"))
        self.assertEqual(mail("ANN", second, 2).strip(), (self.game / "inbox" / "0002.eml").read_bytes().strip())
        self.assertIn("ANN      sent message 1", self.post("status"))
        self.assertEqual("4 read before\n", self.comes(mail("ANN", first, 1), mail("ANN", second, 2), mail("BOB", SHEETS["BOB"], 3),
                                                       mail("ANN", ["hello"], 4)))

    def test_in_the_reading(self) -> None:
        self.fails(Reader, "_judge", lambda _, reading, *__: "<2@" in reading.incoming.message_id)
        self.look_at()

    def test_in_the_answer(self) -> None:
        self.fails(entries, "answer", lambda _, reading, *__, **___: "<2@" in reading.incoming.message_id)
        self.look_at()

    def test_in_the_record(self) -> None:
        self.fails(Record, "to_json", lambda record: record.number == 2 and bool(record.sheets))
        self.look_at()

    def test_in_what_is_still_owed(self) -> None:
        self.fails(intake, "_owed", lambda reader, *_: len(reader.folder.records) == 2 and bool(reader.folder.records[1].sheets))
        self.look_at()

    def test_a_message_that_cannot_be_kept_is_not_passed_over(self) -> None:
        self.fails(Record, "to_json", lambda record: record.number == 2)
        told = self.comes(mail("ANN", SHEETS["ANN"], 1), mail("ANN", SHEETS["ANN"], 2), status=4)
        self.assertEqual(f"post: {FAILS}, and it cannot be kept\n", told)

    def test_a_message_that_is_accepted(self) -> None:
        self.comes(mail("ANN", SHEETS["ANN"], 2, "ann@x.example"), status=3)
        before = tree(self.game)
        for owner, name in ((entries, "answer"), (Reader, "_judge")):
            with self.subTest(name):
                self.fails(owner, name, lambda *_, **__: True)
                self.assertIn("the post fails on it (KeyError)", self.post("in", "--accept", "1", status=1))
                self.assertEqual(before, tree(self.game))

    def test_a_device_that_fails_is_no_fault_of_a_message(self) -> None:
        before = tree(self.game)
        for wrong, why in ((OSError(28, "No space left on device", "x"), "No space left"), (MemoryError(), "not enough memory")):
            with mock.patch.object(entries, "answer", side_effect=wrong):
                self.assertIn(why, self.comes(mail("ANN", SHEETS["ANN"], 1), status=4))
            self.assertEqual(before, tree(self.game))


class FailingInClubs(Clubs):
    def test_in_the_choice_of_a_game(self) -> None:
        self.post("club", "--umpire", UMPIRE, *FOUR)
        for name in ("alpha", "beta"):
            self.on(name, "new", "ANN", "BOB", "CYD")
        sheets = [letter_of("ANN", SHEETS["ANN"], at, subject=it) for at, it in enumerate(("alpha", "beta", "alpha"))]
        real = intake.game_of
        with mock.patch.object(intake, "game_of", lambda it, *words: {}["x"] if it.subject == "beta" else real(it, *words)):
            told = self.comes(*sheets, status=3)
        self.assertEqual(f"set aside: our-club message 1 from ann@example.org (beta): {FAILS}", told.splitlines()[2])
        self.assertEqual([4, 0, 2], [len(self.names(it)) for it in ("alpha/inbox", "beta/inbox", "inbox")])
        self.post("in", "--accept", "1", "--game", "beta")
        self.assertEqual(2, len(self.names("beta/inbox")))


if __name__ == "__main__":
    unittest.main()
