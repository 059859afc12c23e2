"""When sheets are due, and where it stands."""

import email
import os
import re
import unittest
from datetime import datetime, timezone
from email.policy import default

from umpire_post.deadlines import Rule, Zone, deadline
from umpire_post.errors import PostError
from umpire_post.programs import Programs
from umpire_post.tests.evenings import UMPIRE, THREE, Evenings, mail

# A desk whose word page takes a deadline.
DESK = """#!/bin/sh
case "$1 $2" in
  'page --help') echo '      --due <TEXT>  When the next sheets are due' ;;
  'page --lays') echo "<html>$*</html>" ;;
  *) exec '{program}' "$@" ;;
esac
"""
BERLIN = Zone.of("Europe/Berlin")
ALL = ("--without", "ANN", "BOB", "CYD")


def at(text: str) -> datetime:
    """Returns a time in Berlin."""
    return datetime.fromisoformat(text).replace(tzinfo=BERLIN.rule)


class Rules(unittest.TestCase):
    def test_the_next_time_is_at_least_two_days_away(self) -> None:
        rule = Rule.of("Sunday 18:00")
        for now, owed in (("2026-11-02 19:00", "2026-11-08 18:00"), ("2026-11-06 18:00", "2026-11-08 18:00"),
                          ("2026-11-06 18:01", "2026-11-15 18:00"), ("2026-11-08 18:00", "2026-11-15 18:00")):
            self.assertEqual(at(owed), rule.next(at(now), BERLIN), now)

    def test_several_times_of_a_week(self) -> None:
        rule = Rule.of("wednesday 20:00, Sunday 9:30")
        for now, owed in (("2026-11-02 18:00", "2026-11-04 20:00"), ("2026-11-03 18:00", "2026-11-08 09:30"),
                          ("2026-11-08 10:00", "2026-11-11 20:00")):
            self.assertEqual(at(owed), rule.next(at(now), BERLIN), now)

    def test_the_clock_of_the_zone_counts_when_summer_time_ends(self) -> None:
        owed = datetime(2026, 10, 25, 17, 0, tzinfo=timezone.utc)  # (18:00 in Berlin from that morning on)
        self.assertEqual(owed, Rule.of("Sunday 18:00").next(at("2026-10-19 18:00"), BERLIN).astimezone(timezone.utc))

    def test_a_date(self) -> None:
        now = at("2026-11-02 19:00")
        self.assertEqual(at("2026-11-03 08:00"), deadline("2026-11-03 8:00", now, BERLIN))
        self.assertEqual("Tuesday 2026-11-03 08:00 (Europe/Berlin)", BERLIN.told(deadline("2026-11-03 08:00", now, BERLIN)))

    def test_what_is_none(self) -> None:
        now = at("2026-11-02 19:00")
        for text, why in (("Sunday", "not a time of the week"), ("Sonntag 18:00", "not a time of the week"), ("", "not a time of the week"),
                          ("Sunday 25:00", "not a time of the week"), ("2026-02-30 18:00", "not a date and a time"),
                          ("2026-11-05", "not a date and a time"), ("2026-11-05 18:00:00+01:00", "not a date and a time"),
                          ("2026-11-02 18:59", "is past")):
            with self.assertRaisesRegex(PostError, why, msg=text):
                deadline(text, now, BERLIN)
        for name in ("Berlin", "../etc/passwd", "", "/etc/passwd"):
            with self.assertRaisesRegex(PostError, "not a time zone"):
                Zone.of(name)


class Deadlines(Evenings):
    def setUp(self) -> None:
        super().setUp()
        self.new()

    def letter(self, name: str) -> tuple[str, str]:
        """Returns the subject and the text of a letter in the outbox, each on one line."""
        letter = email.message_from_bytes((self.game / "outbox" / f"{name}.eml").read_bytes(), policy=default)
        body = letter.get_body()
        assert body is not None
        return str(letter["Subject"]), " ".join(body.get_content().split())

    def test_a_deadline_stands_wherever_the_round_does(self) -> None:
        told = self.post("due", "2026-11-06 20:00")
        due = "Friday 2026-11-06 20:00 (UTC)"
        self.assertEqual(f"PR1 is due {due}. Letters that say so are in outbox.\n", told)
        name = next(it for it in self.names("outbox") if it.startswith("due-PR1-BOB-")).removesuffix(".eml")
        self.assertEqual(f"Re: our-game PR1: due {due}", self.letter(name)[0])
        self.assertIn(f"Sheets for PR1 are now due {due}. You still owe one.", self.letter(name)[1])
        self.assertIn(f"our-game: PR1 has been awaited since Monday 2026-11-02 18:01 (UTC), and is due {due}\n", self.post("status"))
        self.comes(mail("ANN", ["hello"], 1), status=3)
        self.assertIn(f"ANN still owes a sheet for PR1, due {due}.", self.letter("0001-answer")[1])
        self.post("status", "--remind")
        self.assertEqual(f"Re: our-game PR1: you owe a sheet, due {due}", self.letter("reminder-PR1-BOB-2026-11-02")[0])

    def test_a_round_has_the_deadline_that_is_asked_for_or_that_of_the_rule(self) -> None:
        self.post("round", "--due", "2026-11-07 12:00", *ALL)
        due = "Saturday 2026-11-07 12:00 (UTC)"
        text = self.letter("round-001-PR1-ANN")[1]
        self.assertIn(f"It awaits a sheet from each of ANN, BOB and CYD, due {due}.", text)
        self.assertIn(f"NEXT PR2: sheets are owed by ANN BOB CYD, due {due} PR2 comes next.", text)
        self.change("club.toml", "due = .*", 'due = "Sunday 18:00"')
        self.post("round", *ALL)
        self.assertIn("due Sunday 2026-11-08 18:00 (UTC).", self.letter("round-002-PR2-ANN")[1])
        self.assertIn("and is due Sunday 2026-11-08 18:00 (UTC)", self.post("status"))
        self.post("undo")
        self.assertRegex(self.post("status"), rf"PR2 has been awaited since [^,]*, and is due {re.escape(due)}\n")
        self.post("undo")
        self.assertIn("PR1 has been awaited since Monday 2026-11-02 18:01 (UTC)\n", self.post("status"))

    def test_a_page_has_the_deadline_if_the_desk_takes_one(self) -> None:
        desk = self.place / "desk"
        desk.write_text(DESK.format(program=os.environ["UMPIRE_DESK"]))
        desk.chmod(0o755)
        self.programs = Programs([os.environ["UMPIRE"]], [str(desk)])
        self.post("round", "--due", "2026-11-07 12:00", *ALL)
        self.assertEqual("<html>page --lays --due Saturday 2026-11-07 12:00 (UTC)</html>\n",
                         (self.game / "rounds" / "001-PR1" / "page.html").read_text())

    def test_a_deadline_that_is_none_changes_nothing(self) -> None:
        for words in (["due", "Sunday"], ["round", "--due", "Sunday", *ALL], ["due", "2026-11-01 18:00"]):
            self.post(*words, status=1)
        self.assertEqual([], self.names("outbox"))
        self.change("club.toml", "due = .*", 'due = "on Sunday"')
        self.assertIn("is not a time of the week", self.post("status", status=1))
        self.change("club.toml", "due = .*", "")
        self.change("club.toml", "zone = .*", 'zone = "Mars/Olympus"')
        self.assertIn("is not a time zone", self.post("status", status=1))

    def test_a_new_game_may_have_a_date_for_its_first_round_or_a_rule(self) -> None:
        for name, due, told in (("dated", "2026-11-20 18:00", "Friday 2026-11-20 18:00"), ("ruled", "Sunday 18:00", "Sunday 2026-11-08 18:00")):
            self.game = self.place / name
            self.assertIn(f", due {told} (Europe/Berlin).", self.post("new", "--umpire", UMPIRE, "--zone", "Europe/Berlin", "--due", due, *THREE))
            self.assertIn(f", due {told} (Europe/Berlin).", self.letter("new-ANN")[1])
        self.game = self.place / "none"
        self.post("new", "--umpire", UMPIRE, "--due", "tomorrow", *THREE, status=1)
        self.assertFalse(self.game.exists())


if __name__ == "__main__":
    unittest.main()
