"""Programs, hosts, disks and people that fail: each command ends with its status and a sentence, and
nothing has changed."""

import email
import multiprocessing
import os
import runpy
import subprocess
import time
import unittest
from email.policy import default
from pathlib import Path
from unittest import mock

from umpire_post.disk import locked
from umpire_post.programs import Programs
from umpire_post.tests.club import HERE
from umpire_post.tests.evenings import THREE, UMPIRE, Evenings, mail, tree

POST = HERE.parents[1] / "post"
EMPTY = [[f"SHEET {it} PR1"] for it in ("ANN", "BOB", "CYD")]
ALL = ("--without", "ANN", "BOB", "CYD")
# A program that hands on what another one writes, changed by a command of the shell if it is asked this word.
CHANGED = """#!/bin/sh
case " $* " in *" {word} "*) "{program}" "$@" > "$0.out"; status=$?; {change} < "$0.out"; exit $status ;; *) exec "{program}" "$@" ;; esac
"""


def held(top: Path, seconds: float, is_taken: object) -> None:
    """Takes a folder for some time, as another command would."""
    with locked(top):
        is_taken.set()  # type: ignore[attr-defined]
        time.sleep(seconds)


class Faulty(Evenings):
    def setUp(self) -> None:
        super().setUp()
        self.new()

    def change_program(self, word: str, change: str) -> None:
        """Has a program write something else if it is asked this word."""
        paths = []
        for name in ("UMPIRE", "UMPIRE_DESK"):
            path = self.place / name
            path.write_text(CHANGED.format(word=word, program=os.environ[name], change=change))
            path.chmod(0o755)
            paths.append(str(path))
        self.programs = Programs(paths[:1], paths[1:])

    def fails(self, *words: str) -> str:
        """Runs a command that fails, and changes nothing."""
        before = tree(self.game)
        told = self.post(*words, status=4)
        self.assertEqual(before, tree(self.game))
        return told


class Halves(Faulty):
    """Programs that end with status 0, and have not written all."""

    def message(self) -> str:
        path = self.place / "message"
        path.write_bytes(mail("ANN", [*EMPTY[0], "TURN", "BYU SV"], 1))
        return str(path)

    def test_a_report_without_its_end(self) -> None:
        for cut in (1, 2, 8, 20, 60):
            self.change_program("report", f"head -c -{cut}")
            for words in (["status"], ["round", *ALL], ["in", self.message()]):
                self.assertIn("the report of the umpire has no end", self.fails(*words))

    def test_a_report_of_which_nothing_is_there(self) -> None:
        self.change_program("report", "true")
        self.assertIn("the report of the umpire has no end", self.fails("round", *ALL))

    def test_findings_without_their_end(self) -> None:
        for cut in (1, 3, 20):
            self.change_program("check", f"head -c -{cut}")
            self.assertIn("what desk check says has no end", self.fails("in", self.message()))

    def test_findings_of_which_nothing_is_there(self) -> None:
        self.change_program("check", "true")
        self.assertIn("what desk check says has no end", self.fails("in", self.message()))

    def test_a_round_without_its_end(self) -> None:
        for cut in (1, 4, 40):
            self.change_program("round", f"head -c -{cut}")
            for words in (["round", *ALL], ["status", "--check"]):
                self.assertIn("the round of the desk has no end", self.fails(*words))

    def test_a_bulletin_without_its_end(self) -> None:
        for cut in (1, 4, 200):
            self.change_program("bulletin", f"head -c -{cut}")
            self.assertIn("the bulletin of the desk has no end", self.fails("round", *ALL))

    def test_a_page_without_its_end(self) -> None:
        for cut in (1, 7, 5000):
            self.change_program("page", f"head -c -{cut}")
            self.assertIn("the page of the desk has no end", self.fails("round", *ALL))


class Hanging(Faulty):
    def test_a_program_that_does_not_end_is_ended(self) -> None:
        self.change_program("page", "sleep 1000; echo")
        self.change("club.toml", "seconds = .*", "seconds = 2")
        began = time.monotonic()
        self.assertIn("did not end within 2 seconds", self.fails("round", *ALL))
        self.assertLess(time.monotonic() - began, 60)

    def test_a_program_that_is_killed(self) -> None:
        self.change_program("bulletin", "kill -9 $$")
        self.assertIn("failed with status -9", self.fails("round", *ALL))

    def test_a_program_that_is_not_there(self) -> None:
        self.programs = Programs(["/nowhere/umpire"], ["/nowhere/desk"])
        self.assertIn("/nowhere/umpire does not run", self.fails("status"))


class Locked(Faulty):
    def other(self, seconds: float) -> multiprocessing.Process:
        is_taken = multiprocessing.Event()
        process = multiprocessing.Process(target=held, args=(self.game, seconds, is_taken))
        process.start()
        self.addCleanup(process.join)
        is_taken.wait()
        return process

    def test_a_command_waits_for_another(self) -> None:
        self.other(1)
        self.post("status", "--wait", "30")

    def test_a_command_that_waited_long_enough_is_to_be_tried_again(self) -> None:
        process = self.other(20)
        self.assertIn("try again later", self.post("status", "--wait", "0.2", status=75))
        process.terminate()

    def test_send_lets_another_command_in_between_two_letters(self) -> None:
        self.post("round", *ALL)
        sendmail = self.place / "sendmail"
        sendmail.write_text("#!/bin/sh\nsleep 0.5\ncat > /dev/null\n")
        sendmail.chmod(0o755)
        self.change("club.toml", 'by = "program"', f'sendmail = ["{sendmail}"]\nby = "sendmail"')
        process = multiprocessing.Process(target=self.post, args=("send",))
        process.start()
        time.sleep(0.2)
        self.post("status", "--wait", "30")
        self.assertNotEqual([], self.names("outbox"))
        process.join()
        self.assertEqual(0, process.exitcode)
        self.assertEqual([], self.names("outbox"))


class Interrupted(Faulty):
    """A step that was interrupted after the moment at which it was done, and is finished by another
    command."""

    def interrupt(self, words: list[str]) -> None:
        """Runs a command that ends at that moment."""
        real = os.replace
        os.replace = self.end  # type: ignore[assignment]
        try:
            with self.assertRaises(KeyboardInterrupt):
                self.post(*words)
        finally:
            os.replace = real

    def end(self, *_: object) -> None:
        raise KeyboardInterrupt

    def test_another_command_says_that_it_finished_it(self) -> None:
        self.interrupt(["round", *ALL])
        told = self.post("status")
        self.assertIn("The round of PR1 of our-game that was interrupted is finished now", told)
        self.assertIn("PR2 has been awaited", told)
        self.assertIn("PR1 is not the round that comes next: that is PR2", self.post("round", "PR1", *ALL, status=1))
        self.post("round", *ALL)
        self.interrupt(["undo"])
        self.assertIn("The undo of PR2 of our-game that was interrupted is finished now", self.post("status"))
        self.assertIn("PR2 is not the last round that was played: that is PR1", self.post("undo", "PR2", status=1))
        self.assertEqual(["001-PR1", "undone"], self.names("rounds"))

    def test_the_same_command_only_finishes_it(self) -> None:
        self.interrupt(["round", *ALL])
        self.assertIn("The round of PR1 of our-game that was interrupted is finished now", self.post("round", *ALL))
        self.assertEqual(["001-PR1"], self.names("rounds"))


class Doubts(Faulty):
    def test_undo_takes_letters_in_doubt_along(self) -> None:
        self.post("round", *ALL)
        letter = self.game / "outbox" / "round-001-PR1-BOB.eml"
        content = letter.read_bytes()
        letter.rename(letter.with_suffix(".sending"))
        told = self.post("undo")
        self.assertIn("Tell BOB: their letters of the round were being handed over when send was interrupted.", told)
        self.assertEqual([], self.names("outbox"))
        self.assertEqual(content, (self.game / "rounds" / "undone" / "001-PR1" / "round-001-PR1-BOB.eml").read_bytes())


class Slips(Faulty):
    """What people type or have, and no trace of the program's inside."""

    def test_a_message_or_a_player_that_is_not_there(self) -> None:
        for words in (["--accept", "7"], ["--accept", "-1"], ["--done", "7"]):
            self.assertIn("message", self.post("in", *words, status=1))
        self.comes(mail("ZOE", ["SHEET ZOE PR1"], 1), status=3)
        self.post("in", "--accept", "1", status=3)
        self.assertIn("was accepted before", self.post("in", "--accept", "1", status=1))

    def test_a_club_that_is_not_utf_8(self) -> None:
        (self.game / "club.toml").write_bytes((self.game / "club.toml").read_bytes() + "# Müller\n".encode("latin-1"))
        self.assertIn("is not UTF-8: see line", self.post("status", status=1))

    def test_a_club_without_a_player(self) -> None:
        self.change("club.toml", r"\[players.BOB\]\n.*\n", "")
        for words in (["status"], ["round", *ALL], ["status", "--remind"], ["due", "Sunday 18:00"]):
            self.assertIn("club.toml of our-game has no BOB, who plays", self.post(*words, status=1))
        self.change("club.toml", r"\[players.*\n.*\n", "")
        self.assertIn("it has no players", self.post("status", status=1))

    def test_a_file_that_was_changed(self) -> None:
        self.post("due", "2026-11-20 18:00")
        (self.game / "due.json").write_text("{")
        self.assertIn("due.json was changed, and cannot be read", self.post("status", status=1))

    def test_letters_have_only_bytes_of_ascii(self) -> None:
        self.change("club.toml", "greeting = .*", 'greeting = "Grüße, {name}!"')
        self.comes(mail("ANN", [*EMPTY[0], "# grün 3 €"], 1))
        self.post("round", "--without", "BOB", "CYD")
        for path in (self.game / "outbox").iterdir():
            self.assertTrue(path.read_bytes().isascii(), path.name)
        letter = email.message_from_bytes((self.game / "outbox" / "0001-answer.eml").read_bytes(), policy=default)
        self.assertIn("Grüße, ANN!", letter.get_content())
        self.assertIn("grün 3 €", letter.get_content())
        letter = email.message_from_bytes((self.game / "outbox" / "round-001-PR1-ANN.eml").read_bytes(), policy=default)
        self.assertEqual({"utf-8"}, {it.get_content_charset() for it in letter.walk() if not it.is_multipart()})


class Streams(Evenings):
    """The program as it is called, with streams that are closed or full."""

    def run_post(self, command: str, environment: dict[str, str] | None = None) -> tuple[int, str]:
        """Runs `./post` by a line of shell, in which $post and $game stand for it and for the folder. Returns
        its status and its standard error."""
        own = {**os.environ, "post": str(POST), "game": str(self.game), **(environment or {})}
        done = subprocess.run(["sh", "-c", command], env=own, capture_output=True, check=False)
        said = done.stderr.decode()
        self.assertNotIn("Traceback", said)
        self.assertNotIn("Exception", said)
        return done.returncode, said

    def test_streams(self) -> None:
        self.new()
        self.assertEqual((4, "post: standard input is closed\n"), self.run_post('"$post" in "$game" <&-'))
        self.assertEqual(0, self.run_post('"$post" status "$game" >&-')[0])
        status, said = self.run_post('"$post" status "$game" > /dev/full')
        self.assertEqual((4, "post: a file, standard input or standard output: No space left on device\n"), (status, said))

    def test_a_file_that_cannot_be_written_is_named(self) -> None:
        self.new()
        path = self.place / "message"
        path.write_bytes(mail("ANN", [*EMPTY[0], *["# a remark"] * 1000], 1))
        before = tree(self.game)
        status, said = self.run_post(f'ulimit -f 8; "$post" in "$game" "{path}"')
        self.assertEqual((4, f"post: {self.game.resolve()}/.step.new/files/inbox/0001.eml: File too large\n"), (status, said))
        self.assertEqual(before, {name: it for name, it in tree(self.game).items() if not name.startswith(".step.new")})

    def test_a_command_that_the_umpire_interrupts(self) -> None:
        with mock.patch("umpire_post.commands.main", side_effect=KeyboardInterrupt), self.assertRaises(SystemExit) as ended:
            runpy.run_path(str(POST))
        self.assertEqual(130, ended.exception.code)

    def test_names_that_the_terminal_cannot_print(self) -> None:
        self.game = self.place / os.fsdecode(b"Z\xfcrich \xe2\x82\xac")
        for environment in ({"PYTHONIOENCODING": "ascii"}, {"LC_ALL": "C", "PYTHONUTF8": "0", "PYTHONCOERCECLOCALE": "0"}):
            status, said = self.run_post(f'"$post" new "$game" --umpire {UMPIRE} {" ".join(THREE)}', environment)
            self.assertEqual((0, ""), (status, said))
            self.assertEqual(0, self.run_post('"$post" status "$game"; "$post" send "$game"', environment)[0])
            self.run_post('rm -r "$game"')


if __name__ == "__main__":
    unittest.main()
