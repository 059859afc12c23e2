"""Letters handed to sendmail and to a host."""

import email
import socketserver
import threading
import unittest
from email.policy import default
from unittest import mock

from umpire_post.tests.evenings import Evenings

SENDMAIL = """#!/bin/sh
echo "$@" >> '{gone}'
case $* in *bob@*) echo 'no such user' >&2; exit 67 ;; esac
cat >> '{gone}'
"""
NAMES = ["round-001-PR1-ANN.eml", "round-001-PR1-BOB.eml", "round-001-PR1-CYD.eml"]


class Host(socketserver.StreamRequestHandler):
    """A host that takes letters, refuses those to BOB, and breaks off in one to somebody: before it has it,
    or after."""

    taken: list[bytes] = []
    breaks_at: tuple[bytes, bytes] = (b"DATA", b"cyd@")

    def handle(self) -> None:
        self.say(b"220 host")
        to = b""
        while line := self.rfile.readline().strip():
            word = line[:4].upper()
            if word == b"RCPT":
                to = line
            if (word, self.breaks_at[0]) == (b"RCPT", b"RCPT") and self.breaks_at[1] in line:
                return
            if word == b"RCPT" and b"bob@" in line:
                self.say(b"550 no such user")
            elif word == b"DATA":
                self.say(b"354 go on")
                content = b"".join(iter(self.rfile.readline, b".\r\n"))
                if self.breaks_at[0] == b"DATA" and self.breaks_at[1] in to:
                    return
                self.taken.append(content)
                self.say(b"250 taken")
            elif word == b"QUIT":
                self.say(b"221 bye")
                return
            else:
                self.say(b"250 well")

    def say(self, line: bytes) -> None:
        self.wfile.write(line + b"\r\n")


class Delivery(Evenings):
    def setUp(self) -> None:
        super().setUp()
        self.new()
        self.post("round", "--without", "ANN", "BOB", "CYD")

    def test_the_umpires_own_program(self) -> None:
        told = self.post("send")
        self.assertIn("round-001-PR1-ANN.eml: to ann@example.org\n", told)
        self.assertEqual(NAMES, self.names("outbox"))
        self.post("send", "--sent")
        self.assertEqual(([], NAMES), (self.names("outbox"), self.names("sent")))

    def test_sendmail(self) -> None:
        gone, program = self.place / "gone", self.place / "sendmail"
        program.write_text(SENDMAIL.format(gone=gone))
        program.chmod(0o755)
        self.change("club.toml", 'by = "program"', f'sendmail = ["{program}", "-x"]\nby = "sendmail"')
        told = self.post("send", status=4)
        self.assertIn("round-001-PR1-BOB.eml: not accepted for bob@example.org: sendmail ended with status 67: no such user", told)
        self.assertEqual((NAMES[1:2], [NAMES[0], NAMES[2]]), (self.names("outbox"), self.names("sent")))
        self.assertIn("-x -oi -f umpire@example.org -- ann@example.org\nFrom: umpire@example.org\n", gone.read_text())
        before = gone.read_text()
        self.post("send", status=4)
        self.assertEqual(before.count("Subject:"), gone.read_text().count("Subject:"))

    def test_a_sendmail_that_does_not_run(self) -> None:
        self.change("club.toml", 'by = "program"', 'sendmail = ["/nowhere/sendmail"]\nby = "sendmail"')
        self.assertIn("/nowhere/sendmail does not run", self.post("send", status=4))
        self.assertEqual(NAMES, self.names("outbox"))

    def send_to_host(self, word: bytes, name: bytes) -> str:
        """Sends the letters to a host that breaks off at this word of a letter to somebody."""
        Host.taken.clear()
        with mock.patch.object(Host, "breaks_at", (word, name)), socketserver.ThreadingTCPServer(("127.0.0.1", 0), Host) as host:
            threading.Thread(target=host.serve_forever, daemon=True).start()
            self.change("club.toml", 'by = "program"',
                        f'by = "smtp"\nhost = "127.0.0.1"\nport = {host.server_address[1]}\ntls = "none"')
            told = self.post("send", status=4)
            host.shutdown()
        return told

    def test_a_connection_that_breaks_leaves_one_letter_in_doubt(self) -> None:
        told = self.send_to_host(b"DATA", b"ann@")
        self.assertIn("round-001-PR1-ANN.eml: the connection broke: ", told)
        self.assertIn("2 letters left in outbox: run send again for them", told)
        self.assertEqual(["round-001-PR1-ANN.sending", *NAMES[1:]], self.names("outbox"))

    def test_a_connection_that_breaks_before_a_letter_leaves_none_in_doubt(self) -> None:
        told = self.send_to_host(b"RCPT", b"cyd@")
        self.assertIn("round-001-PR1-CYD.eml: the connection broke: ", told)
        self.assertNotIn("in doubt", told)
        self.assertEqual((NAMES[1:], NAMES[:1]), (self.names("outbox"), self.names("sent")))

    def test_a_host(self) -> None:
        told = self.send_to_host(b"DATA", b"cyd@")
        self.assertEqual(Host.taken[0].count(b"\n"), Host.taken[0].count(b"\r\n"))
        self.assertIn("round-001-PR1-BOB.eml: not accepted for bob@example.org", told)
        self.assertIn("in doubt: round-001-PR1-CYD", told)
        self.assertEqual(["round-001-PR1-BOB.eml", "round-001-PR1-CYD.sending"], self.names("outbox"))
        self.assertEqual(NAMES[:1], self.names("sent"))
        letter = email.message_from_bytes(Host.taken[0], policy=default)
        self.assertEqual(["ann@example.org", "our-game PR1: played, PR2 is next"], [letter["To"], letter["Subject"]])
        self.assertEqual(["our-game-PR1.html", "our-game-PR1.report", "our-game.orders"], [it.get_filename() for it in letter.iter_attachments()])
        self.assertIn("in doubt: round-001-PR1-CYD", self.post("status"))
        self.post("send", "--again")
        self.assertEqual(NAMES[1:], self.names("outbox"))

    def test_a_host_that_is_not_there(self) -> None:
        self.change("club.toml", 'by = "program"', 'by = "smtp"\nhost = "127.0.0.1"\nport = 1\ntls = "none"')
        self.assertIn("127.0.0.1 does not accept letters", self.post("send", status=4))
        self.assertEqual(NAMES, self.names("outbox"))

    def test_a_password_that_is_not_there(self) -> None:
        self.change("club.toml", 'by = "program"', 'by = "smtp"\nhost = "127.0.0.1"\nport = 1\nuser = "u"\npassword_file = "/nowhere"')
        self.post("send", status=4)
        self.assertEqual(NAMES, self.names("outbox"))

    def test_what_is_in_doubt_was_sent(self) -> None:
        (self.game / "outbox" / NAMES[0]).rename(self.game / "outbox" / "round-001-PR1-ANN.sending")
        self.post("send", "--sent")
        self.assertEqual((NAMES[1:], NAMES[:1]), (self.names("outbox"), self.names("sent")))

    def test_a_letter_is_what_the_desk_says(self) -> None:
        content = (self.game / "outbox" / NAMES[0]).read_bytes()
        letter = email.message_from_bytes(content, policy=default)
        texts = [it.get_content() for it in letter.walk() if not it.is_multipart()]
        at = self.game / "rounds" / "001-PR1"
        self.assertIn((at / "bulletin").read_text(), texts[0])
        orders = (self.game / "game.orders").read_text()
        self.assertEqual([(at / "page.html").read_text(), (at / "report").read_text(), orders], texts[1:])


if __name__ == "__main__":
    unittest.main()
