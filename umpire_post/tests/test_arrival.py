"""The newest sheet counts: when a message arrived, by what it is known, and what is said of a message
that changes no sheet."""

import io
import json
import os
import tempfile
import time
import unittest
from concurrent.futures import ThreadPoolExecutor
from pathlib import Path
from unittest import mock

from umpire_post.answers import answer
from umpire_post.folder import Record
from umpire_post.prose import ORDERS
from umpire_post.reading import Reading, mended_round
from umpire_post.sources import KEPT_OF_LARGE, MAX_BYTES, Raw, messages
from umpire_post.tests.club import CLUB, Clock, Inbox
from umpire_post.tests.evenings import Evenings, mail, mbox

NOTHING = io.BytesIO()
# A day later each time: Maildir names as servers and delivery programs write them, the oldest first.
IN_ORDER = ("1700000000.M99000P77.host", "1700000000.M150000P77.host:2,S", "1700000000.M150000P77Q9.host", "1700000000.M150000P77Q10.host",
            "1700000001.77_9.host", "1700000001.77_10.host:2,RS", "1700000002_8.77.host,U=9", "1700000002_11.77.host,U=10",
            "1700000003.V801I2M9P1.host,S=12", "1700000003.V801I1M10P1.host", "17000000040.x.host")


def with_body(body: str, heads: str = "") -> bytes:
    return f"From: ann@example.org\n{heads}Message-ID: <1@example.org>\n\n{body}".encode()


class Arrival(unittest.TestCase):
    def setUp(self) -> None:
        folder = tempfile.TemporaryDirectory()
        self.addCleanup(folder.cleanup)
        self.place = Path(folder.name)

    def bodies(self, source: Path) -> list[str]:
        return [it.content.partition(b"\n\n")[2].decode().strip() for it in messages(source, NOTHING)]

    def moments(self, source: Path) -> list[tuple[int, int, int]]:
        return [it.arrived for it in messages(source, NOTHING)]

    def maildir(self, *names: str) -> Path:
        path = self.place / "Maildir"
        for at, inner in enumerate(("cur", "new", "tmp")):
            (path / inner).mkdir(parents=True)
            for number, name in enumerate(names):
                if number % 2 == at:
                    (path / inner / name).write_bytes(with_body(name))
        return path

    def test_names_of_a_maildir_are_compared_by_number(self) -> None:
        path = self.maildir(*reversed(IN_ORDER))
        self.assertEqual(list(IN_ORDER), self.bodies(path))
        moments = self.moments(path)
        self.assertEqual(sorted(moments), moments)
        self.assertEqual([(1700000000, 99000, 0), (1700000000, 150000, 0), (1700000000, 150000, 9), (1700000000, 150000, 10)], moments[:4])
        self.assertEqual([(1700000001, 0, 9), (1700000001, 0, 10), (1700000002, 0, 8), (1700000002, 0, 11)], moments[4:8])

    def test_a_name_without_a_time_has_that_of_its_file(self) -> None:
        path = self.maildir("x")
        os.utime(path / "cur" / "x", (1_600_000_000, 1_600_000_000))
        self.assertEqual([(1_600_000_000, 0, 0)], self.moments(path))

    def test_the_order_of_an_mbox_wins(self) -> None:
        path = self.place / "mbox"
        lines = ("From a@b Mon Nov  2 18:00:00 2026", "From a@b Mon Nov  2 17:00:00 2026", "From a@b nonsense", "From a@b Tue Nov  3 18:00:00 2099", "From ")
        path.write_bytes(b"".join(f"{line}\n".encode() + with_body(str(at)) + b"\n\n" for at, line in enumerate(lines)))
        os.utime(path, (1_800_000_000, 1_800_000_000))
        monday = int(time.mktime((2026, 11, 2, 18, 0, 0, 0, 0, -1)))
        self.assertEqual(["0", "1", "2", "3", "4"], self.bodies(path))
        self.assertEqual([(monday, 0, 0), (monday, 0, 1), (monday, 0, 2), (1_800_000_000, 0, 3), (1_800_000_000, 0, 4)], self.moments(path))

    def test_an_mbox_may_begin_with_empty_lines(self) -> None:
        path = self.place / "mbox"
        path.write_bytes(b"\n\r\n" + mbox([with_body("a"), with_body("b")]))
        self.assertEqual(["a", "b"], self.bodies(path))

    def test_a_folder_of_files_has_the_order_of_its_names(self) -> None:
        for name, seconds in (("10.eml", 1_600_000_000), ("9.eml", 1_700_000_000), ("11.eml", 1_800_000_000)):
            (self.place / name).write_bytes(with_body(name))
            os.utime(self.place / name, (seconds, seconds))
        self.assertEqual(["9.eml", "10.eml", "11.eml"], self.bodies(self.place))
        self.assertEqual([(1_700_000_000, 0, 0), (1_700_000_000, 0, 1), (1_800_000_000, 0, 2)], self.moments(self.place))

    def test_what_is_no_message_is_left_out(self) -> None:
        """A folder, a pipe, a link to nothing, and a file that is moved while the others are read."""
        path = self.maildir("1700000000.a.host", "1700000001.b.host", "1700000002.c.host", "1700000003.d.host", "x", "y")
        (path / "cur" / "1700000004.folder").mkdir()
        os.mkfifo(path / "cur" / "1700000005.pipe")
        (path / "new" / "1700000006.link").symlink_to("nowhere")
        (path / "new" / ".hidden").write_bytes(with_body("hidden"))
        found = messages(path, NOTHING)
        self.assertIn(b"1700000000.a", next(found).content)
        (path / "new" / "1700000001.b.host").unlink()
        self.assertEqual(["1700000002.c.host", "1700000003.d.host", "x", "y"], [it.content.partition(b"\n\n")[2].decode() for it in found])

    def test_an_empty_mailbox_has_no_message_and_an_empty_file_of_a_maildir_is_one(self) -> None:
        (self.place / "mbox").touch()
        (self.place / "blank").write_bytes(b"\n\n")
        path = self.maildir("1700000000.a.host")
        (path / "cur" / "1700000000.a.host").write_bytes(b"")
        self.assertEqual(([], [""], [""]), tuple(self.bodies(it) for it in (self.place / "mbox", self.place / "blank", path)))

    def test_a_file_that_may_not_be_read_is_named(self) -> None:
        path = self.maildir("1700000000.a.host")
        with mock.patch("builtins.open", side_effect=PermissionError(13, "Permission denied", str(path))):
            self.assertRaisesRegex(PermissionError, "Maildir", self.bodies, path)

    def test_a_pipe_is_read_like_standard_input(self) -> None:
        pipe = self.place / "pipe"
        os.mkfifo(pipe)
        with ThreadPoolExecutor() as threads:
            written = threads.submit(pipe.write_bytes, mbox([with_body("a"), with_body("b")]))
            self.assertEqual(["a", "b"], self.bodies(pipe))
            written.result()

    def test_standard_input_arrives_now(self) -> None:
        before = int(time.time())
        found = [it.arrived for it in messages(None, io.BytesIO(mbox([with_body("a"), with_body("b")])))]
        self.assertTrue(before <= found[0][0] <= time.time())
        self.assertEqual([0, 1], [it[2] for it in found])


class Known(unittest.TestCase):
    def digest(self, content: bytes) -> str:
        return Raw(content, len(content)).digest

    def test_heads_that_are_added_later_make_no_other_message(self) -> None:
        owed = self.digest(with_body("SHEET ANN SR2\n"))
        for heads in ("X-UIDL: 7\n", "X-Spam-Status: No, score=-1\n\ttests=x\n", "Return-Path: <ann@example.org>\n", "Received: from x\n by y\n",
                      "Delivered-To: u@example.org\nStatus: RO\n", "Date: Mon, 2 Nov 2026 18:00:00 +0000\n", "Subject: x\n"):
            self.assertEqual(owed, self.digest(with_body("SHEET ANN SR2\n", heads)), heads)
            self.assertEqual(owed, self.digest(heads.encode() + with_body("SHEET ANN SR2\n")), heads)
        self.assertEqual(owed, self.digest(with_body("SHEET ANN SR2\n\n\n").replace(b"\n", b"\r\n")))

    def test_another_sender_message_id_or_body_make_another_message(self) -> None:
        content = with_body("SHEET ANN SR2\n")
        others = (content + b"TURN\n", content.replace(b"<1@", b"<2@"), content.replace(b"From: ann", b"From: bob"),
                  with_body("SHEET ANN SR2\n", "From: bob@example.org\n"))
        self.assertEqual(5, len({*map(self.digest, others), self.digest(content)}))

    def test_without_a_message_id_the_date_tells_messages_apart(self) -> None:
        first, second = (f"From: ann@example.org\nDate: Mon, 2 Nov 2026 18:0{at}:00 +0000\n\nx".encode() for at in (0, 1))
        self.assertNotEqual(self.digest(first), self.digest(second))
        self.assertEqual(self.digest(first), self.digest(b"X-UIDL: 1\n" + first))

    def test_a_message_of_many_bytes_is_known_by_its_front(self) -> None:
        content = with_body("x" * MAX_BYTES)
        raws = [Raw(it[:KEPT_OF_LARGE], len(it)) for it in (content, b"X-UIDL: 7\n" + content, content.replace(b"<1@", b"<2@"))]
        self.assertEqual(raws[0].digest, raws[1].digest)
        self.assertNotEqual(raws[0].digest, raws[2].digest)

    def test_records_of_an_earlier_version_are_recognised(self) -> None:
        content = with_body("SHEET ANN SR2\n", "X-Spam: no\n").rstrip(b"\n")
        kept = {"230a142bb0459931061f036b7d0fde8b77779e07b7fc71ed97fe41c6a031942e"}  # (as an earlier version wrote it)
        for came in (content, content + b"\n\n", content.replace(b"From", b"Status: RO\nFrom", 1), content.replace(b"\n", b"\r\n")):
            self.assertTrue(Raw(came, len(came)).is_known(kept))
        self.assertFalse(Raw(content + b"x", len(content) + 1).is_known(kept))
        old = {"number": 7, "digest": "x", "came": "2026-11-02T18:00:00+00:00", "sender": "", "subject": "", "sheets": [], "aside": [],
               "letters": [], "is_cut": False}
        record = Record.from_json(json.dumps(old).encode())
        self.assertEqual(((1_793_642_400, 0, 7), ()), (record.arrived, record.wrong_keys))


class Newest(Evenings):
    def setUp(self) -> None:
        super().setUp()
        self.new()
        self.maildir = self.place / "Maildir"
        for inner in ("cur", "new", "tmp"):
            (self.maildir / inner).mkdir(parents=True)

    def arrives(self, name: str, lines: list[str], number: int, sender: str = "", status: int = 0) -> str:
        (self.maildir / "new" / name).write_bytes(mail("ANN", lines, number, sender))
        return self.post("in", str(self.maildir), status=status)

    def counting(self) -> list[str]:
        """Returns the sheet by which the round would be played."""
        self.post("round", "--without", "BOB", "CYD")
        text = (self.game / "game.orders").read_text().partition("SHEET ANN PR1\n")[2].partition("SHEET BOB")[0]
        self.post("undo")
        return text.splitlines()

    def test_an_older_message_replaces_no_newer_sheet(self) -> None:
        self.arrives("1700000000.M5_10.host", ["SHEET ANN PR1", "TURN", "BUY SV"], 1)
        told = self.arrives("1700000000.M5_9.host", ["SHEET ANN PR1", "TURN", "BUY CS"], 2)
        self.assertEqual("0002 ann@example.org: no sheet that counts", told.splitlines()[0])
        letter = (self.game / "outbox" / "0002-answer.eml").read_text()
        self.assertIn("A sheet of ANN for PR1 that arrived later is here, in message 1. That one\ncounts, and this one does not.", letter)
        self.assertEqual(["TURN", "BUY SV"], self.counting())
        self.arrives("1700000000.M6_1.host", ["SHEET ANN PR1", "TURN", "BUY DH"], 3)
        self.assertEqual(["TURN", "BUY DH"], self.counting())

    def test_a_head_added_later_brings_back_no_old_sheet(self) -> None:
        first = mail("ANN", ["SHEET ANN PR1", "TURN", "BUY SV"], 1)
        self.comes(first, mail("ANN", ["SHEET ANN PR1", "TURN", "BUY CS"], 2))
        self.assertEqual("1 read before\n", self.comes(b"X-UIDL: 7\nX-Spam-Status: No\nReturn-Path: <ann@example.org>\n" + first))
        self.assertEqual(["TURN", "BUY CS"], self.counting())

    def test_accept_puts_no_old_sheet_over_a_newer_one(self) -> None:
        self.arrives("1700000000.M1.host", ["SHEET ANN PR1", "TURN", "BUY SV"], 1, "ann@elsewhere.example", 3)
        self.arrives("1700000000.M2.host", ["SHEET ANN PR1", "TURN", "BUY CS"], 2)
        self.post("in", "--accept", "1")
        self.assertEqual(["TURN", "BUY CS"], self.counting())

    def test_accept_takes_the_sheets_that_were_set_aside(self) -> None:
        """ANN's own sheet of message 1 counted, and was replaced. It does not come back with BOB's."""
        self.arrives("1700000000.M1.host", ["SHEET ANN PR1", "TURN", "BUY SV", "SHEET BOB PR1", "TURN"], 1, status=3)
        self.arrives("1700000000.M1.hosu", ["SHEET ANN PR1", "TURN", "BUY CS"], 2)
        self.post("in", "--accept", "1")
        told = self.post("status")
        self.assertIn("ANN      sent message 2", told)
        self.assertIn("BOB      sent message 3", told)
        self.assertEqual(["0003-answer-BOB.eml"], [it for it in self.names("outbox") if it.startswith("0003")])


class Unchanged(unittest.TestCase):
    """What is said of a message that changes no sheet."""

    def setUp(self) -> None:
        self.inbox = Inbox()

    def text(self, reading: Reading) -> str:
        letter = answer(CLUB, reading, 2, [], Clock()(), to=reading.incoming.sender, name="0002-answer")
        return letter.content.decode().partition("\n\n")[2]

    def test_a_change_in_prose(self) -> None:
        self.inbox.comes(mail("BOB", ["SHEET BOB SR2", "TURN"], 1))
        reading = self.inbox.read(mail("BOB", ["Please change my first order to BUY PRR IPO."], 2))
        self.assertEqual((["it has no sheet"], True), (reading.aside, reading.is_answered))
        self.assertIn("No line of it begins with SHEET, so it has no sheet, and changes none. The\numpire is told.\n\n"
                      "Your sheet for SR2 as it came on Monday 2026-11-02 18:00 (UTC) stands\nunchanged.\n\n"
                      "A sheet for SR2, which is awaited, begins with a line such as\n\n    SHEET BOB SR2\n\n", self.text(reading))

    def test_a_change_in_prose_without_a_sheet_before(self) -> None:
        text = self.text(self.inbox.read(mail("BOB", ["BUY PRR IPO"], 2)))
        self.assertNotIn("unchanged", text)
        self.assertIn("    SHEET BOB SR2\n", text)

    def test_a_faulty_head_is_mended(self) -> None:
        self.inbox.comes(mail("BOB", ["SHEET BOB SR2", "TURN"], 1))
        reading = self.inbox.read(mail("BOB", ["Sheet Bob OR 5.2", "PAY"], 2))
        self.assertEqual(["a sheet with a fault in its first line: Sheet Bob OR 5.2"], reading.aside)
        self.assertEqual([], reading.counting())
        self.assertIn("No sheet begins with this line, so nothing of it counts. The umpire is told.\n\n"
                      "Your sheet for SR2 as it came on Monday 2026-11-02 18:00 (UTC) stands\nunchanged.\n\n"
                      "Perhaps you meant this line:\n\n    SHEET BOB OR5.2\n\n"
                      "A sheet for SR2, which is awaited, begins with a line such as\n\n    SHEET BOB SR2\n\n", self.text(reading))

    def test_how_heads_are_mended(self) -> None:
        for line, owed in (("Sheet Bob OR 5.2", "OR5.2"), ("SHEET BOB OR5,2", "OR5.2"), ("SHEET BOB OR-5-2:", "OR5.2"), ("SHEET SR 4 BOB", "SR4"),
                           ("SHEET BOB sr2.", "SR2"), ("SHEET BOB", ""), ("SHEET BOB OR5", ""), ("SHEET BOB OR5.4", ""), ("SHEET BOB SR0", "")):
            self.assertEqual(owed, mended_round(line), line)

    def test_a_message_that_is_refused(self) -> None:
        self.inbox.comes(mail("BOB", ["SHEET BOB SR2", "TURN"], 1))
        text = self.text(self.inbox.read(mail("BOB", ["SHEET BOB SR2", "#" * 300_000], 2)))
        self.assertIn("It was not read: it has a text of", text)
        self.assertIn("stands\nunchanged.", text)

    def test_what_was_left_out_is_named(self) -> None:
        lines = ["SHEET BOB SR2", "TURN", "Kind regards", "Bob", *["x"] * 9]
        text = self.text(self.inbox.read(mail("BOB", lines, 1)))
        self.assertIn("        SHEET BOB SR2\n     1  TURN\n\nIt counts for SR2.\n\nLeft out below its last order, since no order begins so:\n\n"
                      "    Kind regards\n    Bob\n    x\n    x\n    x\n    and 6 lines more\n", text)


class Words(Evenings):
    def test_the_first_words_of_orders_are_those_of_the_desk(self) -> None:
        """A line with one of these words is an order, perhaps with a fault in it, and no other line is one."""
        self.new()
        words = sorted(ORDERS)
        self.comes(mail("ANN", ["SHEET ANN PR1", "PASS", "HELLO", *words], 1))
        letter = (self.game / "outbox" / "0001-answer.eml").read_text()
        unknown = {line.split("|")[1].strip() for line in letter.splitlines() if "no order begins with" in line and "|" in line}
        self.assertEqual({"PASS", "HELLO"}, unknown)


if __name__ == "__main__":
    unittest.main()
