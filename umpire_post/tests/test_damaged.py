"""A thousand damaged messages, made from those of `messages/` by a seed: bytes, lines and parts are
changed, lost, doubled and moved. Whatever comes of one, it harms nobody."""

import email
import random
import time
import unittest
from email.policy import default

from umpire_post.answers import answer
from umpire_post.reading import Reading
from umpire_post.tests.club import CLUB, KEY, Clock, read
from umpire_post.tests.test_messages import MESSAGES
from umpire_post.tests.test_threats import HEADS

SEED = 1830
COUNT = 1000
SECONDS = 2  # of a processor; what is below the heads is read in a process with a limit of its own
PIECES = (
    b"\r", b"\n", b"\r\n\r\n", b"\0", b"\xff\xfe", b"\xef\xbb\xbf", b"\xe2\x80\xa8", b"=0D=0A", b"=?utf-8?q?=0A?=", b"> ", b"-- \n",
    b"SHEET BOB SR2\n", b"SHEET\tANN SR2\n", b"\xc5\xbfHEET ANN SR2\n", b"&#13;&#10;SHEET CYD SR2", b"KEY x\n", b"<blockquote>",
    b"From: bob@example.org\n", b"\nFrom bob@example.org Mon Nov  2 18:00:00 2026\n",
    b"Content-Type: multipart/mixed; boundary=z\n", b"--z\n",
)


def with_bytes(chance: random.Random, content: bytearray) -> None:
    """Changes, deletes or adds some bytes."""
    for _ in range(chance.choice((1, 1, 4, 40))):
        at = chance.randrange(len(content) + 1)
        how = chance.randrange(4)
        if how == 0 and at < len(content):
            content[at] ^= 1 << chance.randrange(8)
        elif how == 1:
            del content[at:at + chance.choice((1, 1, 9, 200))]
        elif how == 2:
            content[at:at] = bytes([chance.randrange(256)])
        else:
            content[at:at] = chance.choice(PIECES)


def with_lines(chance: random.Random, content: bytearray) -> None:
    """Cuts, doubles, moves, deletes or joins some lines."""
    lines = bytes(content).split(b"\n")
    for _ in range(chance.choice((1, 1, 3, 10))):
        at, to = chance.randrange(len(lines)), chance.randrange(len(lines))
        how = chance.randrange(5)
        if how == 0:
            lines[at] = lines[at][:chance.randrange(len(lines[at]) + 1)]
        elif how == 1:
            lines[at:at] = [lines[at]] * chance.choice((1, 5, 50))
        elif how == 2:
            lines[at], lines[to] = lines[to], lines[at]
        elif how == 3 and len(lines) > 1:
            del lines[at]
        else:
            lines[at:at + 2] = [b"".join(lines[at:at + 2])]
    content[:] = b"\n".join(lines)


def damaged(number: int) -> bytes:
    """Returns the damaged message with this number, the same each time."""
    chance = random.Random(SEED * COUNT + number)
    content = bytearray(MESSAGES[number % len(MESSAGES)].read_bytes())
    for _ in range(chance.choice((1, 1, 2, 4))):
        chance.choice((with_bytes, with_lines))(chance, content)
    if chance.random() < 0.1:
        content += chance.choice(MESSAGES).read_bytes()
    return bytes(content)


class Damaged(unittest.TestCase):
    def test_no_damage_harms_anybody(self) -> None:
        counted = 0
        for number in range(COUNT):
            with self.subTest(number):
                begun = time.process_time()
                reading = read(damaged(number))
                self.assertLess(time.process_time() - begun, SECONDS)
                counted += len(reading.counting())
                self.look_at_sheets(reading)
                self.look_at_answer(reading)
        self.assertGreater(counted, COUNT // 3)  # (most damage does not reach the sheet)

    def look_at_sheets(self, reading: Reading) -> None:
        """A sheet that counts is its sender's own, and one sheet to the umpire, in whole lines."""
        for judged in reading.counting():
            sheet = judged.sheet
            self.assertIn(reading.incoming.sender.lower(), CLUB.players[sheet.player].addresses)
            self.assertNotIn(b"\r", sheet.text())
            self.assertNotIn(KEY.encode(), sheet.text())
            first_words = [line.split(b"#")[0].split(b" ") for line in sheet.text().split(b"\n")]
            heads = [it for it in first_words if next(filter(None, it), b"").upper() == b"SHEET"]
            self.assertEqual(1, len(heads))
            self.assertEqual([sheet.player, sheet.round], [it.decode().upper() for it in heads[0] if it][1:])

    def look_at_answer(self, reading: Reading) -> None:
        """An answer goes to the sender alone, and its heads are those of an answer."""
        if not reading.is_answered or not reading.incoming.sender:
            return
        made = answer(CLUB, reading, 1, [], Clock()(), to=reading.incoming.sender, name="0001-answer")
        parsed = email.message_from_bytes(made.content, policy=default)
        self.assertLessEqual(set(parsed.keys()), HEADS)
        self.assertEqual(reading.incoming.sender, parsed["To"])
        self.assertNotIn(KEY, parsed.get_content())


if __name__ == "__main__":
    unittest.main()
