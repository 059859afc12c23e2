"""What somebody may send who wants to harm a game or its umpire, each refused with a sentence."""

import email
import hmac
import random
import time
import unittest
from email.policy import default
from unittest import mock

from umpire_post.answers import answer
from umpire_post.club import is_address
from umpire_post.message import take_apart
from umpire_post.parts import MAX_DEPTH, MAX_LINES, MAX_PARTS, MAX_TEXT, MAX_TEXT_LINES
from umpire_post.reading import DAY, MOST_WRONG_KEYS, Reading
from umpire_post.sheets import MAX_SHEETS
from umpire_post.sources import MAX_BYTES, Raw
from umpire_post.tests.club import CLUB, KEY, Clock, Inbox, read

HEADS = {"From", "To", "Subject", "Date", "Message-ID", "Auto-Submitted", "In-Reply-To", "References", "Content-Type",
         "Content-Transfer-Encoding", "MIME-Version"}
SHEET = "SHEET ANN SR2\nTURN\nBUY PRR IPO\n"
SECONDS = 60  # of a clock: the machine may have other things to do


def message(body: str, heads: str = "", sender: str = "Ann <ann@example.org>") -> bytes:
    return f"From: {sender}\nSubject: sheet\nMessage-ID: <1@example.org>\n{heads}\n{body}".encode()


def of_eve(line: str) -> bytes:
    """Returns a message of the player who has a key, with a line and a sheet."""
    return message(f"{line}\nSHEET EVE SR2\nTURN\n", sender="eve@example.org")


def answered(reading: Reading) -> tuple[str, dict[str, str]]:
    """Returns the text and the heads of the answer to a message."""
    made = answer(CLUB, reading, 1, [], Clock()(), to=reading.incoming.sender, name="0001-answer")
    parsed = email.message_from_bytes(made.content, policy=default)
    return parsed.get_content(), dict(parsed.items())


class Threats(unittest.TestCase):
    def assert_refused(self, content: bytes, why: str) -> Reading:
        """The message is set aside, with this in the sentence, and no sheet of it counts."""
        begun = time.monotonic()
        reading = read(content)
        self.assertLess(time.monotonic() - begun, SECONDS)
        self.assertEqual([], reading.counting())
        self.assertIn(why, " ".join(reading.aside))
        return reading

    # A forged sender.

    def test_a_sheet_without_the_key_is_set_aside(self) -> None:
        content = message("SHEET EVE SR2\nTURN\n", sender="eve@example.org")
        text, _ = answered(self.assert_refused(content, "without a KEY line"))
        self.assertIn("A sheet of EVE counts only with the line KEY", text)

    def test_a_wrong_key_is_not_repeated(self) -> None:
        reading = self.assert_refused(of_eve("KEY Stork-9"), "with a wrong KEY line")
        self.assertNotIn("Stork-9", answered(reading)[0])
        self.assertEqual(["EVE"], reading.wrong_keys)

    def test_the_right_key_counts_and_is_not_repeated(self) -> None:
        reading = read(message(f"SHEET EVE SR2\nTURN\nKEY {KEY}\nBUY PRR IPO\n", sender="eve@example.org"))
        self.assertEqual([("SHEET EVE SR2", "TURN", "BUY PRR IPO")], [it.sheet.lines for it in reading.counting()])
        self.assertNotIn(KEY, answered(reading)[0])

    def test_a_message_has_one_key_line(self) -> None:
        """Else one message could try many words."""
        for lines in (f"KEY {KEY}\nKEY {KEY}", f"KEY Stork-9\nKEY {KEY}", "\n".join(f"KEY {at}" for at in range(9_000))):
            reading = self.assert_refused(of_eve(lines), "KEY lines")
            self.assertEqual(["EVE"], reading.wrong_keys)
            text, _ = answered(reading)
            self.assertIn("and a message may have one. Nothing of it counts. The umpire is told.", text.replace("\n", " "))
            self.assertNotIn(KEY, text)

    def test_a_key_line_in_each_form(self) -> None:
        for line in (f"KEY {KEY}", f"key: {KEY}", f"  Key :  {KEY}  ", f"KEY:{KEY}", f"KEY\t{KEY}"):
            self.assertEqual(1, len(read(of_eve(line)).counting()), line)
        for line in (f"KEY{KEY}", f"KEYS {KEY}", f"KEY {KEY} please", "KEY", f"> KEY {KEY}"):
            self.assertEqual([], read(of_eve(line)).counting(), line)

    def test_after_five_wrong_keys_within_a_day_sheets_wait_for_the_umpire(self) -> None:
        inbox = Inbox()
        for at in range(MOST_WRONG_KEYS):
            self.assertEqual(["EVE"], inbox.comes(of_eve(f"KEY Stork-{at}"), at * 60).wrong_keys)
        last = (MOST_WRONG_KEYS - 1) * 60
        waits = inbox.comes(of_eve(f"KEY {KEY}"), last + 1)
        self.assertEqual(["the sheet of EVE for SR2, after 5 wrong KEY lines within a day"], waits.aside)
        self.assertIn("sheets of EVE wait for the umpire", answered(waits)[0].replace("\n", " "))
        self.assertEqual([("SHEET EVE SR2", "TURN")], [it.sheet.lines for it in inbox.read(of_eve("KEY x"), last, inbox.folder.records[-1]).counting()])
        self.assertEqual(1, len(inbox.read(message(SHEET), last).counting()))  # (others' sheets count)
        self.assertEqual(1, len(inbox.read(of_eve(f"KEY {KEY}"), DAY).counting()))  # (the first is a day ago)

    def test_whether_a_key_is_right_is_told_to_nobody_then(self) -> None:
        """Right and wrong ones get the same answer, and are not compared."""
        inbox = Inbox()
        for at in range(MOST_WRONG_KEYS):
            inbox.comes(of_eve(f"KEY Stork-{at}"), at)
        self.assertEqual(answered(inbox.read(of_eve(f"KEY {KEY}"), 9)), answered(inbox.read(of_eve("KEY Stork-9"), 9)))

    def test_a_guess_in_a_sheet_is_not_masked(self) -> None:
        """A letter to ANN that masks EVE's key would say that ANN has guessed it."""
        text, _ = answered(read(message(f"SHEET ANN SR2\nTURN # {KEY}\n")))
        self.assertIn(f"TURN # {KEY}", text)

    def test_a_key_is_compared_in_constant_time(self) -> None:
        with mock.patch.object(hmac, "compare_digest", return_value=True) as compared:
            self.assertEqual(1, len(read(of_eve("KEY Stork-9")).counting()))
        compared.assert_called_once_with(b"Stork-9", KEY.encode())

    def test_a_key_among_the_orders_is_not_put_into_the_file(self) -> None:
        content = message(f"KEY {KEY}\nSHEET EVE SR2\nTURN # {KEY}\n", sender="eve@example.org")
        text, _ = answered(self.assert_refused(content, "with the key in a line of its own orders"))
        self.assertNotIn(KEY, text)

    def test_two_senders_are_none(self) -> None:
        self.assert_refused(message(SHEET, "From: bob@example.org\n"), "not exactly one sender")
        self.assert_refused(message(SHEET, sender="ann@example.org, eve@elsewhere.example"), "not exactly one sender")

    def test_an_address_in_a_name_is_not_the_sender(self) -> None:
        self.assert_refused(message(SHEET, sender='"ann@example.org" <eve@elsewhere.example>'), "an address that is nobody's")
        self.assertEqual("ann@example.org", read(message(SHEET, sender="Ann @ home <ann@example.org>")).incoming.sender)
        self.assertEqual("ann@example.org", read(message(SHEET, "From: Ann <ann@example.org>\n")).incoming.sender)
        for sender in ("ann@example.org <eve@elsewhere.example>", "x@ann <ann@example.org>", "ann@example.org)eve@elsewhere.example",
                       "<ann@example.org>, <eve@elsewhere.example>", '"<ann@example.org>" <eve@elsewhere.example>',
                       "Ann", "", "<>", "@", "ann@example.org\0"):
            self.assert_refused(message(SHEET, sender=sender), "not exactly one sender")

    def test_other_heads_make_no_sender(self) -> None:
        heads = "Sender: ann@example.org\nReply-To: ann@example.org\nReturn-Path: <ann@example.org>\n"
        reading = self.assert_refused(message(SHEET, heads, "eve@elsewhere.example"), "an address that is nobody's")
        self.assertEqual("eve@elsewhere.example", answered(reading)[1]["To"])

    # A sheet in somebody else's name.

    def test_a_sheet_of_another_is_set_aside(self) -> None:
        reading = self.assert_refused(message(SHEET, sender="bob@example.org"), "from an address that is not ANN's")
        text, heads = answered(reading)
        self.assertIn("did not come from an address of ANN", text)
        self.assertNotIn("BUY PRR IPO", text)
        self.assertEqual("bob@example.org", heads["To"])

    def test_what_is_forwarded_is_nobodys(self) -> None:
        inner = "From: ann@example.org\n\nSHEET ANN SR2\nTURN\n"
        heads = 'MIME-Version: 1.0\nContent-Type: message/rfc822\n'
        reading = read(message(inner, heads, "bob@example.org"))
        self.assertEqual(([], ["a message that is attached"]), (reading.sheets, reading.incoming.contents.unread))

    # A bomb of a message.

    def test_a_message_of_many_bytes_is_not_read(self) -> None:
        raw = Raw(message(SHEET)[:1000], MAX_BYTES + 1)
        self.assertIn(f"and at most {MAX_BYTES:,} are read", take_apart(raw).refused)

    def test_a_message_of_many_parts_is_not_read(self) -> None:
        heads = "Content-Type: multipart/mixed; boundary=b\n"
        many = "--b\nContent-Type: text/plain\n\nx\n" * 3 * MAX_PARTS
        self.assert_refused(message(many, heads), f"more than {MAX_PARTS} parts")

    def test_parts_within_parts_are_not_read(self) -> None:
        depth = MAX_DEPTH + 2
        heads = "Content-Type: multipart/mixed; boundary=b0\n"
        nested = "".join(f"--b{it}\nContent-Type: multipart/mixed; boundary=b{it + 1}\n\n" for it in range(depth))
        self.assert_refused(message(nested + f"--b{depth}\n\n{SHEET}", heads), "nested more than")
        deeper = "".join(f"--b{it}\nContent-Type: multipart/mixed; boundary=b{it + 1}\n\n" for it in range(MAX_LINES // 4))
        self.assert_refused(message(deeper, heads), f"more than {MAX_PARTS} parts")

    def test_a_long_text_is_not_read(self) -> None:
        self.assert_refused(message(SHEET + "#" * MAX_TEXT), f"and at most {MAX_TEXT:,} are read")
        self.assert_refused(message(SHEET + "#\n" * MAX_TEXT_LINES), f"lines, and at most {MAX_TEXT_LINES:,} are read")

    def test_many_sheets_are_not_read(self) -> None:
        self.assert_refused(message(SHEET * (MAX_SHEETS + 1)), f"more than {MAX_SHEETS} sheets")

    def test_a_page_of_many_elements_is_not_read(self) -> None:
        self.assert_refused(message("<b>x</b>" * 20_001, "Content-Type: text/html\n"), "its HTML has more than 20,000 elements")

    def test_long_heads_are_not_read(self) -> None:
        reading = self.assert_refused(message(SHEET, "X: x\n" * 30_000), "its heads are too long")
        self.assertEqual("ann@example.org", reading.incoming.sender)

    def test_what_is_not_read_has_its_sender(self) -> None:
        reading = self.assert_refused(message(SHEET + "#" * MAX_TEXT), "are read")
        text, heads = answered(reading)
        self.assertEqual("ann@example.org", heads["To"])
        self.assertIn("It was not read: it has a text of 262,175 bytes", text)

    def test_a_broken_declaration_does_not_end_the_reading(self) -> None:
        page = "<p>SHEET ANN SR2<br>TURN<br><<!---->![x[>BUY PRR IPO</p>"
        reading = read(message(page, "Content-Type: text/html\n"))
        self.assertEqual(["SHEET ANN SR2", "TURN"], list(reading.counting()[0].sheet.lines[:2]))

    def test_parts_are_counted_without_their_types(self) -> None:
        heads = "Content-Type: multipart/mixed; boundary=b\n"
        self.assert_refused(message("--b\n\nx\n" * 5_000, heads), f"more than {MAX_PARTS} parts")
        words = "".join(f"# Content-Type: multipart/mixed {at}\n" for at in range(300))
        self.assertEqual(1, len(read(message(SHEET + words)).counting()))

    # Attachments.

    def test_a_path_names_no_file_and_a_zip_is_not_opened(self) -> None:
        parts = ('--b\nContent-Type: text/plain; name="/etc/passwd"\nContent-Disposition: attachment; filename="../../../etc/cron.d/x"\n\n'
                 f"{SHEET}--b\nContent-Type: application/zip; name=bomb.zip\nContent-Transfer-Encoding: base64\n\nUEsDBA==\n--b--\n")
        reading = read(message(parts, "Content-Type: multipart/mixed; boundary=b\n"))
        self.assertEqual([("SHEET ANN SR2", "TURN", "BUY PRR IPO")], [it.sheet.lines for it in reading.counting()])
        self.assertEqual(["bomb.zip (application/zip)"], reading.incoming.contents.unread)
        self.assertIn("Not read: bomb.zip (application/zip).", answered(reading)[0])

    # Heads and lines of letters.

    def test_nothing_of_a_message_becomes_a_head(self) -> None:
        evil = "=?utf-8?q?x=0D=0ABcc=3A_all=40example.org?="
        heads = f"Subject: {evil}\nIn-Reply-To: {evil}\nMessage-ID: <a\n b@c>\r\n\tBcc: x@example.org\n"
        for sender in (f"{evil} <ann@example.org>", "Ann\r\n Bcc: x <ann@example.org>"):
            content = f"From: {sender}\n{heads}\n{SHEET}".encode()
            text, found = answered(read(content))
            self.assertLessEqual(set(found), HEADS)
            self.assertEqual("Re: our-game SR2: your sheet, no findings", found["Subject"])
            self.assertEqual("ann@example.org", found["To"])
            self.assertNotIn("all@", text)

    def test_a_bare_cr_makes_no_head(self) -> None:
        reading = read(b"From: bob@example.org\nSubject: x\rFrom: ann@example.org\rX: y\nTo: z@example.org\n\n" + SHEET.encode())
        self.assertEqual(("bob@example.org", ("z@example.org",)), (reading.incoming.sender, reading.incoming.recipients))
        self.assertEqual("x From: ann@example.org X: y", reading.incoming.subject)

    def test_what_is_told_of_a_message_is_bounded(self) -> None:
        heads = f"To: {'ann@example.org, bob@example.org, ' * 1_000}\nReferences: {'<1@example.org> <2@example.org> ' * 1_000}\nIn-Reply-To: <3@example.org>\n"
        incoming = read(message(SHEET, heads + f"Subject: {'x' * 5_000}\n", "Ann <ann@example.org>")).incoming
        self.assertEqual(("ann@example.org", "bob@example.org"), incoming.recipients)
        self.assertEqual(("<1@example.org>", "<2@example.org>", "<3@example.org>"), tuple(sorted(incoming.answers)))
        self.assertEqual("<3@example.org>", incoming.answers[-1])
        self.assertLessEqual(len(incoming.subject), 1000)

    def test_an_address_with_an_encoded_word_is_none(self) -> None:
        """The library decodes it in the head of a letter, and fails on the line end."""
        for sender in ("=?utf-8?q?=0A?=@example.org", "<=?utf-8?q?=0D=0ABcc:x?=ann@example.org>", "=?utf-8?b?Cg==?=ann@example.org"):
            self.assert_refused(message(SHEET, sender=sender), "not exactly one sender")

    def test_a_letter_can_go_to_each_address_that_is_one(self) -> None:
        chance = random.Random(1830)
        signs = "abAB09.!#$%&'*+/=?^_`{|}~-"
        reading = read(message(SHEET))
        for _ in range(1_000):
            address = "".join(chance.choice(signs) for _ in range(chance.randrange(1, 12))) + "@" + chance.choice(("example.org", "x", "-.a-", "1.2"))
            if is_address(address):
                made = answer(CLUB, reading, 1, [], Clock()(), to=address, name="0001-answer")
                self.assertIn(f"\nTo: {address}\n", made.content.decode())

    def test_an_address_with_a_line_end_is_none(self) -> None:
        for sender in ('"x\\\nBcc: y@example.org" <ann@example.org\n>', "ann@example.org\r\nBcc: y@example.org", "<ann@exa mple.org>"):
            reading = read(f"From: {sender}\n\n{SHEET}".encode())
            self.assertNotIn("\n", reading.incoming.sender)
            self.assertLessEqual(set(answered(reading)[1]) if reading.incoming.sender else set(), HEADS)

    def test_no_control_character_comes_into_a_letter_or_onto_the_screen(self) -> None:
        reading = read(message("SHEET ANN SR2\nTURN \x1b[2J\x07\x00\n", "Subject: \x1b]0;x\x07\n"))
        text, _ = answered(reading)
        for character in "\x1b\x07\x00":
            self.assertNotIn(character, text + reading.incoming.subject)

    def test_a_program_is_not_answered(self) -> None:
        for heads in ("Auto-Submitted: auto-generated\n", "Precedence: junk\n", "Return-Path: <>\n", "X-Autoreply: 1\n"):
            self.assertFalse(self.assert_refused(message(SHEET, heads), "").is_answered)

    def test_damage_is_said(self) -> None:
        for heads in ("Content-Type: multipart/mixed\n", "Content-Type: text/plain; charset*=x'\n", "Content-Transfer-Encoding: x-uuencode\n",
                      "Content-Type: multipart/alternative; boundary=b\n", "Content-Disposition: attachment; filename*0*=utf-8''%\n"):
            self.assertEqual([], [it for it in read(message("--b\n\x80", heads)).sheets if it.counts])


if __name__ == "__main__":
    unittest.main()
