"""Messages of strangers: 5,000 that are made by chance, each with what is expected of it, and those of
somebody who wants the post to stop, each read within the limits."""

import email
import fcntl
import os
import pickle
import tempfile
import time
import unittest
from collections import Counter
from collections.abc import Callable
from concurrent.futures import ThreadPoolExecutor
from email.policy import default
from typing import TypeVar
from unittest import mock

from umpire_post.answers import answer
from umpire_post.errors import PostError
from umpire_post.limited import Exceeded, Limited
from umpire_post.message import DAMAGED, contents_of
from umpire_post.reading import Reading
from umpire_post.tests import calls
from umpire_post.tests.club import CLUB, KEY, Clock, read
from umpire_post.tests.hostile import SHEET, attacks
from umpire_post.tests.made import Made, Maker
from umpire_post.tests.test_threats import HEADS

COUNT = 5000
SECONDS, MEMORY = 2, 100 * 1024 * 1024  # for a message, whatever it holds
READ = ("SHEET ANN SR2", "TURN", "BUY PRR IPO")
Result = TypeVar("Result")


class MadeByChance(unittest.TestCase):
    """The messages in four parts, so that they may be read side by side."""

    def look_at(self, part: int) -> None:
        found: Counter[str] = Counter()
        for number in range(part, COUNT, 4):
            with self.subTest(number):
                made = Maker(number).made()
                reading = read(made.content)
                self.look_at_reading(made, reading)
                self.look_at_answer(reading)
                found["counts" if made.sheets else made.aside] += 1
        self.assertGreater(len(found), 15)
        self.assertGreater(min(found.values()), 0)

    def look_at_reading(self, made: Made, reading: Reading) -> None:
        self.assertEqual(made.sheets, [it.sheet.lines for it in reading.counting()])
        self.assertEqual(made.left_out, tuple(line for it in reading.counting() for line in it.found.left_out))
        self.assertIn(made.aside, "; ".join(reading.aside))
        self.assertEqual(bool(made.aside), bool(reading.aside), reading.aside)
        self.assertEqual(made.is_answered, reading.is_answered)

    def look_at_answer(self, reading: Reading) -> None:
        """An answer goes to the sender alone, its heads are those of an answer, and no key is in it."""
        if reading.is_answered:
            letter = answer(CLUB, reading, 1, [], Clock()(), to=reading.incoming.sender, name="0001-answer")
            parsed = email.message_from_bytes(letter.content, policy=default)
            self.assertLessEqual(set(parsed.keys()), HEADS)
            self.assertEqual(reading.incoming.sender, parsed["To"])
            self.assertNotIn(KEY, parsed.get_content())

    def test_first(self) -> None:
        self.look_at(0)

    def test_second(self) -> None:
        self.look_at(1)

    def test_third(self) -> None:
        self.look_at(2)

    def test_fourth(self) -> None:
        self.look_at(3)


class Attacks(unittest.TestCase):
    """Each is read within two seconds of a processor and 100 MB, or the system would end its process."""

    def look_at(self, part: int) -> None:
        limited = Limited(contents_of, SECONDS, MEMORY)
        self.addCleanup(limited.end)
        count = 0
        for at, (name, content) in enumerate(attacks()):
            if at % 4 == part:
                count += 1
                with self.subTest(name):
                    contents = limited(content)
                    self.assertNotEqual("", contents.refused or contents.found)
                    self.look_at_reading(read(content))
        self.assertGreater(count, 70)

    def look_at_reading(self, reading: Reading) -> None:
        """The sheet above an attack is read as it is, or nothing is, and the umpire is told why."""
        for judged in reading.counting():
            self.assertEqual(READ[:2], judged.sheet.lines[:2])
        self.assertTrue(reading.counting() or reading.aside)

    def test_first(self) -> None:
        self.look_at(0)

    def test_second(self) -> None:
        self.look_at(1)

    def test_third(self) -> None:
        self.look_at(2)

    def test_fourth(self) -> None:
        self.look_at(3)


class Failing(unittest.TestCase):
    """Whatever the reading of a message does, the next one is read."""

    def test_what_the_library_raises_sets_the_message_aside(self) -> None:
        for wrong in (AssertionError, RecursionError, KeyError, ValueError, TypeError, IndexError, UnicodeError, NotImplementedError):
            with mock.patch("umpire_post.message.texts_of", side_effect=wrong("x")):
                self.assertEqual(DAMAGED, contents_of(SHEET.encode()).refused)
            with mock.patch("umpire_post.message.read_heads", side_effect=wrong("x")):
                self.assertEqual([DAMAGED], read(b"From: ann@example.org\n\n" + SHEET.encode()).aside)

    def test_a_call_that_exceeds_a_limit_or_fails_is_told(self) -> None:
        for function, seconds in ((calls.never_ends, 0.2), (calls.takes_memory, 5), (calls.is_killed, 5), (calls.exits, 5), (calls.raises, 5)):
            with self.subTest(function.__name__):
                limited = self.limited(function, seconds)
                self.assertEqual(b"one", limited(b"one"))
                begun = time.monotonic()
                self.assertRaises(Exceeded, limited, b"first")
                self.assertLess(time.monotonic() - begun, 60)
                self.assertEqual(b"two", limited(b"two"))

    def limited(self, function: Callable[[bytes], Result], seconds: float = 5) -> Limited[Result]:
        limited = Limited(function, seconds, 50 << 20)
        self.addCleanup(limited.end)
        return limited

    def test_its_process_has_nothing_open(self) -> None:
        """Else it would keep the lock of a folder."""
        limited = self.limited(calls.echo)
        with tempfile.NamedTemporaryFile() as lock:
            with open(lock.name, "rb") as first:
                fcntl.flock(first, fcntl.LOCK_EX)
                self.assertEqual(b"x", limited(b"x"))
            with open(lock.name, "rb") as second:
                fcntl.flock(second, fcntl.LOCK_EX | fcntl.LOCK_NB)

    def test_its_process_is_no_copy_of_one_with_threads(self) -> None:
        """A copy would have the locks that threads hold, and nobody to let go of them."""
        limited = self.limited(calls.process)
        with mock.patch.object(os, "fork", side_effect=AssertionError("a copy")), ThreadPoolExecutor(4) as threads:
            busy = [threads.submit(calls.never_ends, b"x") for _ in range(40)]
            first = limited(b"x")
            limited.end()
            self.assertNotEqual(first, limited(b"x"))
            self.assertEqual({b"x"}, {it.result() for it in busy})

    def test_a_call_that_is_interrupted_gives_its_answer_to_no_other(self) -> None:
        limited = self.limited(calls.echo)
        limited(b"x")
        with mock.patch.object(pickle, "load", side_effect=KeyboardInterrupt):
            self.assertRaises(KeyboardInterrupt, limited, b"first")
        self.assertEqual(b"second", limited(b"second"))

    def test_a_process_that_was_forked_begins_its_own(self) -> None:
        limited = self.limited(calls.process)
        own = limited(b"x")
        child = os.fork()
        if child == 0:
            os._exit(3 if limited(b"x") != own else 0)
        self.assertEqual(own, limited(b"xx"))
        self.assertEqual(3, os.waitstatus_to_exitcode(os.waitpid(child, 0)[1]))

    def test_a_process_that_does_not_start_is_no_fault_of_a_message(self) -> None:
        with mock.patch("umpire_post.limited.SERVE", "raise SystemExit"):
            self.assertRaisesRegex(PostError, "does not start", self.limited(calls.echo), b"x")
        with mock.patch("sys.executable", "/nowhere/python"):
            self.assertRaises(OSError, self.limited(calls.echo), b"x")

    def test_what_takes_too_much_is_set_aside(self) -> None:
        with mock.patch("umpire_post.message._LIMITED", side_effect=Exceeded()):
            reading = read(b"From: ann@example.org\n\n" + SHEET.encode())
        self.assertEqual(["it takes too much time or memory to read"], reading.aside)
        self.assertTrue(reading.is_answered)
        self.assertEqual([READ], [it.sheet.lines for it in read(b"From: ann@example.org\n\n" + SHEET.encode()).counting()])


if __name__ == "__main__":
    unittest.main()
