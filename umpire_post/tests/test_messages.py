"""Messages made by hand as mail programs write them, each with what is to be read in it."""

import unittest

from umpire_post.reading import Reading
from umpire_post.tests.club import HERE, read

MESSAGES = sorted((HERE / "messages").glob("*.eml"))


def told(reading: Reading) -> str:
    """Returns what was read in the form of the files NAME.read: the sender; each sheet with what became of
    it, its numbered lines and below each what was undone, and the lines left out of it; what was set aside;
    the parts and lines that were not read."""
    incoming, contents = reading.incoming, reading.incoming.contents
    lines = [f"from {incoming.sender or 'nobody'}"]
    for judged in reading.sheets:
        lines.append(f"{' '.join(('sheet', judged.found.player, judged.found.round)).strip()}: {judged.said}")
        for line, (number, text) in zip(judged.found.lines, judged.found.numbered()):
            if judged.is_shown:
                lines.append(f"{number or '':>2}|{text}")
                lines += [f"    {it}" for it in line.undone]
        lines += [f"left out {it}" for it in judged.found.left_out if judged.is_shown]
    lines += [f"aside: {it}" for it in reading.aside]
    lines += [] if reading.is_answered else ["no answer"]
    lines += [f"unread {it}" for it in contents.unread]
    return "\n".join(lines) + "\n"


def counts(reading: Reading) -> str:
    contents = reading.incoming.contents
    return f"quoted {contents.quoted}, signature {contents.signature}, above {contents.found.others}\n"


class Messages(unittest.TestCase):
    def test_there_are_seventy(self) -> None:
        self.assertGreaterEqual(len(MESSAGES), 70)

    def test_each_is_read_as_its_writer_meant(self) -> None:
        for path in MESSAGES:
            with self.subTest(path.stem):
                reading = read(path.read_bytes())
                owed = path.with_suffix(".read").read_text(encoding="utf-8")
                got = told(reading)
                if "quoted " in owed:
                    got += counts(reading)
                self.assertEqual(owed.splitlines(), got.splitlines())


if __name__ == "__main__":
    unittest.main()
