"""How numbers, names and texts of strangers are put in words."""

from collections.abc import Iterable

MAX_NAME = 60  # characters of a name that is told
MAX_LINE = 4096  # characters of a text that is looked at


def counted(number: int, what: str) -> str:
    """Returns a number of things in words."""
    return f"{number} {what}{'' if number == 1 else 's'}"


def listed(names: Iterable[str]) -> str:
    """Returns names as a sentence lists them."""
    *front, last = names
    return f"{', '.join(front)} and {last}" if front else last


def one_line(text: str) -> str:
    """Returns a text of a message on one line, without control characters."""
    return " ".join("".join(it if it.isprintable() else " " for it in text[:MAX_LINE]).split())


def plain(text: str) -> str:
    """Returns a text of a message as it may be told: on one line, short, without control characters."""
    line = one_line(text)
    return line if len(line) <= MAX_NAME else line[:MAX_NAME - 2] + ".."


def shown(text: str) -> str:
    """Returns a text with ? in place of each character that is not printable, but for the ends of lines."""
    return "".join(it if it.isprintable() or it == "\n" else "?" for it in text)
