"""Letters handed to sendmail or to a host, each once.

A letter is renamed before it is handed over, and moved to `sent/` once it was accepted. If `send` is
interrupted between the two, nobody knows whether it was: it is in doubt, and is neither sent again nor
forgotten until the umpire says which. After such a letter the others wait in the outbox. Between two
letters another command may take the folder.
"""

import email
import smtplib
import ssl
import subprocess
import time
from collections.abc import Callable, Iterator
from contextlib import AbstractContextManager, contextmanager, suppress
from email.policy import default
from pathlib import Path

from umpire_post.club import Club, Delivery, read_club
from umpire_post.disk import PAUSE, move
from umpire_post.errors import DEVICE_FAILED, PostError
from umpire_post.evening import Evening
from umpire_post.folder import CLUB, HANDED_OVER, SENT, in_doubt_in, letters_in
from umpire_post.games import Place
from umpire_post.words import counted

SECONDS = 60  # without an answer of a host or of sendmail
CLOSING = 421  # by which a host ends a connection

# Hands over a letter: from, to, and its bytes. Fails with why it was not accepted.
HandOver = Callable[[str, str, bytes], None]
# Takes the folder for a letter.
Lock = Callable[[], AbstractContextManager[object]]


class NotAccepted(Exception):
    """A letter was refused: it is certain that it was not sent. If `is_last` no other can be sent now."""

    def __init__(self, why: str, is_last: bool = False) -> None:
        super().__init__(why)
        self.is_last = is_last


class Unknown(Exception):
    """The connection broke before the host said whether it accepts a letter."""


def send(evening: Evening, place: Place, lock: Lock) -> int:
    """Sends the letters of each outbox, or tells where they are. Returns a status."""
    folder = place.root if place.is_club else place.tops[0]
    is_well, is_own = True, False
    for top in place.outboxes():
        club = _club_of(place, top)
        if club.delivery.by == "program":
            is_own = _tell_letters(evening, top) or is_own
        elif letters_in(top):
            with _opened(club.delivery) as hand_over:
                is_well = _send_all(evening, club, top, hand_over, lock) and is_well
    if is_own:
        evening.tell(f"Send them with your own mail program, and then run: send {folder} --sent")
    for top in place.outboxes():
        for path in in_doubt_in(top):
            evening.tell(f"in doubt: {path.name.removesuffix(HANDED_OVER)}. Ask {_to(path.read_bytes())} or your mail system whether it "
                         f"arrived, and then run: send {folder} --sent, or --again")
            is_well = False
    return 0 if is_well else DEVICE_FAILED


def say_sent(evening: Evening, place: Place) -> None:
    """Moves letters to `sent/` that the umpire sent: those in doubt, or if there are none all."""
    doubtful = [it for top in place.outboxes() for it in in_doubt_in(top)]
    paths = doubtful or [it for top in place.outboxes() for it in letters_in(top)]
    for path in paths:
        move(path, path.parent.parent / SENT / path.with_suffix(".eml").name)
    evening.tell(f"{counted(len(paths), 'letter')} moved to {SENT}")


def say_again(evening: Evening, place: Place) -> None:
    """Puts letters in doubt back into the outbox."""
    for top in place.outboxes():
        for path in in_doubt_in(top):
            move(path, path.with_suffix(".eml"))
    evening.tell(f"{counted(sum(len(letters_in(it)) for it in place.outboxes()), 'letter')} in outbox")


def _club_of(place: Place, top: Path) -> Club:
    return read_club(top / CLUB, place.root / CLUB if top != place.root else None)


def _tell_letters(evening: Evening, top: Path) -> bool:
    """Tells which letters the umpire is to send with a program of their own. Returns whether there are any."""
    for path in letters_in(top):
        evening.tell(f"{path}: to {_to(path.read_bytes())}")
    return bool(letters_in(top))


def _send_all(evening: Evening, club: Club, top: Path, hand_over: HandOver, lock: Lock) -> bool:
    """Sends the letters of an outbox, until one is in doubt or no other can be sent. Returns whether each
    was sent."""
    tried: set[str] = set()
    is_well = True
    while True:
        with lock():
            path = next((it for it in letters_in(top) if it.name not in tried), None)
            if path is None:
                return is_well
            tried.add(path.name)
            try:
                is_well = _send_one(evening, club, path, hand_over) and is_well
            except (Unknown, NotAccepted) as why:
                left = counted(len(letters_in(top)), "letter")
                evening.tell(f"{path.name}: {why}. {left} left in outbox: run send again for them")
                return False
        time.sleep(2 * PAUSE)  # (so that a command that waits for the folder gets it)


def _send_one(evening: Evening, club: Club, path: Path, hand_over: HandOver) -> bool:
    """Sends a letter. Returns whether it was accepted. Fails if it is in doubt, or if no other can be sent
    after it."""
    content = path.read_bytes()
    to = _to(content)
    handed = path.with_suffix(HANDED_OVER)
    move(path, handed)
    try:
        hand_over(club.umpire, to, content)
    except NotAccepted as why:
        move(handed, path)
        if why.is_last:
            raise
        evening.tell(f"{path.name}: not accepted for {to}: {why}")
        return False
    move(handed, path.parent.parent / SENT / path.name)
    evening.tell(f"{path.name}: sent to {to}")
    return True


def _to(content: bytes) -> str:
    return str(email.message_from_bytes(content, policy=default)["To"])


@contextmanager
def _opened(delivery: Delivery) -> Iterator[HandOver]:
    """Opens the way by which letters leave."""
    if delivery.by == "sendmail":
        yield lambda sender, to, content: _by_sendmail(delivery, sender, to, content)
        return
    try:
        host = _connected(delivery)
    except (OSError, UnicodeError) as wrong:
        raise PostError(f"{delivery.host} does not accept letters: {wrong}", DEVICE_FAILED) from wrong
    try:
        yield lambda sender, to, content: _by_host(host, sender, to, content)
    finally:
        with suppress(OSError):
            host.quit()
        host.close()


def _connected(delivery: Delivery) -> smtplib.SMTP:
    context = ssl.create_default_context()
    if delivery.tls == "tls":
        host: smtplib.SMTP = smtplib.SMTP_SSL(delivery.host, delivery.port, timeout=SECONDS, context=context)
    else:
        host = smtplib.SMTP(delivery.host, delivery.port, timeout=SECONDS)
    if delivery.tls == "starttls":
        host.starttls(context=context)
    if delivery.user:
        host.login(delivery.user, Path(delivery.password_file).read_text(encoding="utf-8").strip())
    host.ehlo_or_helo_if_needed()
    return host


def _by_host(host: smtplib.SMTP, sender: str, to: str, content: bytes) -> None:
    """Hands a letter to a host. It is in doubt only once the host may have all of it."""
    try:
        _accepted(host.mail(sender))
        _accepted(host.rcpt(to))
    except OSError as wrong:  # (a connection that broke is one, too)
        raise NotAccepted(f"the connection broke: {wrong}", is_last=True) from wrong
    except NotAccepted:
        _reset(host)
        raise
    try:
        _accepted(host.data(content.replace(b"\n", b"\r\n")))
    except smtplib.SMTPDataError as wrong:
        raise NotAccepted(str(wrong), is_last=wrong.smtp_code == CLOSING) from wrong
    except OSError as wrong:
        raise Unknown(f"the connection broke: {wrong}") from wrong


def _accepted(answer: tuple[int, bytes]) -> None:
    """Fails if a host refuses: the letter, or all that would follow."""
    code, text = answer
    if not 200 <= code < 300:
        raise NotAccepted(f"{code} {text.decode('utf-8', 'replace')}", is_last=code == CLOSING)


def _reset(host: smtplib.SMTP) -> None:
    """Has a host forget a letter that it refused. The next one fails if the host does not."""
    with suppress(OSError):
        host.rset()


def _by_sendmail(delivery: Delivery, sender: str, to: str, content: bytes) -> None:
    try:
        done = subprocess.run([*delivery.sendmail, "-oi", "-f", sender, "--", to], input=content, capture_output=True, check=False,
                              timeout=SECONDS)
    except subprocess.TimeoutExpired as wrong:
        raise Unknown(f"sendmail did not end within {SECONDS} seconds") from wrong
    except OSError as wrong:
        raise NotAccepted(f"{delivery.sendmail[0]} does not run: {wrong.strerror}", is_last=True) from wrong
    if done.returncode < 0:
        raise Unknown(f"sendmail was stopped by signal {-done.returncode}")
    if done.returncode != 0:
        raise NotAccepted(f"sendmail ended with status {done.returncode}: {done.stderr.decode('utf-8', 'replace').strip()[:200]}")
