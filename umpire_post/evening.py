"""What a command works with, and how it tells things."""

from collections.abc import Callable
from dataclasses import dataclass
from datetime import datetime
from pathlib import Path

from umpire_post.club import Club
from umpire_post.errors import PostError
from umpire_post.folder import Folder
from umpire_post.programs import Programs, Report


@dataclass(frozen=True)
class Evening:
    """What a command works with: the programs, the clock, where it tells the umpire, and the folder of
    the script."""

    programs: Programs
    now: Callable[[], datetime]
    tell: Callable[[str], None]
    home: Path

    def time(self) -> str:
        return self.now().isoformat(timespec="seconds")

    def programs_of(self, club: Club) -> Programs:
        """Returns the programs with the limit that the club names."""
        return self.programs.within(club.seconds)

    def report_of(self, folder: Folder) -> Report:
        """Returns the report of a game. Fails with the name of the game if there is none."""
        try:
            return self.programs_of(folder.club).report(folder.orders)
        except PostError as wrong:
            raise PostError(f"{folder.club.game}: {wrong}", wrong.status) from wrong

    def tell_all(self, text: str) -> None:
        """Tells each line of a text, a little to the right."""
        for line in text.splitlines():
            self.tell(f"  {line}")
