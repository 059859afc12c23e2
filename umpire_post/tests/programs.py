"""The programs for the tests: those that UMPIRE and UMPIRE_DESK name. Each is asked once for each
answer."""

import os
from collections.abc import Sequence

from umpire_post.programs import Programs


class Remembering(Programs):
    """Programs that remember what they answered."""

    def __init__(self) -> None:
        super().__init__([os.environ["UMPIRE"]], [os.environ["UMPIRE_DESK"]])
        self.answers: dict[tuple[tuple[str, ...], bytes], tuple[int, str]] = {}

    def _run(self, words: Sequence[str], orders: bytes) -> tuple[int, str]:
        asked = (tuple(words), orders)
        if asked not in self.answers:
            self.answers[asked] = super()._run(words, orders)
        return self.answers[asked]


PROGRAMS = Remembering()
