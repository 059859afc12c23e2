"""What ends a command: a sentence for the umpire, and the status of the program."""

WRONG_ASKED = 1
FILE_REFUSED = 2
SET_ASIDE = 3
DEVICE_FAILED = 4
TRY_AGAIN = 75  # (by which a mail host keeps a message, and hands it over again later)


class PostError(Exception):
    """A command that cannot be carried out. Nothing has changed."""

    def __init__(self, sentence: str, status: int = WRONG_ASKED) -> None:
        super().__init__(sentence)
        self.status = status
