"""Why a command ends early."""


class Failure(Exception):
    """A command cannot go on. Its text goes to standard error, and the command ends with the status."""

    def __init__(self, text: str, status: int = 2) -> None:
        super().__init__(text)
        self.status = status
