"""Exceptions that end a measurement early."""


class Stop(Exception):
    """Nothing more is measured. The text says why."""


class Failed(Exception):
    """A part failed. Others can still be measured. The text says why."""


class Interrupted(Exception):
    """A signal ended the run."""

    def __init__(self, number: int) -> None:
        super().__init__(number)
        self.number = number
