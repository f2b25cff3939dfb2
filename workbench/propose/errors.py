"""What ends a run of `propose`, with the exit status that the user gets."""
from __future__ import annotations


class Stop(Exception):
    """Ends the run: a text for standard error and an exit status."""

    def __init__(self, text: str, status: int) -> None:
        super().__init__(text)
        self.text, self.status = text, status


class Refused(Exception):
    """The program refused a file: the words of the command that did, and the lines that it printed."""

    def __init__(self, words: list[str], lines: list[str]) -> None:
        super().__init__(" ".join(lines))
        self.words, self.lines = words, lines


class TriesUsed(Exception):
    """All runs of the program that `--tries` allows are used."""
