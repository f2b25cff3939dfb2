"""How a command of the exchange ends where it can't do what was asked: one sentence and an exit status."""
from __future__ import annotations

import sys
from typing import Callable

WORDS, REFUSED, CERTIFICATE, FILES, LAUNCHER = 2, 3, 5, 6, 70
"""Faulty words, a refused file, a refused certificate, a file that can't be read or stored, and what would be lost."""


class Ends(Exception):
    """Ends the command: a sentence for standard error, an exit status, and what standard output gets before."""

    def __init__(self, text: str, status: int = REFUSED, printed: str = "") -> None:
        super().__init__(text)
        self.text, self.status, self.printed = text, status, printed


class WrongWords(Ends):
    """The words of the command line match no form."""

    def __init__(self, text: str) -> None:
        super().__init__(text, WORDS)


def say(text: str) -> None:
    """One line on standard error; control characters are shown as '?'."""
    printable = "".join(c if c.isprintable() else "?" for c in text)
    print(f"brake: {printable[:2000]}", file=sys.stderr)


def run(name: str, usage: str, command: Callable[[list[str]], int], words: list[str]) -> int:
    """Runs a command on its words and gives its exit status; faulty words get the usage line before the sentence."""
    try:
        return command(words)
    except WrongWords as fault:
        print(usage)
        say(f"{name}: {fault.text}")
        return fault.status
    except Ends as fault:
        if fault.printed:
            print(fault.printed)
        say(fault.text)
        return fault.status
