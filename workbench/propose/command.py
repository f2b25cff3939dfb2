"""`brake propose`: one part, or with `--all` a folder of them."""
from __future__ import annotations

import signal
import sys
from types import FrameType

from ..program import NoProgram, find_program
from .errors import Refused, Stop
from .words import USAGE, WrongWords, read_words


def _say(text: str) -> None:
    printable = "".join(c if c.isprintable() else "?" for c in text)
    print(f"brake: {printable[:2000]}", file=sys.stderr)


class _Ended(BaseException):
    """A signal that ends the run."""

    def __init__(self, number: int) -> None:
        super().__init__(number)
        self.number = number


def _end(number: int, frame: FrameType | None) -> None:
    raise _Ended(number)


def main(words: list[str]) -> int:
    """Runs `brake propose` on the words behind it, and gives the exit status: 0 a plan is among the kept setups, 1 none,
    2 the words are wrong, 3 a file is refused, 6 a file can't be read or stored or the program failed, 7 no memory,
    70 no program, or an input would be stored over."""
    try:
        meaning = read_words(words)
    except WrongWords as fault:
        print(USAGE)
        _say(f"propose: {fault}")
        return 2
    for number in (signal.SIGTERM, signal.SIGHUP):
        signal.signal(number, _end)
    try:
        program = find_program()
        if meaning.folder is not None:
            from .folder import propose_all
            return propose_all(program, meaning.folder, meaning.choices)
        from .one import propose_one
        assert meaning.files is not None
        return propose_one(program, meaning.files, meaning.choices)
    except NoProgram as fault:
        _say(str(fault))
        return 70
    except Stop as fault:
        _say(fault.text)
        return fault.status
    except Refused as fault:
        print("\n".join(fault.lines))
        return 3
    except _Ended as fault:
        return 128 + fault.number
