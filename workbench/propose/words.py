"""The words of `brake propose`."""
from __future__ import annotations

import argparse
from dataclasses import dataclass
from typing import Callable

USAGE = ("usage: brake propose (PART TOOLS MACHINE OUT | --all FOLDER) [--keep K] [--tries N] [--budget N] [--punches A,B] "
         "[--dies A,B] [--quiet]")


class WrongWords(Exception):
    """The words match neither form; the text says which one doesn't."""


@dataclass(frozen=True)
class Choices:
    """What may be chosen beside the files."""

    keep: int = 6
    """At most so many setups are kept, 1 to 16."""
    tries: int = 120
    """At most so many runs of the program, 1 to 100,000."""
    budget: int = 200_000
    """Keys that a run on made-up stations may settle, 1 to 4,294,967,295."""
    punches: tuple[str, ...] = ()
    """Only these punches, in this order of preference; none named: all."""
    dies: tuple[str, ...] = ()
    """Only these dies, in this order of preference; none named: all."""
    quiet: bool = False


@dataclass(frozen=True)
class Words:
    """The command line: four files, or a folder of many parts."""

    files: tuple[str, str, str, str] | None
    folder: str | None
    choices: Choices


class _Parser(argparse.ArgumentParser):
    def error(self, message: str) -> None:  # type: ignore[override]
        raise WrongWords(message)


def _number(low: int, high: int) -> Callable[[str], int]:
    def read(word: str) -> int:
        plain = word.isascii() and word.isdigit() and (word == "0" or word[0] != "0")
        if not plain or len(word) > 12 or not low <= int(word) <= high:
            raise argparse.ArgumentTypeError(f"'{word[:40]}' isn't a whole number, {low} to {high}")
        return int(word)
    return read


def _names(word: str) -> tuple[str, ...]:
    names = tuple(dict.fromkeys(word.split(",")))
    if "" in names:
        raise argparse.ArgumentTypeError(f"'{word[:40]}' has an empty name; names are parted by a comma")
    return names


def read_words(words: list[str]) -> Words:
    """The meaning of the words behind `propose`. Raises WrongWords."""
    parser = _Parser(prog="brake propose", add_help=False, allow_abbrev=False)
    parser.add_argument("files", nargs="*")
    parser.add_argument("--all", dest="folder")
    parser.add_argument("--keep", type=_number(1, 16), default=Choices.keep)
    parser.add_argument("--tries", type=_number(1, 100_000), default=Choices.tries)
    parser.add_argument("--budget", type=_number(1, 4_294_967_295), default=Choices.budget)
    parser.add_argument("--punches", type=_names, default=())
    parser.add_argument("--dies", type=_names, default=())
    parser.add_argument("--quiet", action="store_true")
    got = parser.parse_args(words)
    if any(name == "" for name in got.files) or got.folder == "":
        raise WrongWords("a file's name is empty")
    choices = Choices(got.keep, got.tries, got.budget, got.punches, got.dies, got.quiet)
    if got.folder is not None and not got.files:
        return Words(None, got.folder, choices)
    if got.folder is None and len(got.files) == 4:
        part, tools, machine, out = got.files
        return Words((part, tools, machine, out), None, choices)
    raise WrongWords(f"{len(got.files)} file names" + (" beside --all" if got.folder else " in place of four"))
