#!/usr/bin/env python3
"""Writes hostile texts of certificates: each is to be refused with one line, soon, and in little memory.

    bench/hostile.py CERT FOLDER [--large]

CERT is a good certificate in which one place is changed at a time, as examples/u_channel/plan.cert. With --large three
texts of 100 MB come too. FOLDER is made where it isn't there; a file of it with one of the names is stored over.
"""
from __future__ import annotations

import argparse
import re
import sys
from collections.abc import Callable, Iterator
from pathlib import Path

MEGABYTE = 1_000_000
PIECE = 1 << 20
Text = Iterator[bytes]
Maker = Callable[[bytes], Text]


def once(text: bytes) -> Text:
    """A text that is held whole."""
    yield text


def filled(byte: bytes, size: int) -> Text:
    """A text of one byte, so many times."""
    while size > 0:
        yield byte * min(size, PIECE)
        size -= PIECE


def with_claim(number: bytes) -> Maker:
    """The certificate with another number in the line of its claim."""
    return lambda cert: once(re.sub(rb"^claim .*$", lambda _: b"claim " + number, cert, count=1, flags=re.M))


def with_rows(count: int) -> Maker:
    """The certificate up to its first row, and then that row so many times."""
    def text(cert: bytes) -> Text:
        head, _, rest = cert.partition(b"\nrow ")
        line = b"row " + rest.split(b"\n", 1)[0] + b"\n"
        yield head + b"\n"
        for start in range(0, count, 10_000):
            yield line * min(10_000, count - start)
    return text


def without_notes(cert: bytes) -> Text:
    """The certificate without the notes of its rows: the rows prove too little."""
    return once(re.sub(rb"^x .*\n", b"", cert, flags=re.M))


def with_a_space_behind_the_last_note(cert: bytes) -> Text:
    """The certificate with one space too many, as late as can be."""
    place = cert.rfind(b"\nx ")
    end = cert.find(b"\n", place + 1)
    return once(cert[:end] + b" " + cert[end:] if place >= 0 else cert[:-1] + b" \n")


TEXTS: dict[str, Maker] = {
    "empty": lambda cert: once(b""),
    "no_last_line_feed": lambda cert: once(cert[:-1]),
    "a_byte_behind_the_end": lambda cert: once(cert + b"x"),
    "claim_with_leading_zeros": with_claim(b"007"),
    "claim_of_minus_zero": with_claim(b"-0"),
    "claim_of_19_digits": with_claim(b"9" * 19),
    "claim_with_a_nul_byte": with_claim(b"1\x00"),
    "claim_of_a_million_digits": with_claim(b"1" * MEGABYTE),
    "a_nul_byte_first": lambda cert: once(b"\x00" + cert),
    "first_line_of_a_megabyte": lambda cert: once(b"a" * MEGABYTE + b"\n" + cert),
    "a_million_rows_of_one_key": with_rows(MEGABYTE),
    "without_notes": without_notes,
    "a_space_behind_the_last_note": with_a_space_behind_the_last_note,
}
LARGE: dict[str, Maker] = {
    "seven_million_rows_of_one_key": with_rows(7 * MEGABYTE),
    "100_megabytes_of_zeros": lambda cert: filled(b"0", 100 * MEGABYTE),
    "100_megabytes_of_line_feeds": lambda cert: filled(b"\n", 100 * MEGABYTE),
}


def write(cert: bytes, folder: Path, makers: dict[str, Maker]) -> list[Path]:
    """Stores the texts that these make of a certificate, each under its name, and gives their paths."""
    folder.mkdir(parents=True, exist_ok=True)
    paths = [folder / f"{name}.cert" for name in makers]
    for path, make in zip(paths, makers.values(), strict=True):
        with path.open("wb") as file:
            for piece in make(cert):
                file.write(piece)
    return paths


def main(words: list[str]) -> int:
    """Writes the texts that the words ask for."""
    reader = argparse.ArgumentParser(prog="bench/hostile.py", description=__doc__,
                                     formatter_class=argparse.RawDescriptionHelpFormatter)
    reader.add_argument("cert", metavar="CERT", type=Path)
    reader.add_argument("folder", metavar="FOLDER", type=Path)
    reader.add_argument("--large", action="store_true")
    given = reader.parse_args(words)
    try:
        write(given.cert.read_bytes(), given.folder, TEXTS | (LARGE if given.large else {}))
    except OSError as fault:
        print(f"bench/hostile.py: {fault.filename}: {fault.strerror}", file=sys.stderr)
        return 6
    return 0


if __name__ == "__main__":
    sys.exit(main(sys.argv[1:]))
