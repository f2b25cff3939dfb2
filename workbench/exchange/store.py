"""Stores a file whole, and never over an input."""
from __future__ import annotations

import os
import tempfile
from pathlib import Path

from .endings import FILES, LAUNCHER, Ends


def keep_inputs(out: Path, inputs: list[Path], *, is_new: bool = False) -> None:
    """Refuses a place that is an input by any spelling, or that can't take a file; with `is_new` one that is taken.

    Raises Ends, before any work is done.
    """
    for name in inputs:
        if out.exists() and name.exists() and out.samefile(name):
            raise Ends(f"{out} is the same file as {name}, which would be lost: nothing was done. "
                       "Give another name for what is to be stored", LAUNCHER)
    if out.is_dir():
        raise Ends(f"{out} can't be stored: it is a folder", FILES)
    if not out.parent.is_dir():
        raise Ends(f"{out} can't be stored: there is no folder {out.parent}", FILES)
    if is_new and os.path.lexists(out):
        raise Ends(f"{out} is there already: nothing was done. Give another name, or remove it first", LAUNCHER)


def store_whole(out: Path, data: bytes) -> None:
    """Stores a file whole or not at all: written beside, flushed, renamed. A file that was there keeps its mode.

    A device or a pipe is written in place. Raises Ends; then nothing of the new file is left.
    """
    try:
        if out.exists() and not out.is_file():
            out.write_bytes(data)
            return
        _store_beside(out.resolve(), data)
    except OSError as fault:
        raise Ends(f"{out} can't be stored: {fault.strerror}", FILES) from fault


def _store_beside(out: Path, data: bytes) -> None:
    handle, beside = tempfile.mkstemp(prefix=".brake-", dir=out.parent)
    try:
        with open(handle, "wb") as file:
            file.write(data)
            file.flush()
            os.fsync(file.fileno())
        os.chmod(beside, out.stat().st_mode & 0o777 if out.exists() else 0o644)
        os.replace(beside, out)
    except BaseException:
        os.unlink(beside)
        raise
