"""The user's folder: the only place of the desk that reads or writes it.

The files there are the truth. The desk keeps nothing of its own but `.desk` in it: drafts, earlier versions, and with
which files a part was last planned. It may be deleted at any time.
"""
from __future__ import annotations

import hashlib
import json
import os
import re
import threading
import time
from pathlib import Path
from typing import Any

from workbench.desk.refused import Refused
from workbench.files import store_whole

MOST_FILE = 1 << 20
MOST_CERTIFICATE = 64 << 20
HEAD = 1 << 16
KEPT_VERSIONS = 100
MOST_LISTED = 2000
DEEPEST = 3
KINDS = {"part": "face", "tools": "punch", "machine": "gauge", "setups": "setup"}
NAME = re.compile(r"[^/\x00-\x1f\x7f.][^/\x00-\x1f\x7f]{0,99}(/[^/\x00-\x1f\x7f.][^/\x00-\x1f\x7f]{0,99}){0,3}")
TOML = (".toml",)
CERT = (".cert",)


def tag_of(data: bytes) -> str:
    """A version's mark, by its bytes."""
    return hashlib.sha256(data).hexdigest()[:24]


def explain(fault: OSError) -> str:
    """Why the system didn't do it."""
    return fault.strerror or type(fault).__name__


class Folder:
    """A folder of files, by names relative to it."""

    def __init__(self, root: str | os.PathLike[str]) -> None:
        self.root = os.path.realpath(root)
        self.own = os.path.join(self.root, ".desk")
        self.lock = threading.Lock()
        self.kinds: dict[tuple[str, int, int], str] = {}

    def sweep(self) -> None:
        """Removes what a killed desk has left beside the files; an hour old, so that no other desk's is taken."""
        for at, folders, files in os.walk(self.root):
            folders[:] = [name for name in folders if not name.startswith(".") or name == ".desk"]
            for file in files:
                path = os.path.join(at, file)
                if file.startswith(".desk-") and time.time() - os.lstat(path).st_mtime > 3600:
                    os.unlink(path)

    def path(self, name: Any, ends: tuple[str, ...] = TOML) -> str:
        """The path of a name: below the folder, no hidden part, no link on the way. Raises Refused."""
        if not isinstance(name, str) or not NAME.fullmatch(name) or not name.endswith(ends):
            raise Refused(400, "this isn't the name of a file of the folder")
        try:
            path = os.path.join(self.root, name)
            if os.path.realpath(path) != path:
                raise Refused(400, "this name leads out of the folder by a link")
        except UnicodeEncodeError:
            raise Refused(400, "this isn't the name of a file of the folder") from None
        return path

    def read(self, name: Any, ends: tuple[str, ...] = TOML, most: int = MOST_FILE) -> bytes:
        """A file's bytes. Raises Refused: there is none, it can't be read, it is longer than `most` bytes."""
        path = self.path(name, ends)
        data = self.take(path, name, most + 1)
        if len(data) > most:
            raise Refused(413, f"{name} is longer than {most} bytes")
        return data

    def read_head(self, name: Any, ends: tuple[str, ...]) -> bytes:
        """The first bytes of a file. Raises Refused."""
        return self.take(self.path(name, ends), name, HEAD)

    @staticmethod
    def take(path: str, name: str, most: int) -> bytes:
        """At most so many bytes of a file; a link isn't followed, and a pipe isn't waited for."""
        try:
            with open(os.open(path, os.O_RDONLY | os.O_NOFOLLOW | os.O_NONBLOCK), "rb") as file:
                return file.read(most) or b""
        except (FileNotFoundError, NotADirectoryError):
            raise Refused(404, f"there is no file {name}") from None
        except OSError as fault:
            raise Refused(409, f"{name} can't be read: {explain(fault)}") from None

    def read_text(self, name: Any) -> str:
        """A file's text. Raises Refused also where it isn't UTF-8: shown otherwise, it would be stored otherwise."""
        data = self.read(name)
        try:
            return data.decode()
        except UnicodeDecodeError as fault:
            line = data[:fault.start].count(b"\n") + 1
            words = f"{name} isn't UTF-8 in line {line}: save it as UTF-8 in the editor that wrote it"
            raise Refused(409, words) from None

    def write(self, name: Any, data: bytes, tag: str | None, ends: tuple[str, ...] = TOML) -> str:
        """Stores a file whole or not at all, and only over the version whose tag is given; that one is kept.

        `tag` is None where the file is to be new. Gives the new version's tag. Raises Refused, with the other
        version's text and tag where it isn't the one that was given.
        """
        path = self.path(name, ends)
        if ends == TOML and len(data) > MOST_FILE:
            raise Refused(413, f"{name} would be longer than {MOST_FILE} bytes")
        with self.lock:
            old = self.read(name, ends, MOST_CERTIFICATE) if os.path.lexists(path) else None
            self.compare(name, old, tag)
            try:
                if old is not None and old != data:
                    self.keep(name, old)
                os.makedirs(os.path.dirname(path), exist_ok=True)
                store_whole(Path(path), data)
            except OSError as fault:
                raise Refused(507, f"{name} couldn't be stored, and is as it was: {explain(fault)}") from None
        return tag_of(data)

    @staticmethod
    def compare(name: str, old: bytes | None, tag: str | None) -> None:
        """Raises Refused where the version that is there isn't the one that the caller has seen."""
        if old is None and tag is not None:
            raise Refused(409, f"{name} is no longer there", text=None, tag=None)
        if old is not None and tag_of(old) != tag:
            words = f"{name} is there already" if tag is None else f"{name} was changed by another program"
            raise Refused(409, words, text=old.decode("utf-8", "replace"), tag=tag_of(old))

    def store_certificate(self, name: str, data: bytes) -> None:
        """Stores a certificate, which the program has just made, over an older one of its part. Raises Refused."""
        path = self.path(name, CERT)
        old = self.read(name, CERT, MOST_CERTIFICATE) if os.path.lexists(path) else None
        self.write(name, data, None if old is None else tag_of(old), CERT)

    def keep(self, name: str, data: bytes) -> None:
        """Keeps an earlier version, and of all the last hundred."""
        place = os.path.join(self.own, "history", name)
        os.makedirs(place, exist_ok=True)
        end = name[name.rindex("."):]
        store_whole(Path(place, time.strftime("%Y%m%d-%H%M%S-") + tag_of(data)[:8] + end), data)
        for old in sorted(os.listdir(place))[:-KEPT_VERSIONS]:
            os.unlink(os.path.join(place, old))

    def draft_path(self, name: str) -> str:
        """Where the draft of a file is kept."""
        self.path(name)
        return os.path.join(self.own, "drafts", name)

    def read_draft(self, name: str) -> str | None:
        """The draft of a file, where there is one."""
        try:
            return Path(self.draft_path(name)).read_text(encoding="utf-8")
        except (FileNotFoundError, NotADirectoryError, UnicodeDecodeError):
            return None

    def keep_draft(self, name: str, text: str) -> None:
        """Keeps what is being edited, so that a killed desk loses none of it; not where it is stored. Raises Refused."""
        path = Path(self.draft_path(name))
        try:
            if self.take(self.path(name), name, MOST_FILE + 1) == text.encode():
                path.unlink(missing_ok=True)
                return
        except Refused:
            pass  # a new file, or one that can't be read
        try:
            path.parent.mkdir(parents=True, exist_ok=True)
            store_whole(path, text.encode())
        except OSError as fault:
            raise Refused(507, f"the draft of {name} couldn't be kept: {explain(fault)}") from None

    def drop_draft(self, name: str) -> None:
        """Drops the draft of a file."""
        Path(self.draft_path(name)).unlink(missing_ok=True)

    def pairs(self) -> dict[str, dict[str, str]]:
        """With which tools and machine each part was last planned."""
        try:
            found = json.loads(Path(self.own, "pairs.json").read_text(encoding="utf-8"))
            return found if isinstance(found, dict) else {}
        except (OSError, ValueError):
            return {}

    def keep_pair(self, part: str, tools: str, machine: str) -> None:
        """Keeps with which files a part was planned; where that can't be stored, nothing else is lost by it."""
        with self.lock:
            found = {**self.pairs(), part: {"tools": tools, "machine": machine}}
            try:
                os.makedirs(self.own, exist_ok=True)
                store_whole(Path(self.own, "pairs.json"), json.dumps(found, indent=1).encode())
            except OSError:
                pass

    def list(self) -> list[dict[str, Any]]:
        """The files of the folder by name: kind, size, and a mark that changes with the file."""
        found: list[dict[str, Any]] = []
        for at, folders, files in os.walk(self.root):
            deep = 0 if at == self.root else os.path.relpath(at, self.root).count(os.sep) + 1
            folders[:] = sorted(name for name in folders if not name.startswith(".")) if deep < DEEPEST else []
            for file in sorted(files):
                if file.startswith(".") or not file.endswith((".toml", ".cert")) or len(found) >= MOST_LISTED:
                    continue
                name = os.path.relpath(os.path.join(at, file), self.root)
                row = self.row(name, os.path.join(at, file))
                if row is not None:
                    found.append(row)
        return found

    def row(self, name: str, path: str) -> dict[str, Any] | None:
        """A line of the list; None where the file has just gone."""
        try:
            found = os.lstat(path)
        except OSError:
            return None
        kind = "cert" if name.endswith(".cert") else self.kind(name, found)
        return {"name": name, "kind": kind, "size": found.st_size,
                "seen": f"{found.st_mtime_ns}-{found.st_size}-{found.st_ino}"}

    def kind(self, name: str, found: os.stat_result) -> str:
        """What a TOML file is, by its tables."""
        key = (name, found.st_mtime_ns, found.st_size)
        if key not in self.kinds:
            try:
                text = self.read(name).decode("utf-8", "replace")
            except Refused:
                return "other"
            self.kinds[key] = next((kind for kind, word in KINDS.items()
                                    if re.search(rf"(?m)^\s*\[?\[{word}\]", text)), "other")
        return self.kinds[key]
