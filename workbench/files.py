"""The files of a user: TOML texts that are read, and changed so that all else in them stays as it was.

An edit is a dict: `{"op": "set", "path": [..], "value": V}` (V None takes the key away), `{"op": "add", "table": NAME,
"value": {..}}` (a table behind the others of its name) or `{"op": "remove", "table": NAME, "at": N}` (N from 0; of the
faces of a part also what stands on it) or `{"op": "replace", "table": NAME, "values": [{..}, ..]}` (all tables of a name,
by others, behind all else). Lengths are whole micrometres, as the files have them.
"""
from __future__ import annotations

import os
import tempfile
import tomllib
from pathlib import Path
from typing import Any

import tomlkit
from tomlkit.exceptions import TOMLKitError

MARK = "\ufeff"
"""Some editors put this mark in front of a text; it stays there."""


class FaultyEdit(Exception):
    """The text isn't TOML, or an edit names what isn't there; the text of the exception says which."""


def read_toml(text: str) -> dict[str, Any]:
    """The data of a TOML text. Raises ValueError, which names the line and the column, where it isn't TOML."""
    return tomllib.loads(text.removeprefix(MARK))


def change_toml(text: str, edits: list[dict[str, Any]]) -> str:
    """The text after the edits; comments, the order of keys and other values' spelling stay. Raises FaultyEdit."""
    mark = MARK if text.startswith(MARK) else ""
    try:
        document = tomlkit.parse(text.removeprefix(MARK))
        for edit in edits:
            apply_edit(document, edit)
        return mark + tomlkit.dumps(document)
    except TOMLKitError as fault:
        raise FaultyEdit(f"the text isn't TOML: {fault}") from None
    except UnicodeEncodeError:
        raise FaultyEdit("the text isn't UTF-8: save it as UTF-8") from None
    except (KeyError, IndexError, TypeError, ValueError, AttributeError) as fault:
        raise FaultyEdit(f"an edit names what isn't there: {fault}") from None


def apply_edit(document: Any, edit: dict[str, Any]) -> None:
    """Makes one edit in a parsed document."""
    kind = edit["op"]
    if kind == "set":
        set_value(document, list(edit["path"]), edit["value"])
    elif kind == "add":
        add_table(document, edit["table"], edit["value"])
    elif kind == "remove" and edit.get("table", "face") == "face":
        remove_face(document, edit["at"])
    elif kind == "replace":
        document.pop(edit["table"], None)
        for values in edit["values"]:
            add_table(document, edit["table"], values)
    elif kind == "remove":
        del document[edit["table"]][edit["at"]]
    else:
        raise ValueError(f"no edit is called {kind}")


def set_value(document: Any, path: list[Any], value: Any) -> None:
    """Sets the value at a path; None takes the key away. A face that is renamed keeps what stands on it."""
    *way, key = path
    table = document
    for step in way:
        table = table[step]
    old = table.get(key)
    if way[:1] == ["face"] and key == "name":
        for face in document["face"]:
            if face.get("on") == old:
                put(face, "on", value)
    if value is None:
        if key in table:
            del table[key]
    elif way or key in table:
        put(table, key, value)
    else:
        put_on_top(document, key, value)


def put(table: Any, key: str, value: Any) -> None:
    """Sets one value of a table; the comment behind it and the blanks before that stay."""
    old = table.get(key)
    item = tomlkit.item(value)
    if old is not None and hasattr(old, "trivia"):
        item.trivia.comment, item.trivia.comment_ws = old.trivia.comment, old.trivia.comment_ws
        item.trivia.trail = old.trivia.trail
    table[key] = item


def put_on_top(document: Any, key: str, value: Any) -> None:
    """A new key of the top table: behind its last key, since below a header it would be that table's."""
    tables = (tomlkit.items.Table, tomlkit.items.AoT)
    before = None
    for name, item in document.items():
        if isinstance(item, tables):
            break
        before = name
    if before is None:
        raise ValueError("the top table has no key yet")
    document._insert_after(before, key, tomlkit.item(value))  # tomlkit has no public call for this


def add_table(document: Any, name: str, values: dict[str, Any]) -> None:
    """A table of an array of tables, behind the others and set off by an empty line."""
    rows = document.get(name)
    new = tomlkit.table()
    for key, value in values.items():
        new[key] = value
    if rows is None:
        rows = document[name] = tomlkit.aot()
    if rows and not rows[-1].as_string().endswith("\n\n"):
        rows[-1].add(tomlkit.nl())
    rows.append(new)


def remove_face(document: Any, at: int) -> None:
    """Removes a face and all that stands on it."""
    rows = document["face"]
    names: set[str] = set()
    for number, face in enumerate(rows):
        if number == at or face.get("on") in names:
            names.add(str(face["name"]))
    for number in reversed(range(len(rows))):
        if rows[number]["name"] in names:
            del rows[number]


def store_whole(path: Path, data: bytes) -> None:
    """Stores a file whole or not at all: written beside, flushed, renamed. A file that was there keeps its mode.

    Raises OSError; then nothing of the new file is left.
    """
    handle, beside = tempfile.mkstemp(prefix=".desk-", dir=path.parent)
    try:
        with open(handle, "wb") as file:
            file.write(data)
            file.flush()
            os.fsync(file.fileno())
        os.chmod(beside, path.stat().st_mode & 0o777 if path.exists() else 0o644)
        os.replace(beside, path)
    except BaseException:
        os.unlink(beside)
        raise
