"""The Folder view and the files: what lies in the folder, reading, storing, drafts."""
from __future__ import annotations

from typing import Any

from workbench.desk.folder import CERT, Folder, tag_of
from workbench.desk.refused import Refused
from workbench.desk.server import Api, Desk
from workbench.files import read_toml

MOST_PARTS = 500


def parsed(text: str) -> dict[str, Any]:
    """The data of a text, or what is wrong with it."""
    try:
        return read_toml(text)
    except ValueError as fault:
        return {"error": str(fault)}


def job_lines(part: dict[str, Any]) -> list[str]:
    """The lines of a part's faces as certificates have them."""
    faces = part["face"]
    names = [face["name"] for face in faces]
    lines = [f"face {faces[0]['name']} {faces[0]['width']} {faces[0]['length']}"]
    for face in faces[1:]:
        sizes = [face[key] for key in ("side", "at", "width", "length", "dir")]
        lines.append(" ".join(str(word) for word in ("face", face["name"], names.index(face["on"]), *sizes)))
    return lines


def plan_of(part: dict[str, Any], head: bytes) -> dict[str, Any]:
    """What a certificate says of a part: its claim, and whether it is of the part's present state."""
    lines = head.split(b"\nrow ", 1)[0].decode("utf-8", "replace").split("\n")
    claim = next((line[6:] for line in lines if line.startswith("claim ")), None)
    if claim is None:
        return {}
    sheet = f"part {part['material']} {part['thickness']} {part['radius']} "
    of_faces = [line for line in lines if line.startswith("face ")] == job_lines(part)
    return {"claim": claim, "current": of_faces and any(line.startswith(sheet) for line in lines[:3])}


def part_row(folder: Folder, name: str) -> dict[str, Any]:
    """A row of the Folder view: the part, and what the certificate beside it says."""
    row: dict[str, Any] = {"name": name}
    try:
        part = read_toml(folder.read_text(name))
        row.update(material=part["material"], thickness=part["thickness"], bends=len(part["face"]) - 1)
        row.update(plan_of(part, folder.read_head(name.removesuffix(".toml") + ".cert", CERT)))
    except Refused as refused:
        if refused.status != 404:
            row["wrong"] = refused.body["error"]
    except (KeyError, TypeError, ValueError, IndexError, AttributeError):
        if "bends" not in row:
            row["wrong"] = "can't be read as a part"
    return row


class Rows:
    """The rows of the Folder view, each kept until its part or its certificate changes."""

    def __init__(self, folder: Folder) -> None:
        self.folder = folder
        self.kept: dict[str, tuple[Any, dict[str, Any]]] = {}

    def all(self) -> list[dict[str, Any]]:
        """A row for each part of the folder."""
        files = self.folder.list()
        seen = {file["name"]: file["seen"] for file in files}
        names = [file["name"] for file in files if file["kind"] == "part"][:MOST_PARTS]
        return [self.row(name, (seen[name], seen.get(name.removesuffix(".toml") + ".cert"))) for name in names]

    def row(self, name: str, mark: Any) -> dict[str, Any]:
        """The row of a part in the state of this mark."""
        if self.kept.get(name, (None,))[0] != mark:
            self.kept[name] = mark, part_row(self.folder, name)
        return self.kept[name][1]


def register(api: Api, desk: Desk) -> None:
    """The endpoints of this view."""
    folder, rows = desk.folder, Rows(desk.folder)

    @api.on("GET", "/api/folder")
    def listed(_given: dict[str, Any]) -> dict[str, Any]:
        return {"folder": folder.root, "files": folder.list(), "pairs": folder.pairs()}

    @api.on("GET", "/api/parts")
    def parts(_given: dict[str, Any]) -> dict[str, Any]:
        return {"parts": rows.all()}

    @api.on("GET", "/api/file")
    def read(given: dict[str, Any]) -> dict[str, Any]:
        text = folder.read_text(given["name"])
        draft = folder.read_draft(given["name"])
        return {"name": given["name"], "text": text, "tag": tag_of(text.encode()), "data": parsed(text),
                "draft": draft if draft != text else None}

    @api.on("PUT", "/api/file")
    def store(given: dict[str, Any]) -> dict[str, Any]:
        tag = folder.write(given["name"], given["text"].encode(), given["tag"])
        folder.drop_draft(given["name"])
        return {"tag": tag}

    @api.on("DELETE", "/api/draft")
    def drop(given: dict[str, Any]) -> dict[str, Any]:
        folder.drop_draft(given["name"])
        return {}
