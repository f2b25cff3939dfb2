"""The user's files: one changed field is one changed line, nothing is lost, nothing is stored over unseen."""
from __future__ import annotations

import os
import resource
import signal
import time
from collections.abc import Callable
from pathlib import Path
from typing import Any

import pytest

from workbench.desk.folder import Folder
from workbench.desk.refused import Refused
from workbench.tests.desk.helper import Desk, fill

PART = "bracket/part.toml"
LENGTH = [{"op": "set", "path": ["face", 2, "length"], "value": 16000}]


def edit(desk: Desk, text: str, ops: list[dict[str, Any]], **more: Any) -> Any:
    """An edit of the bracket."""
    return desk.post("/api/edit", {"text": text, "tools": "bracket/tools.toml", "ops": ops, **more})


def lines_that_differ(old: str, new: str) -> int:
    """How many lines differ; the texts have equally many."""
    before, after = old.split("\n"), new.split("\n")
    assert len(before) == len(after)
    return sum(one != other for one, other in zip(before, after))


@pytest.mark.parametrize("change", [
    lambda text: text, lambda text: text.replace("\n", "\r\n"), lambda text: "\ufeff" + text,
    lambda text: text.replace(" = ", "\t=\t"), lambda text: text.replace("60000", "60_000"), str.rstrip,
    lambda text: text.replace("length = 15000", "length = 15000   # as agreed"),
], ids=["plain", "CRLF", "BOM", "tabs", "underscores", "no last line end", "comment"])
def test_a_field_is_a_line(desk: Desk, shop: Path, change: Callable[[str], str]) -> None:
    text = change((shop / PART).read_text())
    answer = edit(desk, text, LENGTH)
    assert lines_that_differ(text, answer["text"]) == 1
    assert answer["text"].count("#") == text.count("#")
    assert answer["blank"]["status"] == 0 and answer["blank"]["out"].startswith("blank\nsize 80000 120244")


def test_a_renamed_face_keeps_what_stands_on_it(desk: Desk, shop: Path) -> None:
    answer = edit(desk, (shop / PART).read_text(), [{"op": "set", "path": ["face", 1, "name"], "value": "wall"}])
    assert answer["data"]["face"][2]["on"] == "wall" and answer["blank"]["status"] == 0


def test_a_face_takes_with_it_what_stands_on_it(desk: Desk, shop: Path) -> None:
    answer = edit(desk, (shop / PART).read_text(), [{"op": "remove", "at": 1}])
    assert [face["name"] for face in answer["data"]["face"]] == ["base"]


def test_a_new_key_of_the_machine_stands_on_top(desk: Desk, shop: Path) -> None:
    text = (shop / "bracket/machine.toml").read_text()
    answer = desk.post("/api/edit", {"text": text, "ops": [{"op": "set", "path": ["force"], "value": 500000}]})
    assert answer["data"]["force"] == 500000 and answer["text"].index("force") < answer["text"].index("[gauge]")


@pytest.mark.parametrize("path, value, faces, key, words", [
    (["face", 2, "at"], 5000, [2], None, "at + width = 85 mm reaches past the end"),
    (["face", 2, "length"], 1000, [2], "length", ""),
    (["radius"], 1, [], "radius", ""),
    (["face", 1, "side"], "X", [1], "side", ""),
])
def test_refusals_at_their_fields(desk: Desk, shop: Path, path: list[Any], value: Any, faces: list[int],
                                  key: str | None, words: str) -> None:
    blank = edit(desk, (shop / PART).read_text(), [{"op": "set", "path": path, "value": value}])["blank"]
    assert blank["status"] == 3 and blank["at"]["faces"] == faces and blank["at"]["key"] == key
    assert words in blank["words"][-1] and ".md" not in blank["words"][-1]


@pytest.mark.parametrize("ops", [
    [{"op": "set", "path": ["face", 9, "length"], "value": 1}], [{"op": "burn"}],
    [{"op": "remove", "table": "x", "at": 0}], [{}], [7], [{"op": "set", "path": [], "value": 1}]])
def test_edits_of_what_is_not_there(desk: Desk, shop: Path, ops: Any) -> None:
    assert desk.ask("POST", "/api/edit", {"text": (shop / PART).read_text(), "ops": ops})[0] == 400


def test_text_that_is_not_toml(desk: Desk, shop: Path) -> None:
    text = (shop / PART).read_text().replace("[[face]]", "[[face", 1)
    assert desk.ask("POST", "/api/edit", {"text": text, "ops": LENGTH})[0] == 400
    answer = desk.post("/api/edit", {"text": text, "tools": "bracket/tools.toml"})
    assert "line" in answer["data"]["error"] and answer["blank"]["status"] == 3


def test_text_that_is_not_utf8(desk: Desk, shop: Path) -> None:
    (shop / "latin.toml").write_bytes(b"# a\n# Tr\xe4ger\n")
    status, answer, _ = desk.ask("GET", "/api/file?name=latin.toml")
    assert status == 409 and "line 2" in answer["error"]


def test_another_editor_and_two_tabs(desk: Desk, shop: Path) -> None:
    file = desk.file("lid/part.toml")
    path = shop / "lid/part.toml"
    path.write_text(file["text"] + "# by another editor\n")
    mine = {"name": "lid/part.toml", "text": file["text"] + "# mine\n", "tag": file["tag"]}
    status, theirs, _ = desk.ask("PUT", "/api/file", mine)
    assert status == 409 and "by another editor" in theirs["text"]
    assert path.read_text().endswith("# by another editor\n")
    assert desk.ask("PUT", "/api/file", {**mine, "tag": theirs["tag"]})[0] == 200
    assert path.read_text().endswith("# mine\n")
    kept = [one.read_text() for one in (shop / ".desk/history/lid/part.toml").iterdir()]
    assert any("by another editor" in text for text in kept)
    assert desk.ask("PUT", "/api/file", {**mine, "tag": theirs["tag"]})[0] == 409


def test_a_new_file_is_no_old_one(desk: Desk, shop: Path) -> None:
    before = (shop / "pan/part.toml").read_text()
    status, answer, _ = desk.ask("PUT", "/api/file", {"name": "pan/part.toml", "text": "x", "tag": None})
    assert status == 409 and "there already" in answer["error"] and (shop / "pan/part.toml").read_text() == before
    assert desk.ask("PUT", "/api/file", {"name": "pan/gone.toml", "text": "x", "tag": "0" * 24})[0] == 409


def test_permissions_stay(desk: Desk, shop: Path) -> None:
    os.chmod(shop / "pan/tools.toml", 0o640)
    file = desk.file("pan/tools.toml")
    desk.ask("PUT", "/api/file", {"name": "pan/tools.toml", "text": file["text"] + "# x\n", "tag": file["tag"]})
    assert (shop / "pan/tools.toml").stat().st_mode & 0o777 == 0o640


def test_folder_that_cannot_be_written(tmp_path: Path, monkeypatch: pytest.MonkeyPatch) -> None:
    fill(tmp_path, ("bracket",))
    folder = Folder(tmp_path)
    before = folder.read(PART)

    def full(_handle: int) -> None:
        raise OSError(28, "No space left on device")
    monkeypatch.setattr(os, "fsync", full)
    with pytest.raises(Refused) as refused:
        folder.write("bracket/new.toml", b"x = 1\n", None)
    assert refused.value.status == 507 and "No space left" in refused.value.body["error"]
    assert folder.read(PART) == before
    assert sorted(os.listdir(tmp_path / "bracket")) == ["machine.toml", "part.toml", "tools.toml"]


def test_a_file_that_grows_too_large_for_the_disk(tmp_path: Path) -> None:
    """The system's own limit on a file's size, in place of a full disk."""
    fill(tmp_path, ("bracket",))
    folder = Folder(tmp_path)
    old = resource.getrlimit(resource.RLIMIT_FSIZE)
    before = signal.signal(signal.SIGXFSZ, signal.SIG_IGN)
    resource.setrlimit(resource.RLIMIT_FSIZE, (4096, old[1]))
    try:
        with pytest.raises(Refused):
            folder.write("bracket/new.toml", b"#" * 10000, None)
    finally:
        resource.setrlimit(resource.RLIMIT_FSIZE, old)
        signal.signal(signal.SIGXFSZ, before)
    assert sorted(os.listdir(tmp_path / "bracket")) == ["machine.toml", "part.toml", "tools.toml"]


def test_history_keeps_the_last_hundred(tmp_path: Path) -> None:
    folder = Folder(tmp_path)
    tag = folder.write("a.toml", b"x = 0\n", None)
    for number in range(1, 106):
        tag = folder.write("a.toml", f"x = {number}\n".encode(), tag)
    assert len(os.listdir(tmp_path / ".desk/history/a.toml")) == 100


def test_drafts_outlive_a_killed_desk(tmp_path: Path) -> None:
    fill(tmp_path, ("lid",))
    before = (tmp_path / "lid/part.toml").read_text()
    desk = Desk(tmp_path)
    desk.post("/api/edit", {"text": before + "# unsaved\n", "name": "lid/part.toml"})
    desk.end(signal.SIGKILL)
    assert (tmp_path / "lid/part.toml").read_text() == before
    desk = Desk(tmp_path)
    try:
        assert desk.file("lid/part.toml")["draft"] == before + "# unsaved\n"
        desk.ask("DELETE", "/api/draft", {"name": "lid/part.toml"})
        assert desk.file("lid/part.toml")["draft"] is None
    finally:
        desk.end()


def test_what_is_taken_back_leaves_no_draft(desk: Desk, shop: Path) -> None:
    text = (shop / PART).read_text()
    edit(desk, text, LENGTH, name=PART)
    assert desk.file(PART)["draft"] is not None
    edit(desk, text, [], name=PART)
    assert desk.file(PART)["draft"] is None


def test_killed_while_storing(tmp_path: Path) -> None:
    """The file is whole at whatever moment the desk is killed."""
    fill(tmp_path, ("lid",))
    path = tmp_path / "lid/part.toml"
    for moment in range(4):
        desk = Desk(tmp_path)
        file = desk.file("lid/part.toml")
        tag, texts = file["tag"], {file["text"]}
        end = time.monotonic() + .02 + .013 * moment
        try:
            for number in range(1000):
                text = f"# {number} {'x' * 20000}\n" + file["text"]
                texts.add(text)
                if time.monotonic() > end:
                    desk.child.kill()
                tag = desk.ask("PUT", "/api/file", {"name": "lid/part.toml", "text": text, "tag": tag})[1]["tag"]
        except (OSError, ValueError, KeyError, TypeError):
            pass
        desk.end(signal.SIGKILL)
        assert path.read_text() in texts
        path.write_text(file["text"])


def test_sweep_takes_old_left_overs_alone(tmp_path: Path) -> None:
    for name, age in ((".desk-old", 7200), (".desk-new", 10), ("desk-mine", 7200)):
        (tmp_path / name).write_text("x")
        os.utime(tmp_path / name, (time.time() - age, time.time() - age))
    Folder(tmp_path).sweep()
    assert sorted(os.listdir(tmp_path)) == [".desk-new", "desk-mine"]


def test_the_folder_lists_kinds(desk: Desk) -> None:
    kinds = {file["name"]: file["kind"] for file in desk.get("/api/folder")["files"]}
    assert kinds["bracket/part.toml"] == "part" and kinds["bracket/tools.toml"] == "tools"
    assert kinds["bracket/machine.toml"] == "machine"
