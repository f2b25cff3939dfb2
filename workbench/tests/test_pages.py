"""What the pages say of the repository holds: definitions to read, the floor plan, the gallery, the first page."""
from __future__ import annotations

import re
import subprocess
from pathlib import Path

ROOT = Path(__file__).resolve().parents[2]


def test_the_definitions_to_read() -> None:
    """docs/READING.md names the files that hold the words of the headline, and counts their lines rightly."""
    done = subprocess.run([ROOT / "tools/test-reading"], capture_output=True, text=True, timeout=120, check=False)
    assert done.returncode == 0, done.stdout + done.stderr


def crates() -> dict[str, list[str]]:
    """The crates of crates.txt in their order, with those that each stands on."""
    found = {}
    for line in (ROOT / "crates.txt").read_text().splitlines():
        name, colon, below = line.partition("#")[0].partition(":")
        if colon:
            found[name.strip()] = below.split()
    return found


def test_each_crate_stands_behind_what_it_uses() -> None:
    """In crates.txt no crate stands before one that it stands on."""
    found, seen = crates(), set()
    for name, below in found.items():
        late = [one for one in below if one in found and one not in seen]
        assert not late, f"{name} stands before {late}"
        seen.add(name)


def test_the_table_has_each_crate_in_this_order() -> None:
    """docs/proved.md has a row for each crate of crates.txt, in the same order."""
    rows = re.findall(r"^\| \[(\w+)\]\(\.\./crates/(\w+)/README\.md\)", (ROOT / "docs/proved.md").read_text(), re.M)
    assert [name for name, _ in rows] == list(crates())
    assert all(name == folder and (ROOT / "crates" / folder / "README.md").exists() for name, folder in rows)


def test_nine_groups() -> None:
    """The groups of crates.txt are those of docs/proved.md, nine of them."""
    heads = [line[2:] for line in (ROOT / "crates.txt").read_text().splitlines() if line.startswith("# ")][1:]
    assert len(heads) == 9
    assert re.findall(r"^## (.*)$", (ROOT / "docs/proved.md").read_text(), re.M) == heads


def test_the_first_page_is_short() -> None:
    """README.md has at most 110 lines of at most 400 characters."""
    lines = (ROOT / "README.md").read_text().splitlines()
    assert len(lines) <= 110
    assert max(map(len, lines)) <= 400


def test_links_lead_somewhere() -> None:
    """Each file that a page of README.md and docs/ names by a link is there."""
    for page in [ROOT / "README.md", *(ROOT / "docs").glob("*.md")]:
        for link in re.findall(r"\]\(([^)#:]+)\)", page.read_text()):
            assert (page.parent / link).exists(), f"{page.name} links to {link}"


def test_the_gallery_shows_what_stands_there() -> None:
    """Each piece of docs/GALLERY.md stands, line by line, in the file that is named above it."""
    pieces = re.findall(r"^`([\w/.]+)`\n\n```\n(.*?)^```$", (ROOT / "docs/GALLERY.md").read_text(), re.M | re.S)
    assert len(pieces) == 5
    for file, piece in pieces:
        assert piece in (ROOT / file).read_text(), file


def test_how_a_proof_goes_names_modules_that_are_there() -> None:
    """Each module that a crate's 'How the proof goes' names is a file of its proofs."""
    told = 0
    for page in (ROOT / "crates").glob("*/README.md"):
        story = r"^## How the proof goes\n\nBy the modules of proofs/(.*?)(?=^## |\Z)"
        section = re.search(story, page.read_text(), re.M | re.S)
        for name in re.findall(r"`([A-Z]\w+)`", section[1]) if section else []:
            told += 1
            assert (page.parent / "proofs" / f"{name}.antt").exists(), f"{page.parent.name} tells of {name}"
    assert told > 0
