"""The command line of `brake propose`."""
from __future__ import annotations

import pytest

from workbench.propose.command import main
from workbench.propose.words import Choices, WrongWords, read_words

FILES = ["p.toml", "t.toml", "m.toml", "o.toml"]


def test_four_files_and_the_usual_choices() -> None:
    words = read_words(FILES)
    assert words.files == tuple(FILES) and words.folder is None and words.choices == Choices()


def test_every_choice() -> None:
    words = read_words([*FILES, "--keep", "3", "--tries", "9", "--budget", "70", "--punches", "A,B,A", "--dies", "V8", "--quiet"])
    assert words.choices == Choices(3, 9, 70, ("A", "B"), ("V8",), True)


def test_a_folder_in_place_of_files() -> None:
    assert read_words(["--all", "shop", "--tries", "5"]).folder == "shop"


@pytest.mark.parametrize("words", [
    [], FILES[:3], [*FILES, "more"], ["--all", "shop", *FILES], ["--all", ""], ["", *FILES[1:]],
    [*FILES, "--keep", "0"], [*FILES, "--keep", "17"], [*FILES, "--keep", "03"], [*FILES, "--keep", "+3"], [*FILES, "--keep", "x"],
    [*FILES, "--tries", "0"], [*FILES, "--tries", "100001"], [*FILES, "--budget", "4294967296"], [*FILES, "--budget", "٣"],
    [*FILES, "--punches", ""], [*FILES, "--punches", "A,,B"], [*FILES, "--dies"], [*FILES, "--kee", "3"], [*FILES, "--what"],
])
def test_other_words_are_wrong(words: list[str], capsys: pytest.CaptureFixture[str]) -> None:
    with pytest.raises(WrongWords):
        read_words(words)
    assert main(words) == 2
    printed = capsys.readouterr()
    assert printed.out.startswith("usage: brake propose") and printed.err.startswith("brake: propose: ")
