"""The pictures in 3D, where the browser has WebGL: something is drawn, and it changes when it is turned."""
from __future__ import annotations

from collections.abc import Iterator
from pathlib import Path

import pytest

from workbench.tests.desk.browser import Page, chrome
from workbench.tests.desk.helper import Desk

PIXELS = "return document.querySelector(arguments[0]).toDataURL()"


@pytest.fixture(name="page", scope="module")
def open_page(desk: Desk, tmp_path_factory: pytest.TempPathFactory) -> Iterator[Page]:
    driver = chrome(tmp_path_factory.mktemp("chrome"), has_webgl=True)
    page = Page(driver, desk)
    if not page.js("return !!document.createElement('canvas').getContext('webgl')"):
        driver.quit()
        pytest.skip("this Chromium has no WebGL: pictures in 3D are left out")
    yield page
    driver.quit()


def test_the_folded_part_and_its_strokes(page: Page) -> None:
    page.view("part")
    page.part("lid/part.toml")
    page.until(lambda: "mm" in page.text("#b-size"))
    folded = page.js(PIXELS, "#solid")
    page.js("const f = document.getElementById('fold'); f.value = 30; f.dispatchEvent(new Event('input'))")
    assert page.js(PIXELS, "#solid") != folded
    page.view("plan")
    page.press("#r-go")
    page.until(lambda: page.text("#r-result .big") == "44.0 s")
    page.press("#r-motion")
    page.until(lambda: "Stroke 1 of 4" in page.text("#s-words"))
    flat = page.js(PIXELS, "#s-canvas")
    page.js("const f = document.getElementById('s-angle'); f.value = 45; f.dispatchEvent(new Event('input'))")
    assert page.js(PIXELS, "#s-canvas") != flat and "90°" in page.text("#s-words")
    assert page.faults() == []
