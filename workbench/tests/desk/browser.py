"""The desk's page in headless Chromium, as a user sees and works it."""
from __future__ import annotations

import shutil
import time
from collections.abc import Callable
from pathlib import Path
from typing import Any

import pytest

from workbench.tests.desk.helper import LIMIT, Desk

DRIVER = "/usr/bin/chromedriver"
WORDS = ("--headless=new", "--no-sandbox", "--disable-dev-shm-usage", "--window-size=1400,900")
WITHOUT_WEBGL = ("--disable-gpu", "--disable-3d-apis")
WITH_WEBGL = ("--use-gl=angle", "--use-angle=swiftshader", "--enable-unsafe-swiftshader")
EXPECTED = ("ERR_CONNECTION", "409", "400", "403")
"""Marks of lines in the console that belong to what a test does: refused requests, a server that is ended."""


def chrome(folder: Path, has_webgl: bool = False) -> Any:
    """A headless Chromium, which draws WebGL by software where that is wanted (it is slow).

    The test is skipped where Chromium, its driver or selenium is missing.
    """
    missing = "python3-selenium isn't installed: pages are left out"
    webdriver = pytest.importorskip("selenium.webdriver", reason=missing)
    from selenium.webdriver.chrome.service import Service
    if not shutil.which("chromium") or not Path(DRIVER).exists():
        pytest.skip("chromium and chromium-driver aren't installed: pages are left out")
    options = webdriver.ChromeOptions()
    for word in (*WORDS, *(WITH_WEBGL if has_webgl else WITHOUT_WEBGL), f"--user-data-dir={folder}"):
        options.add_argument(word)
    options.set_capability("goog:loggingPrefs", {"browser": "ALL"})
    return webdriver.Chrome(service=Service(DRIVER), options=options)


class Page:
    """The page of a desk."""

    def __init__(self, driver: Any, desk: Desk) -> None:
        self.driver, self.desk = driver, desk
        driver.set_script_timeout(LIMIT)
        self.load()

    def load(self) -> None:
        """Opens the page as the browser does at the start."""
        self.driver.get("about:blank")
        self.driver.get(self.desk.url)
        self.until(lambda: self.js("return document.body.dataset.ready") == "yes")

    def js(self, text: str, *given: Any) -> Any:
        """Runs a script in the page."""
        return self.driver.execute_script(text, *given)

    def until(self, is_so: Callable[[], Any], seconds: float = 90.0) -> Any:
        """Waits until something holds; after so many seconds the test fails."""
        from selenium.common.exceptions import WebDriverException
        end = time.monotonic() + seconds
        fault: Exception | None = None
        while time.monotonic() < end:
            try:
                found = is_so()
                if found:
                    return found
            except WebDriverException as error:
                fault = error
            time.sleep(.03)
        raise AssertionError(f"it didn't come to hold in {seconds:g} seconds; {fault or ''} {self.text('#note')}")

    def find(self, query: str) -> Any:
        """The first element of a query."""
        return self.driver.find_element("css selector", query)

    def all(self, query: str) -> list[Any]:
        """All elements of a query."""
        found: list[Any] = self.driver.find_elements("css selector", query)
        return found

    def text(self, query: str) -> str:
        """The text of an element, also where it can't be seen; empty where there is none."""
        return str(self.js("return document.querySelector(arguments[0])?.textContent ?? ''", query))

    def value(self, query: str) -> str:
        """What a field holds."""
        return str(self.js("return document.querySelector(arguments[0])?.value ?? ''", query))

    def view(self, name: str) -> None:
        """Goes to a view."""
        self.js("document.querySelector(`#tabs [data-page=${arguments[0]}]`).click()", name)
        self.until(lambda: self.find(f"#page-{name}").is_displayed())

    def part(self, name: str) -> None:
        """Chooses a part, by its file."""
        self.js("const s = document.getElementById('f-part'); s.value = arguments[0];"
                "s.dispatchEvent(new Event('change'))", name)
        self.until(lambda: self.js("return document.querySelector('main').ariaBusy") == "false")
        self.until(lambda: self.js("return location.hash").endswith(name))

    def press(self, query: str) -> None:
        """Presses a button."""
        self.until(lambda: self.find(query).is_enabled())
        self.js("document.querySelector(arguments[0]).click()", query)

    def press_text(self, within: str, words: str) -> None:
        """Presses the button that has these words."""
        def button() -> Any:
            found = self.all(f"{within} button")
            return next((one for one in found if words in one.get_attribute("textContent")), None)
        self.js("arguments[0].click()", self.until(button))

    def put(self, path: str, value: str) -> None:
        """Types a value into a field of the part, and leaves it."""
        keys = self.keys()
        one = self.find(f'[data-path="{path}"]')
        one.click()
        one.send_keys(keys.CONTROL, "a")
        one.send_keys(value, keys.TAB)

    @staticmethod
    def keys() -> Any:
        """The names of keys."""
        from selenium.webdriver.common.keys import Keys
        return Keys

    def chord(self, *keys: str) -> None:
        """Presses keys together, the last one last."""
        from selenium.webdriver.common.action_chains import ActionChains
        chain = ActionChains(self.driver)
        for key in keys[:-1]:
            chain = chain.key_down(key)
        chain = chain.send_keys(keys[-1])
        for key in reversed(keys[:-1]):
            chain = chain.key_up(key)
        chain.perform()

    def faults(self) -> list[str]:
        """Errors in the console that no test expects."""
        said = [row["message"] for row in self.driver.get_log("browser") if row["level"] == "SEVERE"]
        return [line for line in said if not any(mark in line for mark in EXPECTED)]
