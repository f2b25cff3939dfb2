"""Labels, contrast and the keyboard, by rules over the page as it is shown."""
from __future__ import annotations

from collections.abc import Iterator
from pathlib import Path
from typing import Any

import pytest

from workbench.tests.desk.browser import Page, chrome
from workbench.tests.desk.helper import Desk, fill

VIEWS = ("folder", "part", "plan", "order", "rack", "machine")

# Gives the elements that break a rule: a control without a name, an id twice, a picture without a name, a text whose
# contrast is below 4.5 (3 where it is large), a table's head without a scope.
RULES = r"""
const faults = [], seen = e => e.checkVisibility();
const say = (e, why) => faults.push(`${why}: ${e.outerHTML.slice(0, 120)}`);
const labelled = e => (e.getAttribute("aria-label") || e.getAttribute("title") || e.closest("label")?.textContent
  || (e.id && document.querySelector(`label[for="${e.id}"]`)?.textContent) || (e.tagName === "BUTTON" && e.textContent) || "").trim();
for (const e of document.querySelectorAll("button, input, select, textarea, iframe, canvas, [role=button], [role=img], [tabindex='0']")) {
  if (seen(e) && !labelled(e) && !(e.getAttribute("aria-labelledby"))) say(e, "no name");
}
const ids = [...document.querySelectorAll("[id]")].map(e => e.id);
for (const id of new Set(ids.filter((one, at) => ids.indexOf(one) !== at))) faults.push(`id twice: ${id}`);
for (const e of document.querySelectorAll("th:not([scope])")) if (seen(e)) say(e, "no scope");
if (!document.documentElement.lang || !document.title) faults.push("no language or title");

const channels = text => (text.match(/[\d.]+/g) || [0, 0, 0, 0]).map(Number);
const light = ([r, g, b]) => [r, g, b].map(v => v / 255).map(v => v <= .03928 ? v / 12.92 : ((v + .055) / 1.055) ** 2.4)
  .reduce((sum, v, k) => sum + v * [.2126, .7152, .0722][k], 0);
const ground = e => {
  for (let at = e; at; at = at.parentElement) {
    const [r, g, b, a = 1] = channels(getComputedStyle(at).backgroundColor);
    if (a > .9) return [r, g, b];
  }
  return [255, 255, 255];
};
const isFaint = e => { for (let at = e; at; at = at.parentElement) if (+getComputedStyle(at).opacity < 1) return true; return false; };
for (const e of document.querySelectorAll("body *")) {
  const hasText = [...e.childNodes].some(n => n.nodeType === 3 && n.textContent.trim()) || /INPUT|TEXTAREA/.test(e.tagName);
  if (!hasText || !seen(e) || e.closest("svg, option, :disabled, .hide") || isFaint(e)) continue;
  const style = getComputedStyle(e), a = light(channels(style.color)), b = light(ground(e));
  const ratio = (Math.max(a, b) + .05) / (Math.min(a, b) + .05), size = parseFloat(style.fontSize);
  if (ratio < (size >= 24 || size >= 18.6 && +style.fontWeight >= 700 ? 3 : 4.5)) say(e, `contrast ${ratio.toFixed(2)}`);
}
return faults;
"""


@pytest.fixture(name="shop", scope="module")
def make_shop(tmp_path_factory: pytest.TempPathFactory) -> Path:
    shop = tmp_path_factory.mktemp("shop")
    fill(shop, ("lid", "tall_channel", "bracket"))
    return shop


@pytest.fixture(name="page", scope="module")
def open_page(desk: Desk, tmp_path_factory: pytest.TempPathFactory) -> Iterator[Page]:
    driver = chrome(tmp_path_factory.mktemp("chrome"))
    yield Page(driver, desk)
    driver.quit()


def rules(page: Page) -> Any:
    """What breaks a rule."""
    return page.js(RULES)


@pytest.mark.parametrize("view", VIEWS)
def test_labels_and_contrast(page: Page, view: str) -> None:
    page.view("part")
    page.part("lid/part.toml")
    page.view(view)
    page.until(lambda: not page.all(f"#page-{view} .busy"))
    assert rules(page) == []


def test_labels_and_contrast_of_faults(page: Page) -> None:
    """A refused part, a part without a plan, an order that is refused, a plan that is old, a question."""
    page.view("part")
    page.part("bracket/part.toml")
    page.put("face.1.at", "5")
    page.until(lambda: page.all("tr.why"))
    assert rules(page) == []
    page.press("#p-undo")
    page.until(lambda: page.text("#p-state") == "saved")
    page.part("tall_channel/part.toml")
    page.view("plan")
    page.press("#r-go")
    page.until(lambda: page.text("#r-result .big") == "No plan")
    assert rules(page) == []
    page.view("order")
    page.until(lambda: "refused in each" in page.text("#o-words"))
    assert rules(page) == []
    page.view("part")
    page.press("#p-new")
    page.until(lambda: page.find("#ask").is_displayed())
    assert rules(page) == []
    page.press_text("#ask", "Cancel")


def press_until(page: Page, is_there: str, *keys: str) -> None:
    """Presses keys until the focus is on what a query finds; not for ever."""
    for _ in range(60):
        if page.js("return !!document.activeElement?.matches(arguments[0])", is_there):
            return
        page.chord(*keys)
    raise AssertionError(f"the keyboard doesn't reach {is_there}")


def test_keyboard_alone_from_new_part_to_a_printed_plan(page: Page, shop: Path) -> None:
    """Tab, letters, arrows, Enter and Ctrl+S: no click."""
    keys = page.keys()
    page.load()
    page.view("folder")
    page.js("document.querySelector('#tabs [data-page=folder]').focus()")
    page.chord(keys.ARROW_RIGHT)
    page.until(lambda: page.find("#page-part").is_displayed())
    press_until(page, "#p-new", keys.TAB)
    page.chord(keys.ENTER)
    page.until(lambda: page.find("#ask").is_displayed())
    page.driver.switch_to.active_element.send_keys(keys.CONTROL, "a")
    page.driver.switch_to.active_element.send_keys("bracket/typed.toml", keys.ENTER)
    page.until(lambda: page.text("#p-title") == "bracket/typed.toml" and page.all("#blank .edge"))
    press_until(page, "#p-row", keys.TAB)
    page.driver.switch_to.active_element.send_keys("DC01")
    press_until(page, "[data-path='face.0.width']", keys.TAB)
    page.chord(keys.CONTROL, "a")
    page.driver.switch_to.active_element.send_keys("80")
    press_until(page, "#blank .edge[aria-label*='side N']", keys.TAB)
    page.chord(keys.ENTER)
    page.until(lambda: page.js("return document.activeElement?.dataset?.path") == "face.1.length")
    page.driver.switch_to.active_element.send_keys("50")
    page.until(lambda: "length = 50000" in page.value("#p-text"))
    page.chord(keys.CONTROL, "s")
    page.until(lambda: page.text("#p-state") == "saved")
    assert "length = 50000" in (shop / "bracket/typed.toml").read_text()
    page.js("document.querySelector('#tabs [data-page=part]').focus()")
    page.chord(keys.ARROW_RIGHT)
    page.until(lambda: page.find("#page-plan").is_displayed())
    press_until(page, "#r-go", keys.TAB)
    page.chord(keys.ENTER)
    page.until(lambda: page.text("#r-result .big") and page.find("#r-bar").is_displayed())
    page.js("window.printed = 0; document.getElementById('sheet').contentWindow.print = () => { window.printed++; }")
    press_until(page, "#r-print", keys.TAB)
    page.chord(keys.ENTER)
    page.until(lambda: page.js("return window.printed") == 1)
