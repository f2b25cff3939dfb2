"""The page in headless Chromium: each view, editing, planning, own orders, and what is told when things go wrong."""
from __future__ import annotations

import signal
from collections.abc import Iterator
from pathlib import Path

import pytest

from workbench.tests.desk.browser import Page, chrome
from workbench.tests.desk.helper import Desk, fill

SHOP = ("bracket", "lid", "pan", "tall_channel", "door_panel")
VIEWS = ("folder", "part", "plan", "order", "rack", "machine")


@pytest.fixture(name="shop", scope="module")
def make_shop(tmp_path_factory: pytest.TempPathFactory) -> Path:
    shop = tmp_path_factory.mktemp("shop")
    fill(shop, SHOP)
    return shop


@pytest.fixture(name="page", scope="module")
def open_page(desk: Desk, tmp_path_factory: pytest.TempPathFactory) -> Iterator[Page]:
    driver = chrome(tmp_path_factory.mktemp("chrome"))
    yield Page(driver, desk)
    driver.quit()


@pytest.fixture(autouse=True)
def look_at_console(page: Page) -> Iterator[None]:
    """No test leaves an error in the console."""
    yield
    assert page.faults() == []


def open_part(page: Page, name: str) -> None:
    """Opens a part in the Part view, as it is stored."""
    page.view("part")
    page.part(f"{name}/part.toml")
    page.until(lambda: page.all("#blank svg") and "mm" in page.text("#b-size"))


def undo_all(page: Page) -> None:
    """Takes back all edits of the part."""
    page.until(lambda: page.js(
        "const undo = document.getElementById('p-undo'), state = document.getElementById('p-state');"
        "if (state.textContent === 'saved') return true; if (!undo.disabled) undo.click(); return false;"))


def test_the_token_leaves_the_address(page: Page, desk: Desk) -> None:
    assert desk.token not in page.driver.current_url


def test_each_view_has_an_address(page: Page) -> None:
    open_part(page, "bracket")
    for view in VIEWS:
        page.view(view)
        assert page.js("return location.hash") == f"#{view}/bracket/part.toml"
    page.driver.back()
    page.until(lambda: page.find("#page-rack").is_displayed())
    page.driver.refresh()
    page.until(lambda: page.js("return document.body.dataset.ready") == "yes")
    assert page.find("#page-rack").is_displayed() and page.value("#f-part") == "bracket/part.toml"


def test_a_sum_with_a_comma(page: Page) -> None:
    open_part(page, "bracket")
    page.put("face.2.length", "12,5+2.5*2")
    page.until(lambda: "121.744" in page.text("#b-size"))
    assert page.value('[data-path="face.2.length"]') == "17.5"
    undo_all(page)


def test_the_blank_follows_each_letter(page: Page) -> None:
    """Typed letters are one step of the way back, and stay while the table is made anew."""
    open_part(page, "bracket")
    one = page.find('[data-path="face.2.length"]')
    one.click()
    one.send_keys(page.keys().CONTROL, "a")
    page.find('[data-path="face.2.length"]').send_keys("17")
    page.until(lambda: "121.244" in page.text("#b-size"))
    assert page.js("return document.activeElement.dataset.path") == "face.2.length"
    page.find('[data-path="face.2.length"]').send_keys(".5")
    page.until(lambda: "121.744" in page.text("#b-size"))
    assert page.value('[data-path="face.2.length"]') == "17.5"
    page.press("#p-undo")
    page.until(lambda: page.text("#p-state") == "saved")


def test_arrow_keys_change_a_length(page: Page) -> None:
    open_part(page, "bracket")
    page.find('[data-path="face.2.length"]').click()
    page.chord(page.keys().ARROW_UP)
    page.until(lambda: page.value('[data-path="face.2.length"]') == "16")
    page.chord(page.keys().SHIFT, page.keys().ARROW_DOWN)
    page.until(lambda: "120.144" in page.text("#b-size"))
    undo_all(page)


def test_a_refusal_stands_at_its_field(page: Page) -> None:
    open_part(page, "bracket")
    page.put("face.1.at", "5")
    page.until(lambda: page.all("tr.why"))
    assert "reaches past the end of side" in page.text("tr.why") and "85 mm" in page.text("tr.why")
    assert "bad" in page.find('[data-path="face.1.at"]').get_attribute("class")
    assert page.text("#b-size") == "as it was, before the refusal"
    undo_all(page)
    page.until(lambda: not page.all("tr.why"))


def test_four_decimals_are_told(page: Page) -> None:
    open_part(page, "bracket")
    page.put("face.0.width", "80.0005")
    page.until(lambda: "at most three decimals" in page.text("tr.why"))
    page.put("face.0.width", "80")
    page.until(lambda: not page.all("tr.why"))
    undo_all(page)


def test_an_edge_puts_a_flange_and_room_is_made(page: Page) -> None:
    open_part(page, "bracket")
    page.js("[...document.querySelectorAll('.edge')].find(e=>e.getAttribute('aria-label').includes('side E of base'))"
            ".dispatchEvent(new MouseEvent('click'))")
    page.until(lambda: len(page.all("#faces tr.row")) == 4)
    assert page.value('[data-path="face.3.on"]') == "base"
    page.press_text("#p-words", "Make room")
    page.until(lambda: not page.all("tr.why") and "×" in page.text("#b-size"))
    page.js("document.activeElement.blur()")
    undo_all(page)


def test_three_edits_at_once_are_all_kept(page: Page) -> None:
    open_part(page, "bracket")
    page.js("for (const [p, v] of [['face.0.width', '90'], ['face.0.length', '61'], ['face.2.length', '18']]) {"
            " const e = document.querySelector(`[data-path='${p}']`); e.value = v;"
            " e.dispatchEvent(new Event('change')); }")
    wanted = ("width = 90000", "length = 61000", "length = 18000")
    page.until(lambda: all(text in page.value("#p-text") for text in wanted))
    undo_all(page)


def test_steps_back_that_come_fast(page: Page) -> None:
    """Undo pressed four times at once takes back four edits; redo brings them again."""
    open_part(page, "bracket")
    before = page.value("#p-text")
    for number in range(4):
        page.put("face.2.length", str(16 + number))
        page.until(lambda: f"length = {16 + number}000" in page.value("#p-text"))
        page.put("face.1.length", str(51 + number))
        page.until(lambda: f"length = {51 + number}000" in page.value("#p-text"))
    after = page.value("#p-text")
    page.js("for (let k = 0; k < 8; k++) document.getElementById('p-undo').click()")
    page.until(lambda: page.text("#p-state") == "saved" and page.value("#p-text") == before)
    page.js("for (let k = 0; k < 8; k++) document.getElementById('p-redo').click()")
    page.until(lambda: page.value("#p-text") == after)
    undo_all(page)


def test_another_editor(page: Page, shop: Path) -> None:
    """Unedited here the new state is shown; edited here the user is asked."""
    open_part(page, "pan")
    path = shop / "pan/part.toml"
    before = path.read_text()
    path.write_text(before + "# by another editor\n")
    page.until(lambda: "by another editor" in page.value("#p-text"))
    assert "shown as it is now" in page.text("#note")
    page.press_text("#note", "Good")
    page.put("face.1.length", "26")
    page.until(lambda: page.text("#p-state") == "not saved")
    path.write_text(before + "# once more\n")
    page.until(lambda: page.find("#note").is_displayed() and "while you edited" in page.text("#note"))
    page.press_text("#note", "Keep mine")
    page.until(lambda: page.text("#p-state") == "saved")
    assert "length = 26000" in path.read_text() and "once more" not in path.read_text()
    path.write_text(before)
    page.until(lambda: page.value("#p-text") == before)


def test_plan_and_old_plan(page: Page) -> None:
    open_part(page, "lid")
    page.view("plan")
    page.press("#r-go")
    page.until(lambda: page.text("#r-result .big") == "44.0 s")
    assert len(page.all("#r-result .strokes li")) == 4 and not page.find("#r-old").is_displayed()
    page.until(lambda: page.find("#sheet").is_displayed())
    page.view("part")
    page.put("face.1.length", "26")
    page.until(lambda: page.text("#p-state") == "not saved")
    page.view("plan")
    assert page.find("#r-old").is_displayed() and page.text("#r-go") == "Save and plan"
    page.view("part")
    undo_all(page)
    page.view("plan")
    page.until(lambda: not page.find("#r-old").is_displayed())


def test_strokes_without_webgl(page: Page) -> None:
    open_part(page, "lid")
    page.view("plan")
    page.press("#r-go")
    page.until(lambda: page.text("#r-result .big"))
    page.press("#r-motion")
    page.until(lambda: "Stroke 1 of 4" in page.text("#s-words"))
    page.press("#s-next")
    assert "Stroke 2 of 4" in page.text("#s-words")
    assert "no WebGL" in page.text("#strokes") and "no WebGL" in page.text("#page-part")


def test_my_order(page: Page) -> None:
    """The plan's order is allowed; it is turned by a button and by the keyboard."""
    open_part(page, "lid")
    page.view("plan")
    page.press("#r-go")
    page.until(lambda: page.text("#r-result .big"))
    page.view("order")
    page.until(lambda: "Every stroke is allowed" in page.text("#o-words"))
    assert page.text("#o-words").count("44.0 s") == 2
    first = page.text("#order li b")
    page.find("#order li").click()
    page.chord(page.keys().ALT, page.keys().ARROW_DOWN)
    page.until(lambda: page.text("#order li:nth-child(2) b") == first)
    page.until(lambda: "44.0 s" in page.text("#o-words") and not page.all("#o-words .busy"))
    page.press("#o-plan")
    page.until(lambda: page.text("#order li b") == first and "allowed" in page.text("#o-words"))
    page.press("#o-back")
    page.until(lambda: page.text("#order li:last-child b") == first and not page.all("#o-words .busy"))


def test_a_side_by_hand(page: Page) -> None:
    open_part(page, "bracket")
    page.view("order")
    page.press("#o-back")
    page.until(lambda: "Every stroke is allowed" in page.text("#o-words"))
    free = page.text("#o-words")
    for side in ("P", "C"):
        page.js("const s = document.querySelector('#order li select'); s.value = arguments[0];"
                "s.dispatchEvent(new Event('change'))", side)
        page.until(lambda: page.text("#o-words") and not page.all("#o-words .busy"))
    assert "Every stroke is allowed" in free
    page.until(lambda: page.find("#o-print").is_enabled() or "refused" in page.text("#o-words"))


def test_no_plan_and_what_stands_in_the_way(page: Page) -> None:
    page.view("plan")
    page.part("tall_channel/part.toml")
    page.press("#r-go")
    page.until(lambda: page.text("#r-result .big") == "No plan")
    assert "P100" in page.text("#r-result .words")
    page.press_text("#r-result", "Try my own order")
    page.until(lambda: "refused in each of its 2 ways" in page.text("#o-words"))
    assert "would hit punch P100" in page.text("#o-picture") and page.all("#o-picture svg")
    assert not page.find("#o-print").is_enabled()


def test_machine_fields(page: Page, shop: Path) -> None:
    path = shop / "door_panel/machine.toml"
    before = path.read_text()
    page.view("machine")
    page.part("door_panel/part.toml")
    page.until(lambda: "door_panel" in page.text("#machine h2"))
    type_far = ("const e = document.querySelector('[data-key=far]'); e.value = arguments[0];"
                "e.dispatchEvent(new Event('change'))")
    page.js(type_far, "650")
    page.until(lambda: "far = 650000" in path.read_text())
    differ = [one for one, other in zip(before.split("\n"), path.read_text().split("\n")) if one != other]
    assert len(differ) == 1
    page.js(type_far, "much")
    page.until(lambda: "bad" in page.find("[data-key=far]").get_attribute("class"))
    page.press_text("#machine", "Add a station")
    page.until(lambda: path.read_text().count("[[stage]]") == before.count("[[stage]]") + 1)
    path.write_text(before)


def test_rack(page: Page, shop: Path) -> None:
    page.part("bracket/part.toml")
    page.view("rack")
    page.until(lambda: len(page.all("#rack .tool svg")) == 3)
    page.press_text("#rack", "Add it turned round")
    page.until(lambda: "goose_r" in (shop / "bracket/tools.toml").read_text())
    page.until(lambda: len(page.all("#rack .tool svg")) == 4)


def test_names_are_text(page: Page, shop: Path) -> None:
    """A face's name that looks like a page's text is shown as it is."""
    path = shop / "pan/part.toml"
    before = path.read_text()
    path.write_text(before.replace('"f1"', '"<svg/onload=alert(1)>"'))
    open_part(page, "pan")
    page.until(lambda: page.value('[data-path="face.1.name"]') == "<svg/onload=alert(1)>")
    for view in ("plan", "order", "part"):
        page.view(view)
    assert page.js("return document.querySelectorAll('svg[onload]').length") == 0
    path.write_text(before)
    page.until(lambda: page.value('[data-path="face.1.name"]') == "f1")


def test_server_that_is_ended(page: Page, desk: Desk) -> None:
    """What was typed stays; it can be saved as a text."""
    open_part(page, "bracket")
    page.put("face.2.length", "18")
    page.until(lambda: page.text("#p-state") == "not saved")
    desk.end(signal.SIGTERM)
    page.until(lambda: "isn't running any more" in page.text("#note"))
    assert "length = 18000" in page.value("#p-text") and page.all("#note button")
