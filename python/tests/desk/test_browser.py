"""The page in a browser: what a planner does with it, by mouse and by keyboard, and how fast it shows a change."""

from __future__ import annotations

import os
import statistics
from pathlib import Path
from typing import Any, Iterator, List

import pytest

pytest.importorskip("aiohttp", reason="no aiohttp: tools/setup desk installs it")
pytest.importorskip("selenium", reason="no selenium: tools/setup desk installs it")
pytest.importorskip("PIL", reason="no Pillow: tools/setup desk installs it")

from browser import BROWSER, DRIVER, Page, begin  # noqa: E402
from running import ROOT, Running, is_preview  # noqa: E402
from selenium.webdriver.common.keys import Keys  # noqa: E402

if not (Path(BROWSER).exists() and Path(DRIVER).exists()):
    pytest.skip("no chromium or chromium-driver: tools/setup desk installs them", allow_module_level=True)

PICTURE_BYTES = 200_000
CHAIN = ["order_walls", "order_plumbing", "order_wiring", "order_plaster", "order_handover", "done_by_22"]


@pytest.fixture(scope="module")
def driver() -> Iterator[Any]:
    browser = begin()
    yield browser
    browser.quit()


@pytest.fixture
def page(driver: Any, desk: Running) -> Iterator[Page]:
    pictures = ROOT / os.environ.get("PALM_PICTURES", "out/desk")
    pictures.mkdir(parents=True, exist_ok=True)
    page = Page(driver, desk.addresses[0], pictures)
    yield page
    assert page.errors() == []
    assert [file.name for file in page.kept if file.stat().st_size >= PICTURE_BYTES] == []


def test_a_gone_value_lights_what_keeps_it_out(page: Page) -> None:
    page.scene("planner", 12)
    assert page.state("walls", 12) == "gone" and page.state("walls", 11) == "present"
    page.cell("walls", 12).click()
    page.until(lambda: page.lit() == CHAIN[1:])
    assert page.text("#why-text") == "walls cannot be 12, because of these 5 constraints:"
    assert [element.text for element in page.all("#why-names li")] == CHAIN[1:]
    causes = [element.text for element in page.all("#steps .cause")]
    assert causes == ["done_by_22", "order_handover", "order_plaster", "order_wiring", "order_plumbing"]
    page.picture("planner")
    page.cell("walls", 11).click()
    page.until(lambda: page.lit() == [])
    assert page.text("#why-text") == "walls can be 11"


def test_a_minimal_set_and_a_certificate(page: Page) -> None:
    page.scene("planner", 12)
    page.cell("walls", 12).click()
    page.until(lambda: page.lit() == CHAIN[1:])
    page.all("#why-actions button")[1].click()
    page.until(lambda: page.all("#why-actions .accepted"))
    assert page.text("#why-actions .accepted") == "✓ accepted by a second process"
    page.all("#why-actions button")[0].click()
    page.until(lambda: "none can be left out" in page.text("#why-text"))
    assert page.lit() == CHAIN[1:]


def test_values_come_and_go_with_a_tick(page: Page) -> None:
    page.scene("planner", 12)
    page.tick("done_by_22")
    page.until(lambda: page.state("handover", 23) == "just back")
    assert page.state("walls", 12) == "just back" and page.state("walls", 14) == "gone"
    page.picture("back")
    page.tick("done_by_22")
    page.until(lambda: page.state("handover", 23) == "just gone")
    page.tick("cables_early")
    page.until(lambda: page.state("cables", 6) == "just back")
    assert page.state("handover", 23) == "gone"


def test_a_contradiction_and_its_button(page: Page) -> None:
    page.scene("planner", 12)
    page.tick("late_concrete")
    page.said("Contradiction: pour has no value left.")
    page.until(lambda: len(page.all("#members li")) == 7)
    assert {element.text for element in page.all("#members .name")} == {*CHAIN, "late_concrete"}
    assert page.lit() == [*CHAIN, "late_concrete"]
    page.click("#ask-preferred")
    page.until(lambda: page.all("#apply-preferred"))
    assert "done_by_22" in page.text("#preferred li strong")
    page.click("#conflict-steps")
    page.until(lambda: page.all("#steps .goal"))
    page.picture("contradiction")
    page.click('#members button[aria-label="relax done_by_22"]')
    page.said("No contradiction any longer.")
    assert not page.one("#contradiction").is_displayed() and page.state("pour", 8) in ("present", "just back")


def test_what_to_leave_is_applied_on_a_click(page: Page) -> None:
    page.scene("pc", 23)
    page.tick("wish_small")
    page.until(lambda: page.one("#contradiction").is_displayed())
    page.click("#ask-preferred")
    page.until(lambda: page.all("#apply-preferred"))
    page.click("#conflict-steps")
    page.until(lambda: page.all("#steps .goal"))
    page.picture("computer")
    page.click("#apply-preferred")
    page.said("No contradiction any longer.")
    page.click("#undo")
    page.until(lambda: page.one("#contradiction").is_displayed())


def test_undo_and_redo(page: Page) -> None:
    page.scene("planner", 12)
    page.tick("done_by_22")
    page.until(lambda: page.state("handover", 23) == "just back")
    page.click("#undo")
    page.until(lambda: page.state("handover", 23) == "just gone")
    assert page.one('li[data-name="done_by_22"] input').is_selected() and not page.one("#undo").is_enabled()
    page.click("#redo")
    page.until(lambda: page.state("handover", 23) == "just back")
    assert not page.one('li[data-name="done_by_22"] input').is_selected()


def test_a_refused_line_is_shown_with_its_slip(page: Page) -> None:
    page.scene("planner", 12)
    page.line("add a : roof == walls")
    page.until(lambda: page.all("#line-said .refusal"))
    assert "error E2 no such form" in page.text("#line-said") and "add a : x = y" in page.text("#line-said")
    assert page.one("#line").get_attribute("value") == "add a : roof == walls"
    page.one("#line").clear()
    page.line("add new : roof = walls + 5")
    page.until(lambda: page.all('li[data-name="new"]'))
    page.click('li[data-name="new"] .retract')
    page.until(lambda: not page.all('li[data-name="new"]'))


def test_a_refused_weight_is_taken_back(page: Page) -> None:
    page.scene("planner", 12)
    weight = page.one('li[data-name="dry_roof"] input.weight')
    weight.clear()
    page.until(lambda: page.all("#line-said .taken"))
    weight.send_keys("1000001", Keys.TAB)
    page.until(lambda: page.all("#line-said .refusal"))
    assert "error E6 number out of range" in page.text("#line-said")
    page.until(lambda: weight.get_attribute("value") == "")


def test_no_markup_from_a_name_or_a_reply(page: Page, desk: Running) -> None:
    page.scene("planner", 12)
    hostile = "<img src=x onerror=document.title=1>"
    page.line(f"add {hostile} : roof = walls")
    page.until(lambda: hostile in page.text("#line-said"))
    page.one("#line").clear()
    page.line("# words survey " + " ".join([hostile.replace(" ", "/")] * 24))
    page.until(lambda: page.state("survey", hostile.replace(" ", "/")) == "present")
    desk.open("var x 1..3\n", name="%3Cimg%20src=x%20onerror=document.title=1%3E")
    page.driver.refresh()
    page.until(lambda: page.text("#values-title") == "Values of 1 variables")
    assert "<img" in page.text("#sessions") and "<img" in page.driver.title
    assert [image.get_attribute("src") for image in page.all("img")] == [f"{desk.origin}/static/icon.svg"]


def test_a_search_its_chart_and_its_proof(page: Page) -> None:
    page.scene("planner", 12)
    page.one("#kind").send_keys("the least")
    page.until(lambda: page.one("#target").is_displayed())
    assert page.one("#target").get_attribute("value") == "handover"
    page.click("#start")
    page.until(lambda: "The least handover is 20" in page.text("#search-said"))
    page.until(lambda: page.all("#search-said .accepted"))
    assert page.text("#solution-said") == "✓ a second process finds every constraint satisfied"
    assert len(page.all("#chart .task")) == 9 and len(page.all("#table dt")) == 12


def test_a_search_is_stopped(page: Page, desk: Running) -> None:
    holes = "".join(f"var p{one} 1..9\n" for one in range(10))
    desk.open(holes + "".join(f"add d{one}_{other} : p{one} != p{other}\n" for one in range(10) for other in range(one)))
    page.driver.refresh()
    page.until(lambda: page.text("#values-title") == "Values of 10 variables")
    page.one("#seconds").clear()
    page.one("#seconds").send_keys("60")
    page.click("#start")
    page.until(lambda: page.one("#stop").is_enabled() and "Looking for a solution" in page.text("#search-said"))
    page.click("#stop")
    page.until(lambda: "stopped" in page.text("#search-said"))
    assert page.one("#start").is_enabled() and page.state("p0", 1) == "present" and not page.one("#undo").is_enabled()


def test_by_the_keyboard_alone(page: Page) -> None:
    def press(*keys: str) -> None:
        for key in keys:
            page.driver.switch_to.active_element.send_keys(key)

    def focus() -> str:
        script = "const e = document.activeElement; return e.id || e.getAttribute('aria-label') || e.textContent"
        return str(page.driver.execute_script(script))

    def walk_to(name: str) -> None:
        for _ in range(80):
            if focus() == name:
                return
            press(Keys.TAB)
        raise AssertionError(f"{name} is not reached, but {focus()}")

    page.driver.execute_script("document.activeElement.blur()")
    walk_to("Site planner")
    press(Keys.ENTER)
    page.until(lambda: page.text("#values-title") == "Values of 12 variables")
    page.driver.execute_script("document.activeElement.blur()")
    walk_to("survey 1: present")
    press(*[Keys.ARROW_DOWN] * 3, *[Keys.ARROW_RIGHT] * 11)
    assert focus() == "walls 12: gone"
    press(Keys.ENTER)
    page.until(lambda: page.lit() == CHAIN[1:])
    press(Keys.END)
    assert focus() == "walls 24: gone"
    press(Keys.HOME, Keys.ARROW_UP)
    assert focus() == "pour 1: gone"
    walk_to("line")
    press("enforce late_concrete", Keys.ENTER)
    page.until(lambda: page.one("#contradiction").is_displayed() and len(page.all("#members li")) == 7)
    page.driver.execute_script("document.getElementById('contradiction-text').scrollIntoView()")
    for _ in range(200):
        if focus() == "relax done_by_22":
            break
        press(Keys.SHIFT + Keys.TAB)
    press(Keys.ENTER)
    page.said("No contradiction any longer.")
    page.driver.switch_to.active_element.send_keys(Keys.CONTROL + "z")
    page.until(lambda: page.one("#contradiction").is_displayed())


def test_everything_has_a_label(page: Page) -> None:
    page.scene("shifts", 56)
    nameless = """
        const named = (e) => e.textContent.trim() || e.getAttribute("aria-label") || (e.labels && e.labels.length) || e.title;
        return [...document.querySelectorAll("button, input, select, a, summary, [role=gridcell], [role=img], section")]
            .filter((e) => !named(e) && !e.getAttribute("aria-labelledby")).map((e) => e.outerHTML);"""
    assert page.driver.execute_script(nameless) == []
    assert page.driver.execute_script("return document.documentElement.lang") == "en"
    stops = page.driver.execute_script("return document.querySelectorAll('#grid [tabindex=\"0\"]').length")
    assert stops == 1


@pytest.mark.parametrize("scene, variables", [("planner", 12), ("pc", 23), ("shifts", 56), ("ft06", 127), ("sudoku", 81)])
def test_from_360_pixels_on(page: Page, scene: str, variables: int) -> None:
    page.resize(360, 780)
    page.scene(scene, variables)
    wide = page.driver.execute_script("return document.documentElement.scrollWidth")
    assert wide <= 360
    if scene == "planner":
        page.cell("walls", 12).click()
        page.until(lambda: page.lit() == CHAIN[1:])
        page.driver.execute_script("document.getElementById('why').scrollIntoView({block: 'end'})")
        page.picture("narrow")


def test_contrast_in_both_schemes(page: Page) -> None:
    """Text on what stands behind it has a contrast of 4.5 at least, in each state of a cell."""
    page.scene("planner", 12)
    page.tick("done_by_22")
    page.until(lambda: page.state("handover", 23) == "just back")
    script = """
        const part = (x) => (x <= 0.03928 ? x / 12.92 : ((x + 0.055) / 1.055) ** 2.4);
        const level = (colour) => {
            const [r, g, b] = colour.match(/[0-9.]+/g).map((x) => part(x / 255));
            return 0.2126 * r + 0.7152 * g + 0.0722 * b;
        };
        const behind = (e) => {
            const colour = e ? getComputedStyle(e).backgroundColor : "rgb(255, 255, 255)";
            return /, 0\\)$/.test(colour) ? behind(e.parentElement) : colour;
        };
        return [...document.querySelectorAll(arguments[0])].map((e) => {
            const [dark, bright] = [level(getComputedStyle(e).color), level(behind(e))].sort((x, y) => x - y);
            return [e.className, (bright + 0.05) / (dark + 0.05)];
        });"""
    texts = ".legend .cell, #grid .cell, #list .name, #list .text, button, summary, h2, #why-text"
    for scheme in ("light", "dark"):
        page.scheme(scheme)
        found = page.driver.execute_script(script, texts)
        assert found and [(name, round(ratio, 2)) for name, ratio in found if ratio < 4.5] == []


def test_the_scenes_in_dark(page: Page) -> None:
    page.scheme("dark")
    page.scene("shifts", 56)
    page.one("#seconds").clear()
    page.one("#seconds").send_keys("100")
    page.click("#start")
    page.until(lambda: page.all("#table .matrix td") and "satisfied" in page.text("#solution-said"))
    page.driver.execute_script("document.getElementById('solution').scrollIntoView({block: 'end'})")
    page.picture("shifts")


@pytest.mark.long
def test_ft06_in_a_chart(page: Page) -> None:
    page.scene("ft06", 127)
    page.one("#seconds").clear()
    page.one("#seconds").send_keys("100")
    page.one("#kind").send_keys("the least")
    page.click("#start")
    page.until(lambda: "The least done is 55" in page.text("#search-said") and page.all("#search-said .accepted"))
    assert len(page.all("#chart .task")) == 36
    page.driver.execute_script("document.getElementById('solution').scrollIntoView({block: 'start'})")
    page.picture("job-shop")


def test_a_bar_opens_on_a_click(page: Page, desk: Running) -> None:
    odd = " ".join(f"({value})" for value in range(1, 256, 2))
    desk.open(f"var long 0..255\nadd odd : table long : {odd}\nadd low : long <= 99\n")
    page.driver.refresh()
    page.until(lambda: page.all("#grid .bar"))
    assert (page.one("#grid .bar").get_attribute("aria-label") or "").startswith("long: 50 of 256 values; 1, ")
    page.click("#grid .bar")
    page.until(lambda: len(page.all("#grid .cell")) == 256)
    page.cell("long", 101).click()
    page.until(lambda: page.lit() == ["low"])
    page.click("#grid .bar")
    page.until(lambda: not page.all("#grid .cell"))


VARIABLES, VALUES, CHANGES = 128, 256, 20
SERVER_MILLISECONDS, PAINT_MILLISECONDS = 50, 300


def test_a_change_is_shown_at_once(page: Page, desk: Running, capsys: pytest.CaptureFixture[str]) -> None:
    """The largest session: 128 variables of 256 values in a chain, and ticks that each change the domains of some dozens."""
    lines = [f"var x{number} 0..{VALUES - 1}" for number in range(VARIABLES)]
    lines += [f"add chain_{number} : x{number} <= x{number + 1}" for number in range(VARIABLES - 1)]
    ticks = [f"low_{number}" for number in range(0, CHANGES // 2)]
    lines += [f"add {name} : x{64 + 3 * at} >= {40 + 5 * at}" for at, name in enumerate(ticks)]
    lines += [f"relax {name}" for name in ticks]
    desk.open("palm 2\n" + "\n".join(lines) + "\n")
    page.driver.refresh()
    page.until(lambda: page.text("#values-title") == f"Values of {VARIABLES} variables")
    assert len(page.all("#grid .bar")) == VARIABLES
    changed: List[int] = []
    for at, name in enumerate(ticks + ticks[::-1]):
        page.tick(name)
        page.until(lambda: page.driver.execute_script("return performance.getEntriesByName('paint').length") == at + 1)
        changed.append(len(page.all('.bar[aria-label*="just"]')))
    paints = page.driver.execute_script("return performance.getEntriesByName('paint').map((e) => e.duration)")
    calls = "performance.getEntriesByType('resource').filter((e) => e.name.endsWith('/lines'))"
    servers = page.driver.execute_script(f"return {calls}.map((e) => e.serverTiming[0].duration)")
    assert len(paints) == len(servers) == CHANGES and statistics.median(changed) >= 24
    server, paint, load = statistics.median(servers), statistics.median(paints), os.getloadavg()[0]
    said = f"median of {CHANGES} changes: server {server:.1f} ms, paint {paint:.1f} ms; load {load:.1f}"
    with capsys.disabled():
        print(f"\n{VARIABLES} variables of {VALUES} values, {said}")
    if not is_preview() and "PALM_IDLE" in os.environ:
        assert server < SERVER_MILLISECONDS and paint < PAINT_MILLISECONDS
