"""Opens a page of the viewer in headless Chromium, moves the slider, chooses acts, looks through a renderer's eyes, and
compares what is shown."""

from __future__ import annotations

import tempfile
from pathlib import Path

from .model import printed_run
from .session import load_session
from .viewer import page_of

DATA = Path(__file__).resolve().parent / "tests" / "data"


class Check:
    """One page in one browser, and what wasn't as it has to be."""

    def __init__(self, driver, name: str, folder: Path) -> None:
        self.driver, self.name, self.wrong = driver, name, []
        self.compared = 0
        page = folder / f"{name}.html"
        page.write_text(page_of(name, load_session(DATA / f"{name}.json"), printed_run(DATA / f"{name}.out")))
        driver.get(page.as_uri())

    def same(self, about: str, shown, expected) -> None:
        self.compared += 1
        if shown != expected:
            self.wrong.append(f"{self.name}: {about}: {shown!r}, and not {expected!r}")

    def text(self, selector: str) -> str:
        return " ".join(part.text for part in self.driver.find_elements("css selector", selector))

    def count(self, selector: str) -> int:
        return len(self.driver.find_elements("css selector", selector))

    def slide(self, keys: str) -> None:
        self.driver.find_element("css selector", "#place").send_keys(keys)

    def press(self, keys: str) -> None:
        self.driver.find_element("css selector", "body").send_keys(keys)

    def click(self, selector: str) -> None:
        part = self.driver.find_element("css selector", selector)
        self.driver.execute_script("arguments[0].scrollIntoView({block: 'center'})", part)
        part.click()


    def choose(self, front: str) -> None:
        """Clicks the act whose text begins so."""
        buttons = self.driver.find_elements("css selector", "button.act")
        number = next(button.get_attribute("data-act") for button in buttons if button.text.startswith(front))
        self.click(f'button.act[data-act="{number}"]')


def check_shop(check: Check, keys) -> None:
    """The shop: four renderers, a sandboxed frame, a window that is opened, sends a message and is closed."""
    check.same("the length at first", check.text("#length"), "after 13 of 13 entries")
    check.same("windows at the end", check.count("#tree li"), 4)
    check.same("discarded windows at the end", check.count("#tree li.gone"), 1)
    check.same("one message", check.count("#arrows path[data-post]"), 1)
    check.slide(keys.HOME)
    check.same("windows before all", check.text("#tree"), "No window yet.")
    check.slide(keys.ARROW_RIGHT * 3)
    check.same("the length after three steps", check.text("#length"), "after 3 of 13 entries")
    check.same("windows after three", check.count("#tree li"), 2)
    check.same("the frame loads", "loads d3 for r1" in check.text('#tree li[data-nav="1"]'), True)
    check.same("r0 heard", check.text('#heard li[data-renderer="0"] .note').partition(";")[0], "heard 3 of 3")
    check.same("r2 heard", check.text('#heard li[data-renderer="2"] .note').partition(";")[0], "heard 0 of 3, 3 behind")
    check.slide(keys.END)
    check.choose("d5 s2 ")
    detail = check.text("#detail")
    for part in ("6 d5 s2 get -> SecurityError S1", '{"op":"get","of":"p","key":"name"}', "pages[1].script[2]", "window n0",
                 "which had heard 6 entries", "foreign to d5"):
        check.same(f"the refused get shows {part!r}", part in detail, True)
    check.same("the prefix of the act", check.text("#length"), "after 6 of 13 entries")
    check.same("entries that decide it", check.text("tr.decides td:first-child"), "0 1 4 5")
    check.press("j")
    check.same("the key j goes on", "7 d1 s2 open" in check.text("#detail"), True)
    check.press("k")
    check.same("the key k goes back", "6 d5 s2 get" in check.text("#detail"), True)
    check.slide(keys.END)
    check.click('#eyes input[value="1"]')
    check.same("r1 hears no message of others", check.text('tr[data-place="8"] .blank'), "hidden")
    check.same("r1 knows no URL of others", check.text('#tree li[data-nav="0"] > .window .blank'), "")
    check.click('#eyes input[value="0"]')
    check.same("r0 sees the message", 'post to d1: {"token":"t1"}' in check.text("#rows"), True)
    check.press("[[")
    check.same("the key [ goes back", check.text("#length"), "after 11 of 13 entries")


def check_moved(check: Check, keys) -> None:
    """A message whose document is replaced before it comes."""
    check.same("the arrow ends in a lapse", check.count("#arrows path.lapse"), 1)
    check.slide(keys.ARROW_LEFT)
    check.same("the message is under way", check.count("#arrows path.open"), 1)
    check.click('#eyes input[value="2"]')
    check.same("r2 hears of no message", check.text("#rows .blank").split().count("hidden"), 2)


def run(picture: Path | None) -> tuple[int, list[str]]:
    """How much was compared, and what was wrong."""
    from .drivers.chromium import start_driver
    from selenium.webdriver.common.keys import Keys
    with tempfile.TemporaryDirectory() as name:
        folder = Path(name)
        driver = start_driver(["--window-size=1280,900"])
        try:
            compared, wrong = 0, []
            for name, body in (("shop", check_shop), ("moved-before-delivery", check_moved)):
                check = Check(driver, name, folder)
                body(check, Keys)
                asked = driver.execute_script("return performance.getEntriesByType('resource').length")
                check.same("requests", asked, 0)
                compared += check.compared
                wrong += check.wrong
            if picture is not None:
                driver.get((folder / "shop.html").as_uri())
                driver.execute_script("choose(12); scrollTo(0, 330)")
                driver.save_screenshot(str(picture))
        finally:
            driver.quit()
    return compared, wrong
