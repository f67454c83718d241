"""The wire to a browser that Selenium drives."""

from __future__ import annotations


class SeleniumWire:
    """See `Wire`."""

    kind = "tab"

    def __init__(self, driver, version: str) -> None:
        self._driver = driver
        self.version = version
        self.process = driver.service.process.pid

    def handles(self) -> list[str]:
        return self._driver.window_handles

    def switch(self, handle: str) -> None:
        self._driver.switch_to.window(handle)

    def new_tab(self) -> str:
        before = set(self.handles())
        self._driver.switch_to.new_window(self.kind)
        return next(handle for handle in self.handles() if handle not in before)

    def navigate(self, url: str) -> None:
        self._driver.get(url)

    def enter_frame(self, index: int) -> None:
        self._driver.switch_to.frame(index)

    def click_button(self, name: str) -> None:
        self._driver.find_element("css selector", f"button[name={name}]").click()

    def close(self) -> None:
        self._driver.close()

    def quit(self) -> None:
        self._driver.quit()
