"""WebKit, driven by WebKitWebDriver through Selenium. Its small browser needs a display, so a virtual one is started."""

from __future__ import annotations

import glob
import os
import shutil
import subprocess

from . import Missing
from .selenium_wire import SeleniumWire

BROWSERS = "/usr/lib/*/webkit2gtk-4.*/MiniBrowser"


class WebKitWire(SeleniumWire):
    """See `Wire`. The display ends with it. A tab here is hidden, and opens no windows, so each window is one of its own."""

    kind = "window"

    def __init__(self, driver, version: str, display: subprocess.Popen) -> None:
        super().__init__(driver, version)
        self._display = display

    def quit(self) -> None:
        super().quit()
        self._display.terminate()
        self._display.wait(20)


def virtual_display() -> tuple[subprocess.Popen, str]:
    """A display of its own, and its name."""
    if shutil.which("Xvfb") is None:
        raise Missing("Xvfb is missing: apt-get install xvfb")
    reader, writer = os.pipe()
    program = subprocess.Popen(["Xvfb", "-displayfd", str(writer), "-screen", "0", "1280x1024x24", "-nolisten", "tcp"],
                               pass_fds=[writer], stdout=subprocess.DEVNULL, stderr=subprocess.DEVNULL)
    os.close(writer)
    with os.fdopen(reader) as told:
        return program, f":{told.readline().strip()}"


def start(isolated: bool, port: int) -> WebKitWire:
    """WebKit. Its isolation of sites is called unstable, and can't be had where it is driven, so there is one kind of it."""
    service, browsers = shutil.which("WebKitWebDriver"), glob.glob(BROWSERS)
    if service is None or not browsers:
        raise Missing("WebKit is missing: apt-get install webkit2gtk-driver xvfb python3-selenium")
    try:
        from selenium import webdriver
        from selenium.webdriver.webkitgtk.options import Options
    except ImportError:
        raise Missing("Python's selenium is missing: apt-get install python3-selenium, and run /usr/bin/python3") from None
    display, name = virtual_display()
    options = Options()
    options.binary_location = browsers[0]
    for argument in ("--automation", "--ignore-tls-errors", "--javascript-can-open-windows-automatically=true",
                     f"--proxy=http://127.0.0.1:{port}"):
        options.add_argument(argument)
    options.set_capability("acceptInsecureCerts", True)
    options.set_capability("pageLoadStrategy", "none")
    before = os.environ.get("DISPLAY")
    os.environ["DISPLAY"] = name
    try:
        driver = webdriver.WebKitGTK(executable_path=service, options=options)
    except Exception:
        display.terminate()
        raise
    finally:
        os.environ.pop("DISPLAY", None)
        if before is not None:
            os.environ["DISPLAY"] = before
    return WebKitWire(driver, f"WebKitGTK {driver.capabilities['browserVersion']}", display)
