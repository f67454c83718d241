"""Chromium, driven by chromedriver through Selenium."""

from __future__ import annotations

import os
import shutil

from . import Missing
from .selenium_wire import SeleniumWire

OFF = ["HttpsUpgrades", "HttpsFirstBalancedModeAutoEnable", "BackForwardCache", "Translate", "OptimizationHints"]
QUIET = ["--headless=new", "--disable-gpu", "--disable-dev-shm-usage", "--no-first-run", "--disable-background-networking",
         "--disable-component-update"]
AWAKE = ["--disable-background-timer-throttling", "--disable-renderer-backgrounding",
         "--disable-backgrounding-occluded-windows", "--disable-popup-blocking"]


def start_driver(arguments: list[str], strategy: str = "normal"):
    """A headless Chromium with these further arguments."""
    browser, service = shutil.which("chromium"), shutil.which("chromedriver")
    if browser is None or service is None:
        raise Missing("chromium is missing: apt-get install chromium chromium-driver python3-selenium")
    try:
        from selenium import webdriver
        from selenium.webdriver.chrome.options import Options
        from selenium.webdriver.chrome.service import Service
    except ImportError:
        raise Missing("Python's selenium is missing: apt-get install python3-selenium, and run /usr/bin/python3") from None
    options = Options()
    options.binary_location = browser
    options.page_load_strategy = strategy
    for argument in [*QUIET, *arguments]:
        options.add_argument(argument)
    if os.geteuid() == 0:
        options.add_argument("--no-sandbox")
    return webdriver.Chrome(service=Service(service), options=options)


def start(isolated: bool, port: int) -> SeleniumWire:
    """Chromium with a process for each site, or with none of its own for any."""
    off = OFF if isolated else [*OFF, "IsolateOrigins", "site-per-process"]
    driver = start_driver([*AWAKE, "--site-per-process" if isolated else "--disable-site-isolation-trials",
                           f"--host-resolver-rules=MAP * 127.0.0.1:{port}", "--ignore-certificate-errors",
                           f"--disable-features={','.join(off)}"], "none")
    return SeleniumWire(driver, f"Chromium {driver.capabilities['browserVersion']}")
