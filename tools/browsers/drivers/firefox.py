"""Firefox, driven by Marionette. Debian has no geckodriver and no package for this protocol, so the few commands that are
needed stand here."""

from __future__ import annotations

import json
import shutil
import socket
import subprocess
import tempfile
import time
from pathlib import Path

from . import Missing, Trouble

FIRST = "http://first.control.test/@winproxy/first"
ELEMENT = "element-6066-11e4-a52e-4f735466cecf"


def preferences(isolated: bool, port: int, marionette: int) -> dict:
    return {
        "fission.autostart": isolated, "marionette.port": marionette,
        "network.proxy.type": 1, "network.proxy.http": "127.0.0.1", "network.proxy.http_port": port,
        "network.proxy.ssl": "127.0.0.1", "network.proxy.ssl_port": port, "network.proxy.no_proxies_on": "",
        "network.http.max-persistent-connections-per-proxy": 200, "network.http.max-connections": 900,
        "network.http.speculative-parallel-limit": 0, "network.captive-portal-service.enabled": False,
        "network.connectivity-service.enabled": False, "network.prefetch-next": False,
        "dom.disable_open_during_load": False, "dom.popup_maximum": 1000, "dom.security.https_first": False,
        "dom.security.https_only_mode": False, "dom.min_background_timeout_value": 4,
        "browser.sessionhistory.max_total_viewers": 0, "browser.shell.checkDefaultBrowser": False,
        "browser.startup.homepage_override.mstone": "ignore", "browser.aboutwelcome.enabled": False,
        "browser.link.open_newwindow.restriction": 0, "browser.dom.window.dump.enabled": False,
        "app.normandy.enabled": False, "app.update.disabledForTesting": True, "extensions.update.enabled": False,
        "datareporting.policy.dataSubmissionEnabled": False, "toolkit.telemetry.reportingpolicy.firstRun": False,
        "services.settings.server": "data:,", "browser.safebrowsing.update.enabled": False,
        "browser.tabs.closeWindowWithLastTab": False, "browser.tabs.warnOnClose": False,
        "dom.ipc.processPrelaunch.enabled": False,
    }


def free_port() -> int:
    with socket.socket() as probe:
        probe.bind(("127.0.0.1", 0))
        return probe.getsockname()[1]


class MarionetteWire:
    """See `Wire`."""

    def __init__(self, program: str, isolated: bool, port: int) -> None:
        self._folder = tempfile.TemporaryDirectory(ignore_cleanup_errors=True)
        profile = Path(self._folder.name)
        marionette = free_port()
        lines = [f"user_pref({json.dumps(name)}, {json.dumps(value)});"
                 for name, value in preferences(isolated, port, marionette).items()]
        (profile / "user.js").write_text("\n".join(lines) + "\n")
        self._program = subprocess.Popen([program, "--headless", "--marionette", "--no-remote", "--profile", profile],
                                         stdout=subprocess.DEVNULL, stderr=subprocess.DEVNULL)
        self.process = self._program.pid
        self._count = 0
        self._socket = self._connected(marionette)
        self._read()
        made = self._ask("WebDriver:NewSession", {"pageLoadStrategy": "none", "acceptInsecureCerts": True})
        self.version = f"Firefox {made['capabilities']['browserVersion']}"

    def _connected(self, marionette: int) -> socket.socket:
        end = time.monotonic() + 60
        while time.monotonic() < end and self._program.poll() is None:
            try:
                return socket.create_connection(("127.0.0.1", marionette), 60)
            except OSError:
                time.sleep(0.2)
        raise Trouble("Firefox didn't begin to listen")

    def _read(self):
        head = b""
        while not head.endswith(b":"):
            byte = self._socket.recv(1)
            if not byte:
                raise Trouble("Firefox hung up")
            head += byte
        size, body = int(head[:-1]), b""
        while len(body) < size:
            body += self._socket.recv(size - len(body))
        return json.loads(body)

    def _ask(self, command: str, words: dict | None = None):
        self._count += 1
        text = json.dumps([0, self._count, command, words or {}]).encode()
        self._socket.sendall(b"%d:%s" % (len(text), text))
        while True:
            _, number, problem, value = self._read()
            if number == self._count:
                break
        if problem:
            raise Trouble(f"{command}: {problem['error']}: {problem['message']}")
        return value["value"] if isinstance(value, dict) and set(value) == {"value"} else value

    def handles(self) -> list[str]:
        return self._ask("WebDriver:GetWindowHandles")

    def switch(self, handle: str) -> None:
        self._ask("WebDriver:SwitchToWindow", {"handle": handle, "focus": True})

    def new_tab(self) -> str:
        """A new tab that has shown a page before, so that a script can't close it: it may close one without history, which the
        model has no word for."""
        made = self._ask("WebDriver:NewWindow", {"type": "tab"})["handle"]
        self.switch(made)
        self.navigate(FIRST)
        end = time.monotonic() + 3
        ready = f"return location.href === '{FIRST}' && document.readyState === 'complete'"
        while not self._ask("WebDriver:ExecuteScript", {"script": ready, "args": []}) and time.monotonic() < end:
            time.sleep(0.02)
        return made

    def navigate(self, url: str) -> None:
        self._ask("WebDriver:Navigate", {"url": url})

    def enter_frame(self, index: int) -> None:
        self._ask("WebDriver:SwitchToFrame", {"id": index})

    def click_button(self, name: str) -> None:
        found = self._ask("WebDriver:FindElement", {"using": "css selector", "value": f"button[name={name}]"})
        self._ask("WebDriver:ElementClick", {"id": found[ELEMENT]})

    def close(self) -> None:
        self._ask("WebDriver:CloseWindow")

    def quit(self) -> None:
        try:
            self._ask("Marionette:Quit", {"flags": ["eForceQuit"]})
        except (Trouble, OSError):
            self._program.terminate()
        try:
            self._program.wait(20)
        except subprocess.TimeoutExpired:
            self._program.kill()
        self._socket.close()
        self._folder.cleanup()


def start(isolated: bool, port: int) -> MarionetteWire:
    """Firefox with Fission or without."""
    program = shutil.which("firefox-esr") or shutil.which("firefox")
    if program is None:
        raise Missing("firefox is missing: apt-get install firefox-esr")
    return MarionetteWire(program, isolated, port)
