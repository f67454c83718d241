"""Browsers, each driven by its own protocol."""

from __future__ import annotations

import threading
import time
from pathlib import Path
from typing import Protocol


class Missing(Exception):
    """Something is missing: what to install is said."""


class Trouble(Exception):
    """A browser doesn't do what its driver asked."""


class Wire(Protocol):
    """What a protocol has to offer. Windows have handles; the one that was switched to is meant, and in it the frame."""
    version: str
    process: int

    def handles(self) -> list[str]: ...
    def switch(self, handle: str) -> None: ...
    def new_tab(self) -> str: ...
    def navigate(self, url: str) -> None: ...
    def enter_frame(self, index: int) -> None: ...
    def click_button(self, name: str) -> None: ...
    def close(self) -> None: ...
    def quit(self) -> None: ...


class Browser:
    """A running browser, over a wire. Between sessions one empty window stays open."""

    def __init__(self, name: str, isolated: bool, wire: Wire) -> None:
        self.name, self.isolated, self.wire = name, isolated, wire
        self.version = wire.version
        self.trouble: Exception | None = None
        self._home = wire.handles()[0]
        self._loading: threading.Thread | None = None

    @property
    def label(self) -> str:
        return f"{self.name}{'' if self.isolated else ' not isolated'}"

    def open_start(self, url: str) -> None:
        """Opens a window of its own at this URL. It doesn't wait until that is shown: `loaded` does."""
        self.wire.switch(self._home)
        self.wire.switch(self.wire.new_tab())
        self._loading = threading.Thread(target=self._navigate, args=[url], daemon=True)
        self._loading.start()

    def _navigate(self, url: str) -> None:
        try:
            self.wire.navigate(url)
        except Exception as problem:  # the page is shown or not: whoever waits for it sees that
            self.trouble = problem

    def loaded(self) -> None:
        """Waits until the last start window's load is known to the driver."""
        if self._loading is not None:
            self._loading.join(30)
            self._loading = None

    def click(self, button: str, path: list[int]) -> None:
        """Clicks the button of this name in the frame at this path of indices, in whichever window has it."""
        end = time.monotonic() + 3
        while time.monotonic() < end:
            for handle in self.wire.handles():
                try:
                    self.wire.switch(handle)
                    for index in path:
                        self.wire.enter_frame(index)
                    self.wire.click_button(button)
                    return
                except Exception as problem:  # each protocol has its own: the next window may have the button
                    self.trouble = problem
            time.sleep(0.1)
        raise Trouble(f"{self.label}: no window has the button {button}: {type(self.trouble).__name__}")

    def windows(self) -> int:
        """How many windows there are besides the empty one."""
        return len(self.wire.handles()) - 1

    def end(self) -> None:
        """Closes the windows of a session."""
        self.loaded()
        for handle in self.wire.handles():
            if handle != self._home:
                self.wire.switch(handle)
                self.wire.close()
        self.wire.switch(self._home)

    def processes(self) -> int:
        """How many processes for pages the browser has, as far as the system tells."""
        return sum(any(word in line for word in (b"--type=renderer", b"-contentproc", b"WebKitWebProcess"))
                   and b"--type=zygote" not in line for line in command_lines(self.wire.process))

    def quit(self) -> None:
        self.wire.quit()


def command_lines(process: int) -> list[bytes]:
    """The command lines of all processes below this one."""
    parents, lines = {}, {}
    for folder in Path("/proc").iterdir():
        if folder.name.isdigit():
            try:
                lines[int(folder.name)] = (folder / "cmdline").read_bytes()
                stat = (folder / "stat").read_text()
                parents[int(folder.name)] = int(stat.rpartition(")")[2].split()[1])
            except OSError:
                continue
    below, look = set(), [process]
    while look:
        above = look.pop()
        found = [child for child, parent in parents.items() if parent == above and child not in below]
        below.update(found)
        look += found
    return [lines[child] for child in below]


NAMES = ("chromium", "firefox", "webkit")
# the browsers that can be had with a process for each site; without it every one
ISOLATES = ("chromium", "firefox")


def start(name: str, isolated: bool, port: int) -> Browser:
    """A browser that finds every host at this port of the loopback address."""
    from . import chromium, firefox, webkit
    modules = {"chromium": chromium, "firefox": firefox, "webkit": webkit}
    return Browser(name, isolated, modules[name].start(isolated, port))
