"""What the pages of one session and their coordinator share: loads that wait, documents that are shown, items to perform and
their answers."""

from __future__ import annotations

import html
import json
import secrets
import threading
import time
from dataclasses import dataclass, field
from pathlib import Path
from urllib.parse import urlsplit

from .session import LOCATION_KEYS, WINDOW_KEYS

PAGE = Path(__file__).resolve().parent / "page"


@dataclass
class PageRequest:
    """A page that a browser asked for. It waits until it is released, with the page's text."""
    url: str
    released: threading.Event = field(default_factory=threading.Event)
    given_up: bool = False
    text: str = ""


@dataclass
class Agent:
    """A document that runs steps."""
    doc: int
    batch: int = 0
    items: list[dict] | None = None
    answers: list[dict] = field(default_factory=list)
    waiting: int = 0


class Stage:
    """The state, under one lock that whoever waits is woken by."""

    def __init__(self) -> None:
        self._changed = threading.Condition()
        self.clear()

    def clear(self, keys: list[str] | None = None) -> None:
        """Ends what is played, and makes room for a session with these keys."""
        with self._changed:
            for request in getattr(self, "requests", []):
                request.released.set()
            self.token = secrets.token_hex(4)
            self.keys = keys or []
            self.requests: list[PageRequest] = []
            self.agents: dict[int, Agent] = {}
            self.seen: set[int] = set()
            self._changed.notify_all()

    # What the server tells.

    def asked_for(self, request: PageRequest) -> None:
        with self._changed:
            self.requests.append(request)
            self._changed.notify_all()

    def shown(self, doc: int, token: str) -> None:
        with self._changed:
            if token == self.token:
                self.seen.add(doc)
                self._changed.notify_all()

    def next_batch(self, told: dict, wait: float) -> dict:
        """Takes what an agent tells, and answers with the items that it is to perform next, `{}` where there are none for
        a while."""
        with self._changed:
            if told["token"] != self.token:
                return {"stop": True}
            doc = told["doc"]
            agent = self.agents.setdefault(doc, Agent(doc))
            self.seen.add(doc)
            if agent.items is not None and told["batch"] == agent.batch:
                agent.items, agent.answers = None, told["answers"]
            if told.get("beacon"):
                self._changed.notify_all()
                return {}
            agent.waiting = told.get("waiting", agent.waiting)
            self._changed.notify_all()
            self._changed.wait_for(lambda: agent.items is not None or told["token"] != self.token, wait)
            if told["token"] != self.token:
                return {"stop": True}
            return {} if agent.items is None else {"batch": agent.batch, "items": agent.items}

    # What the coordinator does.

    def waiting_loads(self) -> list[PageRequest]:
        with self._changed:
            return [request for request in self.requests if not request.given_up and not request.released.is_set()]

    def release(self, doc: int, url: str | None, wait: float) -> bool:
        """Shows the oldest load of this URL that waits, or the oldest of all, as the document with this number. Whether it
        was shown."""
        def oldest() -> PageRequest | None:
            return next((r for r in self.requests if not r.given_up and not r.released.is_set() and url in (None, r.url)),
                        None)
        with self._changed:
            if not self._changed.wait_for(lambda: oldest() is not None, wait):
                return False
            request = oldest()
            request.text = self._page(doc, request.url)
            request.released.set()
            return self._changed.wait_for(lambda: doc in self.seen, wait)

    def _page(self, doc: int, url: str) -> str:
        where = f"{urlsplit(url).scheme}://d{doc}.control.test/@winproxy/next"
        config = {"doc": doc, "token": self.token, "keys": self.keys, "windowKeys": WINDOW_KEYS,
                  "locationKeys": LOCATION_KEYS, "control": where}
        parts = {"TITLE": f"d{doc}", "AGENT": (PAGE / "agent.js").read_text().strip(),
                 "CONFIG": json.dumps(config).replace("<", "\\u003c"),
                 "SHOWN": html.escape(f"/@winproxy/shown?doc={doc}&token={self.token}")}
        text = (PAGE / "page.html").read_text()
        for name, part in parts.items():
            text = text.replace(f"@{name}@", part)
        return text

    def has_agent(self, doc: int, wait: float) -> bool:
        with self._changed:
            return self._changed.wait_for(lambda: doc in self.agents, wait)

    def give(self, doc: int, items: list[dict], wait: float) -> int | None:
        """Gives a document items to perform. The number of the batch, or None where it runs no steps."""
        if not self.has_agent(doc, wait):
            return None
        with self._changed:
            agent = self.agents[doc]
            agent.batch += 1
            agent.items, agent.answers = items, []
            self._changed.notify_all()
            return agent.batch

    def answers(self, doc: int, wait: float) -> list[dict] | None:
        """What a document answered to the last batch, or None where it doesn't within the time."""
        with self._changed:
            agent = self.agents[doc]
            if not self._changed.wait_for(lambda: agent.items is None, wait):
                agent.items = None
                return None
            return agent.answers


def settle(seconds: float) -> None:
    """Gives the processes of a browser time to hear of each other's windows."""
    time.sleep(seconds)
