"""Short words for the steps and sessions of the survey."""

from __future__ import annotations

from dataclasses import dataclass

from .session import Page, Session, Step

URLS = {"a": "https://a.test/", "aa": "https://a.test/in", "b": "https://b.test/", "bb": "https://b.test/in", "c": "https://c.test/",
        "x": "https://x.a.test/", "y": "https://y.a.test/", "port": "https://a.test:8443/", "plain": "http://a.test/"}
WINDOW = "7.2.3"
NAMED = "7.2.2.3"
LOCATION = "7.2.4"
CROSS = "7.2.1"


@dataclass(frozen=True)
class Line:
    """A rule, and the step of a session whose answer shows it: the page, and its place in the script or the handler."""
    topic: str
    rule: str
    section: str
    session: Session
    page: str
    index: int
    handler: bool = False

    def step(self) -> Step:
        page = self.session.page_at(self.page)
        return (page.handler if self.handler else page.script)[self.index]


class Survey:
    """The lines, as they are written down one after the other."""

    def __init__(self) -> None:
        self.lines: list[Line] = []
        self._topic = self._section = ""

    def topic(self, name: str, section: str) -> None:
        self._topic, self._section = name, section

    def line(self, rule: str, shown: str = "a", *, section: str = "", suffixes: list[str] | None = None, at: int | None = None,
             start: tuple[str, ...] = ("a",), **pages: list[Step]) -> None:
        """A rule, and the pages of its session by their short names; a handler has `_handler` behind that of its page. What is
        shown is the last step of the page `shown`, or that at the place `at`."""
        made = []
        for name, url in URLS.items():
            if name in pages or f"{name}_handler" in pages:
                made.append(Page(url, pages.get(name, []), pages.get(f"{name}_handler", [])))
        name, _, handler = shown.partition("_")
        index = len(pages[shown]) - 1 if at is None else at
        session = Session(4, [URLS[page] for page in start], made, suffixes or [])
        self.lines.append(Line(self._topic, rule, section or self._section, session, URLS[name], index, bool(handler)))


def given(**parts) -> dict:
    return {name: part for name, part in parts.items() if part is not None}


def get(of: str, key: str, to: str | None = None) -> Step:
    return {"op": "get", "of": of, "key": key, **given(to=to)}


def ask(op: str, of: str, key: str | None = None) -> Step:
    return {"op": op, "of": of, **given(key=key)}


def put(of: str, key: str, value, user: bool | None = None) -> Step:
    return {"op": "set", "of": of, "key": key, "value": value, **given(user=user)}


def define(of: str, key: str, **parts) -> Step:
    return {"op": "define", "of": of, "key": key, **parts}


def call(of: str, key: str, *args, to: str | None = None, user: bool | None = None) -> Step:
    return {"op": "call", "of": of, "key": key, "args": list(args), **given(to=to, user=user)}


def frame(page: str | None = None, to: str | None = None, **parts) -> Step:
    return {"op": "frame", **given(url=URLS.get(page, page)), **parts, **given(to=to)}


def opened(page: str | None = None, to: str | None = None, **parts) -> Step:
    return {"op": "open", **given(url=URLS.get(page, page)), **parts, **given(to=to)}


def link(page: str, **parts) -> Step:
    return {"op": "link", "url": URLS.get(page, page), **parts}


def let(value, to: str | None = None) -> Step:
    return {"op": "let", "value": value, **given(to=to)}


def domain(value: str) -> Step:
    return {"op": "domain", "value": value}


def reg(name: str) -> dict:
    return {"$": name}


SYNC: Step = {"op": "sync"}
ACROSS = [frame("b", "f"), SYNC]
"""What the page a does first in most sessions: it frames b, which is of another site, as f, and waits."""


def drop(index: int) -> Step:
    return {"op": "drop", "index": index}
