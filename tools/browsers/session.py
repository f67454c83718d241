"""Sessions, as docs/session.schema.json lists their fields, and the steps that a session may have."""

from __future__ import annotations

import json
from collections.abc import Iterator
from dataclasses import dataclass, field
from pathlib import Path
from urllib.parse import urlsplit

Step = dict

SYMBOLS = ("@@toStringTag", "@@hasInstance", "@@isConcatSpreadable")
WINDOW_KEYS = ("window", "self", "location", "close", "closed", "focus", "blur", "frames", "length", "top", "opener",
               "parent", "postMessage", "name", "origin")
LOCATION_KEYS = ("href", "origin", "assign", "replace")
DEFAULT_PORTS = {"http": 80, "https": 443}


class BadSession(Exception):
    """The text is no session."""


@dataclass(frozen=True)
class Page:
    url: str
    script: list[Step] = field(default_factory=list)
    handler: list[Step] = field(default_factory=list)


@dataclass(frozen=True)
class Session:
    renderers: int
    start: list[str]
    pages: list[Page]
    suffixes: list[str] = field(default_factory=list)
    order: list[int] = field(default_factory=list)
    lose: list[dict] = field(default_factory=list)

    def page_at(self, url: str) -> Page | None:
        """The page whose documents have this URL, whatever its fragment."""
        wanted = page_url(url)
        return next((page for page in self.pages if page_url(page.url) == wanted), None)

    def steps(self) -> Iterator[Step]:
        for page in self.pages:
            yield from page.script
            yield from page.handler

    def keys(self) -> list[str]:
        """Every key that a step names."""
        return sorted({step["key"] for step in self.steps() if "key" in step})

    def as_json(self) -> dict:
        """The object that a session is read from, without fields that have their default."""
        made = {"renderers": self.renderers, "suffixes": self.suffixes, "start": self.start, "order": self.order,
                "lose": self.lose, "pages": []}
        for page in self.pages:
            parts = {"url": page.url, "script": page.script, "handler": page.handler}
            made["pages"].append({name: part for name, part in parts.items() if part != []})
        return {name: part for name, part in made.items() if part != []}


def read_session(text: str) -> Session:
    """Reads a session. It tests what the tools need, not each rule that the program has."""
    try:
        made = json.loads(text)
        pages = [Page(page["url"], list(page.get("script", [])), list(page.get("handler", [])))
                 for page in made["pages"]]
        session = Session(int(made["renderers"]), list(made["start"]), pages, list(made.get("suffixes", [])),
                          list(made.get("order", [])), list(made.get("lose", [])))
    except (ValueError, KeyError, TypeError, AttributeError) as problem:
        raise BadSession(f"no session: {problem!r}") from problem
    if any(not isinstance(step, dict) or "op" not in step for step in session.steps()):
        raise BadSession("no session: a step is an object with the field op")
    return session


def load_session(path: Path) -> Session:
    return read_session(path.read_text())


def written(session: Session) -> str:
    """The text of a session, with a step a line, as those of examples/ are written."""
    made = session.as_json()
    lines = [f'  "{name}": {json.dumps(part)},' for name, part in made.items() if name != "pages"]
    pages = []
    for page in made["pages"]:
        text = f'    {{ "url": {json.dumps(page["url"])}'
        for name in ("script", "handler"):
            if name in page:
                indent = " " * (len(name) + 11)
                steps = f",\n{indent}".join(json.dumps(step) for step in page[name])
                text += f',\n      "{name}": [{steps}]'
        pages.append(text + " }")
    return "{\n" + "\n".join(lines) + '\n  "pages": [\n' + ",\n".join(pages) + "\n  ]\n}\n"


def page_url(url: str) -> str:
    """The URL as it is serialized, without its fragment: scheme and host in lower case, no default port, a path. Hosts
    that the URL Standard would write otherwise are left as they are."""
    parts = urlsplit(url)
    if parts.scheme not in DEFAULT_PORTS:
        return url.partition("#")[0]
    port = f":{parts.port}" if parts.port not in (None, DEFAULT_PORTS[parts.scheme]) else ""
    query = f"?{parts.query}" if parts.query else ""
    return f"{parts.scheme}://{parts.hostname or ''}{port}{parts.path or '/'}{query}"


def origin_of(url: str) -> str:
    """The serialized origin of an http or https URL."""
    parts = urlsplit(page_url(url))
    return f"{parts.scheme}://{parts.netloc}"


def is_index(key: str) -> bool:
    """Whether the key is an array index: a canonical decimal from 0 to 4294967294."""
    return key.isascii() and key.isdigit() and str(int(key)) == key and int(key) <= 4294967294
