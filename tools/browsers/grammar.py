"""Random sessions. How often each step comes stands in one table."""

from __future__ import annotations

import random

from .session import LOCATION_KEYS, SYMBOLS, WINDOW_KEYS, Page, Session, Step

URLS = ["https://a.test/", "https://a.test/in", "https://b.test/", "https://b.test/in", "https://c.test/", "https://x.a.test/"]
TARGETS = ["*", "/", "https://a.test", "https://b.test", "https://c.test/x", "b.test"]
NAMES = ["n", "m", "then", "length", "0"]
SANDBOXES = ["allow-scripts", "allow-scripts allow-same-origin", "allow-scripts allow-top-navigation", "allow-scripts allow-popups",
             "allow-scripts allow-popups allow-popups-to-escape-sandbox", ""]
KEYS = [*WINDOW_KEYS, *NAMES, *SYMBOLS, "x", "colour", "1", "01", "4294967295"]
VALUES = [1, "x", None, True, {"$": "window"}, {"$": "f"}, "https://a.test/in"]

# How often a step comes, and whether it does something to other windows.
WEIGHTS: dict[str, tuple[int, bool]] = {
    "frame": (8, False), "drop": (2, False), "sync": (8, False),
    "get": (12, False), "has": (4, False), "describe": (7, False), "keys": (2, False), "proto": (1, False), "setproto": (1, False),
    "extensible": (1, False), "prevent": (1, False), "set": (6, False), "define": (4, False), "delete": (4, False),
    "call": (2, False), "follow": (14, False),
    "open": (5, True), "link": (2, True), "navigate": (8, True), "post": (5, True), "close": (3, True), "name": (3, True),
    "disown": (1, True), "domain": (2, True),
}
# The keys by which a script comes from one window to another.
WAYS = ["parent", "top", "opener", "0", "1", "self", "frames", "n", "m"]


class Grammar:
    """Makes sessions from a seed. Without `acts` no step does something to other windows."""

    def __init__(self, seed: int, acts: bool) -> None:
        self.random = random.Random(seed)
        self.steps = [name for name, (_, does) in WEIGHTS.items() if acts or not does]
        self.weights = [WEIGHTS[name][0] for name in self.steps]
        self.acts = acts

    def session(self) -> Session:
        urls = [URLS[0], *self.random.sample(URLS[1:], self.random.randint(1, 3))]
        pages = [Page(url, self.script(urls, 14 if number == 0 else 8)) for number, url in enumerate(urls)]
        if self.acts:
            pages = [Page(page.url, page.script, self.script(urls, 2, ["f", "source"]) if self.random.random() < 0.4 else [])
                     for page in pages]
        starts = [urls[0]] if self.random.random() < 0.9 else urls[:2]
        return Session(self.random.randint(2, 4), starts, pages)

    def script(self, urls: list[str], size: int, held: list[str] | None = None) -> list[Step]:
        windows, places = ["window", *(held or [])], []
        steps = []
        for _ in range(self.random.randint(size // 2, size)):
            steps += self.step(urls, windows, places)
        return steps

    def step(self, urls: list[str], windows: list[str], places: list[str]) -> list[Step]:
        pick = self.random.choice
        kind = self.random.choices(self.steps, self.weights)[0]
        of = pick(windows + places)
        window = pick(windows)
        match kind:
            case "frame":
                made: Step = {"op": "frame"}
                if self.random.random() < 0.8:
                    made["url"] = pick(urls)
                if self.random.random() < 0.4:
                    made["name"] = pick(NAMES)
                if self.random.random() < 0.25:
                    made["sandbox"] = pick(SANDBOXES)
                return [{**made, "to": self.held(windows)}, *([{"op": "sync"}] if self.random.random() < 0.6 else [])]
            case "drop":
                return [{"op": "drop", "index": pick([0, 0, 1])}]
            case "sync":
                return [{"op": "sync"}]
            case "follow":
                if self.random.random() < 0.3:
                    return [{"op": "get", "of": window, "key": "location", "to": self.held(places, ["l", "k"])}]
                return [{"op": "get", "of": window, "key": pick(WAYS), "to": self.held(windows)}]
            case "set":
                keys = [key for key in self.keys(of, places) if self.acts or key not in ("location", "name", "opener", "href")]
                return [{"op": "set", "of": of, "key": pick(keys), "value": pick(VALUES)}]
            case "define":
                parts = {name: pick([True, False]) for name in ("writable", "enumerable", "configurable") if pick([True, False])}
                value = {"value": pick(VALUES)} if pick([True, False]) else {}
                return [{"op": "define", "of": of, "key": pick(self.keys(of, places)), **value, **parts}]
            case "get" | "has" | "describe" | "delete":
                return [{"op": kind, "of": of, "key": pick(self.keys(of, places))}]
            case "call":
                return [{"op": "call", "of": window, "key": pick(["focus", "blur", "length", "x"]), "args": []}]
            case "keys" | "proto" | "setproto" | "extensible" | "prevent":
                return [{"op": kind, "of": of}]
        return self.act(kind, urls, windows, places)

    def act(self, kind: str, urls: list[str], windows: list[str], places: list[str]) -> list[Step]:
        pick, window = self.random.choice, self.random.choice(windows)
        url = pick([*urls, *urls, f"{pick(urls)}#f", "about:blank"])
        match kind:
            case "open":
                made: Step = {"op": "open", "target": pick([*NAMES[:2], "_blank", "_self", "_parent", "_top"])}
                if self.random.random() < 0.8:
                    made["url"] = url
                if self.random.random() < 0.2:
                    made["noopener"] = True
                return [{**made, "to": self.held(windows)}, *([{"op": "sync"}] if self.random.random() < 0.6 else [])]
            case "link":
                return [{"op": "link", "url": url, "target": pick(["", *NAMES[:2], "_blank", "_parent", "_top"]),
                         "rel": pick(["", "opener", "noopener", "noreferrer"])}]
            case "navigate":
                if places and pick([True, False]):
                    if pick([True, False]):
                        return [{"op": "set", "of": pick(places), "key": "href", "value": url}]
                    return [{"op": "call", "of": pick(places), "key": pick(["assign", "replace"]), "args": [url]}]
                return [{"op": "set", "of": window, "key": "location", "value": url}]
            case "post":
                return [{"op": "call", "of": window, "key": "postMessage", "args": [pick(VALUES), pick(TARGETS)]}]
            case "close":
                return [{"op": "call", "of": window, "key": "close", "args": []}]
            case "name":
                return [{"op": "set", "of": window, "key": "name", "value": pick(NAMES)}]
            case "disown":
                return [{"op": "set", "of": window, "key": "opener", "value": None}]
        return [{"op": "domain", "value": pick(["a.test", "x.a.test", "test", "b.test"])}]

    def keys(self, of: str, places: list[str]) -> list[str]:
        return [*LOCATION_KEYS, "then", "x", "0", "@@toStringTag"] if of in places else KEYS

    def held(self, names: list[str], of: list[str] | None = None) -> str:
        """A register for a window or a Location, which later steps may ask."""
        name = self.random.choice(of or ["f", "g", "p", "q"])
        if name not in names:
            names.append(name)
        return name
