"""The tree of windows after a front of the log, and what a renderer is told of it."""

from __future__ import annotations

from collections.abc import Iterable
from dataclasses import dataclass, field

from .trace import Entry, Load


@dataclass
class Document:
    number: int
    nav: int
    origin: str
    url: str
    home: int
    initial: bool
    made: int
    shown: int | None = None
    domain: str | None = None
    domain_at: int | None = None


@dataclass
class Navigable:
    number: int
    made: int
    group: int
    embedder: int | None
    name: str
    flags: str
    opener: int | None
    active: int
    waiting: int | None = None
    dropped: int | None = None
    closing: int | None = None
    gone: int | None = None
    named_at: list[int] = field(default_factory=list)
    opener_at: list[int] = field(default_factory=list)


class Tree:
    """The tree after the entries that were applied."""

    def __init__(self, log: Iterable[Entry] = ()) -> None:
        self.navs: dict[int, Navigable] = {}
        self.docs: dict[int, Document] = {}
        for entry in log:
            self.apply(entry)

    def apply(self, entry: Entry) -> list[int]:
        """Takes the next entry, and tells which navigables it changes, those inside them aside."""
        fields, place = entry.fields, entry.place
        nav = fields.get("nav")
        if entry.kind in ("open", "frame"):
            self._make(entry)
        elif entry.kind == "begin":
            self._load(nav, fields["load"], place)
        elif entry.kind == "commit":
            shown = self.navs[nav]
            shown.active = fields["doc"]
            self.docs[fields["doc"]].shown = place
            if shown.waiting == fields["doc"]:
                shown.waiting = None
        elif entry.kind == "drop":
            self.navs[nav].dropped = place
        elif entry.kind == "closing":
            self.navs[nav].closing = place
        elif entry.kind == "gone":
            self.navs[nav].gone = place
        elif entry.kind == "name":
            self.navs[nav].name = fields["text"]
            self.navs[nav].named_at.append(place)
        elif entry.kind == "opener":
            self.navs[nav].opener = fields["to"]
            self.navs[nav].opener_at.append(place)
        elif entry.kind == "fragment":
            self.docs[fields["doc"]].url = fields["url"]
        elif entry.kind == "domain":
            document = self.docs[fields["doc"]]
            document.domain, document.domain_at = fields["text"], place
            return [document.nav]
        return [] if nav is None else [nav]

    def _make(self, entry: Entry) -> None:
        fields, nav = entry.fields, entry.fields["nav"]
        embedder = entry.actor if entry.kind == "frame" else None
        group = fields["group"] if embedder is None else self.navs[self.docs[embedder].nav].group
        self.navs[nav] = Navigable(nav, entry.place, group, embedder, fields["name"], fields["flags"],
                                   fields.get("opener"), fields["doc"])
        self.docs[fields["doc"]] = Document(fields["doc"], nav, fields["origin"], "about:blank", fields["home"], True,
                                            entry.place, entry.place)
        if fields["load"] is not None:
            self._load(nav, fields["load"], entry.place)

    def _load(self, nav: int, load: Load, place: int) -> None:
        self.docs[load.doc] = Document(load.doc, nav, load.origin, load.url, load.home, False, place)
        self.navs[nav].waiting = load.doc

    def ended(self, nav: int) -> int | None:
        """The place at which a navigable was discarded, by an entry of its own or of one around it, or None."""
        ends, number = [], nav
        while number is not None:
            here = self.navs[number]
            ends += [place for place in (here.dropped, here.gone) if place is not None]
            number = self.parent(number)
            if here.embedder is not None and self.navs[number].active != here.embedder:
                later = [doc.shown for doc in self.docs.values()
                         if doc.nav == number and doc.shown is not None
                         and doc.shown > self.docs[here.embedder].shown]
                ends.append(min(later))
        return min(ends, default=None)

    def active(self, doc: int) -> bool:
        nav = self.docs[doc].nav
        return self.navs[nav].active == doc and self.ended(nav) is None

    def parent(self, nav: int) -> int | None:
        embedder = self.navs[nav].embedder
        return None if embedder is None else self.docs[embedder].nav

    def top(self, nav: int) -> int:
        while (parent := self.parent(nav)) is not None:
            nav = parent
        return nav

    def framed(self, doc: int) -> list[Navigable]:
        """Every frame that the document made, in order, also those that it took away."""
        return [nav for nav in self.navs.values() if nav.embedder == doc]

    def children(self, nav: int) -> list[Navigable]:
        """The frames that the navigable's active document has."""
        if self.ended(nav) is not None:
            return []
        return [child for child in self.framed(self.navs[nav].active) if child.dropped is None]

    def inside(self, nav: int) -> list[int]:
        """The navigable and all that were made inside it, whatever it shows now."""
        found, look = [], [nav]
        while look:
            number = look.pop()
            found.append(number)
            docs = {doc.number for doc in self.docs.values() if doc.nav == number}
            look += [child.number for child in self.navs.values() if child.embedder in docs]
        return found

    def open_to(self, asker: int, doc: int) -> bool:
        """Whether the documents are same origin-domain: whether the one meets the other's objects as own."""
        one, other = self.docs[asker], self.docs[doc]
        if one.domain is not None and other.domain is not None and not one.origin.startswith("opaque"):
            return one.origin.partition(":")[0] == other.origin.partition(":")[0] and one.domain == other.domain
        return one.origin == other.origin and one.domain == other.domain


# What a renderer hears of an entry whose document lives elsewhere.
HIDDEN = "- - hidden"


def concerns(entry: Entry, posts: dict[int, int]) -> int | None:
    """The document whose URL or message the entry has, if any. `posts` has the document of each message by its place."""
    if entry.kind in ("open", "frame", "begin") and entry.fields.get("load") is not None:
        return entry.fields["load"].doc
    if entry.kind in ("fragment", "fire", "lapse"):
        return entry.fields["doc"]
    return posts.get(entry.place)


def blanked(entry: Entry) -> str:
    """The line of the entry as a renderer hears it that isn't the home of its document."""
    if entry.kind in ("post", "fire", "lapse"):
        return f"{entry.place} {HIDDEN}"
    load = entry.fields.get("load")
    if load is None and entry.kind != "fragment":
        return entry.text
    blank = "about:blank" if load is None or load.origin.startswith("opaque") else f"{load.origin}/"
    head, _, _ = entry.text.rpartition('url="')
    return f'{head}url="{blank}"'
