"""The order in which a session is played where there is no run of the model. Loads are shown as they come; then each document
runs to its next `sync` or its end, the oldest first; then messages are delivered; and once nothing else is left, every
document that stands at a `sync` passes it."""

from __future__ import annotations

from dataclasses import dataclass, field

from .player import Played, Player, Seen, fits, navigates
from .session import Page, Step
from .stage import settle
from .trace import Point

ROUNDS = 400


@dataclass
class Running:
    """A document, and what it has still to do."""
    number: int
    page: Page | None
    url: str
    left: list[tuple[Point, Step]] = field(default_factory=list)
    fired: int = 0
    gone: bool = False


class BarrierOrder:
    """Documents have numbers as they are shown, from 1. The first message that fires at d3 has the key ("fire", 3, 1), and the
    steps of its handler have the points of a message fired at 1."""

    def __init__(self, player: Player, played: Played) -> None:
        self.player, self.played = player, played
        self.session = player.session
        self.docs: list[Running] = []

    def play(self) -> list[int]:
        for url in self.session.start:
            self.show(url)
        for _ in range(ROUNDS):
            if not (self.loads() or self.steps() or self.messages() or self.barrier()):
                break
        return [doc.number for doc in self.docs if not doc.gone]

    def show(self, start: str | None = None) -> bool:
        number = len(self.docs) + 1
        waiting = self.player.stage.waiting_loads()
        url = start or waiting[0].url
        shown = self.player.show(number, url, start is not None)
        page = self.session.page_at(url)
        script = page.script if page and shown and self.player.stage.has_agent(number, 0.3) else []
        doc = Running(number, page, url, [(Point(None, index), step) for index, step in enumerate(script)])
        doc.gone = not self.player.stage.has_agent(number, 0)
        self.docs.append(doc)
        self.played.seen["commit", number] = Seen(url if shown else f"{url} not shown")
        return shown

    def loads(self) -> bool:
        settle(self.player.waits.settle)
        return bool(self.player.stage.waiting_loads()) and (self.show() or True)

    def steps(self) -> bool:
        """Runs one document to its next barrier, or to a step that may take it or others away."""
        doc = next((doc for doc in self.docs if not doc.gone and doc.left and doc.left[0][1]["op"] != "sync"), None)
        if doc is None:
            return False
        batch = []
        while doc.left and doc.left[0][1]["op"] != "sync":
            if doc.left[0][1].get("user") and batch:
                break
            batch.append(doc.left.pop(0))
            if batch[-1][1].get("user") or navigates(batch[-1][1]):
                break
        if batch[0][1].get("user"):
            self.click(doc, *batch[0])
            return True
        self.player.let_activation_end(batch[-1][1])
        items, places = [], []
        for _, step in batch:
            places.append(len(items))
            items += self.player.items_of(step if self.can(step, doc) else {"op": "let", "value": None})
        answers = self.player.perform(doc.number, items, self.player.waits.answer)
        doc.gone = answers is None
        for (point, step), place in zip(batch, places):
            made = {"answer": "no answer"} if answers is None else answers[place]
            if not self.can(step, doc):
                made = {"answer": "SchemeOut"}
            self.played.seen[doc.number, point] = Seen(made["answer"], made.get("notes", {}), made.get("why", ""))
        if items[-1].get("leaves"):
            settle(2 * self.player.waits.settle)
        return True

    def can(self, step: Step, doc: Running) -> bool:
        url = step.get("url") or (step.get("value") if step.get("key") in ("location", "href") else None)
        return not isinstance(url, str) or fits(url, doc.url)

    def click(self, doc: Running, point: Point, step: Step) -> None:
        rest = self.player.perform(doc.number, [{"rest": True}], 1.0)
        plain = {name: part for name, part in step.items() if name != "user"}
        answers = rest and self.player.click(doc.number, rest[0]["notes"]["path"], plain)
        doc.gone = not answers
        made = answers[0] if answers else {"answer": "no answer"}
        self.played.seen[doc.number, point] = Seen(made["answer"], made.get("notes", {}), made.get("why", ""))

    def messages(self) -> bool:
        """Fires the oldest message of one document that has nothing else to do."""
        for doc in self.docs:
            if doc.gone or doc.left:
                continue
            rest = self.player.perform(doc.number, [{"rest": True}], 0.7)
            doc.gone = rest is None
            if doc.gone or not rest[0]["notes"]["count"]:
                continue
            doc.fired += 1
            fired = self.player.perform(doc.number, [{"fire": 100}], 1.0)
            self.played.seen["fire", doc.number, doc.fired] = Seen(fired[0]["answer"] if fired else "no answer")
            handler = doc.page.handler if doc.page else []
            doc.left = [(Point(doc.fired, index), step) for index, step in enumerate(handler)]
            return True
        return False

    def barrier(self) -> bool:
        """Lets the documents that stand at a `sync` pass it, once no load comes any more."""
        settle(4 * self.player.waits.settle)
        if self.player.stage.waiting_loads():
            return True
        passed = False
        for doc in self.docs:
            if not doc.gone and doc.left and doc.left[0][1]["op"] == "sync":
                point, _ = doc.left.pop(0)
                self.played.seen[doc.number, point] = Seen("undefined")
                passed = True
        return passed
