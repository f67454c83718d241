"""Plays sessions in a browser, one act at a time, in the order that a run of the model has."""

from __future__ import annotations

import time
from dataclasses import dataclass, field
from urllib.parse import urljoin, urlsplit

from .drivers import Browser, Trouble
from .explain import Explainer
from .session import Session, Step, page_url
from .stage import Stage, settle
from .trace import Act, Run
from .tree import Tree

Key = tuple  # (doc, Point) for a step, (kind, place) for a task

NAVIGATES = {"open", "link"}
ASKING_KEYS = {"set": {"location", "href", "name", "opener"}, "call": {"close", "postMessage", "assign", "replace"}}
ACTIVATION = 5.5


@dataclass(frozen=True)
class Waits:
    """How long the coordinator waits, in seconds: for other processes to hear of a step, a load, an answer, a message."""
    settle: float = 0.04
    load: float = 6.0
    answer: float = 5.0
    message: float = 1.5


@dataclass(frozen=True)
class Seen:
    """What a browser did at one act."""
    answer: str
    notes: dict = field(default_factory=dict)
    why: str = ""


@dataclass
class Played:
    """What a browser did in a session."""
    label: str
    version: str
    seen: dict[Key, Seen] = field(default_factory=dict)
    loads: list[str] = field(default_factory=list)
    messages: dict[int, list[str]] = field(default_factory=dict)
    windows: int = 0
    processes: int = 0


def key_of(act: Act) -> Key:
    return (act.task, act.place) if act.task else (act.doc, act.point)


def asks(step: Step) -> bool:
    """Whether other processes may have to hear of the step."""
    return step["op"] in ("frame", "drop", "open", "link", "domain") or step.get("key") in ASKING_KEYS.get(step["op"], ())


def navigates(step: Step) -> bool:
    return step["op"] in NAVIGATES or step.get("key") in ("location", "href", "assign", "replace", "close")


def fits(url: str, base: str) -> bool:
    """Whether the URL has a scheme that pages here have."""
    try:
        return urlsplit(urljoin(base, url.strip())).scheme in ("http", "https") or url.startswith("about:blank")
    except ValueError:
        return True


class Player:
    """Plays one session after the other in one browser."""

    def __init__(self, stage: Stage, browser: Browser, waits: Waits = Waits()) -> None:
        self.stage, self.browser, self.waits = stage, browser, waits
        self._clicked = 0.0

    def begin(self, session: Session) -> Played:
        self.session = session
        self.stage.clear(session.keys())
        self._clicked = 0.0
        return Played(self.browser.label, self.browser.version)

    def end(self, played: Played, docs: list[int]) -> Played:
        """Notes what is left once all acts were played, and closes the windows."""
        settle(3 * self.waits.settle)
        for doc in docs:
            if self.stage.has_agent(doc, 0) and self.stage.agents[doc].waiting >= 0:
                rest = self.perform(doc, [{"rest": True}], 1.0)
                if rest:
                    played.messages[doc] = [rest[0]["answer"]]
        played.loads = [request.url for request in self.stage.waiting_loads()]
        played.windows, played.processes = self.browser.windows(), self.browser.processes()
        self.stage.clear()
        self.browser.end()
        return played

    def perform(self, doc: int, items: list[dict], wait: float) -> list[dict] | None:
        if self.stage.give(doc, items, self.waits.load) is None:
            return None
        return self.stage.answers(doc, wait + sum(item.get("pause", 0) for item in items) / 1000)

    def show(self, doc: int, url: str | None, start: bool) -> bool:
        """Lets a load be shown as this document; that of a start window is begun first."""
        if start:
            self.browser.open_start(url)
        shown = self.stage.release(doc, None if url is None else page_url(url), self.waits.load)
        if start:
            self.browser.loaded()
        settle(self.waits.settle)
        return shown

    def click(self, doc: int, path: list[int], step: Step) -> list[dict] | None:
        """Performs a step inside a real click in the frame at this path."""
        if self.stage.give(doc, [{"step": step, "user": True, "leaves": navigates(step)}], self.waits.load) is None:
            return None
        settle(self.waits.settle)
        try:
            self.browser.click(f"d{doc}", path)
        except Trouble as problem:
            return [{"answer": "no click", "why": str(problem)}]
        self._clicked = time.monotonic()
        return self.stage.answers(doc, self.waits.answer)

    def let_activation_end(self, step: Step) -> None:
        """Waits where an earlier click would count for a step that no user caused."""
        left = self._clicked + ACTIVATION - time.monotonic()
        if self._clicked and navigates(step) and left > 0:
            settle(left)

    def items_of(self, step: Step) -> list[dict]:
        plain = {name: part for name, part in step.items() if name != "user"}
        pause = {"pause": int(1000 * self.waits.settle)}
        if navigates(step):
            return [{"step": plain, "leaves": True}]
        return [{"step": plain}, pause] if asks(step) else [{"step": plain}]

    def play_run(self, session: Session, run: Run) -> Played:
        """Plays a session in the order of the model's run."""
        played = self.begin(session)
        return self.end(played, RunOrder(self, run, played).play())

    def play_barriers(self, session: Session) -> Played:
        """Plays a session without a run of the model: each `sync` is a barrier of all documents."""
        from .barrier import BarrierOrder
        played = self.begin(session)
        return self.end(played, BarrierOrder(self, played).play())


class RunOrder:
    """Goes through the acts of a run."""

    def __init__(self, player: Player, run: Run, played: Played) -> None:
        self.player, self.run, self.played = player, run, played
        self.steps = Explainer(player.session, run).explained
        self.tree = Tree()
        self.applied = 0
        self.batch: list[Act] = []
        self.silent: set[int] = set()

    def play(self) -> list[int]:
        """Plays all acts, and tells which documents are active at the end."""
        for act in self.run.acts():
            step = self.steps[act.renderer, act.index].step
            clicks = bool(step) and bool(step.get("user"))
            leaves = bool(self.batch) and navigates(self.steps[self.batch[-1].renderer, self.batch[-1].index].step)
            if self.batch and (act.task or act.doc != self.batch[0].doc or clicks or leaves or len(self.batch) >= 60):
                self.flush()
            for entry in self.run.log[self.applied:act.heard]:
                self.tree.apply(entry)
            self.applied = max(self.applied, act.heard)
            if act.task:
                self.task(act)
            elif act.answer in ("unloaded", "lost"):
                continue
            elif clicks and act.answer != "SchemeOut":
                self.click(act, step)
            else:
                if self.player._clicked:
                    self.flush()
                    self.player.let_activation_end(step)
                self.batch.append(act)
        self.flush()
        return [doc.number for doc in self.tree.docs.values() if self.tree.active(doc.number)]

    def step_of(self, act: Act) -> Step:
        """The step as the browser gets it: one that the model leaves out sets its register alone."""
        step = self.steps[act.renderer, act.index].step
        if act.answer != "SchemeOut":
            return step
        return {"op": "let", "value": {"$": "undefined"}, **({"to": step["to"]} if "to" in step else {})}

    def flush(self) -> None:
        if not self.batch:
            return
        acts, self.batch = self.batch, []
        if acts[0].doc in self.silent:
            for act in acts:
                self.note(act, None)
            return
        items, places = [], []
        for act in acts:
            places.append(len(items))
            items += self.player.items_of(self.step_of(act))
        answers = self.player.perform(acts[0].doc, items, self.player.waits.answer)
        if answers is None:
            self.silent.add(acts[0].doc)
        if items[-1].get("leaves"):
            settle(2 * self.player.waits.settle)
        for act, place in zip(acts, places):
            self.note(act, None if answers is None else answers[place])

    def note(self, act: Act, answer: dict | None) -> None:
        made = {"answer": "no answer"} if answer is None else answer
        self.played.seen[key_of(act)] = Seen(made["answer"], made.get("notes", {}), made.get("why", ""))

    def click(self, act: Act, step: Step) -> None:
        nav, path = self.tree.docs[act.doc].nav, []
        while (parent := self.tree.parent(nav)) is not None:
            path.insert(0, [child.number for child in self.tree.children(parent)].index(nav))
            nav = parent
        answers = self.player.click(act.doc, path, step)
        self.note(act, answers and answers[0])

    def task(self, act: Act) -> None:
        if act.place is None:
            return
        entry = self.run.log[act.place]
        if act.task == "commit":
            begin = self.run.log[entry.fields["begin"]]
            load = begin.fields["load"]
            if load.url.startswith("about:blank"):
                settle(2 * self.player.waits.settle)
                return
            shown = self.player.show(load.doc, load.url, begin.actor is None)
            self.played.seen[key_of(act)] = Seen("shown" if shown else "not shown")
        elif act.task == "fire":
            wait = self.player.waits.message
            answers = self.player.perform(entry.fields["doc"], [{"fire": int(1000 * wait)}], wait + 1)
            self.note(act, answers and answers[0])
        elif act.task == "gone":
            settle(4 * self.player.waits.settle)
