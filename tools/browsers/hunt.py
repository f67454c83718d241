"""A hunt for differences: random sessions, played by the model and by browsers with and without isolation, and made small."""

from __future__ import annotations

import re
import time
from collections.abc import Callable, Iterator
from dataclasses import dataclass, replace
from pathlib import Path

from .compare import AGREES, DIFFERS, OUT, Names, compared, words_of
from .drivers import Browser
from .known import pair_rule
from .model import NoRun, play_session
from .player import Played, Player, Waits
from .server import Listener
from .session import Page, Session, Step
from .trace import Point, Run

ISOLATION, MODEL, BROWSERS = "isolation", "model", "browsers"
KINDS = {ISOLATION: "the isolated browser differs from its own single process", MODEL: "a browser differs from the model",
         BROWSERS: "browsers differ among themselves"}


@dataclass(frozen=True)
class Finding:
    """A difference at one step. `sign` says of what sort it is, so that a smaller session can be asked for the same."""
    kind: str
    labels: tuple[str, ...]
    step: str
    answers: tuple[str, ...]
    rule: str = ""

    @property
    def sign(self) -> tuple:
        return self.kind, self.labels, re.sub(r'"[^"]*"|\d+', "", self.step).split(" ")[0], self.key, self.shapes

    @property
    def key(self) -> str:
        """What the step asks, whatever register it asks: `get .closed` for `get f.closed`."""
        words = self.step.split(" ")
        return words[1].partition(".")[2] if len(words) > 1 and "." in words[1] else ""

    @property
    def shapes(self) -> tuple[str, ...]:
        return tuple(re.sub(r"(window|location) [#?nd]*\d+", r"\1", answer) for answer in self.answers)

    @property
    def text(self) -> str:
        told = ", ".join(f"{label}: {answer}" for label, answer in zip(self.labels, self.answers))
        return f"{KINDS[self.kind]}: {self.step}: {told}{f' ({self.rule})' if self.rule else ''}"


class Hunter:
    """Plays sessions by the model, where the program can, and in browsers."""

    def __init__(self, listener: Listener, browsers: list[Browser], program: Path, waits: Waits = Waits()) -> None:
        self.players = {browser.label: Player(listener.stage, browser, waits) for browser in browsers}
        self.program = program

    def run_of(self, session: Session) -> Run | None:
        try:
            run = play_session(session, self.program)
        except NoRun:
            return None
        return run if run.status == "status 0 done" and len(run.log) < 200 else None

    def findings(self, session: Session, labels: tuple[str, ...] | None = None) -> list[Finding]:
        """What differs in a session, in these browsers. What comes later in a document may follow from what came before, so of
        each kind and browser the first counts."""
        run = self.run_of(session)
        chosen = {label: player for label, player in self.players.items() if labels is None or label in labels}
        if run is not None:
            plays = [player.play_run(session, run) for player in chosen.values()]
            return firsts([*with_model(session, run, plays)])
        plays = [player.play_barriers(session) for player in chosen.values()]
        return firsts([*without_model(session, plays)])


def firsts(findings: list[Finding]) -> list[Finding]:
    found: dict[tuple, Finding] = {}
    for finding in findings:
        found.setdefault((finding.kind, finding.labels), finding)
    return list(found.values())


def pairs(labels: list[str]) -> Iterator[tuple[str, str, str]]:
    """Which two are compared with each other, and as what."""
    for label in labels:
        if f"{label} not isolated" in labels:
            yield ISOLATION, label, f"{label} not isolated"
    alone = [label for label in labels if "not isolated" not in label or label.startswith("webkit")]
    for number, label in enumerate(alone):
        for other in alone[number + 1:]:
            yield BROWSERS, label, other


def with_model(session: Session, run: Run, plays: list[Played]) -> Iterator[Finding]:
    rows = compared(session, run, plays)
    for row in rows:
        for label, cell in row.cells.items():
            if cell.verdict == DIFFERS:
                yield Finding(MODEL, ("model", label), row.about, (row.model, cell.answer), cell.rule.name if cell.rule else "")
        for kind, one, other in pairs(list(row.cells)):
            cells = row.cells[one], row.cells[other]
            if kind == ISOLATION and OUT not in (cells[0].verdict, cells[1].verdict) and cells[0].answer != cells[1].answer \
                    and {cells[0].verdict, cells[1].verdict} != {AGREES}:
                answers = cells[0].answer, cells[1].answer
                yield Finding(ISOLATION, (one, other), row.about, answers, pair_rule(row.step, answers))


def without_model(session: Session, plays: list[Played]) -> Iterator[Finding]:
    """Differences between two plays in the order of barriers, whose documents have the same numbers."""
    by_label = {played.label: played for played in plays}
    for kind, one, other in pairs(list(by_label)):
        left, right = by_label[one], by_label[other]
        names: dict[int, Names] = {}
        for key, seen in left.seen.items():
            if key not in right.seen:
                continue
            doc = key[1] if key[0] in ("commit", "fire") else key[0]
            match = names.setdefault(doc, Names("window #0"))
            answers = seen.answer, renamed(match, right.seen[key].answer, seen.answer)
            if answers[0] == answers[1] or "no answer" in answers or seen.notes.get("extra") or right.seen[key].notes.get("extra"):
                continue
            step = step_at(session, left, key)
            if step and step["op"] == "keys" and sorted_keys(answers[0]) == sorted_keys(answers[1]):
                continue
            yield Finding(kind, (one, other), words_of(step) if step else key[0], answers, pair_rule(step, answers))


def renamed(names: Names, answer: str, like: str) -> str:
    """The answer with the numbers of the objects of another browser, where they appeared first at the same steps."""
    for one, other in zip(re.findall(r"(?:window|location) #\d+", answer), re.findall(r"(?:window|location) #\d+", like)):
        if one not in names.model and other not in names.model.values() and one.split(" ")[0] == other.split(" ")[0]:
            names.model[one] = other
    return re.sub(r"(?:window|location) #\d+", lambda found: names.model.get(found[0], found[0].replace("#", "?")), answer)


def sorted_keys(answer: str) -> str:
    return ",".join(sorted(answer.strip("[]").split(",")))


def step_at(session: Session, played: Played, key: tuple) -> Step | None:
    """The step of a key, or None where it is that of a load or a message."""
    if key[0] in ("commit", "fire"):
        return None
    page = session.page_at(played.seen["commit", key[0]].answer)
    point: Point = key[1]
    steps = page.script if point.fired_at is None else page.handler
    return steps[point.step]


def shrunk(session: Session, holds: Callable[[Session], bool], until: float) -> Session:
    """The session without the pages and steps that the difference doesn't need."""
    changed = True
    while changed and time.monotonic() < until:
        changed = False
        for smaller in smaller_than(session):
            if time.monotonic() > until:
                break
            if holds(smaller):
                session, changed = smaller, True
                break
    return session


def smaller_than(session: Session) -> Iterator[Session]:
    """Sessions with something taken away, most first."""
    if len(session.start) > 1:
        yield replace(session, start=session.start[:1])
    for number in reversed(range(1, len(session.pages))):
        yield replace(session, pages=session.pages[:number] + session.pages[number + 1:])
    for number, page in enumerate(session.pages):
        for name in ("handler", "script"):
            steps = getattr(page, name)
            for size in (len(steps) // 2, 1):
                for start in reversed(range(0, len(steps), max(size, 1))):
                    if size:
                        yield with_steps(session, number, name, steps[:start] + steps[start + size:])
    for number, page in enumerate(session.pages):
        for name in ("script", "handler"):
            steps = getattr(page, name)
            for place, step in enumerate(steps):
                for field in ("name", "sandbox", "noopener", "rel", "writable", "enumerable", "configurable"):
                    if field in step:
                        less = {key: part for key, part in step.items() if key != field}
                        yield with_steps(session, number, name, [*steps[:place], less, *steps[place + 1:]])
    if session.renderers > 2:
        yield replace(session, renderers=2)


def with_steps(session: Session, number: int, name: str, steps: list) -> Session:
    page = session.pages[number]
    made = Page(page.url, steps, page.handler) if name == "script" else Page(page.url, page.script, steps)
    return replace(session, pages=[*session.pages[:number], made, *session.pages[number + 1:]])
