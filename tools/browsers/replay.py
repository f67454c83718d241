"""Plays a session in browsers, again where a browser differs, and prints what the model and each browser answered."""

from __future__ import annotations

from dataclasses import dataclass

from .compare import AGREES, DIFFERS, OUT, UNSTABLE, Cell, Row, compared
from .drivers import Browser
from .player import Played, Player, Waits
from .server import Listener
from .session import Session
from .trace import Run


@dataclass
class Replay:
    """A session, as the model and as browsers played it."""
    name: str
    rows: list[Row]
    plays: list[Played]

    def count(self, label: str, verdict: str) -> int:
        return sum(row.cells[label].verdict == verdict for row in self.rows)

    def differs(self) -> bool:
        return any(self.count(played.label, DIFFERS) for played in self.plays)


def replay(name: str, session: Session, run: Run, listener: Listener, browsers: list[Browser], waits: Waits = Waits(),
           again: int = 2) -> Replay:
    """Plays the session once in each browser, and twice more where it differs."""
    plays, others = [], {}
    for browser in browsers:
        player = Player(listener.stage, browser, waits)
        played = player.play_run(session, run)
        plays.append(played)
        if any(row.cells[played.label].verdict == DIFFERS for row in compared(session, run, [played])):
            others[played.label] = [compared(session, run, [player.play_run(session, run)]) for _ in range(again)]
    rows = compared(session, run, plays)
    for label, runs in others.items():
        for number, row in enumerate(rows):
            cells = [row.cells[label], *(other[number].cells[label] for other in runs)]
            if len({(cell.answer, cell.verdict) for cell in cells}) > 1 and DIFFERS in {cell.verdict for cell in cells}:
                answers = sorted({cell.answer for cell in cells})
                row.cells[label] = Cell(" or ".join(answers), UNSTABLE, f"not the same in {len(cells)} plays")
    return Replay(name, rows, plays)


MARKS = {AGREES: "=", DIFFERS: "≠", OUT: "·", UNSTABLE: "~"}


def short(text: str, size: int = 44) -> str:
    return text if len(text) <= size else f"{text[:size - 2]}.."


def table(played: Replay) -> str:
    """The rows as a table, and a summary with what is left out and why."""
    labels = [play.label for play in played.plays]
    lines = [["", "step", "model", *labels]]
    for row in played.rows:
        cells = [row.cells[label] for label in labels]
        lines.append([row.where, short(row.about), short(row.model),
                      *(f"{MARKS[cell.verdict]} {'' if cell.verdict == AGREES else short(cell.answer)}".strip() for cell in cells)])
    widths = [max(len(line[column]) for line in lines) for column in range(len(lines[0]))]
    text = [f"{played.name}: = agrees, ≠ differs, ~ unstable, · left out"]
    text += ["  ".join(part.ljust(width) for part, width in zip(line, widths)).rstrip() for line in lines]
    for play in played.plays:
        counts = ", ".join(f"{played.count(play.label, verdict)} {verdict}" for verdict in (AGREES, DIFFERS, UNSTABLE, OUT))
        text.append(f"{play.label} ({play.version}, {play.processes} processes): {counts}")
    text += [f"  {line}" for line in reasons(played)]
    return "\n".join(text) + "\n"


def reasons(played: Replay) -> list[str]:
    """Each reason once, with how many cells it is for; and loads that nobody waited for."""
    counted: dict[str, int] = {}
    for row in played.rows:
        for label, cell in row.cells.items():
            if cell.why and cell.verdict == OUT:
                counted[cell.why] = counted.get(cell.why, 0) + 1
    lines = [f"left out, {count} times: {why}" for why, count in counted.items()]
    for row in played.rows:
        for label, cell in row.cells.items():
            if cell.verdict in (DIFFERS, UNSTABLE) and cell.why:
                lines.append(f"{label}, {row.where or row.about}: {cell.why}")
    return lines + [f"{play.label} also asks for {url}" for play in played.plays for url in play.loads]


def as_json(played: Replay) -> dict:
    """The same, as plain JSON."""
    def cell(made: Cell) -> dict:
        return {"answer": made.answer, "verdict": made.verdict, "why": made.why,
                **({"rule": made.rule.name} if made.rule else {})}
    return {"name": played.name,
            "browsers": [{"label": play.label, "version": play.version, "processes": play.processes, "loads": play.loads}
                         for play in played.plays],
            "rows": [{"where": row.where, "about": row.about, "model": row.model,
                      "cells": {label: cell(made) for label, made in row.cells.items()}} for row in played.rows]}
