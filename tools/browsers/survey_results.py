"""What was played of the survey and of the examples, kept in a file of JSON."""

from __future__ import annotations

import json
import sys
from pathlib import Path

from .compare import AGREES, DIFFERS, OUT, UNSTABLE
from .drivers import Browser, Trouble
from .model import TOP, NoRun, printed_run
from .player import Player
from .replay import replay
from .server import Listener
from .session import BadSession, load_session, written
from .survey import Shown, in_browser, lines, of_model, run_of
from .survey_steps import Line

LARGE = 250


def name_of(line: Line) -> str:
    return f"{line.topic}: {line.rule}"


class Results:
    """The file. A line that is kept is played again where its session, or the model's answer, has changed."""

    def __init__(self, path: Path) -> None:
        self.path = path
        kept = json.loads(path.read_text()) if path.exists() else {}
        self.browsers: dict = kept.get("browsers", {})
        self.lines: dict = kept.get("lines", {})
        self.examples: dict = kept.get("examples", {})
        self.runs: dict = {}

    def keep(self) -> None:
        made = {"browsers": self.browsers, "lines": self.lines, "examples": self.examples}
        self.path.write_text(json.dumps(made, indent=1, ensure_ascii=False) + "\n")

    def play_model(self, program: Path, only: str) -> None:
        """Plays the model on each line, and forgets what browsers showed at another session or beside another answer."""
        all_lines = lines()
        for line in all_lines:
            if only not in name_of(line):
                continue
            run = run_of(line, program)
            self.runs[name_of(line)] = run
            model, foreign = (None, None) if run is None else of_model(line, run)
            session = written(line.session)
            kept = self.lines.get(name_of(line), {})
            if kept.get("session") != session or kept.get("model") != model:
                self.lines[name_of(line)] = {"session": session, "model": model, "cells": {}}
            self.lines[name_of(line)]["foreign"] = foreign
        names = {name_of(line) for line in all_lines}
        self.lines = {name: kept for name, kept in self.lines.items() if name in names}
        self.keep()


def play_lines(results: Results, listener: Listener, browser: Browser, only: str) -> None:
    player = Player(listener.stage, browser)
    for line in lines():
        name = name_of(line)
        if only not in name or browser.label in results.lines[name]["cells"]:
            continue
        try:
            shown = in_browser(line, results.runs[name], player)
        except Trouble as problem:
            shown = Shown(str(problem), OUT, "the driver failed")
        results.lines[name]["cells"][browser.label] = shown.as_json()
        print(f"{browser.label}: {name}: {shown.answer} {shown.verdict}", file=sys.stderr, flush=True)
        results.keep()


def play_examples(results: Results, listener: Listener, browser: Browser, only: str) -> None:
    """Plays each example that the program plays to its end and that isn't there to fill a log."""
    for out in sorted((TOP / "examples").rglob("*.out")):
        name = str(out.relative_to(TOP / "examples").with_suffix(""))
        cells = results.examples.get(name, {"cells": {}})["cells"]
        if (browser.label in cells and "?" not in cells[browser.label]["rules"]) or (only and only not in name):
            continue
        try:
            run, session = printed_run(out), load_session(out.with_suffix(".json"))
        except (NoRun, BadSession):
            continue
        if len(run.log) > LARGE:
            continue
        played = replay(name, session, run, listener, [browser])
        counts = {verdict: played.count(browser.label, verdict) for verdict in (AGREES, DIFFERS, UNSTABLE, OUT)}
        differing = [row for row in played.rows if row.cells[browser.label].verdict == DIFFERS]
        rules = sorted({row.cells[browser.label].rule.name if row.cells[browser.label].rule else "?" for row in differing})
        cells[browser.label] = {**counts, "rules": rules}
        results.examples[name] = {"cells": cells}
        print(f"{browser.label}: {name}: {counts}", file=sys.stderr, flush=True)
        for row in differing:
            cell = row.cells[browser.label]
            print(f"    {row.where} {row.about}: {row.model} ≠ {cell.answer} {cell.rule.name if cell.rule else '?'}",
                  file=sys.stderr, flush=True)
        results.keep()
