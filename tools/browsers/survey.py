"""The survey: a session for each line of the rules, as the model and as browsers play it."""

from __future__ import annotations

from dataclasses import dataclass
from pathlib import Path

from . import survey_acts, survey_reads
from .compare import AGREES, DIFFERS, OUT, UNSTABLE, Row, compared, facts_of
from .explain import Explainer
from .known import Rule, matching
from .model import NoRun, play_session
from .player import Played, Player, Seen
from .session import page_url
from .survey_steps import Line, Survey
from .trace import Point, Run

NOTHING = "nothing"


def lines() -> list[Line]:
    survey = Survey()
    survey_reads.write(survey)
    survey_acts.write(survey)
    return survey.lines


@dataclass
class Shown:
    """What one browser, or the model, shows at a line. Without a run of the model nothing is judged yet."""
    answer: str
    verdict: str = ""
    rule: str = ""

    def as_json(self) -> dict:
        return {"answer": self.answer, "verdict": self.verdict, "rule": self.rule}


def run_of(line: Line, program: Path) -> Run | None:
    """The model's run, or None where the program can't play the session yet."""
    try:
        return play_session(line.session, program)
    except NoRun as problem:
        if "Unknown" in str(problem):
            return None
        raise


def row_in(line: Line, run: Run) -> int | None:
    """Which act of the run, in order, is the line's step."""
    page = next(number for number, page in enumerate(line.session.pages) if page.url == line.page)
    where = f"pages[{page}].{'handler' if line.handler else 'script'}[{line.index}]"
    explained = Explainer(line.session, run).explained
    return next((number for number, act in enumerate(run.acts()) if explained[act.renderer, act.index].where == where), None)


def of_model(line: Line, run: Run) -> tuple[str, bool | None]:
    """The model's answer, and whether the object that is asked is a foreign one."""
    number = row_in(line, run)
    if number is None:
        return NOTHING, None
    row = facts_of(line.session, run)[number]
    return row.model, row.foreign


def rule_of(line: Line, model: str, foreign: bool | None, answer: str, label: str) -> Rule | None:
    """The rule that a difference is known by."""
    row = Row((), "", "", model, None, line.step(), foreign)
    return matching(row, answer, Seen(answer), label)


def in_browser(line: Line, run: Run | None, player: Player, again: int = 2) -> Shown:
    """What the browser shows, tried again where it differs from the model or where there is nothing to compare with."""
    shown = one_play(line, run, player)
    others = []
    if shown.verdict in (DIFFERS, ""):
        others = [one_play(line, run, player) for _ in range(again if run else 1)]
    answers = {shown.answer, *(other.answer for other in others)}
    return shown if len(answers) == 1 else Shown(" or ".join(sorted(answers)), UNSTABLE)


def one_play(line: Line, run: Run | None, player: Player) -> Shown:
    if run is None:
        return without_run(line, player.play_barriers(line.session))
    played = player.play_run(line.session, run)
    number = row_in(line, run)
    if number is None:
        late = [message for message in played.messages.values() if message != ["[]"]]
        return Shown(f"delivered {late[0][0]}", DIFFERS) if late else Shown(NOTHING, AGREES)
    cell = compared(line.session, run, [played])[number].cells[played.label]
    return Shown(cell.answer, cell.verdict, cell.rule.name if cell.rule else cell.why if cell.verdict == OUT else "")


def without_run(line: Line, played: Played) -> Shown:
    doc = next((key[1] for key, seen in played.seen.items() if key[0] == "commit" and page_url(seen.answer) == page_url(line.page)),
               None)
    seen = played.seen.get((doc, Point(1 if line.handler else None, line.index)))
    return Shown(NOTHING if seen is None else seen.answer)
