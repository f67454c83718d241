"""The table of docs/BROWSERS.md."""

from __future__ import annotations

from dataclasses import dataclass
from pathlib import Path

from .compare import AGREES, DIFFERS, OUT, UNSTABLE, words_of
from .drivers import Missing
from .known import BROWSERS, CHOICES, LINES, Rule
from .survey import lines, rule_of
from .survey_results import Results, name_of
from .survey_steps import Line

BEGIN, END = "<!-- table: begin -->", "<!-- table: end -->"
HEADS = {"chromium": "Chromium", "chromium not isolated": "in one process", "firefox": "Firefox", "firefox not isolated": "in one process",
         "webkit not isolated": "WebKit"}
LEFT_OUT = "◌"


def write_table(results: Results, path: Path) -> None:
    """Writes the table between its marks. All else on the page stays."""
    text = path.read_text()
    if text.count(BEGIN) != 1 or text.count(END) != 1:
        raise Missing(f"{path} has no place for the table: a line {BEGIN} and a line {END}")
    before, rest = text.split(BEGIN)
    path.write_text(before + BEGIN + "\n" + Page(results).text() + END + rest.split(END)[1])


@dataclass(frozen=True)
class Cell:
    """What stands in a cell: whether it is as expected, and the rule that says why not."""
    text: str
    verdict: str
    rule: Rule | None = None


class Page:
    """What is played of the survey, as Markdown."""

    def __init__(self, results: Results) -> None:
        self.results = results
        self.labels = [label for label in HEADS if label in results.browsers]
        self.lines = [line for line in lines() if name_of(line) in results.lines]
        self.cells = {name_of(line): [self.cell(line, label) for label in self.labels] for line in self.lines}
        used = [cell.rule for cells in self.cells.values() for cell in cells if cell.rule is not None]
        named = {name for kept in results.examples.values() for cell in kept["cells"].values() for name in cell["rules"]}
        self.rules = [rule for rule in [*BROWSERS, *LINES.values(), *CHOICES] if rule in used or rule.name in named]
        self.numbers = {rule.name: number for number, rule in enumerate(self.rules, 1)}

    def cell(self, line: Line, label: str) -> Cell:
        kept = self.results.lines[name_of(line)]
        made = kept["cells"].get(label)
        if made is None:
            return Cell("", "")
        rule = None
        if kept["model"] is not None and made["verdict"] in (DIFFERS, OUT):
            rule = rule_of(line, kept["model"], kept.get("foreign"), made["answer"], label)
        verdict = made["verdict"]
        if kept["model"] is None and verdict != UNSTABLE:
            verdict = AGREES if made["answer"] == self.usual(kept) else DIFFERS
        if rule is not None and rule.choice:
            verdict = OUT
        return Cell(made["answer"], verdict, rule or (LINES.get(name_of(line)) if verdict == DIFFERS else None))

    def usual(self, kept: dict) -> str:
        """What most browsers show; of those the answer of the first."""
        answers = [kept["cells"][label]["answer"] for label in HEADS if label in kept["cells"]]
        return max(answers, key=answers.count, default="")

    def text(self) -> str:
        return "\n".join([self.head(), self.summary(), *self.notes(), *self.topics(), self.examples()]) + "\n"

    def head(self) -> str:
        versions = {self.results.browsers[label]["version"]: self.results.browsers[label]["date"] for label in self.labels}
        told = "; ".join(f"{version} on {date}" for version, date in versions.items())
        return (f"Played with {told}. `tools/browser-table` made what follows, from {len(self.lines)} sessions of one rule each "
                "(`tools/browsers/survey_*.py`) and from the examples.\n\n"
                "`=` is the model's answer; the rule of a SecurityError isn't compared. Where the model's column has –, its program "
                "can't play the session yet: the browsers were played alone, each `sync` being a barrier of all documents, and `=` is "
                f"what most of them show, which stands in the column after the step. {LEFT_OUT} can't be compared, and ~ wasn't the same in "
                "each of three plays. Numbers are those of the notes. \"In one process\" is the browser to its left without a process "
                "for each site; WebKit's site isolation can't be had where it is driven. `#0` is a document's own window, or its first "
                "Location, `#1` the next that appeared.\n")

    def summary(self) -> str:
        parts = ["| | " + " | ".join(HEADS[label] for label in self.labels) + " |", "|---|" + "---|" * len(self.labels)]
        for about, wanted in (("that the model plays", True), ("that browsers play alone", False)):
            names = [name_of(line) for line in self.lines if (self.results.lines[name_of(line)]["model"] is not None) == wanted]
            for verdict in (AGREES, DIFFERS, UNSTABLE, OUT):
                counts = [sum(self.cells[name][column].verdict == verdict for name in names) for column in range(len(self.labels))]
                if any(counts):
                    parts.append(f"| {verdict}, of {len(names)} lines {about} | " + " | ".join(map(str, counts)) + " |")
        return "\n".join(parts) + "\n"

    def notes(self) -> list[str]:
        parts = ["### Notes\n"]
        for rule in self.rules:
            where = f" (HTML {rule.section})" if rule.section else ""
            choice = " This is a choice of the project's own, so it is left out." if rule.choice else ""
            parts.append(f"{self.numbers[rule.name]}. **{rule.name[0].upper()}{rule.name[1:]}**{where}. {rule.reason}{choice}")
        return [*parts, ""]

    def topics(self) -> list[str]:
        parts, topic = [], ""
        for line in self.lines:
            if line.topic != topic:
                topic = line.topic
                parts += [f"\n### {topic}\n", "| Rule | Step | HTML | Model | " + " | ".join(HEADS[label] for label in self.labels) + " |",
                          "|---|---|---|---|" + "---|" * len(self.labels)]
            kept = self.results.lines[name_of(line)]
            model = f"– {code(self.usual(kept))}" if kept["model"] is None else code(kept["model"])
            cells = [self.shown(cell) for cell in self.cells[name_of(line)]]
            parts.append("| " + " | ".join([line.rule, code(words_of(line.step())), line.section, model, *cells]) + " |")
        return [*parts, ""]

    def shown(self, cell: Cell) -> str:
        note = f" {self.numbers[cell.rule.name]}" if cell.rule is not None else ""
        if cell.verdict in ("", AGREES):
            return "=" if cell.verdict else ""
        if cell.verdict == OUT:
            return LEFT_OUT + note
        return ("~ " if cell.verdict == UNSTABLE else "") + code(cell.text) + note

    def examples(self) -> str:
        parts = ["### The examples of the repository\n",
                 f"How many acts are as the model has them, how many differ (≠, with the notes), and how many are left out ({LEFT_OUT}).\n",
                 "| Example | " + " | ".join(HEADS[label] for label in self.labels) + " |", "|---|" + "---|" * len(self.labels)]
        for name, kept in sorted(self.results.examples.items()):
            cells = [self.example(kept["cells"][label]) if label in kept["cells"] else "" for label in self.labels]
            parts.append(f"| `{name}` | " + " | ".join(cells) + " |")
        return "\n".join(parts) + "\n"

    def example(self, cell: dict) -> str:
        told = ", ".join(str(self.numbers.get(rule, "?")) for rule in cell["rules"])
        differs = f", ≠ {cell[DIFFERS]} ({told})" if cell[DIFFERS] else ""
        unstable = f", ~ {cell[UNSTABLE]}" if cell[UNSTABLE] else ""
        return f"= {cell[AGREES]}{differs}{unstable}, {LEFT_OUT} {cell[OUT]}"


def code(text: str) -> str:
    """The text as code in a cell, shortened where it is long."""
    shown = text if len(text) <= 60 else f"{text[:57]}..."
    return f"`{shown.replace('|', chr(92) + '|')}`"
