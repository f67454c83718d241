"""Compares what browsers did with what the model says, act by act."""

from __future__ import annotations

import json
import re
from dataclasses import dataclass, field

from .explain import Explained, Explainer, number_in
from .known import Rule, matching
from .player import Key, Played, Seen, key_of
from .session import SYMBOLS, Session
from .trace import Act, Run
from .tree import Tree

AGREES, DIFFERS, OUT, UNSTABLE = "agrees", "differs", "left out", "unstable"
OBJECT = re.compile(r"(window|location) #(\d+)")
MODEL_OBJECT = re.compile(r"(?:window n|location d)\d+")


@dataclass
class Cell:
    """What one browser did at one act."""
    answer: str
    verdict: str
    why: str = ""
    rule: Rule | None = None


@dataclass
class Row:
    """One act, or another fact of a play, as the model and as browsers have it."""
    key: Key
    where: str
    about: str
    model: str
    act: Act | None = None
    step: dict | None = None
    foreign: bool | None = None
    cells: dict[str, Cell] = field(default_factory=dict)


class Names:
    """Which object of a browser is which of the model, in one document: those that appear first at one act are one."""

    def __init__(self, own: str) -> None:
        self.model = {"window #0": own}

    def renamed(self, answer: str, expected: str) -> str:
        wanted = MODEL_OBJECT.findall(expected)
        found = [match[0] for match in OBJECT.finditer(answer)]
        if len(wanted) == len(found):
            for one, other in zip(found, wanted):
                kind = one.partition(" ")[0]
                if one not in self.model and other not in self.model.values() and other.startswith(kind):
                    self.model[one] = other
        return OBJECT.sub(lambda match: self.model.get(match[0], f"{match[1]} ?{match[2]}"), answer)


def facts_of(session: Session, run: Run) -> list[Row]:
    """A row for each act, and for what a play shows at its end."""
    explained = Explainer(session, run).explained
    tree, applied, rows = Tree(), 0, []
    for act in run.acts():
        for entry in run.log[applied:act.heard]:
            tree.apply(entry)
        applied = max(applied, act.heard)
        rows.append(row_of(act, explained[act.renderer, act.index], tree, run))
    tops = [nav for nav in tree.navs.values() if nav.embedder is None and tree.ended(nav.number) is None]
    shown = [nav for nav in tops if tree.docs[nav.active].made != tree.docs[nav.active].shown
             or run.log[nav.made].actor is not None]
    rows.append(Row(("end", "windows"), "", "top-level windows at the end", str(len(shown))))
    return rows


def row_of(act: Act, explained: Explained, tree: Tree, run: Run) -> Row:
    if act.task:
        if act.task == "fire" and act.place is not None:
            post = run.log[run.log[act.place].fields["post"]].fields
            said = f'{post["data"]} from {json.dumps(post["origin"] if not post["origin"].startswith("opaque") else "null")} ' \
                   f'by window n{post["from"]}'
            return Row(key_of(act), f"task {act.place}", f"message for d{run.log[act.place].fields['doc']}", said, act)
        words = {"commit": "shown", "lapse": "not delivered", "gone": "gone"}
        about = act.text.partition(" ")[2]
        return Row(key_of(act), f"task {act.place}", about, words.get(act.task, "lost"), act)
    step = explained.step or {}
    point = f"s{act.point.step}" if act.point.fired_at is None else f"h{act.point.fired_at}.{act.point.step}"
    return Row(key_of(act), f"d{act.doc} {point}", words_of(step), without_rule(act.answer), act, step,
               is_foreign(act, explained, tree))


def words_of(step: dict) -> str:
    """The step in few words."""
    op = step.get("op", "")
    if "key" in step:
        value = f" {json.dumps(step['value'])}" if "value" in step else ""
        parts = "".join(f" {name[0]}={str(step[name]).lower()}" for name in ("writable", "enumerable", "configurable")
                        if name in step)
        arguments = f" {json.dumps(step['args'])}" if "args" in step else ""
        return f"{op} {step['of']}.{step['key']}{value}{parts}{arguments}{' (user)' if step.get('user') else ''}"
    rest = " ".join(f"{name}={json.dumps(part)}" for name, part in step.items() if name not in ("op", "to", "of"))
    return " ".join(part for part in (op, step.get("of", ""), rest) if part)


def is_foreign(act: Act, explained: Explained, tree: Tree) -> bool | None:
    """Whether the object that the step asks is a foreign one. None where it asks none."""
    if not explained.of:
        return None
    nav, doc = number_in(explained.of, "window"), number_in(explained.of, "location")
    if nav is not None:
        doc = tree.navs[nav].active
    return None if doc is None else not tree.open_to(act.doc, doc)


def without_rule(answer: str) -> str:
    return "SecurityError" if answer.startswith("SecurityError ") else answer


def keys_alike(row: Row, answer: str) -> bool:
    """Whether the keys of an own object are alike. Browsers list more, and the order is the project's own, so each is taken as
    a set; the symbols of prototypes aside."""
    try:
        one, other = (set(json.loads(text)) - set(SYMBOLS) for text in (row.model, answer))
    except ValueError:
        return False
    return one == other


def undone(row: Row) -> str | None:
    """Why the row can't be compared in any browser."""
    act = row.act
    if act is None:
        return None
    if act.task == "lost" or act.answer == "lost":
        return "renderers are lost in the model alone"
    if act.task == "gone":
        return "when a window goes is up to the browser; what it shows afterwards is compared"
    if act.task == "lapse" and act.text and row.model == "not delivered":
        return None
    if act.answer == "unloaded":
        return "the document has gone, and no script of it runs"
    if act.answer == "SchemeOut":
        return "the model has no such URLs"
    if act.op == "sync":
        return "a barrier, which answers nothing"
    return None


def compared(session: Session, run: Run, plays: list[Played]) -> list[Row]:
    """The rows of a session, with a cell for each play."""
    rows = facts_of(session, run)
    tree = Tree(run.log)
    for played in plays:
        names: dict[int, Names] = {}
        for row in rows:
            doc = row.act.doc if row.act and row.act.doc is not None else None
            if row.act and row.act.task == "fire" and row.act.place is not None:
                doc = run.log[row.act.place].fields["doc"]
            if doc is not None and doc not in names:
                names[doc] = Names(f"window n{tree.docs[doc].nav}")
            row.cells[played.label] = cell_of(row, played, names.get(doc), run)
    return rows


def cell_of(row: Row, played: Played, names: Names | None, run: Run) -> Cell:
    reason = undone(row)
    seen = played.seen.get(row.key)
    if row.key == ("end", "windows"):
        seen = Seen(str(played.windows))
    elif row.act and row.act.task == "lapse" and reason is None:
        return lapsed(row, played, run)
    answer = "" if seen is None else seen.answer if names is None else names.renamed(seen.answer, row.model)
    if reason is not None:
        return Cell(answer, OUT, reason)
    if seen is None:
        return Cell("", OUT, "it can't be seen from a page")
    if seen.notes.get("extra"):
        return Cell(answer, OUT, "a browser's own Window and Location have more properties, this one among them")
    if answer == row.model or (row.step and row.step.get("op") == "keys" and not row.foreign and keys_alike(row, answer)):
        return Cell(answer, AGREES)
    rule = matching(row, answer, seen, played.label)
    if rule is not None and rule.choice:
        return Cell(answer, OUT, rule.reason, rule)
    return Cell(answer, DIFFERS, rule.reason if rule else seen.why, rule)


def lapsed(row: Row, played: Played, run: Run) -> Cell:
    """A message that isn't delivered: none of its document's messages is left over."""
    entry = run.log[row.act.place]
    if entry.fields["cause"] == "inactive":
        return Cell("", OUT, "its document has gone, or goes before the message comes: an interleaving")
    rest = played.messages.get(entry.fields["doc"])
    if rest is None:
        return Cell("", OUT, "its document has gone")
    return Cell("not delivered", AGREES) if rest == ["[]"] else Cell(f"delivered {rest[0]}", DIFFERS)


def differing(rows: list[Row]) -> list[tuple[Row, str]]:
    return [(row, label) for row in rows for label, cell in row.cells.items() if cell.verdict == DIFFERS]
