"""Which entries of the log decide an act, and in which words."""

from __future__ import annotations

from dataclasses import dataclass

from .session import Session, Step, is_index
from .trace import Act, Entry, Run
from .tree import Tree

RULES = {
    "S1": "the key of a foreign object is neither listed, nor a child's name, nor one of the four undefined ones",
    "S2": "an array index of a foreign window has no child",
    "S3": "the property is shown and has no getter",
    "S4": "the property has no setter",
    "S5": "a foreign object takes no definition",
    "S6": "nothing of a foreign object can be deleted",
    "S7": "sandboxing doesn't allow this navigation",
    "S8": "the window is of another origin",
    "S9": "the document is sandboxed",
    "S10": "the document's origin is opaque",
    "S11": "the document's domain can't become this value",
}


@dataclass(frozen=True)
class Reason:
    """Entries that decide an act, and what they say."""
    places: tuple[int, ...]
    words: str


@dataclass(frozen=True)
class Explained:
    step: Step | None
    where: str
    of: str | None
    reasons: list[Reason]


def number_in(value: str, kind: str) -> int | None:
    """The number in the answer `window n1` or `location d3`."""
    letter = {"window": "n", "location": "d"}[kind]
    head = f"{kind} {letter}"
    return int(value[len(head):]) if value.startswith(head) and value[len(head):].isdigit() else None


class Explainer:
    """Follows the registers of all documents through a run, and explains its acts."""

    def __init__(self, session: Session, run: Run) -> None:
        self.session, self.run = session, run
        self.explained: dict[tuple[int, int], Explained] = {}
        registers: dict[int, dict[str, str]] = {}
        tree, applied = Tree(), 0
        self.posts = {entry.place: entry for entry in run.log if entry.kind == "post"}
        for act in run.acts():
            heard = min(act.heard, len(run.log))
            for entry in run.log[applied:heard]:
                tree.apply(entry)
            applied = max(applied, heard)
            self.explained[act.renderer, act.index] = self._explain(act, tree, registers)

    def step_of(self, tree: Tree, act: Act) -> tuple[Step | None, str]:
        """The session's step of an act, and where it stands."""
        load = next(entry.fields["load"] for entry in self.run.log
                    if entry.fields.get("load") and entry.fields["load"].doc == act.doc)
        page = self.session.page_at(load.url)
        if page is None:
            return None, ""
        number = self.session.pages.index(page)
        name = "script" if act.point.fired_at is None else "handler"
        steps = getattr(page, name)
        if act.point.step >= len(steps):
            return None, ""
        return steps[act.point.step], f"pages[{number}].{name}[{act.point.step}]"

    def _explain(self, act: Act, tree: Tree, registers: dict) -> Explained:
        if act.task is not None:
            return Explained(None, "", None, self._of_task(act, tree, registers))
        step, where = self.step_of(tree, act)
        held = registers.setdefault(act.doc, {})
        reasons = [Reason(made_at(tree, act.doc), f"d{act.doc} asks, a document of {origin_words(tree, act.doc)}")]
        held_by = None
        if step is not None:
            name = step.get("of")
            held_by = f"window n{tree.docs[act.doc].nav}" if name == "window" else held.get(name) if name else None
            reasons += self._of_object(act, step, held_by, tree)
            if "to" in step:
                held[step["to"]] = act.answer
        last = self.run.log[act.heard - 1] if act.heard else None
        if last is not None and last.actor == act.doc and self._asked(act):
            reasons.append(Reason(tuple(e.place for e in self._entries_of(act)), "what the coordinator decided on it"))
        if act.answer == "unloaded":
            reasons.append(Reason(shown_over(tree, act.doc), f"d{act.doc} isn't active any more"))
        if act.answer.startswith("SecurityError "):
            reasons.append(Reason((), f"{act.answer[14:]}: {RULES.get(act.answer[14:], '')}"))
        return Explained(step, where, held_by, reasons)

    def _asked(self, act: Act) -> bool:
        """Whether the act made the last entry that it heard: whether it is the first of its renderer that heard so much."""
        record = self.run.records[act.renderer]
        return act.index == 0 or record[act.index - 1].heard < act.heard

    def _entries_of(self, act: Act) -> list[Entry]:
        entries, place = [], act.heard - 1
        while place >= 0 and self.run.log[place].actor == act.doc and len(entries) < 2:
            entries.insert(0, self.run.log[place])
            place -= 1
            if self.run.log[place + 1].kind != "opener":
                break
        return entries

    def _of_task(self, act: Act, tree: Tree, registers: dict) -> list[Reason]:
        if act.place is None:
            return [Reason(tuple(e.place for e in self.run.log if e.fields.get("lost") == act.renderer), "it was lost")]
        entry = self.run.log[act.place]
        if act.task == "commit":
            return [Reason((entry.fields["begin"],), "the load began"), Reason((act.place,), "it is shown")]
        if act.task in ("fire", "lapse"):
            post = self.posts[entry.fields["post"]]
            if act.task == "fire":
                held = registers.setdefault(entry.fields["doc"], {})
                held.update(data=post.fields["data"], origin=f'"{post.fields["origin"]}"',
                            source=f'window n{post.fields["from"]}')
            why = {"inactive": "its document isn't active any more", "origin": "it is for another origin"}
            return [Reason((post.place,), "the message was posted"),
                    Reason((act.place,), why.get(entry.fields.get("cause"), "it is delivered"))]
        closing = tree.navs[entry.fields["nav"]].closing
        return [Reason((closing,), "the window was closed"), Reason((act.place,), "it is gone")]

    def _of_object(self, act: Act, step: Step, held_by: str | None, tree: Tree) -> list[Reason]:
        if held_by is None:
            if step["op"] == "drop":
                return [Reason(tuple(c.made for c in tree.framed(act.doc)), f"the frames of d{act.doc}")]
            return []
        key, nav, doc = step.get("key"), number_in(held_by, "window"), number_in(held_by, "location")
        if nav is None and doc is None:
            return [Reason((), f"the register holds {held_by}, which is no window and no Location")]
        if nav is None:
            return [self._own_or_foreign(tree, act.doc, doc, f"the Location of d{doc}")]
        window = tree.navs[nav]
        reasons = [Reason((window.made,), f"n{nav} was made"),
                   self._own_or_foreign(tree, act.doc, window.active, f"n{nav} shows d{window.active}")]
        ended = tree.ended(nav)
        if ended is not None:
            reasons.append(Reason((ended,), f"n{nav} is discarded"))
        if key == "closed" and window.closing is not None:
            reasons.append(Reason((window.closing,), f"n{nav} is closing"))
        frames = tree.framed(window.active)
        if key == "length" or step["op"] == "keys" or (key is not None and is_index(key)):
            places = [f.made for f in frames] + [f.dropped for f in frames if f.dropped is not None]
            reasons.append(Reason(tuple(sorted(places)), f"the frames of d{window.active}"))
        named = [f for f in frames if f.name and f.name == key]
        if named:
            reasons.append(Reason(made_at(tree, named[0].active), f"its first child called {key!r} is n{named[0].number}"))
        if key in ("parent", "top") and window.embedder is not None:
            around = tree.parent(nav) if key == "parent" else tree.top(nav)
            reasons.append(Reason((window.made,), f"n{nav} stands in d{window.embedder}, so its {key} is n{around}"))
        if key == "opener":
            reasons.append(Reason(tuple(window.opener_at[-1:]) or (window.made,), "its opener"))
        if key == "name":
            reasons.append(Reason(tuple(window.named_at[-1:]) or (window.made,), "its name"))
        return reasons

    def _own_or_foreign(self, tree: Tree, asker: int, doc: int, what: str) -> Reason:
        kind = "own" if tree.open_to(asker, doc) else "foreign"
        return Reason(made_at(tree, doc), f"{what}, of {origin_words(tree, doc)}: {kind} to d{asker}")


def origin_words(tree: Tree, doc: int) -> str:
    document = tree.docs[doc]
    origin = "an opaque origin" if document.origin.startswith("opaque") else document.origin
    return origin if document.domain is None else f"{origin} with the domain {document.domain}"


def made_at(tree: Tree, doc: int) -> tuple[int, ...]:
    """The places at which the document was made, shown and given a domain."""
    document = tree.docs[doc]
    places = {document.made, document.shown, document.domain_at}
    return tuple(sorted(place for place in places if place is not None))


def shown_over(tree: Tree, doc: int) -> tuple[int, ...]:
    """The place at which the document ended, if it did."""
    nav = tree.docs[doc].nav
    ended = tree.ended(nav)
    if ended is None and tree.navs[nav].active != doc:
        ended = tree.docs[tree.navs[nav].active].shown
    return () if ended is None else (ended,)
