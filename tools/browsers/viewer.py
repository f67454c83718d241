"""One HTML file from a session and its run."""

from __future__ import annotations

import html
import json
import re
from pathlib import Path

from .explain import Explained, Explainer
from .session import Session
from .trace import Act, Entry, Run
from .tree import Tree, blanked, concerns

HERE = Path(__file__).resolve().parent / "view"


def states(run: Run) -> list[dict]:
    """For each place the windows that its entry changes, each with all that is shown of it."""
    tree, changes, last = Tree(), [], {}
    for entry in run.log:
        touched = tree.apply(entry)
        now = {}
        for number in sorted({inner for nav in touched for inner in tree.inside(nav)}):
            shown = window_state(tree, number)
            if last.get(number) != shown:
                last[number] = now[number] = shown
        changes.append(now)
    return changes


def window_state(tree: Tree, number: int) -> dict:
    nav = tree.navs[number]
    doc = tree.docs[nav.active]
    waiting = None if nav.waiting is None else tree.docs[nav.waiting]
    return {
        "parent": tree.parent(number), "group": nav.group, "name": nav.name, "flags": nav.flags, "opener": nav.opener,
        "doc": nav.active, "url": doc.url, "origin": doc.origin, "home": doc.home, "domain": doc.domain,
        "closing": nav.closing is not None, "gone": tree.ended(number) is not None,
        "loading": waiting and {"doc": waiting.number, "url": waiting.url, "home": waiting.home,
                                "origin": waiting.origin},
    }


def data_of(name: str, session: Session, run: Run) -> dict:
    """All that the page shows, as plain JSON."""
    posts = {entry.place: entry.fields["to"] for entry in run.log if entry.kind == "post"}
    tree = Tree(run.log)
    explainer = Explainer(session, run)
    entries = [{"renderer": entry.renderer, "actor": entry.actor, "kind": entry.kind, "text": entry.text,
                "short": short(entry), "for": concerns(entry, posts), "blank": blanked(entry),
                "post": entry.fields.get("post")} for entry in run.log]
    acts = [act_of(act, explainer.explained[act.renderer, act.index]) for act in run.acts()]
    return {"name": name, "status": run.status, "entries": entries, "states": states(run), "acts": acts,
            "homes": {doc.number: doc.home for doc in tree.docs.values()},
            "renderers": max(len(run.records), session.renderers)}


def short(entry: Entry) -> str:
    """What happened, in a few words. The place of a URL is held by `@`."""
    fields = entry.fields
    if fields.get("load") is not None:
        return f"{entry.kind} n{fields['nav']}, loads d{fields['load'].doc} @"
    match entry.kind:
        case "open" | "frame" | "commit":
            return f"{entry.kind} n{fields['nav']} d{fields['doc']}"
        case "fragment":
            return f"fragment d{fields['doc']} @"
        case "post":
            return f"post to d{fields['to']}: {fields['data']}"
        case "fire":
            return f"fire d{fields['doc']}, message {fields['post']}"
        case "lapse":
            return f"lapse d{fields['doc']}, message {fields['post']}: {fields['cause']}"
    return " ".join(entry.text.split(" ")[3:])


def act_of(act: Act, explained: Explained) -> dict:
    return {"renderer": act.renderer, "heard": act.heard, "text": act.text, "task": act.task, "place": act.place,
            "doc": act.doc, "step": explained.step, "where": explained.where, "of": explained.of,
            "answer": act.answer,
            "reasons": [{"places": list(reason.places), "words": reason.words} for reason in explained.reasons]}


def page_of(name: str, session: Session, run: Run) -> str:
    """The file. It holds all it needs, and its policy forbids it to fetch anything."""
    data = json.dumps(data_of(name, session, run), separators=(",", ":")).replace("<", "\\u003c")
    parts = {"TITLE": html.escape(name), "STYLE": (HERE / "view.css").read_text(),
             "SCRIPT": (HERE / "view.js").read_text(), "DATA": data}
    return re.sub("@(TITLE|STYLE|SCRIPT|DATA)@", lambda found: parts[found[1]], (HERE / "view.html").read_text())
