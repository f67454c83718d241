"""A printed run: the log, the records and the status that `winproxy play` prints (docs/FORMATS.md)."""

from __future__ import annotations

import json
from dataclasses import dataclass
from typing import NamedTuple


class BadRun(Exception):
    """The text isn't what `winproxy play` prints."""


class Load(NamedTuple):
    """A document that is to be shown once it has loaded."""
    doc: int
    home: int
    origin: str
    url: str


class Point(NamedTuple):
    """Where a step stands: in the script, or in the handler that the message fired at a place has run."""
    fired_at: int | None
    step: int


@dataclass(frozen=True)
class Entry:
    """An entry of the log. Numbers of navigables and documents are plain; what isn't there is None."""
    place: int
    renderer: int | None
    actor: int | None
    kind: str
    fields: dict
    text: str


@dataclass(frozen=True)
class Act:
    """An act of a renderer: a task, or a step of a document with its answer."""
    renderer: int
    index: int
    heard: int
    text: str
    task: str | None = None
    place: int | None = None
    doc: int | None = None
    point: Point | None = None
    op: str = ""
    answer: str = ""


@dataclass(frozen=True)
class Run:
    log: list[Entry]
    records: list[list[Act]]
    status: str

    def acts(self) -> list[Act]:
        """All acts in an order that the renderers could have had: an act follows the entries that its renderer had heard,
        and comes before the next entry of anyone."""
        def rank(act: Act) -> tuple:
            made = self.log[act.heard - 1].renderer if 0 < act.heard <= len(self.log) else None
            return act.heard, made != act.renderer, act.renderer, act.index
        return sorted((act for record in self.records for act in record), key=rank)


# The fields of an entry behind its kind: a word alone is a number with a letter, `name=` says what follows.
NUMBERS = {"n": "nav", "d": "doc", "g": "group", "r": "lost"}


def words_of(text: str) -> list[str]:
    """The words of a line. A space inside quotes parts none."""
    words, word, quoted, escaped = [], "", False, False
    for letter in text:
        if letter == " " and not quoted:
            words.append(word)
            word = ""
            continue
        word += letter
        if escaped:
            escaped = False
        elif letter == "\\":
            escaped = quoted
        elif letter == '"':
            quoted = not quoted
    return words + [word]


def number(word: str) -> int | None:
    """The number of `n3`, `d3`, `g3`, `r3` or `3`, and None of `-`."""
    return None if word == "-" else int(word.lstrip("ndgr"))


def unquoted(word: str) -> str:
    return json.loads(word)


def read_entry(line: str) -> Entry:
    place, renderer, actor, kind, *rest = words_of(line)
    fields: dict = {}
    for word in rest:
        name, equals, value = word.partition("=")
        if word.startswith('"'):
            fields["text"] = unquoted(word)
        elif not equals:
            fields[NUMBERS[word[0]]] = number(word)
        elif name in ("url", "lurl", "name"):
            fields[name] = unquoted(value)
        elif name in ("origin", "lorigin", "flags", "target", "data", "cause"):
            fields[name] = value
        else:
            fields[name] = number(value)
    if kind == "begin":
        fields["load"] = Load(fields["doc"], fields["home"], fields["origin"], fields["url"])
    elif fields.get("load") is not None:
        fields["load"] = Load(fields["load"], fields["lhome"], fields["lorigin"], fields["lurl"])
    return Entry(int(place), number(renderer), number(actor), kind, fields, line)


def read_point(word: str) -> Point:
    if word.startswith("s"):
        return Point(None, int(word[1:]))
    place, _, step = word[1:].partition(".")
    return Point(int(place), int(step))


def read_act(line: str, renderer: int, index: int) -> Act:
    before, arrow, answer = line.partition(" -> ")
    words = before.split(" ")
    if words[1] == "task":
        place = int(words[3]) if len(words) > 3 else None
        return Act(renderer, index, int(words[0]), line, task=words[2], place=place)
    if not arrow or len(words) != 4:
        raise ValueError("an act has an answer")
    return Act(renderer, index, int(words[0]), line, doc=number(words[1]), point=read_point(words[2]), op=words[3],
               answer=answer)


def read_run(text: str) -> Run:
    lines = iter(text.splitlines())
    line = ""
    try:
        line = next(lines)
        head, count = line.split(" ")
        if head != "log":
            raise ValueError("the first line says how long the log is")
        log = []
        for _ in range(int(count)):
            line = next(lines)
            log.append(read_entry(line))
        records: list[list[Act]] = []
        line = next(lines)
        while line.startswith("record "):
            renderer, acts = map(int, line.split(" ")[1:])
            records.append([])
            for index in range(acts):
                line = next(lines)
                records[-1].append(read_act(line, renderer, index))
            line = next(lines)
        if not line.startswith("status "):
            raise ValueError("the last line is the status")
    except (ValueError, KeyError, IndexError, StopIteration) as problem:
        raise BadRun(f"no run of `winproxy play`, at {line!r}: {problem}") from problem
    if [entry.place for entry in log] != list(range(len(log))):
        raise BadRun("the places of the log aren't 0, 1, ..")
    return Run(log, records, line)
