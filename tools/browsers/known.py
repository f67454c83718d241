"""Differences that are known, each with its reason: choices that the project makes for itself, which are left out, and what
browsers do otherwise than the Standard says. The first that fits counts. `hunt` shows new ones first."""

from __future__ import annotations

import json
from collections.abc import Callable
from dataclasses import dataclass
from typing import TYPE_CHECKING

from .session import WINDOW_KEYS, is_index

if TYPE_CHECKING:
    from .compare import Row
    from .player import Seen


@dataclass(frozen=True)
class Rule:
    """A kind of difference. `when` gets the row, the browser's answer, what it said beside it, and its label."""
    name: str
    section: str
    reason: str
    when: Callable[["Row", str, "Seen", str], bool]
    choice: bool = False


def step(row: "Row", *ops: str) -> bool:
    return row.step is not None and row.step.get("op") in ops


def key(row: "Row", *keys: str) -> bool:
    return row.step is not None and row.step.get("key") in keys


def index(row: "Row") -> bool:
    return row.step is not None and is_index(row.step.get("key", ""))


def not_text(row: "Row") -> bool:
    """Whether a text is needed where the step has a list or a record."""
    values = [row.step.get("value"), *row.step.get("args", [])] if row.step else []
    return any(isinstance(value, (list, dict)) for value in values)


def child_by_name(row: "Row", answer: str) -> bool:
    """Whether the answer shows a child under a name that is no key of the platform's."""
    shows = {"get": answer.startswith("window"), "describe": answer.startswith("data value=window"), "has": answer == "true"}
    return bool(row.step) and shows.get(row.step["op"], False) and not index(row) and not key(row, *WINDOW_KEYS)


def same_set(row: "Row", answer: str) -> bool:
    """Whether two lists of keys have the same keys."""
    try:
        return sorted(json.loads(row.model)) == sorted(json.loads(answer))
    except (ValueError, TypeError):
        return False


LOCATION_DEFAULTS = ("href", "origin", "assign", "replace", "valueOf")

CHOICES = [
    Rule("methods elsewhere", "", "A method works only on the object, and under the key, where the platform put it.",
         lambda row, answer, seen, label: step(row, "call") and row.model == "TypeError" and "moved" in seen.notes, True),
    Rule("texts of objects", "", "Lists, records and objects of the platform have no text.",
         lambda row, answer, seen, label: row.model == "TypeError" and not_text(row), True),
    Rule("attributes made fixed", "", "A replaceable attribute that was made non-configurable answers false to a set. Web IDL has "
         "CreateDataPropertyOrThrow there, which throws.",
         lambda row, answer, seen, label: step(row, "set") and row.model == "false" and row.foreign is False
         and answer in ("TypeError", "true") and key(row, "self", "frames", "parent", "length", "origin"), True),
    Rule("deleting defaults", "", "A default property of a Location can't be deleted: the answer is false.",
         lambda row, answer, seen, label: step(row, "delete") and key(row, *LOCATION_DEFAULTS) and row.model == "false", True),
]

BROWSERS = [
    Rule("foreign set prototype", "7.2.3.2, 7.2.4.2",
         "[[SetPrototypeOf]] is SetImmutablePrototype, which is true for null where the prototype is null.",
         lambda row, answer, seen, label: step(row, "setproto") and row.foreign and answer == "SecurityError"),
    Rule("foreign prevent extensions", "7.2.3.4, 7.2.4.4", "[[PreventExtensions]] returns false, for a foreign object too.",
         lambda row, answer, seen, label: step(row, "prevent") and bool(row.foreign) and answer == "SecurityError"),
    Rule("own Location prevents extensions", "7.2.4.4", "[[PreventExtensions]] of a Location returns false.",
         lambda row, answer, seen, label: step(row, "prevent") and row.model == "false" and answer == "true"),
    Rule("foreign has", "7.2.1.3.2, 7.2.3.5", "[[HasProperty]] is the ordinary one over [[GetOwnProperty]], which shows the four "
         "undefined keys and the children by name.",
         lambda row, answer, seen, label: step(row, "has") and bool(row.foreign) and row.model == "true" and answer == "SecurityError"),
    Rule("order of foreign keys", "7.2.1.3.7", "CrossOriginOwnPropertyKeys has the keys in the order of the list.",
         lambda row, answer, seen, label: step(row, "keys") and bool(row.foreign) and same_set(row, answer)),
    Rule("writes to indices", "7.2.3.6, 7.2.3.8", "An own window answers false to [[Set]] and [[DefineOwnProperty]] of an array index.",
         lambda row, answer, seen, label: step(row, "set", "define") and index(row) and row.foreign is False and answer == "true"),
    Rule("foreign children by name", "7.2.2.3", "The name property set has only children whose document is same origin with the "
         "window's own.",
         lambda row, answer, seen, label: child_by_name(row, answer)
         and row.model in ("undefined", "false", "SecurityError", "data value=undefined w=false e=false c=true")),
    Rule("Location defaults are fixed", "7.2.4.5", "[[GetOwnProperty]] sets [[Configurable]] of default properties to true.",
         lambda row, answer, seen, label: step(row, "describe") and key(row, *LOCATION_DEFAULTS)
         and answer == row.model.replace("c=true", "c=false")),
    Rule("redefining Location defaults", "7.2.4.6", "[[DefineOwnProperty]] returns false for a default property, whatever it says.",
         lambda row, answer, seen, label: step(row, "define") and key(row, *LOCATION_DEFAULTS) and row.model == "false"),
    Rule("windows that are gone", "7.2.2.4", "`window`, `self` and `frames` give the WindowProxy, also once the window is gone.",
         lambda row, answer, seen, label: step(row, "get") and key(row, "window", "self", "frames")
         and row.model.startswith("window") and answer == "null"),
    Rule("Locations that are gone", "7.2.4", "The URL of a Location whose document is gone is `about:blank`, and its origin `null`.",
         lambda row, answer, seen, label: step(row, "get") and key(row, "href", "origin") and row.model in ('"about:blank"', '"null"')
         and answer == '""'),
    Rule("Locations of initial documents", "7.2.4", "A Location belongs to one document, and is asked by that document's origin. "
         "Firefox's goes with the window, also where another document is shown there.",
         lambda row, answer, seen, label: step(row, "get") and key(row, "href") and row.model == '"about:blank"'
         and answer == "SecurityError"),
]


# Differences at lines of the survey that no rule above is about, by the names of the lines.
LINES: dict[str, Rule] = {}


def at_line(line: str, name: str, section: str, reason: str) -> None:
    LINES[line] = Rule(name, section, reason, lambda row, answer, seen, label: False)


at_line("Navigation: and then shows another document", "Locations of foreign windows", "7.2.4",
        "Each Window has a Location of its own, so `location` of a foreign window is another object once another document is shown. "
        "With a process for each site Chromium and Firefox give the object that they gave before; in one process they don't.")
at_line("Names and openers: `_top` is the top", "frames and the top", "7.4.2.4",
        "A frame that isn't sandboxed may navigate its top, and `open` without a URL asks nothing. Chromium wants a user where the "
        "frame is of another site.")
at_line("Permission and sandboxing: a sandboxed frame opens no window", "windows that sandboxing forbids", "7.2.2.1",
        "The window open steps return null where no window may be made. Firefox throws an InvalidAccessError.")
at_line("Permission and sandboxing: a frame without sandbox may", "neighbours", "7.4.2.4",
        "Only sandboxing forbids a frame to navigate its neighbour. Browsers also want the frame to be of the origin of a window "
        "around the neighbour.")
at_line("Messages: the target comes before the clone", "order of posting", "9.3.3",
        "The target is read, and a SyntaxError is thrown, before the message is serialized. Chromium serializes first.")
at_line("document.domain: nor back", "domains that grow back", "7.1.1.2",
        "The effective domain is the domain that was set, and the host is no suffix of that. Chromium takes the host again.")


def matching(row: "Row", answer: str, seen: "Seen", label: str) -> Rule | None:
    return next((rule for rule in [*CHOICES, *BROWSERS] if rule.when(row, answer, seen, label)), None)


@dataclass(frozen=True)
class PairRule:
    """A kind of difference between two browsers, or between one with a process for each site and one without. `when` gets the
    step, or nothing of a load or a message, and the two answers."""
    name: str
    section: str
    reason: str
    when: Callable[[dict, tuple[str, ...]], bool]


PAIRS: list[PairRule] = [
    PairRule("Locations of foreign windows", "7.2.4", "Each document has a Location of its own, so `location` of a foreign window is "
             "another object once another document is shown. A window in another process keeps its first one.",
             lambda step, answers: step.get("op") == "get" and step.get("key") == "location"
             and all(answer.startswith("location") for answer in answers)),
]


def pair_rule(step: dict | None, answers: tuple[str, ...]) -> str:
    """The name of the rule that a difference between two browsers is known by, or nothing. A rule about the model and a browser
    says it too, where either browser is as that rule has the model."""
    from .compare import Row
    from .player import Seen
    known = next((rule.name for rule in PAIRS if rule.when(step or {}, answers)), "")
    for model, answer in (answers, answers[::-1]):
        for foreign in (True, False):
            rule = matching(Row((), "", "", model, None, step, foreign), answer, Seen(answer), "")
            known = known or (rule.name if rule else "")
    return known
