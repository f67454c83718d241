"""The lines of the survey on what an object shows: lists, the four undefined keys, indices, names of children, Locations,
attributes of windows."""

from __future__ import annotations

from .survey_steps import (ACROSS, CROSS, LOCATION, NAMED, SYNC, WINDOW, Survey, ask, define, drop, frame, get, let, put,
                           reg)

LISTED = ("window", "self", "location", "close", "closed", "focus", "blur", "frames", "length", "top", "opener", "parent",
          "postMessage")
ACCESSORS = ("window", "self", "location", "closed", "frames", "length", "top", "opener", "parent")
FALLBACK = ("then", "@@toStringTag", "@@hasInstance", "@@isConcatSpreadable")


def listed(survey: Survey) -> None:
    survey.topic("Listed properties of a foreign window", "7.2.1.3.1")
    for key in LISTED:
        kind = "an accessor" if key in ACCESSORS else "a method"
        survey.line(f"`{key}` is described as {kind}", a=[*ACROSS, ask("describe", "f", key)], b=[])
    for key in LISTED:
        survey.line(f"`{key}` can be got", a=[*ACROSS, get("f", key)], b=[])
    for key, why in (("name", "`name` isn't listed"), ("origin", "`origin` isn't listed"), ("document", "`document` isn't listed"),
                     ("colour", "a script's own property doesn't show"), ("@@iterator", "no text beginning with @@ is a symbol here")):
        survey.line(why, a=[*ACROSS, SYNC, get("f", key)], b=[put("window", "colour", 1)])
    survey.line("a listed method is the platform's, whatever the page wrote over it", a=[*ACROSS, SYNC, get("f", "postMessage")],
                b=[put("window", "postMessage", 5)])
    survey.line("a listed method that the page deleted is shown all the same", a=[*ACROSS, SYNC, ask("describe", "f", "close")],
                b=[ask("delete", "window", "close")])


def changes(survey: Survey) -> None:
    survey.topic("Changes of a foreign window", WINDOW)
    for key, why in (("closed", "an accessor without setter"), ("window", "`window`, which has a getter alone"),
                     ("postMessage", "a method"), ("then", "an undefined key"), ("colour", "a key that isn't shown"),
                     ("name", "`name`")):
        survey.line(f"[[Set]] of {why}", section=CROSS, a=[*ACROSS, put("f", key, 1)], b=[])
    for key, why in (("closed", "a listed key"), ("colour", "a key that isn't shown"), ("0", "an index")):
        survey.line(f"[[DefineOwnProperty]] of {why}", a=[*ACROSS, define("f", key, value=1)], b=[])
        survey.line(f"[[Delete]] of {why}", a=[*ACROSS, ask("delete", "f", key)], b=[])
    for op, why in (("proto", "[[GetPrototypeOf]] is null"), ("setproto", "[[SetPrototypeOf]] to null is true"),
                    ("extensible", "[[IsExtensible]] is true"), ("prevent", "[[PreventExtensions]] is false")):
        survey.line(why, a=[*ACROSS, ask(op, "f")], b=[])
    survey.line("[[PreventExtensions]] of an own window is false", a=[ask("prevent", "window")])
    survey.line("[[SetPrototypeOf]] of an own window to null is false", a=[ask("setproto", "window")])


def fallback(survey: Survey) -> None:
    survey.topic("The four undefined keys", "7.2.1.3.2")
    for key in FALLBACK:
        survey.line(f"`{key}` of a foreign window is undefined, and there", a=[*ACROSS, ask("describe", "f", key)], b=[])
    for key in FALLBACK:
        survey.line(f"[[HasProperty]] of `{key}`", a=[*ACROSS, ask("has", "f", key)], b=[])
    survey.line("a child called `then` is shown instead", a=[*ACROSS, SYNC, get("f", "then")], b=[frame(name="then")])
    survey.line("a foreign child called `then` isn't shown", a=[*ACROSS, SYNC, SYNC, get("f", "then")],
                b=[frame("c", name="then"), SYNC], c=[])
    survey.line("the page's own `then` isn't shown", a=[*ACROSS, SYNC, get("f", "then")], b=[put("window", "then", 1)])
    survey.line("[[OwnPropertyKeys]]: indices, the list, the four", a=[*ACROSS, SYNC, ask("keys", "f")], b=[frame(name="x")])
    survey.line("[[OwnPropertyKeys]] of a foreign Location", section=LOCATION, a=[*ACROSS, get("f", "location", "l"), ask("keys", "l")],
                b=[])


def indices(survey: Survey) -> None:
    survey.topic("Indices", "7.2.3.5")
    own = [frame(to="g")]
    for key, why in (("0", "a child"), ("1", "no child"), ("01", "no index"), ("4294967294", "the greatest index"),
                     ("4294967295", "one more than that, no index")):
        survey.line(f"own window, {why}", a=[*own, get("window", key)])
        survey.line(f"foreign window, {why}", a=[*ACROSS, SYNC, get("f", key)], b=[frame()])
    survey.line("own window, description of a child", a=[*own, ask("describe", "window", "0")])
    survey.line("foreign window, description of a child", a=[*ACROSS, SYNC, ask("describe", "f", "0")], b=[frame()])
    survey.line("own window, [[HasProperty]] of no child", a=[*own, ask("has", "window", "1")])
    survey.line("foreign window, [[HasProperty]] of no child", a=[*ACROSS, ask("has", "f", "0")], b=[])
    for key, why in (("0", "a child"), ("7", "no child"), ("4294967295", "no index")):
        survey.line(f"own window, [[Set]] of {why}", section="7.2.3.8", a=[*own, put("window", key, 1)])
        survey.line(f"own window, [[DefineOwnProperty]] of {why}", section="7.2.3.6", a=[*own, define("window", key, value=1)])
        survey.line(f"own window, [[Delete]] of {why}", section="7.2.3.9", a=[*own, ask("delete", "window", key)])
    survey.line("foreign window, [[Set]] of a child", a=[*ACROSS, SYNC, put("f", "0", 1)], b=[frame()])
    survey.line("foreign window, [[Set]] of no child", a=[*ACROSS, put("f", "0", 1)], b=[])
    survey.line("indices move up where a frame was taken away", a=[frame(to="g"), frame(to="h"), drop(0), get("window", "0")])


def names(survey: Survey) -> None:
    survey.topic("Names of children", NAMED)
    survey.line("own window, a child of its origin", a=[frame("aa", name="n"), SYNC, get("window", "n")], aa=[])
    survey.line("own window, a child of another origin", a=[frame("b", name="n"), SYNC, get("window", "n")], b=[])
    survey.line("own window, has, a child of another origin", a=[frame("b", name="n"), SYNC, ask("has", "window", "n")], b=[])
    survey.line("own window, a child that still shows its initial document", a=[frame("b", name="n"), get("window", "n")], b=[])
    survey.line("own window, the first of two is of another origin",
                a=[frame("b", name="n"), SYNC, frame(name="n"), get("window", "n")], b=[])
    survey.line("own window, the second of two is of another origin",
                a=[frame(name="n"), frame("b", name="n"), SYNC, get("window", "n")], b=[])
    survey.line("own window, description of a named child: it is none of the window's own", a=[frame(name="n"), ask("describe", "window", "n")])
    survey.line("foreign window, a child of its origin", section="7.2.3.5", a=[*ACROSS, SYNC, get("f", "n")], b=[frame(name="n")])
    survey.line("foreign window, description of such a child", section="7.2.3.5", a=[*ACROSS, SYNC, ask("describe", "f", "n")],
                b=[frame(name="n")])
    survey.line("foreign window, has, a child of its origin", section="7.2.3.5", a=[*ACROSS, SYNC, ask("has", "f", "n")],
                b=[frame(name="n")])
    survey.line("foreign window, a child of another origin than its own", section="7.2.3.5",
                a=[*ACROSS, SYNC, SYNC, get("f", "n")], b=[frame("c", name="n"), SYNC], c=[])
    survey.line("foreign window, the first of two is of another origin than its own", section="7.2.3.5",
                a=[*ACROSS, SYNC, SYNC, get("f", "n")], b=[frame("c", name="n"), SYNC, frame(name="n")], c=[])
    survey.line("foreign window, a sandboxed child of the page", section="7.2.3.5", a=[*ACROSS, SYNC, SYNC, get("f", "n")],
                b=[frame("bb", name="n", sandbox="allow-scripts"), SYNC], bb=[])
    survey.line("foreign window, a child of another origin, asked by a third", "c", section="7.2.3.5", a=[frame("b"), frame("c")],
                b=[frame("bb", name="m"), frame("aa", name="n")], aa=[], bb=[],
                c=[get("window", "parent", "p"), get("p", "0", "q"), *[SYNC] * 4, get("q", "n")])
    survey.line("foreign window, a child called as a listed key", section="7.2.3.5", a=[*ACROSS, SYNC, get("f", "length")],
                b=[frame(name="length")])
    survey.line("own window, a child called as an attribute", a=[frame(name="length"), get("window", "length")])
    survey.line("own window, a property hides the child", a=[frame(name="n"), put("window", "n", 1), get("window", "n")])
    survey.line("own window, and shows it once it is deleted",
                a=[frame(name="n"), put("window", "n", 1), ask("delete", "window", "n"), get("window", "n")])
    survey.line("own window, a child under a deleted attribute",
                a=[frame(name="closed"), ask("delete", "window", "closed"), get("window", "closed")])
    survey.line("own window, a dropped child", a=[frame(name="n"), drop(0), get("window", "n")])
    survey.line("own window, the child behind a dropped one of its name",
                a=[frame("b", name="n"), SYNC, frame(name="n", to="g"), drop(0), get("window", "n")], b=[])


def locations(survey: Survey) -> None:
    survey.topic("Location", LOCATION)
    foreign = [*ACROSS, get("f", "location", "l")]
    for op, key, why in (("describe", "href", "`href` has a setter alone"), ("describe", "replace", "`replace` is a method"),
                         ("get", "href", "`href` has no getter"), ("get", "assign", "`assign` isn't shown"),
                         ("get", "origin", "`origin` isn't shown"), ("get", "then", "`then` is undefined"),
                         ("get", "0", "an index is a key as any other"), ("delete", "replace", "[[Delete]]")):
        survey.line(f"foreign, {why}", a=[*foreign, ask(op, "l", key)], b=[])
    survey.line("foreign, [[Set]] of `replace`", a=[*foreign, put("l", "replace", 1)], b=[])
    survey.line("foreign, [[DefineOwnProperty]]", a=[*foreign, define("l", "x", value=1)], b=[])
    survey.line("foreign, [[GetPrototypeOf]]", a=[*foreign, ask("proto", "l")], b=[])
    survey.line("foreign, [[PreventExtensions]]", a=[*foreign, ask("prevent", "l")], b=[])
    own = [get("window", "location", "l")]
    for key in ("href", "origin", "assign", "replace"):
        survey.line(f"own, `{key}` is said to be configurable", section="7.2.4.5", a=[*own, ask("describe", "l", key)])
        survey.line(f"own, `{key}` can't be redefined", section="7.2.4.6", a=[*own, define("l", key, value=1)])
    survey.line("own, [[DefineOwnProperty]] of a default property that changes nothing", section="7.2.4.6",
                a=[*own, define("l", "replace", configurable=False)])
    survey.line("own, a default property can't be deleted", section="7.2.4.9", a=[*own, ask("delete", "l", "href")])
    survey.line("own, [[Set]] of `origin`", a=[*own, put("l", "origin", "x")])
    survey.line("own, a script's property", a=[*own, put("l", "x", 1), ask("describe", "l", "x")])
    survey.line("own, [[PreventExtensions]]", section="7.2.4.4", a=[*own, ask("prevent", "l")])
    survey.line("own, `href` of an initial document", a=[frame(to="g"), get("g", "location", "l"), get("l", "href")])
    survey.line("own, `origin` of an initial document", a=[frame(to="g"), get("g", "location", "l"), get("l", "origin")])
    survey.line("own, `href` of a document that is gone",
                a=[frame("aa", "g"), SYNC, get("g", "location", "l"), drop(0), get("l", "href")], aa=[])
    survey.line("own, `origin` of a document that is gone",
                a=[frame("aa", "g"), SYNC, get("g", "location", "l"), drop(0), get("l", "origin")], aa=[])
    survey.line("the Location of an initial document isn't that of the loaded one",
                a=[frame("b", "f"), get("f", "location", "l"), SYNC, get("f", "location")], b=[])
    survey.line("a Location of an initial document, once another is shown",
                a=[frame("b", "f"), get("f", "location", "l"), SYNC, get("l", "href")], b=[])


def attributes(survey: Survey) -> None:
    survey.topic("Attributes of a window", "7.2.2.4")
    gone = [frame("b", "f"), SYNC, drop(0)]
    for key in ("closed", "top", "parent", "opener", "length", "window", "location"):
        survey.line(f"`{key}` of a foreign window that is gone", a=[*gone, get("f", key)], b=[])
    own_gone = [frame("aa", "f"), SYNC, drop(0)]
    for key in ("closed", "top", "parent", "name", "length", "window"):
        survey.line(f"`{key}` of an own window that is gone", a=[*own_gone, get("f", key)], aa=[])
    survey.line("`parent` of a top-level window is itself", a=[get("window", "parent")])
    survey.line("`opener` of a start window", a=[get("window", "opener")])
    survey.line("`origin` of a window", a=[get("window", "origin")])
    survey.line("`origin` of a sandboxed window", "b", a=[frame("b", sandbox="allow-scripts")], b=[get("window", "origin")])
    survey.line("a sandboxed page meets its own Location as own", "b", a=[frame("b", sandbox="allow-scripts")],
                b=[get("window", "location", "l"), get("l", "origin")])
    survey.line("a sandboxed page meets its parent of the same URL's origin as foreign", "aa",
                a=[frame("aa", sandbox="allow-scripts")], aa=[get("window", "parent", "p"), get("p", "name")])
    survey.line("and so does the page around it", a=[frame("aa", "f", sandbox="allow-scripts"), SYNC, get("f", "name")], aa=[])
    survey.line("`allow-same-origin` keeps the origin", "aa", a=[frame("aa", sandbox="allow-scripts allow-same-origin")],
                aa=[get("window", "parent", "p"), get("p", "origin")])
    for key in ("self", "parent", "length", "frames", "origin"):
        survey.line(f"`{key}` gives way to a value", section="7.2.2", a=[put("window", key, 1), ask("describe", "window", key)])
    for key in ("closed", "top", "window"):
        survey.line(f"`{key}` can't be set", a=[put("window", key, 1)])
    survey.line("`opener` gives way to a value other than null", a=[put("window", "opener", 1), ask("describe", "window", "opener")])
    survey.line("`self` that was made fixed doesn't", a=[define("window", "self", configurable=False), put("window", "self", 1)])
    survey.line("`window` is fixed", a=[ask("delete", "window", "window")])
    survey.line("`location` is fixed", a=[define("window", "location", value=1)])
    survey.line("a window that was read from a frame is the frame's", a=[frame("aa", "f"), SYNC, get("f", "parent", "p"), let(reg("p"))], aa=[])
    survey.line("a default port is no part of an origin", "aa", a=[frame("https://a.test:443/in", "f"), SYNC],
                aa=[get("window", "parent", "p"), get("p", "origin")])
    up = [get("window", "parent", "p"), get("p", "name")]
    survey.line("another port is another origin", "port", a=[frame("port")], port=up, section="7.1.1")
    survey.line("another scheme is another origin", "a", start=("plain",), plain=[frame("a")], a=up, section="7.1.1")
    survey.line("another host of the site is another origin", "x", a=[frame("x")], x=up, section="7.1.1")


def write(survey: Survey) -> None:
    for part in (listed, changes, fallback, indices, names, locations, attributes):
        part(survey)
