"""The lines of the survey on what windows do to each other: names and openers, permission and sandboxing, messages, domains,
closing."""

from __future__ import annotations

from .survey_steps import (ACROSS, SYNC, Survey, call, domain, frame, get, let, link, opened, put, reg)


def navigation(survey: Survey) -> None:
    survey.topic("Navigation", "7.4.2.2")
    survey.line("a foreign frame may be navigated by its parent", a=[*ACROSS, put("f", "location", "https://c.test/")], b=[], c=[])
    survey.line("and then shows another document", a=[*ACROSS, get("f", "location", "l"), put("f", "location", "https://c.test/"), SYNC,
                                                        get("f", "location")], b=[], c=[])
    survey.line("by `href` of its Location", a=[*ACROSS, get("f", "location", "l"), put("l", "href", "https://c.test/")], b=[], c=[])
    survey.line("by `replace` of its Location", a=[*ACROSS, get("f", "location", "l"), call("l", "replace", "https://c.test/")], b=[],
                c=[])
    survey.line("`assign` of a foreign Location isn't shown", section="7.2.4", a=[*ACROSS, get("f", "location", "l"),
                                                                                   call("l", "assign", "https://c.test/")], b=[])
    survey.line("a text that is no URL", section="7.2.4", a=[*ACROSS, put("f", "location", "https://")], b=[])
    survey.line("a fragment keeps the document", a=[get("window", "location", "l"), put("l", "href", "#x"), get("l", "href")])
    survey.line("a fragment of a foreign frame keeps its document",
                a=[*ACROSS, get("f", "location", "l"), put("f", "location", "https://b.test/#x"), SYNC, get("f", "location")], b=[])
    survey.line("a frame sees the new fragment", "b", a=[*ACROSS, put("f", "location", "https://b.test/#x"), SYNC],
                b=[SYNC, SYNC, get("window", "location", "l"), get("l", "href")])
    survey.line("URLs are read against the asker's", "aa", a=[frame("b", "f"), SYNC, put("f", "location", "in")], b=[],
                aa=[get("window", "location", "l"), get("l", "href")])


def names_and_openers(survey: Survey) -> None:
    survey.topic("Names and openers", "7.3.1.7")
    survey.line("`name` is what a script sets", a=[put("window", "name", "z"), get("window", "name")])
    survey.line("`name` of a frame is its attribute's", "aa", a=[frame("aa", name="z")], aa=[get("window", "name")])
    survey.line("`name` of an opened window is its target", "b", a=[opened("b", target="z")], b=[get("window", "name")])
    survey.line("`_blank` gives no name", "b", a=[opened("b", target="_blank")], b=[get("window", "name")])
    survey.line("a frame that renames itself is reached by its new name", a=[frame("aa", "f", name="n"), SYNC, SYNC, get("window", "m")],
                aa=[put("window", "name", "m")], section="7.2.2.3")
    survey.line("`opener` is the window that opened", "b", a=[opened("b", target="z")], b=[get("window", "opener")])
    survey.line("with noopener it is null", "b", a=[opened("b", target="z", noopener=True)], b=[get("window", "opener")])
    survey.line("with noopener `open` gives null", a=[opened("b", target="z", noopener=True)], b=[])
    survey.line("`opener` is given up by null", "b", a=[opened("b", target="z")], b=[put("window", "opener", None), get("window", "opener")])
    survey.line("which whoever opened sees too", section="7.2.2.4", a=[opened("b", target="z", to="w"), SYNC, SYNC, get("w", "opener")],
                b=[put("window", "opener", None)])
    survey.line("a name that is there isn't opened twice", a=[opened("b", target="z", to="w"), SYNC, opened(None, target="z")], b=[])
    survey.line("a frame is found by its name", a=[frame("b", "f", name="z"), SYNC, opened("c", target="z")], b=[], c=[])
    survey.line("a frame of a frame is found", a=[frame("b", "f"), SYNC, SYNC, get("f", "0", "g"), opened(None, target="z")],
                b=[frame("c", name="z")], c=[])
    survey.line("`_self` is the window itself", "aa", a=[frame("aa", "f")], aa=[opened(None, target="_self")])
    survey.line("`_parent` is the parent", "aa", a=[frame("aa", "f")], aa=[opened(None, target="_parent")])
    survey.line("`_top` is the top", "b", a=[frame("b", "f")], b=[opened(None, target="_TOP")])
    survey.line("`_blank` is always new", a=[opened(None, target="z", to="w"), opened(None, target="_blank", to="v"), let(reg("v"))])
    survey.line("the name of an unfamiliar window isn't found", "b", a=[put("window", "name", "q"), opened("b", target="z")],
                b=[opened(None, target="q")])
    survey.line("a link with a target opens a window with an opener", "b", a=[link("b", target="z")], b=[get("window", "opener")])
    survey.line("a link to `_blank` opens one without", "b", a=[link("b", target="_blank")], b=[get("window", "opener")])
    survey.line("but for `rel=opener`", "b", a=[link("b", target="_blank", rel="opener")], b=[get("window", "opener")])
    survey.line("`rel=noreferrer` leaves the opener out", "b", a=[link("b", target="z", rel="NoReferrer")], b=[get("window", "opener")])
    survey.line("`open` with a text that is no URL", section="7.2.2.1", a=[opened("https://", target="z")])
    survey.line("an opened window that shows no page yet is own", a=[opened(None, target="z", to="w"), get("w", "origin")])


def sandboxing(survey: Survey) -> None:
    survey.topic("Permission and sandboxing", "7.4.2.4")
    top = [get("window", "top", "t"), put("t", "location", "https://c.test/")]
    user = [get("window", "top", "t"), put("t", "location", "https://c.test/", True)]
    for sandbox, why in (("allow-scripts", "may not navigate the top"),
                         ("allow-scripts allow-top-navigation", "may with `allow-top-navigation`"),
                         ("allow-scripts allow-top-navigation-by-user-activation", "may not without a user, with "
                          "`allow-top-navigation-by-user-activation`")):
        survey.line(f"a sandboxed frame {why}", "b", a=[frame("b", sandbox=sandbox)], b=top, c=[])
    survey.line("and may with one", "b", a=[frame("b", sandbox="allow-scripts allow-top-navigation-by-user-activation")], b=user, c=[])
    survey.line("a frame without sandbox may, of another site, with a user", "b", a=[frame("b")], b=user, c=[])
    survey.line("a sandboxed frame may not navigate a neighbour", "b", a=[frame("c", "g"), SYNC, frame("b", sandbox="allow-scripts")],
                b=[get("window", "parent", "p"), get("p", "0", "n"), put("n", "location", "https://a.test/in")], c=[])
    survey.line("a frame without sandbox may", "b", a=[frame("c", "g"), SYNC, frame("b")],
                b=[get("window", "parent", "p"), get("p", "0", "n"), put("n", "location", "https://a.test/in")], c=[])
    survey.line("a sandboxed frame may navigate itself", "b", a=[frame("b", sandbox="allow-scripts")],
                b=[put("window", "location", "https://c.test/")], c=[])
    survey.line("a sandboxed frame may navigate its own frame", "b", a=[frame("b", sandbox="allow-scripts")],
                b=[frame("c", "g"), put("g", "location", "https://a.test/in")], c=[])
    survey.line("a sandboxed frame opens no window", "b", a=[frame("b", sandbox="allow-scripts")], b=[opened("c", target="z")],
                section="7.3.1.7")
    survey.line("it does with `allow-popups`", "b", a=[frame("b", sandbox="allow-scripts allow-popups")], b=[opened("c", target="z")],
                c=[], section="7.3.1.7")
    survey.line("the new window is sandboxed too", "c", a=[frame("b", sandbox="allow-scripts allow-popups")],
                b=[opened("c", target="z")], c=[get("window", "origin")], section="7.3.1.7")
    survey.line("but with `allow-popups-to-escape-sandbox`", "c",
                a=[frame("b", sandbox="allow-scripts allow-popups allow-popups-to-escape-sandbox")],
                b=[opened("c", target="z")], c=[get("window", "origin")], section="7.3.1.7")
    survey.line("flags reach the frames inside", "c", a=[frame("b", sandbox="allow-scripts")], b=[frame("c")],
                c=[get("window", "origin")], section="7.1.5")
    survey.line("keywords count in any case", "b", a=[frame("b", sandbox="ALLOW-SCRIPTS Allow-Same-Origin")],
                b=[get("window", "origin")], section="7.1.5")


def messages(survey: Survey) -> None:
    survey.topic("Messages", "9.3.3")
    hear = [let(reg("data"))]

    def post(rule: str, *args, shown: str = "b_handler", b_handler=None, **parts) -> None:
        survey.line(rule, shown, a=[*ACROSS, call("f", "postMessage", *args)], b=[], b_handler=b_handler or hear, **parts)

    post("`*` reaches every origin", "m", "*")
    post("the origin of the target", "m", "https://b.test")
    post("a URL counts by its origin", "m", "https://b.test:443/x?y#z")
    post("`/` is the sender's origin", "m", "/")
    post("no second argument is the sender's origin", "m")
    post("another origin gets nothing", "m", "https://c.test")
    post("an options object", "m", {"targetOrigin": "*"})
    post("options without a target", "m", {})
    post("an opaque target gets nothing", "m", "data:,x")
    post("a target that is no URL", "m", "b.test", shown="a")
    post("a window isn't cloned", reg("f"), "*", shown="a", section="2.7")
    post("the target comes before the clone", reg("f"), "b.test", shown="a")
    post("no argument", shown="a")
    post("a record is cloned", {"b": [1, None, True], "a": "x"}, "*")
    post("undefined is cloned", reg("undefined"), "*")
    post("`origin` is the sender's", "m", "*", b_handler=[let(reg("origin"))])
    post("`source` is the sender's window", "m", "*", b_handler=[get("window", "parent"), let(reg("source"))])
    survey.line("`origin` of a sandboxed sender is null", "a_handler", a=[frame("b", sandbox="allow-scripts")],
                b=[get("window", "parent", "p"), call("p", "postMessage", "m", "*")], a_handler=[let(reg("origin"))])
    survey.line("a message to the sender itself", "a_handler", a=[call("window", "postMessage", "m", "/")], a_handler=hear)
    survey.line("messages come in order", "a_handler", a=[frame("b")], at=0, a_handler=[let(reg("data"))],
                b=[get("window", "parent", "p"), call("p", "postMessage", 1, "*"), call("p", "postMessage", 2, "*")])
    survey.line("a message to a window that is gone", a=[frame("b", "f"), SYNC, {"op": "drop", "index": 0}, call("f", "postMessage", "m", "*")],
                b=[])
    survey.line("an answer to its `source`", "a_handler", a=[*ACROSS, call("f", "postMessage", "m", "*")], a_handler=hear, b=[],
                b_handler=[call("source", "postMessage", "back", "*")])


def domains(survey: Survey) -> None:
    survey.topic("document.domain", "7.1.1.2")
    read = [get("window", "parent", "p"), get("p", "name")]
    survey.line("it may become the site", "x", start=("x",), x=[domain("a.test")])
    survey.line("in any case", "x", start=("x",), x=[domain("A.Test")])
    survey.line("it may stay", "x", start=("x",), x=[domain("x.a.test")])
    survey.line("it may not become a public suffix", "x", start=("x",), x=[domain("test")])
    survey.line("nor another host", "x", start=("x",), x=[domain("b.test")])
    survey.line("nor longer", "x", start=("x",), x=[domain("a.x.a.test")])
    survey.line("nor back", "x", start=("x",), x=[domain("a.test"), domain("x.a.test")])
    survey.line("a sandboxed document may not set it", "x", start=("a",), a=[frame("x", sandbox="allow-scripts allow-same-origin")],
                x=[domain("a.test")])
    survey.line("two that set it meet as own", "y", start=("x",), x=[domain("a.test"), frame("y")], y=[domain("a.test"), *read])
    survey.line("one alone doesn't", "y", start=("x",), x=[frame("y")], y=[domain("a.test"), *read])
    survey.line("nor the other alone", "y", start=("x",), x=[domain("a.test"), frame("y")], y=read)
    survey.line("the same origin, of which one set it", "aa", a=[domain("a.test"), frame("aa")], aa=read)
    survey.line("the same origin, of which both set it", "aa", a=[domain("a.test"), frame("aa")], aa=[domain("a.test"), *read])
    survey.line("messages go by the origin all the same", "y_handler", start=("x",),
                x=[domain("a.test"), frame("y", "f"), SYNC, call("f", "postMessage", "m", "https://y.a.test")],
                y=[domain("a.test")], y_handler=[let(reg("origin"))])


def closing(survey: Survey) -> None:
    survey.topic("Closing", "7.2.2.1")
    survey.line("a window that a script opened is closing at once", a=[opened("b", "w", target="z"), SYNC, call("w", "close"), get("w", "closed")],
                b=[])
    survey.line("and is gone", a=[opened("b", "w", target="z"), SYNC, call("w", "close"), SYNC, SYNC, get("w", "top")], b=[])
    survey.line("it may close itself", a=[opened("b", "w", target="z"), SYNC, SYNC, get("w", "closed")], b=[call("window", "close")])
    survey.line("a frame isn't closed", a=[*ACROSS, call("f", "close"), SYNC, get("f", "closed")], b=[])
    survey.line("a frame doesn't close the window around it", "b", a=[frame("b")],
                b=[get("window", "parent", "p"), call("p", "close"), get("p", "closed")])
    survey.line("who was opened doesn't close who opened, where no script opened that", "b", a=[opened("b", target="z")],
                b=[get("window", "opener", "o"), call("o", "close"), SYNC, get("o", "closed")])
    survey.line("an own window that is gone has no opener", a=[opened("aa", "w", target="z"), SYNC, call("w", "close"), SYNC, SYNC,
                                                                  get("w", "opener")], aa=[])
    survey.line("a method of a window that is gone does nothing", a=[opened("b", "w", target="z"), SYNC, call("w", "close"), SYNC, SYNC,
                                                                       call("w", "close")], b=[])


def write(survey: Survey) -> None:
    for part in (navigation, names_and_openers, sandboxing, messages, domains, closing):
        part(survey)
