"""The listener, players and comparisons, with a browser that is none: it asks for pages and answers as it is told to."""

import http.client
import json
import random
import re
import ssl
import threading
import time
import unittest
from dataclasses import replace
from pathlib import Path
from urllib.parse import urlsplit

from browsers import hunt
from browsers.compare import AGREES, DIFFERS, OUT, Names, compared, facts_of
from browsers.grammar import Grammar
from browsers.known import BROWSERS, CHOICES, pair_rule
from browsers.player import Played, Player, Seen, Waits, fits, key_of
from browsers.replay import Replay, as_json, table
from browsers.server import Listener
from browsers.session import Page, Session, load_session, read_session, written
from browsers.survey import lines
from browsers.trace import Point, read_run

DATA = Path(__file__).resolve().parent / "data"
WAITS = Waits(settle=0.03, load=2.0, answer=2.0, message=0.3)


def shop():
    return load_session(DATA / "shop.json"), read_run((DATA / "shop.out").read_text())


class FakeBrowser:
    """Asks for the pages that it is told to, and answers each item with its step's name."""
    label, version, isolated = "fake", "Fake 1", True

    def __init__(self, port: int, secure: bool = True) -> None:
        self.port, self.secure = port, secure

    def _connected(self) -> http.client.HTTPConnection:
        if not self.secure:
            return http.client.HTTPConnection("127.0.0.1", self.port, timeout=5)
        context = ssl.create_default_context()
        context.check_hostname, context.verify_mode = False, ssl.CERT_NONE
        return http.client.HTTPSConnection("127.0.0.1", self.port, timeout=5, context=context)

    def ask_for(self, url: str) -> None:
        threading.Thread(target=self._document, args=[url], daemon=True).start()

    open_start = ask_for

    def _said(self, *request) -> str:
        connection = self._connected()
        try:
            connection.request(*request)
            return connection.getresponse().read().decode()
        finally:
            connection.close()

    def _document(self, url: str) -> None:
        parts = urlsplit(url)
        page = self._said("GET", parts.path, None, {"Host": parts.netloc, "Accept": "text/html"})
        if not page:
            return
        config = json.loads(re.search(r"\}\)\((\{.*\})\);</script>", page)[1])
        told = {"doc": config["doc"], "token": config["token"], "batch": 0, "answers": []}
        while True:
            made = json.loads(self._said("POST", "/@winproxy/next", json.dumps(told), {"Host": urlsplit(config["control"]).netloc}))
            if made.get("stop"):
                return
            if "items" in made:
                told = {**told, "batch": made["batch"], "answers": [self.answer(item) for item in made["items"]]}

    def answer(self, item: dict) -> dict:
        step = item.get("step")
        if step is None:
            return {"answer": "[]" if "rest" in item else "", "notes": {"count": 0, "path": []}}
        if step["op"] == "frame":
            self.ask_for(step["url"])
        return {"answer": step["op"], "notes": {}}

    def loaded(self) -> None:
        pass

    def windows(self) -> int:
        return 1

    def processes(self) -> int:
        return 0

    def end(self) -> None:
        pass


class Playing(unittest.TestCase):
    session = Session(2, ["https://a.test/"], [
        Page("https://a.test/", [{"op": "frame", "url": "https://b.test/", "to": "f"}, {"op": "sync"}, {"op": "keys", "of": "f"}]),
        Page("https://b.test/", [{"op": "proto", "of": "window"}])])

    def setUp(self):
        self.listener = Listener()
        self.addCleanup(self.listener.close)
        self.player = Player(self.listener.stage, FakeBrowser(self.listener.port), WAITS)

    def test_in_the_order_of_a_run(self):
        examples = DATA.parents[2].parent / "examples"
        session = load_session(examples / "frame-of-another-site.json")
        run = read_run((examples / "frame-of-another-site.out").read_text())
        played = self.player.play_run(session, run)
        self.assertEqual([played.seen[key_of(act)].answer for act in run.acts()],
                         ["shown", "frame", "shown", "sync", "get", "get", "get", "get", "get"])
        cells = [row.cells["fake"].verdict for row in compared(session, run, [played])]
        self.assertEqual(cells, [AGREES, DIFFERS, AGREES, OUT, *[DIFFERS] * 5, AGREES])

    def test_in_the_order_of_barriers(self):
        seen = self.player.play_barriers(self.session).seen
        self.assertEqual([key for key in seen], [("commit", 1), (1, Point(None, 0)), ("commit", 2), (2, Point(None, 0)),
                                                 (1, Point(None, 1)), (1, Point(None, 2))])

    def test_a_page_that_nobody_releases_is_held(self):
        browser = FakeBrowser(self.listener.port, secure=False)
        browser.ask_for("http://c.test/x")
        end = time.monotonic() + 3
        while not self.listener.stage.waiting_loads() and time.monotonic() < end:
            time.sleep(0.01)
        self.assertEqual([request.url for request in self.listener.stage.waiting_loads()], ["http://c.test/x"])
        self.assertFalse(self.listener.stage.release(1, "http://d.test/", 0.1))
        self.assertTrue(self.listener.stage.release(1, "http://c.test/x", 2))

    def test_through_a_tunnel(self):
        connection = http.client.HTTPConnection("127.0.0.1", self.listener.port, timeout=5)
        self.addCleanup(connection.close)
        connection.set_tunnel("a.test", 443)
        connection.request("POST", "/@winproxy/next", json.dumps({"doc": 1, "token": "old", "batch": 0, "answers": []}))
        self.assertEqual(json.loads(connection.getresponse().read()), {"stop": True})

    def test_schemes(self):
        self.assertEqual([fits(url, "https://a.test/") for url in ("in", "//b.test", "about:blank", "data:,x", "javascript:1", "#x")],
                         [True, True, True, False, False, True])


class Comparing(unittest.TestCase):
    def test_objects_are_renamed_where_they_appear_first(self):
        names = Names("window n4")
        self.assertEqual(names.renamed("window #0", "window n4"), "window n4")
        self.assertEqual(names.renamed("window #1", "window n7"), "window n7")
        self.assertEqual(names.renamed("window #1", "window n8"), "window n7")
        self.assertEqual(names.renamed("window #2", "location d3"), "window ?2")
        self.assertEqual(names.renamed("location #0", "location d3"), "location d3")

    def played(self, **answers) -> Played:
        session, run = shop()
        seen = {key_of(act): Seen(row.model) for act, row in zip(run.acts(), facts_of(session, run))}
        played = Played("fake", "Fake 1", seen, windows=1)
        seen.update({key_of(act): Seen(answers[act.text], {"own": False}) for act in run.acts() if act.text in answers})
        return played

    def test_what_agrees_differs_and_is_left_out(self):
        session, run = shop()
        played = self.played(**{"6 d5 s2 get -> SecurityError S1": '"z"'})
        rows = compared(session, run, [played])
        self.assertEqual([row.where for row in rows if row.cells["fake"].verdict == DIFFERS], ["d5 s2"])
        self.assertEqual([row.about for row in rows if row.cells["fake"].verdict == OUT], ["task gone 12"])
        made = Replay("shop", rows, [played])
        self.assertTrue(made.differs())
        self.assertRegex(table(made), r'd5 s2 +get p.name +SecurityError +≠ "z"')
        self.assertEqual(as_json(made)["rows"][7]["cells"]["fake"]["verdict"], DIFFERS)

    def test_a_message_that_should_lapse(self):
        run = read_run((DATA / "moved-before-delivery.out").read_text().replace("cause=inactive", "cause=origin"))
        session = load_session(DATA / "moved-before-delivery.json")
        played = Played("fake", "Fake 1", messages={3: ['["t"]']}, windows=1)
        cell = next(row.cells["fake"] for row in compared(session, run, [played]) if row.key == ("lapse", 8))
        self.assertEqual((cell.verdict, cell.answer), (DIFFERS, 'delivered ["t"]'))

    def test_rules_have_reasons(self):
        names = [rule.name for rule in [*CHOICES, *BROWSERS]]
        self.assertEqual(len(set(names)), len(names))
        self.assertTrue(all(rule.reason.endswith(".") for rule in [*CHOICES, *BROWSERS]))
        self.assertTrue(all(rule.section for rule in BROWSERS))


class Hunting(unittest.TestCase):
    def test_sessions_of_a_seed_are_the_same_and_can_be_read(self):
        for seed in range(60):
            session = Grammar(seed, seed % 2 == 0).session()
            self.assertEqual(written(session), written(Grammar(seed, seed % 2 == 0).session()))
            self.assertEqual(read_session(written(session)), session)
            self.assertTrue(all(len(page.script) <= 200 for page in session.pages))

    def test_a_difference_is_made_small(self):
        random.seed(1)
        session = Grammar(7, True).session()
        wanted = {"op": "get", "of": "window", "key": "needed"}
        page = replace(session.pages[0], script=[*session.pages[0].script, wanted, {"op": "sync"}])
        session = replace(session, pages=[page, *session.pages[1:]])
        small = hunt.shrunk(session, lambda made: any(wanted in page.script for page in made.pages), time.monotonic() + 20)
        self.assertEqual(small, Session(2, [session.start[0]], [Page(session.pages[0].url, [wanted])]))

    def test_isolation_and_browsers_are_told_apart(self):
        found = list(hunt.pairs(["chromium", "chromium not isolated", "firefox", "webkit not isolated"]))
        self.assertEqual(found, [(hunt.ISOLATION, "chromium", "chromium not isolated"), (hunt.BROWSERS, "chromium", "firefox"),
                                 (hunt.BROWSERS, "chromium", "webkit not isolated"), (hunt.BROWSERS, "firefox", "webkit not isolated")])

    def test_rules_about_the_model_tell_of_two_browsers(self):
        step = {"op": "prevent", "of": "f"}
        self.assertEqual(pair_rule(step, ("SecurityError", "false")), "foreign prevent extensions")
        self.assertEqual(pair_rule(step, ("false", "SecurityError")), "foreign prevent extensions")
        self.assertEqual(pair_rule({"op": "get", "of": "f", "key": "location"}, ("location #1", "location #0")),
                         "Locations of foreign windows")
        self.assertEqual(pair_rule({"op": "get", "of": "f", "key": "closed"}, ("true", "false")), "")
        self.assertEqual(pair_rule(None, ("https://a.test/", "https://b.test/")), "")

    def test_signs_leave_registers_and_numbers_out(self):
        one = hunt.Finding(hunt.MODEL, ("model", "x"), "get f.closed", ("window n1", "null"))
        other = hunt.Finding(hunt.MODEL, ("model", "x"), "get pq.closed", ("window n4", "null"))
        self.assertEqual(one.sign, other.sign)


class Surveys(unittest.TestCase):
    def test_lines(self):
        made = lines()
        self.assertGreaterEqual(len(made), 120)
        self.assertEqual(len({(line.topic, line.rule) for line in made}), len(made))
        for line in made:
            self.assertIn("op", line.step())
            self.assertEqual(read_session(written(line.session)), line.session)


if __name__ == "__main__":
    unittest.main()
