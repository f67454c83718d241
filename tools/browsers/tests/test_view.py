"""Printed runs, the tree of windows, blanking and the viewer's page. No browser is needed.

    python3 -m unittest discover -s tools/browsers/tests -t tools
"""

import json
import re
import unittest
from pathlib import Path

from browsers.explain import Explainer
from browsers.session import is_index, load_session, origin_of, page_url, read_session, written
from browsers.trace import BadRun, read_run, words_of
from browsers.tree import Tree, blanked
from browsers.viewer import data_of, page_of, states

DATA = Path(__file__).resolve().parent / "data"
EXAMPLES = DATA.parents[2].parent / "examples"


def shop():
    return load_session(DATA / "shop.json"), read_run((DATA / "shop.out").read_text())


class Runs(unittest.TestCase):
    def test_every_example_is_read(self):
        read = 0
        for out in sorted(EXAMPLES.glob("*.out")):
            text = out.read_text()
            if text.startswith("refused"):
                continue
            run = read_run(text)
            lines = [entry.text for entry in run.log] + [act.text for record in run.records for act in record]
            self.assertEqual(lines, [line for line in text.splitlines()
                                     if not line.startswith(("log ", "record ", "status "))], out.name)
            session = load_session(out.with_suffix(".json"))
            self.assertEqual(len(Explainer(session, run).explained), len(lines) - len(run.log))
            self.assertEqual(read_session(written(session)), session)
            read += 1
        self.assertGreater(read, 20)

    def test_other_texts_are_refused(self):
        for text in ("", "log 1\n", "log x\n", "log 0\nstatus\n", "log 0\nrecord 0 1\n2 d1 s0 get\nstatus 0 done\n",
                     "log 1\n7 r0 d1 sync\nstatus 0 done\n"):
            with self.assertRaises(BadRun, msg=text):
                read_run(text)

    def test_words_keep_what_is_quoted(self):
        self.assertEqual(words_of('7 r0 d1 name n0 "z\\" x"'), ["7", "r0", "d1", "name", "n0", '"z\\" x"'])

    def test_acts_follow_what_they_heard(self):
        _, run = shop()
        order = [f"{act.doc or act.task}" for act in run.acts()]
        self.assertEqual(order, ["commit", "1", "commit", "1", "commit", "5", "5", "5", "1", "commit", "7", "7", "fire", "1",
                                 "5", "1", "gone"])


class Urls(unittest.TestCase):
    def test_pages_and_origins(self):
        for url, page, origin in (("https://A.test:443#x", "https://a.test/", "https://a.test"),
                                  ("http://a.test:8080/b?c#", "http://a.test:8080/b?c", "http://a.test:8080")):
            self.assertEqual((page_url(url), origin_of(url)), (page, origin))

    def test_indices(self):
        self.assertEqual([key for key in ("0", "01", "4294967294", "4294967295", "-1", "", "x") if is_index(key)],
                         ["0", "4294967294"])


class Trees(unittest.TestCase):
    def test_shop(self):
        _, run = shop()
        tree = Tree(run.log[:8])
        self.assertEqual([child.number for child in tree.children(0)], [1, 2])
        self.assertEqual((tree.navs[3].opener, tree.docs[7].home, tree.parent(2)), (0, 3, 0))
        self.assertFalse(tree.open_to(1, 5))
        self.assertEqual(Tree(run.log).ended(3), 12)

    def test_a_window_inside_ends_with_what_is_around_it(self):
        text = (DATA / "moved-before-delivery.out").read_text()
        text = text.replace('7 r2 -', '7 r1 d3 frame n2 d5 home=1 origin=https://b.test name="" flags=- load=-\n8 r2 -')
        tree = Tree(read_run(text.replace("8 r1 - lapse", "9 r1 - lapse").replace("log 9", "log 10")).log)
        self.assertEqual((tree.ended(2), tree.ended(1)), (8, None))
        self.assertFalse(tree.active(5))

    def test_blanking(self):
        _, run = shop()
        self.assertEqual(blanked(run.log[8]), "8 - - hidden")
        self.assertEqual(blanked(run.log[9]), "9 - - hidden")
        self.assertTrue(blanked(run.log[4]).endswith('lorigin=opaque:5 lurl="about:blank"'))
        self.assertEqual(blanked(run.log[10]), run.log[10].text)

    def test_states_change_only_where_something_happened(self):
        _, run = shop()
        changed = [sorted(change) for change in states(run)]
        self.assertEqual(changed, [[0], [0], [1], [1], [2], [2], [3], [3], [], [], [], [3], [3]])


class Pages(unittest.TestCase):
    def test_the_page_needs_no_network(self):
        page = page_of("a <b> & c", *shop())
        self.assertNotRegex(page, r"(?i)<(link|img|iframe|script[^>]* src)")
        self.assertIn("default-src 'none'", page)
        self.assertIn("<title>a &lt;b&gt; &amp; c", page)
        data = re.search(r'<script type="application/json" id="data">(.*?)</script>', page, re.S)[1]
        self.assertEqual(json.loads(data)["name"], "a <b> & c")

    def test_what_decides_an_act(self):
        data = data_of("shop", *shop())
        act = next(act for act in data["acts"] if act["text"] == "6 d5 s2 get -> SecurityError S1")
        self.assertEqual((act["where"], act["of"]), ("pages[1].script[2]", "window n0"))
        self.assertEqual(sorted({place for reason in act["reasons"] for place in reason["places"]}), [0, 1, 4, 5])


if __name__ == "__main__":
    unittest.main()
