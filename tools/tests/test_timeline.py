"""Histories and their pictures."""
from __future__ import annotations

import re
import unittest
from xml.etree import ElementTree

import vstclaims
import vsttimeline
from support import FAKE, TOOLS, load, main_of
from vstworld import STACKS

DATA = TOOLS.parent / "examples" / "cluster"
HISTORY, CLAIM = DATA / "stale.history", DATA / "stale.claim"
SVG = "{http://www.w3.org/2000/svg}"


def rectangles(svg: str) -> list[tuple[str, float, float]]:
    """The bars of a picture: class, begin and width."""
    found = ElementTree.fromstring(svg).iter(f"{SVG}rect")
    return [(str(bar.get("class")), float(bar.get("x", 0)), float(bar.get("width", 0).rstrip("%") or 0)) for bar in found if bar.get("class")]


class Timeline(unittest.TestCase):
    """A recorded history in which a read is answered with what is no longer so."""

    def setUp(self) -> None:
        self.history = vsttimeline.read_history(HISTORY.read_text(encoding="ascii").splitlines())
        self.claim = vstclaims.read_claim(STACKS["kv/raft"], CLAIM.read_text(encoding="ascii").splitlines())

    def test_history_is_read_as_it_is_written(self) -> None:
        self.assertEqual(self.history.lines(), HISTORY.read_text(encoding="ascii").splitlines())
        trace = [" ".join(noted.words) for noted in self.history.noted if noted.words[0] in vsttimeline.TRACE]
        self.assertEqual(trace, self.claim.lines[: self.claim.below - 1])

    def test_requests(self) -> None:
        found = vsttimeline.requests_of(self.history)
        self.assertEqual(len(found), 6)
        self.assertEqual((found[1, 2].asked, found[1, 2].answered, found[1, 2].output), (0.11, 0.8, "a =y =x"))
        self.assertEqual((found[2, 2].answered, found[2, 2].refusals), (None, [0.62]))
        self.assertEqual(found[3, 1].lines, {9, 10})

    def test_refused_request_alone_is_red(self) -> None:
        verdict = vstclaims.judge(self.claim)
        svg = vsttimeline.draw(self.history, self.claim, verdict)
        shown = [bar for bar in rectangles(svg) if bar[1:] != (bar[1], 14.0)]
        self.assertEqual([kind for kind, *_ in shown if kind == "refused"], ["refused"])
        self.assertEqual(sorted(kind for kind, *_ in shown if kind in ("killed", "paused", "cut")), ["cut", "killed", "paused"])
        self.assertEqual(sum(kind == "open" for kind, *_ in shown), 2)
        self.assertIn("client 3, request 1: get a: a =x =x; asked at 0.900 s, answered at 0.970 s; refused: condition 3 line 15", svg)
        self.assertNotIn("refused:", vsttimeline.draw(self.history, None, vstclaims.Verdict()))

    def test_a_part_of_it(self) -> None:
        svg = vsttimeline.draw(self.history, None, vstclaims.Verdict(), 0.05, 0.3)
        self.assertNotIn("get a", svg)
        self.assertTrue(all(x >= vsttimeline.LEFT - 1 for _, x, _ in rectangles(svg)))

    def test_a_claim_of_the_same_run(self) -> None:
        smaller = [line for line in self.claim.lines if not re.match(r"(in \d|out \d reply|out \d notleader|order) 2 ", line)]
        claim = vstclaims.read_claim(STACKS["kv/raft"], smaller)
        svg = vsttimeline.draw(self.history, claim, vstclaims.judge(claim))
        self.assertIn("client 3, request 1: get a: a =x =x; asked at 0.900 s, answered at 0.970 s; refused: condition 3 line ", svg)
        moved = [self.claim.lines[1], self.claim.lines[0], *self.claim.lines[2:]]
        for lines in (moved, ["in 0 7 1 get a", *self.claim.lines]):
            other = vstclaims.read_claim(STACKS["kv/raft"], lines)
            with self.subTest(lines[0]), self.assertRaisesRegex(vsttimeline.HistoryError, "not of this history"):
                vsttimeline.draw(self.history, other, vstclaims.Verdict())

    def test_verdicts_that_name_no_request(self) -> None:
        for line in (0, self.claim.below, len(self.claim.lines) + 1):
            with self.subTest(line), self.assertRaisesRegex(vsttimeline.HistoryError, "names no request"):
                vsttimeline.draw(self.history, self.claim, vstclaims.Verdict(3, line))

    def test_title_size_and_texts_for_the_pointer(self) -> None:
        drawn = ElementTree.fromstring(vsttimeline.draw(self.history, self.claim, vstclaims.judge(self.claim)))
        self.assertEqual(drawn.get("viewBox"), f"0 0 {drawn.get('width')} {drawn.get('height')}")
        self.assertEqual(next(iter(drawn)).tag, f"{SVG}title")
        bars = [group for group in drawn.iter(f"{SVG}g") if group.find(f"{SVG}title") is not None]
        hovers = [str(group.findtext(f"{SVG}title")) for group in bars]
        for part in ("node 0 killed from 0.100 to 0.810 s", "node 2 paused from 0.200 to 0.360 s", "links 1-2 2-1 cut from 0.250 to 0.500 s"):
            self.assertIn(part, hovers)
        self.assertEqual(len([hover for hover in hovers if hover.startswith("client ")]), len(vsttimeline.requests_of(self.history)))
        style = str(drawn.findtext(f"{SVG}style"))
        self.assertIn(".refused{fill:#cb181d}", style)

    def test_texts_are_escaped(self) -> None:
        lines = ["history 1 kv/raft 1", "0.0 in 0 1 1 put <b>& x", "9.0 out 0 reply 1 1 <b>& =x -"]
        self.assertIn("put &lt;b&gt;&amp; x", vsttimeline.draw(vsttimeline.read_history(lines), None, vstclaims.Verdict()))

    def test_damaged_histories(self) -> None:
        for lines in ([], ["history 2 kv/raft 3"], ["x 1 kv/raft 3"]):
            self.assertRaises(vsttimeline.HistoryError, vsttimeline.read_history, lines)
        for line in ("x in 0 1 1 get a", "0.1", "0.1 kill", "0.1 in 0 1 get a", "-1 kill 0", "nan kill 0", "0.1 out 0 told 1 1 a", "0.1 cut 1"):
            with self.subTest(line), self.assertRaisesRegex(vsttimeline.HistoryError, "line 2 "):
                vsttimeline.read_history(["history 1 kv/raft 3", line])


class Command(unittest.TestCase):
    """The tool, and what the judge writes for it."""

    def test_command(self) -> None:
        done = main_of("timeline", HISTORY, "--claim", CLAIM)
        self.assertEqual((done.returncode, done.stderr), (0, ""))
        self.assertEqual(done.stdout, HISTORY.with_suffix(".svg").read_text(encoding="ascii"), "the picture beside the history is not up to date")
        self.assertTrue(re.search(r'class="refused" x="[0-9.]+" y="[0-9]+" width="[0-9.]+" height="16"', done.stdout))
        for words, part in (
            ((CLAIM,), "line 1 is no header"), ((HISTORY, "--verdict", "x"), "no verdict: x"), ((HISTORY, "--verdict", ""), "no verdict: "),
            ((HISTORY, "--verdict", "condition 3 line 15"), "--claim names it"), ((HISTORY, "--from", 2, "--to", 1), "--to is not after --from"),
            ((HISTORY, "--claim", CLAIM, "--verdict", "condition 2 line 12"), "names no request"), ((DATA / "none",), "no such file"),
            ((HISTORY, "--claim", DATA.parent / "kv_raft_stale.claim"), "the claim is not of this history"),
        ):
            with self.subTest(words):
                done = main_of("timeline", *words)
                self.assertEqual((done.returncode, done.stdout, done.stderr.count("\n")), (2, "", 1))
                self.assertIn(part, done.stderr)

    def test_judge_explains(self) -> None:
        judge = load("judge")
        plan = judge.vstcluster.make_plan("kv/raft", 3, 1, FAKE)
        told = judge.why_refused(plan, CLAIM, "condition 3 line 15")
        self.assertIn("The order has request 1 of client 3 before request 2 of client 1.", told)
        for verdict in ("condition 2 line 4", "condition 3 line 16", "x"):
            self.assertEqual(len(judge.why_refused(plan, CLAIM, verdict)), 1)
        self.assertIn("`condition 3 line 15`", judge.why_refused(plan, CLAIM, "condition 2 line 4")[0])
