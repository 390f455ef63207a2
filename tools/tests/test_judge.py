"""Judged runs."""
from __future__ import annotations

import contextlib
import io
import json
import signal
import subprocess
from collections.abc import Callable
from pathlib import Path
from types import ModuleType
from unittest import mock

import model
import vstasker
import vstcluster
import vsttimeline
from support import FAKE, PATIENCE, TOOLS, InFolder, hears_interrupts, keys_in_guide, keys_of, load, tool, remove
from vstwire import Asked


class Judged(InFolder):
    """Runs of the fake, which permits all."""

    def test_judge(self) -> None:
        done = tool("judge", "--nodes", 2, "--clients", 2, "--seconds", 1.2, "--vst", FAKE, "--kills", 60, "--keep")
        *_, verdict, files = done.stdout.splitlines()
        self.assertEqual((done.returncode, verdict), (0, "verdict: permitted"), done.stderr)
        self.assertIn("1 s: ", done.stderr)
        kept = Path(files.removeprefix("files: "))
        self.addCleanup(remove, kept)
        history = vsttimeline.read_history((kept / "history").read_text(encoding="ascii").splitlines())
        trace = [" ".join(noted.words) for noted in history.noted if noted.words[0] in vsttimeline.TRACE]
        self.assertEqual(trace, (kept / "claim").read_text(encoding="ascii").splitlines()[: len(trace)])
        self.assertIn("kill", {noted.words[0] for noted in history.noted})
        self.assertTrue((kept / "history.svg").read_text(encoding="ascii").endswith("</svg>\n"))

    def test_interrupted(self) -> None:
        words = [str(TOOLS / "judge"), "--nodes", "1", "--clients", "1", "--seconds", "60", "--vst", str(FAKE)]
        with subprocess.Popen(words, stdout=subprocess.PIPE, stderr=subprocess.PIPE, text=True, preexec_fn=hears_interrupts) as judge:
            self.assertIn("1 s: ", judge.stderr.readline() if judge.stderr else "")
            judge.send_signal(signal.SIGINT)
            told, said = judge.communicate(timeout=PATIENCE)
        self.assertEqual((judge.returncode, said.splitlines()[-1]), (0, "judge: interrupted: what there is is judged"))
        self.assertTrue(told.endswith("verdict: permitted\n"))

    def test_claim_and_the_place_in_it(self) -> None:
        judge, claim = load("judge"), self.folder / "claim"
        judge.write_claim(claim, ["in 0 7 1 get a", "out 0 reply 7 1 a - -"], [Asked(7, 1, 0, ("get", "a"))])
        self.assertEqual(claim.read_text(encoding="ascii"), "in 0 7 1 get a\nout 0 reply 7 1 a - -\nbelow\norder 7 1 get a\n")
        with contextlib.redirect_stdout(io.StringIO()) as said:
            judge.show_place(claim, "condition 2 line 2")
        self.assertEqual(said.getvalue().splitlines()[:2], ["  1: in 0 7 1 get a", "> 2: out 0 reply 7 1 a - -"])

    def judged(self, how: str, *options: str) -> tuple[ModuleType, Callable[[], int]]:
        """The judge, and a short run of it over the fake, which behaves like this."""
        judge = load("judge")
        words = judge.parser().parse_args(["--nodes", "1", "--clients", "1", "--seconds", "0.2", *options])
        plan = vstcluster.make_plan("kv/raft", 1, 1, FAKE)
        self.room.make(plan)
        (self.room.path / "fake").write_text(how, encoding="ascii")
        return judge, lambda: judge.judge(self.room, plan, words)

    def test_judge_that_is_told_nothing(self) -> None:
        _, run = self.judged("mute", "--json")
        with mock.patch.object(vstasker, "ASK_SECONDS", 0.3), contextlib.redirect_stdout(io.StringIO()) as said, self.refused("no verdict"):
            run()
        told = json.loads(said.getvalue())
        self.assertEqual((told["verdict"], told["why"], told["requests"]["answered"]), (None, [], 0))

    def refused_run(self, *options: str) -> str:
        """What is said of a run that is refused: the log of the fake has none of the requests that it answers."""
        judge, run = self.judged("", *options)

        def check(_plan: vstcluster.Plan, claim: Path) -> str:
            return model.check("kv/raft", claim.read_bytes())[2].strip()

        with mock.patch.object(judge, "check", check), contextlib.redirect_stdout(io.StringIO()) as said:
            self.assertEqual(run(), judge.REFUSED)
        return said.getvalue()

    def test_a_refused_run_is_explained(self) -> None:
        said = self.refused_run()
        self.assertIn("\nverdict: condition 2 line 2\n", said)
        self.assertIn("\n> 2: out 0 reply 0 1 ", said)
        self.assertIn("The order does not have request 1 of client 0, so no machine executed it, and yet it has a reply.", said)
        self.assertIn("; condition 2 line 2</title>", (self.room.path / "history.svg").read_text(encoding="ascii"))

    def test_a_refused_run_as_an_object(self) -> None:
        told = json.loads(self.refused_run("--json"))
        self.assertEqual((told["verdict"], told["executed"]), ("condition 2 line 2", 0))
        self.assertEqual(keys_of(told), keys_in_guide("tools/judge"))
        self.assertTrue(told["why"][0].startswith("condition 2 line 2: it is false that each reply is to a request of the order"))
