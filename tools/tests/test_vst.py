"""The front end of the program, for which a script stands in."""
from __future__ import annotations

import contextlib
import io
import os
import subprocess

import vsthelp
from support import TOOLS, InFolder, tool
from vstworld import STACKS

STALE = TOOLS.parent / "examples" / "kv_raft_stale.claim"


class FrontEnd(InFolder):
    """What it says below a fault."""

    def run_with(self, script: str, *words: str, data: bytes = b"") -> subprocess.CompletedProcess[bytes]:
        """The front end over a program that does this."""
        program = self.folder / "program"
        program.write_text(f"#!/bin/sh\n{script}\n", encoding="ascii")
        program.chmod(0o755)
        environment = {**os.environ, "VST": str(program)}
        return subprocess.run([str(TOOLS / "vst"), *words], input=data, capture_output=True, timeout=60, check=False, env=environment)

    def test_what_the_program_writes_stays(self) -> None:
        done = self.run_with("cat; echo so >&2", "replay", data=b"a\n\xff\0b")
        self.assertEqual((done.returncode, done.stdout, done.stderr), (0, b"a\n\xff\0b", b"so\n"))

    def test_refused_line(self) -> None:
        done = self.run_with("cat > /dev/null; echo line 2: number >&2; exit 3", "replay", data=b"schedule 1 bag lock 2\ndeliver 01 \r\n")
        said = done.stderr.decode("ascii").splitlines()
        self.assertEqual((done.returncode, said[:2]), (3, ["line 2: number", "  2: deliver 01 \\r"]))
        self.assertIn("carriage return", "\n".join(said))
        self.assertIn("a space too many", "\n".join(said))

    def test_program_that_reads_no_more(self) -> None:
        done = self.run_with("echo line 1: header >&2; exit 3", "replay", data=b"x\n" * 100_000)
        self.assertEqual((done.returncode, done.stderr.splitlines()[0]), (3, b"line 1: header"))

    def test_condition(self) -> None:
        script = "cat > /dev/null; echo condition 3 line 6 >&2; exit 1"
        done = self.run_with(script, "check", "--stack", "kv/raft", data=STALE.read_bytes())
        self.assertEqual(done.returncode, 1)
        self.assertIn(b"The order has request 1 of client 8 before request 1 of client 7.", done.stderr)

    def test_other_faults(self) -> None:
        for words, status, line, part in (
            (["check"], 2, "usage", "vst check --stack STACK"),
            (["frob"], 2, "usage", "vst node --me N"),
            (["node"], 3, "config: peers", "no host names"),
            (["node"], 9, "state: node 1 2", "its files are of node 1, and this is node 2"),
            (["node"], 6, "open", "in use"),
            (["node"], 7, "store", "a read or write of its files failed"),
            (["replay"], 8, "memory", "memory ran out"),
            (["replay"], 3, "line 3: header", "the text ends before line 3"),
        ):
            with self.subTest(line=line):
                self.assertIn(part, "\n".join(vsthelp.meaning(words, status, line, b"# a\n\n")))

    def test_help(self) -> None:
        for topic in (*vsthelp.TOPICS, "stacks"):
            with contextlib.redirect_stdout(io.StringIO()) as said:
                self.assertEqual(vsthelp.say("", [topic]), 0)
            self.assertGreater(len(said.getvalue()), 100)
        self.assertIn("vst replay < schedule", tool("vst", "help").stdout)
        self.assertEqual(tool("vst", "--version").stdout, f"vst {(TOOLS.parent / 'VERSION').read_text(encoding='ascii')}")
        done = subprocess.run([str(TOOLS / "vst"), "replay"], capture_output=True, timeout=60, check=False, env={**os.environ, "VST": "/none"})
        self.assertEqual((done.returncode, done.stderr.count(b"\n")), (127, 1))
        self.assertIn(".SH STATUSES\n", vsthelp.man("x", "0"))

    def test_completion(self) -> None:
        shell = 'eval "$(cat)"; COMP_WORDS=(vst check --stack "kv"); COMP_CWORD=3; _vst; echo "${COMPREPLY[@]}"'
        done = subprocess.run(["bash", "-c", shell], input=vsthelp.completion(), capture_output=True, text=True, timeout=60, check=False)
        self.assertEqual(sorted(done.stdout.split()), sorted(word for word in STACKS if word.startswith("kv")), done.stderr)

    def test_every_refusal_of_the_page_is_explained(self) -> None:
        page = (TOOLS.parent / "docs" / "FORMATS.md").read_text(encoding="utf-8")
        for why in vsthelp.WHYS:
            self.assertIn(f"| `{why}` |", page)
        for key in vsthelp.KEYS:
            self.assertIn(f"| `{key}` |", page)
