"""The tool that shows what has changed of the cases of the whole program."""
from __future__ import annotations

import subprocess

from support import TOOLS, InFolder, tool


class Transcripts(InFolder):
    """`transcripts`, where `cat` stands in for the program: it writes its cases as they are."""

    def setUp(self) -> None:
        super().setUp()
        (self.folder / "stdin").write_text("case a\n| b\n", encoding="ascii")
        (self.folder / "stdout").write_text("case a\n| c\n", encoding="ascii")

    def test_a_difference_is_shown_and_taken_over(self) -> None:
        shown = tool("transcripts", "--folder", self.folder, "cat")
        self.assertEqual((shown.returncode, shown.stdout.split("\n")[-3:]), (1, ["-| c", "+| b", ""]))
        self.assertEqual(tool("transcripts", "--folder", self.folder, "--write", "cat").returncode, 0)
        again = tool("transcripts", "--folder", self.folder, "cat")
        self.assertEqual((again.returncode, again.stdout), (0, ""))

    def test_a_program_that_ends_badly_changes_nothing(self) -> None:
        for program in ("false", "/no/such/program"):
            done = tool("transcripts", "--folder", self.folder, "--write", program)
            self.assertEqual((done.returncode, done.stderr.count("\n")), (2, 1))
        self.assertEqual((self.folder / "stdout").read_text(encoding="ascii"), "case a\n| c\n")

    def test_what_was_written_is_taken_from_the_input(self) -> None:
        words = [str(TOOLS / "transcripts"), "--folder", str(self.folder), "--write", "-"]
        for written, status in (("", 2), ("case a\n| d\n", 0)):
            done = subprocess.run(words, input=written, capture_output=True, text=True, timeout=60, check=False)
            self.assertEqual(done.returncode, status)
        self.assertEqual((self.folder / "stdout").read_text(encoding="ascii"), "case a\n| d\n")
