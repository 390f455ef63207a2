"""The commands of the guide say what stands below them."""
from __future__ import annotations

import re
import shlex
import subprocess

from support import TOOLS, InFolder
from test_shrink import InProcess, Replays, shrink
from vstworld import lines_of

GUIDE = TOOLS.parent / "docs" / "GUIDE.md"
SECTION = "## When a run is refused"
# what needs nodes that run, whose output is another each time
NEED_NODES = ("tools/cluster", "tools/client", "tools/judge")
PROGRAM = "crates/vst/out/vst"


def examples() -> list[tuple[str, list[str]]]:
    """The commands of the section, each with the lines below it."""
    section = GUIDE.read_text(encoding="utf-8").split(f"\n{SECTION}\n")[1].split("\n## ")[0]
    found: list[tuple[str, list[str]]] = []
    for line in section.split("\n"):
        if line.startswith("    $ "):
            found.append((line.removeprefix("    $ "), []))
        elif line.startswith("    ") and found:
            found[-1][1].append(line[4:])
    return found


def command_for(words: list[str]) -> InProcess:
    """What stands in for the command that a file is made smaller by."""
    if words[0] == PROGRAM:
        return InProcess(*words[1:])
    searched = re.fullmatch(rf'sh -c ! {PROGRAM} replay \| grep -q "([^"]+)"', " ".join(words))
    assert searched is not None, words
    return Replays(searched[1])


class Guide(InFolder):
    """The section on what is refused."""

    def setUp(self) -> None:
        super().setUp()
        for name in ("tools", "examples"):
            (self.folder / name).symlink_to(TOOLS.parent / name)

    def shrunk(self, words: list[str]) -> list[str]:
        """What is written where a file is made smaller, with the program by the model and in this process."""
        command, lines = command_for(words[3:]), lines_of((TOOLS.parent / words[1]).read_bytes())
        self.assertEqual(words[2], "--")
        command.whole = command.run(lines)
        self.assertNotEqual(command.whole[0], 0)
        found, why = shrink.smallest(lines, command)
        return [*found, f"shrink: {len(lines)} lines to {len(found)} in {command.tries} tries: {why}"]

    def ran(self, command: str) -> list[str]:
        """What a command writes."""
        words = ["sh", "-c", command]
        done = subprocess.run(words, cwd=self.folder, stdout=subprocess.PIPE, stderr=subprocess.STDOUT, text=True, timeout=60, check=False)
        return done.stdout.splitlines()

    def test_each_says_what_stands_below_it(self) -> None:
        tried = []
        for command, lines in examples():
            words = shlex.split(command)
            if words[0] in NEED_NODES:
                continue
            with self.subTest(command):
                self.assertEqual(self.shrunk(words) if words[0] == "tools/shrink" else self.ran(command), lines)
                tried.append(words[0])
        self.assertGreaterEqual(len(tried), 5)
        picture = (TOOLS.parent / "examples" / "cluster" / "stale.svg").read_text(encoding="ascii")
        self.assertEqual((self.folder / "stale.svg").read_text(encoding="ascii"), picture)
