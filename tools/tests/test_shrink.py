"""Files that are made smaller."""
from __future__ import annotations

import re
import signal
import subprocess
import time
import unittest
from pathlib import Path

import model
import vstworld
from support import PATIENCE, TOOLS, InFolder, awaits, hears_interrupts, load, tool

schedule, shrink = load("schedule"), load("shrink")
RATES = {**dict.fromkeys(schedule.RATES, 0.1), "crash": 0.01}
STALE = TOOLS.parent / "examples" / "cluster" / "stale.claim"


class InProcess(shrink.Command):
    """A command that is done within this process."""

    def __init__(self, *words: str) -> None:
        super().__init__(list(words), False, 60.0)

    def done(self, lines: list[str]) -> tuple[int, str]:
        """The program, by the model."""
        status, _, said = model.vst(self.words, "".join(f"{line}\n" for line in lines).encode("latin-1"))
        return status, said

    def run(self, lines: list[str]) -> tuple[int, str]:
        self.tries += 1
        status, said = self.done(lines)
        return status, re.sub(r"line \d+", "line", said)


class Replays(InProcess):
    """A replay that refuses a trace with a certain word in it."""

    def __init__(self, part: str) -> None:
        super().__init__()
        self.part, self.whole = part, (1, "")

    def done(self, lines: list[str]) -> tuple[int, str]:
        found = vstworld.replay(lines)
        return (3, found.why) if found.why else (int(any(self.part in line for line in found.output())), "")


class Images(InProcess):
    """A check that refuses just this trace, where the image makes it."""

    def __init__(self, trace: list[str]) -> None:
        super().__init__()
        self.trace, self.whole = trace, (1, "")

    def done(self, lines: list[str]) -> tuple[int, str]:
        below = lines.index("below")
        found = vstworld.replay(lines[below + 1 :])
        return int(lines[:below] == self.trace and not found.why and self.trace[-1] in found.output()), ""


def open_text(path: Path) -> str:
    """What a file holds, or nothing where there is none."""
    try:
        return path.read_text(encoding="latin-1")
    except OSError:
        return ""


class Smaller(unittest.TestCase):
    """What is found."""

    def test_a_schedule_keeps_its_packets(self) -> None:
        world = schedule.make("kv/raft", 3, 200, 4, RATES).world
        lines = [vstworld.header_of(world.stack, 3), *(step.line() for step in world.taken)]
        command = Replays("reply 2 1 ")
        self.assertEqual(command.run(lines), (1, ""))
        found, why = shrink.smallest(lines, command)
        self.assertEqual((command.run(found), why), ((1, ""), "nothing more can be taken out"))
        # an election of two packets, the request, the packet with it, and the answer
        self.assertEqual([line.split(" ")[0] for line in found], ["schedule", "tick", "deliver", "deliver", "in", "deliver", "deliver"])

    def test_a_refused_line(self) -> None:
        command = InProcess("replay")
        lines = ["schedule 1 bag lock 2", "in 1 lock", "in 1 lock", "deliver 1", "deliver 0", "deliver 1", "deliver 2"]
        command.whole = command.run(lines)
        self.assertEqual(command.whole, (3, "line: no copy\n"))
        found, _ = shrink.smallest(lines, command)
        self.assertEqual(found, ["schedule 1 bag lock 2", "in 1 lock", "deliver 0", "deliver 0"])

    def test_a_line_that_is_no_step_changes_no_packet(self) -> None:
        lines = ["schedule 1 bag lock 2", "in 1 unlock", "in 1 lock", "in 1 lock", "deliver 1", "frob 1", "deliver 2"]
        read = shrink.read_schedule(lines)
        self.assertEqual(read.write([2, 3, 4, 5]), ["schedule 1 bag lock 2", "in 1 lock", "deliver 0", "frob 1", "deliver 1"])
        self.assertEqual(read.write([1, 3, 4, 5]), ["schedule 1 bag lock 2", "in 1 lock", "frob 1"])
        command = InProcess("replay")
        command.whole = command.run(lines)
        self.assertEqual(shrink.smallest(lines, command)[0], ["schedule 1 bag lock 2", "frob 1"])

    def test_comments_go_and_what_names_no_packet_stays(self) -> None:
        read = shrink.read_schedule(["# a", "", "schedule 1 dup lock/seq 2", "in 1 lock", "# b", "dup 0", "deliver 9", "tick 0"])
        self.assertEqual(read.write([0, 1, 2, 3]), ["schedule 1 dup lock/seq 2", "in 1 lock", "dup 0", "deliver 9", "tick 0"])
        self.assertEqual(read.write([1, 2]), ["schedule 1 dup lock/seq 2", "deliver 9"])
        for lines in ([], ["# a"], ["in 1 lock"], ["schedule 1 bag lock/seq 2"]):
            self.assertIsNone(shrink.read_schedule(lines))

    def test_a_claim_loses_whole_requests(self) -> None:
        trace = [line for client in range(20) for line in (f"in 0 {client} 1 put k{client} x", f"out 0 reply {client} 1 k{client} =x -")]
        order = [f"order {client} 1 put k{client} x" for client in range(20)]
        order[6], order[13] = order[13], order[6]
        command = InProcess("check", "--stack", "kv/raft")
        command.whole = command.run([*trace, "below", *order])
        self.assertEqual(command.whole, (1, "condition 3 line\n"))
        found, _ = shrink.smallest([*trace, "below", *order], command)
        self.assertEqual(len(found), 6)
        self.assertLess(command.tries, 80)

    def test_a_claim_keeps_the_packets_of_its_image(self) -> None:
        image = ["in 1 lock", "in 2 lock", "in 3 lock", "deliver 2", "deliver 1", "deliver 0", "deliver 3"]
        trace = ["in 3 lock", "out 3 locked"]
        found, _ = shrink.smallest([*trace, "below", "schedule 1 bag lock 4", *image], Images(trace))
        self.assertEqual(found, [*trace, "below", "schedule 1 bag lock 4", "in 3 lock", "deliver 0", "deliver 1"])

    def test_a_claim_on_each_kind_of_image(self) -> None:
        for stack, header, lines, refused in (
            ("lock", "schedule 1 bag lock 2", ["in 1 lock", "in 1 lock", "deliver 1", "deliver 1", "deliver 0"], 4),
            ("mirror", "schedule 1 ord mirror 2", ["in 1 put a", "in 1 put b", "deliver 1"], 4),
            ("kv/pb", "schedule 1 one kv 1", ["in 0 get a"], 6),
        ):
            with self.subTest(stack):
                command = InProcess("check", "--stack", stack)
                claim = [*(line for line in lines if line.startswith("in ")), "below", header, *lines]
                command.whole = command.run(claim)
                self.assertEqual(command.whole, (1, f"condition {refused} line\n"))
                found, why = shrink.smallest(claim, command)
                self.assertEqual((command.run(found), why), (command.whole, "nothing more can be taken out"))
                self.assertEqual(found[found.index("below") :][:2], ["below", header])
                self.assertLess(len(found), len(claim))

    def test_another_condition_is_another_refusal(self) -> None:
        claim = ["in 0 7 1 put a x", "out 0 reply 7 1 a =y -", "in 0 8 1 get a", "below", "order 8 1 get a", "order 7 1 put a x"]
        command = InProcess("check", "--stack", "kv/raft")
        command.whole = (1, "condition 3 line\n")
        self.assertFalse(command.refuses(claim))
        # without the first put, the reply to the second would be false
        self.assertEqual(shrink.smallest(STALE.read_text(encoding="ascii").splitlines(), command)[0], [
            "in 0 1 1 put a x", "in 0 1 2 put a y", "out 1 reply 1 2 a =y =x", "in 1 3 1 get a",
            "below", "order 1 1 put a x", "order 3 1 get a", "order 1 2 put a y",
        ])

    def test_the_time_is_over(self) -> None:
        command = shrink.Command(["sleep", "300"], True, 60.0)
        command.whole, command.limit = (1, ""), time.monotonic() + 0.2
        self.assertEqual(shrink.smallest(["a", "b"], command), (["a", "b"], "the time was over"))
        self.assertEqual(command.tries, 1)


class Tool(InFolder):
    """The command."""

    def setUp(self) -> None:
        super().setUp()
        self.file = self.folder / "lines"

    def shrunk(self, data: bytes, script: str, *words: str) -> bytes:
        """What is left of a file that a script refuses."""
        self.file.write_bytes(data)
        done = subprocess.run([TOOLS / "shrink", *words, self.file, "--", "sh", "-c", script], capture_output=True, timeout=60, check=False)
        self.assertEqual(done.returncode, 0, done.stderr)
        return done.stdout

    def test_the_same_status_and_the_same_kind_of_line(self) -> None:
        script = "at=$(grep -n bad | head -1); case $at in *bad) echo \"line ${at%%:*}: odd\" >&2; exit 3;; *worse*) exit 3;; *badly) exit 4; esac"
        self.assertEqual(self.shrunk(b"a\nbad\nc\nbad worse\n", script), b"bad\n")
        self.assertEqual(self.shrunk(b"a\nbad\nc\n", "grep -q bad || exit 0; date +%N >&2; exit 3", "--any"), b"bad\n")

    def test_the_script_of_the_help_refuses_what_it_says_and_no_more(self) -> None:
        named = re.search(r"sh -c '(.* \"(.*)\")'", shrink.__doc__ or "")
        assert named is not None
        program = self.folder / "crates" / "vst" / "out" / "vst"
        program.parent.mkdir(parents=True)
        program.write_text("#!/bin/sh\ncat\n", encoding="ascii")
        program.chmod(0o755)
        for text, status in ((named[2], 1), ("x", 0)):
            done = subprocess.run(["sh", "-c", named[1]], cwd=self.folder, input=f"a\n{text}\n", text=True, timeout=60, check=False)
            self.assertEqual(done.returncode, status)

    def test_bytes_stay(self) -> None:
        self.assertEqual(self.shrunk(b"a\n\xff\xc3\nb\n", "! LC_ALL=C grep -q \"$(printf '\\377')\""), b"\xff\xc3\n")

    def test_interrupted(self) -> None:
        pid = self.folder / "pid"
        self.file.write_text("a\nb\n", encoding="ascii")
        script = f"grep -q b && exit 1; sleep 300 & echo $! > {pid}; wait"
        words = [str(TOOLS / "shrink"), str(self.file), "--", "sh", "-c", script]
        with subprocess.Popen(words, stdout=subprocess.PIPE, stderr=subprocess.PIPE, text=True, preexec_fn=hears_interrupts) as shrinks:
            self.assertTrue(awaits(lambda: open_text(pid).endswith("\n")))
            shrinks.send_signal(signal.SIGINT)
            told, said = shrinks.communicate(timeout=PATIENCE)
        self.assertEqual((shrinks.returncode, told), (0, "b\n"))
        self.assertIn("interrupted", said)
        started = Path("/proc") / open_text(pid).strip() / "cmdline"
        self.assertTrue(awaits(lambda: not open_text(started).startswith("sleep")), "what the command started goes on")

    def test_command(self) -> None:
        self.file.write_text("a\nb\nbad\nc\n", encoding="ascii")
        done = tool("shrink", self.file, "--", "sh", "-c", "! grep bad > /dev/null")
        self.assertEqual((done.returncode, done.stdout), (0, "bad\n"), done.stderr)
        self.assertTrue(done.stderr.startswith("shrink: 4 lines to 1 in "))
        for words, part in (
            ((self.file, "--", "true"), "does not refuse"), ((self.file,), "which command?"), ((self.file, "--", "/no/such"), "no such file"),
            (("--seconds", 0.2, self.file, "--", "sleep", 300), "did not end within 0.2 seconds"),
        ):
            done = tool("shrink", *words)
            self.assertEqual((done.returncode, done.stdout, done.stderr.count("\n")), (2, "", 1))
            self.assertIn(part, done.stderr)
