"""The tools as commands that a user gives."""
from __future__ import annotations

import json
import signal
import subprocess
import time

from support import FAKE, PATIENCE, TOOLS, InFolder, awaits, hears_interrupts, keys_in_guide, keys_of, tool
from vstcluster import Room


class Commands(InFolder):
    """`cluster` and `client`."""

    def setUp(self) -> None:
        super().setUp()
        self.room.path.mkdir()
        self.addCleanup(self.stop)

    def stop(self) -> None:
        """Stops the cluster, if it runs."""
        if (self.room.path / "control").exists():
            tool("cluster", "stop", "--dir", self.room.path)

    def start(self, how: str = "") -> subprocess.CompletedProcess[str]:
        """Starts a cluster of one node."""
        (self.room.path / "fake").write_text(how, encoding="ascii")
        return tool("cluster", "start", "--nodes", 1, "--vst", FAKE, "--dir", self.room.path)

    def complains(self, done: subprocess.CompletedProcess[str], status: int, part: str) -> None:
        """That a command ended with this status and one line with this in it."""
        self.assertEqual((done.returncode, done.stderr.count("\n")), (status, 1), done.stderr)
        self.assertIn(part, done.stderr)

    def test_start_ask_move_stop(self) -> None:
        self.assertEqual(self.start().returncode, 0)
        self.assertEqual(tool("client", "get", "a", "--dir", self.room.path).stdout, "a - -\n")
        self.room = Room(self.room.path.rename(self.folder / "e"))
        self.assertIn("leader: node 0", tool("cluster", "status", "--dir", self.room.path).stdout)
        self.assertEqual(tool("cluster", "stop", "--dir", self.room.path).stdout, "node 0: stopped\n")
        begun = time.monotonic()
        self.complains(tool("client", "get", "a", "--dir", self.room.path), 3, "is stopped")
        self.assertLess(time.monotonic() - begun, 5.0)
        self.complains(tool("cluster", "kill", 0, "--dir", self.room.path), 1, "is stopped")

    def test_json_and_inspect(self) -> None:
        self.start()
        told = json.loads(tool("client", "--dir", self.room.path, "--json", "get", "a").stdout)
        self.assertEqual((told["output"], told["node"], told["request"]), ("a - -", 0, 1))
        status = json.loads(tool("cluster", "status", "--dir", self.room.path, "--json").stdout)
        self.assertEqual((status["leader"], status["text"], [node["state"] for node in status["nodes"]]), (0, "leader: node 0", ["running"]))
        self.assertEqual((keys_of(told), keys_of(status)), (keys_in_guide("tools/client"), keys_in_guide("tools/cluster status")))
        kept = json.loads(tool("cluster", "inspect", "--dir", self.room.path, "--json").stdout)
        self.assertEqual(kept["nodes"], [{"node": 0, "fault": None, "term": 0, "voted": None, "entries": 0, "requests": 0, "last": []}])

    def test_node_that_ends_at_once(self) -> None:
        self.complains(self.start("ends"), 1, "node 0 does not run")
        self.assertEqual(tool("cluster", "kill", 0, "--dir", self.room.path).stdout, "node 0: killed\n")
        self.complains(tool("client", "get", "a", "--dir", self.room.path), 3, "no node of the cluster")

    def test_no_answer_and_interrupted(self) -> None:
        self.start("mute")
        self.complains(tool("client", "--dir", self.room.path, "--timeout", 0.2, "get", "a"), 1, "no leader answered within 0.2 seconds")
        words = [str(TOOLS / "client"), "--dir", str(self.room.path), "put", "a", "x"]
        with subprocess.Popen(words, stderr=subprocess.PIPE, text=True, preexec_fn=hears_interrupts) as client:
            self.assertTrue(awaits(lambda: self.room.slot(0).read_text(encoding="ascii").strip() == "3"))
            time.sleep(0.2)
            client.send_signal(signal.SIGINT)
            self.assertEqual(client.communicate(timeout=PATIENCE)[1], "client: interrupted; the request may still be carried out\n")
        self.assertEqual(client.returncode, 130)
