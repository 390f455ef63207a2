"""The directory of a cluster, and why a node can't begin in it."""
from __future__ import annotations

import fcntl
import os
import socket

from support import InFolder
from vstclient import Slot, free_slot
from vstwhy import why_ended, why_not_open


class Directory(InFolder):
    """The directory of a cluster."""

    def test_plan_is_read_as_it_was_written(self) -> None:
        self.assertEqual(self.make(), self.room.plan())

    def test_damaged_plan(self) -> None:
        self.make()
        file = self.room.path / "cluster.json"
        whole = file.read_text(encoding="ascii")
        for text in ("", "{", "[]", '{"stack": "kv/raft"}', whole.replace("kv/raft", "kv"), whole.replace("127.", "1e7."), "\xff"):
            file.write_text(text, encoding="latin-1")
            with self.subTest(text[:20]), self.refused(f"^{file} is damaged: "):
                self.room.plan()

    def test_no_cluster(self) -> None:
        with self.refused("no cluster in"):
            self.room.plan()
        self.room.path.touch()
        with self.refused("is no directory"):
            self.make()

    def test_state_that_is_lost(self) -> None:
        self.make()
        selector = self.room.state(1) / "selector"
        self.room.check_state(1)
        selector.write_bytes(b"")
        self.room.check_state(1)
        selector.write_bytes(b"\0")
        self.room.check_state(1)
        selector.write_bytes(b"")
        with self.refused("it has run, and node1/selector is empty"):
            self.room.check_state(1)
        selector.unlink()
        with self.refused("node1/selector is missing"):
            self.room.check_state(1)
        self.room.state(1).rmdir()
        with self.refused("its directory node1 is gone"):
            self.room.check_state(1)

    def test_begun_anew(self) -> None:
        self.make()
        (self.room.state(0) / "selector").write_bytes(b"\0")
        self.room.mark(0)
        with self.refused("has its files"):
            self.room.begin_anew(0)
        (self.room.state(0) / "selector").rename(self.room.state(0) / "slot0")
        self.room.begin_anew(0)
        self.room.check_state(0)
        self.assertEqual(list(self.room.state(0).iterdir()), [])
        self.assertTrue((self.room.path / "node0.lost-1" / "slot0").exists())


class Slots(InFolder):
    """Client slots."""

    def test_numbers_go_on(self) -> None:
        plan = self.make()
        for first in (1, 3):
            with Slot(self.room, plan, 0) as slot:
                self.assertEqual((slot.number(), slot.number()), (first, first + 1))

    def test_free_and_taken(self) -> None:
        plan = self.make()
        with free_slot(self.room, plan) as one, free_slot(self.room, plan) as other:
            self.assertEqual((one.client, other.client), (0, 1))
            with self.refused("all 2 are in use"):
                free_slot(self.room, plan)

    def test_none(self) -> None:
        plan = self.make(clients=0)
        with self.refused("has no client slots"):
            free_slot(self.room, plan)

    def test_damaged(self) -> None:
        plan = self.make()
        for text in ("x", "", "0", "-1", "18446744073709551616"):
            self.room.slot(0).write_text(text, encoding="ascii")
            with self.subTest(text), self.refused("slot0 is damaged"):
                free_slot(self.room, plan)


class Why(InFolder):
    """Why a node ended, in words."""

    def test_statuses(self) -> None:
        for status, line, told in (
            (9, "state: node 1 2", "ended with status 9: its files are of node 1, and this is node 2 (state: node 1 2)"),
            (9, "state: cluster 3 5", "ended with status 9: its files are of a cluster of 3 nodes, and this one has 5 (state: cluster 3 5)"),
            (9, "state: journal", "ended with status 9: a record in its slot is damaged (state: journal)"),
            (7, "store", "ended with status 7: a read or write of its files failed (store)"),
            (3, "config: peers", "ended with status 3: its configuration is refused (config: peers)"),
            (1, "", "ended with status 1"), (1, "odd", "ended with status 1: odd"), (-9, "", "ended with signal 9, SIGKILL"),
        ):
            self.assertEqual(why_ended(status, line, self.folder, "127.0.0.1:1"), told)

    def test_which_of_port_address_and_directory(self) -> None:
        plan = self.make()
        folder, address = self.room.state(0), plan.peers[0]
        self.assertIn("as they should be", why_not_open(folder, address))
        with socket.socket(socket.AF_INET, socket.SOCK_DGRAM) as taken:
            taken.bind(("127.0.0.1", 0))
            port = taken.getsockname()[1]
            self.assertEqual(why_not_open(folder, f"127.0.0.1:{port}"), f"the port of 127.0.0.1:{port} is taken")
        self.assertEqual(why_not_open(folder, "192.0.2.1:9"), "192.0.2.1:9 is no address of this machine")
        self.assertEqual(why_not_open(self.folder / "node7", address), "its directory node7 is gone")
        self.assertEqual(why_not_open(self.room.path / "node0.toml", address), "node0.toml is no directory")

    def test_lock_and_files(self) -> None:
        plan = self.make()
        folder, address = self.room.state(0), plan.peers[0]
        held = os.open(folder, os.O_RDONLY)
        fcntl.flock(held, fcntl.LOCK_EX)
        self.assertRegex(why_not_open(folder, address), "^(another process|process [0-9]+) has its directory node0$")
        os.close(held)
        (folder / "slot0").write_bytes(b"x")
        self.assertEqual(why_not_open(folder, address), "node0/selector is missing beside a slot that has bytes")
        (folder / "selector").hardlink_to(folder / "slot0")
        self.assertEqual(why_not_open(folder, address), "node0/slot0 has 2 names; node0/selector has 2 names")
        (folder / "selector").unlink()
        os.mkfifo(folder / "selector")
        self.assertEqual(why_not_open(folder, address), "node0/selector is no regular file")
