"""What nodes keep, read off their files: of the golden cases the areas that the program left, and files that are gone or another's."""
from __future__ import annotations

import json
import tomllib
from dataclasses import replace
from unittest import mock

import golden
import vstkept
import vstwire
from support import InFolder, keys_in_guide, keys_of, tool
from vstcluster import Plan, Room
from vstkept import Kept
from vstwhy import why_refused
from vstwire import Asked, Entry, State, spell_number

FILES = ("slot0", "slot1", "selector")
LOG = (Entry(1, None), Entry(1, Asked(7, 1, 2, ("put", "a", "x"))), Entry(3, None))


def slot(plan: Plan, me: int, state: State) -> bytes:
    """The slot of a state, without records."""
    heads = bytes((ord("S"), vstwire.VERSION, vstwire.STACK_BYTES[plan.stack], me, len(plan.peers))) + plan.name_bytes()
    vote = vstwire.NO_VOTE if state.voted is None else state.voted
    kept = spell_number(state.term, 8) + bytes((vote,)) + spell_number(len(state.log), 4)
    body = heads + kept + b"".join(entry.spell(plan.stack) for entry in state.log)
    return spell_number(len(body), 4) + body + b"\0"


class Golden(InFolder):
    """What the program left in its areas."""

    def read(self, node: golden.Node, place: int) -> Kept:
        """What is read of a node's areas, in a folder of its own."""
        config = tomllib.loads(node.config)
        plan = Plan(config["stack"], config["cluster"], tuple(config["peers"]), tuple(config["clients"]), "-")
        room = Room(self.folder / str(place))
        room.state(node.me).mkdir(parents=True)
        for name, data in zip(FILES, node.areas):
            (room.state(node.me) / name).write_bytes(data)
        return vstkept.read_once(room, plan, node.me)

    def test_each_is_read_as_the_program_reads_it(self) -> None:
        ends = set()
        for place, node in enumerate(golden.nodes()):
            if node.status == 3:
                continue
            with self.subTest(node.name):
                found = self.read(node, place)
                refused = node.said.removeprefix("state: ").split(" ")[0] if node.status == 9 else None
                ends.add(refused)
                if refused is None:
                    self.assertIsNone(found.fault)
                elif refused in ("stack", "node", "cluster", "name"):
                    self.assertEqual(found.fault, why_refused(node.said))
                else:
                    self.assertRegex(found.fault or "", "^its files are damaged: ")
        self.assertLessEqual({None, "selector", "slot", "journal", "stack", "node", "name"}, ends)

    def test_a_vote_and_entries(self) -> None:
        found = {node.name: self.read(node, place).lines(1) for place, node in enumerate(golden.nodes()) if node.status != 3}
        self.assertEqual(
            found["case a vote of version 1 is saved anew and binds"], ["node 0: term 1, voted for node 1, 0 entries, 0 requests among them"]
        )
        self.assertTrue(any(len(lines) == 2 for lines in found.values()), "no case has entries")


class Files(InFolder):
    """Files of a cluster that does not run."""

    def write(self, plan: Plan, me: int, state: State, of: int | None = None) -> None:
        """Gives a node the files of one with this state."""
        (self.room.state(me) / "slot0").write_bytes(slot(plan, me if of is None else of, state))
        (self.room.state(me) / "selector").write_bytes(b"\0")
        self.room.mark(me)

    def test_in_words_and_as_an_object(self) -> None:
        plan = self.make()
        self.write(plan, 1, State(3, 2, LOG))
        found = vstkept.read(self.room, plan, 1)
        self.assertEqual(found.lines(2), [
            "node 1: term 3, voted for node 2, 3 entries, 1 request among them",
            "    entry 2: term 1, request 1 of client 7, taken by node 2: put a x",
            "    entry 3: term 3, no-op",
        ])
        self.assertEqual(found.told(1)["last"], [{"index": 3, "term": 3, "asked": None}])
        told = json.loads(json.dumps({"stack": plan.stack, "nodes": [found.told(9)]}))
        self.assertEqual(keys_of(told), keys_in_guide("tools/cluster inspect"))
        self.assertEqual(found.lines(0), found.lines(9)[:1])
        self.assertEqual([vstkept.read(self.room, plan, 0).state, vstkept.entry_text(1, LOG[0])], [State(0, None, ()), "entry 1: term 1, no-op"])

    def test_what_is_gone_or_anothers_is_no_first_state(self) -> None:
        plan = self.make()
        other = replace(plan, name="00" * 16)
        for me, owner, of in ((0, plan, 2), (1, other, 1), (2, replace(plan, peers=plan.peers * 2), 2)):
            self.write(owner, me, State(1, None, LOG), of)
        with mock.patch.object(vstkept, "READ_PAUSE_S", 0.0):
            faults = [vstkept.read(self.room, plan, me).fault for me in range(3)]
            (self.room.state(0) / "selector").unlink()
            (self.room.state(1) / "slot0").unlink()
            self.room.state(2).rename(self.folder / "elsewhere")
            lost = [vstkept.read(self.room, plan, me).fault for me in range(3)]
        self.assertEqual(faults, [
            "its files are of node 2, and this is node 0",
            "its files are of another cluster",
            "its files are of a cluster of 6 nodes, and this one has 3",
        ])
        self.assertEqual(lost[::2], ["it has run, and node0/selector is missing", "it has run, and its directory node2 is gone"])
        self.assertRegex(lost[1] or "", "^its files can't be read: .*slot0: no such file or directory$")

    def test_one_that_is_damaged_hides_no_other(self) -> None:
        plan = self.make(2)
        self.write(plan, 0, State(1, None, LOG))
        self.write(plan, 1, State(2, 1, ()))
        (self.room.state(0) / "selector").write_bytes(b"xx")
        done = tool("cluster", "inspect", "--dir", self.room.path)
        self.assertEqual((done.returncode, done.stderr), (1, "cluster: what node 0 keeps can't be told\n"))
        self.assertEqual(done.stdout.splitlines(), [
            "node 0: its files are damaged: a selector of 2 bytes", "node 1: term 2, voted for node 1, 0 entries, 0 requests among them",
        ])
