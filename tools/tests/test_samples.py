"""The sample files of a cluster on three machines."""
from __future__ import annotations

import tomllib
import unittest

from support import TOOLS
from vstcluster import Room, election_ms

SAMPLES = TOOLS.parent / "examples" / "cluster" / "three"


class Samples(unittest.TestCase):
    """They are of one cluster."""

    def test_nodes_and_client_agree(self) -> None:
        plan = Room(SAMPLES / "client").plan()
        for me in range(len(plan.peers)):
            text = (SAMPLES / f"node{me}.toml").read_text(encoding="ascii")
            self.assertEqual(tomllib.loads(text), tomllib.loads(plan.config(me)))
            self.assertEqual(tomllib.loads(text)["election_ms"], election_ms(me))
        self.assertEqual(len(list(SAMPLES.glob("node*.toml"))), 3)
        self.assertEqual((SAMPLES / "client" / "clients" / "slot0").read_text(encoding="ascii"), "1\n")

    def test_unit_names_the_program_and_its_words(self) -> None:
        unit = (SAMPLES / "vst@.service").read_text(encoding="ascii")
        self.assertIn("ExecStart=/usr/local/bin/vst node --me %i --turns 1000000000 --state /var/lib/vst/node%i\n", unit)
        self.assertIn("StandardInput=file:/etc/vst/node%i.toml\n", unit)
