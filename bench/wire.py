#!/usr/bin/env python3
"""wire.py: how many instructions it takes to decode a datagram's heading and to put the datagram again.

The datagram is a leader's of `kv/raft` that sends eight entries of `put a x`, 304 bytes. A program over `wire_codec`, wire_rounds,
decodes its heading and puts the heading and its message again in each round. Valgrind's callgrind counts the
instructions of a run without rounds and of one with ROUNDS, and the difference by round is printed. Exits 1 where it is not below
MOST, or where the program puts other bytes.
"""
import struct
import sys
import tempfile

from counted import build, instructions

ROUNDS = 1_000
MOST = 1_500
ENTRIES = 8

NEEDS = "vst_base kv_machine raft_types wire_fields wire_messages wire_codec"


def datagram():
    """Node 0 of the cluster sends node 1 the entries of term 1 after index 0, with nothing committed."""
    heading = bytes([0x56, 2, 5, 0, 0, 1]) + bytes(range(16))
    entry = struct.pack(">QBQQB", 1, 1, 7, 1, 0) + bytes.fromhex("020161000178")
    return heading + struct.pack(">BQIQIB", 3, 1, 0, 0, 0, ENTRIES) + ENTRIES * entry


def input_of(rounds):
    """What the program reads: the number of rounds, and the datagram."""
    return struct.pack(">I", rounds) + datagram()


def main():
    with tempfile.TemporaryDirectory() as room:
        program = build(room, "wire_rounds", NEEDS, input_of(0))
        some, none = (instructions(program, room, input_of(rounds), datagram()) for rounds in (ROUNDS, 0))
        by_round = (some - none) / ROUNDS
    print(f"a datagram of {ENTRIES} entries, {len(datagram())} bytes: {by_round:,.0f} instructions to decode its heading and to put it")
    return 0 if by_round < MOST else 1


if __name__ == "__main__":
    sys.exit(main())
