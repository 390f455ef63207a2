#!/usr/bin/env python3
"""state.py: what it costs to save one entry more, by the length of the log.

A program over `node_state`, state_rounds, opens fresh areas on a device that keeps nothing, saves a log of so many no-ops, and then adds one
entry in each round and saves what changed. Valgrind's callgrind counts the instructions of a run without rounds and of one with ROUNDS,
which stay below the number of records after which a base is written. The difference by round is printed for a short log and a long one.
Exits 1 where the long one takes over MOST times as many.
"""
import struct
import sys
import tempfile

from counted import build, instructions

ROUNDS = 998
SHORT, LONG = 500, 500_000
MOST = 1.5

NEEDS = (
    "vst_base outside kv_machine raft_types wire_fields wire_messages wire_codec disk slots node_device node_body node_acts"
    " node_state"
)


def by_round(program, room, entries):
    """The instructions of a round after so many entries: an opening writes three times, and each save twice."""
    some, none = (
        instructions(program, room, struct.pack(">II", entries, rounds), struct.pack(">I", 5 + 2 * rounds)) for rounds in (ROUNDS, 0)
    )
    return (some - none) / ROUNDS


def main():
    with tempfile.TemporaryDirectory() as room:
        program = build(room, "state_rounds", NEEDS, struct.pack(">II", 0, 0))
        short, long = (by_round(program, room, entries) for entries in (SHORT, LONG))
    print(f"a save of one entry more: {short:,.0f} instructions after {SHORT:,} entries, {long:,.0f} after {LONG:,}")
    return 0 if long <= MOST * short else 1


if __name__ == "__main__":
    sys.exit(main())
