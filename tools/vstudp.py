"""What the system tells of UDP ports of this machine, without touching them."""
from __future__ import annotations

import os
import socket
from dataclasses import dataclass
from pathlib import Path

ANY_HOST = "00000000"


def address_of(text: str) -> tuple[str, int]:
    """An address in the form that sockets take."""
    host, port = text.rsplit(":", 1)
    return host, int(port)


@dataclass(frozen=True)
class Bound:
    """A bound socket: its number in the system, how many bytes wait at it, and how many datagrams it has dropped."""

    inode: int
    waiting: int
    dropped: int


def bound_at(address: str) -> Bound | None:
    """The socket that is bound at an address, if there is one."""
    host, port = address_of(address)
    hosts = (socket.inet_aton(host)[::-1].hex().upper(), ANY_HOST)
    wanted = [f"{name}:{port:04X}" for name in hosts]
    for line in Path("/proc/net/udp").read_text(encoding="ascii").splitlines()[1:]:
        fields = line.split()
        if fields[1] in wanted:
            return Bound(int(fields[9]), int(fields[4].split(":")[1], 16), int(fields[-1]))
    return None


def has_socket(pid: int, inode: int) -> bool:
    """Whether a process has a socket open."""
    folder = Path(f"/proc/{pid}/fd")
    try:
        return any(os.readlink(handle) == f"socket:[{inode}]" for handle in folder.iterdir())
    except OSError:
        return False


def is_free(address: str) -> bool:
    """Whether a port can be bound now."""
    return why_not_free(address) is None


def why_not_free(address: str) -> OSError | None:
    """Why a port can't be bound now, if it can't."""
    with socket.socket(socket.AF_INET, socket.SOCK_DGRAM) as probe:
        try:
            probe.bind(address_of(address))
        except OSError as wrong:
            return wrong
    return None
