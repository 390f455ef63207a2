"""Why a node ended, in words: from its status, from what it said last, and from a look at what it could not open."""
from __future__ import annotations

import errno
import fcntl
import os
import signal
import stat
from collections.abc import Iterator
from contextlib import suppress
from pathlib import Path

from vstudp import why_not_free
from vstwire import STACK_WORDS

FILES = ("slot0", "slot1", "selector")
OPEN, REFUSED_STATE = 6, 9

STATUSES = {
    2: "the program does not take its words: is it vst?",
    3: "its configuration is refused",
    4: "its configuration could not be read",
    5: "what it says could not be written",
    OPEN: "a receive at its port failed",
    7: "a read or write of its files failed",
    8: "memory ran out",
}
DAMAGES = {
    "selector": "its selector has more than one byte",
    "slot": "the slot that its selector names is shorter than it says",
    "body": "the state in its slot is damaged",
    "journal": "a record in its slot is damaged",
}
OTHERS = {
    "stack": "its files are of {0}, and this is {1}",
    "node": "its files are of node {0}, and this is node {1}",
    "cluster": "its files are of a cluster of {0} nodes, and this one has {1}",
    "name": "its files are of another cluster",
}


def why_refused(line: str) -> str:
    """What `state: why` says of the files of a node."""
    why, *values = line.removeprefix("state: ").split(" ")
    if why == "stack":
        # the program says stacks by their bytes
        values = [STACK_WORDS.get(int(value), value) if value.isdigit() else value for value in values]
    if why in OTHERS and len(values) == 2:
        return OTHERS[why].format(*values)
    return DAMAGES.get(why, "its files are refused")


def lock_holder(inode: int) -> str:
    """Which process has locked a file, as far as the system tells."""
    with suppress(OSError):
        for line in Path("/proc/locks").read_text(encoding="ascii").splitlines():
            fields = line.split()
            if fields[1] == "FLOCK" and fields[5].endswith(f":{inode}"):
                return f"process {fields[4]}"
    return "another process"


def fault_of_lock(folder: Path) -> Iterator[str]:
    """That another process has the directory, if one has."""
    handle = os.open(folder, os.O_RDONLY | os.O_DIRECTORY)
    try:
        fcntl.flock(handle, fcntl.LOCK_EX | fcntl.LOCK_NB)
    except BlockingIOError:
        yield f"{lock_holder(os.fstat(handle).st_ino)} has its directory {folder.name}"
    finally:
        os.close(handle)


def faults_of_files(folder: Path) -> Iterator[str]:
    """What is wrong with the files in a node's directory."""
    found = {name: (folder / name).lstat() for name in FILES if os.path.lexists(folder / name)}
    for name, about in found.items():
        file = f"{folder.name}/{name}"
        if not stat.S_ISREG(about.st_mode):
            yield f"{file} is no regular file"
        elif about.st_nlink > 1:
            yield f"{file} has {about.st_nlink} names"
        elif not os.access(folder / name, os.R_OK | os.W_OK):
            yield f"{file} can't be read and written"
    if "selector" not in found and any(about.st_size for about in found.values()):
        yield f"{folder.name}/selector is missing beside a slot that has bytes"


def faults_of_folder(folder: Path) -> Iterator[str]:
    """What is wrong with the directory of a node."""
    if not os.path.lexists(folder):
        yield f"its directory {folder.name} is gone"
    elif not folder.is_dir():
        yield f"{folder.name} is no directory"
    elif not os.access(folder, os.R_OK | os.W_OK | os.X_OK):
        yield f"its directory {folder.name} can't be read and written"
    else:
        yield from fault_of_lock(folder)
        yield from faults_of_files(folder)


def fault_of_address(address: str) -> Iterator[str]:
    """Why its address can't be bound, if it can't."""
    wrong = why_not_free(address)
    if wrong is None:
        return
    if wrong.errno == errno.EADDRINUSE:
        yield f"the port of {address} is taken"
    elif wrong.errno == errno.EADDRNOTAVAIL:
        yield f"{address} is no address of this machine"
    else:
        yield f"{address}: {os.strerror(wrong.errno or 0)}"


def why_not_open(folder: Path, address: str) -> str:
    """Which of port, address and directory keeps a node from beginning."""
    try:
        found = [*fault_of_address(address), *faults_of_folder(folder)]
    except OSError as wrong:
        found = [f"{wrong.filename}: {wrong.strerror}"]
    return "; ".join(found) or "it could not begin, though its address and its directory are as they should be now"


def why_ended(status: int, line: str, folder: Path, address: str) -> str:
    """How a node ended, in words: its status, and why."""
    if status < 0:
        return f"ended with signal {-status}, {signal.Signals(-status).name}"
    if status == OPEN and line == "open":
        why = why_not_open(folder, address)
    elif status == REFUSED_STATE:
        why = why_refused(line)
    else:
        why = STATUSES.get(status, "")
    spelled = f" ({line})" if line and why else line
    return f"ended with status {status}" + (f": {why}{spelled}" if why or line else "")
