"""What the tests of the tools share."""
from __future__ import annotations

import contextlib
import importlib.machinery
import importlib.util
import io
import re
import shutil
import signal
import subprocess
import sys
import tempfile
import time
import unittest
from collections.abc import Callable
from dataclasses import dataclass, replace
from pathlib import Path
from types import ModuleType
from unittest import mock

import vstcluster
from vstcluster import ClusterError, Plan, Room

TOOLS = Path(vstcluster.__file__).resolve().parent
FAKE, MODEL = (Path(__file__).resolve().parent / name for name in ("fake-vst", "model-vst"))
PATIENCE = 30.0


def load(name: str) -> ModuleType:
    """A tool as a module."""
    loader = importlib.machinery.SourceFileLoader(name, str(TOOLS / name))
    spec = importlib.util.spec_from_loader(name, loader)
    assert spec is not None
    module = importlib.util.module_from_spec(spec)
    sys.modules[name] = module
    loader.exec_module(module)
    return module


def keys_of(told: object) -> set[str]:
    """The keys of an object in JSON, and of those within it."""
    if isinstance(told, dict):
        return set(told).union(*map(keys_of, told.values()))
    return set().union(*map(keys_of, told)) if isinstance(told, list) else set()


def keys_in_guide(command: str) -> set[str]:
    """The keys that the guide names of what a command prints."""
    page = (TOOLS.parent / "docs" / "GUIDE.md").read_text(encoding="utf-8")
    row = re.search(rf"^\| `{command}` \| (.*) \|$", page, re.MULTILINE)
    assert row is not None, f"the guide has no row of {command}"
    return set(re.findall(r"`(\w+)`", row[1]))


def awaits(what: Callable[[], bool]) -> bool:
    """Whether something comes true in time."""
    limit = time.monotonic() + PATIENCE
    while not what() and time.monotonic() < limit:
        time.sleep(0.01)
    return what()


def hears_interrupts() -> None:
    """Lets a program that is started hear a Ctrl-C, as in the foreground: a shell has those in the background ignore it."""
    signal.signal(signal.SIGINT, signal.SIG_DFL)


def remove(folder: Path) -> None:
    """Removes a folder, of which a program that is just ending may still remove files itself."""

    def gone() -> bool:
        shutil.rmtree(folder, ignore_errors=True)
        return not folder.exists()

    if not awaits(gone):
        raise OSError(f"{folder} can't be removed")


def tool(name: str, *words: object) -> subprocess.CompletedProcess[str]:
    """A tool run with these words."""
    return subprocess.run([str(TOOLS / name), *map(str, words)], capture_output=True, text=True, timeout=60, check=False)


@dataclass(frozen=True)
class Done:
    """How a tool ended, and what it wrote."""

    returncode: int
    stdout: str
    stderr: str


def main_of(name: str, *words: object) -> Done:
    """A tool run with these words within this process, which is quicker: for one that takes no signals and starts nothing in the background."""
    out, err = (io.TextIOWrapper(io.BytesIO(), encoding="latin-1", write_through=True) for _ in range(2))
    with contextlib.redirect_stdout(out), contextlib.redirect_stderr(err), mock.patch.object(sys, "argv", [name, *map(str, words)]):
        try:
            status = load(name).main()
        except SystemExit as end:
            status = end.code
    told = (stream.buffer.getvalue().decode("latin-1") for stream in (out, err))
    return Done(status, *told)


class InFolder(unittest.TestCase):
    """A test in a folder of its own, with a cluster in it that has not been started."""

    def setUp(self) -> None:
        self.folder = Path(tempfile.mkdtemp(prefix="vst-test-"))
        self.addCleanup(remove, self.folder)
        self.room = Room(self.folder / "d")

    def make(self, nodes: int = 3, clients: int = 2, how: str = "", **fields: object) -> Plan:
        """Makes a cluster whose program is the fake, which behaves like this."""
        plan = replace(vstcluster.make_plan("kv/raft", nodes, clients, FAKE), **fields)
        self.room.make(plan)
        (self.room.path / "fake").write_text(how, encoding="ascii")
        return plan

    def refused(self, part: str) -> contextlib.AbstractContextManager[object]:
        """That a cluster error is raised, with this in its text."""
        return self.assertRaisesRegex(ClusterError, part)
