"""What the commands of the tools have in common: words that are numbers, and complaints of one line."""
from __future__ import annotations

import argparse
import math
import os
import signal
import sys
import time
from collections.abc import Callable
from pathlib import Path
from typing import NoReturn

if sys.version_info < (3, 11):
    sys.exit("the tools need Python 3.11 or a later one")

USAGE, INTERRUPTED = 2, 130
MOST_SECONDS = 86_400.0
SAME_SECONDS = 1.0


def version() -> str:
    """The version of this repository."""
    return (Path(__file__).resolve().parent.parent / "VERSION").read_text(encoding="ascii").strip()


class Parser(argparse.ArgumentParser):
    """A parser whose complaint is one line."""

    def __init__(self, prog: str, doc: str | None = None) -> None:
        super().__init__(prog=prog, description=doc, formatter_class=argparse.RawDescriptionHelpFormatter, allow_abbrev=False)
        self.add_argument("--version", action="version", version=f"%(prog)s {version()}", help="say which version this is, and end")

    def error(self, message: str) -> NoReturn:
        """Says what is wrong with the words, and ends."""
        self.exit(USAGE, f"{self.prog}: {message}; --help tells more\n")


def seconds(text: str) -> float:
    """A time of more than no seconds and of a day at most."""
    value = number(text)
    if not 0 < value <= MOST_SECONDS:
        raise argparse.ArgumentTypeError(f"{text} is not above 0 and at most {MOST_SECONDS:g}")
    return value


def number(text: str) -> float:
    """A finite number."""
    try:
        value = float(text)
    except ValueError:
        value = math.nan
    if not math.isfinite(value):
        raise argparse.ArgumentTypeError(f"{text} is no number")
    return value


def between(low: float, high: float) -> Callable[[str], float]:
    """What reads a number from the one to the other."""

    def read(text: str) -> float:
        value = number(text)
        if not low <= value <= high:
            raise argparse.ArgumentTypeError(f"{text} is not in {low:g} to {high:g}")
        return value

    return read


def whole(low: int, high: int) -> Callable[[str], int]:
    """What reads a whole number from the one to the other."""

    def read(text: str) -> int:
        try:
            value = int(text)
        except ValueError:
            raise argparse.ArgumentTypeError(f"{text} is no whole number") from None
        if not low <= value <= high:
            raise argparse.ArgumentTypeError(f"{text} is not in {low} to {high}")
        return value

    return read


def said(wrong: Exception) -> str:
    """What went wrong, without the number that the system gives it."""
    if isinstance(wrong, OSError) and wrong.strerror:
        what = wrong.strerror[0].lower() + wrong.strerror[1:]
        return f"{wrong.filename}: {what}" if wrong.filename is not None else what
    return str(wrong)


def complain(prog: str, why: object, status: int) -> int:
    """Says why on standard error, and answers the status."""
    print(f"{prog}: {said(why) if isinstance(why, Exception) else why}", file=sys.stderr)
    return status


def write_out(text: str) -> None:
    """Writes a text, each character a byte, on standard output. Where nobody reads it any more, as behind `head`, that is no fault."""
    try:
        sys.stdout.buffer.write(text.encode("latin-1"))
        sys.stdout.buffer.flush()
    except BrokenPipeError:
        # what is still kept would be tried again at the end
        os.dup2(os.open(os.devnull, os.O_WRONLY), sys.stdout.fileno())


def take_interrupts() -> None:
    """Lets the signals that ask a process to end come as a Ctrl-C does, so that what it started is ended too.

    What comes again within a second, as `timeout` sends it, is the same one.
    """
    last = -math.inf

    def interrupt(*_: object) -> None:
        nonlocal last
        again, last = time.monotonic() < last + SAME_SECONDS, time.monotonic()
        if not again:
            raise KeyboardInterrupt

    for asked in (signal.SIGINT, signal.SIGTERM, signal.SIGHUP):
        if signal.getsignal(asked) is not signal.SIG_IGN:
            signal.signal(asked, interrupt)
