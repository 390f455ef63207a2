"""Parts of the pages that scripts make: what stands between a line `<!-- made by tools/NAME PART -->` and the next `<!-- end -->`."""
from __future__ import annotations

import difflib
import re
import sys
from collections.abc import Callable, Iterable
from pathlib import Path

TOP = Path(__file__).resolve().parent.parent
Part = Callable[[], list[str]]


class PageError(Exception):
    """What is wrong with a page."""


def marks(tool: str, part: str) -> tuple[str, str]:
    """The lines around a part."""
    return f"<!-- made by tools/{tool} {part} -->", "<!-- end -->"


def with_part(text: str, tool: str, part: str, lines: Iterable[str]) -> str:
    """A page with these lines as this part."""
    begin, end = marks(tool, part)
    found = re.compile(f"{re.escape(begin)}\n.*?{re.escape(end)}", re.DOTALL)
    if len(found.findall(text)) != 1:
        raise PageError(f"there is no single part between {begin} and {end}")
    made = "\n".join([begin, "", *lines, "", end])
    return found.sub(lambda _: made, text)


def renewed(page: Path, tool: str, parts: dict[str, Part]) -> str:
    """A page with all parts of a tool made anew."""
    text = page.read_text(encoding="utf-8")
    for part, make in parts.items():
        text = with_part(text, tool, part, make())
    return text


def serve(tool: str, page: Path, parts: dict[str, Part], words: list[str]) -> int:
    """Prints the parts, or with --write puts them into the page, or with --check tells how the page differs; and answers the status."""
    if words not in ([], ["--write"], ["--check"]):
        print(f"usage: {tool} [--write | --check]", file=sys.stderr)
        return 2
    if not words:
        print("\n\n".join("\n".join(make()) for make in parts.values()))
        return 0
    before, now = page.read_text(encoding="utf-8"), renewed(page, tool, parts)
    if words == ["--write"]:
        page.write_text(now, encoding="utf-8")
        return 0
    name = str(page.relative_to(TOP))
    sys.stdout.writelines(difflib.unified_diff(before.splitlines(True), now.splitlines(True), name, f"tools/{tool} --write", n=0))
    return int(before != now)
