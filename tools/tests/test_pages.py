"""Parts of the pages that scripts make."""
from __future__ import annotations

import unittest

import vstpages
from support import TOOLS, load, tool

counts, crate_map = load("counts"), load("crate-map")


class Pages(unittest.TestCase):
    """The pages have what the scripts make now."""

    def test_pages_are_up_to_date(self) -> None:
        for name in ("counts", "crate-map"):
            with self.subTest(name):
                done = tool(name, "--check")
                self.assertEqual((done.returncode, done.stdout), (0, ""), f"tools/{name} --write brings the page up to date")

    def test_a_part_is_put_in(self) -> None:
        page = "a\n<!-- made by tools/t p -->\nold\n<!-- end -->\nb\n"
        now = vstpages.with_part(page, "t", "p", ["new"])
        self.assertEqual(now, "a\n<!-- made by tools/t p -->\n\nnew\n\n<!-- end -->\nb\n")
        self.assertEqual(vstpages.with_part(now, "t", "p", ["new"]), now)
        for wrong in ("", page + page):
            self.assertRaises(vstpages.PageError, vstpages.with_part, wrong, "t", "p", ["new"])

    def test_words(self) -> None:
        self.assertEqual(tool("crate-map", "--what").returncode, 2)


class Map(unittest.TestCase):
    """The map says what crates.txt says."""

    def test_what_a_crate_stands_on(self) -> None:
        for crate, line in crate_map.CRATES.items():
            with self.subTest(crate):
                shown = set(crate_map.next_below(crate))
                self.assertEqual(shown.union(*map(crate_map.below, shown)), crate_map.below(crate))
                self.assertLessEqual({other for other in line if other in crate_map.CRATES}, crate_map.below(crate))
                self.assertTrue(all(crate_map.level(other) < crate_map.level(crate) for other in shown))

    def test_each_crate_is_there_once(self) -> None:
        named = " ".join(line.split("|")[2] for line in crate_map.subjects()[2:])
        self.assertEqual(sorted(word.strip("`,") for word in named.split()), sorted(crate_map.CRATES))


class Counted(unittest.TestCase):
    """Figures."""

    def test_kinds(self) -> None:
        kinds = {
            "specs/Kv.antt": "meaning", "specs/KvLaws.antt": "laws", "specs/Examples.antt": "rows", "specs/Lib.antt": "", "src/laws.rt": "laws",
            "src/examples.rt": "rows", "src/kv_examples.rt": "rows", "src/machine.rt": "code", "proofs/a/b/Answers.antt": "proof", "args": "",
        }
        self.assertEqual({file: counts.kind_of(file) for file in kinds}, kinds)

    def test_sums(self) -> None:
        lines = [len((TOOLS.parent / "crates" / "counter" / "src" / file).read_text(encoding="utf-8").splitlines()) for file in ("lib.rt", "examples.rt")]
        self.assertEqual([counts.lines_of("counter")["code"], counts.lines_of("counter")["rows"]], lines)
        self.assertEqual(len(counts.all_crates()), 3 + len(crate_map.CRATES))
