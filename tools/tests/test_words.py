"""The words of the tools' commands."""
from __future__ import annotations

import contextlib
import io
import unittest
from argparse import ArgumentTypeError
from pathlib import Path

import vstargs
from support import load


class Words(unittest.TestCase):
    """Words of commands."""

    def test_numbers(self) -> None:
        self.assertEqual(vstargs.seconds("0.5"), 0.5)
        for text in ("0", "-1", "nan", "inf", "1e9", "x", ""):
            self.assertRaises(ArgumentTypeError, vstargs.seconds, text)
        for text in ("-0.1", "1.1", "nan"):
            self.assertRaises(ArgumentTypeError, vstargs.between(0, 1), text)
        for text in ("0", "10", "1.5", "x"):
            self.assertRaises(ArgumentTypeError, vstargs.whole(1, 9), text)

    def test_options_stand_before_the_command_or_after_it(self) -> None:
        client = load("client")
        for words in ("--dir three put a x", "put a x --dir three", "put --dir three a x"):
            given = client.read_words(words.split(" "))
            self.assertEqual((given.dir, given.words), (Path("three"), ["put", "a", "x"]))
        self.assertEqual(client.read_words(["--", "put", "a", "--x"]).words, ["put", "a", "--x"])
        self.assertEqual(client.read_words(["cas", "a", "-", "x"]).words, ["cas", "a", "-", "x"])

    def test_wrong_words_are_one_line(self) -> None:
        client, judge = load("client"), load("judge")
        for read, words in (
            (client.read_words, "get a --timeout 0"), (client.read_words, "get a --timeout nan"), (client.read_words, "put a -x"),
            (judge.parser().parse_args, "--clients 0"), (judge.parser().parse_args, "--seconds 0"), (judge.parser().parse_args, "--lose 2"),
        ):
            with self.subTest(words), contextlib.redirect_stderr(io.StringIO()) as said, self.assertRaises(SystemExit) as end:
                read(words.split(" "))
            self.assertEqual((end.exception.code, said.getvalue().count("\n")), (2, 1))
