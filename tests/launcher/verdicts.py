"""Which last lines of the compiler count as a proof."""

import tempfile
import unittest
from pathlib import Path

from maplabel_launch import verdict

TRUSTS = "native=nat,char,string logic-built=trusted libraries-built=trusted statements=trusted"
# (a line that the kit's compiler printed for a library of this repository)
LIBRARY = f"logic=proved functions=70 sum=dac8208d650f15bf {TRUSTS}"
PROGRAM = (
    "logic=proved functions=9 axioms=21 target=x86_64-unknown-linux-gnu main=Net sum=dac8 " + TRUSTS
)


class Verdict(unittest.TestCase):
    def test_proved(self) -> None:
        self.assertIsNone(verdict.why_not(LIBRARY + "\n"))
        self.assertIsNone(verdict.why_not(f"fn a: proved\nstatements std: loaded\n{LIBRARY}\n"))
        self.assertIsNone(verdict.why_not(PROGRAM, {"Net"}))

    def test_what_a_proof_may_not_rest_on(self) -> None:
        for word in ("bugs=1", "foreign=libc::f", "hides=2", "may-abort=1", "partial=1", "tests=3"):
            with self.subTest(word=word):
                why = verdict.why_not(LIBRARY.replace(" sum=", f" {word} sum="))
                self.assertIn(word, why or "")

    def test_unknown_words(self) -> None:
        for word in ("assumed=1", "quickly=yes", "sum=", "functions"):
            with self.subTest(word=word):
                why = verdict.why_not(LIBRARY.replace(" sum=", f" {word} sum="))
                self.assertIn("does not know", why or "")

    def test_other_trust(self) -> None:
        for more in (" cache=trusted", " incremental=trusted", " pinned=no"):
            with self.subTest(more=more):
                self.assertIn("does not end with", verdict.why_not(LIBRARY + more) or "")
        less = LIBRARY.replace(" logic-built=trusted", "")
        self.assertIn("does not end with", verdict.why_not(less) or "")

    def test_no_verdict(self) -> None:
        for said in ("", "logic=not-proved\n", f"{LIBRARY}\nnote: more\n", f" {LIBRARY}"):
            with self.subTest(said=said):
                self.assertIn("does not begin with", verdict.why_not(said) or "")
        without = LIBRARY.replace(" functions=70", "")
        self.assertIn("how many functions", verdict.why_not(without) or "")

    def test_handles_of_main(self) -> None:
        self.assertIn("Net", verdict.why_not(PROGRAM) or "")
        many = PROGRAM.replace("main=Net", "main=Net+Threads")
        self.assertIn("allow: Threads", verdict.why_not(many, {"Net"}) or "")
        waits = PROGRAM.replace("main=Net", "main=Net may-wait=1")
        self.assertIn("allow: Wait", verdict.why_not(waits, {"Net"}) or "")
        self.assertIsNone(verdict.why_not(waits, {"Net", "Wait"}))

    def test_list_of_handles(self) -> None:
        with tempfile.TemporaryDirectory() as folder:
            self.assertEqual(verdict.handles(folder), frozenset())
            for text, found in (
                ("Handles allowed: Net.\n", {"Net"}),
                ("Handles allowed: Threads, Net.\n", {"Threads", "Net"}),
                ("Handles allowed: none.\n", set()),
                ("all\n", set()),
            ):
                Path(folder, "HANDLES").write_text(text, encoding="utf-8")
                self.assertEqual(verdict.handles(folder), found)
