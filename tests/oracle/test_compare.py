"""That cases are drawn alike, that differences are told and kept, and that wrong rules are put
in.
"""

import os
import subprocess
import sys
import tempfile
import unittest

# The oracle's modules stand here, and those of cases one folder above.
if "cases" not in sys.modules:
    sys.path[:0] = [os.path.dirname(__file__), os.path.dirname(os.path.dirname(__file__))]

import maplabel
from cases.case import Case
from cases.kinds import MAKERS, draw_case
from cases.sharp import wrong
from cases.wrong_rules import RULES

HERE = os.path.dirname(os.path.realpath(__file__))

COMPARE = os.path.join(os.path.dirname(HERE), "compare")
TWO = b"A 0 0 0 1000 -10,-5,10,5\nB 400 0 0 1000 -10,-5,10,5\n"


class Cases(unittest.TestCase):
    def test_equal_seeds_give_equal_cases(self):
        for kind in MAKERS:
            self.assertEqual(draw_case(kind, "1", 5), draw_case(kind, "1", 5))
        self.assertNotEqual(draw_case("pipe", "1", 5), draw_case("pipe", "2", 5))

    def test_a_program_that_prints_nothing_differs(self):
        with tempfile.TemporaryDirectory() as folder:
            words = [sys.executable, COMPARE, "words", "1", "3", "/bin/true", "--kept", folder]
            done = subprocess.run(words, stdout=subprocess.PIPE, check=False)
            self.assertEqual(done.returncode, 1)
            self.assertIn(b"3 cases, 3 differ", done.stdout)
            kept = os.path.join(folder, "words-1-0")
            self.assertTrue(
                {"files", "run", "stdin", "oracle.out", "program.out"} <= set(os.listdir(kept))
            )

    def test_a_program_agrees_with_itself(self):
        words = [sys.executable, COMPARE, "slots", "1", "3", "/bin/true", "/bin/true"]
        done = subprocess.run(words, stdout=subprocess.PIPE, check=False)
        self.assertEqual(done.returncode, 0)
        self.assertIn(b"3 cases, 0 differ", done.stdout)

    def test_wrong_words_are_told(self):
        for words, status in [
            (["nokind"], 2),
            (["all", "1", "0"], 2),
            (["all", "1", "1", "/nowhere"], 1),
        ]:
            done = subprocess.run(
                [sys.executable, COMPARE, *words], stderr=subprocess.PIPE, check=False
            )
            self.assertEqual(done.returncode, status)
            self.assertNotIn(b"Traceback", done.stderr)


class Rules(unittest.TestCase):
    def slots(self):
        return maplabel.run(Case("slots", ["slots", "table"], {"table": TWO})).out.decode()

    def test_forty_rules_with_names_of_their_own(self):
        self.assertEqual(len({rule[0] for rule in RULES}), 40)

    def test_a_rule_is_put_in_and_taken_out(self):
        empty_lines = next(rule for rule in RULES if rule[0] == "empty lines")
        broken = Case("slots", ["slots", "table"], {"table": b"\nA\n"})
        self.assertEqual(maplabel.run(broken).out, b"table refused: 1 BadLine 2\n")
        with wrong(empty_lines):
            self.assertEqual(maplabel.run(broken).out, b"table refused: 1 BadLine 1\n")
        self.assertEqual(maplabel.run(broken).out, b"table refused: 1 BadLine 2\n")
        self.assertEqual(self.slots(), "A 1000/1 -\nB 20/1 A\n")


if __name__ == "__main__":
    unittest.main()
