"""What the tests over the small repository have in common."""

import os
import pathlib
import tempfile
import unittest
from collections.abc import Sequence

from checkout import Checkout, make_origin

FAILED, USAGE = 70, 2
# Words of a good form, whose files are there.
WORDS = ["check", "a b", "ä 'x'*"]
SHORT = ["slots", "one"]


class Case(unittest.TestCase):
    """A test in a fresh clone."""

    room: tempfile.TemporaryDirectory[str]
    clone: Checkout

    @classmethod
    def setUpClass(cls) -> None:
        cls.room = tempfile.TemporaryDirectory(prefix="launcher-origin-")
        make_origin(pathlib.Path(cls.room.name))

    @classmethod
    def tearDownClass(cls) -> None:
        cls.room.cleanup()

    def setUp(self) -> None:
        self.clone = Checkout(self.room.name)
        self.addCleanup(self.clone.close)

    def build(self) -> None:
        """Builds the program, and forgets the calls that it took."""
        ran = self.clone.run("--build")
        self.assertEqual(ran.returncode, 0, ran.stderr)
        self.clone.forget()

    def expect(self, words: Sequence[str], status: int, *sentences: str) -> None:
        """Calls the launcher with words that it refuses before it begins anything: with this status
        and these parts of sentences on standard error, and with nothing on standard output.
        """
        ran = self.clone.run(*words)
        self.assertEqual((ran.returncode, ran.stdout), (status, ""), ran.stderr)
        for sentence in sentences:
            self.assertIn(sentence, ran.stderr)
        self.assertEqual(self.clone.rows(), [])


def answer(folder: str | os.PathLike[str], words: Sequence[str]) -> str:
    """What the stand-in's program prints for these words."""
    return "".join([f"in {folder}\n", *(f"<{word}>\n" for word in words)])
