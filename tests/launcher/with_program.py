"""The table of forms beside the program that the variable MAPLABEL names."""

import os
import random
import subprocess
import tempfile
import unittest
from pathlib import Path

from checkout import TOP
from maplabel_launch import forms

USAGE = 2
CASES = 3000
# Numbers about each bound of a word, in forms that are near to good ones.
NUMBERS = [
    *("0", "1", "-1", "2", "3", "4096", "4098", "6000", "6001", "65535", "65536", "1000000"),
    *("1000001", "2000000000", "-2000000000", "2000000001", "-2000000001", "4294967295"),
    *("4294967296", "4294967297", "268435455", "268435456", "9999999999", "10000000000", "-0"),
    *("007", "+1", "1.0", "1e3", " 1", "1 ", "", "-", "1/2", "1/65536", "1/65537", "2/131072"),
    *("268435456/1", "4294967296/16", "4294967296/17", "0/1", "1/0", "/2", "1/", "1//2", "-1/2"),
    *("512", "510", "00000000512", "0000000512", "١", "x"),
]


class Forms(unittest.TestCase):
    def setUp(self) -> None:
        self.program = os.environ["MAPLABEL"]
        self.commands = forms.read(str(TOP))
        room = tempfile.TemporaryDirectory()
        self.addCleanup(room.cleanup)
        self.empty = Path(room.name) / "empty"
        self.empty.touch()

    def status(self, words: list[str]) -> int:
        """What the program ends with."""
        ran = subprocess.run(
            [self.program, *words],
            cwd=TOP,
            stdin=subprocess.DEVNULL,
            stdout=subprocess.DEVNULL,
            stderr=subprocess.DEVNULL,
            check=False,
        )
        return ran.returncode

    def words(self, chance: random.Random) -> list[str]:
        """Words of a command, mostly of its form; a server finds no style, so that it serves
        nobody.
        """
        command = chance.choice(list(self.commands.values()))
        words = [command.name]
        for name in command.words:
            if name in forms.FILES:
                words.append(str(self.empty))
            elif chance.random() < 0.75 and name not in ("N", "K"):
                words.append("2")
            else:
                words.append(chance.choice(NUMBERS))
        if chance.random() < 0.1:
            words.insert(chance.randrange(1, len(words) + 1), chance.choice(NUMBERS))
        elif chance.random() < 0.1:
            words.pop(chance.randrange(len(words)))
        return words

    def test_random_words(self) -> None:
        chance, counts = random.Random(69), {True: 0, False: 0}
        for _ in range(CASES):
            words = self.words(chance)
            if words[:1] == ["gen"] and len(words) == 3 and forms.WHOLE.fullmatch(words[2]):
                # (many edits take long)
                words[2] = "0" if len(words[2]) < 8 else words[2]
                if int(words[2]) in range(1, 4_294_967_296):
                    continue
            has_form = forms.fault_of_words(self.commands, words) is None
            counts[has_form] += 1
            self.assertEqual(self.status(words) != USAGE, has_form, words)
        self.assertGreater(min(counts.values()), CASES // 5)

    def test_examples(self) -> None:
        """Each example whose files are there runs to its end."""
        tried = 0
        for name, text in forms.EXAMPLES.items():
            words = [name, *text.partition(" #")[0].partition(" <")[0].split()]
            self.assertIsNone(forms.fault_of_words(self.commands, words), words)
            if name in ("view", "show", "slots", "gaps", "gapview", "zoom", "gen"):
                tried += 1
                self.assertEqual(self.status(words), 0, words)
        self.assertEqual((tried, forms.EXAMPLES.keys()), (7, self.commands.keys()))
