"""The recipes of examples/README.md, in order, in an empty folder."""

import unittest

import setting
import walk
from maplabel_kit.files import TOP
from maplabel_kit.ports import free_port


class Recipes(unittest.TestCase):
    """One walk."""

    def test_each_prints_what_the_page_says(self) -> None:
        faults = walk.walk(TOP / "examples" / "README.md", setting.PROGRAM, free_port())
        self.assertEqual(faults, [], "\n\n".join(faults))
