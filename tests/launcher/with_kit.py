"""The launcher over this repository and the kit itself; the tests come in the order of their
numbers, in one clone.

Where the variable BUILT names a checkout that is built from the same sources, the clone begins with
what is built there, but for the last crates: so only these are proved here.
"""

import json
import os
import pathlib
import shlex
import shutil
import subprocess
import time
import unittest

from checkout import TOP, Checkout, wait_until
from maplabel_kit.ports import free_port

FAILED, USAGE, FILE_FAULT = 70, 2, 5
# What is proved here in any case: the program, and a small library that nothing else uses.
LAST = ("ml_serve", "maplabel")
# The commit is cloned; an hour and a half is enough on a slow machine.
LONG = 5400
MAP = "crates/maplabel/data/world.geojson"
VIEW = ["view", "crates/maplabel/data/world.toml", MAP, "0", "0", "1024", "512", "3515625"]
PORT = "47100"
# README.md, "An example": two labels that touch at scale 20, as reckoned by hand there
TABLE, SLOTS = "crates/maplabel/data/two.table", "A 1000/1 -\nB 20/1 A\n"


def take_over(built: pathlib.Path, clone: pathlib.Path) -> None:
    """Puts what is built in a checkout into a clone of the same sources, but for the last
    crates.
    """
    for proved in built.glob("crates/*/out/proved"):
        name = proved.parents[1].name
        if name not in LAST:
            subprocess.run(["cp", "-a", proved.parent, clone / "crates" / name], check=True)


def first_block(port: int) -> list[str]:
    """The commands of README.md's first block, each a line with the lines of its answer behind it,
    at another port.
    """
    page = (TOP / "README.md").read_text(encoding="utf-8")
    block = page.partition("```console\n")[2].partition("```")[0]
    return block.replace(PORT, str(port)).removeprefix("$ ").split("\n$ ")


class WithKit(unittest.TestCase):
    clone: Checkout

    @classmethod
    def setUpClass(cls) -> None:
        cls.clone = Checkout(TOP, with_kit=True)
        if built := os.environ.get("BUILT"):
            take_over(pathlib.Path(built), cls.clone.folder)

    @classmethod
    def tearDownClass(cls) -> None:
        cls.clone.close()

    def test_0_first_block(self) -> None:
        """The first block of README.md as it stands, but for the port: a server of the sample map
        without any proof, and questions to it, each with the answer that stands there.
        """
        serve, *asked = first_block(free_port())
        self.assertTrue(serve.startswith("./maplabel --quick serve ") and serve.endswith(" &"))
        begun, seconds = time.monotonic(), 0.0
        server = self.clone.start(*shlex.split(serve)[1:-1])
        try:
            for one in asked:
                command, _, answer = one.partition("\n")
                # (the block tells curl how long it may try)
                words = shlex.split(command)
                ran = subprocess.run(words, capture_output=True, text=True, timeout=LONG)
                seconds = seconds or time.monotonic() - begun
                self.assertEqual((ran.returncode, ran.stdout), (0, answer.rstrip("\n")), ran.stderr)
        finally:
            server.terminate()
            server.communicate()
        self.assertGreaterEqual(len(asked), 1)
        print(f"its first answer came after {seconds:.0f} s ... ", end="", flush=True)

    def test_1_quick(self) -> None:
        link = self.clone.folder.parent / "a link"
        link.symlink_to(self.clone.folder / "maplabel")
        words = [f"../{it}" if it.startswith("crates/") else it for it in VIEW]
        ran = self.clone.run(
            "--quick", *words, launcher=link, folder=self.clone.folder / "docs", seconds=LONG
        )
        self.assertEqual(ran.returncode, 0, ran.stderr)
        shown = {it["text"] for it in json.loads(ran.stdout)["labels"]}
        with open(self.clone.folder / MAP, encoding="utf-8") as file:
            named = {
                name
                for it in json.load(file)["features"]
                for name in it["properties"].values()
                if isinstance(name, str)
            }
        self.assertGreater(len(shown), 20)
        self.assertLessEqual(shown, named)
        self.assertEqual(len(ran.stderr.splitlines()), 1, ran.stderr)
        self.assertIn("nothing of what it answers is proved", ran.stderr)

    def done(self) -> set[str]:
        """The crates that are done."""
        return {it.parents[1].name for it in self.clone.folder.glob("crates/*/out/proved")}

    def test_2_interrupt(self) -> None:
        def is_amid() -> bool:
            return len(self.done()) >= 3 and len(self.clone.processes()) > 1

        seen, status = self.clone.on_terminal("--build", keys=b"\x03", when=is_amid, seconds=LONG)
        self.assertEqual(status, 130, seen)
        wait_until(lambda: not self.clone.processes(), 5)
        self.assertEqual(self.clone.left(), [])
        self.assertNotIn("maplabel", self.done())

    def test_3_spoilt(self) -> None:
        before = self.done()
        self.clone.add_line("ml_ratio", "fn spoilt() -> u32 { true }")
        ran = self.clone.run(*VIEW, seconds=LONG)
        self.assertEqual((ran.returncode, ran.stdout), (FAILED, ""))
        self.assertIn("failed in crates/ml_ratio", ran.stderr)
        self.assertRegex(ran.stderr, r"src/lib\.rt:\d+:\d+: error")
        subprocess.run(
            ["git", "-C", str(self.clone.folder), "checkout", "-q", "crates/ml_ratio"], check=True
        )
        self.assertLessEqual(before - {"ml_ratio"}, self.done())

    def test_4_build(self) -> None:
        ran = self.clone.run("slots", TABLE, seconds=LONG)
        self.assertEqual((ran.returncode, ran.stdout), (0, SLOTS), ran.stderr)
        print(ran.stderr)

    def test_5_second_start(self) -> None:
        begun = time.monotonic()
        ran = self.clone.run("slots", TABLE)
        self.assertLess(time.monotonic() - begun, 1)
        self.assertEqual((ran.stdout, ran.stderr), (SLOTS, ""))
        self.assertEqual(self.clone.run("--quick", "slots", TABLE).stderr, "")

    def test_6_words(self) -> None:
        table = self.clone.folder.parent / "a table"
        shutil.copy(self.clone.folder / TABLE, table)
        ran = self.clone.run(
            "slots",
            "a table",
            folder=table.parent,
            launcher=os.path.relpath(self.clone.folder / "maplabel", table.parent),
        )
        self.assertEqual((ran.returncode, ran.stdout), (0, SLOTS))
        ran = self.clone.run("slots", "")
        self.assertEqual(ran.returncode, FILE_FAULT)
        ran = self.clone.run()
        self.assertEqual((ran.returncode, ran.stdout.split()[0]), (USAGE, "usage:"))
        self.assertIn("built and fresh", self.clone.run("--version").stdout)

    def test_7_release(self) -> None:
        """A release of what was proved here runs in another clone, and a damaged one does not."""
        made = self.clone.folder.parent / "release.tar.gz"
        ran = self.clone.run(str(made), launcher=self.clone.folder / "deploy" / "dist")
        self.assertEqual(ran.returncode, 0, ran.stderr)
        other = Checkout(TOP, with_kit=True)
        self.addCleanup(other.close)
        for path in ("/usr/bin:/bin", os.environ["PATH"]):
            ran = other.run("--release", str(made), "slots", TABLE, PATH=path)
            self.assertEqual((ran.returncode, ran.stdout), (0, SLOTS), ran.stderr)
            self.assertIn("was proved elsewhere", ran.stderr)
        self.assertIn("proved program: not built", other.run("--version").stdout)
        data = bytearray(made.read_bytes())
        data[len(data) // 3] ^= 1
        made.with_name("damaged").write_bytes(data)
        ran = other.run("--release", str(made.with_name("damaged")), "slots", TABLE)
        self.assertEqual((ran.returncode, ran.stdout), (FAILED, ""))
        self.assertIn("is damaged", ran.stderr)
        self.clone.run("--release", str(made))
        self.assertIn("byte for byte", self.clone.run("--build").stderr)
