"""What all scripts share: servers that surely end, faults as sentences, numbers that stay exact."""

import json
import os
import signal
import subprocess
import sys
import time
import unittest
from fractions import Fraction
from pathlib import Path

import setting
from maplabel_kit import client, files, geojson, program
from maplabel_kit.faults import Fault, Refused
from maplabel_kit.server import Server

STYLE, WORLD = setting.SAMPLE / "world.toml", setting.SAMPLE / "world.geojson"
# A script that starts a server in a folder of its own, tells both, and waits.
HOLDER = f"""
import sys, time
sys.path.insert(0, {str(files.TOP / "python")!r})
PROGRAM, STYLE, WORLD = {setting.PROGRAM!r}, {str(STYLE)!r}, {str(WORLD)!r}
from maplabel_kit import files
from maplabel_kit.faults import main
from maplabel_kit.server import Server

def hold():
    with files.folder() as at, Server(PROGRAM, STYLE, WORLD) as server:
        print(server.pid, at, flush=True)
        time.sleep(60)

main(hold)
"""


class Servers(unittest.TestCase):
    """Servers end with those who started them."""

    def started(self, *before: str) -> tuple["subprocess.Popen[str]", int, Path]:
        """A script with a server: its process, the server's, and its folder."""
        words = [*before, sys.executable, "-c", HOLDER]
        holder = subprocess.Popen(
            words,
            stdout=subprocess.PIPE,
            stderr=subprocess.DEVNULL,
            text=True,
            start_new_session=True,
        )
        assert holder.stdout
        pid, folder = holder.stdout.readline().split(" ", 1)
        self.addCleanup(holder.stdout.close)
        return holder, int(pid), Path(folder.strip())

    def is_gone(self, pid: int) -> bool:
        """Whether a process ends within five seconds."""
        for _ in range(100):
            try:
                state = Path(f"/proc/{pid}/stat").read_text().rpartition(")")[2].split()[0]
            except OSError:
                return True
            if state in "ZX":
                return True
            time.sleep(0.05)
        return False

    def test_signals_end_the_server_and_its_folder(self) -> None:
        for number in (signal.SIGTERM, signal.SIGINT, signal.SIGHUP):
            holder, pid, folder = self.started()
            self.assertTrue(folder.is_dir())
            holder.send_signal(number)
            self.assertEqual(holder.wait(20), 128 + number)
            self.assertTrue(self.is_gone(pid))
            self.assertFalse(folder.exists())

    def test_in_the_background_where_the_shell_ignores_sigint(self) -> None:
        ignoring = "bash", "-c", 'trap "" INT; exec "$@"', "bash"
        holder, pid, folder = self.started(*ignoring)
        holder.send_signal(signal.SIGINT)
        self.assertEqual(holder.wait(20), 128 + signal.SIGINT)
        self.assertTrue(self.is_gone(pid))
        self.assertFalse(folder.exists())

    def test_what_is_killed_without_a_word_takes_its_server_along(self) -> None:
        holder, pid, _ = self.started()
        holder.kill()
        holder.wait(20)
        self.assertTrue(self.is_gone(pid))

    def test_more_requests_than_a_connection_takes(self) -> None:
        with Server(setting.PROGRAM, STYLE, WORLD) as server:
            replies = [one.json()["rev"] for one in server.ask([client.get("/rev")] * 2100)]
            self.assertEqual(replies, [0] * 2100)

    def test_a_connection_that_another_holds(self) -> None:
        with Server(setting.PROGRAM, STYLE, WORLD) as server:
            server.json("/rev")
            waits: list[float] = []
            other = client.Client(server.port, 0.9, lambda: waits.append(time.monotonic()))
            with self.assertRaises(client.Held):
                other.json("/rev")
            self.assertGreaterEqual(len(waits), 2)
            server.client.close()
            with client.Client(server.port, 5) as third:
                self.assertEqual(third.json("/rev")["rev"], 0)

    def test_a_style_that_is_refused(self) -> None:
        with files.folder() as at:
            style = at / "bad.toml"
            style.write_text("version = 9\n")
            with self.assertRaises(Refused) as caught:
                Server(setting.PROGRAM, style, WORLD)
            refused = caught.exception
        self.assertEqual((refused.line, refused.code), ("style refused: 2 Version", 3))
        self.assertIn("begin the file with the line `version = 2`", str(refused))


class Programs(unittest.TestCase):
    """Which program is asked."""

    def test_no_build_is_begun(self) -> None:
        if program.BUILT.exists():
            self.skipTest("the proved program is built here")
        told = dict(os.environ)
        told.pop("MAPLABEL", None)
        words = [setting.TOOLS / "report", STYLE, WORLD]
        begin = time.monotonic()
        done = subprocess.run(words, env=told, capture_output=True, text=True, check=False)
        self.assertEqual((done.returncode, done.stdout), (1, ""))
        self.assertIn("the proved program is not built yet", done.stderr)
        self.assertIn("`maplabel --build`", done.stderr)
        self.assertLess(time.monotonic() - begin, 20)

    def test_what_is_no_program(self) -> None:
        for told, sentence in (("false", "is not maplabel"), ("no-such", "there is no program")):
            with self.assertRaises(Fault) as caught:
                program.find(told)
            self.assertIn(sentence, str(caught.exception))


class Texts(unittest.TestCase):
    """Texts that are read and written."""

    def test_ranks_are_exact(self) -> None:
        for text in ("9007199254740991.5", "4503599627370497.5e0", "12345e-3", "-0.0", "0.5e1"):
            exact = max(int(Fraction(text)), 0)
            self.assertEqual(geojson.rank_of(text), exact, text)
        for text in ("1e99", "99999999999999999999", "9007199254740993"):
            self.assertEqual(geojson.rank_of(text), 2**53, text)
        for text in ("-7", "1e-99999999999", "0"):
            self.assertEqual(geojson.rank_of(text), 0, text)

    def test_numbers_stay_as_they_stand(self) -> None:
        text = '{"a":1.10,"b":[9007199254740993,"ü\\n"],"c":null,"d":true}'
        self.assertEqual(geojson.write(geojson.parse(text)), text)
        self.assertEqual(json.loads(geojson.write({"x": 1.5, "y": ["é"]})), {"x": 1.5, "y": ["é"]})

    def test_files_are_written_whole_or_not_at_all(self) -> None:
        with files.folder() as at:
            (at / "one").write_text("old")
            with self.assertRaises(Fault):
                files.write_whole({at / "one": "new", at / "none" / "two": "new"})
            self.assertEqual((at / "one").read_text(), "old")
            self.assertEqual([one.name for one in at.iterdir()], ["one"])
