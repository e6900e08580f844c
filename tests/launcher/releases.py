"""Programs that were proved elsewhere: `deploy/dist` and `--release`."""

import hashlib
import os
import pathlib
import platform
import shutil
import subprocess
import sys
import tarfile
import unittest

from case import FAILED, SHORT, USAGE, Case, answer
from checkout import TOP, Checkout

PROGRAM = "crates/maplabel/out/maplabel"


@unittest.skipUnless(platform.machine() == "x86_64", "the stand-in's program is for x86-64")
class Releases(Case):
    made: pathlib.Path

    @classmethod
    def setUpClass(cls) -> None:
        """A clone elsewhere is built, and a release made of it."""
        super().setUpClass()
        cls.made = pathlib.Path(cls.room.name + "-release.tar.gz")
        cls.addClassCleanup(cls.made.unlink)
        elsewhere = Checkout(cls.room.name)
        cls.addClassCleanup(elsewhere.close)
        for words in (["maplabel", "--build"], ["deploy/dist", str(cls.made)]):
            ran = elsewhere.run(*words[1:], launcher=elsewhere.folder / words[0])
            if ran.returncode:
                raise AssertionError(f"{words}: {ran.stdout}{ran.stderr}")

    def unpacked(self) -> pathlib.Path:
        """The folder of the release, unpacked anew."""
        room = pathlib.Path(self.clone.room.name) / "unpacked"
        shutil.rmtree(room, ignore_errors=True)
        room.mkdir()
        subprocess.run(["tar", "-xzf", self.made, "-C", room], check=True)
        return room / "maplabel"

    def refused(self, path: str | pathlib.Path, *sentences: str) -> None:
        """The release is refused with parts of a sentence, and its program does not run."""
        self.expect(["--release", str(path), *SHORT], FAILED, *sentences)

    def test_runs(self) -> None:
        for path in (self.made, self.unpacked()):
            with self.subTest(path=path):
                ran = self.clone.run("--release", str(path), *SHORT)
                self.assertEqual(
                    (ran.returncode, ran.stdout), (0, answer(self.clone.folder, SHORT))
                )
                self.assertEqual(len(ran.stderr.splitlines()), 1, ran.stderr)
                self.assertIn("was proved elsewhere", ran.stderr)
                self.assertIn("under stand-in", ran.stderr)
        ran = self.clone.run("--release", str(self.made))
        self.assertEqual((ran.returncode, ran.stdout), (0, ""))
        self.assertEqual(self.clone.rows(), [])

    def test_words_are_looked_at_first(self) -> None:
        self.expect(["--release", str(self.made), "slots"], USAGE, "TABLE is missing")
        self.expect(["--release", str(self.made), "slots", "gone"], 5, "there is no file gone")

    def test_without_the_kit(self) -> None:
        able = pathlib.Path(self.clone.room.name) / "bin"
        able.mkdir()
        (able / "python3").symlink_to(sys.executable)
        for name in ("readlink", "dirname", "find", "sh", "git", "grep", "cat"):
            (able / name).symlink_to(os.path.realpath(shutil.which(name) or name))
        ran = self.clone.run("--release", str(self.made), *SHORT, PATH=str(able))
        self.assertEqual((ran.returncode, ran.stdout), (0, answer(self.clone.folder, SHORT)))

    def test_build_compares(self) -> None:
        self.clone.run("--release", str(self.made))
        ran = self.clone.run("--build")
        self.assertIn("byte for byte", ran.stderr)
        # once more, and with nothing to do
        self.assertIn("byte for byte", self.clone.run("--build").stderr)
        about = self.clone.folder / "crates/maplabel/out/release/RELEASE"
        text = about.read_text(encoding="utf-8")
        total = hashlib.sha256(self.clone.program.read_bytes()).hexdigest()
        about.write_text(text.replace(total, "0" * 64), encoding="utf-8")
        self.assertIn("is NOT that of release", self.clone.run("--build").stderr)
        # a release of other sources is not compared
        self.clone.add_line("low", "// changed")
        self.assertNotIn("release", self.clone.run("--build").stderr)

    def test_other_sources(self) -> None:
        self.clone.add_line("low", "// changed")
        self.refused(self.made, "was proved from other sources: crates/low/src/lib.rt differ")
        self.clone.add_line("left", "// changed")
        self.refused(self.made, "crates/left/src/lib.rt and 1 more files differ")

    def test_other_list_of_crates(self) -> None:
        with open(self.clone.folder / "crates.txt", "a", encoding="utf-8") as file:
            file.write("# changed\n")
        self.refused(self.made, "was proved from other sources: crates.txt differ")

    def test_kept_program_that_was_damaged(self) -> None:
        """What runs is what was looked at: a kept program of other bytes is replaced."""
        self.clone.run("--release", str(self.made))
        kept = list(self.clone.folder.glob("crates/maplabel/out/release/*/maplabel"))
        self.assertEqual(len(kept), 1)
        kept[0].write_bytes(b"#!/bin/sh\necho other\n")
        ran = self.clone.run("--release", str(self.made), *SHORT)
        self.assertEqual((ran.returncode, ran.stdout), (0, answer(self.clone.folder, SHORT)))

    def test_flipped_byte(self) -> None:
        folder = self.unpacked()
        for name, what in ((PROGRAM, "its program"), ("SOURCES.sha256", "its sources")):
            with self.subTest(name=name):
                data = bytearray((folder / name).read_bytes())
                data[len(data) // 2] ^= 1
                (folder / name).write_bytes(data)
                self.refused(folder, "is damaged", what)
                folder = self.unpacked()

    def test_damaged_file(self) -> None:
        data = self.made.read_bytes()
        path = pathlib.Path(self.clone.room.name) / "damaged.tar.gz"
        # (at the end stands the sum of all, and before it a file that is not looked at by itself)
        for place in (len(data) // 2, len(data) * 9 // 10, len(data) - 8, len(data) - 1):
            flipped = bytearray(data)
            flipped[place] ^= 1
            with self.subTest(flipped=place):
                path.write_bytes(flipped)
                self.refused(path, "is damaged")
        for damaged in (data[: len(data) // 2], data[:-1], b"", b"no release"):
            with self.subTest(length=len(damaged)):
                path.write_bytes(damaged)
                self.refused(path, "is damaged")

    def test_no_release(self) -> None:
        self.refused("gone", "there is no release gone")
        self.refused("docs", "is no release: it has no RELEASE")
        folder = self.unpacked()
        (folder / "RELEASE").write_text("version: 1\n", encoding="utf-8")
        self.refused(folder, "does not tell commit and kit")

    def test_another_processor(self) -> None:
        folder = self.unpacked()
        program = bytearray((folder / PROGRAM).read_bytes())
        before = hashlib.sha256(program).hexdigest()
        program[18] = 183  # the number of the processor in the head of a program
        (folder / PROGRAM).write_bytes(program)
        about = (folder / "RELEASE").read_text(encoding="utf-8")
        total = hashlib.sha256(program).hexdigest()
        (folder / "RELEASE").write_text(about.replace(before, total), encoding="utf-8")
        self.refused(folder, "is for aarch64, and this machine is x86_64")

    def test_program_that_is_not_proved(self) -> None:
        self.build()
        other = self.clone.folder / "other"
        other.write_bytes(self.clone.program.read_bytes() + b"\0")
        made = self.clone.folder / "other.tar.gz"
        dist = self.clone.folder / "deploy" / "dist"
        ran = self.clone.run(str(made), "--program", str(other), launcher=dist)
        self.assertEqual(ran.returncode, 0, ran.stderr)
        self.assertIn("nothing tells that this program was proved", ran.stdout)
        self.refused(made, "nothing tells that the program", "was proved")
        ran = self.clone.run(str(made), "--program", "README.md", launcher=dist)
        self.assertEqual(ran.returncode, 1)
        self.assertIn("README.md is no built program", ran.stderr)

    def test_same_file_twice(self) -> None:
        self.build()
        files = [self.clone.folder.parent / name for name in ("first", "second")]
        for path in files:
            ran = self.clone.run(str(path), launcher=self.clone.folder / "deploy" / "dist")
            self.assertEqual(ran.returncode, 0, ran.stderr)
        self.assertEqual(files[0].read_bytes(), files[1].read_bytes())
        ran = self.clone.run(launcher=self.clone.folder / "deploy" / "dist")
        number = (TOP / "VERSION").read_text(encoding="utf-8").strip()
        self.assertTrue((self.clone.folder / f"maplabel-{number}-x86_64-linux.tar.gz").is_file())

    def test_sums(self) -> None:
        folder = self.unpacked()
        check = ["sha256sum", "--quiet", "-c"]
        subprocess.run([*check, "SHA256SUMS"], cwd=folder, check=True)
        subprocess.run([*check, folder / "SOURCES.sha256"], cwd=self.clone.folder, check=True)
        with tarfile.open(self.made) as tar:
            names = {it.name for it in tar.getmembers() if it.isfile()}
        listed = (folder / "SHA256SUMS").read_text(encoding="utf-8").splitlines()
        wanted = {f"maplabel/{line.partition('  ')[2]}" for line in listed}
        self.assertEqual(wanted | {"maplabel/SHA256SUMS"}, names)

    def test_folder_runs_by_itself(self) -> None:
        launcher = self.unpacked() / "maplabel"
        ran = self.clone.run(*SHORT, launcher=launcher)
        self.assertEqual((ran.stdout, ran.stderr), (answer(self.clone.folder, SHORT), ""))
        ran = self.clone.run("slots", "gone", launcher=launcher)
        self.assertEqual(ran.returncode, 5)
        self.assertIn("there is no file gone", ran.stderr)
        ran = self.clone.run("--quick", "serve", "one", launcher=launcher)
        self.assertEqual(ran.stdout, answer(self.clone.folder, ["serve", "one"]))
        ran = self.clone.run("--version", launcher=launcher)
        number = (TOP / "VERSION").read_text(encoding="utf-8").strip()
        self.assertIn(f"maplabel {number} (commit ", ran.stdout)
        self.assertIn("kit: stand-in\nprogram: proved where the release was made", ran.stdout)
        ran = self.clone.run("--build", launcher=launcher)
        self.assertEqual(ran.returncode, FAILED)
        self.assertIn("this is a release", ran.stderr)
        ran = self.clone.run("--release", str(self.made), *SHORT, launcher=launcher)
        self.assertEqual((ran.returncode, ran.stdout), (FAILED, ""))
        self.assertIn("this is a release itself", ran.stderr)
        self.assertEqual(self.clone.rows(), [])
