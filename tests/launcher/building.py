"""Builds over a small repository and a stand-in for the kit: what is proved, in which order, and
what is left where a build is interrupted or fails.
"""

import fcntl
import os
import pathlib
import shutil
import signal
import subprocess
import sys
import time

from case import FAILED, SHORT, USAGE, WORDS, Case, answer
from checkout import NEEDED, wait_until


class Building(Case):
    def test_fresh_clone(self) -> None:
        ran = self.clone.run(*WORDS)
        self.assertEqual((ran.returncode, ran.stdout), (0, answer(self.clone.folder, WORDS)))
        self.assertEqual(sorted(self.clone.calls()), sorted(NEEDED))
        ended = [line for line in ran.stderr.splitlines() if " is proved, " in line]
        self.assertEqual(len(ended), len(NEEDED), ran.stderr)
        self.assertEqual(self.clone.left(), [])

    def test_second_start(self) -> None:
        self.build()
        begun = time.monotonic()
        ran = self.clone.run(*WORDS)
        self.assertLess(time.monotonic() - begun, 1)
        self.assertEqual((ran.stdout, ran.stderr), (answer(self.clone.folder, WORDS), ""))
        self.assertEqual(self.clone.calls(), [])

    def test_goes_on_where_a_crate_is_done(self) -> None:
        self.build()
        self.clone.add_line("upper", "// changed")
        self.clone.run("--build")
        self.assertEqual(self.clone.calls(), ["upper", "maplabel"])

    def test_same_text_is_not_proved_again(self) -> None:
        self.build()
        for path in ("crates.txt", "crates/low/src/lib.rt"):
            os.utime(self.clone.folder / path)
        ran = self.clone.run(*SHORT)
        self.assertEqual(
            (ran.stdout, ran.stderr, self.clone.calls()), (answer(self.clone.folder, SHORT), "", [])
        )

    def test_source_with_an_older_time(self) -> None:
        self.build()
        self.clone.add_line("low", "// changed")
        os.utime(self.clone.source("low"), (0, 0))
        self.clone.run(*SHORT)
        self.assertEqual(sorted(self.clone.calls()), sorted(NEEDED))

    def test_source_that_is_gone(self) -> None:
        self.build()
        (self.clone.folder / "crates" / "right" / "proofs" / "Lib.antt").unlink()
        self.clone.run(*SHORT)
        self.assertEqual(self.clone.calls(), ["right", "maplabel"])

    def test_source_of_another_name(self) -> None:
        (self.clone.folder / "crates" / "right" / "specs" / "More.antt").write_text("-- more\n")
        self.build()
        specs = self.clone.folder / "crates" / "right" / "specs"
        (specs / "More.antt").rename(specs / "Other.antt")
        self.clone.run(*SHORT)
        self.assertEqual(self.clone.calls(), ["right", "maplabel"])

    def test_what_was_built_is_replaced(self) -> None:
        """Neither a library nor a program that something else put there counts as proved, and
        nothing is proved over such a library.
        """
        self.build()
        os.utime(self.clone.folder / "crates/left/out/statements/left.rlib")
        self.clone.run("--build")
        self.assertEqual(self.clone.calls(), [])
        self.clone.program.write_bytes(self.clone.program.read_bytes() + b"\0")
        os.utime(self.clone.program, (0, 0))
        self.clone.run("--build")
        self.assertEqual(self.clone.calls(), ["left", "upper", "maplabel"])

    def test_edit_in_mid_build(self) -> None:
        build = self.clone.start("--build", STAND_IN_PAUSE="0.5")
        wait_until(lambda: "left" in self.clone.calls())
        self.clone.add_line("low", "// changed in mid-build")
        self.assertEqual(build.communicate()[1].count(" is proved, "), len(NEEDED))
        self.clone.forget()
        self.clone.run(*SHORT)
        self.assertEqual(sorted(self.clone.calls()), sorted(NEEDED))

    def test_crate_that_is_no_part_of_the_program(self) -> None:
        self.build()
        self.clone.add_line("apart", "// changed")
        self.clone.run("--build")
        self.assertEqual(self.clone.calls(), [])

    def test_without_git(self) -> None:
        shutil.rmtree(self.clone.folder / ".git")
        ran = self.clone.run(*WORDS)
        self.assertEqual((ran.returncode, ran.stdout), (0, answer(self.clone.folder, WORDS)))

    def test_after_a_copy(self) -> None:
        self.build()
        copy = self.clone.folder.parent / "a copy"
        subprocess.run(["cp", "-a", self.clone.folder, copy], check=True)
        ran = self.clone.run("--version", launcher=copy / "maplabel")
        self.assertIn("built and fresh, by the texts", ran.stdout)
        ran = self.clone.run(*SHORT, launcher=copy / "maplabel", folder=copy)
        self.assertEqual((ran.stdout, ran.stderr), (answer(copy, SHORT), ""))
        self.assertEqual(self.clone.calls(), [])
        ran = self.clone.run("--version", launcher=copy / "maplabel")
        self.assertIn("proved program: built and fresh\n", ran.stdout)
        # a change of a text is seen in the copy too
        with open(copy / "crates" / "low" / "src" / "lib.rt", "a", encoding="utf-8") as file:
            file.write("// changed\n")
        ran = self.clone.run("--version", launcher=copy / "maplabel")
        self.assertIn("older than its sources", ran.stdout)

    def test_kit_of_another_name(self) -> None:
        ran = self.clone.run("--build", STAND_IN_NAME="stand-in of another day")
        self.assertEqual(ran.returncode, 0)
        lines = [it for it in ran.stderr.splitlines() if "README.md names is stand-in" in it]
        self.assertEqual(len(lines), 1, ran.stderr)
        self.assertIn("the kit here is stand-in of another day", lines[0])
        # what another kit proved is proved anew
        self.clone.forget()
        self.assertNotIn("README.md names is", self.clone.run("--build").stderr)
        self.assertEqual(sorted(self.clone.calls()), sorted(NEEDED))

    def test_end_of_a_build_is_told(self) -> None:
        told = self.clone.run(*SHORT).stderr.splitlines()
        self.assertRegex(told[-2], r"^maplabel: proved and built in 0:\d\d; removes its copy")
        self.assertEqual(told[-1], "maplabel: runs slots")

    def test_side_by_side(self) -> None:
        for processors in (1, 2):
            with self.subTest(processors=processors):
                self.clone.forget()
                self.clone.add_line("low", "// changed")
                if processors > 1:
                    self.clone.add_line("left", "MEETS")
                able = ",".join(map(str, sorted(os.sched_getaffinity(0))[:processors]))
                self.clone.run("--build", before=["taskset", "-c", able], STAND_IN_PAUSE="0.3")
                self.assertEqual(max(map(len, self.clone.together())), processors)

    def test_longest_chain_goes_before(self) -> None:
        own, provers = os.nice(0), min(len(os.sched_getaffinity(0)), 3)
        for more in (0, 3):
            with self.subTest(more=more):
                self.clone.forget()
                self.clone.add_line("low", "// changed")
                self.clone.run("--build", before=["nice", "-n", str(more)])
                begun = self.clone.begun()
                for name in ("low", "left", "upper", "maplabel"):
                    self.assertEqual(begun[name], (provers, min(own + more, 19)), name)
                # (it is begun beside left, behind which there is more than twice as much)
                self.assertEqual(begun["other"], (1, min(own + more + 19, 19)))


class Ending(Case):
    def test_interrupt_on_a_terminal(self) -> None:
        seen, status = self.clone.on_terminal(
            "--build", keys=b"\x03", when=lambda: "left" in self.clone.calls(), STAND_IN_PAUSE="1"
        )
        self.assertEqual(status, 128 + signal.SIGINT, seen)
        self.assertIn("what is done is kept", seen)
        self.check_goes_on()

    def test_signals(self) -> None:
        for number in (signal.SIGINT, signal.SIGTERM, signal.SIGHUP):
            with self.subTest(signal=number):
                self.clone.forget()
                self.clone.add_line("left", "// changed")
                build = self.clone.start("--build", STAND_IN_PAUSE="1")
                wait_until(lambda: "left" in self.clone.calls())
                build.send_signal(number)
                self.assertEqual(build.wait(), 128 + number, build.communicate())
                self.check_goes_on()

    def test_second_signal_disturbs_nothing(self) -> None:
        self.clone.add_line("left", "STUBBORN")
        build = self.clone.start("--build", STAND_IN_PAUSE="3")
        wait_until(lambda: "left" in self.clone.calls())
        time.sleep(0.3)
        build.send_signal(signal.SIGINT)
        time.sleep(0.3)
        build.send_signal(signal.SIGTERM)
        self.assertEqual(build.wait(), 128 + signal.SIGINT, build.communicate())
        self.nothing_is_at_work()
        self.assertEqual(self.clone.left(), [])

    def test_hangup_that_is_ignored(self) -> None:
        """nohup keeps SIGHUP away from a build."""
        build = subprocess.Popen(
            ["sh", "-c", "trap '' HUP; exec ./maplabel --build"],
            cwd=self.clone.folder,
            env={**self.clone.env, "STAND_IN_PAUSE": "0.5"},
            stderr=subprocess.PIPE,
            text=True,
        )
        wait_until(lambda: "left" in self.clone.calls())
        build.send_signal(signal.SIGHUP)
        said = build.communicate()[1]
        self.assertEqual((build.returncode, said.count(" is proved, ")), (0, len(NEEDED)), said)

    def test_all_that_a_check_started_ends(self) -> None:
        self.clone.add_line("left", "FORKS")
        build = self.clone.start("--build", STAND_IN_PAUSE="1")
        wait_until(lambda: "left" in self.clone.calls())
        time.sleep(0.3)
        build.send_signal(signal.SIGINT)
        self.assertEqual(build.wait(), 128 + signal.SIGINT, build.communicate())
        self.nothing_is_at_work()

    def nothing_is_at_work(self) -> None:
        """All that the launcher has started is gone within a moment."""
        try:
            wait_until(lambda: not self.clone.processes(), 3)
        except AssertionError:
            self.fail(f"at work: {self.clone.commands()}")

    def check_goes_on(self) -> None:
        """Nothing is at work, nothing half made counts as done, and the next start proves what was
        not.
        """
        self.nothing_is_at_work()
        self.assertEqual(self.clone.left(), [])
        done = set(self.clone.calls("ends"))
        self.clone.forget()
        ran = self.clone.run(*WORDS)
        self.assertEqual((ran.returncode, ran.stdout), (0, answer(self.clone.folder, WORDS)))
        self.assertIn("left", self.clone.calls())
        self.assertEqual(done & set(self.clone.calls()), set())

    def test_killed(self) -> None:
        build = self.clone.start("--build", STAND_IN_PAUSE="1")
        wait_until(lambda: "left" in self.clone.calls())
        build.kill()
        build.communicate()
        ran = self.clone.run(*WORDS)
        self.assertEqual((ran.returncode, ran.stdout), (0, answer(self.clone.folder, WORDS)))
        self.assertEqual(self.clone.left(), [])
        # what the killed one began came to its end first
        of_left = [
            line.split()[1:]
            for line in self.clone.log.read_text(encoding="utf-8").splitlines()
            if " left " in line
        ]
        self.assertEqual([row[0] for row in of_left], ["begins", "ends", "begins", "ends"])

    def test_spoilt_source(self) -> None:
        self.clone.add_line("left", "SPOILT")
        ran = self.clone.run(*SHORT, STAND_IN_PAUSE="0.3")
        self.assertEqual((ran.returncode, ran.stdout), (FAILED, ""))
        self.assertIn("failed in crates/left", ran.stderr)
        self.assertIn("src/lib.rt:1:1: error: this is spoilt", ran.stderr)
        self.assertNotIn("checked good", ran.stderr)
        self.assertNotIn("upper", self.clone.calls())
        self.assertIn(
            "error: this is spoilt",
            (self.clone.folder / "crates/left/out/build.log").read_text(encoding="utf-8"),
        )
        self.clone.source("left").write_text("// mended\n", encoding="utf-8")
        self.assertEqual(self.clone.run(*SHORT).returncode, 0)

    def test_spoilt_list_of_crates(self) -> None:
        for text, sentence in (
            ("low:\n", "no line for maplabel"),
            ("maplabel: low\nlow: maplabel\n", "uses itself"),
            ("maplabel: low\n: low\n", "no crate is named"),
            ("maplabel: gone\ngone:\n", "crates/gone"),
        ):
            with self.subTest(text=text):
                (self.clone.folder / "crates.txt").write_text(text, encoding="utf-8")
                ran = self.clone.run(*SHORT)
                self.assertEqual(ran.returncode, FAILED)
                self.assertIn(sentence, ran.stderr)

    def test_status_0_without_a_verdict(self) -> None:
        self.clone.add_line("left", "DOUBTS")
        ran = self.clone.run(*SHORT)
        self.assertEqual((ran.returncode, ran.stdout), (FAILED, ""))
        self.assertIn("does not prove crates/left: it ended with status 0, but", ran.stderr)
        self.assertIn("bugs=1", ran.stderr)
        self.assertNotIn("upper", self.clone.calls())
        self.assertFalse((self.clone.folder / "crates/left/out/statements").exists())

    def test_program_that_fails_its_trial(self) -> None:
        ran = self.clone.run(*SHORT, STAND_IN_TRIAL="fails")
        self.assertEqual((ran.returncode, ran.stdout), (FAILED, ""))
        self.assertIn("failed in crates/maplabel with status 7", ran.stderr)
        self.assertFalse(self.clone.program.exists())

    def test_check_that_is_killed_runs_again_alone(self) -> None:
        self.clone.add_line("left", "HUNGRY")
        self.clone.add_line("other", "SLOW")
        ran = self.clone.run(*SHORT, STAND_IN_PAUSE="0.5")
        self.assertEqual(ran.returncode, 0, ran.stderr)
        self.assertEqual(self.clone.calls().count("left"), 2)
        self.assertEqual(self.clone.begun()["left"][0], 1)
        together = self.clone.together()
        again = max(place for place, crates in enumerate(together) if crates[-1] == "left")
        self.assertEqual(together[again], ["left"])
        self.assertFalse(any("left" in crates for crates in together[again + 1 :]))

    def test_without_the_kit(self) -> None:
        able = pathlib.Path(self.clone.room.name) / "bin"
        able.mkdir()
        (able / "python3").symlink_to(sys.executable)
        for name in ("readlink", "dirname", "find", "sh", "git"):
            (able / name).symlink_to(os.path.realpath(shutil.which(name) or name))
        for words in (SHORT, ["--quick", *SHORT]):
            ran = self.clone.run(*words, PATH=str(able))
            self.assertEqual(ran.returncode, FAILED, ran.stderr)
            self.assertIn("install the kit", ran.stderr)
            self.assertIn("--release FILE", ran.stderr)


class Together(Case):
    def test_two_starts_at_once(self) -> None:
        both = [self.clone.start(*WORDS, STAND_IN_PAUSE="0.2") for _ in range(2)]
        told = ""
        for ran in both:
            printed, said = ran.communicate()
            self.assertEqual(printed, answer(self.clone.folder, WORDS))
            told += said
        self.assertEqual(
            (told.count("proves and builds"), told.count("another build")), (1, 1), told
        )
        self.assertEqual(sorted(self.clone.calls()), sorted(NEEDED))

    def test_beside_an_rt_in_a_crate(self) -> None:
        """What `rt` keeps of a crate that it works in is left alone."""
        kept = self.clone.folder / "crates" / "right" / "out" / "rlib" / "kept"
        kept.parent.mkdir(parents=True)
        kept.write_text("kept", encoding="utf-8")
        folder = os.open(kept.parents[2], os.O_RDONLY)
        self.addCleanup(os.close, folder)
        fcntl.flock(folder, fcntl.LOCK_EX)
        ran = self.clone.run("--build")
        self.assertEqual(ran.returncode, 0, ran.stderr)
        self.assertEqual(kept.read_text(encoding="utf-8"), "kept")


class Measure(Case):
    def test_all_parts(self) -> None:
        ran = self.clone.run(launcher=self.clone.folder / "bench" / "start")
        self.assertEqual(ran.returncode, 0, ran.stderr)
        for row in (
            "quick: the answer",
            "build: the proved program",
            "two: the proved program",
            "chain: 4 crates",
        ):
            self.assertIn(row, ran.stdout)
        chain = ran.stdout.partition("chain: ")[2].splitlines()[1:5]
        self.assertEqual([row.split()[-1] for row in chain], ["low", "left", "upper", "maplabel"])

    def test_times_are_written(self) -> None:
        ran = self.clone.run("times", launcher=self.clone.folder / "bench" / "start")
        self.assertEqual(ran.returncode, 0, ran.stderr)
        head, *rows = (
            (self.clone.folder / "launch" / "times.txt").read_text(encoding="utf-8").splitlines()
        )
        self.assertTrue(head.startswith("# "))
        self.assertEqual(sorted(row.split()[0] for row in rows), sorted(NEEDED))
        # what was written is read
        self.build()
        (self.clone.folder / "launch" / "times.txt").write_text("low many\n", encoding="utf-8")
        self.clone.add_line("low", "// changed")
        ran = self.clone.run("--build")
        self.assertEqual(ran.returncode, FAILED)
        self.assertIn("times.txt cannot be read", ran.stderr)

    def test_failures(self) -> None:
        self.assertEqual(
            self.clone.run("all", launcher=self.clone.folder / "bench" / "start").returncode, USAGE
        )
        (self.clone.folder / "README.md").write_text("nothing", encoding="utf-8")
        ran = self.clone.run("quick", launcher=self.clone.folder / "bench" / "start")
        self.assertEqual(ran.returncode, 1)
        self.assertIn("README.md has no command", ran.stderr)
