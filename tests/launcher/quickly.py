"""Answers without a proof: `--quick`."""

import pathlib
import signal
import time

from case import FAILED, SHORT, WORDS, Case, answer
from checkout import wait_until


class Quick(Case):
    def kept(self) -> list[pathlib.Path]:
        """The programs that are kept."""
        return sorted(self.clone.folder.glob("crates/maplabel/out/quick/*/maplabel"))

    def test_second_answer_comes_at_once(self) -> None:
        ran = self.clone.run("--quick", *WORDS)
        self.assertEqual((ran.returncode, ran.stdout), (0, answer(self.clone.folder, WORDS)))
        self.assertIn("nothing of what it answers is proved", ran.stderr)
        self.assertEqual(
            (self.clone.compiled(), self.clone.tries(), self.clone.calls()), (1, 0, [])
        )
        begun = time.monotonic()
        ran = self.clone.run("--quick", *SHORT)
        self.assertLess(time.monotonic() - begun, 1)
        self.assertEqual(ran.stdout, answer(self.clone.folder, SHORT))
        self.assertEqual(len(ran.stderr.splitlines()), 1, ran.stderr)
        self.assertIn("nothing of what it answers is proved", ran.stderr)
        self.assertEqual((self.clone.compiled(), len(self.kept())), (1, 1))
        # nothing of the making is left
        left = [it.name for it in self.kept()[0].parents[1].iterdir()]
        self.assertEqual(sorted(left), sorted(["lock", self.kept()[0].parent.name]))

    def test_in_the_folder_of_the_caller(self) -> None:
        ran = self.clone.run("--quick", "slots", "../one", folder=self.clone.folder / "docs")
        self.assertEqual(ran.stdout, answer(self.clone.folder / "docs", ["slots", "../one"]))

    def test_standard_input(self) -> None:
        ran = self.clone.run("--quick", "pipe", "one", "two", given="a\nb")
        self.assertEqual(ran.stdout, answer(self.clone.folder, ["pipe", "one", "two"]) + "a\nb")

    def test_changed_source_is_compiled(self) -> None:
        self.clone.run("--quick", *SHORT)
        for name, line in (("low", "// changed"), ("maplabel", "// changed too")):
            self.clone.add_line(name, line)
            self.clone.run("--quick", *SHORT)
        self.assertEqual((self.clone.compiled(), len(self.kept())), (3, 3))
        # proofs are not compiled, nor is a crate that is no part of the program
        with open(self.clone.folder / "crates/low/proofs/Lib.antt", "a", encoding="utf-8") as file:
            file.write("-- changed\n")
        self.clone.add_line("apart", "// changed")
        self.clone.run("--quick", *SHORT)
        self.assertEqual(self.clone.compiled(), 3)
        # another kit compiles anew
        self.clone.run("--quick", *SHORT, STAND_IN_NAME="another")
        self.assertEqual(self.clone.compiled(), 4)

    def test_old_programs_are_removed(self) -> None:
        for number in range(6):
            self.clone.add_line("low", f"// change {number}")
            self.clone.run("--quick", *SHORT)
        self.assertEqual(len(self.kept()), 4)
        self.clone.run("--quick", *SHORT)
        self.assertEqual(self.clone.compiled(), 6)

    def test_programs_that_were_used_last_are_kept(self) -> None:
        texts = [f"// text {number}\n" for number in range(5)]
        for text in (*texts[:4], texts[0], texts[4], texts[0]):
            self.clone.source("low").write_text(text, encoding="utf-8")
            self.clone.run("--quick", *SHORT)
        # the first is kept, and the second was used before all others
        self.assertEqual((self.clone.compiled(), len(self.kept())), (5, 4))
        self.clone.source("low").write_text(texts[1], encoding="utf-8")
        self.clone.run("--quick", *SHORT)
        self.assertEqual(self.clone.compiled(), 6)

    def test_spoilt_source(self) -> None:
        self.clone.add_line("left", "SPOILT")
        ran = self.clone.run("--quick", *SHORT)
        self.assertEqual((ran.returncode, ran.stdout), (FAILED, ""))
        self.assertIn("the sources do not compile", ran.stderr)
        self.assertIn("left/src/lib.rt:1:1: error[spoilt]: this is spoilt", ran.stderr)
        self.assertEqual((self.clone.tries(), self.kept()), (0, []))

    def test_kit_that_compiles_in_another_way(self) -> None:
        """`rt try` answers, on copies of the caller's files in a folder of its own."""
        one = pathlib.Path(self.clone.room.name) / "a file"
        one.write_text("one", encoding="utf-8")
        words = ["check", str(one), "two"]
        ran = self.clone.run("--quick", *words, STAND_IN_TRY="other")
        self.assertEqual((ran.returncode, ran.stdout), (0, "<check>\n<one>\n<two\n>\n"), ran.stderr)
        self.assertIn("answers by `rt try`", ran.stderr)
        self.assertIn("nothing of what it answers is proved", ran.stderr)
        # what the program says, and not what `rt try` adds to it
        self.assertTrue(ran.stderr.endswith("said by the program\n"), ran.stderr)
        self.assertEqual((self.clone.tries(), self.kept()), (1, []))

    def test_file_of_the_crate_is_none_of_the_caller(self) -> None:
        """`rt try` runs in the crate's folder, whose files are not those that a word names."""
        (self.clone.folder / "docs" / "FORMATS.md").unlink()
        ran = self.clone.run("--quick", "any", "data/two.table", STAND_IN_TRY="other")
        self.assertEqual((ran.returncode, ran.stdout), (0, "<any>\n<none1>\n"), ran.stderr)

    def test_program_that_fails_its_trial(self) -> None:
        ran = self.clone.run("--quick", *SHORT, STAND_IN_TRIAL="fails")
        self.assertEqual((ran.returncode, ran.stdout), (0, "<slots>\n<one\n>\n"), ran.stderr)
        self.assertIn("maplabel ended with status 7", ran.stderr)
        self.assertEqual((self.clone.tries(), self.kept()), (1, []))

    def test_module_that_is_not_made_lighter(self) -> None:
        ran = self.clone.run("--quick", *SHORT, STAND_IN_LIGHT="fails")
        self.assertEqual((ran.returncode, ran.stdout), (0, answer(self.clone.folder, SHORT)))
        self.assertEqual((self.clone.tries(), len(self.kept())), (0, 1))

    def test_two_at_once(self) -> None:
        both = [self.clone.start("--quick", *SHORT, STAND_IN_PAUSE="1") for _ in range(2)]
        told = ""
        for ran in both:
            printed, said = ran.communicate()
            self.assertEqual(printed, answer(self.clone.folder, SHORT))
            told += said
        self.assertEqual(told.count("waiting for its end"), 1, told)
        self.assertEqual(self.clone.compiled(), 1)

    def test_interrupted(self) -> None:
        ran = self.clone.start("--quick", *SHORT, STAND_IN_PAUSE="30")
        wait_until(lambda: self.clone.compiled() == 1)
        ran.send_signal(signal.SIGINT)
        self.assertEqual(ran.wait(10), 128 + signal.SIGINT, ran.communicate())
        wait_until(lambda: not self.clone.processes(), 5)
        folder = self.clone.folder / "crates/maplabel/out/quick"
        self.assertEqual([it.name for it in folder.iterdir()], ["lock"])

    def test_built_and_fresh(self) -> None:
        self.build()
        ran = self.clone.run("--quick", *WORDS)
        self.assertEqual((ran.stdout, ran.stderr), (answer(self.clone.folder, WORDS), ""))
        self.clone.add_line("low", "// changed")
        self.assertIn("is proved", self.clone.run("--quick", *SHORT).stderr)
        self.assertEqual((self.clone.compiled(), self.clone.calls()), (1, []))

    def test_server(self) -> None:
        server = self.clone.start("--quick", "serve", "one", "two", "7", "1")
        wait_until(lambda: len(self.kept()) == 1)
        time.sleep(1)
        server.terminate()
        self.assertEqual(server.wait(10), -signal.SIGTERM, server.communicate())
        wait_until(lambda: not self.clone.processes(), 5)
