"""What the launcher says to words and files: before it builds, and behind the program's own
answer.
"""

import os
import pathlib
import signal
import subprocess
import time

from case import FAILED, SHORT, USAGE, WORDS, Case, answer
from checkout import TOP, wait_until

REFUSED, FILE_FAULT, TOO_LONG = 3, 5, 10
# Words of no form and of some.
ANY: list[list[str]] = [
    [],
    [""],
    ["a b", "  "],
    ["--other"],
    ["x", "--help"],
    ["serve", "a b", ""],
    WORDS,
]
VIEW = ["view", "one", "two", "0", "0", "1024", "512", "3515625"]
STYLE = 'version = 1\n\n[[class]]\ngeometry = "point"\nfont = "sans"\nmin = "BAD"\n'


class Unbuilt(Case):
    """Nothing is built, and what is wrong is told before anything begins."""

    def test_no_command(self) -> None:
        self.expect([], USAGE, "no command is told", "  view STYLE MAP CX CY W H SCALE\n")
        self.expect(["--quick"], USAGE, "no command is told")

    def test_wrong_command(self) -> None:
        self.expect(["veiw"], USAGE, "no command veiw; perhaps view is meant")
        self.expect(["--quick", "veiw"], USAGE, "no command veiw; perhaps view is meant")
        self.expect(["--other", "x"], USAGE, "no command --other", "the commands are view, show")

    def test_number_of_words(self) -> None:
        form = "the form is: view STYLE MAP CX CY W H SCALE"
        self.expect(VIEW[:6], USAGE, "view: H and SCALE are missing", form, "help view")
        self.expect(VIEW[:5], USAGE, "view: W, H and SCALE are missing", form)
        self.expect(VIEW[:7], USAGE, "view: SCALE is missing", form)
        self.expect([*VIEW, "a b"], USAGE, "view: too many words, from 'a b' on", form)

    def test_words_of_another_kind(self) -> None:
        for place, word, sentence in (
            (3, "x", "CX is x, but it has to be a whole number of 10^-7 degree"),
            (4, "2000000001", "CY is 2000000001"),
            (5, "1025", "W is 1025, but it has to be a whole number of pixels, even"),
            (6, "0", "H is 0"),
            (7, "0", "SCALE is 0, but it has to be a fraction"),
            (7, "1/65537", "SCALE is 1/65537"),
        ):
            with self.subTest(word=word):
                self.expect([*VIEW[:place], word, *VIEW[place + 1 :]], USAGE, sentence)
        self.expect(["serve", "one", "two", "0", "1"], USAGE, "PORT is 0", "from 1 to 65535")
        self.expect(["gen", "6001", "0"], USAGE, "N is 6001", "from 1 to 6000")

    def test_files(self) -> None:
        where = str(self.clone.folder)
        self.expect(["slots", "gone"], FILE_FAULT, f"there is no file gone in {where}")
        self.expect(["--quick", "slots", "gone"], FILE_FAULT, "there is no file gone")
        self.expect(["view", "gone", *VIEW[2:]], FILE_FAULT, "no file gone")
        self.expect(["view", "one", "gone", *VIEW[3:]], FILE_FAULT, "no file gone")
        self.expect(["slots", ""], FILE_FAULT, "there is no file ''")
        self.expect(["slots", "docs"], FILE_FAULT, "docs is a folder")
        with open(self.clone.folder / "long", "wb") as file:
            file.truncate(67_108_865)
        self.expect(["slots", "long"], TOO_LONG, "67,108,865 bytes")

    def test_longest_file(self) -> None:
        with open(self.clone.folder / "longest", "wb") as file:
            file.truncate(67_108_864)
        ran = self.clone.run("slots", "longest")
        self.assertEqual(
            (ran.returncode, ran.stdout), (0, answer(self.clone.folder, ["slots", "longest"]))
        )

    def test_file_that_may_not_be_read(self) -> None:
        (self.clone.folder / "one").chmod(0)
        if os.geteuid() == 0:
            # (the superuser reads all files, so another user asks)
            for it in (self.clone.folder.parent, self.clone.folder):
                it.chmod(0o755)
            before = ["setpriv", "--reuid=65534", "--regid=65534", "--clear-groups"]
            ran = self.clone.run(*SHORT, before=[*before, "env", "GIT_DIR=none"])
        else:
            ran = self.clone.run(*SHORT)
        self.assertEqual((ran.returncode, ran.stdout), (FILE_FAULT, ""), ran.stderr)
        self.assertIn("one cannot be read: Permission denied", ran.stderr)

    def test_pipe_is_no_fault(self) -> None:
        os.mkfifo(self.clone.folder / "a pipe")
        ran = self.clone.run("slots", "a pipe")
        self.assertEqual(
            (ran.returncode, ran.stdout), (0, answer(self.clone.folder, ["slots", "a pipe"]))
        )

    def test_options_of_the_launcher(self) -> None:
        for word in ("--version", "--build"):
            self.expect([word, "more"], USAGE, "takes no further words")
        self.expect(["help", "nix"], USAGE, "there is no command nix")
        self.expect(["help", "view", "more"], USAGE, "help takes one command")
        self.expect(["--release"], USAGE, "--release needs the name of a release")

    def test_without_the_table(self) -> None:
        """Where docs/ is not there, the words go to the program as they are."""
        (self.clone.folder / "docs" / "FORMATS.md").unlink()
        ran = self.clone.run("any", "words")
        self.assertEqual(ran.stdout, answer(self.clone.folder, ["any", "words"]))


class Helps(Case):
    def test_help(self) -> None:
        told = [self.clone.run(word) for word in ("--help", "-h", "help")]
        self.assertEqual({(ran.returncode, ran.stderr) for ran in told}, {(0, "")})
        self.assertEqual(len({ran.stdout for ran in told}), 1)
        for words in ("view STYLE MAP CX CY W H SCALE", "follow STATES", "gen N K"):
            self.assertIn(f"  {words}\n", told[0].stdout)

    def test_help_of_a_command(self) -> None:
        table = (TOP / "docs" / "FORMATS.md").read_text(encoding="utf-8")
        for name in ("view", "show", "slots", "check", "gaps", "gapview", "zoom", "pipe", "serve"):
            with self.subTest(name=name):
                told = [
                    self.clone.run(*it) for it in (["help", name], [name, "-h"], [name, "--help"])
                ]
                self.assertEqual({(ran.returncode, ran.stderr) for ran in told}, {(0, "")})
                self.assertEqual(len({ran.stdout for ran in told}), 1)
                form = told[0].stdout.splitlines()[0].removeprefix("Usage: maplabel ")
                self.assertIn(f"| `{form}` |", table)
                self.assertIn(f"\n  ./maplabel {name} ", told[0].stdout)
        self.assertEqual(self.clone.rows(), [])

    def test_version(self) -> None:
        ran = self.clone.run("--version")
        commit = subprocess.run(
            ["git", "-C", str(self.clone.folder), "rev-parse", "--short", "HEAD"],
            capture_output=True,
            text=True,
            check=True,
        ).stdout.strip()
        number = (TOP / "VERSION").read_text(encoding="utf-8").strip()
        lines = [
            f"maplabel {number} (commit {commit})",
            "kit: stand-in",
            "proved program: not built",
        ]
        self.assertEqual((ran.returncode, ran.stdout.splitlines()), (0, lines))
        self.assertEqual(self.clone.calls(), [])
        told = self.clone.run("--version", STAND_IN_NAME="another").stdout
        self.assertIn("README.md names another: stand-in", told)

    def test_version_without_the_kit(self) -> None:
        path = "/usr/bin:/bin"
        told = self.clone.run("--version", PATH=path).stdout
        self.assertIn("kit: not found", told)
        self.assertIn("proved program: not built", told)
        self.build()
        told = self.clone.run("--version", PATH=path).stdout
        self.assertIn("proved program: built and fresh", told)
        os.utime(self.clone.folder / "crates.txt")
        told = self.clone.run("--version", PATH=path).stdout
        self.assertIn("built; without the kit it cannot be told whether from these sources", told)


class Built(Case):
    """The proved program is there: its own output stays byte for byte, and more is told beside
    it.
    """

    def setUp(self) -> None:
        super().setUp()
        self.build()

    def test_words(self) -> None:
        """Words of no form reach the program too."""
        for words in ANY:
            with self.subTest(words=words):
                ran = self.clone.run(*words)
                self.assertEqual(ran.stdout, answer(self.clone.folder, words))
                self.assertEqual(ran.returncode, 0 if words else USAGE)
                self.assertEqual("--help" in ran.stderr, not words)

    def test_wrong_words(self) -> None:
        words = ["view", "one", "two", "0", "0", "1025", "512", "1"]
        for before in ((), ("--quick",)):
            ran = self.clone.run(*before, *words)
            self.assertEqual(
                (ran.returncode, ran.stdout), (USAGE, answer(self.clone.folder, words))
            )
            self.assertIn("W is 1025", ran.stderr)
            self.assertIn("help view", ran.stderr)

    def test_missing_file(self) -> None:
        ran = self.clone.run("slots", "gone")
        self.assertEqual(
            (ran.returncode, ran.stdout), (5, answer(self.clone.folder, ["slots", "gone"]))
        )
        self.assertIn("there is no file gone", ran.stderr)

    def test_file_that_is_too_long(self) -> None:
        with open(self.clone.folder / "long", "wb") as file:
            file.truncate(67_108_865)
        ran = self.clone.run("slots", "long")
        self.assertEqual(
            (ran.returncode, ran.stdout), (TOO_LONG, answer(self.clone.folder, ["slots", "long"]))
        )
        self.assertIn("67,108,865 bytes", ran.stderr)

    def test_port_that_is_taken(self) -> None:
        words = ["serve", "one", "two", "80", "1"]
        ran = self.clone.run(*words)
        self.assertEqual((ran.returncode, ran.stdout), (8, answer(self.clone.folder, words)))
        self.assertIn("it cannot listen at the port", ran.stderr)

    def test_help_of_a_command(self) -> None:
        """Help is the launcher's, though the program is there."""
        for words in (["view", "--help"], ["view", "-h"], ["help", "view"]):
            with self.subTest(words=words):
                ran = self.clone.run(*words)
                self.assertEqual((ran.returncode, ran.stderr), (0, ""))
                self.assertTrue(ran.stdout.startswith("Usage: maplabel view STYLE MAP"))

    def test_refused_style(self) -> None:
        (self.clone.folder / "style").write_text(STYLE, encoding="utf-8")
        line = "style refused: 4 BadClass 0 min\n"
        for words in (["view", "style", *VIEW[2:]], ["serve", "style", "two", "8", "1"]):
            ran = self.clone.run(*words)
            self.assertEqual(ran.returncode, REFUSED)
            self.assertEqual(ran.stdout, answer(self.clone.folder, words) + line)
            # the file, the line and what a `min` is
            self.assertIn("style, line 6", ran.stderr)
            self.assertIn("a number or a fraction", ran.stderr)
            # once more it is asked for a view, never to serve
            refused = self.clone.folder / "refused"
            self.assertEqual(refused.read_text(encoding="utf-8").split(), [words[0], "view"])
            refused.unlink()

    def test_refused_style_without_the_table(self) -> None:
        (self.clone.folder / "style").write_text(STYLE, encoding="utf-8")
        (self.clone.folder / "python").rename(self.clone.folder / "elsewhere")
        ran = self.clone.run("view", "style", *VIEW[2:])
        self.assertEqual((ran.returncode, ran.stderr), (REFUSED, ""))

    def test_another_folder_and_a_link(self) -> None:
        room = pathlib.Path(self.clone.room.name)
        (room / "bin").mkdir()
        (room / "bin" / "called so").symlink_to(self.clone.folder / "maplabel")
        (room / "again").symlink_to("bin/called so")
        links = [room / "again", room / "bin" / "called so", self.clone.folder / "maplabel"]
        for launcher in ["../a clone/maplabel", *map(str, links)]:
            for words in (SHORT, ["serve", "x"]):
                with self.subTest(launcher=launcher, words=words):
                    ran = self.clone.run(*words, launcher=launcher, folder=room / "bin")
                    self.assertEqual(ran.stdout, answer(os.path.realpath(room / "bin"), words))

    def test_standard_input(self) -> None:
        ran = self.clone.run("pipe", "one", "two", given="a\nb")
        self.assertEqual(ran.stdout, answer(self.clone.folder, ["pipe", "one", "two"]) + "a\nb")

    def test_signals_reach_a_server(self) -> None:
        for number in (signal.SIGTERM, signal.SIGINT, signal.SIGHUP, signal.SIGKILL):
            with self.subTest(signal=number):
                server = self.clone.start("serve", "one", "two", "7", "1")
                wait_until(self.is_serving)
                server.send_signal(number)
                self.assertEqual(server.wait(20), -number)
                # (looked at first: what is still at work holds the pipes)
                wait_until(lambda: not self.is_serving(), 5)
                server.communicate()

    def test_signals_that_are_ignored(self) -> None:
        """nohup keeps SIGHUP away from a server, and a shell SIGINT from one in the background."""
        for number, name in ((signal.SIGHUP, "HUP"), (signal.SIGINT, "INT")):
            for option in ("", "--quick "):
                with self.subTest(signal=name, option=option):
                    script = f"trap '' {name}; exec ./maplabel {option}serve one two 7 1"
                    server = subprocess.Popen(
                        ["sh", "-c", script],
                        cwd=self.clone.folder,
                        env=self.clone.env,
                        stdout=subprocess.DEVNULL,
                        start_new_session=True,
                    )
                    wait_until(self.is_serving)
                    os.killpg(server.pid, number)
                    time.sleep(0.3)
                    self.assertTrue(self.is_serving() and server.poll() is None)
                    server.terminate()
                    self.assertEqual(server.wait(20), -signal.SIGTERM)
                    wait_until(lambda: not self.is_serving(), 5)

    def is_serving(self) -> bool:
        """Whether a server of the clone is at work."""
        for process in filter(str.isdigit, os.listdir("/proc")):
            try:
                told = pathlib.Path(f"/proc/{process}/cmdline").read_bytes()
                place = os.readlink(f"/proc/{process}/cwd")
            except OSError:
                continue
            if place == str(self.clone.folder) and told == b"sleep\x0060\x00":
                return True
        return False

    def test_without_python(self) -> None:
        """A program that is there runs, and what its status means is not told."""
        able = pathlib.Path(self.clone.room.name) / "bin"
        able.mkdir()
        for name in ("dirname", "find", "sh", "readlink", "grep", "cat"):
            path = subprocess.run(["which", name], capture_output=True, text=True, check=True)
            (able / name).symlink_to(path.stdout.strip())
        for words, status in ((SHORT, 0), (["slots", "gone"], 5), (["serve", "one"], 0)):
            ran = self.clone.run(*words, PATH=str(able))
            self.assertEqual((ran.returncode, ran.stderr), (status, ""))
            self.assertEqual(ran.stdout, answer(self.clone.folder, words))

    def test_build_alone(self) -> None:
        ran = self.clone.run("--build")
        self.assertEqual((ran.returncode, ran.stdout), (0, ""))
        self.assertIn("nothing to do", ran.stderr)
        self.assertIn("built and fresh", self.clone.run("--version").stdout)

    def test_program_that_does_not_run(self) -> None:
        self.clone.program.write_bytes(b"nothing")
        ran = self.clone.run("serve", "one", "two", "8", "1")
        self.assertEqual(ran.returncode, FAILED)
        self.assertIn("does not run", ran.stderr)


class OnTerminal(Case):
    def test_line_is_no_wider_than_the_terminal(self) -> None:
        seen, status = self.clone.on_terminal("--build", columns=30, STAND_IN_PAUSE="1.2")
        self.assertEqual(status, 0, seen)
        lines = [piece.partition("\r\n")[0] for piece in seen.split("\r\033[K")[1:]]
        drawn = [line for line in lines if " crates; " in line]
        self.assertGreaterEqual(len(drawn), 2, seen)
        for line in drawn:
            self.assertEqual((len(line), line[-1]), (29, "…"), line)

    def test_line(self) -> None:
        seen, status = self.clone.on_terminal(*SHORT, STAND_IN_PAUSE="1.2")
        self.assertEqual(status, 0, seen)
        self.assertIn("\r\033[Kmaplabel: 1 of 6 crates; 0:0", seen)
        self.assertIn("at work: left", seen)
        self.assertNotIn("about", seen)
        self.assertNotIn("low is proved", seen)
        self.assertTrue(seen.endswith("<one>\r\n"), seen)

    def test_guess(self) -> None:
        self.clone.add_line("low", "BUSY")
        seen, status = self.clone.on_terminal("--build", STAND_IN_PAUSE="1.2")
        self.assertEqual(status, 0, seen)
        lines = seen.split("\r\033[K")
        told = [line for line in lines if "about a minute left" in line]
        # (low takes long enough to tell something of the others)
        wanted = [line for line in lines if " crates; " in line and " 0 of " not in line]
        self.assertEqual(told, wanted)
        self.assertGreaterEqual(len(told), 2, seen)

    def test_ctrl_c_ends_a_server(self) -> None:
        self.build()
        begun = time.monotonic()
        seen, status = self.clone.on_terminal(
            "serve", "one", "two", "7", "1", keys=b"\x03", when=lambda: time.monotonic() > begun + 2
        )
        self.assertEqual(status, -signal.SIGINT, seen)
