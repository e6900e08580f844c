"""Spoilt copies of the launcher, and the tests that must find them.

Each copy has the launcher, the tests and what these want of the checkout, and in one file of the
launcher one text stands in the place of another. The tests that are named with it then have to
fail; over a copy that is not spoilt all of them have to pass.
"""

import shutil
import subprocess
import sys
import tempfile
from collections.abc import Sequence
from concurrent.futures import ThreadPoolExecutor
from dataclasses import dataclass
from pathlib import Path

from checkout import COPIED, HERE, TOP

AT_ONCE = 2
# Tests that take longer for each wait for something that never comes, and so fail.
PATIENCE = 300


@dataclass(frozen=True)
class Spoilt:
    """A way to spoil the launcher: in a file of it one text stands in the place of another. The
    tests are those that must find it.
    """

    what: str
    file: str
    text: str
    instead: str
    tests: str


LAUNCH = "launch/maplabel_launch"
SPOILT = (
    # the shell's part
    Spoilt(
        "a source whose time is older is not seen as changed",
        "maplabel",
        "-newercm",
        "-newer",
        "building.Building.test_source_with_an_older_time",
    ),
    Spoilt(
        "a proof that is gone is not seen",
        "maplabel",
        ' "$top"/crates/*/proofs',
        "",
        "building.Building.test_source_that_is_gone",
    ),
    Spoilt(
        "the status of the program is lost",
        "maplabel",
        'exit "$status"',
        "exit 0",
        "asking.Built.test_wrong_words",
    ),
    Spoilt(
        "a link to the launcher is not followed",
        "maplabel",
        '[ ! -L "$self" ] || self=$(readlink -f -- "$self")',
        ":",
        "asking.Built.test_another_folder_and_a_link",
    ),
    Spoilt(
        "sources of a release are sought",
        "maplabel",
        '[ ! -f "$top/RELEASE" ] || return 0',
        ":",
        "releases.Releases.test_folder_runs_by_itself",
    ),
    Spoilt(
        "the program does not run without Python",
        "maplabel",
        'has_python || exec "$program" "$@"',
        ":",
        "asking.Built.test_without_python",
    ),
    Spoilt(
        "the program is asked for the launcher's help",
        "maplabel",
        "--fresh:*:--help | --fresh:*:-h) ;;",
        "--fresh:x:x) ;;",
        "asking.Built.test_help_of_a_command",
    ),
    Spoilt(
        "a file that is too long is not told behind the program",
        "maplabel",
        "2 | 3 | 4 | 5 | 10)",
        "2 | 3 | 4 | 5)",
        "asking.Built.test_file_that_is_too_long",
    ),
    # words
    Spoilt(
        "words are not looked at before a build",
        "launch/__main__.py",
        "    if not is_fresh:\n        forms.check(forms.read(TOP), words)\n",
        "    if not is_fresh:\n",
        "asking.Unbuilt.test_number_of_words",
    ),
    Spoilt(
        "words are not looked at before --quick compiles",
        "launch/__main__.py",
        "        return run_program(words)\n    forms.check(forms.read(TOP), words)\n",
        "        return run_program(words)\n",
        "asking.Unbuilt.test_wrong_command",
    ),
    Spoilt(
        "words are not looked at before a release runs",
        "launch/__main__.py",
        "        forms.check(forms.read(TOP), words[1:])\n",
        "        pass\n",
        "releases.Releases.test_words_are_looked_at_first",
    ),
    Spoilt(
        "a release runs other releases",
        "launch/__main__.py",
        'raise Fault("this is a release itself: call it without --release")',
        "pass",
        "releases.Releases.test_folder_runs_by_itself",
    ),
    Spoilt(
        "the longest file that is taken is refused",
        f"{LAUNCH}/forms.py",
        "if length > LONGEST:",
        "if length >= LONGEST:",
        "asking.Unbuilt.test_longest_file",
    ),
    Spoilt(
        "a file that may not be read is not told",
        f"{LAUNCH}/forms.py",
        "except (OSError, ValueError) as error:",
        "except ValueError as error:",
        "asking.Unbuilt.test_file_that_may_not_be_read",
    ),
    Spoilt(
        "a pipe is read before the program reads it",
        f"{LAUNCH}/forms.py",
        "if os.path.exists(path) and not os.path.isfile(path):",
        "if False:",
        "asking.Unbuilt.test_pipe_is_no_fault",
    ),
    Spoilt(
        "odd sizes are taken",
        f"{LAUNCH}/forms.py",
        "SIZE = (whole(2, 4096, is_even=True),",
        "SIZE = (whole(2, 4096),",
        "asking.Unbuilt.test_words_of_another_kind",
    ),
    Spoilt(
        "a server is started once more to explain its refusal",
        f"{LAUNCH}/advice.py",
        'if command.words[:2] == ("STYLE", "MAP"):',
        'if command.name == "view":',
        "asking.Built.test_refused_style",
    ),
    Spoilt(
        "a port that is taken is not explained",
        f"{LAUNCH}/advice.py",
        "elif status in (DOOR_FAULT, NO_MEMORY):",
        "elif status in (NO_MEMORY,):",
        "asking.Built.test_port_that_is_taken",
    ),
    # builds
    Spoilt(
        "status 0 counts as a proof",
        f"{LAUNCH}/build.py",
        "            self.hold_to_verdict(name, run)\n",
        "            pass\n",
        "building.Ending.test_status_0_without_a_verdict",
    ),
    Spoilt(
        "an edit in mid-build counts as built",
        f"{LAUNCH}/build.py",
        "        os.utime(program, ns=(begun, begun))\n",
        "        pass\n",
        "building.Building.test_edit_in_mid_build",
    ),
    Spoilt(
        "the second of two launchers builds once more",
        f"{LAUNCH}/build.py",
        "            has_work = not is_built(needed, kit_name)\n            if",
        "            if",
        "building.Together.test_two_starts_at_once",
    ),
    Spoilt(
        "what a check started goes on when the launcher ends",
        f"{LAUNCH}/build.py",
        "os.killpg(process.pid, number)",
        "os.kill(process.pid, number)",
        "building.Ending.test_all_that_a_check_started_ends",
    ),
    Spoilt(
        "a check that was killed does not begin again",
        f"{LAUNCH}/build.py",
        "if status == -signal.SIGKILL and name not in self.alone:",
        "if False:",
        "building.Ending.test_check_that_is_killed_runs_again_alone",
    ),
    Spoilt(
        "a check that was killed begins again beside others",
        f"{LAUNCH}/build.py",
        "        while not (self.alone and self.running):\n",
        "        while True:\n",
        "building.Ending.test_check_that_is_killed_runs_again_alone",
    ),
    Spoilt(
        "the launcher does not wait for what a killed one began",
        f"{LAUNCH}/build.py",
        "pass_fds=[self.sources.lock],",
        "pass_fds=[],",
        "building.Ending.test_killed",
    ),
    Spoilt(
        "lines of progress stand among what a failed check said",
        f"{LAUNCH}/build.py",
        "if not is_progress(it)]",
        "]",
        "building.Ending.test_spoilt_source",
    ),
    Spoilt(
        "all checks give way alike",
        f"{LAUNCH}/build.py",
        "            os.nice(niceness)\n",
        "            os.nice(0)\n",
        "building.Building.test_longest_chain_goes_before",
    ),
    Spoilt(
        "a kit of another name is not told",
        f"{LAUNCH}/build.py",
        "            view.tell(line)\n        with",
        "            pass\n        with",
        "building.Building.test_kit_of_another_name",
    ),
    Spoilt(
        "a program is not tried before it is kept",
        f"{LAUNCH}/compiler.py",
        "return [words, linking, [program, *TRIAL]]",
        "return [words, linking]",
        "building.Ending.test_program_that_fails_its_trial",
    ),
    Spoilt(
        "what another kit proved counts",
        f"{LAUNCH}/crates.py",
        "hashlib.sha256(repr((kit, crate.row, used)).encode())",
        "hashlib.sha256(repr((crate.row, used)).encode())",
        "building.Building.test_kit_of_another_name",
    ),
    Spoilt(
        "a crate above a changed one is not proved again",
        f"{LAUNCH}/crates.py",
        "used = [found[it] for it in crate.uses]",
        "used = list(crate.uses)",
        "building.Building.test_goes_on_where_a_crate_is_done",
    ),
    Spoilt(
        "a source of another name counts as the same",
        f"{LAUNCH}/crates.py",
        "total.update(repr((os.path.relpath(path, crate.folder), file.read())).encode())",
        "total.update(repr(file.read()).encode())",
        "building.Building.test_source_of_another_name",
    ),
    Spoilt(
        "a library or a program that was replaced counts as proved",
        f"{LAUNCH}/records.py",
        'file.read() == f"{digest} {made}\\n"',
        'file.read().startswith(f"{digest} ")',
        "building.Building.test_what_was_built_is_replaced",
    ),
    Spoilt(
        "a crate is proved over a library that something else put there",
        f"{LAUNCH}/build.py",
        "if found.issuperset(it.uses) and records.is_done(it, sums[it.name]):",
        "if records.is_done(it, sums[it.name]):",
        "building.Building.test_what_was_built_is_replaced",
    ),
    Spoilt(
        "the copy of the sources is left",
        f"{LAUNCH}/sources.py",
        "_: object) -> None:\n        shutil.rmtree(self.crates, ignore_errors=True)\n",
        "_: object) -> None:\n",
        "building.Building.test_fresh_clone",
    ),
    # signals
    Spoilt(
        "SIGHUP goes by",
        f"{LAUNCH}/faults.py",
        "SIGNALS = (signal.SIGINT, signal.SIGTERM, signal.SIGHUP)",
        "SIGNALS = (signal.SIGINT, signal.SIGTERM)",
        "building.Ending.test_signals",
    ),
    Spoilt(
        "a build under nohup ends with its terminal",
        f"{LAUNCH}/faults.py",
        "        if it not in IGNORED or it is not signal.SIGHUP:\n    ",
        "        if True:\n    ",
        "building.Ending.test_hangup_that_is_ignored",
    ),
    Spoilt(
        "a second signal disturbs the end",
        f"{LAUNCH}/faults.py",
        "        signal.signal(it, signal.SIG_IGN)\n",
        "        pass\n",
        "building.Ending.test_second_signal_disturbs_nothing",
    ),
    Spoilt(
        "a server does not end with its launcher",
        f"{LAUNCH}/running.py",
        "        with_parent(PR_SET_PDEATHSIG, signal.SIGTERM)\n",
        "",
        "asking.Built.test_signals_reach_a_server",
    ),
    Spoilt(
        "a server hears signals that its caller ignores",
        f"{LAUNCH}/running.py",
        "        for it in IGNORED:\n            signal.signal(it, signal.SIG_IGN)\n",
        "",
        "asking.Built.test_signals_that_are_ignored",
    ),
    # what is shown
    Spoilt(
        "the line of a build is wider than the terminal",
        f"{LAUNCH}/shown.py",
        'line if len(line) < width else line[: width - 2] + "…"',
        "line",
        "asking.OnTerminal.test_line_is_no_wider_than_the_terminal",
    ),
    Spoilt(
        "the time that is left is told before anything tells it",
        f"{LAUNCH}/build.py",
        "        if self.spent:\n            left",
        "        if self.begun:\n            left",
        "asking.OnTerminal.test_line",
    ),
    Spoilt(
        "a copied checkout counts as not built",
        f"{LAUNCH}/usage.py",
        "        if build.is_built(build.needed_of(top), kit_name):\n",
        "        if False:\n",
        "building.Building.test_after_a_copy",
    ),
    Spoilt(
        "without the kit a program is told as fresh",
        f"{LAUNCH}/usage.py",
        'return "built; without the kit it cannot be told whether from these sources"',
        'return "built and fresh"',
        "asking.Helps.test_version_without_the_kit",
    ),
    # --quick
    Spoilt(
        "--quick compiles anew each time",
        f"{LAUNCH}/quick.py",
        "    if not program.is_file():\n        tell(COMPILES)\n",
        "    if True:\n        program.unlink(True)\n        tell(COMPILES)\n",
        "quickly.Quick.test_second_answer_comes_at_once",
    ),
    Spoilt(
        "--quick compiles anew where a proof has changed",
        f"{LAUNCH}/quick.py",
        "crates.digests(needed, kit.name(), crates.CODE)",
        "crates.digests(needed, kit.name())",
        "quickly.Quick.test_changed_source_is_compiled",
    ),
    Spoilt(
        "--quick forgets which program was used last",
        f"{LAUNCH}/quick.py",
        "    os.utime(program)\n",
        "",
        "quickly.Quick.test_programs_that_were_used_last_are_kept",
    ),
    Spoilt(
        "two --quick compile side by side",
        f"{LAUNCH}/quick.py",
        "            if not program.is_file():\n                compile_to",
        "            if True:\n                compile_to",
        "quickly.Quick.test_two_at_once",
    ),
    Spoilt(
        "--quick keeps a program that does not run",
        f"{LAUNCH}/attempt.py",
        "    must([str(program), *compiler.TRIAL], needed[-1].folder)\n",
        "",
        "quickly.Quick.test_program_that_fails_its_trial",
    ),
    Spoilt(
        "--quick hides what does not compile",
        f"{LAUNCH}/attempt.py",
        "if ERROR.search(said):",
        "if False:",
        "quickly.Quick.test_spoilt_source",
    ),
    Spoilt(
        "what --quick began goes on when it ends",
        f"{LAUNCH}/attempt.py",
        "        os.killpg(process.pid, 9)\n",
        "        process.kill()\n",
        "quickly.Quick.test_interrupted",
    ),
    Spoilt(
        "`rt try` reads the crate's files for the caller's",
        f"{LAUNCH}/trial.py",
        "        elif os.path.isfile(os.path.join(folder, word)):\n",
        "        elif False:\n",
        "quickly.Quick.test_file_of_the_crate_is_none_of_the_caller",
    ),
    Spoilt(
        "what `rt try` adds stands behind what the program said",
        f"{LAUNCH}/trial.py",
        "said[: ended.start()] if ended else said",
        "said",
        "quickly.Quick.test_kit_that_compiles_in_another_way",
    ),
    # releases
    Spoilt(
        "a flipped byte of the program is not seen",
        f"{LAUNCH}/release.py",
        '(("program", found[PROGRAM]), ("sources", found[SOURCES]))',
        '(("sources", found[SOURCES]),)',
        "releases.Releases.test_flipped_byte",
    ),
    Spoilt(
        "a flipped byte of the list of sources is not seen",
        f"{LAUNCH}/release.py",
        '(("program", found[PROGRAM]), ("sources", found[SOURCES]))',
        '(("program", found[PROGRAM]),)',
        "releases.Releases.test_flipped_byte",
    ),
    Spoilt(
        "the sum at the end of a release's file is not looked at",
        f"{LAUNCH}/release.py",
        "io.BytesIO(gzip.decompress(Path(path).read_bytes()))",
        "io.BytesIO(zlib.decompressobj(-15).decompress(Path(path).read_bytes()[10:]))",
        "releases.Releases.test_damaged_file",
    ),
    Spoilt(
        "a release of other sources runs",
        f"{LAUNCH}/release.py",
        "    if own == other:\n",
        "    if own or other:\n",
        "releases.Releases.test_other_sources",
    ),
    Spoilt(
        "a release of another list of crates runs",
        f"{LAUNCH}/crates.py",
        'paths = [f"{top}/crates.txt", *(',
        "paths = [*(",
        "releases.Releases.test_other_list_of_crates",
    ),
    Spoilt(
        "a program that nobody proved runs",
        f"{LAUNCH}/release.py",
        'if release.about["proved"] != "yes":',
        "if False:",
        "releases.Releases.test_program_that_is_not_proved",
    ),
    Spoilt(
        "a program for another processor runs",
        f"{LAUNCH}/release.py",
        "if machine != platform.machine():",
        "if machine is None:",
        "releases.Releases.test_another_processor",
    ),
    Spoilt(
        "what was kept of a release runs unseen",
        f"{LAUNCH}/release.py",
        "if not program.is_file() or program.read_bytes() != release.program:",
        "if not program.is_file():",
        "releases.Releases.test_kept_program_that_was_damaged",
    ),
    Spoilt(
        "--build compares its result with no release",
        f"{LAUNCH}/release.py",
        'if sum_of(own) == about["program"]:',
        "if own:",
        "releases.Releases.test_build_compares",
    ),
    # verdicts and plans
    Spoilt(
        "a word of the verdict that nobody knows is taken",
        f"{LAUNCH}/verdict.py",
        "if name not in KNOWN or not value:",
        "if not value:",
        "verdicts.Verdict.test_unknown_words",
    ),
    Spoilt(
        "`main` may take any handle",
        f"{LAUNCH}/verdict.py",
        "if beyond := sorted(taken - set(allowed)):",
        "if beyond := sorted(taken - taken):",
        "verdicts.Verdict.test_handles_of_main",
    ),
    Spoilt(
        "crates begin though there is no memory for them",
        f"{LAUNCH}/schedule.py",
        "if not running or self.memory_of(name, jobs) <= free:",
        "if name:",
        "plans.Memory.test_nothing_beyond_what_is_free",
    ),
    Spoilt(
        "near crates wait for far ones",
        f"{LAUNCH}/schedule.py",
        "is_full = len(at_work if name in near else running) >= self.processors",
        "is_full = len(running) >= self.processors",
        "plans.AtWork.test_near_crates_wait_for_near_ones_alone",
    ),
)


def copy_to(folder: Path) -> None:
    """Copies what the tests want of the checkout."""
    ignored = shutil.ignore_patterns("__pycache__", "out")
    for name in (*COPIED, "docs/FORMATS.md", "tests/launcher"):
        made = folder / name
        made.parent.mkdir(parents=True, exist_ok=True)
        if (TOP / name).is_dir():
            shutil.copytree(TOP / name, made, ignore=ignored)
        else:
            shutil.copy(TOP / name, made)


def failure_of(tests: Sequence[str], one: Spoilt | None = None) -> str | None:
    """What tests say that fail over a copy which is spoilt in one way, or not at all; none where
    they pass.
    """
    with tempfile.TemporaryDirectory(prefix="launcher-spoilt-") as room:
        folder = Path(room)
        copy_to(folder)
        if one:
            path = folder / one.file
            whole = path.read_text(encoding="utf-8")
            if whole.count(one.text) != 1:
                raise AssertionError(f"{one.file} does not hold {one.text!r} once")
            path.write_text(whole.replace(one.text, one.instead), encoding="utf-8")
        command = [sys.executable, "-B", "-m", "unittest", "-f", *tests]
        try:
            ran = subprocess.run(
                command,
                cwd=folder / HERE.relative_to(TOP),
                capture_output=True,
                text=True,
                timeout=PATIENCE * len(tests),
                check=False,
            )
        except subprocess.TimeoutExpired:
            return "it does not end"
        told = [line for line in ran.stderr.splitlines() if line and line[0] not in " \t"]
        faults = [line for line in told if "Error" in line.partition(":")[0]]
        return (faults or told or ["it failed"])[-1][:160] if ran.returncode else None


def run() -> int:
    """Tries all spoilt copies, and returns the status."""
    tests = sorted({one.tests for one in SPOILT})
    if said := failure_of(tests):
        print(f"the tests fail over a copy that is not spoilt: {said}")
        return 1
    print(f"{len(tests)} tests pass over a copy that is not spoilt", flush=True)
    unseen = 0
    with ThreadPoolExecutor(AT_ONCE) as pool:
        found = pool.map(lambda one: failure_of([one.tests], one), SPOILT)
        for one, line in zip(SPOILT, found):
            unseen += line is None
            print(f"  {one.what}: {line or 'NOT FOUND'}", flush=True)
    print(f"{len(SPOILT)} spoilt copies, {unseen} of them not found")
    return 1 if unseen else 0
