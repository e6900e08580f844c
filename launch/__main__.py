"""What `maplabel` does where it cannot simply run the proved program: see `maplabel --help`.

    python3 launch --fresh|--stale WORDS..     WORDS being those of the caller
    python3 launch --told STATUS WORDS..       tells what the status of the program on WORDS means

The first word tells whether the program is fresh by the times of its sources."""

import os
import sys
from collections.abc import Sequence

from maplabel_launch import advice, build, forms, quick, release, running, shown, usage
from maplabel_launch.faults import FAILED, USAGE, Fault, Interrupted, catch_signals, tell
from maplabel_launch.shown import Shown

TOP = os.path.dirname(os.path.dirname(os.path.abspath(__file__)))
HELP = ("--help", "-h")


def run_program(words: Sequence[str]) -> int:
    """Runs the proved program, and tells what its status means."""
    program = build.program_of(TOP)
    status = running.run(program, words)
    advice.explain(TOP, program, words, status)
    return status


def run_here(is_fresh: bool, words: Sequence[str], view: Shown) -> int:
    """Runs the proved program, which is built first where that is due."""
    if not is_fresh:
        forms.check(forms.read(TOP), words)
        if build.build(TOP, view):
            view.tell(f"maplabel: runs {words[0]}")
    return run_program(words)


def run_quick(is_fresh: bool, words: Sequence[str]) -> int:
    """Runs the proved program where it is fresh, and else one that is not proved."""
    if is_fresh:
        return run_program(words)
    forms.check(forms.read(TOP), words)
    return quick.run(TOP, words)


def build_only(view: Shown) -> int:
    """Builds, and compares what was built with a release."""
    if release.is_release(TOP):
        raise Fault("this is a release: its program is built, and its sources are not here")
    if not build.build(TOP, view):
        tell("maplabel: nothing to do: crates/maplabel/out/maplabel is built and fresh")
    if line := release.compare(TOP):
        view.tell(line)
    return 0


def tell_help(words: Sequence[str]) -> int:
    """Prints the help for a command, or for all."""
    commands = forms.read(TOP)
    if not words:
        sys.stdout.write(usage.help_text(commands))
    elif words[0] in commands and not words[1:]:
        sys.stdout.write(usage.help_of(commands[words[0]]))
    else:
        found = forms.fault_of_words(commands, words[:1]) if words[0] not in commands else None
        raise Fault(found or "help takes one command", USAGE)
    return 0


def run_release(words: Sequence[str]) -> int:
    """Runs the program of a release."""
    if not words:
        raise Fault("--release needs the name of a release, a file or its folder", USAGE)
    if release.is_release(TOP):
        raise Fault("this is a release itself: call it without --release")
    if words[1:]:
        forms.check(forms.read(TOP), words[1:])
    return release.run(TOP, words[0], words[1:])


def own_option(is_fresh: bool, words: Sequence[str], view: Shown) -> int | None:
    """Does what an option of the launcher asks for; none where the words have none."""
    first, rest = words[0] if words else "", words[1:]
    if first in (*HELP, "help"):
        return tell_help(rest)
    if len(words) == 2 and words[1] in HELP and first in forms.read(TOP):
        return tell_help([first])
    if first == "--quick":
        return run_quick(is_fresh, rest)
    if first == "--release":
        return run_release(rest)
    if first not in ("--version", "--build"):
        return None
    if rest:
        raise Fault(f"{first} takes no further words", USAGE)
    if first == "--build":
        return build_only(view)
    sys.stdout.write(usage.version_text(TOP, is_fresh))
    return 0


def launch(state: str, words: Sequence[str], view: Shown) -> int:
    """Does what the words ask for, and returns the status."""
    if state == "--told":
        advice.explain(TOP, build.program_of(TOP), words[1:], int(words[0]))
        return 0
    status = own_option(state == "--fresh", words, view)
    return run_here(state == "--fresh", words, view) if status is None else status


def main() -> int:
    """Does what the words ask for; a fault becomes a sentence and a status."""
    catch_signals()
    view = shown.Shown()
    try:
        return launch(sys.argv[1], sys.argv[2:], view)
    except Interrupted as ended:
        return ended.status
    except Fault as fault:
        view.tell(f"maplabel: {fault}")
        return fault.status
    except OSError as error:
        view.tell(f"maplabel: {error}")
        return FAILED


sys.exit(main())
