"""Starts a program, tells its number, and at its end the exit code, processor seconds and the
greatest memory in KiB.

    python3 -I -S -B starter.py FILE PROCESSOR PROGRAM WORDS..

FILE is the number of the open file to which it tells them, in two lines. The greatest memory that
the system tells of a process is never below that of the process that started it, so this one
imports little and has some 8 MiB.

The program runs on this processor alone: those of a virtual machine may differ in speed by half,
and programs that run in turn would come to stand on one each.
"""

import os
import sys


def main() -> None:
    told, program = int(sys.argv[1]), sys.argv[3]
    os.set_inheritable(told, False)
    os.sched_setaffinity(0, {int(sys.argv[2])})
    child = os.posix_spawn(program, sys.argv[3:], os.environ)
    os.write(told, f"{child}\n".encode())
    _, status, usage = os.wait4(child, 0)
    code, seconds = os.waitstatus_to_exitcode(status), usage.ru_utime + usage.ru_stime
    os.write(told, f"{code} {seconds} {usage.ru_maxrss}\n".encode())


main()
