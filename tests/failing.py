"""Calls of the built programs in which an allocation, a read or a write fails, for the scripts beside this one.

The library that makes them fail is failing.c, made by the compiler of the Rattle kit and loaded before the program.
"""
import os
import subprocess
import sys
from itertools import count
from pathlib import Path

from answers import finished

HERE = Path(__file__).resolve().parent
AT_ONCE = 100
SECONDS = 60


def programs(names, usage):
    """The programs that the words of the command line give; else those that the crates of these names have built."""
    given = [Path(word).absolute() for word in sys.argv[1:]]
    found = given + [HERE.parent / "crates" / name / "out" / name for name in names[len(given):]]
    if len(found) != len(names) or not all(os.access(program, os.X_OK) for program in found):
        raise SystemExit(usage)
    return found


def made_library(room):
    """The library that makes a call fail."""
    page = Path(subprocess.check_output(["rt", "doc"], text=True).split()[0])
    library = room / "failing.so"
    subprocess.run([page.parent / "toolchain" / "bin" / "clang", "-O1", "-shared", "-fPIC", "-nostdlib",
                    "-fuse-ld=lld", "-o", library, HERE / "failing.c"], check=True)
    return library


def called(words, library=None, **environment):
    """The exit status of a program, None where it does not end, its output, and of which kinds a call failed."""
    if library:
        environment = {"LD_PRELOAD": str(library), **{name: str(value) for name, value in environment.items()}}
    done = finished(words, SECONDS, env=environment)
    kinds = ("ALLOCATION", "READ", "WRITE")
    return done.returncode, done.stdout, [kind for kind in kinds if f"{kind} fails\n".encode() in done.stderr]


def outcomes(words, kind, library, pool, **environment):
    """What comes of a program for each call of a kind that fails, and last what comes where none does."""
    def outcome(number):
        return called(words, library, **{f"FAILING_{kind}": number}, **environment)
    for first in count(1, AT_ONCE):
        for came in pool.map(outcome, range(first, first + AT_ONCE)):
            yield came
            if not came[2]:
                return
