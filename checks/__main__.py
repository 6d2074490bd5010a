"""Checks of the built program that no test of a crate can make. Usage: python3 checks [NAME..]

Each file beside this one is a check. Without a NAME all of them are run. The function `checks` of a file takes a new folder, and yields the
name of each check and the problem that it found, or None. The last line says how many passed and how many failed. The package `support` has
the code that several checks use.
"""
import importlib
import os
import re
import resource
import subprocess
import sys
import tempfile
import time

HERE = os.path.dirname(os.path.abspath(__file__))
# The most memory that a run may take.
MEMORY = 8 << 30
# The time in which all should end. Each file bounds the number of its runs.
SECONDS = 180
ENDED = re.compile(r"(\d+) passed, (\d+) failed\n")


def names():
    """Return the names of the files beside this one."""
    return sorted(file[:-3] for file in os.listdir(HERE) if file.endswith(".py") and file != "__main__.py")


def results(name):
    """Yield the results of a file's checks. An exception counts as a failed check."""
    with tempfile.TemporaryDirectory(prefix="ocicp-checks-") as folder:
        try:
            module = importlib.import_module(name)
            if os.path.dirname(os.path.abspath(module.__file__)) != HERE:
                yield "all", "Python has a module of its own by this name"
            yield from module.checks(folder)
        except Exception as error:
            yield "all", "stopped by %s: %s" % (type(error).__name__, error)


def check(name):
    """Run the checks of a file, and return how many passed and how many failed."""
    resource.setrlimit(resource.RLIMIT_AS, (MEMORY, resource.getrlimit(resource.RLIMIT_AS)[1]))
    counts = [0, 0]
    for label, wrong in results(name):
        print("%s: %s: %s" % (name, label, "FAILED: " + wrong if wrong else "ok"), flush=True)
        counts[bool(wrong)] += 1
    return counts


def check_apart(name):
    """Do the same in a process of its own, since the memory of a run includes the memory of the process that started it."""
    began = time.monotonic()
    command = [sys.executable, "-B", HERE, name]
    with subprocess.Popen(command, stdout=subprocess.PIPE, text=True) as process:
        line = ""
        for line in process.stdout:
            print("" if ENDED.fullmatch(line) else line, end="", flush=True)
    print("%s: %.0f s" % (name, time.monotonic() - began), flush=True)
    ended = ENDED.fullmatch(line)
    return [int(ended[1]), int(ended[2])] if ended else [0, 1]


def main(wanted):
    start = time.monotonic()
    counts = [check(name) for name in wanted] or [check_apart(name) for name in names()]
    passed, failed = map(sum, zip(*counts))
    if not wanted:
        took = time.monotonic() - start
        print("all together: %.0f s%s" % (took, "" if took <= SECONDS else ", which is more than %d" % SECONDS))
    print("%d passed, %d failed" % (passed, failed))
    sys.exit(failed > 0)


main(sys.argv[1:])
