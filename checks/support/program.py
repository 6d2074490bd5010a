"""Runs the built program within limits, and looks at the layouts that it leaves."""
import contextlib
import os
import signal
import subprocess
import threading
import time
from collections import namedtuple

from support.layouts import blob, key

TOP = os.path.dirname(os.path.dirname(os.path.dirname(os.path.abspath(__file__))))
PROGRAM = os.environ.get("OCICP", TOP + "/crates/ocicp/out/ocicp")
# A run that takes longer is killed, and its status is then -9.
SECONDS = 60

# Another user, who may do less than root, for `run`.
NOBODY = {"user": 65534, "group": 65534, "extra_groups": []}

# `kilobytes` is the most memory that the run had at one time.
Ended = namedtuple("Ended", "status out err seconds kilobytes")


def run(words, folder, seconds=SECONDS, program=PROGRAM, **how):
    """Run a program in a folder. `how` goes to `subprocess.Popen`. The output has to fit into a pipe."""
    began = time.monotonic()
    pipes = {"stdin": subprocess.DEVNULL, "stdout": subprocess.PIPE, "stderr": subprocess.PIPE}
    with subprocess.Popen([program, *words], cwd=folder, **{**pipes, **how}) as process:
        # (not `process.kill`, which would reap a run that has ended)
        timer = threading.Timer(seconds, os.kill, [process.pid, signal.SIGKILL])
        timer.start()
        _, status, usage = os.wait4(process.pid, 0)
        timer.cancel()
        process.returncode = os.WEXITSTATUS(status) if os.WIFEXITED(status) else -os.WTERMSIG(status)
        out, err = process.stdout.read().decode(), process.stderr.read().decode()
    return Ended(process.returncode, out, err, time.monotonic() - began, usage.ru_maxrss)


def piped(words, folder, written, **how):
    """Run the program with these bytes as its standard input, which is a pipe."""
    reader, writer = os.pipe()

    def feed():
        # (the program may end before it has read all)
        with contextlib.suppress(BrokenPipeError), os.fdopen(writer, "wb", buffering=0) as pipe:
            rest = memoryview(written)
            while rest:
                rest = rest[pipe.write(rest):]

    feeding = threading.Thread(target=feed)
    feeding.start()
    try:
        return run(words, folder, stdin=reader, **how)
    finally:
        os.close(reader)
        feeding.join()


def told(ended):
    """Return the end of a run as one line."""
    lines = (ended.out + ended.err).strip().split("\n")
    return "status %d, %s" % (ended.status, " / ".join(lines[:3]) or "no output")


def first(complaints):
    """Return the first problem, or None."""
    return next((it for it in complaints if it), None)


def wrong_answer(words, folder, out):
    """Return the problem with a command that is to succeed and to print this, or None."""
    ended = run(words, folder)
    if (ended.status, ended.out, ended.err) != (0, out, ""):
        return "%s: %s" % (" ".join(words), told(ended))


def wrong_layout(folder, layout, contents, names):
    """Return the problem with a layout that is to hold these contents, and to have these tags, or None."""
    lines = ["%s %s\n" % (name, key(names[name])) for name in sorted(names)]
    return first([
        wrong_answer(["verify", layout], folder, "held %d\n" % len(contents)),
        wrong_answer(["tags", layout], folder, "".join(lines)),
    ])


def leftovers(folder, contents):
    """Return a message about a file of a layout that is neither one of its own two nor a blob of these contents, or None."""
    own = {"oci-layout", "index.json", *map(blob, contents)}
    for at, _, files in os.walk(folder):
        for file in files:
            path = os.path.relpath(os.path.join(at, file), folder)
            if path not in own:
                return "%s is left over" % path
