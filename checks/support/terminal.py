"""Runs the program with a terminal as its error output."""
import os
import pty
import subprocess
import threading

from support.program import PROGRAM, SECONDS


def read_all(terminal):
    """Return the text that is written to a terminal until no process has it open any more."""
    written = b""
    try:
        while part := os.read(terminal, 4096):
            written += part
    except OSError:
        pass
    return written.decode().replace("\r\n", "\n")


def run_on_terminal(words, folder, seconds=SECONDS, shows_output=False, program=PROGRAM, **how):
    """Run a program with a terminal as its error output, with `shows_output` as its output too, and return its status and the text on the
    terminal. A run that takes longer is killed. `how` goes to `subprocess.Popen`."""
    terminal, end = pty.openpty()
    try:
        out = end if shows_output else subprocess.DEVNULL
        process = subprocess.Popen([program, *words], cwd=folder, stdin=subprocess.DEVNULL, stdout=out, stderr=end, **how)
    finally:
        os.close(end)
    timer = threading.Timer(seconds, process.kill)
    timer.start()
    try:
        # (while it runs, since a terminal that nobody reads holds only some kilobytes)
        written = read_all(terminal)
        return process.wait(), written
    finally:
        timer.cancel()
        os.close(terminal)
