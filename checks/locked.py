"""The lock on the folder that a command writes into: when it is taken, and how long it is held. Wants `cc`."""
import fcntl
import os
import shutil
import signal
import subprocess

from support import shim
from support.layouts import BAR, E, FOO, LAYER, M2, Content, blob, digits, key, write_layout
from support.program import PROGRAM, first, wrong_layout

# A command is stopped before each of its changes, of which there are at most this many.
CHANGES = 100
SECONDS = 60
# Contents that are held without a tag, so that a prune removes them.
OTHER = Content(LAYER, b"other")
# By command: the contents that are held at its end, and the tags.
COPY = ["copy", "--workers", "1", "source", "new", "copied"]
COPIED = [BAR, OTHER, E, FOO, M2], {"old": BAR, "new": M2}
COMMANDS = {
    "a copy": (COPY, COPIED),
    "a prune": (["prune", "--untagged", "copied"], ([BAR], {"old": BAR})),
    "tag": (["tag", "copied", "old", "other"], ([BAR, OTHER], {"old": BAR, "other": BAR})),
    "untag": (["untag", "copied", "old"], ([OTHER], {})),
    "a repair": (["repair", "--workers", "1", "copied", "source"], ([BAR, OTHER], {"old": BAR})),
}
WAITS = "ocicp: waiting for another process that writes into copied\n"


def fresh(room):
    for layout in "source", "copied":
        shutil.rmtree("%s/%s" % (room, layout), ignore_errors=True)
    write_layout(room + "/source", [E, FOO, BAR, M2], {"new": M2})
    write_layout(room + "/copied", [BAR, OTHER], {"old": BAR}, [OTHER])


def opened(room):
    return os.open(room + "/copied", os.O_RDONLY | os.O_DIRECTORY)


def is_free(room):
    """Return whether nobody has the lock."""
    folder = opened(room)
    try:
        fcntl.flock(folder, fcntl.LOCK_EX | fcntl.LOCK_NB)
        return True
    except BlockingIOError:
        return False
    finally:
        os.close(folder)


def held_at_each(room, library, what):
    """Stop a command before each of its changes, and try to take the lock."""
    words, done = COMMANDS[what]
    for number in range(1, CHANGES + 1):
        fresh(room)
        if what == "a repair":
            os.truncate("%s/copied/%s" % (room, blob(BAR)), 1)
        process = shim.stopped(library, words, room, number)
        if not process:
            break
        free = is_free(room)
        os.kill(process.pid, signal.SIGCONT)
        _, err = process.communicate(timeout=SECONDS)
        yield "%s has the lock before its change %d" % (what, number), first([
            "the lock is free" if free else None,
            None if (process.returncode, err) == (0, "") else "status %d, %s" % (process.returncode, err.strip()),
            wrong_layout(room, "copied", *done),
        ])
    yield "%s makes between 3 and %d changes" % (what, CHANGES), None if 3 < number < CHANGES else "it makes %d" % (number - 1)


def wrong_wait(room):
    """Return the problem with a copy that has to wait, or None. Before it has the lock it is to change nothing, and to remove no draft of
    another copy."""
    fresh(room)
    draft = "%s/copied/blobs/sha256/%s.0123456789abcdef.new" % (room, digits(FOO))
    open(draft, "w").close()
    folder = opened(room)
    fcntl.flock(folder, fcntl.LOCK_EX)
    words = [PROGRAM, *COPY]
    pipes = {"stdin": subprocess.DEVNULL, "stdout": subprocess.PIPE, "stderr": subprocess.PIPE}
    with subprocess.Popen(words, cwd=room, text=True, **pipes) as process:
        said = process.stderr.readline()
        was_there, was_done = os.path.exists(draft), process.poll() is not None
        files = os.listdir(room + "/copied/blobs/sha256")
        os.close(folder)
        out, err = process.communicate(timeout=SECONDS)
    return first([
        None if said == WAITS else "it says %r" % said,
        None if was_there and not was_done and len(files) == 3 else "it does not wait for the lock",
        None if (process.returncode, err) == (0, "") and out.startswith("copied %s\n" % key(M2)) else "status %d, %s" % (process.returncode, err),
        "the draft is still there" if os.path.exists(draft) else None,
        wrong_layout(room, "copied", *COPIED),
    ])


def checks(room):
    library = shim.built(room, "stop", shim.STOPS)
    for what in COMMANDS:
        yield from held_at_each(room, library, what)
    yield "a copy that waits for the lock", wrong_wait(room)
