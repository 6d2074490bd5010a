"""Copies that write blobs into one folder at the same time, without one lock: their layouts are two, and `blobs` is a link. Wants `cc`.

A blob's file never has other bytes than its digest says, whatever the other one does between two changes of a copy.
"""
import hashlib
import os
import shutil
import signal
import subprocess
from concurrent.futures import ThreadPoolExecutor

from support import shim
from support.layouts import E, LAYER, Content, image, key, write_layout
from support.program import first, run, told

RUNS, TRIES = 20, 3
# A copy is stopped before each of its changes, of which there are at most this many.
CHANGES = 100
MEGABYTE = 1 << 20
# Layers are copied in parts of a megabyte: this one has three.
LONG = Content(LAYER, b"%7d\n" % 7 * (3 * MEGABYTE // 8))
CONTENTS = [E, LONG, image([LONG])]
IMAGE = CONTENTS[-1]

def fresh(room, layouts):
    """Make layouts that share the folder `blobs` of the first one."""
    for layout in layouts:
        shutil.rmtree("%s/%s" % (room, layout), ignore_errors=True)
        write_layout("%s/%s" % (room, layout), [], {})
        if layout != layouts[0]:
            shutil.rmtree("%s/%s/blobs" % (room, layout))
            os.symlink("%s/%s/blobs" % (room, layouts[0]), "%s/%s/blobs" % (room, layout))


def wrong_blobs(folder):
    """Return the problem with the files that have a blob's name, or None. Each is to have the bytes of its digest."""
    for name in os.listdir(folder + "/blobs/sha256"):
        if len(name) == 64:
            with open("%s/blobs/sha256/%s" % (folder, name), "rb") as file:
                if hashlib.sha256(file.read()).hexdigest() != name:
                    return "%s is damaged" % name


def wrong_held(room, layout):
    ended = run(["verify", layout], room)
    return None if ended[:3] == (0, "held %d\n" % len(CONTENTS), "") else "verify %s: %s" % (layout, told(ended))


def wrong_copied(ended):
    wanted = (0, "copied %s\n" % key(IMAGE))
    return None if (ended.status, ended.out[: len(wanted[1])]) == wanted else told(ended)


def wrong_end(process):
    """Let a stopped copy go on, and return the problem with its end, or None. It is to succeed, since the other copy does not touch the
    file that this one writes."""
    os.kill(process.pid, signal.SIGCONT)
    try:
        _, err = process.communicate(timeout=60)
    except subprocess.TimeoutExpired:
        process.kill()
        process.communicate()
        return "it does not end"
    return None if process.returncode == 0 else "status %d, %s" % (process.returncode, err.strip())


def stopped_before_each(room, library, slow, quick):
    """Stop a copy into one layout before each of its changes, and copy into the other layout during each stop."""
    for number in range(1, CHANGES + 1):
        fresh(room, ["first", "second"])
        process = shim.stopped(library, ["copy", "--workers", "1", "source", "new", slow], room, number)
        if not process:
            break
        other = wrong_copied(run(["copy", "source", "new", quick], room))
        yield "a copy into %s is stopped before change %d, and another one goes into %s" % (slow, number, quick), first([
            other,
            wrong_end(process),
            wrong_blobs(room + "/first"),
            wrong_copied(run(["copy", "source", "new", slow], room)),
            wrong_held(room, slow),
            wrong_held(room, quick),
        ])
    yield "a copy makes at most %d changes" % CHANGES, None if number < CHANGES else "it makes more"


def wrong_at_once(room):
    """Return the problem with many copies at once, each into a layout of its own that has the same `blobs`, or None."""
    layouts = ["copied-%d" % number for number in range(RUNS)]
    fresh(room, layouts)
    with ThreadPoolExecutor(RUNS) as pool:
        ended = list(pool.map(lambda layout: run(["copy", "source", "new", layout], room, seconds=60), layouts))
    return first([
        *map(wrong_copied, ended),
        wrong_blobs(room + "/copied-0"),
        *(wrong_held(room, layout) for layout in layouts),
    ])


def checks(room):
    library = shim.built(room, "stop", shim.STOPS)
    write_layout(room + "/source", CONTENTS, {"new": IMAGE})
    for number in range(TRIES):
        yield "%d copies at once with one folder of blobs, try %d" % (RUNS, number + 1), wrong_at_once(room)
    yield from stopped_before_each(room, library, "first", "second")
    yield from stopped_before_each(room, library, "second", "first")
