"""Folders that another process moves or replaces right before a command locks them: the command is refused, and the same command again finds what
is then at the path. Wants `cc`."""
import os
import shutil

from support import shim
from support.files import files
from support.layouts import BAR, E, FOO, M2, key, write_layout
from support.program import first, run, told

# The folder is moved, and with REPLACED another one comes in its place, before the first lock of a folder. With BUSY that lock is refused
# first, as if another process had it, so that the command waits for the next one.
SHIM = r"""
#define _GNU_SOURCE
#include <dlfcn.h>
#include <errno.h>
#include <stdio.h>
#include <stdlib.h>
#include <sys/file.h>
#include <sys/stat.h>
int flock(int file, int how) {
  static int busy, moved;
  struct stat at;
  if (fstat(file, &at) == 0 && S_ISDIR(at.st_mode)) {
    if (getenv("BUSY") && !busy++) { errno = EWOULDBLOCK; return -1; }
    if (!moved++ && (rename("copied", "away") || (getenv("REPLACED") && rename("other", "copied")))) abort();
  }
  return ((int (*)(int, int))dlsym(RTLD_NEXT, "flock"))(file, how);
}
"""
COPY = ["copy", "source", "new", "copied"]
COMMANDS = {
    "a copy": COPY,
    "a prune": ["prune", "copied"],
    "tag": ["tag", "copied", "old", "other"],
    "untag": ["untag", "copied", "old"],
    "a repair": ["repair", "copied", "source"],
}
WAITS = "ocicp: waiting for another process that writes into copied\n"
REFUSED = "ocicp: 74 Device\n"
NO_LAYOUT = "ocicp: 70 NoLayoutFile\n"


def fresh(room):
    for layout in "source", "copied", "other", "away":
        shutil.rmtree("%s/%s" % (room, layout), ignore_errors=True)
    write_layout(room + "/source", [E, FOO, M2], {"new": M2})
    write_layout(room + "/copied", [BAR], {"old": BAR})
    write_layout(room + "/other", [FOO], {"old": FOO})


def wrong_end(ended, status, err):
    return None if (ended.status, ended.err) == (status, err) else told(ended)


def wrong(room, library, words, is_replaced, is_busy):
    """Return the problem with a command whose folder is moved, or None. No folder is to change."""
    fresh(room)
    moved, other = files(room + "/copied"), files(room + "/other")
    flags = {"REPLACED": "x"} if is_replaced else {}
    flags.update({"BUSY": "x"} if is_busy else {})
    ended = run(words, room, env=dict(os.environ, LD_PRELOAD=library, **flags))
    there = os.path.exists(room + "/copied")
    found = first([
        wrong_end(ended, 1, (WAITS if is_busy else "") + REFUSED),
        None if files(room + "/away") == moved else "the folder that was moved has changed",
        None if there == is_replaced else "there is %s folder at the path" % ("a" if there else "no"),
        None if files(room + "/copied" if is_replaced else room + "/other") == other else "the other folder has changed",
    ])
    again = run(words, room)
    is_found = is_replaced or words == COPY
    return first([
        found,
        "again: " + told(again) if wrong_end(again, *((0, "") if is_found else (1, NO_LAYOUT))) else None,
        None if files(room + "/away") == moved else "the folder that was moved has changed afterwards",
    ])


def checks(room):
    library = shim.built(room, "moves", SHIM)
    for what, words in COMMANDS.items():
        for is_replaced in False, True:
            for is_busy in False, True:
                event = "%s%s" % ("replaced" if is_replaced else "moved", " while it waits" if is_busy else "")
                yield "the folder of %s is %s" % (what, event), wrong(room, library, words, is_replaced, is_busy)
