"""Repairs for which each request for memory is refused in turn.

Such a run ends with status 3 and `ocicp: memory`, or as if nothing had been refused. Then each file is the old one or a whole one, and the
same command, repeated with all memory, goes on. Wants `cc`.
"""
import functools
import os

from support import refused_malloc
from support.layouts import LAYER, Content
from support.program import first, run, told
from support.refused_malloc import refused_in_turn
from support.repair_layout import Damaged

SMALL = Content(LAYER, b"a small layer")


@functools.lru_cache(maxsize=None)
def layout_of(folder):
    os.makedirs(folder)
    return Damaged(folder + "/room", SMALL)


def wrong_repair(workers, library, room, nth):
    """Refuse the nth request of a repair, and return whether it made that many, and the problem with it or with the layout, or None."""
    layout = layout_of("%s/%d" % (room, os.getpid()))
    layout.fresh()
    words = ["repair", "--workers", workers, *layout.words[3:]]
    refused, ended = refused_malloc.run_refused(library, nth, words, layout.room)
    is_memory = refused and (ended.status, ended.err) == (3, "ocicp: memory\n")
    complaint = first([
        None if ended[:3] == (0, layout.repair.out, "") or is_memory else told(ended),
        layout.wrong_state(),
        layout.wrong_again(),
    ])
    return refused, complaint and "request %d: %s" % (nth, complaint)


def checks(room):
    library = refused_malloc.build(room)
    for workers in "1", "3":
        count, complaint = refused_in_turn(workers, library, "%s/%s" % (room, workers), wrong_repair)
        yield "a repair, workers %s, %d requests refused in turn" % (workers, count), complaint
