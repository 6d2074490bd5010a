"""Prunes and removals of tags for which each request for memory is refused in turn.

Such a run ends with status 3 and `ocicp: memory`, or as if nothing had been refused. Then the layout is as before or as after the command,
no tag has lost anything, and the same command, repeated with all memory, succeeds. Wants `cc`.
"""
import functools
import os

from support import refused_malloc
from support.program import first, run, told, wrong_layout
from support.prune_layout import FORMS, TAGS, Layout
from support.refused_malloc import refused_in_turn


@functools.lru_cache(maxsize=None)
def layout_of(folder, words):
    os.makedirs(folder)
    return Layout(folder, words)


def wrong_prune(words, library, room, nth):
    """Refuse the nth request of a prune, and return whether it made that many, and the problem with it or with the layout, or None."""
    layout = layout_of("%s/%d" % (room, os.getpid()), words)
    layout.fresh()
    refused, ended = refused_malloc.run_refused(library, nth, layout.words, layout.room)
    is_memory = refused and (ended.status, ended.err) == (3, "ocicp: memory\n")
    complaint = first([
        None if ended[:3] == layout.whole[:3] or is_memory else told(ended),
        layout.wrong_state(),
        layout.wrong_again(),
    ])
    return refused, complaint and "request %d: %s" % (nth, complaint)


def wrong_without(layout, name):
    """Return the problem with a layout from which a tag was removed with what belongs to it alone, or None."""
    others = {it: TAGS[it] for it in TAGS if it != name}
    return wrong_layout(layout.room, "layout", layout.prune.held.left_without(name), others)


def wrong_untag(name, library, room, nth):
    """Do the same with the removal of a tag."""
    layout = layout_of("%s/%d" % (room, os.getpid()), FORMS[0])
    layout.fresh()
    refused, ended = refused_malloc.run_refused(library, nth, ["untag", "layout", name], layout.room)
    is_done = ended.status == 0 and ended.out and not ended.err
    is_memory = refused and ended[:3] == (3, "", "ocicp: memory\n")
    again = run(["untag", "layout", name], layout.room)
    # (the index may have been saved before memory was refused)
    is_gone = again[:3] == (1, "", "ocicp: 36 UnknownReference\n")
    complaint = first([
        None if is_done or is_memory else told(ended),
        None if is_gone or not is_done and again.status == 0 else "again: " + told(again),
        wrong_without(layout, name),
    ])
    return refused, complaint and "request %d: %s" % (nth, complaint)


def checks(room):
    library = refused_malloc.build(room)
    cases = {
        "a prune with --untagged": (FORMS[0], wrong_prune),
        "a prune": (FORMS[1], wrong_prune),
        "untag": (next(iter(TAGS)), wrong_untag),
    }
    for number, (name, (case, wrong)) in enumerate(cases.items()):
        count, complaint = refused_in_turn(case, library, "%s/%d" % (room, number), wrong)
        yield "%s, %d requests refused in turn" % (name, count), complaint
