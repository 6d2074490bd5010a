"""Commands for which each request for memory is refused in turn.

Such a run ends with status 3 and `ocicp: memory`, or as if nothing had been refused. Then the destination is whole, with its old names, and
the same command, repeated with all memory, succeeds.
"""
import os
import shutil
import tarfile
from collections import namedtuple

from support import refused_malloc
from support.layouts import BAR, E, FOO, I1, I3, I4, LAYER, M2, M3, S, Content, blob, write_layout
from support.program import first, leftovers, run, told, wrong_layout
from support.refused_malloc import refused_in_turn

OLD = Content(LAYER, b"old")
TWO_IMAGES = [E, FOO, BAR, M2, M3, I1]
REFERRERS = [E, FOO, M2, S, I3, I4]

# A command, the contents and the tags of its source, and the tags of its destination before, or none if there is no destination.
Case = namedtuple("Case", "words contents names old", defaults=[{}])
COPY = ["source", "new", "copied"]
CASES = {
    "copy by 1 worker": Case(["copy", "--workers", "1", *COPY], TWO_IMAGES, {"new": I1}, {"old": OLD}),
    "copy by 3 workers": Case(["copy", "--workers", "3", *COPY], TWO_IMAGES, {"new": I1}, {"old": OLD}),
    "copy into a folder that is not there": Case(["copy", *COPY], TWO_IMAGES, {"new": I1}),
    "copy with referrers": Case(["copy", "--referrers", *COPY], REFERRERS, {"new": M2, "signature": S, "index": I4}, {"old": OLD}),
    "copy from an archive": Case(["copy", "source.tar", "new", "copied"], TWO_IMAGES, {"new": I1}, {"old": OLD}),
    "verify": Case(["verify", "source"], TWO_IMAGES, {"new": I1}),
    "mem": Case(["mem", *["%s=source/%s" % (it.media_type, blob(it)) for it in TWO_IMAGES]], TWO_IMAGES, {"new": I1}),
}


def fresh(folder, case):
    """Restore the destination to its state before the command."""
    shutil.rmtree(folder + "/copied", ignore_errors=True)
    if not os.path.exists(folder):
        os.mkdir(folder)
        write_layout(folder + "/source", case.contents, case.names)
        # (Python writes an extended header before each member, for its time)
        with tarfile.open(folder + "/source.tar", "w", format=tarfile.PAX_FORMAT) as archive:
            archive.add(folder + "/source", ".")
    if case.old:
        write_layout(folder + "/copied", case.old.values(), case.old)


def wrong_destination(folder, case, is_done):
    """Return the problem with the destination, or None. It is to have its old contents or, if the command is done, all contents."""
    whole = [*case.old.values(), *case.contents]
    done = first([
        wrong_layout(folder, "copied", whole, {**case.old, "new": case.names["new"]}),
        leftovers(folder + "/copied", whole),
    ])
    if is_done or not done:
        return done
    if not case.old and not os.path.exists(folder + "/copied/oci-layout"):
        return None
    return wrong_layout(folder, "copied", case.old.values(), case.old)


def wrong_run(case, library, room, nth):
    """Refuse the nth request of a command, and return whether it made that many, and the problem with it or with the destination, or
    None."""
    folder = "%s/%d" % (room, os.getpid())
    fresh(folder, case)
    unhurt = run(case.words, folder)
    fresh(folder, case)
    refused, ended = refused_malloc.run_refused(library, nth, case.words, folder)
    is_done = ended[:3] == unhurt[:3] and ended.status == 0
    complaint = None if is_done or refused and ended[:3] == (3, "", "ocicp: memory\n") else told(ended)
    if case.words[0] == "copy":
        complaint = complaint or wrong_destination(folder, case, is_done)
        again = run(case.words, folder)
        if again.status != 0 or again.err:
            complaint = complaint or "the same command again: " + told(again)
        complaint = complaint or wrong_destination(folder, case, True)
    return refused, complaint and "request %d: %s" % (nth, complaint)


def checks(room):
    library = refused_malloc.build(room)
    for number, (name, case) in enumerate(CASES.items()):
        count, complaint = refused_in_turn(case, library, "%s/%d" % (room, number), wrong_run)
        yield "%s, %d requests refused in turn" % (name, count), complaint
