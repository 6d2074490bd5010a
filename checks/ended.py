"""Copies that are ended half-way, and that find no room: nothing is lost, and the same copy finishes. Wants `cc`."""
import os
import resource
import shutil
import signal

from support import shim
from support.layouts import BAR, E, FOO, LAYER, M2, Content, blob, image, key, write_layout
from support.program import first, leftovers, run, told, wrong_layout

# The number of kills of a large copy, spread over its time, and how many of them at least have to happen while it runs.
KILLS, ENDED = 20, 5
# A small copy is killed before each of its changes. At least this number of kills has to leave a file that is not whole.
HALF = 3
MEGABYTE = 1 << 20
LAYERS = [Content(LAYER, b"%7d\n" % number * (MEGABYTE // 8)) for number in range(40)]
# Layers are copied in parts of a megabyte: these have three.
LONG = [Content(LAYER, b"%7d\n" % number * (3 * MEGABYTE // 8)) for number in range(100, 103)]
SOURCES = {
    "small": [E, FOO, M2],
    "large": [E, *LAYERS, image(LAYERS)],
    "long": [E, *LONG, image(LONG)],
}
OLD = {"old": BAR}

class Copy:
    """A copy of one of the sources, whose last content is the image, into a destination that has old contents or is not there."""

    def __init__(self, room, source, old):
        self.room, self.old = room, old
        self.contents = SOURCES[source]
        self.image = self.contents[-1]
        self.words = ["copy", source, "new", "copied"]

    def fresh(self):
        """Restore the destination to its state before the copy."""
        shutil.rmtree(self.room + "/copied", ignore_errors=True)
        if self.old:
            write_layout(self.room + "/copied", self.old.values(), self.old)

    def wrong_old(self):
        return wrong_layout(self.room, "copied", self.old.values(), self.old)

    def wrong_new(self):
        return wrong_layout(self.room, "copied", [*self.old.values(), *self.contents], {**self.old, "new": self.image})

    def wrong_state(self):
        """Return the problem with the destination after a copy that did not finish, or None. The copy may have been saved by then."""
        if not self.old and not os.path.exists(self.room + "/copied/oci-layout"):
            return None
        old = self.wrong_old()
        return old and self.wrong_new() and old

    def leftovers(self):
        return leftovers(self.room + "/copied", [*self.old.values(), *self.contents])

    def wrong_again(self):
        """Repeat the copy, and return the problem with it, or None. It is to copy everything, and to leave nothing else behind."""
        ended = run(self.words, self.room, seconds=30)
        if ended.status != 0 or ended.err or not ended.out.startswith("copied %s\n" % key(self.image)):
            return "the same copy again: " + told(ended)
        return first([self.wrong_new(), self.leftovers()])


def killed_by_time(copy):
    """Kill a copy at several moments of its time."""
    copy.fresh()
    whole = run(copy.words, copy.room, seconds=60).seconds
    killed = 0
    for number in range(KILLS):
        copy.fresh()
        killed += run(copy.words, copy.room, seconds=whole * number / KILLS).status == -signal.SIGKILL
        yield "killed at %d/%d of its time" % (number, KILLS), first([copy.wrong_state(), copy.wrong_again()])
    yield "%d kills came while the copy ran" % killed, None if killed >= ENDED else "too few"


def killed_by_change(copy, library, what):
    """Kill a copy before each change that it makes to a file or folder."""
    words, half = ["copy", "--workers", "1", *copy.words[1:]], 0
    for number in range(1, shim.MOST + 1):
        copy.fresh()
        made, ended = shim.run_marked(library, words, copy.room, {"LAST_CHANGE": str(number)})
        if made < number:
            break
        half += copy.leftovers() is not None
        wrong = None if ended.status == -signal.SIGKILL else "it was not killed: " + told(ended)
        yield "%s, killed before change %d" % (what, number), first([wrong, copy.wrong_state(), copy.wrong_again()])
    yield "%s makes at most %d changes" % (what, shim.MOST), None if made < number else "it makes more"
    yield "%d of these kills left a file that is not whole" % half, None if half >= HALF else "too few"


def short_of_room(copy, most, wanted):
    """Return the problem after a copy that can write no file of more than MOST bytes, or None. It is to be refused with one of these
    lines."""
    copy.fresh()
    limit = lambda: resource.setrlimit(resource.RLIMIT_FSIZE, (most, most))
    # Python ignores the signal of this limit, and then the program does too. The system returns an error for the write.
    ended = run(copy.words, copy.room, preexec_fn=limit, restore_signals=False)
    return first([
        None if ended.status == 1 and ended.err in ["ocicp: %s\n" % it for it in wanted] else "without room: " + told(ended),
        copy.wrong_state(),
        copy.leftovers(),
        first("%s is there" % blob(it) for it in copy.contents if len(it.bytes) > most and exists(copy, it)),
        copy.wrong_again(),
    ])


def exists(copy, content):
    return os.path.exists("%s/copied/%s" % (copy.room, blob(content)))


def checks(room):
    library = shim.built(room, "kill", shim.KILLS)
    for source, contents in SOURCES.items():
        write_layout("%s/%s" % (room, source), contents, {"new": contents[-1]})
    yield from killed_by_change(Copy(room, "small", OLD), library, "a copy into a layout")
    yield from killed_by_change(Copy(room, "small", {}), library, "a copy into a folder that is not there")
    yield from killed_by_time(Copy(room, "large", OLD))
    for source, most in ("large", 0), ("large", 10), ("large", 1000), ("large", MEGABYTE - 1), ("long", 3 * MEGABYTE // 2):
        # (the contents that are too large for the limit; if workers copy, any of these may be refused first)
        wanted = ["82 Push %s 43 Device" % key(it) for it in SOURCES[source] if len(it.bytes) > most]
        yield "no room for files of more than %d bytes" % most, short_of_room(Copy(room, source, OLD), most, wanted)
