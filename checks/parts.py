"""Copies of layers of several sizes, which are read in parts of 1 MiB, also onto files that begin alike."""
import os
import shutil

from support.files import read
from support.layouts import BAR, E, LAYER, Content, blob, image, write_layout
from support.program import first, leftovers, run, told, wrong_layout

PART = 1 << 20
SIZES = 0, 1, PART - 1, PART, PART + 1, 2 * PART, 5 * PART


def layer(size, media_type=LAYER, algorithm="sha256"):
    """Return a layer of which no two parts are equal."""
    return Content(media_type, (bytes(range(251)) * (size // 251 + 1))[:size], algorithm)


LARGE = layer(2 * PART + 1)
# Layers that are copied together.
LAYERS = {
    "layers of %d sizes" % len(SIZES): [layer(size) for size in SIZES],
    "a layer by SHA-512": [layer(PART + 1, algorithm="sha512")],
    "one layer under two media types": [LARGE, layer(2 * PART + 1, "text/plain")],
    "one layer by two algorithms": [LARGE, layer(2 * PART + 1, algorithm="sha512")],
}
# What is in the place of the file of the large layer.
FILES = {
    "its first part": LARGE.bytes[:PART],
    "another last byte": LARGE.bytes[:-1] + b"?",
    "another byte in its second part": LARGE.bytes[:PART + 7] + b"?" + LARGE.bytes[PART + 8:],
    "all its bytes and one more": LARGE.bytes + b"?",
    "other bytes of its length": b"?" * len(LARGE.bytes),
    "all its bytes": LARGE.bytes,
}


def fresh(room, layers):
    for layout in "source", "copied":
        shutil.rmtree("%s/%s" % (room, layout), ignore_errors=True)
    contents = [E, *layers, image(layers)]
    write_layout(room + "/source", contents, {"new": contents[-1]})
    return contents


def wrong_copy(room, workers, contents, old=()):
    """Return the problem with a copy, or None. Each file is to have its bytes, and no other file is to be there."""
    ended = run(["copy", "--workers", workers, "source", "new", "copied"], room)
    names = {"new": contents[-1], **{"old": it for it in old}}
    return first([
        None if (ended.status, ended.err) == (0, "") else told(ended),
        first("%s differs" % blob(it) for it in contents if read("%s/copied/%s" % (room, blob(it))) != it.bytes),
        wrong_layout(room, "copied", [*old, *contents], names),
        leftovers(room + "/copied", [*old, *contents]),
    ])


def wrong_new(room, workers, layers):
    return wrong_copy(room, workers, fresh(room, layers))


def laid(room, text):
    """Make a destination with this in the place of the large layer. Return the contents, and the path of the file."""
    contents = fresh(room, [LARGE])
    write_layout(room + "/copied", [BAR], {"old": BAR})
    path = "%s/copied/%s" % (room, blob(LARGE))
    with open(path, "wb") as file:
        file.write(text)
    return contents, path


def wrong_old(room, text):
    """Return the problem with a copy onto a file, or None. A file that has the bytes already is not written again."""
    contents, path = laid(room, text)
    before = os.stat(path)
    wrong = wrong_copy(room, "1", contents, [BAR])
    after = os.stat(path)
    is_same = (before.st_ino, before.st_mtime_ns) == (after.st_ino, after.st_mtime_ns)
    return wrong or (None if is_same == (text == LARGE.bytes) else "it is %s" % ("the old file" if is_same else "a new file"))


def wrong_link(room, text):
    """Return the problem with a copy onto a link to a file, or None. A link to the right bytes stays, and each file that it leads to."""
    contents, path = laid(room, text)
    os.rename(path, room + "/target")
    os.symlink(room + "/target", path)
    return first([
        wrong_copy(room, "1", contents, [BAR]),
        None if os.path.islink(path) == (text == LARGE.bytes) else "it is %s link" % ("a" if os.path.islink(path) else "no"),
        None if read(room + "/target") == text else "the file that it led to has changed",
    ])


def checks(room):
    for what, layers in LAYERS.items():
        for workers in "1", "3":
            yield "%s, by %s workers" % (what, workers), wrong_new(room, workers, layers)
    for what, text in FILES.items():
        yield "onto a file with " + what, wrong_old(room, text)
        yield "onto a link to a file with " + what, wrong_link(room, text)
