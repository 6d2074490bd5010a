"""Copies from a layout that has something in the place of a file that would harm a careless reader, and how each has to end."""
import os
import shutil

from support.layouts import BAR, E, FOO, M2, image, key, write_layout
from support.program import run, told

SECONDS, KILOBYTES = 5, 32 << 10
# The bytes of a file that belongs to no layout.
SECRET = b"known to its owner alone"
# The contents and the tags of a destination.
PLAIN, PLAIN_TAGS = [BAR], {"layer": BAR}
# The image that a destination has if it is harmed itself.
OLD_IMAGE = image([BAR])
CONTENTS = {
    "the manifest": M2,
    "the config": E,
    "the layer": FOO,
    "an old manifest": OLD_IMAGE,
    "an old layer": BAR,
    "a new layer": FOO,
}

# The answers of a copy from a layout with each harm in the place of a file. A harm without an answer of its own is no regular file, or leads
# to none. A link to another file is read, and none of its bytes is printed. An empty answer is success. A layer or config of another size is damaged, and so is what is
# no regular file.
LEAF = {
    "": ["75 Corrupt KEY"],
    "a link to itself": ["74 Device"],
    "a link to nothing": ["81 Plan 53 NotFound KEY"],
}
FROM = {
    "oci-layout": {
        "": ["74 Device"],
        "a link to another file": ["71 BadLayoutFile"],
        "a sparse file of 1 TB": ["memory", "71 BadLayoutFile"],
    },
    "index.json": {
        "": ["74 Device"],
        "a link to another file": ["73 BadIndex 10 NotJson"],
        "a sparse file of 1 TB": ["memory", "73 BadIndex 10 NotJson"],
    },
    "the manifest": {
        "": ["75 Corrupt KEY"],
        "a link to itself": ["74 Device"],
        "a link to nothing": ["36 UnknownReference"],
    },
    "the config": LEAF,
    "the layer": LEAF,
}


def fresh(folder, old, tags):
    """Write a source with an image, and a destination with old contents."""
    shutil.rmtree(folder, ignore_errors=True)
    os.mkdir(folder)
    with open(folder + "/secret", "wb") as file:
        file.write(SECRET)
    write_layout(folder + "/source", [E, FOO, M2], {"new": M2})
    write_layout(folder + "/copied", old, tags)


def answers_to(table, file, harm):
    """Return the answers that a table allows."""
    found = table[file].get(harm, table[file][""])
    return [it.replace("KEY", key(CONTENTS.get(file, E))).replace("HOLDER", key(OLD_IMAGE)) for it in found]


def wrong_copy(folder, wanted):
    """Return the problem with the output of a copy, its time or its memory, or None. One of these answers is to be printed."""
    ended = run(["copy", "source", "new", "copied"], folder)
    statuses = {"ocicp: %s\n" % it if it else "": 3 if it == "memory" else 1 if it else 0 for it in wanted}
    if ended.status < 0:
        return "it had not ended after %.0f seconds" % ended.seconds
    if ended.status != statuses.get(ended.err):
        return "%s, and not %s" % (told(ended), " or ".join(it or "success" for it in wanted))
    if ended.seconds > SECONDS:
        return "it took %.1f s" % ended.seconds
    if ended.kilobytes > KILOBYTES:
        return "it took %d KB" % ended.kilobytes
