"""Copies into folders that have files of others: a copy removes the drafts of this program, once it is about to write, and nothing else."""
import os
import shutil

from support.layouts import BAR, E, FOO, M2, blob, digits, key, write_layout
from support.program import first, run, told

BLOB256, BLOB512 = digits(BAR), "f7" * 64
DRAFT = "0123456789abcdef"
PLACES = ["", "blobs/", "blobs/sha256/", "blobs/sha512/"]
# The names that drafts have, and where.
DRAFTS = [
    "index.json.%s.new" % DRAFT,
    "oci-layout.%s.new" % DRAFT,
    "blobs/sha256/%s.%s.new" % (BLOB256, DRAFT),
    "blobs/sha512/%s.%s.new" % (BLOB512, DRAFT),
]
# Files that are no drafts: the names of drafts in other places, and names that are nearly names of drafts.
OTHERS = [
    *(place + os.path.basename(draft) for place in PLACES for draft in DRAFTS if place + os.path.basename(draft) not in DRAFTS),
    "index.json.7.new",
    "index.json.20240101.new",
    "index.json.%s.old" % DRAFT,
    "index.json.%s.new" % DRAFT.upper(),
    "index.json.%s.new" % DRAFT[1:],
    "index.json.%s0.new" % DRAFT,
    "index.json.%sg.new" % DRAFT[:-1],
    "index.json.%s" % DRAFT,
    "index.json.%s.new.new" % DRAFT,
    "index.json.new",
    "index_json.%s.new" % DRAFT,
    "index.json%s.new" % DRAFT,
    "other.%s.new" % DRAFT,
    "blobs/sha256/%s.0.new" % BLOB256,
    "blobs/sha256/%s.%s.new" % (BLOB256.upper(), DRAFT),
    "blobs/sha256/%s.%s.new" % (BLOB256, DRAFT.upper()),
    "blobs/sha256/%s.%s.new" % (BLOB256[1:], DRAFT),
    "blobs/sha256/x%s.%s.new" % (BLOB256[1:], DRAFT),
    "blobs/sha256/%s0.%s.new" % (BLOB256, DRAFT),
    "blobs/sha256/%s.new" % BLOB256,
    "blobs/sha512/%s.0.new" % BLOB512,
]
TEXT = b"not yours\n"
# The causes of a refused copy, each a file that has other bytes before it or is missing, and the line of the refusal.
REFUSED = {
    "a folder that is no layout": ("copied/oci-layout", b"{}", "71 BadLayoutFile"),
    "an index that is none": ("copied/index.json", b"[", "73 BadIndex 10 NotJson"),
    "a layer that the source lacks": ("source/" + blob(FOO), None, "81 Plan 53 NotFound %s" % key(FOO)),
}


def fresh(room):
    for layout in "source", "copied", "shared":
        shutil.rmtree("%s/%s" % (room, layout), ignore_errors=True)
    write_layout(room + "/source", [E, FOO, M2], {"new": M2})
    write_layout(room + "/copied", [BAR], {"old": BAR})
    os.mkdir(room + "/copied/blobs/sha512")


def put_files(folder):
    for path in DRAFTS + OTHERS:
        with open("%s/%s" % (folder, path), "wb") as file:
            file.write(TEXT)


def wrong_files(folder, removed):
    """Return the problem with the files, or None. These are to be gone, and the others to be there."""
    for path in DRAFTS + OTHERS:
        if os.path.exists("%s/%s" % (folder, path)) == (path in removed):
            return "%s is %s" % (path, "there" if path in removed else "gone")


def wrong_copy(room, line, words=("copy", "source", "new", "copied")):
    ended = run(words, room)
    wanted = (0, "") if line is None else (1, "ocicp: %s\n" % line)
    return None if (ended.status, ended.err) == wanted else told(ended)


def wrong_refused(room, harmed, content, line):
    """Return the problem with a copy that is refused, or None. No file is to be gone."""
    fresh(room)
    put_files(room + "/copied")
    path = "%s/%s" % (room, harmed)
    if content is None:
        os.remove(path)
    else:
        with open(path, "wb") as file:
            file.write(content)
    return first([wrong_copy(room, line), wrong_files(room + "/copied", [])])


def wrong_open(room):
    """Return the problem with a copy into a layout that has lost a layer, or None."""
    fresh(room)
    shutil.rmtree(room + "/copied")
    write_layout(room + "/copied", [E, M2], {"old": M2})
    os.mkdir(room + "/copied/blobs/sha512")
    put_files(room + "/copied")
    return first([wrong_copy(room, "80 DestinationOpen %s %s" % (key(M2), key(FOO))), wrong_files(room + "/copied", [])])


def wrong_done(room, *flags, removed=DRAFTS):
    """Return the problem with a copy that is done, or None. Exactly the drafts are to be gone."""
    fresh(room)
    put_files(room + "/copied")
    return first([wrong_copy(room, None, ["copy", *flags, "source", "new", "copied"]), wrong_files(room + "/copied", removed)])


def wrong_linked(room, link):
    """Return the problem with a copy into a layout that has a link in the place of a folder, or None. It is to write through the link, and
    to remove nothing through it."""
    fresh(room)
    put_files(room + "/copied")
    os.rename("%s/copied/%s" % (room, link), room + "/shared")
    os.symlink(room + "/shared", "%s/copied/%s" % (room, link))
    verified = ["verify", "copied"]
    return first([
        wrong_copy(room, None),
        wrong_files(room + "/copied", [it for it in DRAFTS if not it.startswith(link + "/")]),
        None if run(verified, room)[:3] == (0, "held 4\n", "") else told(run(verified, room)),
    ])


def wrong_kinds(room):
    """Return the problem with a copy into a layout that has a folder and a link with the names of drafts, or None. They are to stay."""
    fresh(room)
    folder, link = ("%s/copied/%s" % (room, DRAFTS[place]) for place in range(2))
    os.mkdir(folder)
    os.symlink("index.json", link)
    return first([
        wrong_copy(room, None),
        None if os.path.isdir(folder) else "the folder is gone",
        None if os.path.islink(link) else "the link is gone",
    ])


def checks(room):
    for what, (harmed, content, line) in REFUSED.items():
        yield "refused by " + what, wrong_refused(room, harmed, content, line)
    yield "refused by a layer that the destination lacks", wrong_open(room)
    yield "a dry run", wrong_done(room, "--dry-run", removed=[])
    yield "a copy", wrong_done(room)
    yield "a folder and a link with the names of drafts", wrong_kinds(room)
    for link in "blobs", "blobs/sha256", "blobs/sha512":
        yield "a copy through a link in the place of %s" % link, wrong_linked(room, link)
