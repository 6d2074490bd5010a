"""Copies from and into layouts that have something in the place of a file that would harm a careless reader."""
import os
import re
import shutil
import stat

from support.files import files, read
from support.harms import CONTENTS, FROM, OLD_IMAGE, PLAIN, PLAIN_TAGS, SECRET, answers_to, fresh, wrong_copy
from support.layouts import BAR, E, FOO, LAYER, M2, Content, blob, image, key, write_layout
from support.program import first, leftovers, run, told, wrong_layout


def device(path):
    """Make a copy of /dev/zero, which only root may do, and not everywhere."""
    os.mknod(path, stat.S_IFCHR | 0o666, os.makedev(1, 5))


def elsewhere(path):
    """Link to the file `secret` beside the layouts."""
    os.symlink(re.sub("/(source|copied)/.*", "/secret", path), path)


def sparse(path):
    with open(path, "wb") as file:
        file.truncate(1 << 40)


HARMS = {
    "a FIFO": os.mkfifo,
    "a device": device,
    "a link to /dev/zero": lambda path: os.symlink("/dev/zero", path),
    "a folder": os.mkdir,
    "a link to itself": lambda path: os.symlink(path, path),
    "a sparse file of 1 TB": sparse,
    "a link to another file": elsewhere,
    "a link to nothing": lambda path: os.symlink("nothing", path),
}

# The answers of a copy into such a layout. A link in the place of a new layer is replaced, and not followed. A copy does not read an old
# layer, and holds it if there is a regular file with its name and its size; otherwise the destination is not closed. An old manifest that is
# damaged stays.
INTO = {
    "oci-layout": FROM["oci-layout"],
    "index.json": FROM["index.json"],
    "an old manifest": {"": [""], "a link to itself": ["74 Device"]},
    "an old layer": {"": ["80 DestinationOpen HOLDER KEY"], "a link to itself": ["74 Device"]},
    "a new layer": {"": [""], "a folder": ["82 Push KEY 43 Device"]},
}

OLD, TAGS = [E, BAR, OLD_IMAGE], {"layer": BAR, "old": OLD_IMAGE}
NEW = [FOO, M2]
# What `tags` and `verify` end with if an old manifest has other bytes, or no file: its entry stays.
DAMAGED = "ocicp: 75 Corrupt %s\n" % key(OLD_IMAGE), "corrupt %s\nheld 5\n" % key(OLD_IMAGE)
ABSENT = "", "absent %s\nheld 4\n" % key(OLD_IMAGE)


def harmed(folder, file, harm):
    """Put the harm in the place of a file."""
    path = "%s/%s" % (folder, blob(CONTENTS[file]) if file in CONTENTS else file)
    if os.path.exists(path):
        os.remove(path)
    HARMS[harm](path)


def wrong_secret(folder):
    """Return the problem with the file that belongs to no layout, or None. It is to be unchanged, and no layout to have its bytes."""
    if read(folder + "/secret") != SECRET:
        return "a file of no layout was written to"
    for path, found in files(folder + "/copied").items():
        if isinstance(found, bytes) and SECRET in found:
            return "%s has what a file of no layout holds" % path


def wrong_from(folder, file, harm):
    """Return the problem with a copy from a layout that has the harm in the place of a file, or None."""
    fresh(folder, PLAIN, PLAIN_TAGS)
    harmed(folder + "/source", file, harm)
    return first([
        wrong_copy(folder, answers_to(FROM, file, harm)),
        wrong_layout(folder, "copied", PLAIN, PLAIN_TAGS),
        leftovers(folder + "/copied", [*PLAIN, E, FOO]),
        wrong_secret(folder),
    ])


def wrong_into(folder, file, harm):
    """Return the problem with a copy into a layout that has the harm in the place of a file, or None. A refused copy changes no file."""
    fresh(folder, OLD, TAGS)
    harmed(folder + "/copied", file, harm)
    before = files(folder + "/copied")
    wanted = answers_to(INTO, file, harm)
    complaint = wrong_copy(folder, wanted)
    after = files(folder + "/copied")
    if wanted != [""]:
        wrong = None if after == before else "the destination is not as it was"
    elif file == "an old manifest":
        wrong = wrong_findings(folder, {"layer": BAR, "new": M2}, *(ABSENT if harm == "a link to nothing" else DAMAGED))
    else:
        wrong = wrong_layout(folder, "copied", [*OLD, *NEW], {**TAGS, "new": M2})
    return first([complaint, wrong, leftovers(folder + "/copied", [*OLD, *NEW]), wrong_secret(folder)])


def wrong_findings(folder, tags, damage, findings):
    """Return the problem with the tags of the destination, after which a damaged manifest is refused, or with what `verify` finds there, or
    None."""
    lines = ["%s %s\n" % (name, key(it)) for name, it in sorted(tags.items())]
    listed, found = run(["tags", "copied"], folder), run(["verify", "copied"], folder)
    if listed[:3] != (1 if damage else 0, "".join(lines), damage):
        return "tags: " + told(listed)
    if found[:3] != (1, findings, ""):
        return "verify: " + told(found)


def harms(room):
    """Return the harms that can be made here, and the names of the others."""
    made, others = [], []
    for harm, make in HARMS.items():
        try:
            make("%s/%d" % (room, len(made) + len(others)))
            made.append(harm)
        except PermissionError:
            others.append(harm)
    return made, others


def wrong_size(folder, harm):
    """Return the problem with a copy into a layout that has the harm in the place of a layer of the size that the system tells for it, or None."""
    shutil.rmtree(folder, ignore_errors=True)
    os.makedirs(folder)
    HARMS[harm](folder + "/measured")
    layer = Content(LAYER, b"a" * os.stat(folder + "/measured").st_size)
    old = image([layer])
    write_layout(folder + "/source", [E, FOO, M2], {"new": M2})
    write_layout(folder + "/copied", [E, layer, old], {"old": old})
    path = "%s/copied/%s" % (folder, blob(layer))
    os.remove(path)
    HARMS[harm](path)
    ended = run(["copy", "source", "new", "copied"], folder)
    if ended[:3] != (1, "", "ocicp: 80 DestinationOpen %s %s\n" % (key(old), key(layer))):
        return told(ended)


def checks(room):
    folder = room + "/room"
    made, others = harms(room)
    for harm in others:
        yield "%s is not looked at, since it cannot be made here" % harm, None
    for where, table, wrong in ("from", FROM, wrong_from), ("into", INTO, wrong_into):
        for file in table:
            for harm in made:
                yield "a copy %s a layout with %s in the place of %s" % (where, harm, file), wrong(folder, file, harm)
    for harm in "a FIFO", "a folder":
        yield "%s in the place of a layer of its size" % harm, wrong_size(folder, harm)
