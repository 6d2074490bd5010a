"""The mode, the group and the owner of `index.json`, which a save keeps. As root also of an owner that the program is not run as."""
import os
import shutil
import stat

from support.layouts import BAR, E, FOO, M2, write_layout
from support.program import first, run, told

# An owner and a group that are no user's.
OWNER, GROUP = 54321, 54322


def access(path):
    """Return the mode, the owner and the group of a file."""
    at = os.stat(path)
    return stat.S_IMODE(at.st_mode), at.st_uid, at.st_gid


def wrong_access(room, words, mode):
    """Return the problem with a command that saves a layout whose index has this mode, or None."""
    for layout in "layout", "source":
        shutil.rmtree("%s/%s" % (room, layout), ignore_errors=True)
    write_layout(room + "/layout", [E, FOO, BAR, M2], {"v1": M2, "v2": M2})
    write_layout(room + "/source", [E, FOO, BAR, M2], {"v1": M2})
    index = room + "/layout/index.json"
    os.chmod(index, mode)
    if os.geteuid() == 0:
        os.chown(index, OWNER, GROUP)
        os.chmod(index, mode)
    before, number = access(index), os.stat(index).st_ino
    ended = run(words, room)
    return first([
        None if ended.status == 0 else told(ended),
        None if os.stat(index).st_ino != number else "the file was not replaced",
        None if access(index) == before else "%s became %s" % (before, access(index)),
    ])


def checks(room):
    for mode in 0o664, 0o600, 0o444:
        yield "untag, mode %o" % mode, wrong_access(room, ["untag", "layout", "v2"], mode)
        yield "copy, mode %o" % mode, wrong_access(room, ["copy", "source", "v1", "layout", "v3"], mode)
    before = os.umask(0o027)
    ended = run(["copy", "source", "v1", "new"], room)
    os.umask(before)
    yield "a new layout", first([
        None if ended.status == 0 else told(ended),
        None if access(room + "/new/index.json")[0] == 0o640 else "%o" % access(room + "/new/index.json")[0],
    ])
