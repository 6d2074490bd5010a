"""Copies into an archive for which each request for memory is refused in turn.

Such a run ends with status 3 and `ocicp: memory`, or as if nothing had been refused. FILE is then not there, and nothing beside it, unless the
run had no memory only for what it prints at its end: then FILE is whole. An archive on the output is cut, or whole. Wants `cc`.
"""
import functools
import os
import tarfile

from support import refused_malloc
from support.exports import Ended, archive_of, is_cut
from support.files import read
from support.layouts import BAR, E, FOO, I1, LAYER, M2, M3, S, Content, image, write_layout
from support.program import first, run, told
from support.refused_malloc import refused_in_turn
from support.tar_files import pack

FILE, MEMORY = "made.tar", "ocicp: memory\n"
LONG = image([Content(LAYER, b"a layer by another algorithm", "sha512")])
CONTENTS = [E, FOO, BAR, M2, M3, I1, S, Content(LAYER, b"a layer by another algorithm", "sha512"), LONG]
CASES = {
    "a copy": ["source", "new", FILE],
    "a copy of all tags from an archive, as a document": ["--json", "--all", "source.tar", FILE],
    "a copy with referrers by workers": ["--workers", "3", "--referrers", "source", "one", FILE],
    "a copy onto the output": ["source", "long", "-"],
}


class Copy:
    """A copy into an archive, in a folder of its own, with what it writes and prints if it has memory."""

    def __init__(self, folder, words):
        os.makedirs(folder)
        self.folder, self.words = folder, ["copy", "--archive", *words]
        write_layout(folder + "/source", CONTENTS, {"new": I1, "one": M2, "long": LONG}, [S])
        pack(folder + "/source.tar", folder + "/source", ["."], tarfile.PAX_FORMAT)
        self.names = sorted(os.listdir(folder))
        into_folder = run(["copy", *words[:-1], "folder"], folder)
        assert into_folder.status == 0, told(into_folder)
        self.archive = archive_of(folder + "/folder")
        os.rename(folder + "/folder", folder + ".folder")
        is_out = words[-1] == "-"
        said = (into_folder.out if is_out else "") + into_folder.err
        self.ended = Ended(0, self.archive.decode() if is_out else into_folder.out, said)

    def wrong_left(self, status):
        """Return the problem with what a run has left, or None."""
        left = sorted(set(os.listdir(self.folder)) - set(self.names))
        if self.words[-1] == "-" or status == 3 and not left:
            return "%s is left" % left if left else None
        if left != [FILE]:
            return "%s is left" % left
        return None if read("%s/%s" % (self.folder, FILE)) == self.archive else "FILE is not whole"

    def wrong_end(self, ended, refused):
        """Return the problem with the end of a run, or None."""
        if ended[:3] == self.ended:
            return None
        out, is_out = ended.out.encode(), self.words[-1] == "-"
        is_right_out = self.archive.startswith(out) and (is_cut(out) or out == self.archive) if is_out else not out
        is_memory = MEMORY if "--json" not in self.words else '{"error":[{"name":"Memory"}],"kind":"memory"}\n'
        # (the lines that a copy onto the output prints may be there in part)
        is_right_err = ended.err == is_memory or is_out and ended.err.endswith(is_memory)
        return None if refused and ended.status == 3 and is_right_out and is_right_err else told(ended)


@functools.lru_cache(maxsize=None)
def copy_of(folder, name):
    return Copy(folder, CASES[name])


def wrong_copy(name, library, room, nth):
    """Refuse the nth request of a copy, and return whether it made that many, and the problem with it or with FILE, or None."""
    copy = copy_of("%s/%d" % (room, os.getpid()), name)
    refused, ended = refused_malloc.run_refused(library, nth, copy.words, copy.folder)
    complaint = first([copy.wrong_end(ended, refused), copy.wrong_left(ended.status)])
    if os.path.exists("%s/%s" % (copy.folder, FILE)):
        os.remove("%s/%s" % (copy.folder, FILE))
    elif not complaint and ended.status:
        again = run(copy.words, copy.folder)
        complaint = None if again[:3] == copy.ended and not copy.wrong_left(0) else "the same copy again: " + told(again)
        if os.path.exists("%s/%s" % (copy.folder, FILE)):
            os.remove("%s/%s" % (copy.folder, FILE))
    return refused, complaint and "request %d: %s" % (nth, complaint)


def checks(room):
    library = refused_malloc.build(room)
    for number, name in enumerate(CASES):
        count, complaint = refused_in_turn(name, library, "%s/%d" % (room, number), wrong_copy)
        yield "%s, %d requests refused in turn" % (name, count), complaint
