"""Layouts with damage, and their states between a repair that is ended or refused and the next one."""
import os
import shutil
import tarfile

from support.files import files, read
from support.layouts import BAR, E, FOO, I1, I3, I4, LAYER, M2, M3, S, Content, blob, write_layout
from support.program import first, run, told
from support.repairing import BESIDE, Repair
from support.tar_files import pack

MEGABYTE = 1 << 20
LARGE = [Content(LAYER, b"%7d\n" % number * (3 * MEGABYTE // 16)) for number in range(3)]
ALL = [E, FOO, BAR, M2, M3, S, I1, I3, I4]


def write(folder, path, content):
    """Write a file, and make the folders above it."""
    os.makedirs(os.path.dirname("%s/%s" % (folder, path)), exist_ok=True)
    with open("%s/%s" % (folder, path), "wb") as file:
        file.write(content)


def fresh(room, contents, tags, untagged=(), lost=(), damaged=()):
    """Write the layout with these contents and entries, but without some contents, and with other bytes in the place of some, and a whole
    source."""
    shutil.rmtree(room, ignore_errors=True)
    write_layout(room + "/layout", [it for it in contents if it not in lost], tags, untagged)
    write_layout(room + "/source", contents, {})
    for content in damaged:
        # (of the same length, and the same up to the last byte)
        write(room + "/layout", blob(content), content.bytes[:-1] + bytes([content.bytes[-1] ^ 1]))


class Damaged:
    """A layout that is repaired again and again. Each of the kinds of damage is in it, and two sources that each lack something."""

    def __init__(self, room, large=LARGE[0]):
        self.room, self.layout, self.large = room, room + "/layout", large
        self.sources = [room + "/source", room + "/other"]
        self.words = ["repair", "--workers", "1", "layout", "source", "other.tar"]
        self.fresh()
        self.repair, self.before = Repair(self.layout, self.sources), self.files()
        self.after = {**self.before, **self.repair.written}

    def fresh(self):
        """Restore the layout to its state before the repair."""
        fresh(self.room, [*ALL, self.large], {"a": I4, "b": I1}, [S, self.large], [BAR, I3, E], [M2, FOO, self.large])
        os.mkdir("%s/%s" % (self.layout, blob(E)))
        os.remove("%s/%s" % (self.sources[0], blob(FOO)))
        write_layout(self.sources[1], [FOO, S], {})
        pack(self.sources[1] + ".tar", self.sources[1], ["."], tarfile.GNU_FORMAT)

    def files(self):
        """Return the files of the layout, each with its bytes, and its folders."""
        large = "%s/%s" % (self.layout, blob(self.large))
        return {**files(self.layout), **({blob(self.large): read(large)} if os.path.isfile(large) else {})}

    def is_done(self):
        return self.files() == self.after

    def wrong_whole(self):
        """Return the problem with a repair that is not ended, or None."""
        self.fresh()
        ended = run(self.words, self.room)
        return first([
            None if len(self.repair.written) == 6 and not self.repair.missing else "by the rules: %s" % self.repair.lines,
            None if ended[:3] == (0, self.repair.out, "") else told(ended),
            None if self.is_done() else "the files are not those of the rules",
        ])

    def repaired(self):
        """Return the files that are whole and were not."""
        left = self.files()
        return [it for it in self.repair.written if left.get(it) == self.after[it]]

    def wrong_state(self, leaves=True):
        """Return the problem with the layout after a repair that has not finished, or None. Each file is to be the old one or a whole one; an
        empty folder may be gone. What was being written may be left beside."""
        left = self.files()
        for it in sorted({*left, *self.after}):
            is_gone = it == blob(E) and it not in left
            if not is_gone and left.get(it) not in (self.before.get(it), self.after.get(it)) and not (leaves and BESIDE.fullmatch(it)):
                return "%s is neither as before nor whole" % it

    def wrong_again(self):
        """Repeat the repair, and return the problem with it, or None. It is to repair what is left."""
        repair = Repair(self.layout, self.sources)
        ended = run(self.words, self.room)
        left = {it: content for it, content in self.files().items() if not BESIDE.fullmatch(it)}
        return first([
            None if ended[:3] == (0, repair.out, "") else "the same repair again: " + told(ended),
            None if left == self.after else "the same repair again leaves something else",
        ])
