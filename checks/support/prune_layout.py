"""A layout that is pruned again and again, and its states between a prune that is ended or refused and the next one."""
import shutil

from support.files import files
from support.layouts import BAR, E, FOO, I1, LAYER, M2, M3, S, Content, image, write_layout
from support.program import first, run, told, wrong_layout
from support.pruning import Prune

OLD = Content(LAYER, b"old layer")
OLD_IMAGE = image([BAR, OLD])
CONTENTS, TAGS, UNTAGGED = [E, FOO, BAR, OLD, M2, M3, I1, OLD_IMAGE, S], {"new": M2, "also": S}, [I1, OLD_IMAGE]
# The words of the prunes: the first one removes the keys that no tag needs, the second one only files.
FORMS = [("prune", "--untagged", "layout"), ("prune", "layout")]
STRAYS = ["blobs/sha256/%064x" % 1, "blobs/sha256/%s.0123456789abcdef.new" % ("f" * 64), "index.json.0123456789abcdef.new"]


class Layout:
    """A layout that is pruned again and again. Without `--untagged` no held key goes, so that `index.json` is not written."""

    def __init__(self, room, words):
        self.room, self.words, self.saves = room, [*words], "--untagged" in words
        self.fresh()
        self.prune = Prune(room + "/layout", self.saves)
        self.before = files(room + "/layout")
        self.whole = run(self.words, room)
        self.after = files(room + "/layout")

    def fresh(self):
        """Restore the layout to its state before the prune."""
        shutil.rmtree(self.room + "/layout", ignore_errors=True)
        write_layout(self.room + "/layout", CONTENTS, TAGS, UNTAGGED)
        for path in STRAYS:
            with open("%s/layout/%s" % (self.room, path), "w") as file:
                file.write("stray")

    def gone(self):
        """Return the files that are gone."""
        return sorted(set(self.before) - set(files(self.room + "/layout")))

    def saved(self):
        return files(self.room + "/layout")["index.json"] == self.after["index.json"]

    def wrong_whole(self):
        """Return the problem with a prune that was not ended, or with its layout, or None."""
        return first([
            None if self.whole[:3] == (0, self.prune.out, "") else told(self.whole),
            None if self.gone() == self.prune.gone else "these files are gone: %s" % self.gone(),
            wrong_layout(self.room, "layout", self.prune.kept, TAGS),
        ])

    def wrong_state(self):
        """Return the problem with the layout after a prune that has not finished, or None. It is to hold its old contents or the kept ones,
        with each file of these, and no file that a held key has is to be gone before the index is saved."""
        held = self.prune.kept if self.saved() else self.prune.held.keys
        return first([
            wrong_layout(self.room, "layout", held, TAGS),
            None if self.saved() or set(self.gone()) <= set(self.prune.first) else "a file is gone before the index is saved",
            None if set(self.gone()) <= set(self.prune.gone) else "these files are gone: %s" % self.gone(),
        ])

    def wrong_again(self):
        """Repeat the prune, and return the problem with it, or None. It is to leave the same files as a prune that was not ended."""
        prune = Prune(self.room + "/layout", self.saves)
        ended = run(self.words, self.room)
        return first([
            None if ended[:3] == (0, prune.out, "") else "the same prune again: " + told(ended),
            None if files(self.room + "/layout") == self.after else "the same prune again leaves something else",
        ])
