"""Commands that write, of which each sync in turn fails. Wants `cc`.

Such a command ends with status 1, and says why (74, or 82 with 43 for a blob). From the failure on it replaces no `index.json`, which is the old
one, or the new one if that was already in its place. The same command then succeeds, and makes the new one.
"""
import os
import shutil

from support import shim
from support.files import read
from support.layouts import BAR, E, FOO, I1, LAYER, M2, M3, S, Content, image, write_layout
from support.program import first, run, told

# The sync whose number the environment has fails. Notes `s` for each sync, and `i` for each new `index.json`.
FAILS = shim.CHANGES + r"""
static int on_change(const char *path) {
  static int count;
  if (path && strcmp(path, SYNC) == 0) {
    note("s");
    return __atomic_add_fetch(&count, 1, __ATOMIC_SEQ_CST) == atoi(getenv("FAILED")) ? EIO : 0;
  }
  size_t length = path ? strlen(path) : 0, end = strlen("/index.json");
  if (length >= end && strcmp(path + length - end, "/index.json") == 0) note("i");
  return 0;
}
"""
OLD, UNUSED = image([FOO], number=1), Content(LAYER, b"unused")
COMMANDS = [
    ["copy", "source", "both", "new"],
    ["copy", "--all", "source", "mirror"],
    ["copy", "--workers", "1", "--all", "--prune", "source", "mirror"],
    ["tag", "mirror", "old", "other"],
    ["untag", "mirror", "old"],
    ["prune", "mirror"],
    ["prune", "--untagged", "mirror"],
]
REASON = "Input/output error"


def fresh(room):
    """Write the source, and the layout that most commands change."""
    for name in "source", "mirror", "new":
        shutil.rmtree("%s/%s" % (room, name), ignore_errors=True)
    write_layout(room + "/source", [E, FOO, BAR, M2, M3, I1, S], {"both": I1, "one": M2, "signature": S})
    write_layout(room + "/mirror", [E, FOO, OLD, M3, BAR, UNUSED], {"old": OLD}, [M3])


def index_of(room, words):
    """Return the bytes of the index of the layout that a command changes, or None."""
    path = "%s/%s/index.json" % (room, "new" if "new" in words else "mirror")
    return read(path) if os.path.exists(path) else None


def wrong_failure(notes, number, ended, index, old, new):
    """Return the problem with a command of which this sync failed, or None."""
    syncs = [place for place, letter in enumerate(notes) if letter == "s"]
    lines = ended.err.split("\n")
    return first([
        None if ended.status == 1 and lines[0].startswith(("ocicp: 74 Device", "ocicp: 82 Push ")) else told(ended),
        None if REASON in ended.err else "it does not say why: " + told(ended),
        "a new index.json comes after the failure" if "i" in notes[syncs[number - 1] :] else None,
        None if index in (old, new) else "index.json is neither the old one nor the new one",
    ])


def failed(library, words, room):
    """Yield the name of each check of a command, and its problem."""
    fresh(room)
    done = run(words, room)
    new = index_of(room, words)
    for number in range(1, shim.MOST):
        fresh(room)
        # (a copy creates an empty layout first)
        old = index_of(room, words) or b'{"manifests":[],"mediaType":"application/vnd.oci.image.index.v1+json","schemaVersion":2}'
        notes, ended = shim.run_noted(library, [words[0], "--hint", *words[1:]], room, {"FAILED": str(number)})
        if notes.count("s") < number:
            break
        index = index_of(room, words) or old
        wrong = wrong_failure(notes, number, ended, index, old, new)
        again = run(words, room)
        # (what was done before the failure is not done again)
        if not wrong and (again.status != 0 and index != new or index_of(room, words) != new):
            wrong = "the same command again: " + told(again)
        yield "%s: sync %d fails" % (" ".join(words), number), wrong
    yield "%s: syncs something, and without failure succeeds" % " ".join(words), first([
        None if number > 1 else "it syncs nothing",
        None if done.status == 0 and ended[:3] == done[:3] else told(ended),
    ])


def checks(room):
    library = shim.built(room, "failed_sync", FAILS)
    for words in COMMANDS:
        yield from failed(library, words, room)
