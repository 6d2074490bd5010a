"""Commands that write wait until what they wrote is on the disk, unless they have `--no-sync`. Wants `cc`.

The calls of each command are recorded, without the flag and with it. Both runs are to print the same, and to leave the same files. With the
flag no call waits for the disk. Without it some do; what a power cut may leave then is checked by `power_cuts`. A command that plans waits in
neither case.
"""
import shutil

from support.files import files
from support.layouts import BAR, E, FOO, I1, LAYER, M2, M3, S, Content, image, write_layout
from support.program import first, told
from support.recorded import built, recorded

OLD, UNUSED = image([FOO], number=1), Content(LAYER, b"unused")
WAITING = "fsync", "fdatasync", "syncfs"
WRITING = [
    ["copy", "source", "both", "new/deep/mirror"],
    ["copy", "--all", "source", "mirror"],
    ["copy", "--all", "--prune", "source", "mirror"],
    ["copy", "--descend", "source", "both", "mirror"],
    ["copy", "--archive", "source", "both", "made.tar"],
    ["tag", "mirror", "old", "other"],
    ["untag", "mirror", "old"],
    ["prune", "mirror"],
    ["prune", "--untagged", "mirror"],
]
PLANNING = [
    ["copy", "--dry-run", "source", "both", "new/deep/mirror"],
    ["copy", "--archive", "--dry-run", "source", "both", "made.tar"],
    ["copy", "--all", "--prune", "--dry-run", "source", "mirror"],
    ["prune", "--dry-run", "mirror"],
    ["prune", "--untagged", "--dry-run", "mirror"],
]


def calls_of(library, words, room):
    """Run a command in a new folder with two layouts, and return its calls, its end and the files that it leaves."""
    folder = room + "/folder"
    shutil.rmtree(folder, ignore_errors=True)
    write_layout(folder + "/source", [E, FOO, BAR, M2, M3, I1, S], {"both": I1, "one": M2, "signature": S})
    write_layout(folder + "/mirror", [E, FOO, BAR, OLD, M3, UNUSED], {"old": OLD}, [M3])
    calls, ended = recorded(library, words, folder)
    return calls, ended[:3], files(folder), told(ended)


def waits_in(calls):
    """Return how many calls wait for the disk."""
    return sum(call.name in WAITING for call in calls)


def wrong_run(library, words, room, waits):
    """Return the problem with a command without and with the flag, or None. Without it, it waits for the disk or does not."""
    usual, *before, line = calls_of(library, words, room)
    loose, *after, other = calls_of(library, [words[0], "--no-sync", *words[1:]], room)
    found, left = waits_in(usual), waits_in(loose)
    return first([
        None if before[0][0] == 0 else line,
        None if before == after else "not the same with the flag: %s" % other,
        None if bool(found) == waits else "%d calls wait for the disk" % found,
        "%d calls wait for the disk with the flag" % left if left else None,
    ])


def checks(room):
    library = built(room)
    for words in WRITING:
        yield " ".join(words), wrong_run(library, words, room, True)
    for words in PLANNING:
        yield " ".join(words), wrong_run(library, words, room, False)
