"""Another program writes `index.json`, or removes it, after a command has read it: the command is refused with 110, and nothing that the other
one wrote is lost. The same command again goes by the new index. Wants `cc`.

Between its last look at the index and the replacement of it a command notices nothing. So the stops begin with its first change, which comes
after the layout is opened, and end with the first stop that is not noticed.
"""
import os
import shutil
import signal
import subprocess

from support import shim
from support.files import files, read
from support.layouts import BAR, E, FOO, M2, blob, image, key, write_layout
from support.program import first, run, told

THEIRS = image([BAR])
UNTAGGED = image([], number=1)
# The words of each command, and the number of stops that have to be noticed: a copy is stopped while it copies each of three blobs.
COMMANDS = {
    "a copy": (["copy", "--workers", "1", "source", "new", "copied"], 6),
    "a mirror": (["copy", "--all", "--prune", "--workers", "1", "source", "copied"], 6),
    "tag": (["tag", "copied", "old", "other"], 1),
    "untag": (["untag", "copied", "old"], 1),
    "a prune": (["prune", "copied"], 1),
    "a prune of what no tag needs": (["prune", "--untagged", "copied"], 1),
}
REFUSED = "ocicp: 110 IndexChanged\n"
DOCUMENT = '{"error":[{"number":110,"name":"IndexChanged"}],"kind":"locked","side":"%s","path":"copied/index.json"}\n'
HINT = "`copied/index.json`: Another program wrote `index.json` or removed it while the command ran."


def fresh(room):
    for layout in "source", "copied", "theirs":
        shutil.rmtree("%s/%s" % (room, layout), ignore_errors=True)
    write_layout(room + "/source", [E, FOO, M2], {"new": M2})
    write_layout(room + "/copied", [E, UNTAGGED], {"old": E}, [UNTAGGED])
    write_layout(room + "/theirs", [E, BAR, THEIRS], {"old": E, "theirs": THEIRS})


def write(room):
    """Write into the layout as another program does that knows no lock: first the blobs, then the index."""
    for content in BAR, THEIRS:
        shutil.copy("%s/theirs/%s" % (room, blob(content)), "%s/copied/%s" % (room, blob(content)))
    shutil.copy(room + "/theirs/index.json", room + "/copied/index.json")


def remove(room):
    os.remove(room + "/copied/index.json")


def stopped(room, library, words, number, change):
    """Run a command that is stopped before a change, and change the layout during the stop. Return the files that were there then, and the
    status and stderr of the command; or None if it makes fewer changes."""
    fresh(room)
    process = shim.stopped(library, words, room, number)
    if not process:
        return None
    change(room)
    # (a draft gets the name of its blob later)
    there = {path: it for path, it in files(room + "/copied").items() if not path.endswith(".new")}
    os.kill(process.pid, signal.SIGCONT)
    try:
        _, err = process.communicate(timeout=60)
    except subprocess.TimeoutExpired:
        process.kill()
        process.communicate()
        return there, -9, "it does not end"
    return there, process.returncode, err


def wrong_refusal(room, there, status, err, wanted=REFUSED):
    now = files(room + "/copied")
    lost = [path for path, it in there.items() if now.get(path) != it]
    if (status, err) != (1, wanted):
        return "status %d, %s" % (status, err.strip())
    if lost:
        return "lost or changed: %s" % ", ".join(lost)
    return "an index came back" if "index.json" in now and "index.json" not in there else None


def wrong_again(room, words):
    """Return the problem with the command after another program wrote the index, or None. A copy keeps the tag of the other program."""
    ended = run(words, room)
    tags = run(["tags", "copied"], room)
    wants = "theirs %s\n" % key(THEIRS) if "--all" not in words else "new %s\n" % key(M2)
    return first([
        None if (ended.status, ended.err) == (0, "") else "again: " + told(ended),
        None if wants in tags.out else "the tags afterwards: " + told(tags),
        None if run(["verify", "copied"], room).status == 0 else "the layout is not whole afterwards",
    ])


def checks(room):
    library = shim.built(room, "stops", shim.STOPS)
    for what, (words, most) in COMMANDS.items():
        noticed = 0
        for number in range(1, shim.MOST):
            found = stopped(room, library, words, number, write)
            if not found or found[2] != REFUSED:
                break
            noticed += 1
            yield "%s, and the index is written before change %d" % (what, number), first([
                wrong_refusal(room, *found),
                wrong_again(room, words),
            ])
        yield "%s notices %d of these" % (what, noticed), None if noticed >= most else "it is to notice at least %d" % most
        yield "%s, and the index is removed" % what, wrong_refusal(room, *stopped(room, library, words, 1, remove))
        side = "DST" if "copy" in words else "FOLDER"
        yield "%s, with --json" % what, wrong_refusal(room, *stopped(room, library, [*words, "--json"], 1, write), DOCUMENT % side)
        there, status, err = stopped(room, library, [*words, "--hint"], 1, write)
        yield "%s, with --hint" % what, None if HINT in err else "status %d, %r" % (status, err)
    fresh(room)
    left = read(room + "/copied/index.json")
    yield "a dry run changes nothing", None if run(["copy", "--dry-run", "source", "new", "copied"], room).status == 0 \
        and read(room + "/copied/index.json") == left else "it does"
