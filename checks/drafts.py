"""The files that a copy writes beside their places: the random numbers in their names, and files that somebody removes. Wants `cc`."""
import fcntl
import os
import shutil
import signal

from support import shim
from support.files import files
from support.layouts import BAR, E, FOO, M2, blob, key, write_layout
from support.program import first, leftovers, run, told, wrong_layout

# Each call fills its bytes with a number that grows by STEP. A number of END or more is refused.
SHIM = r"""
#include <errno.h>
#include <stdlib.h>
#include <string.h>
int getentropy(void *bytes, size_t length) {
  static int next;
  int number = __atomic_fetch_add(&next, atoi(getenv("STEP")), __ATOMIC_SEQ_CST);
  if (number >= atoi(getenv("END"))) { errno = ENOSYS; return -1; }
  memset(bytes, number, length);
  return 0;
}
"""
OLD, NEW = {"old": BAR}, {"old": BAR, "new": M2}
CONTENTS = [E, FOO, M2]
WORDS = ["copy", "--workers", "1", "source", "new", "copied"]
# The files that the copy writes.
PLACES = [*map(blob, CONTENTS), "index.json"]
REFUSED = ["82 Push %s 43 Device" % key(it) for it in CONTENTS] + ["74 Device"]
# The number of changes after which a removal of a draft has to refuse a copy at least.
LOST = 8


def fresh(room):
    for layout in "source", "copied":
        shutil.rmtree("%s/%s" % (room, layout), ignore_errors=True)
    write_layout(room + "/source", CONTENTS, {"new": M2})
    write_layout(room + "/copied", [BAR], OLD)


def wrong_refusal(status, err):
    return None if status == 1 and err in ["ocicp: %s\n" % it for it in REFUSED] else "status %d, %s" % (status, err.strip())


def wrong_again(room):
    ended = run(WORDS, room)
    wrong = told(ended) if (ended.status, ended.err) != (0, "") else wrong_layout(room, "copied", [BAR, *CONTENTS], NEW)
    return wrong and "the same copy again: " + wrong


def copied_beside(room, library, numbers, step, end):
    """Copy with these random numbers, beside files that have the names of drafts with some numbers. A lock tells that they are not left over.
    Return the end of the copy, and what it left beside these files."""
    fresh(room)
    names = ["%s/copied/%s.%s.new" % (room, place, "%02x" % number * 8) for place in PLACES for number in numbers]
    held = [open(name, "x") for name in names]
    for file in held:
        fcntl.flock(file, fcntl.LOCK_EX)
        file.write("not yours\n")
        file.flush()
    ended = run(WORDS, room, env=dict(os.environ, LD_PRELOAD=library, STEP=str(step), END=str(end)))
    texts = [open(name).read() for name in names if os.path.exists(name)]
    for file, name in zip(held, names):
        file.close()
        os.remove(name)
    return ended, None if texts == ["not yours\n"] * len(names) else "a file with the name of a draft has changed"


def wrong_taken(room, library):
    """Return the problem with a copy for which the first two names are taken, or None. It is to take another one."""
    ended, changed = copied_beside(room, library, [0, 1], 1, 256)
    return first([
        None if (ended.status, ended.err) == (0, "") else told(ended),
        changed,
        wrong_layout(room, "copied", [BAR, *CONTENTS], NEW),
        leftovers(room + "/copied", [BAR, *CONTENTS]),
    ])


def wrong_nameless(room, library, step, end):
    """Return the problem with a copy for which there is no name, or None. It is to be refused, and to write nothing."""
    ended, changed = copied_beside(room, library, [0], step, end)
    return first([
        wrong_refusal(ended.status, ended.err),
        changed,
        wrong_layout(room, "copied", [BAR], OLD),
        leftovers(room + "/copied", [BAR]),
        wrong_again(room),
    ])


def removed(folder):
    """Remove all drafts below a folder, and return how many there were."""
    drafts = [path for path in files(folder) if path.endswith(".new")]
    for path in drafts:
        os.remove("%s/%s" % (folder, path))
    return len(drafts)


def after_loss(room, process):
    """Let a copy go on after its draft was removed. Return whether it was done, and the problem with its end, or None. It may be refused. No
    file is to have other bytes than before or than it should."""
    os.kill(process.pid, signal.SIGCONT)
    _, err = process.communicate(timeout=60)
    is_done = (process.returncode, err) == (0, "")
    old, new = wrong_layout(room, "copied", [BAR], OLD), wrong_layout(room, "copied", [BAR, *CONTENTS], NEW)
    return is_done, first([
        None if is_done else wrong_refusal(process.returncode, err),
        new if is_done else old and new and old,
        leftovers(room + "/copied", [BAR, *CONTENTS]),
        wrong_again(room),
    ])


def lost(room, library):
    """Stop a copy before each of its changes, and remove its drafts."""
    refused = 0
    for number in range(1, shim.MOST + 1):
        fresh(room)
        process = shim.stopped(library, WORDS, room, number)
        if not process:
            break
        count = removed(room + "/copied")
        is_done, wrong = after_loss(room, process)
        refused += count > 0 and not is_done
        yield "%d removed before change %d" % (count, number), wrong
    yield "%d of these copies were refused" % refused, None if refused >= LOST else "too few"


def checks(room):
    library = shim.built(room, "numbers", SHIM)
    yield "the first names are taken", wrong_taken(room, library)
    yield "there are no random numbers", wrong_nameless(room, library, 1, 0)
    yield "there is one random number", wrong_nameless(room, library, 0, 1)
    yield from lost(room, shim.built(room, "stop", shim.STOPS))
