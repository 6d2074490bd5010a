"""Repairs that are killed, that find no room, and the order of their calls: each file is the old one or a whole one, and the next repair goes on.
Wants `cc`."""
import os
import resource
import signal

from support import shim
from support.program import first, run, told
from support.recorded import built, recorded
from support.repair_layout import MEGABYTE, Damaged


def killed(layout, library):
    """Kill a repair before each change that it makes."""
    counts = set()
    for number in range(1, shim.MOST + 1):
        layout.fresh()
        made, ended = shim.run_marked(library, layout.words, layout.room, {"LAST_CHANGE": str(number)})
        if made < number:
            break
        counts.add(len(layout.repaired()))
        wrong = None if ended.status == -signal.SIGKILL else "it was not killed: " + told(ended)
        yield "killed before change %d" % number, first([wrong, layout.wrong_state(), layout.wrong_again()])
    yield "a repair makes at most %d changes" % shim.MOST, None if made < number else "it makes more"
    wanted = set(range(len(layout.repair.written)))
    yield "killed between each two files", None if counts >= wanted else "so many files were whole: %s" % sorted(counts)


def without_room(layout, library):
    """Refuse each change of a repair in turn. A change that is not needed is no reason to refuse."""
    refused = 0
    for number in range(1, shim.MOST + 1):
        layout.fresh()
        made, ended = shim.run_marked(library, layout.words, layout.room, {"REFUSED_CHANGE": str(number)})
        if made < number:
            break
        refused += ended.status != 0
        is_done = ended[:3] == (0, layout.repair.out, "") and layout.is_done()
        yield "change %d refused" % number, None if is_done else first([
            None if (ended.status, ended.err) == (1, "ocicp: 74 Device\n") else told(ended),
            layout.wrong_state(),
            layout.wrong_again(),
        ])
    yield "%d of these repairs were refused" % refused, None if refused >= 3 * len(layout.repair.written) else "too few"


def wrong_limit(layout, most):
    """Return the problem with a repair that can write no file of more than MOST bytes, or None."""
    layout.fresh()
    limit = lambda: resource.setrlimit(resource.RLIMIT_FSIZE, (most, most))
    # Python ignores the signal of this limit, and then the program does too. The system returns an error for the write.
    ended = run(layout.words, layout.room, preexec_fn=limit, restore_signals=False)
    return first([
        None if (ended.status, ended.err) == (1, "ocicp: 74 Device\n") else told(ended),
        layout.wrong_state(leaves=False),
        layout.wrong_again(),
    ])


def wrong_order(layout, library):
    """Return the problem with the order of a repair's calls, or None. Each file is to be on the disk before it comes into its place, and then its
    name is to be."""
    layout.fresh()
    calls, ended = recorded(library, layout.words, layout.room)
    opened, synced, renamed = {}, set(), {}
    for call in calls:
        if call.name == "open":
            opened[call.file] = call.path
        elif call.name in ("fsync", "fdatasync"):
            synced.add(opened[call.file])
        elif call.name == "rename":
            renamed[call.other] = call.path in synced
            synced.discard(os.path.dirname(call.other))
    return first([
        None if ended[:3] == (0, layout.repair.out, "") else told(ended),
        None if set(renamed) == {"layout/" + it for it in layout.repair.written} else "it renames %s" % sorted(renamed),
        first(None if is_synced else "%s was not on the disk" % it for it, is_synced in renamed.items()),
        first(None if os.path.dirname(it) in synced else "the name of %s is not on the disk" % it for it in renamed),
    ])


def wrong_loose(layout, library):
    """Return the problem with a repair that does not wait for the disk, or None."""
    layout.fresh()
    calls, ended = recorded(library, [layout.words[0], "--no-sync", *layout.words[1:]], layout.room)
    return first([
        None if ended[:3] == (0, layout.repair.out, "") else told(ended),
        first("it waits for the disk" for call in calls if call.name in ("fsync", "fdatasync", "syncfs")),
        None if layout.is_done() else "the files are not those of the rules",
    ])


def checks(room):
    layout = Damaged(room + "/room")
    yield "a repair that is not ended", layout.wrong_whole()
    yield from killed(layout, shim.built(room, "kill", shim.KILLS))
    yield from without_room(layout, shim.built(room, "full", shim.FULL))
    for most in 0, 5, MEGABYTE:
        yield "no room for files of more than %d bytes" % most, wrong_limit(layout, most)
    library = built(room)
    yield "the order of its calls", wrong_order(layout, library)
    yield "--no-sync", wrong_loose(layout, library)
