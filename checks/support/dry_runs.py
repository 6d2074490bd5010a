"""Dry runs of mirrors."""
import re

from support.files import stamps
from support.program import first, run, told

# The counts of a copy, or of its plan.
COUNTS = re.compile(r"^planned (\d+) (bytes|pushed) (\d+) skipped (\d+)\n", re.M)


def parts(out):
    """Return the lines before the counts of a copy or of its plan, the counts, and the text after them."""
    counts = COUNTS.search(out)
    return out[: counts.start()].splitlines(), counts, out[counts.end():]


def wrong_dry_run(room, words, out):
    """Return the problem with a dry run of a mirror of `source` into `mirror` that is to print this, or None. It is to change nothing, to print
    as many blobs as the mirror pushes, and then the same tags, blobs, files and counts as the mirror."""
    when = stamps(room)
    ended = run(["copy", *words, "--dry-run", "source", "mirror"], room)
    if ended.status or ended.err:
        return "a dry run: " + told(ended)
    (blobs, counts, removed), (_, made, gone) = parts(ended.out), parts(out)
    return first([
        None if stamps(room) == when else "a dry run changes something",
        None if removed == gone else "a dry run prints %r, and not %r" % (removed, gone),
        None if counts[1] == made[1] == str(len(blobs)) else "a dry run plans %s blobs and prints %d; %s are planned" % (counts[1], len(blobs), made[1]),
        None if int(counts[3]) == sum(int(it.split()[1]) for it in blobs) else "a dry run plans %s bytes" % counts[3],
        None if counts[4] == made[4] else "a dry run skips %s, and not %s" % (counts[4], made[4]),
    ])
