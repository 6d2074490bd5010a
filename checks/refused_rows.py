"""Calls of the library for which each request for memory is refused in turn.

The program `test_memory` makes a copy between stores in memory, a layout in memory, or a copy into a live store with a look. It makes a
copy twice, and repeats any other call that is refused. Then it prints a line with the result of each call and the state of the destination.
The line with all memory is known. If one request is refused, the line is the same, or one call reports a memory error, or there is no line,
since something else had no memory. The destination is always closed and has its old contents, and the same call, repeated, succeeds. There
are two exceptions: if the file `oci-layout` exists, no layout is made (78), so it is opened; and a live store that was refused a
publication takes nothing more (82 with 44), and is copied out with its old contents.
"""
import functools
import multiprocessing
import os
import re
from collections import namedtuple

from support import refused_malloc
from support.program import TOP, first, told

PROGRAM = TOP + "/crates/test_memory/out/test_memory"
# A batch ends the search if one of its runs made fewer requests.
BATCH = 64
# The memory errors of a push, a reference, a live store, a layout, a copy and a fetch. A look has 46 and 47.
FAULT = re.compile(r"23 Memory|34 Memory|38 Memory|46 Unavailable|47 Memory|48 Memory|76 Memory|86 Memory")
# A run that is refused memory for anything else ends with this on standard error.
NOT_BEGUN = re.compile(r"error: (AllocError|AllocFailed \{ \.\. \}|Kind\(OutOfMemory\)|\"no memory for the \w+\")\n")

STORE = r"closed (?:yes|34 Memory) entries (\d+)"
HALTED = r"82 Push \S+ \d+ \S+ 44 Halted"
COPY = r"copy (?:planned (\d+) pushed (\d+) skipped (\d+)|(86 Memory|%s)) %s" % (HALTED, STORE)
LEN = r"len (?:(\d+)|46 Unavailable)"
MEMORY_COPIES = re.compile("{0} old yes {0} old yes".format(COPY))
LIVE_COPIES = re.compile(
    "(?:open 48 Memory )?open done {0} {1} old yes {0} {1} old yes {0}"
    " config (?:(yes|45 NotFound)|46 Unavailable|47 Memory) first (?:yes|46 Unavailable|47 Memory)"
    " (?:out 34 Memory )?out {2}".format(LEN, COPY, STORE)
)
ROUND_TRIP = re.compile(
    "create (?:76 Memory create (?:78 AlreadyLayout open )?)?done (?:{0} )?{0}"
    " (?:save 76 Memory )?save done (?:open 76 Memory )?open done held 2 names (?:(?:yes|38 Memory) ){{3}}"
    "(?:36 UnknownReference|38 Memory) 35 EmptyReference create (?:78 AlreadyLayout|76 Memory)".format(COPY)
)

# The result of a copy: its report, or None and its refusal; and the number of entries after it.
Copied = namedtuple("Copied", "report refusal entries")
# Some copies: how many keys they bring, of how many roots, to how many entries that are there before.
Copies = namedtuple("Copies", "keys roots old")


def copied(groups):
    planned, pushed, skipped, refusal, entries = groups
    return Copied(None if refusal else (int(planned), int(pushed), int(skipped)), refusal, int(entries))


def is_all(copies, report):
    """Return whether a report is of a copy of all keys."""
    return report == (copies.keys, copies.keys, 0)


def is_rest(copies, held, report):
    """Return whether a report is of a copy that found this number of the keys, and copied the others, the last root among them."""
    planned, pushed, skipped = report
    rest = copies.keys - held
    return planned == pushed == rest and (skipped < copies.roots if rest else skipped == copies.roots)


def is_right(copies, once, again, halts=False):
    """Return whether two copies, one after the other, reported as they should if one request was refused."""
    most = copies.old + copies.keys
    if not copies.old <= once.entries <= again.entries <= most:
        return False
    if not once.refusal:
        is_done = again.refusal == "86 Memory" or not again.refusal and is_rest(copies, copies.keys, again.report)
        return is_done and is_all(copies, once.report) and once.entries == most
    if once.refusal != "86 Memory":
        return False
    if again.refusal:
        return halts and again.refusal != "86 Memory" and again.entries == once.entries
    return again.entries == most and is_rest(copies, once.entries - copies.old, again.report)


def is_right_in_memory(copies, line):
    found = MEMORY_COPIES.fullmatch(line)
    return found and is_right(copies, copied(found.groups()[:5]), copied(found.groups()[5:]))


def is_right_round_trip(copies, line):
    """Return whether a refused call was repeated, and no other call."""
    found = ROUND_TRIP.fullmatch(line)
    if not found:
        return False
    last = copied(found.groups()[5:])
    if found[5] is None:
        return not last.refusal and is_all(copies, last.report) and last.entries == copies.keys
    once = copied(found.groups()[:5])
    return once.refusal is not None and is_right(copies, once, last)


def is_right_live(copies, line):
    """Return whether the look had the published entries at each moment, so that its list never became shorter, and the config once it was
    published."""
    found = LIVE_COPIES.fullmatch(line)
    if not found:
        return False
    groups = found.groups()
    once, again = copied(groups[1:6]), copied(groups[7:12])
    lens, config, out = [groups[0], groups[6], groups[12]], groups[13], int(groups[14])
    if any(seen and int(seen) != held for seen, held in zip(lens, [copies.old, once.entries, again.entries])):
        return False
    if config and (config == "yes") != (again.entries > copies.old):
        return False
    return out == again.entries and is_right(copies, once, again, halts=True)


# The line of each with all memory, and a function that accepts another line if one request was refused.
TWO_IMAGES = (
    "copy planned 6 pushed 6 skipped 0 closed yes entries 7 old yes"
    " copy planned 0 pushed 0 skipped 1 closed yes entries 7 old yes",
    functools.partial(is_right_in_memory, Copies(keys=6, roots=1, old=1)),
)
CASES = {
    "one": TWO_IMAGES,
    "workers": TWO_IMAGES,
    "referrers": (
        "copy planned 5 pushed 5 skipped 0 closed yes entries 6 old yes"
        " copy planned 0 pushed 0 skipped 3 closed yes entries 6 old yes",
        functools.partial(is_right_in_memory, Copies(keys=5, roots=3, old=1)),
    ),
    "round-trip": (
        "create done copy planned 2 pushed 2 skipped 0 closed yes entries 2 save done open done held 2"
        " names yes yes yes 36 UnknownReference 35 EmptyReference create 78 AlreadyLayout",
        functools.partial(is_right_round_trip, Copies(keys=2, roots=1, old=0)),
    ),
    "live": (
        "open done len 1 copy planned 2 pushed 2 skipped 0 closed yes entries 3 old yes len 3"
        " copy planned 0 pushed 0 skipped 1 closed yes entries 3 old yes len 3 config yes first yes out closed yes entries 3",
        functools.partial(is_right_live, Copies(keys=2, roots=1, old=1)),
    ),
}


def wrong_line(name, line, refused):
    """Return the problem with the output of a run that was refused a request, or None."""
    unhurt, is_right_line = CASES[name]
    if line == unhurt or refused and len(FAULT.findall(line)) == 1 and is_right_line(line):
        return None
    return line


def refuse(name, shim, room, nth):
    """Refuse the nth request, and return whether there were that many, whether a call reported it, and the problem, or None."""
    refused, ended = refused_malloc.run_refused(shim, nth, [name], room, program=PROGRAM)
    if refused and ended.status == 1 and ended.out == "" and NOT_BEGUN.fullmatch(ended.err):
        return True, False, None
    start = name + ": "
    if ended.status != 0 or ended.err or not ended.out.startswith(start) or ended.out.count("\n") != 1:
        return refused, False, "request %d: %s" % (nth, told(ended))
    line = ended.out[len(start):-1]
    complaint = wrong_line(name, line, refused)
    return refused, FAULT.search(line) is not None, complaint and "request %d: %s" % (nth, complaint)


def refused_in_turn(name, shim, room):
    """Refuse each request in turn, and return how many there are, how many a call reported, and the first problem, or None."""
    count = telling = 0
    with multiprocessing.Pool() as pool:
        for start in range(1, 1 << 20, BATCH):
            runs = pool.map(functools.partial(refuse, name, shim, room), range(start, start + BATCH), 4)
            count += sum(refused for refused, _, _ in runs)
            telling += sum(tells for _, tells, _ in runs)
            complaint = first(it for _, _, it in runs)
            if complaint or not all(refused for refused, _, _ in runs):
                return count, telling, complaint or (None if telling else "no call was refused memory")


def checks(room):
    if not os.access(PROGRAM, os.X_OK):
        yield "all", "%s is not built: `rt run` in crates/test_memory builds it" % PROGRAM
        return
    shim = refused_malloc.build(room)
    for name in CASES:
        count, telling, complaint = refused_in_turn(name, shim, room)
        yield "%s, %d requests refused in turn, of which a call told of %d" % (name, count, telling), complaint
