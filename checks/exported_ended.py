"""Copies into an archive that are ended half-way, that find no room, or whose machine loses its power: FILE is not there, or it is whole. They
take no lock. Wants `cc`."""
import copy
import fcntl
import os
import re
import resource
import shutil
import signal

from support import shim
from support.disk import Disk, in_any_order, in_order, loaded
from support.exports import archive_of, beside, run_bytes, told_bytes, write
from support.files import read
from support.layouts import E, FOO, LAYER, M2, Content, image, write_layout
from support.program import first, run, told
from support.recorded import built, recorded

PART = 1 << 20
LONG = Content(LAYER, b"%7d\n" % 0 * (3 * PART // 8) + b"end")
LAYERED = image([LONG, FOO])
SOURCES = {"small": ([E, FOO, M2], {"one": M2}), "long": ([E, FOO, LONG, LAYERED], {"one": LAYERED})}
FILE = "made.tar"
# The random digits in the name of a file that is still written.
DIGITS = "0123456789abcdef"
# Notes `r` before FILE gets its name, and before an empty folder in its place would be removed, and `x` before each other change. The process is
# killed before one of them, or it is refused.
ON_CHANGE = r"""
static int on_change(const char *path) {
  static int count;
  size_t length = path ? strlen(path) : 0, end = strlen("made.tar");
  note(length >= end && !strcmp(path + length - end, "made.tar") ? "r" : "x");
  int is_last = __atomic_add_fetch(&count, 1, __ATOMIC_SEQ_CST) == atoi(getenv("CHANGE"));
  if (is_last && getenv("KILLS")) kill(getpid(), SIGKILL);
  return is_last ? ENOSPC : 0;
}
"""
# The refusal of a file that cannot be written, or whose folder cannot be synced, with the line that explains it, and the reasons.
REFUSED = re.compile(r"ocicp: 74 Device\nDST `(\./made\.tar|made\.tar|\.)`: .*\. Run `ocicp explain 74` for what to do\.\n")
FULL, TOO_LARGE = ": No space left on device.", ": File too large."
# The most bytes that FILE may have. An archive of the small layout has more than 6 KB.
LIMITS = [0, 1, 1000, 5000, PART, 2 * PART + 1000]


class Copy:
    """A copy of one of the sources into an archive, with what it is to write and to print."""

    def __init__(self, room, source):
        os.mkdir(room)
        self.room, self.words = room, ["copy", "--archive", source, "one", FILE]
        write_layout("%s/%s" % (room, source), *SOURCES[source])
        self.ended = run(["copy", source, "one", "folder"], room)
        self.archive = archive_of(room + "/folder")
        shutil.rmtree(room + "/folder")
        self.names = os.listdir(room)

    def fresh(self):
        """Remove all that copies have left."""
        for name in set(os.listdir(self.room)) - set(self.names):
            os.remove("%s/%s" % (self.room, name))

    def wrong_left(self, is_there, drafts=0):
        """Return the problem with what is left, or None: FILE is there and whole, or is not there, and beside it there are at most this number of
        files that were still written. If `is_there` is None, it may be there or not."""
        others, found = beside(self.room, FILE, self.names)
        there = os.path.lexists("%s/%s" % (self.room, FILE))
        return first([
            "%s is left" % others if others else None,
            "%s is left" % found if len(found) > drafts else None,
            None if is_there in (None, there) else "FILE is %sthere" % ("" if there else "not "),
            None if not there or read("%s/%s" % (self.room, FILE)) == self.archive else "FILE is not whole",
        ])

    def wrong_again(self):
        """Repeat the copy, and return the problem with it, or None. It is refused if FILE is there. It removes what the first one left."""
        if os.path.exists("%s/%s" % (self.room, FILE)):
            return None
        ended = run(self.words, self.room)
        return "the same copy again: " + told(ended) if ended[:3] != self.ended[:3] else self.wrong_left(True)


def at_each_change(copy, library, what, environment, wrong):
    """End a copy before each change that it makes. `wrong` takes the notes, the number of the change and the end, and returns the problem."""
    for number in range(1, shim.MOST + 1):
        copy.fresh()
        notes, ended = shim.run_noted(library, [*copy.words, "--hint"], copy.room, {**environment, "CHANGE": str(number)})
        if len(notes) < number:
            break
        yield "%s, %s change %d" % (copy.words[2], what, number), wrong(copy, notes, number, ended) or copy.wrong_again()
    whole = ended[:3] == copy.ended[:3] and notes.count("r") == 2 and not copy.wrong_left(True)
    yield "%s makes between 5 and %d changes" % (copy.words[2], shim.MOST), first([
        None if 5 < number < shim.MOST else "it makes %d" % (number - 1),
        None if whole else told(ended),
    ])


def is_named(notes, number):
    """Return whether FILE got its name before this change."""
    return notes[: number - 1].count("r") == 2


def wrong_killed(copy, notes, number, ended):
    """Return the problem with a copy that was killed, or None. FILE is there only if it got its name before."""
    return first([
        None if ended.status == -signal.SIGKILL else "it was not killed: " + told(ended),
        copy.wrong_left(is_named(notes, number), 1),
    ])


def wrong_full(copy, notes, number, ended):
    """Return the problem with a copy for which there was no room, or None. If it had none for the sync of the folder, FILE may be there. If there is
    no folder in the place of FILE, it does not matter that it cannot be removed."""
    if notes.count("r") == 2 and notes.index("r") == number - 1:
        return None if ended[:3] == copy.ended[:3] else told(ended)
    return first([
        None if ended[:2] == (1, "") and REFUSED.fullmatch(ended.err) and FULL in ended.err else told(ended),
        copy.wrong_left(None if is_named(notes, number) else False),
    ])


def wrong_limit(copy, most):
    """Return the problem with a copy that can write no file of more bytes than this, or None."""
    copy.fresh()
    limit = lambda: resource.setrlimit(resource.RLIMIT_FSIZE, (most, resource.getrlimit(resource.RLIMIT_FSIZE)[1]))
    # Python ignores the signal of this limit, and then the program does too. The system returns an error for the write.
    ended = run([*copy.words, "--hint"], copy.room, preexec_fn=limit, restore_signals=False)
    right = ended[:2] == (1, "") and REFUSED.fullmatch(ended.err) and TOO_LARGE in ended.err
    return first([None if right else told(ended), copy.wrong_left(False), copy.wrong_again()])


def limited(room):
    for source in SOURCES:
        made = Copy("%s/%s" % (room, source), source)
        for most in LIMITS:
            if most < len(made.archive):
                yield "%s, no room for files of more than %d bytes" % (source, most), wrong_limit(made, most)


def at_changes(room):
    """End copies before each change, and let the disk be full at each change."""
    library = shim.built(room, "ends", shim.CHANGES + ON_CHANGE)
    for source in SOURCES:
        for what, environment, wrong in ("killed before", {"KILLS": "yes"}, wrong_killed), ("no room for", {}, wrong_full):
            yield from at_each_change(Copy("%s/%s %s" % (room, source, what), source), library, what, environment, wrong)


def stopped(room):
    """Stop a copy of a long layer before each of its changes, look for FILE, and kill it."""
    library = shim.built(room, "stops", shim.STOPS)
    copy = Copy(room + "/long", "long")
    grown = set()
    for number in range(1, shim.MOST + 1):
        copy.fresh()
        process = shim.stopped(library, copy.words, copy.room, number)
        if not process:
            break
        drafts, is_there = beside(copy.room, FILE, copy.names)[1], os.path.lexists("%s/%s" % (copy.room, FILE))
        grown.update(os.path.getsize("%s/%s" % (copy.room, it)) for it in drafts)
        wrong = "FILE is there, and is still written" if drafts and is_there else copy.wrong_left(is_there, 1)
        process.kill()
        process.communicate()
        yield "stopped before change %d, and killed" % number, first([wrong, copy.wrong_left(is_there, 1), copy.wrong_again()])
    # (the layer has three parts)
    yield "it was stopped at %d sizes of the file that it writes" % len(grown), None if len(grown) > 3 else "too few"


def powers(room):
    """Check what a power cut may leave after each call: FILE is not there or whole, and after the lines it is there."""
    library = built(room)
    for name, flags, may_lack in ("a copy", [], False), ("a copy with --no-sync", ["--no-sync"], True):
        made = Copy("%s/%d" % (room, may_lack), "small")
        top = loaded(made.room)
        calls, ended = recorded(library, [*made.words, *flags], made.room)
        yield "a power cut in %s of %d calls" % (name, len(calls)), first([
            None if ended[:3] == made.ended[:3] else told(ended),
            None if any(it.name in ("fsync", "fdatasync", "syncfs") for it in calls) != may_lack else "it waits for the disk, or does not",
            None if may_lack else wrong_cuts(top, calls, made.archive),
        ])


def wrong_cuts(top, calls, archive):
    """Return the problem with what a power cut may leave, or None."""
    for order in in_order, in_any_order:
        disk, is_done = Disk(copy.deepcopy(top)), False
        for number, call in enumerate(calls, 1):
            disk.do(call)
            is_done = is_done or (call.name, call.file) == ("write", 1)
            for _, _, left in disk.left(order, number):
                if left.get(FILE, None if is_done else archive) != archive:
                    what = "not whole" if FILE in left else "gone"
                    return "after call %d of %d (%s %s) FILE is %s" % (number, len(calls), call.name, call.other or call.path, what)


def unlocked(room):
    """Check that a copy waits for nobody who has the lock of the layout or of a folder."""
    made = Copy(room + "/in", "small")
    locks = [os.open(path, os.O_RDONLY | os.O_DIRECTORY) for path in (made.room, made.room + "/small")]
    for lock in locks:
        fcntl.flock(lock, fcntl.LOCK_EX)
    for flags in [], ["--no-wait"]:
        made.fresh()
        ended = run([*made.words, *flags], made.room, seconds=20)
        onto = run_bytes([*made.words[:-1], "-", *flags], made.room)
        yield "beside a lock %s" % " ".join(flags), first([
            None if ended[:3] == made.ended[:3] else told(ended),
            None if onto == (0, made.archive, made.ended.out) else told_bytes(onto),
            made.wrong_left(True),
        ])
    for lock in locks:
        os.close(lock)


def left_by_others(room):
    """Check which files beside FILE a copy removes: those that a copy into FILE left, and no process holds."""
    made = Copy(room + "/in", "small")
    draft = "%s.%s.new" % (FILE, DIGITS)
    held = ["%s.%s.new" % (FILE, DIGITS[::-1])]
    kept = [*held, "other.tar.%s.new" % DIGITS, "%s.%s.new" % (FILE, DIGITS[1:]), "%s.%s.new" % (FILE, DIGITS.upper()), "%s.new" % FILE,
            "%s.%s" % (FILE, DIGITS), "a%s.%s.new" % (FILE, DIGITS)]
    for name in [draft, *kept]:
        write("%s/%s" % (made.room, name), b"a draft")
    os.mkdir("%s/%s.%s.new" % (made.room, FILE, "0" * 16))
    os.symlink("small", "%s/%s.%s.new" % (made.room, FILE, "1" * 16))
    there = {*os.listdir(made.room)}
    with open("%s/%s" % (made.room, held[0])) as opened:
        fcntl.flock(opened, fcntl.LOCK_EX)
        for words, status, gone in ([*made.words, "--dry-run"], 0, set()), ([*made.words[:3], "nope", FILE], 1, set()), (made.words, 0, {draft}):
            ended = run(words, made.room)
            left = {*os.listdir(made.room)} - {FILE}
            yield "%s beside other drafts" % " ".join(words), first([
                None if ended.status == status else told(ended),
                None if left == there - gone else "%s" % sorted(left ^ there),
            ])


def checks(room):
    for number, group in enumerate([at_changes, stopped, limited, powers, unlocked, left_by_others]):
        folder = "%s/%d" % (room, number)
        os.mkdir(folder)
        yield from group(folder)
