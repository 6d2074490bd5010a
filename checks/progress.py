"""The line that shows the progress of a copy and of `verify` on a terminal, over a slow disk. Wants `cc`."""
import json
import os
import re
from concurrent.futures import ThreadPoolExecutor

from support import shim
from support.layouts import E, FOO, LAYER, Content, blob, descriptor, image, key, write_layout
from support.program import first, run, told
from support.terminal import run_on_terminal

# A run that takes longer is killed.
SECONDS = 30
# The bytes that the disk returns in a second. The layer takes two seconds.
SPEED = 5 << 19
LONG = Content(LAYER, b"%7d\n" % 0 * (5 << 17))
IMAGE = image([FOO, LONG])
CONTENTS = [E, FOO, LONG, IMAGE]
WHOLE = sum(len(content.bytes) for content in CONTENTS)

SLOW_DISK = r"""
#define _GNU_SOURCE
#include <dlfcn.h>
#include <unistd.h>
ssize_t read(int file, void *bytes, size_t count) {
  ssize_t (*next)(int, void *, size_t) = (ssize_t (*)(int, void *, size_t))dlsym(RTLD_NEXT, "read");
  ssize_t got = next(file, bytes, count);
  if (got > 0) usleep((unsigned long)got * 1000000 / SPEED);
  return got;
}
""".replace("SPEED", str(SPEED))

# Sizes and times as the line has them.
UNITS = {"B": 1, "KB": 1000, "MB": 1000000}
SIZE = r"(\d+ B|\d+\.\d (?:KB|MB))"
TIME = r"(?:(\d+) min )?(\d+) s left"
# (a terminal does not wrap what is between `?7l` and `?7h`)
LINE = re.compile(r"\r\x1b\[\?7l(\d+) of (\d+) blobs, %s of %s(?:, %s/s(?:, %s)?)?\x1b\[K\x1b\[\?7h" % (SIZE, SIZE, SIZE, TIME))
ERASURE = "\r\x1b[K"


def document(value):
    return json.dumps(value, separators=(",", ":")) + "\n"


def described(content):
    return json.loads(descriptor(content))


COPIED = "copied %s\nplanned 4 pushed 4 skipped 0\n" % key(IMAGE)
COPIED_AS_JSON = document({"copied": [{"tag": "one", "descriptor": described(IMAGE)}], "planned": 4, "pushed": 4, "skipped": 0})
CORRUPT = "corrupt %s\nheld 4\n" % key(LONG)
CORRUPT_AS_JSON = document({"absent": [], "corrupt": [described(LONG)], "corruptForeign": [], "open": None, "shadowed": [], "held": 4})
REFUSED = "ocicp: 88 Fetch %s 21 Corrupt\n" % key(LONG)
REFUSED_AS_JSON = document({"error": [
    {"number": 88, "name": "Fetch", "descriptor": described(LONG)},
    {"number": 21, "name": "Corrupt"},
], "kind": "damaged", "side": "SRC", "path": "spoiled/" + blob(LONG)})
# The words, the status, and the text below the line when it was erased. `*` is for a sentence about the refusal.
CASES = [
    ("copy source one copied", 0, COPIED),
    ("copy --json source one as_json", 0, COPIED_AS_JSON),
    ("verify spoiled", 1, CORRUPT),
    ("verify --json spoiled", 1, CORRUPT_AS_JSON),
    ("copy spoiled one refused", 1, REFUSED + "* Run `ocicp explain 21` for what to do.\n"),
    ("copy --json spoiled one refused_as_json", 1, REFUSED_AS_JSON),
]
# The output and the error output if the error output is a pipe.
PIPED = [
    ("copy source one piped", COPIED, ""),
    ("verify spoiled", CORRUPT, ""),
]


def shown(size):
    """Return the bytes that a size in the line stands for, as exactly as it shows."""
    number, unit = size.split()
    return float(number) * UNITS[unit]


def wrong_growth(name, values, whole):
    """Return the problem with a number that is never to fall or to exceed the whole, or None."""
    if values != sorted(values) or values[-1] > whole:
        return "%s of %s: %s" % (name, whole, values)


def wrong_time(_blobs, _all_blobs, arrived, whole, rate, minutes, seconds):
    """Return the problem with the time of a line, or None. It is to fit the other numbers, as exactly as they show."""
    rate, time = shown(rate), 60 * int(minutes or 0) + int(seconds)
    wanted = (shown(whole) - shown(arrived)) / rate
    if rate > 2 * SPEED or abs(time - wanted) > 1 + wanted / 10 + 100000 / rate:
        return "%d s for %.0f bytes at %.0f bytes a second" % (time, shown(whole) - shown(arrived), rate)


def wrong_lines(lines):
    """Return the problem with the lines that were drawn one over the other, each as its parts, or None."""
    if not lines:
        return "no line was drawn"
    blobs, arrived = [int(line[0]) for line in lines], [shown(line[2]) for line in lines]
    whole = "%.1f MB" % (WHOLE / 1000000)
    steps = [len({size for other, size in zip(blobs, arrived) if other == number}) for number in blobs]
    timed = [line for line in lines if line[6]]
    return first([
        wrong_growth("blobs", blobs, 4),
        wrong_growth("bytes", arrived, shown(whole)),
        first("the whole is %s and %s" % (line[1], line[3]) for line in lines if (line[1], line[3]) != ("4", whole)),
        None if max(steps) > 2 else "the line does not move while a blob arrives",
        None if timed else "no line has a remaining time",
        first(wrong_time(*line) for line in timed),
    ])


def wrong_on_terminal(found, status, wanted):
    """Return the problem with a run on a terminal, or None. The line is to be drawn, and erased before anything else is printed."""
    lines, erased, rest = found[1].partition(ERASURE)
    parts = [line.groups() for line in LINE.finditer(lines)]
    begin, _, end = wanted.partition("*")
    is_wanted = rest.startswith(begin) and rest.endswith(end) and rest.count("\n") == wanted.count("\n")
    return first([
        None if found[0] == status else "status %d, %r" % found,
        None if erased and LINE.sub("", lines) == "" else "other lines than the one that is erased: %r" % found[1],
        None if is_wanted else "below the line: %r" % rest,
        wrong_lines(parts),
    ])


def checks(room):
    write_layout(room + "/source", CONTENTS, {"one": IMAGE})
    write_layout(room + "/spoiled", CONTENTS, {"one": IMAGE})
    with open("%s/spoiled/%s" % (room, blob(LONG)), "r+b") as file:
        # (the last byte, so that the whole blob is read before it is found corrupt)
        file.seek(-1, os.SEEK_END)
        file.write(b"0")
    environment = dict(os.environ, LD_PRELOAD=shim.built(room, "slow_disk", SLOW_DISK))
    # They wait most of the time, so all run at once.
    with ThreadPoolExecutor(len(CASES) + len(PIPED)) as pool:
        drawn = [pool.submit(run_on_terminal, words.split(), room, SECONDS, True, env=environment) for words, _, _ in CASES]
        piped = [pool.submit(run, words.split(), room, SECONDS, env=environment) for words, _, _ in PIPED]
    for (words, status, wanted), found in zip(CASES, drawn):
        yield words, wrong_on_terminal(found.result(), status, wanted)
    for (words, out, err), ended in zip(PIPED, piped):
        ended = ended.result()
        yield words + ", through a pipe", None if (ended.out, ended.err) == (out, err) else told(ended)
