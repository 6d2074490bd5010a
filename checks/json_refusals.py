"""The documents of refusals: each has the values of the line, and is the last line of the error output. Wants `cc`."""
import fcntl
import functools
import json
import os
import re
import shutil
import subprocess

from support import refused_malloc, shim
from support.json_lines import CARRIED, KINDS, MEMORY, OF_SYSTEM
from support.json_rooms import CHANGES, Rooms, run_long, with_json
from support.layouts import BAR, E, FOO, I1, IMAGE, INDEX, LAYER, M2, M3, S, Content, blob, descriptor, image, write_layout
from support.odd_archives import damaged
from support.program import PROGRAM, SECONDS, Ended, run, told
from support.refused_malloc import refused_in_turn
from support.tables import table
from support.terminal import run_on_terminal

ALL, TAGS = [E, FOO, BAR, M2, M3, I1, S], {"new": I1, "one": M2, "sig": S}
LARGE = Content(IMAGE, M2.bytes + b" " * (4 << 20))
STRAY, DRAFT = "blobs/sha256/%064x" % 1, "index.json.0123456789abcdef.new"
# Manifests that cannot be read.
BAD = ["[", "[]", "{}", '{"config":1}', '{"config":%s,"layers":1}' % descriptor(E),
       '{"config":%s,"layers":[%s,{}]}' % (descriptor(E), descriptor(FOO))]
# The thing in the place of a file of the layout `bad`: bytes, a folder, or nothing.
HARMED = [
    *((name, it) for name in ("oci-layout", "index.json") for it in (None, "a folder", b"[", b"[]", b"{}")),
    ("oci-layout", b'{"imageLayoutVersion":"2"}'), ("index.json", b'{"manifests":[1]}'),
    *((blob(content), it) for content in (M2, FOO) for it in (None, "a folder", b"{}")), (blob(FOO), BAR.bytes),
]
# Commands that read that layout, or write into it.
OF_BAD = [
    "tags bad", "verify bad", "resolve bad one", "predecessors bad one", "tree --referrers bad one", "copy --dry-run bad one other",
    "resolve bad sig", "predecessors bad new", "tree --referrers bad new", "tree bad sig", "copy --dry-run bad sig other",
    "copy --workers 1 --progress bad one other", "copy --dry-run good one bad", "copy --workers 1 --all good bad", "prune --dry-run bad",
    "prune --untagged --dry-run bad",
    "copy --all --prune --workers 1 good bad", "copy --all --prune --workers 1 bad other", "tag bad one other", "untag bad one", "prune bad",
    "prune --untagged bad", "cat bad one", "copy --archive bad one made.tar", "copy --archive --all --referrers bad missing/made.tar",
]
REFERENCES = ["resolve good REF", "predecessors good REF", "tree good REF", "copy good REF other", "copy --dry-run good REF other",
              "tag good REF other", "untag good REF", "cat good REF"]
ONTO_FILES = ["copy good one file", "copy --all good file", "copy --archive good one file", "copy --archive --all good other", "tag file one two", "untag file one", "prune file"]
# Commands for a platform that the index does not have, and for one whose manifest is missing.
OF_PLATFORMS = ["resolve --platform linux/s390x good all", "tree --platform linux/arm64/v7 good all", "tree --platform linux/arm64 good one",
                "resolve --platform linux/amd64 good all", "tree --referrers --platform linux/amd64 good all"]
# Prunes that a layout without a tag refuses, all prunes, and what layouts without an index refuse.
OF_UNTAGGED = ["prune --untagged --dry-run good", "prune --untagged good"]
OF_PRUNES = ["prune good", "prune --dry-run good", *OF_UNTAGGED]
OF_LOST = [*OF_PRUNES, "copy --all --prune source other", "copy --all --prune --dry-run source other"]
# Copies of the tags that match a pattern, where none does.
OF_PATTERNS = ["copy --all --match nope good other", "copy --all --dry-run --match n --match on good other"]
ITEMS = ["type", "type=nothing", "a=good/oci-layout a=good/oci-layout", "%s=good/%s" % (IMAGE, blob(M2))]
# The numbers that the refusals here have.
NUMBERS = {*range(10, 15), 21, 30, 33, 35, 36, 43, 53, 54, *range(70, 76), 77, *range(79, 83), 88, *range(92, 105), 107, 108, 109}


def write_good(folder):
    """Write a layout, another one, and files that are no layouts."""
    write_layout(folder + "/good", ALL, TAGS)
    write_layout(folder + "/other", [E, BAR, image([BAR])], {"old": image([BAR])})
    write_files({"file": b"a text", "good/" + STRAY: b"stray", "good/" + DRAFT: b"draft"}, folder)


def write_bad(path, written, folder):
    """Write the same, and a layout in which a file is missing, has other bytes, or is a folder."""
    write_good(folder)
    write_layout(folder + "/bad", ALL, TAGS)
    path = "%s/bad/%s" % (folder, path)
    os.remove(path)
    if written == "a folder":
        os.mkdir(path)
    elif written is not None:
        with open(path, "wb") as file:
            file.write(written)


class Refused:
    """Commands in rooms, and the numbers of their refusals."""

    def __init__(self, room):
        self.room, self.numbers = room, set()

    def wrong(self, make, commands, run=run_long):
        """Return the problem with these commands, each a list of words, in rooms that are filled anew, or None."""
        rooms = Rooms(self.room, make)
        for words in commands:
            complaint = rooms.wrong(words, run)
            if complaint:
                return complaint
            last = rooms.ended.err[:-1].rpartition("\n")[2]
            if last.startswith("{"):
                self.numbers.update(it["number"] for it in json.loads(last)["error"])


def damages(refused):
    """Check layouts that are damaged."""
    for path, written in HARMED:
        wrong = refused.wrong(functools.partial(write_bad, path, written), [it.split() for it in OF_BAD])
        yield "%s in the place of %s" % ("nothing" if written is None else written, path), wrong
    yield "a FIFO in the place of a layer", refused.wrong(write_fifo, [it.split() for it in OF_BAD])
    yield "three damaged manifests", refused.wrong(write_damaged, [it.split() for it in OF_BAD])
    for text in BAD:
        bad = Content(IMAGE, text.encode())
        commands = [["mem", "%s=bad/%s" % (IMAGE, blob(bad))], *(it.split() for it in OF_BAD)]
        yield "the manifest %s" % text, refused.wrong(lambda folder: write_manifest(bad, folder), commands)


def write_fifo(folder):
    """Write the same, with a FIFO in the place of a layer that has no bytes either."""
    write_good(folder)
    empty = Content(LAYER, b"")
    write_layout(folder + "/bad", [E, empty, image([empty])], {"one": image([empty])})
    path = "%s/bad/%s" % (folder, blob(empty))
    os.remove(path)
    os.mkfifo(path)


def write_damaged(folder):
    """Write the same, with damaged manifests below an index, without a tag, and with one."""
    write_good(folder)
    unread = Content(IMAGE, b"{}")
    write_layout(folder + "/bad", [E, FOO, BAR, M2, I1, unread], {"new": I1, "sig": unread, "one": BAR}, [S])
    write_files({"bad/" + blob(it): b"{ }" for it in (M2, S)}, folder)


def write_manifest(content, folder):
    write_good(folder)
    write_layout(folder + "/bad", [E, FOO, content], {"one": content})


def archives(refused):
    """Check archives that are damaged."""
    found = {"%d.tar" % number: written for number, (_, written, _) in enumerate(damaged([(b"oci-layout", b"{}"), (b"index.json", b"{}")]))}
    yield "%d damaged archives" % len(found), refused.wrong(functools.partial(write_files, found), [["tags", it] for it in found])


def write_files(files, folder):
    for name, written in files.items():
        with open("%s/%s" % (folder, name), "wb") as file:
            file.write(written)


def others(refused):
    """Check references, items, files in the place of folders, and other refusals of a prune and a copy."""
    for reference in "", "nope", "sha256:" + "0" * 64:
        commands = [[reference if it == "REF" else it for it in command.split()] for command in REFERENCES]
        yield "the reference %r" % reference, refused.wrong(write_good, commands)
    yield "platforms", refused.wrong(write_platforms, [it.split() for it in OF_PLATFORMS])
    yield "patterns", refused.wrong(write_good, [it.split() for it in OF_PATTERNS])
    yield "items", refused.wrong(write_good, [["mem", *it.split()] for it in ITEMS])
    yield "files", refused.wrong(write_good, [it.split() for it in ONTO_FILES])
    commands = [["mem", "%s=bad/%s" % (IMAGE, blob(LARGE))], *(it.split() for it in OF_BAD)]
    yield "a large manifest", refused.wrong(lambda folder: write_manifest(LARGE, folder), commands)
    yield "no tags", refused.wrong(lambda folder: write_layout(folder + "/good", ALL, {}), [it.split() for it in OF_UNTAGGED])
    yield "a link in the place of a folder", refused.wrong(write_link, [it.split() for it in OF_PRUNES])
    yield "blobs and no index", refused.wrong(write_lost, [it.split() for it in OF_LOST])
    yield "a folder in the place of a new layer", refused.wrong(write_occupied, ["copy --workers 1 --progress good one other".split()])


def write_platforms(folder):
    """Write a layout with an index of two platforms. It does not have the manifest of the second one."""
    of_platform = '%s,"platform":{"os":"linux","architecture":"%s"%s}}'
    listed = of_platform % (descriptor(M2)[:-1], "arm64", ',"variant":"v8"'), of_platform % (descriptor(M3)[:-1], "amd64", "")
    both = Content(INDEX, ('{"schemaVersion":2,"manifests":[%s]}' % ",".join(listed)).encode())
    write_layout(folder + "/good", [E, FOO, M2, both], {"all": both, "one": M2})


def write_link(folder):
    write_good(folder)
    os.rename(folder + "/good/blobs", folder + "/blobs")
    os.symlink("../blobs", folder + "/good/blobs")


def write_lost(folder):
    write_good(folder)
    for layout in "good", "other":
        os.remove("%s/%s/index.json" % (folder, layout))
    write_layout(folder + "/source", [E, FOO, M2], {"one": M2})


def write_occupied(folder):
    write_good(folder)
    os.mkdir("%s/other/%s" % (folder, blob(FOO)))


def outside(refused, library):
    """Check refusals with a cause outside the layouts: locks, files that cannot be changed, and an output that cannot be written."""
    for path in STRAY, DRAFT, blob(BAR):
        environment = dict(os.environ, LD_PRELOAD=library, KEPT="good/" + path)
        keeping = lambda words, folder: run(words, folder, env=environment)
        yield "%s cannot be removed" % path, refused.wrong(write_good, [
            ["untag", "good", "new"], ["prune", "good"], ["prune", "--untagged", "good"]], keeping)
    environment = dict(os.environ, LD_PRELOAD=library, KEPT="index.json")
    saving = lambda words, folder: run(words, folder, env=environment)
    yield "no index can be written", refused.wrong(write_good, [
        "copy --workers 1 --progress good new other".split(), ["untag", "good", "one"], "copy --all --prune good other".split()], saving)
    full = lambda words, folder: run(["-c", '"$0" "$@" >/dev/full', PROGRAM, *words], folder, program="/bin/bash")
    commands = ["tags good", "tree good new", "copy --all good new", "prune good", "prune --untagged good", "explain 36", "copy --dry-run good one other"]
    yield "an output that is full", refused.wrong(write_good, [it.split() for it in commands], full)
    locked = ["copy --no-wait --all good other", "untag --no-wait other old", "prune --no-wait other"]
    yield "a folder that is locked", refused.wrong(write_good, [it.split() for it in locked], run_locked)
    waiting = ["untag other nope", "copy --all --workers 1 --progress good other", "untag other one", "prune other"]
    yield "a folder that is locked for a while", refused.wrong(write_good, [it.split() for it in waiting], run_waiting)


def lock(folder):
    opened = os.open(folder + "/other", os.O_RDONLY | os.O_DIRECTORY)
    fcntl.flock(opened, fcntl.LOCK_EX)
    return opened


def run_locked(words, folder):
    opened = lock(folder)
    ended = run(words, folder)
    os.close(opened)
    return ended


def run_waiting(words, folder):
    """Run a command that has to wait for a lock, until it says so."""
    opened = lock(folder)
    pipes = {"stdin": subprocess.DEVNULL, "stdout": subprocess.PIPE, "stderr": subprocess.PIPE}
    with subprocess.Popen([PROGRAM, *words], cwd=folder, text=True, **pipes) as process:
        said = process.stderr.readline()
        os.close(opened)
        out, err = process.communicate(timeout=SECONDS)
    return Ended(process.returncode, out, said + err, 0, 0)


def wrong_table():
    """Return the problem with the table of docs/json.md, or None. It has the numbers that carry each member."""
    listed, carried = {}, {}
    for members, numbers in table("/docs/json.md", "## Refusals"):
        listed.update(dict.fromkeys(re.findall(r"`(\w+)`", members), {*map(int, re.findall(r"\d+", numbers))}))
    for number, members in CARRIED.items():
        for name in members:
            carried.setdefault(name, set()).add(number)
    return None if listed == carried else "it has %s, and not %s" % (listed, carried)


def wrong_kinds():
    """Return the problem with the kinds in docs/json.md, or None. The table has the numbers of each; faults of memory print none."""
    rows = {kinds.strip("`"): {*map(int, re.findall(r"\d+", numbers))} for kinds, _, numbers in table("/docs/json.md", "### Kinds")}
    listed, wanted = {kind: its for kind, its in rows.items() if its}, {kind: its for kind, its in KINDS.items() if kind != "memory"}
    twice = sum(map(len, KINDS.values())) != len(set().union(*KINDS.values()))
    return "it has %s, and not %s" % (listed, wanted) if listed != wanted or twice or {*rows} != {*KINDS, *OF_SYSTEM.values(), "refused"} else None


def on_terminal(room):
    """Check that on a terminal too only the document is printed, after the line of progress."""
    write_good(room)
    for command in "tags good", "resolve good nope", "tags other/blobs", "copy good nope other", "copy --all good new", "verify good":
        words = with_json(command.split())
        (status, written), ended = run_on_terminal(words, room), run(words, room)
        left = written.rpartition("\r")[2].rpartition("\x1b[K")[2]
        yield "%s, on a terminal" % command, None if (status, left) == (ended.status, ended.err) else "status %d, %r" % (status, written)


def plain(room):
    """Check the output that stays text."""
    write_good(room)
    for words in ["--json"], ["tags"], ["tags", "good", "more"], ["nope"], ["explain", "5"], ["copy", "good", "one"], [b"\xff"]:
        ended = run([*words, "--json"], room)
        right = ended.status == 2 and not ended.out and ended.err.startswith("error: ")
        yield "%s, with --json" % words, None if right else told(ended)
    for command in "tags", "copy", "explain":
        ended, wanted = run([command, "--json", "--help"], room), run([command, "--help"], room)
        yield "%s --json --help" % command, None if ended[:3] == wanted[:3] and ended.status == 0 else told(ended)


# Commands for which each request for memory is refused in turn.
REFUSED = [
    "tags good", "tree --referrers good one", "verify bad", "explain 36", "mem a=file b=file", "copy --all --prune --workers 1 good other",
    "untag good one", "prune good", "prune --untagged good", "resolve good nope", "copy bad one other", "tags file",
]


def fresh(folder):
    shutil.rmtree(folder, ignore_errors=True)
    write_layout(folder + "/good", [E, FOO, M2, S], {"one": M2}, [S])
    write_layout(folder + "/bad", [E, M2], {"one": M2})
    write_layout(folder + "/other", [BAR], {"old": BAR})
    write_files({"file": b"a text", "good/" + STRAY: b"stray"}, folder)


@functools.lru_cache(maxsize=None)
def unhurt(words, folder):
    """Run a command with all memory, and return its end."""
    fresh(folder)
    return run(words, folder)


def wrong_refused(words, library, room, nth):
    """Refuse the nth request, and return whether there were that many, and the problem with the run, or None. It is to end as with all
    memory, or with status 3 and a document that says so, and without a part of another document."""
    folder = "%s/%d" % (room, os.getpid())
    wanted = unhurt(words, folder)
    if words[0] in CHANGES:
        fresh(folder)
    refused, ended = refused_malloc.run_refused(library, nth, words, folder)
    right = ended[:3] == wanted[:3] or refused and ended[:3] == (3, "", MEMORY)
    return refused, None if right else "request %d: %s" % (nth, told(ended))


def of_memory(room):
    library = refused_malloc.build(room)
    for number, command in enumerate(REFUSED):
        count, complaint = refused_in_turn(tuple(with_json(command.split())), library, "%s/%d" % (room, number), wrong_refused)
        yield "%s, %d requests refused in turn" % (command, count), complaint


def checks(room):
    refused = Refused(room + "/rooms")
    library = shim.built(room, "keep", shim.KEEPS)
    for group in damages, archives, others, functools.partial(outside, library=library):
        yield from group(refused)
    yield "these refusals are seen", None if refused.numbers == NUMBERS else "and not %s" % sorted(refused.numbers ^ NUMBERS)
    yield "the table of docs/json.md", wrong_table()
    yield "the kinds in docs/json.md", wrong_kinds()
    for group in on_terminal, plain, of_memory:
        folder = "%s/%s" % (room, group.__name__)
        os.mkdir(folder)
        yield from group(folder)
