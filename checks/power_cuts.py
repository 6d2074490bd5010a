"""What a power cut may leave after each call of a command that changes a layout. Wants `cc`.

No power is cut. The calls of a command are recorded, `support.disk` works out the states in which a power cut may leave the layout after
each of them, and each state is held against the promise of `support.cuts`. Logs that are written by hand, most with one fault, show that
faults are found. `tools/power_cuts` prints what is found of any program.
"""
import collections
import copy
import json
import multiprocessing
import os
import re
import shutil
import signal
from collections import namedtuple

from support.cuts import DONE, LAYOUT, OTHERS, PARTS, WHOLE, Promise
from support.disk import AS_IT_WAS, Call, Disk, in_any_order, in_order, loaded
from support.files import files, read
from support.layouts import LAYER, Content, E, blob, descriptor, image, write_layout
from support.program import told
from support.pruning import key_of
from support.recorded import built, recorded

ORDERS = {"in order": in_order, "in any order": in_any_order}

# Images that share a layer, each with three of its own, and a signature of the first one.
SHARED, *LAYERS, SIGNED = (Content(LAYER, b"layer %d " % number * 9) for number in range(11))
OF_ONE, OF_TWO, OF_OLD = (LAYERS[start : start + 3] for start in (0, 3, 6))
ONE, TWO, OLD = (image([SHARED, *layers]) for layers in (OF_ONE, OF_TWO, OF_OLD))
SIGNATURE = image([SIGNED], subject=ONE)
LONG_LAYER = LAYERS[0]._replace(algorithm="sha512")
LONG = image([SHARED, LONG_LAYER])._replace(algorithm="sha512")
COMMON = [E, SHARED]
OLD_AND_TWO = [*COMMON, *OF_OLD, *OF_TWO, OLD, TWO], {"old": OLD, "new": TWO}


def key(content):
    return content and key_of(json.loads(descriptor(content)))


def inner(left, place):
    """Return the files of a layout, by their paths in it."""
    return {path[len(place) + 1 :]: data for path, data in left.items() if path.startswith(place + "/")}


class Moment(namedtuple("Moment", "number count call order undone part")):
    """A power cut: after which call of how many, the order in which names are changed, and the changes that it undoes."""

    def text(self):
        names = sorted({name for _, changed in self.undone for name in changed})
        return "after call %d of %d (%s), if the disk has %s and %s" % (
            self.number, self.count, " ".join(filter(None, [self.call.name, self.call.other or self.call.path])),
            "no unsynced changes of files" if self.part is AS_IT_WAS else "%d %% of the unsynced bytes" % self.part,
            "not the changes of " + ", ".join(names) if names else "all changes of names",
        )


class Search:
    """All states that a power cut may leave in a folder after each of some calls, held against a promise: how many they are, the first
    problem with each part of the promise, and how many states break it, with names changed in each order."""

    def __init__(self, top, calls, promise, place):
        self.promise, self.seen, self.problems, self.counts = promise, set(), {}, collections.Counter()
        for order in ORDERS:
            disk, changes, is_done = Disk(copy.deepcopy(top)), None, False
            for number, call in enumerate(calls, 1):
                disk.do(call)
                is_end = not is_done and (number == len(calls) or (call.name, call.file) == ("write", 1))
                is_done |= is_end
                # (a call that changes nothing leaves nothing new)
                if is_end or disk.changes != changes:
                    for undone, part, left in disk.left(ORDERS[order], number):
                        self.look(inner(left, place), is_done, Moment(number, len(calls), call, order, undone, part))
                changes = disk.changes

    def look(self, left, is_done, moment):
        """Hold a state against the promise, if it is a new one."""
        state = is_done, frozenset(left.items())
        if state in self.seen:
            return
        self.seen.add(state)
        for part, wrong in dict(reversed([*self.promise.broken(left, is_done)])).items():
            self.counts[part, moment.order] += 1
            if part not in self.problems:
                self.problems[part] = re.sub(r"([0-9a-f]{8})[0-9a-f]{56,}", r"\1", "%s, %s" % (wrong, moment.text()))

    def problem(self, part):
        """Return the problem with a part of the promise, or None."""
        if part in self.problems:
            counts = ["%d with names changed %s" % (self.counts[part, order], order) for order in ORDERS]
            return "%s; broken by %s" % (self.problems[part], " and ".join(counts))


def call_on(name, path, **values):
    """Return a call on a path in the layout."""
    return Call(name=name, path=os.path.normpath("copied/" + path), **values)


def sync_of(path):
    """Return the calls that sync a folder of the layout."""
    return [call_on("open", path, file=99), Call(name="fsync", file=99)]


def file_steps(path, data, file):
    """Return the steps that write a file beside its place, sync it, and rename it."""
    draft = path + ".0123456789abcdef.new"
    return {
        "write " + path: [call_on("open", draft, file=file, number=os.O_RDWR | os.O_CREAT), Call(name="write", file=file, data=data)],
        "sync " + path: [Call(name="fsync", file=file)],
        "rename " + path: [call_on("rename", draft, other="copied/" + path)],
    }


def copy_steps(contents, index, removed=()):
    """Return the steps that add contents to a layout, then put an index into its place, and then remove contents."""
    blobs = [file_steps(blob(content), content.bytes, file) for file, content in enumerate(contents, 10)]
    return {
        **{name: calls for steps in blobs for name, calls in steps.items()},
        "sync blobs/sha256": sync_of("blobs/sha256"),
        **file_steps("index.json", index, 9),
        "sync copied": sync_of("."),
        "remove": [call_on("unlink", blob(content)) for content in removed],
        "say so": [Call(name="write", file=1)],
    }


def new_steps(contents, index):
    """Return the steps that make a layout of contents in a new folder."""
    return {
        "make copied": [call_on("mkdir", ".")],
        "sync its parent": sync_of(".."),
        **file_steps("oci-layout", b'{"imageLayoutVersion":"1.0.0"}', 8),
        "make blobs": [call_on("mkdir", "blobs"), call_on("mkdir", "blobs/sha256")],
        "sync blobs": sync_of("blobs"),
        "sync copied before": sync_of("."),
        **copy_steps(contents, index),
    }


def without(name):
    """Return a fault: this step is left out."""
    return lambda steps: {it: calls for it, calls in steps.items() if it != name}


def after(name, other):
    """Return a fault: this step is made only after the other one."""
    def fault(steps):
        names = [*without(name)(steps)]
        names.insert(names.index(other) + 1, name)
        return {it: steps[it] for it in names}
    return fault


def in_place(content):
    """Return a fault: before all else the blob of a content is written again in its place."""
    opened = call_on("open", blob(content), file=7, number=os.O_TRUNC)
    return lambda steps: {"write in place": [opened, Call(name="write", file=7, data=content.bytes), Call(name="fsync", file=7)], **steps}


# Faults of a log, each with the parts of the promise that it breaks.
NOTHING = lambda steps: steps
MANIFEST = blob(ONE)
IN_NEW = {
    "all is in order": (NOTHING, []),
    "a blob is synced only after its rename, which does no harm": (after("sync " + MANIFEST, "rename " + MANIFEST), []),
    "the parent of the new folder is not synced": (without("sync its parent"), [DONE]),
    "the folder `blobs` is not synced": (without("sync blobs"), [WHOLE, DONE]),
    "the new folder is synced only at the end": (without("sync copied before"), [LAYOUT, WHOLE]),
    "the bytes of `oci-layout` are not synced": (without("sync oci-layout"), [LAYOUT, DONE]),
    "the bytes of a blob are not synced": (without("sync " + MANIFEST), [WHOLE, DONE]),
    "the names of blobs are not synced": (without("sync blobs/sha256"), [WHOLE, DONE]),
    "the index is renamed before the names of blobs are synced": (after("sync blobs/sha256", "rename index.json"), [WHOLE]),
    "the bytes of the index are not synced": (without("sync index.json"), [LAYOUT, DONE]),
    "the bytes of the index are synced only after its rename": (after("sync index.json", "rename index.json"), [LAYOUT]),
    "the name of the index is not synced": (without("sync copied"), [DONE]),
    "the name of the index is synced only after the command says so": (after("sync copied", "say so"), [DONE]),
}
IN_OLD = {
    "all is in order": (NOTHING, []),
    "blobs are removed before the index is renamed": (after("remove", "write index.json"), [WHOLE]),
    "blobs are removed before the name of the index is synced": (after("remove", "rename index.json"), [WHOLE]),
    "the bytes of the index are not synced": (without("sync index.json"), [LAYOUT, OTHERS, DONE]),
    "the bytes of the index are synced only after its rename": (after("sync index.json", "rename index.json"), [LAYOUT, OTHERS]),
    "a blob that all tags need is written in its place": (in_place(SHARED), [OTHERS, WHOLE]),
    "a blob that only another tag needs is written in its place": (in_place(OLD), [OTHERS]),
}


def wrong_log(folder, old, steps, wanted):
    """Return the problem with the search of a log that sets the tag `new`, or None. It is to find these parts of the promise broken."""
    shutil.rmtree(folder, ignore_errors=True)
    os.mkdir(folder)
    if old:
        write_layout(folder + "/copied", *old)
    top = loaded(folder)
    search = Search(top, sum(steps.values(), []), Promise(inner(Disk(top).files(), "copied"), {"new": key(ONE)}), "copied")
    found = [part for part in PARTS if part in search.problems]
    return None if found == wanted else "found %s: %s" % (found, " / ".join(search.problems.values()))


def logs(room):
    """Look for the faults of the logs that are written by hand."""
    indexes = []
    for tags in {"new": ONE}, {"old": OLD, "new": ONE}:
        write_layout("%s/%d" % (room, len(indexes)), [], tags)
        indexes.append(read("%s/%d/index.json" % (room, len(indexes))))
    new = new_steps([*COMMON, *OF_ONE, ONE], indexes[0])
    changed = copy_steps([*OF_ONE, ONE], indexes[1], [*OF_TWO, TWO])
    for what, old, steps, faults in ("new", None, new, IN_NEW), ("changed", OLD_AND_TWO, changed, IN_OLD):
        for name, (fault, wanted) in faults.items():
            yield "a log of a %s layout, in which %s" % (what, name), wrong_log(room + "/log", old, fault(steps), wanted)


# A command: its words; the source and the layout that it changes, if there is one, each with contents, tags and entries without a tag; the
# entries that it is to set there, each with its content, or None if it goes; the blobs that are damaged there before; the place of that
# layout; and if the same command is killed before, then when: the name of a call, its path, and 0 or 1 for before or after the last such
# call.
Case = namedtuple("Case", "words source old new damaged place killed", defaults=[{}, [], "copied", None])
SIGNED_ONE = [*COMMON, *OF_ONE, ONE, SIGNED, SIGNATURE], {"new": ONE}, [SIGNATURE]
TWO_TAGS = [*COMMON, *OF_ONE, *OF_TWO, ONE, TWO], {"a": ONE, "b": TWO}
ONLY_OLD = [*COMMON, *OF_OLD, OLD], {"old": OLD}
OLD_AND_ONE = [*COMMON, *OF_OLD, *OF_ONE, OLD, ONE], {"old": OLD, "new": ONE}
SIGNED_AND_OLD = [*SIGNED_ONE[0], *OF_OLD, OLD], {"old": OLD, "new": ONE}, [SIGNATURE]
NO_TAG = [*COMMON, *OF_OLD, *OF_ONE, OLD, ONE], {"old": OLD}, [ONE]
COPY, ALL, REPAIR, SET = ["source", "new", "copied"], ["--all", "source", "copied"], ["copied", "source"], {"new": ONE}
SAVE = "rename", "copied/index.json"
COPIES = {
    "copy into a new folder": Case(COPY, SIGNED_ONE, None, SET),
    "copy into a new folder in another": Case(["source", "new", "in/copied"], SIGNED_ONE, None, SET, place="in/copied"),
    "copy beside another image": Case(COPY, SIGNED_ONE, ONLY_OLD, SET),
    "copy in place of another image": Case(COPY, SIGNED_ONE, OLD_AND_TWO, SET),
    "copy of an image that is there": Case(COPY, SIGNED_ONE, ([*COMMON, *OF_ONE, ONE], {"old": ONE}), SET),
    "copy of digests of sha512": Case(COPY, ([*COMMON, LONG_LAYER, LONG], {"new": LONG}), ONLY_OLD, {"new": LONG}),
    "copy --all": Case(ALL, TWO_TAGS, ONLY_OLD, {"a": ONE, "b": TWO}),
    "copy --referrers": Case(["--referrers", *COPY], SIGNED_ONE, ONLY_OLD, {**SET, key(SIGNATURE).digest: SIGNATURE}),
    "copy --descend over a damaged layer": Case(["--descend", *COPY], SIGNED_ONE, OLD_AND_ONE, SET, [SHARED]),
    "copy --descend over a damaged manifest": Case(["--descend", *COPY], SIGNED_ONE, OLD_AND_ONE, SET, [ONE]),
    "copy --all --prune": Case(["--prune", *ALL], TWO_TAGS, OLD_AND_TWO, {"a": ONE, "b": TWO, "old": None, "new": None}),
    "copy into a folder that a killed one made": Case(COPY, SIGNED_ONE, None, SET, killed=("mkdir", "copied", 1)),
    "copy into a layout that a killed one made": Case(COPY, SIGNED_ONE, None, SET, killed=(*SAVE, 0)),
    "copy after one that was killed before its save": Case(COPY, SIGNED_ONE, ONLY_OLD, SET, killed=(*SAVE, 0)),
    "copy after one that was killed after its save": Case(COPY, SIGNED_ONE, ONLY_OLD, SET, killed=(*SAVE, 1)),
}
REPAIRS = {
    "repair of a layer": Case(REPAIR, SIGNED_ONE, OLD_AND_ONE, SET, [SHARED]),
    "repair of a manifest and a layer": Case(REPAIR, SIGNED_ONE, OLD_AND_ONE, SET, [ONE, LAYERS[0]]),
    "repair of all blobs": Case(REPAIR, SIGNED_ONE, ([], {"new": ONE}, [SIGNATURE]), {**SET, key(SIGNATURE).digest: SIGNATURE}),
    "repair after one that was killed": Case(
        REPAIR, SIGNED_ONE, OLD_AND_ONE, SET, [ONE, SHARED], killed=("rename", "copied/" + blob(ONE), 1)),
}
CASES = {
    **{"%s, %s" % (name, workers): case._replace(words=[command, "--workers", workers[0], *case.words])
       for command, cases in (("copy", COPIES), ("repair", REPAIRS))
       for name, case in cases.items() for workers in ("1 worker", "3 workers")},
    "tag": Case(["tag", "copied", "old", "new"], None, OLD_AND_ONE, {"new": OLD}),
    "untag": Case(["untag", "copied", "new"], None, OLD_AND_ONE, {"new": None}),
    "untag with a signature": Case(["untag", "copied", "new"], None, SIGNED_AND_OLD, {"new": None, key(SIGNATURE).digest: None}),
    "prune": Case(["prune", "copied"], None, ([*NO_TAG[0], *OF_TWO], *NO_TAG[1:])),
    "prune --untagged": Case(["prune", "--untagged", "copied"], None, NO_TAG, {key(ONE).digest: None}),
    "prune --untagged after one that was killed after its save": Case(
        ["prune", "--untagged", "copied"], None, NO_TAG, {key(ONE).digest: None}, killed=(*SAVE, 1)),
}


def fresh(folder, case):
    """Write the source of a command, and the layout that it changes."""
    shutil.rmtree(folder, ignore_errors=True)
    os.mkdir(folder)
    for place, layout in ("source", case.source), (case.place, case.old):
        if layout:
            write_layout("%s/%s" % (folder, place), *layout)
    for content in case.damaged:
        with open("%s/%s/%s" % (folder, case.place, blob(content)), "wb") as file:
            file.write(content.bytes[:20])


def calls_of(library, folder, case):
    """Run a command, and return its calls and its end. The calls of one that was killed are the first."""
    calls, ended = recorded(library, case.words, folder)
    if case.killed is None:
        return calls, ended
    *wanted, later = case.killed
    last = max(number for number, call in enumerate(calls) if [call.name, call.other or call.path] == wanted)
    fresh(folder, case)
    before, killed = recorded(library, case.words, folder, last + later)
    assert killed.status == -signal.SIGKILL, "a command was not killed: " + told(killed)
    calls, ended = recorded(library, case.words, folder)
    return [*before, *calls], ended


def wrong_record(folder, top, calls, ended):
    """Return the problem with a command or the record of its calls, or None. It is to succeed, and its calls are to leave its files."""
    disk = Disk(copy.deepcopy(top))
    for call in calls:
        disk.do(call)
    left = {path: data for path, data in files(folder).items() if isinstance(data, bytes)}
    if ended.status != 0:
        return told(ended)
    return None if disk.files() == left else "the calls that were recorded leave other files"


def examined(library, folder, name):
    """Return the name of each check of a command, and its problem."""
    case = CASES[name]
    fresh(folder, case)
    top = loaded(folder)
    promise = Promise(inner(Disk(top).files(), case.place), {it: key(content) for it, content in case.new.items()})
    calls, ended = calls_of(library, folder, case)
    wrong = wrong_record(folder, top, calls, ended)
    if wrong:
        return [(name, wrong)]
    search = Search(top, calls, promise, case.place)
    what = "%s (%d calls, %d threads, %d states)" % (name, len(calls), len({it.thread for it in calls}), len(search.seen))
    return [("a power cut leaves %s: %s" % (part, what), search.problem(part)) for part in PARTS]


def all_examined(room):
    """Yield the name of each check of each command, and its problem."""
    library = built(room)
    with multiprocessing.Pool() as pool:
        for found in pool.starmap(examined, [(library, "%s/%d" % (room, number), name) for number, name in enumerate(CASES)], 1):
            yield from found


def checks(room):
    for name in "logs", "examined":
        os.mkdir("%s/%s" % (room, name))
    yield from logs(room + "/logs")
    yield from all_examined(room + "/examined")
