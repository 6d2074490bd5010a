"""A folder on a disk, and the states in which a power cut may leave it after the calls of a program.

POSIX.1-2017 promises little of a machine that stops. `fsync` of a file puts its bytes onto the disk ("fsync", with the option Synchronized
Input and Output). After `rename` a name has the old file or the new one, and is never without one ("rename"). POSIX does not say when a
name is on the disk. On Linux that takes an `fsync` of its folder (fsync(2)). So of each change since then a power cut may leave the old
state or the new one:

- Of the bytes that were written to a file since its last `fsync` it leaves all, the first half or none, or the file of that time.
- Of the names that a folder got or lost since its last `fsync` it leaves the first changes, up to any one (`in_order`), or any of the
  changes (`in_any_order`). A change by `rename` is left as a whole.

Modes and owners are not looked at.
"""
import itertools
import os
import random
from collections import namedtuple

# A call that succeeded. `file` is the number of the open file, `number` the flags of an open, the place of a write or the length of a file,
# `other` the new path of a rename, and `data` the bytes of a write. Paths begin at the folder.
Call = namedtuple("Call", "thread name file number path other data", defaults=[1, "", -1, 0, "", "", b""])
# Files whose names end like this are still written, and no reader opens them.
DRAFT = ".new"
# The parts of the unsynced bytes that a power cut leaves, in hundredths. AS_IT_WAS means the file at its last sync.
AS_IT_WAS, *LEFT, ALL = None, 0, 50, 100
# All choices of up to FEW changes of names are tried, and of more these: none, all, each alone, all but each, and SOME at random.
FEW, SOME = 8, 100


class File:
    """A file: its bytes at the last sync, and the changes since: each is a place and the bytes that were written there, or a length and
    None."""

    def __init__(self, data=b""):
        self.synced, self.changes, self.known = data, [], {}

    def change(self, place, data):
        self.changes.append((place, data))
        self.known = {}

    def sync(self):
        self.__init__(self.left(ALL))

    def left(self, part):
        """Return the bytes that the file has if this part of the unsynced bytes is left."""
        if part is AS_IT_WAS:
            return self.synced
        if part not in self.known:
            count = sum(len(data) for _, data in self.changes if data is not None)
            self.known[part] = self.changed(count * part // ALL)
        return self.known[part]

    def changed(self, most):
        """Return the bytes after all changes of length, and after writes of this number of bytes."""
        now = bytearray(self.synced)
        for place, data in self.changes:
            if data is None:
                now = now[:place].ljust(place, b"\0")
            else:
                part, most = data[:most], most - len(data[:most])
                now[place : place + len(part)] = part
        return bytes(now)


class Folder:
    """A folder: its files and folders by name, at the last sync and now."""

    def __init__(self, names=()):
        self.synced, self.now = dict(names), dict(names)


def loaded(path):
    """Return a folder of the system, with all that is in it, as if all were synced."""
    names = {}
    for entry in os.scandir(path):
        if entry.is_dir():
            names[entry.name] = loaded(entry.path)
        else:
            with open(entry.path, "rb") as file:
                names[entry.name] = File(file.read())
    return Folder(names)


class Disk:
    """A folder, the files that a program has open, and the changes of names that are not synced, in order: each is a folder, and its new
    files and folders by name, with None for a name that is gone. `changes` is the number of changes and syncs."""

    def __init__(self, top):
        self.top, self.opened, self.unsynced, self.changes = top, {}, [], 0

    def do(self, call):
        """Let a call of the program happen."""
        getattr(self, "do_" + call.name)(call)

    def place(self, path):
        """Return the folder of a path, and the last name of the path."""
        folder, (*names, last) = self.top, path.split("/")
        for name in names:
            folder = folder.now[name]
        return folder, last

    def node(self, path):
        """Return the file or folder of a path, or None."""
        folder, name = self.place(path)
        return self.top if path == "." else folder.now.get(name)

    def rename(self, folder, names):
        """Change names of a folder, all at once: each has this file or folder now, or is gone."""
        folder.now = {name: node for name, node in {**folder.now, **names}.items() if node}
        read = {name: node for name, node in names.items() if not name.endswith(DRAFT)}
        if read:
            self.unsynced.append((folder, read))
            self.changes += 1

    def put(self, path, node):
        folder, name = self.place(path)
        self.rename(folder, {name: node})

    def change(self, node, place, data):
        node.change(place, data)
        self.changes += 1

    def sync(self, node):
        self.changes += 1
        if isinstance(node, File):
            node.sync()
        else:
            node.synced = node.now
            self.unsynced = [it for it in self.unsynced if it[0] is not node]

    def do_open(self, call):
        # (a file outside the folder counts as one without a name)
        node = File() if call.path.startswith("..") else self.node(call.path)
        if node is None:
            node = File()
            self.put(call.path, node)
        elif call.number & os.O_TRUNC:
            self.change(node, 0, None)
        self.opened[call.file] = node

    def do_write(self, call):
        # (the output of the program has no place in the folder)
        if call.file in self.opened:
            self.change(self.opened[call.file], call.number, call.data)

    def do_ftruncate(self, call):
        self.change(self.opened[call.file], call.number, None)

    def do_fsync(self, call):
        self.sync(self.opened[call.file])

    do_fdatasync = do_fsync

    def do_syncfs(self, call):
        for node in all_in(self.top):
            self.sync(node)

    def do_mkdir(self, call):
        self.put(call.path, Folder())

    def do_unlink(self, call):
        self.put(call.path, None)

    do_rmdir = do_unlink

    def do_rename(self, call):
        (folder, name), (other, new) = self.place(call.path), self.place(call.other)
        assert folder is other, "a rename into another folder"
        self.rename(folder, {name: None, new: folder.now[name]})

    def do_chmod(self, call):
        """Change nothing that is looked at."""

    do_fchmod = do_chmod

    def files(self):
        """Return the bytes of each file by its path, as the program reads them."""
        return {path: node.left(ALL) for path, node in walked(self.top, lambda folder: folder.now)}

    def left(self, order, seed):
        """Yield each state that a power cut may leave now: the changes of names that it undoes, the part of the unsynced bytes that it
        leaves, and the bytes of each file by its path."""
        for kept in order(self.unsynced, seed):
            undone = [it for it, is_kept in zip(self.unsynced, kept) if not is_kept]
            names = {}
            for folder, changed in itertools.compress(self.unsynced, kept):
                names.setdefault(folder, dict(folder.synced)).update(changed)
            nodes = walked(self.top, lambda folder: names.get(folder, folder.synced))
            nodes = {path: node for path, node in nodes if not path.endswith(DRAFT)}
            is_synced = not any(node.changes for node in nodes.values())
            for part in [ALL] if is_synced else [AS_IT_WAS, *LEFT, ALL]:
                yield undone, part, {path: node.left(part) for path, node in nodes.items()}


def all_in(node):
    """Return a file, or a folder and all that is in it."""
    inner = node.now.values() if isinstance(node, Folder) else []
    return [node, *(it for one in inner for it in all_in(one))]


def walked(folder, names_of, before=""):
    """Yield the path and the file of each file in a folder. `names_of` returns the names in a folder."""
    for name, node in names_of(folder).items():
        if isinstance(node, Folder):
            yield from walked(node, names_of, "%s%s/" % (before, name))
        elif node:
            yield before + name, node


def in_order(changes, seed):
    """Yield, for each choice that keeps the first changes of each folder, whether each change is kept."""
    counts = {}
    places = []
    for folder, _ in changes:
        places.append((folder, counts.get(folder, 0)))
        counts[folder] = counts.get(folder, 0) + 1
    for kept in itertools.product(*(range(count + 1) for count in counts.values())):
        most = dict(zip(counts, kept))
        yield [place < most[folder] for folder, place in places]


def in_any_order(changes, seed):
    """Yield, for all choices of a few changes or for some of many, whether each change is kept."""
    count, chance = len(changes), random.Random(seed)
    if count <= FEW:
        yield from itertools.product([False, True], repeat=count)
        return
    for it in False, True:
        yield [it] * count
        yield from ([(number == alone) == it for number in range(count)] for alone in range(count))
    yield from ([chance.random() < 0.5 for _ in range(count)] for _ in range(SOME))
