"""The promise that a command keeps of a layout when the power is cut, held against the files that are left.

An entry of `index.json` is known by its tag, or by its digest if it has none.
"""
import functools
import hashlib
import json

from support.pruning import MEMBERS, key_of, name_of, path

# The parts of the promise: `oci-layout` and `index.json` are there and can be read, unless there was no layout before; the entries that the
# command is not to change are as they were, with all blobs that they reach; so are the others, or they are new and have all of theirs; and
# once the command has ended with success, or has said so, they are the new ones.
PARTS = LAYOUT, OTHERS, WHOLE, DONE = "a layout", "old tags whole", "no tag without its blobs", "what is done"


@functools.lru_cache(None)
def document(data):
    """Return the object that some bytes hold as JSON, or None."""
    try:
        value = json.loads(data)
    except ValueError:
        return None
    return value if isinstance(value, dict) else None


@functools.lru_cache(None)
def entries(data):
    """Return the key of each entry of an index, by its tag or digest. Of two entries with one tag the last counts."""
    return {name_of(it) or it["digest"]: key_of(it) for it in document(data)["manifests"]}


@functools.lru_cache(None)
def is_whole(key, data):
    """Return whether bytes have the size and the digest of a key."""
    algorithm, digits = key.digest.split(":")
    return len(data) == key.size and hashlib.new(algorithm, data).hexdigest() == digits


@functools.lru_cache(None)
def listed(key, data):
    """Return the keys that a key lists, whose bytes these are."""
    members = [document(data).get(name) or [] for name in MEMBERS.get(key.media_type, [])]
    return [key_of(it) for one in members for it in (one if isinstance(one, list) else [one])]


def lacking(files, key):
    """Yield each key that a key reaches and whose blob is missing or damaged. What only such a manifest lists is not looked for."""
    found, more = {key}, [key]
    while more:
        one = more.pop()
        data = files.get(path(one))
        if data is None or not is_whole(one, data):
            yield one
        else:
            new = set(listed(one, data)) - found
            found |= new
            more += sorted(new)


class Promise:
    """The promise of a command that finds these files of a layout, if there are any, and then sets or removes entries: `new` has the key of
    each, or None."""

    def __init__(self, files, new):
        self.files, self.new = files, new
        self.old = entries(files["index.json"]) if files else {}

    def broken(self, files, is_done):
        """Yield the parts of the promise that these files break, each with the problem. The command is done, or is not."""
        wrong = self.wrong_layout(files, is_done)
        if wrong:
            yield DONE if is_done else LAYOUT, wrong
            if self.old.keys() - self.new.keys():
                yield OTHERS, wrong
            return
        there = entries(files["index.json"]) if "index.json" in files else {}
        for name in {**self.old, **self.new, **there}:
            key, is_new = there.get(name), name in self.new
            wrong = self.wrong_key(name, key, is_done and is_new) or self.wrong_blob(files, name, key, is_done and is_new)
            if wrong:
                yield (DONE if is_done else WHOLE) if is_new else OTHERS, "%s: %s" % (name, wrong)

    def wrong_layout(self, files, is_done):
        """Return the problem with the two files at the top, or None. If there was no layout before, `index.json` or both may be missing."""
        for name in "oci-layout", "index.json":
            if name in files and not document(files[name]):
                return "%s has %d bytes, and is no document" % (name, len(files[name]))
        gone = [name for name in ("oci-layout", "index.json") if name not in files]
        # (a copy into a folder that has an index and no `oci-layout` is refused)
        if gone and (self.files or is_done or gone == ["oci-layout"]):
            return "there is no %s" % " and no ".join(gone)

    def wrong_key(self, name, key, is_wanted):
        """Return the problem with the key of an entry, or None. If it is wanted it is the new one, and otherwise it may also be the old
        one."""
        allowed = [] if is_wanted else [self.old.get(name)]
        if name in self.new:
            allowed.append(self.new[name])
        elif name not in self.old:
            allowed.append(key)
        if key not in allowed:
            return "it is gone" if not key else "it has another digest" if any(allowed) else "it is still there"

    def wrong_blob(self, files, name, key, is_wanted):
        """Return the problem with a blob that an entry reaches, or None. If the entry is not wanted and was there before, then blobs that
        were missing or damaged may still be so."""
        for one in lacking(files, key) if key else []:
            place = path(one)
            if is_wanted or self.old.get(name) != key or files.get(place) != self.files.get(place):
                return "%s is missing" % place if place not in files else "%s has %d bytes, or others" % (place, len(files[place]))
