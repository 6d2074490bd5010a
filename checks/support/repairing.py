"""The blobs that a repair of a layout writes, and the lines that it prints, worked out from the files by the rules of `ocicp repair --help`."""
import json
import os
import re

from support.files import read
from support.layouts import DOCKER_IMAGE, IMAGE
from support.pruning import FOREIGN, MEMBERS, has_digest, is_readable, key_of, meant_key, path, text, value_of

# The kinds of manifests that have to have a config, and the members that are lists.
WITH_CONFIG, LISTS = [IMAGE, DOCKER_IMAGE], ["layers", "manifests", "blobs"]
# A file that is still written beside the place of a blob.
BESIDE = re.compile(r"blobs/(sha256/[0-9a-f]{64}|sha512/[0-9a-f]{128})\.[0-9a-f]{16}\.new")


def is_match(key, content):
    """Return whether bytes have the size and the digest of a key."""
    return len(content) == key.size and has_digest(content, key.digest)


def found_in(folder, key):
    """Return the bytes of a key's file in a folder if they match the key, and can be read as such a manifest if it is one, or None."""
    file = "%s/%s" % (folder, path(key))
    content = read(file) if os.path.isfile(file) else b""
    is_whole = os.path.isfile(file) and is_match(key, content) and listed(key.media_type, content) is not None
    return content if is_whole else None


def is_blocked(folder, key):
    """Return whether a folder with contents is in the place of a key's file."""
    place = "%s/%s" % (folder, path(key))
    return os.path.isdir(place) and bool(os.listdir(place))


def listed(media_type, content):
    """Return the keys that the bytes of a manifest list and that are distributed, in their order, or None if they are no manifest. A blob of
    another media type lists none."""
    if media_type not in MEMBERS:
        return []
    value, found = value_of(content), []
    if type(value) is not dict or media_type in WITH_CONFIG and value.get("config") is None:
        return None
    for name in MEMBERS[media_type]:
        member = value.get(name)
        if name in LISTS and member is not None and type(member) is not list:
            return None
        found += [] if member is None else member if name in LISTS else [member]
    if not all(map(is_readable, found)):
        return None
    return [it for it in map(key_of, found) if not FOREIGN.fullmatch(it.media_type)]


class Repair:
    """A repair of a layout from sources, which are asked in this order. Each is a folder; an archive has the files of one."""

    def __init__(self, folder, sources):
        self.folder, self.sources = folder, sources
        entries = json.loads(read(folder + "/index.json"))["manifests"]
        # The bytes of each file that is written, by its path, and the number of the source of each.
        self.written, self.origins = {}, {}
        self.held, self.repaired, self.missing = set(), set(), set()
        # The repaired blobs that are known only from repaired manifests.
        self.below = set()
        # The keys that the entries mean, by the files that the layout has before the repair.
        self.roots = {meant_key(folder, key_of(it)) for it in entries if is_readable(it)}
        self.visit(self.roots)
        unreadable = [place for place, it in enumerate(entries) if not is_readable(it)]
        self.err = "".join("ocicp: 73 BadIndex 14 BadDescriptor manifests %d\n" % it for it in unreadable)
        self.lines = [
            *("repaired " + text(it) for it in sorted(self.repaired)),
            *("missing " + text(it) for it in sorted(self.missing)),
            "held %d repaired %d bytes %d missing %d" % (
                len(self.held), len(self.repaired), sum(map(len, self.written.values())), len(self.missing)),
        ]
        self.out = "".join(it + "\n" for it in self.lines)
        self.status = 1 if self.missing or unreadable else 0

    def visit(self, more):
        """Bring each of these keys, and then all that the manifests among them list, here or in a source."""
        found, known = set(), set(more)
        while more:
            found |= more
            lists = {it: set(listed(it.media_type, content)) for it in more if (content := self.bring(it)) is not None}
            known = known.union(*(keys for it, keys in lists.items() if it in self.held - self.repaired))
            more = set().union(*lists.values()) - found
        self.below = self.repaired - known

    def bring(self, key):
        """Return the bytes of a key from the layout or else the first source that has them, or None. Note what becomes of the key."""
        content = found_in(self.folder, key)
        if content is not None:
            self.held.add(key)
            return content
        content, origin = self.fetched(key)
        if content is None or is_blocked(self.folder, key):
            self.missing.add(key)
            return content
        self.held.add(key)
        self.repaired.add(key)
        self.written[path(key)], self.origins[path(key)] = content, origin
        return content

    def fetched(self, key):
        """Return the bytes of a key from the first source that has them, with the number of that source, or None twice."""
        found = ((found_in(source, key), number) for number, source in enumerate(self.sources))
        return next((it for it in found if it[0] is not None), (None, None))
