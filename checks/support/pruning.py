"""The contents that a prune of a layout keeps, removes and prints, worked out from its files by the rules of `ocicp prune --help`; and the keys
that the entries of `index.json` mean."""
import hashlib
import json
import os
import re
import stat
from collections import namedtuple

from support.files import read
from support.layouts import ARTIFACT, DOCKER_IMAGE, DOCKER_LIST, IMAGE, INDEX, NAME

# The members of each kind of manifest that list contents.
MEMBERS = {
    IMAGE: ["subject", "config", "layers"],
    INDEX: ["subject", "manifests"],
    DOCKER_IMAGE: ["config", "layers"],
    DOCKER_LIST: ["manifests"],
    ARTIFACT: ["subject", "blobs"],
}
# The type that says nothing of a content. Some tools write it into the entry of a manifest that they tag.
OCTETS = "application/octet-stream"
# A larger file is not read for what an entry means.
MOST_READ = 4 << 20
# Layers of these types are not distributed: no copy brings them.
FOREIGN = re.compile(
    r"application/vnd\.oci\.image\.layer\.nondistributable\.v1\.tar(\+gzip|\+zstd)?"
    r"|application/vnd\.docker\.image\.rootfs\.foreign\.diff\.tar\.gzip"
)
DIGEST = re.compile(r"sha256:[0-9a-f]{64}|sha512:[0-9a-f]{128}")
# Names of blobs, and of drafts.
BLOB = re.compile(r"blobs/(sha256/[0-9a-f]{64}|sha512/[0-9a-f]{128})")
DRAFT = re.compile(r"(%s|index\.json|oci-layout)\.[0-9a-f]{16}\.new" % BLOB.pattern)
LINKS = ["blobs", "blobs/sha256", "blobs/sha512"]
BLOB_NAME = re.compile(r"[0-9a-f]{64}|[0-9a-f]{128}")

# Keys are in this order.
Key = namedtuple("Key", "media_type digest size")


def text(key):
    """Return a key as the program prints it."""
    return "%s %d %s" % (key.digest, key.size, key.media_type)


def path(key):
    return "blobs/" + key.digest.replace(":", "/")


def key_of(value):
    return Key(value["mediaType"], value["digest"], value["size"])


def is_readable(value):
    """Return whether a value of `index.json` is a descriptor."""
    kinds = {"mediaType": str, "digest": str, "size": int}
    if type(value) is not dict or any(type(value.get(name)) is not kind for name, kind in kinds.items()):
        return False
    return bool(DIGEST.fullmatch(value["digest"])) and 0 <= value["size"] < 1 << 63


def name_of(value):
    """Return the name of an entry of `index.json`, or None. The empty text is none."""
    annotations = value.get("annotations") if type(value) is dict else None
    name = annotations.get(NAME) if type(annotations) is dict else None
    return name if type(name) is str and name else None


def has_digest(content, digest):
    algorithm, digits = digest.split(":")
    return hashlib.new(algorithm, content).hexdigest() == digits


def value_of(content):
    """Return the value of a JSON text, or None."""
    try:
        return json.loads(content)
    except ValueError:
        return None


def plain_type(media_type):
    """Return a media type without its parameters, if it is then that of a manifest."""
    plain = media_type.split(";")[0]
    return plain if plain in MEMBERS else media_type


def is_list(value):
    return value is None or type(value) is list and all(map(is_readable, value))


def shape_of(members):
    """Return the media type of a manifest that a JSON object looks like, and whether it can be read as that."""
    is_referrer = members.get("subject") is None or is_readable(members["subject"])
    if type(members.get("manifests")) is list:
        return INDEX, is_referrer and is_list(members["manifests"])
    if {"config", "layers"} <= members.keys():
        return IMAGE, is_referrer and is_readable(members["config"]) and is_list(members["layers"])
    return None, False


def meant_type(media_type, content):
    """Return the media type that an entry with this one means, if its file has these bytes, which match its digest."""
    if media_type != OCTETS and (media_type in MEMBERS or plain_type(media_type) not in MEMBERS):
        return media_type
    value = value_of(content)
    members = value if type(value) is dict else {}
    stated = members.get("mediaType")
    if type(stated) is str and plain_type(stated) in MEMBERS:
        return plain_type(stated)
    shape, is_read = shape_of(members)
    return shape if is_read else plain_type(media_type)


def meant_key(folder, key):
    """Return the key that an entry of `index.json` with this key means: what the file of its digest is, if that is small and whole. Octets
    that are not whole may be a manifest."""
    file = "%s/%s" % (folder, path(key))
    if not os.path.isfile(file) or os.path.getsize(file) > MOST_READ:
        return key._replace(media_type=plain_type(key.media_type))
    content = read(file)
    if not has_digest(content, key.digest):
        is_odd = key.media_type == OCTETS
        return key._replace(media_type=INDEX if is_odd else plain_type(key.media_type))
    return Key(meant_type(key.media_type, content), key.digest, len(content))


class Held:
    """The keys that a layout holds, and the references between them."""

    def __init__(self, folder):
        self.folder = folder
        entries = json.loads(read(folder + "/index.json"))["manifests"]
        self.has_entries = bool(entries)
        self.unreadable = [place for place, it in enumerate(entries) if not is_readable(it)]
        # The keys of the entries that mean another one, each with that one.
        self.odd = [(key_of(it), self.meant(it)) for it in entries if is_readable(it) and self.meant(it) != key_of(it)]
        self.entries = [self.meant(it) for it in entries if is_readable(it)]
        self.absent = [it for it in self.entries if not self.has(it)]
        self.keys = set(self.entries) - set(self.absent)
        while more := {it for key in self.keys for it in self.listed(key) if self.has(it)} - self.keys:
            self.keys |= more
        # (of two entries with one name the last counts, held or not)
        last = {name_of(it): is_readable(it) and self.meant(it) for it in entries}
        self.tags = {name: key for name, key in last.items() if name and key in self.keys}
        # The name and the key of each entry, and the keys of the entries of each name.
        self.listing = [(name_of(it), self.meant(it)) for it in entries if is_readable(it)]
        self.by_name = {name: [key for other, key in self.listing if other == name] for name, _ in self.listing if name}
        # The keys of the entries with a name, also of those that a tag hides.
        self.named_keys = {self.meant(it) for it in entries if name_of(it) and is_readable(it)} & self.keys

    def meant(self, value):
        """Return the key that an entry of `index.json` means, by the files that the layout has now."""
        return meant_key(self.folder, key_of(value))

    def has(self, key):
        """Return whether there is a file of a key, which for a layer or a config has the right size."""
        file = "%s/%s" % (self.folder, path(key))
        return os.path.isfile(file) and (key.media_type in MEMBERS or os.path.getsize(file) == key.size)

    def member(self, key, name):
        """Return the keys of a member of a manifest."""
        value = json.loads(read("%s/%s" % (self.folder, path(key)))).get(name) or []
        return [key_of(it) for it in (value if isinstance(value, list) else [value])]

    def all_listed(self, key):
        """Return the keys that a key lists, also those that are not distributed."""
        return [it for name in MEMBERS.get(key.media_type, []) for it in self.member(key, name)]

    def listed(self, key):
        """Return the keys that a key lists and that are distributed."""
        return [it for it in self.all_listed(key) if not FOREIGN.fullmatch(it.media_type)]

    def subject(self, key):
        return self.member(key, "subject") if "subject" in MEMBERS.get(key.media_type, []) else []

    def members(self, given, attached):
        """Return the least set of held keys with the given ones, all keys that its keys list, and all keys that `attached` finds for it."""
        found, more = set(), set(given)
        while more:
            found |= more
            more = {it for key in found for it in self.listed(key)} | attached(found)
            more = (more & self.keys) - found
        return found

    def referrers(self, keys):
        """Return the keys whose subject has the digest of one of these keys."""
        digests = {it.digest for it in keys}
        return {it for it in self.keys if any(subject.digest in digests for subject in self.subject(it))}

    def named(self):
        """Return the names of the entries whose keys are held, with these keys, also of those that a tag hides."""
        return [(name, key) for name, key in self.listing if name and key in self.keys]

    def is_free(self, name, key):
        """Return whether a name is made of the digest of no manifest that is held, or of that of its own key."""
        return name.split(".")[0] in texts_of(key) or not self.follow(self.keys, {name: key})

    def needed(self):
        """Return the keys that the free entries with a tag need: what they list, what is attached by `subject` or by a name, and so on."""
        free = {key for name, key in self.named() if self.is_free(name, key)}
        return self.members(free, lambda keys: self.referrers(keys).union(*(self.follow(keys, {name: key}) for name, key in self.named())))

    def orphans(self, kept):
        """Return the tags that go if these keys are kept: each is made of the digest of another manifest, and of none that is kept."""
        return {name: key for name, key in self.tags.items() if not self.is_free(name, key) and not self.follow(kept, {name: key})}

    def free(self):
        """Return the keys whose digest no named key has, that no key lists but as its subject, and that have no subject which is held."""
        digests, named = {it.digest for it in self.keys}, {it.digest for it in self.named_keys}
        bound = {it for it in self.keys if it.digest in named}
        for key in self.keys:
            subjects = {it.digest for it in self.subject(key)}
            bound |= {it for it in self.listed(key) if it.digest not in subjects}
            bound |= {key} if subjects & digests else set()
        return self.keys - bound


    def follow(self, keys, tags):
        """Return the keys of those of these tags whose names, up to the first dot, are made of the digest of a manifest of these keys."""
        made = set().union(*(texts_of(it) for it in keys if it.media_type in MEMBERS))
        return {key for name, key in tags.items() if name.split(".")[0] in made}

    def is_known(self):
        """Return whether each entry is a descriptor and there, and each manifest that a key lists is there."""
        listed = set().union(*map(self.listed, self.keys))
        return not self.unreadable and not self.absent and {it for it in listed if it.media_type in MEMBERS} <= self.keys

    def left_without(self, tag):
        """Return the keys that are left when a tag is removed with what belonged to it alone: those that belong to other tags, to entries
        that these hide, to free keys, or to keys that did not belong to the tag. A tag that follows another manifest counts for nothing."""
        if not self.is_known() or tag not in self.tags:
            return self.keys
        tags = {name: key for name, key in self.tags.items() if name != tag}
        manifests = {it for it in self.keys if it.media_type in MEMBERS}
        own = {key for name, key in tags.items() if name.split(".")[0] in texts_of(key) or key not in self.follow(manifests, {name: key})}
        hidden = {key for name, keys in self.by_name.items() if name != tag for key in keys[:-1]}

        def attached(keys):
            return self.referrers(keys) | self.follow(keys, tags)

        gone = self.members(set(self.by_name[tag]), attached)
        return self.members(own | hidden | self.free() | (self.keys - gone), attached)

    def belonged(self, tag):
        """Return the keys of the other entries that go with a tag, in the order of the index."""
        gone = self.keys - self.left_without(tag)
        return [key for name, key in self.listing if name != tag and key in gone]


def texts_of(key):
    """Return the texts that name the digest of a key in a tag."""
    whole = key.digest.replace(":", "-")
    return {whole, whole[: len("sha512-") + 64]}


def is_linked(folder, path):
    """Return whether a folder of blobs is a link, or has a blob that is a link to a file with the name of another blob."""
    place = "%s/%s" % (folder, path)
    if os.path.islink(place) or not os.path.isdir(place):
        return os.path.islink(place)
    links = [it for it in os.listdir(place) if BLOB.fullmatch("%s/%s" % (path, it)) and os.path.islink("%s/%s" % (place, it))]
    targets = {it: os.path.basename(os.readlink("%s/%s" % (place, it))) for it in links}
    return any(target != it and BLOB_NAME.fullmatch(target) for it, target in targets.items())


class Prune:
    """A prune of a layout, with `--untagged` or without. Drafts at these paths are still written."""

    def __init__(self, folder, untagged=False, written=()):
        held = Held(folder)
        self.held, self.kept = held, held.needed() if untagged else held.keys
        self.removed = sorted(held.keys - self.kept)
        # The tags that go, and those that stay.
        self.orphans = held.orphans(self.kept) if untagged else {}
        self.tags = {name: key for name, key in held.tags.items() if name not in self.orphans}
        # The keys without a tag that are counted.
        self.free = set() if untagged else held.free()
        # (a kept image needs what is left of a layer of another size, and layers that no copy brings)
        needed = {path(it) for key in self.kept for it in [key, *held.all_listed(key)]}
        had = set(map(path, held.keys))
        lengths = {it: os.lstat("%s/%s" % (folder, it)).st_size for it in files_of(folder)}
        blobs = [it for it in lengths if BLOB.fullmatch(it) and it not in needed]
        # (a link is no draft)
        drafts = [it for it in lengths if DRAFT.fullmatch(it) and it not in written and not os.path.islink("%s/%s" % (folder, it))]
        self.gone = sorted(blobs + drafts)
        # These go before the index is saved.
        self.first = [it for it in self.gone if it not in had]
        self.lines = [
            *("untagged %s %s" % (name, text(key)) for name, key in sorted(self.orphans.items())),
            *("removed " + text(it) for it in self.removed),
            *("removed-file %s %d" % (it, lengths[it]) for it in self.first),
            last_line(len(self.kept), len(self.removed), [lengths[it] for it in self.gone], len(self.free)),
        ]
        # What is printed if the index cannot be saved, and by `prune --leftovers`: no key goes.
        self.unsaved, self.leftovers = (
            "".join("removed-file %s %d\n" % (it, lengths[it]) for it in gone) + last_line(len(held.keys), 0, [lengths[it] for it in gone]) + "\n"
            for gone in (self.first, sorted(drafts))
        )
        self.drafts = sorted(drafts)
        self.refusals = [
            *(["109 NoIndex"] if not (untagged or held.has_entries) and any(map(BLOB.fullmatch, lengths)) else []),
            *("96 Unknown " + text(it) for it in held.absent),
            *("73 BadIndex 14 BadDescriptor manifests %d" % it for it in held.unreadable[:1]),
            *("96 Unknown " + text(it) for it in self.lacking()),
            *["98 LinkedBlobs " + it for it in LINKS if is_linked(folder, it)][:1],
            *(["97 NoTags"] if untagged and not self.tags else []),
        ]
        self.out = "".join(it + "\n" for it in self.lines)

    def lacking(self):
        """Return the manifests that a kept key lists and that are not held. Nobody knows which keys they list."""
        listed = {it for key in self.kept for it in self.held.listed(key)}
        return {it for it in listed - self.held.keys if it.media_type in MEMBERS}


def last_line(kept, removed, lengths, free=0):
    """Return the line of the counts. The keys without a tag that stay are only counted if there is one."""
    line = "kept %d removed %d files %d bytes %d" % (kept, removed, len(lengths), sum(lengths))
    return line + (" untagged %d (see --untagged)" % free if free else "")


def notes(attached, untagged=0, passed=0):
    """Return the lines of a copy on its error output, if it leaves so much in SRC that is attached, so many images without a tag, and so many
    layers that are not to be distributed."""
    lines = []
    if attached:
        many = "1 manifest that is attached to it stays" if attached == 1 else "%d manifests that are attached to it stay" % attached
        lines.append("ocicp: note: %s in SRC (--referrers brings %s)\n" % (many, "it" if attached == 1 else "them"))
    if untagged:
        many = "1 image without a tag stays" if untagged == 1 else "%d images without a tag stay" % untagged
        lines.append("ocicp: note: %s in SRC (copy --all --untagged brings %s)\n" % (many, "it" if untagged == 1 else "them"))
    if passed:
        many = "1 layer that is not to be distributed was" if passed == 1 else "%d layers that are not to be distributed were" % passed
        lines.append("ocicp: note: %s not copied\n" % many)
    return "".join(lines)


def files_of(folder):
    """Yield the paths of the files and links in the folders that a prune looks through."""
    for place in "", "blobs/sha256/", "blobs/sha512/":
        at = "%s/%s" % (folder, place)
        for name in os.listdir(at) if os.path.isdir(at) else []:
            mode = os.lstat(at + name).st_mode
            if stat.S_ISREG(mode) or stat.S_ISLNK(mode):
                yield place + name
