"""`copy --referrers` of layouts made by hand and at random, also into mirrors and of some types, against what belongs to the image by the rules
of docs/howto.md, worked out from the files. Mirrors of some tags likewise, also without `--referrers`; copies of all tags, also with
`--untagged`; and what each of them says that it leaves in SRC."""
import json
import os
import random
import shutil

from support.dry_runs import wrong_dry_run
from support.files import read
from support.indexes import add_odd, entry, named
from support.layouts import BAR, E, FOO, I1, M2, M3, S, Content, digits, image, index, write_layout
from support.program import first, run, told
from support.pruning import FOREIGN, MEMBERS, Held, files_of, key_of, name_of, notes, path, text, texts_of

OCTETS = "application/octet-stream"
SBOM, SIGNATURE = "application/spdx+json", "application/vnd.example.signature"
# Each of these is given with `--artifact-type`.
TYPES = [SBOM], [SIGNATURE, E.media_type], [SBOM[:-1], SBOM + "+"]
# The number of random layouts.
LAYOUTS = 40
# Names of tags that are made of no digest. The pattern `v*` matches some of them.
NAMES = ["v1", "v2", "v3", "edge", "edge", "stable", "stable"]


def tag_of(content, suffix="", most=128):
    """Return the tag that is made of the digest of a content, with at most this number of its digits."""
    return "%s-%s%s" % (content.algorithm, digits(content)[:most], suffix)


OTHER = image([BAR], number=1)
OF_S, OF_OCTETS = image([BAR], subject=S), image([BAR], subject=M2._replace(media_type=OCTETS))
OF_BOTH, OF_OTHER = index([OTHER], subject=I1), image([], subject=OTHER)
LONG = M2._replace(algorithm="sha512")
FAR = Content("application/vnd.oci.image.layer.nondistributable.v1.tar", b"far")
FAR_IMAGE = image([FAR, FOO, FAR._replace(media_type=FAR.media_type + "+gzip"), FAR])
NEAR = image([BAR._replace(media_type="application/vnd.docker.image.rootfs.foreign.diff.tar.gzip")])
PAIR = index([FAR_IMAGE, M2])
ALL = [E, FOO, BAR, M2, M3, I1]
# The contents of a layout, its tags, and the other entries of its index.
CASES = {
    "a signature of an index's image": ([*ALL, S], {"both": I1}, [S]),
    "a signature of a signature of an index's image": ([*ALL, S, OF_S], {"both": I1}, [OF_S]),
    "a subject with another media type": ([E, FOO, BAR, M2, OF_OCTETS], {"new": M2}, [OF_OCTETS]),
    "a subject with another media type, of an index's image": ([*ALL, OF_OCTETS], {"both": I1}, [OF_OCTETS]),
    "an index with a subject, and what is attached to its image": ([*ALL, OTHER, OF_BOTH, OF_OTHER], {"both": I1}, [OF_BOTH, OF_OTHER]),
    "tags by digest": ([*ALL, OTHER, S], {"both": I1, tag_of(I1): OTHER, tag_of(M3, ".sig"): M2, tag_of(M2, ".att"): S}, []),
    "a tag by the digest of what such a tag brings": ([*ALL, OTHER, S], {"b": M3, tag_of(M3, ".sig"): OTHER, tag_of(OTHER, ".sig"): S}, []),
    "two tags by the digests of each other's image": ([E, FOO, BAR, M2, M3], {"a": M2, tag_of(M2): M3, tag_of(M3): M2}, []),
    "tags that are made of no digest of an image": (
        [*ALL, S], {"b": M3, tag_of(FOO, ".sig"): M2, tag_of(M3)[:-1]: S, tag_of(M3) + "0": S, tag_of(M3).upper(): S, "x" + tag_of(M3): S}, []),
    "a tag by half of a sha512 digest": ([E, FOO, LONG, M3, BAR], {"long": LONG, tag_of(LONG, ".sig", 64): M3}, []),
    "a tag by a whole sha512 digest": ([E, FOO, LONG, M3, BAR], {"long": LONG, tag_of(LONG, ".sig"): M3}, []),
    "layers that are not to be distributed": ([E, FOO, FAR, FAR_IMAGE, M2, PAIR], {"far": FAR_IMAGE, "pair": PAIR}, []),
    "a layer that is not to be distributed, and comes with another image": ([E, FOO, BAR, M3, NEAR], {"b": M3, "near": NEAR}, []),
    "a tag by a part of a sha512 digest": ([E, FOO, LONG, M3, BAR], {"long": LONG, tag_of(LONG, ".sig", 63): M3, tag_of(LONG, "", 65): M3}, []),
}


def random_layout(chance):
    """Return the contents of a random layout, its tags, and the other entries of its index."""
    contents, manifests = [E, FOO, BAR], []
    for number in range(chance.randrange(3, 12)):
        subject = chance.choice([None, *manifests, *contents[1:]])
        if subject and chance.random() < 0.3:
            subject = subject._replace(media_type=OCTETS)
        if manifests and chance.random() < 0.4:
            made = index(chance.sample(manifests, chance.randrange(1, min(len(manifests), 3) + 1)), subject)
        else:
            made = image(chance.sample([FOO, BAR], chance.randrange(3)), subject, number, chance.choice([None, SBOM, SIGNATURE]))
        manifests += [] if made in manifests else [made]
    tags = {"t%d" % number: chance.choice(manifests) for number in range(3)}
    for _ in range(chance.randrange(4)):
        tags[tag_of(chance.choice(manifests), chance.choice(["", ".sig", ".a.b"]))] = chance.choice(manifests)
    return contents + manifests, tags, manifests


def random_entries(chance, manifests, names, repeats):
    """Return random entries of an index: the content of each, and its name or None. Some have one of these names. Only if `repeats` do several
    have the same one of these."""
    found = []
    for number in range(chance.randrange(2, 11)):
        content = chance.choice([FOO, *[image([BAR], number=number + 20)] * 3, *manifests])
        name = chance.choice([*NAMES, *names, *names, *[None] * 4])
        if repeats or name not in names or name not in [it[1] for it in found]:
            found.append((content, name))
    return found


def reached_of(contents, given):
    """Return the given ones of these contents, and those whose digests are in the bytes of one that is returned."""
    found, more = [], set(given)
    while more:
        found += more
        more = {it for it in contents if it not in found and any(digits(it).encode() in other.bytes for other in found)}
    return found


def write_entries(folder, contents, entries, strays=()):
    """Write a layout with these entries, the files of what they reach of these contents, and of strays. Each entry says more than its name."""
    shutil.rmtree(folder, ignore_errors=True)
    write_layout(folder, [*reached_of(contents, [it[0] for it in entries]), *strays], {})
    values = [named(it, name, {"k": "v"}, number=place) if name else entry(it, number=place) for place, (it, name) in enumerate(entries)]
    with open(folder + "/index.json", "w") as file:
        json.dump({"schemaVersion": 2, "manifests": values}, file)


def is_matching(name):
    """Return whether the pattern `v*` matches a name."""
    return name.startswith("v")


def stem(name):
    return name.split(".")[0]


def stems(keys):
    """Return what tags that are made of the digest of a manifest among these keys have before their first `.`."""
    return {it for key in keys if key.media_type in MEMBERS for it in texts_of(key)}


def tags_by(tags, keys):
    """Return those of these tags that are made of the digest of a manifest among these keys."""
    found = stems(keys)
    return {name: key for name, key in tags.items() if stem(name) in found}


class Source(Held):
    """A layout that is copied from."""

    def climbed(self, key, depth):
        """Return the held keys from which a path of at most this number of steps leads to a key; 0 means any number."""
        found, level, steps = {key}, {key}, 0
        while level and (depth == 0 or steps < depth):
            level = {it for it in self.keys if level & set(self.listed(it))} - found
            found, steps = found | level, steps + 1
        return found

    def named(self, keys):
        return tags_by(self.tags, keys)

    def attached(self, keys):
        return self.referrers(keys) | set(self.named(keys).values())

    def belonging(self, keys):
        return self.members(keys, self.attached)

    def left(self, roots, held):
        """Return what is attached to what these keys reach, directly or not, but for what is held in DST."""
        members = self.belonging(roots)
        return (self.attached(members) & members) - held

    def passed(self, members):
        """Return the layers that a copy of these keys passes over, since they are not to be distributed. None has a file that comes."""
        digests = {it.digest for it in members}
        listed = {it for key in members for it in self.all_listed(key)}
        return {it for it in listed if FOREIGN.fullmatch(it.media_type) and it.digest not in digests}

    def said(self, names):
        """Return the entries of each of these names."""
        entries = json.loads(read(self.folder + "/index.json"))["manifests"]
        return {name: [it for it in entries if name_of(it) == name] for name in names}

    def brought(self, names):
        """Return the entries of each of these names as a copy writes them into DST: with the media type and the size of the meant key."""
        return {name: [{**it, **self.of_key(it)} for it in entries] for name, entries in self.said(names).items()}

    def of_key(self, value):
        key = self.meant(value)
        return {"mediaType": key.media_type, "size": key.size}

    def keys_of(self, names):
        """Return the keys that the entries of these names mean."""
        return {self.meant(it) for entries in self.said(names).values() for it in entries}

    def type_of(self, key):
        """Return the type of a manifest: its `artifactType`, or else the media type of its config."""
        value = json.loads(read("%s/%s" % (self.folder, path(key))))
        return value.get("artifactType") or value.get("config", {}).get("mediaType")

    def of_types(self, subjects, types):
        """Return the referrers of these keys that are of one of these types."""
        return {it for it in self.referrers(subjects) if self.type_of(it) in types}

    def typed(self, keys, types):
        """Return what belongs to keys, if of what is attached to what they reach only these types come."""
        reached = self.members(keys, lambda found: set())
        digests = {it.digest for it in reached}
        return self.members(keys, lambda found: self.of_types(reached, types) | self.referrers({it for it in found if it.digest not in digests}))


def wrong_copy(room, words, source, tag, members, tags):
    """Return the problem with a copy of a tag that is to bring these members and these tags, or None."""
    shutil.rmtree(room + "/new", ignore_errors=True)
    ended = run(["copy", *words, "source", tag, "new"], room)
    copied = ["copied %s\n" % text(source.tags[it]) for it in [tag, *sorted(set(tags) - {tag})]]
    out = "".join(copied) + "planned %d pushed %d skipped 0\n" % (len(members), len(members))
    left = set() if words else source.left({source.tags[tag]}, members)
    if ended[:3] != (0, out, notes(len(left), 0, len(source.passed(members)))):
        return "%s: %s" % (" ".join(words), told(ended))
    new = Held(room + "/new")
    return first([
        None if new.keys == members else "%s: it brings %s, not %s" % (words, sorted(map(text, new.keys)), sorted(map(text, members))),
        None if new.tags == tags else "%s: the tags are %s" % (words, new.tags),
    ])


def wrong_all(room, source):
    """Return the problem with copies of all tags of a source, some with its images without a tag, or None."""
    for flags in [], ["--untagged"], ["--referrers"], ["--referrers", "--untagged"]:
        roots = source.named_keys | (source.free() if "--untagged" in flags else set())
        members = source.members(roots, lambda keys: set())
        if "--referrers" in flags:
            members = source.belonging({above for key in roots for above in source.climbed(key, 0)})
        attached = set() if "--referrers" in flags else source.left(roots, members)
        untagged, passed = source.free() - members, source.passed(members)
        for form in [], ["--json"]:
            shutil.rmtree(room + "/new", ignore_errors=True)
            ended = run(["copy", "--all", *form, *flags, "source", "new"], room)
            if ended.status != 0 or ended.err != ("" if form else notes(len(attached), len(untagged), len(passed))):
                return "%s: %s" % (flags, told(ended))
            new = Held(room + "/new")
            # (an image that is only known as a subject of octets has an entry of octets in DST, which means the image there)
            is_right = {it for it in files_of(room + "/new") if it.startswith("blobs/")} == set(map(path, members)) and (new.odd or new.keys == members)
            if not is_right:
                return "%s: it brings %s, not %s" % (flags, sorted(map(text, new.keys)), sorted(map(text, members)))
        value = json.loads(ended.out)
        wanted = {"attachedLeft": attached, "untaggedLeft": untagged, "notDistributed": passed}
        left = {name: {key_of(it) for it in value.get(name, [])} for name in wanted}
        if left != wanted or any(value.get(it) == [] for it in wanted) or [key_of(it) for it in value.get("notDistributed", [])] != sorted(passed):
            return "%s: %s" % (flags, ended.out)


def wrong_tree(room, source, tag):
    """Return the problem with the tree of a tag, which is to show all that is attached to what belongs to it, or None."""
    ended = run(["tree", "--json", "--referrers", "source", tag], room)
    if ended.status != 0:
        return told(ended)
    tree = json.loads(ended.out)
    shown = {node["descriptor"]["digest"] for node in tree["blobs"] + tree["referrers"]}
    members = source.belonging(source.climbed(source.tags[tag], 0))
    lost = {it.digest for it in source.attached(members)} - shown
    more = {node["descriptor"]["digest"] for node in tree["blobs"] + tree["referrers"] if not node["absent"] and node.get("distributed", True)}
    more -= {it.digest for it in members}
    return "the tree lacks %s, and has %s" % (sorted(lost), sorted(more)) if lost or more else None


def wrong_types(room, source, tag):
    """Return the problem with the copies of a tag that bring referrers of some types, and with the lists of these, or None."""
    key = source.tags[tag]
    for types in TYPES:
        words = [word for it in types for word in ("--artifact-type", it)]
        problem = wrong_copy(room, ["--referrers", *words], source, tag, source.typed([key], types), {tag: key})
        listed = sorted(it for it in source.of_types([key], types) if key in source.listed(it))
        ended = run(["predecessors", *words, "source", tag], room)
        if problem or ended[:3] != (0, "".join(text(it) + "\n" for it in listed), ""):
            return problem or "predecessors of %s: %s" % (types, told(ended))


def wrong_layout(room, layout, chance=None):
    """Return the problem with the copies of each tag of a layout, or None. With `chance` some of its entries may mean other keys."""
    shutil.rmtree(room + "/source", ignore_errors=True)
    write_layout(room + "/source", *layout)
    if chance:
        add_odd(room + "/source", chance, chance.choice([0, 0, 0.4]))
    source = Source(room + "/source")
    for tag, key in sorted(source.tags.items()):
        problem = wrong_copy(room, [], source, tag, source.members([key], lambda keys: set()), {tag: key})
        for depth in 0, 1, 2:
            members = source.belonging(source.climbed(key, depth))
            tags = {**source.named(members), tag: key}
            words = ["--referrers", *(["--depth", str(depth)] if depth else [])]
            problem = problem or wrong_copy(room, words, source, tag, members, tags)
        problem = problem or wrong_tree(room, source, tag) or wrong_types(room, source, tag)
        if problem:
            return "%s: %s" % (tag, problem)
    return wrong_all(room, source)


class Mirror:
    """A mirror of `source` with referrers into the layout `mirror` as it is, and what it is to print and to leave. Nothing is climbed to."""

    def __init__(self, room, words=("--referrers",)):
        self.room, self.words = room, ["--all", "--prune", *words]
        self.source, self.before = Source(room + "/source"), Source(room + "/mirror")
        # The tags that are copied, those that stay, the keys that the copy starts from, and those that the mirror then has.
        self.tags, self.stay = self.source.tags, {}
        tagged = set(self.tags.values())
        self.members = self.source.belonging(tagged)
        self.roots = tagged | self.source.attached(self.members)
        self.layout = self.source
        # What it leaves in SRC: of what is attached nothing, since it has that too.
        self.left = set()
        self.untagged = self.source.free()
        self.passed = self.source.passed(self.members)

    def blobs(self):
        return {it for it in files_of(self.room + "/mirror") if it.startswith("blobs/")}

    def files(self):
        return {path(it) for key in self.members for it in [key, *self.layout.listed(key)]}

    def out(self):
        """Return the lines of the mirror."""
        tags, old, new = self.tags, self.before.tags, self.members - self.before.keys
        removed, gone = self.before.keys - self.members, self.blobs() - self.files()
        lengths = {it: os.path.getsize("%s/mirror/%s" % (self.room, it)) for it in gone}
        return "".join(it + "\n" for it in [
            *("copied " + text(tags[it]) for it in self.order(tags)),
            "planned %d pushed %d skipped %d" % (len(new), len(new), len(self.roots & self.before.keys)),
            *("untagged %s %s" % (it, text(old[it])) for it in sorted(set(old) - set(tags) - set(self.stay))),
            *("removed " + text(it) for it in sorted(removed)),
            *("removed-file %s %d" % (it, lengths[it]) for it in sorted(gone - set(map(path, self.before.keys)))),
            "kept %d removed %d files %d bytes %d" % (len(self.members), len(removed), len(gone), sum(lengths.values())),
        ])

    def order(self, tags):
        """Return the names of tags in the order in which they are printed."""
        return sorted(tags)

    def wrong(self):
        """Return the problem with the mirror, after a dry run of it, or None."""
        out, files = self.out(), self.files()
        said = {**self.before.said(self.stay), **self.source.brought(self.tags)}
        planned = wrong_dry_run(self.room, self.words, out)
        if planned:
            return planned
        ended = run(["copy", *self.words, "source", "mirror"], self.room)
        if ended[:3] != (0, out, notes(len(self.left - self.members), len(self.untagged - self.members), len(self.passed))):
            return "a mirror: %s, and not %r" % (told(ended), out)
        after = Source(self.room + "/mirror")
        return first([
            None if after.keys == self.members else "the mirror holds %s" % sorted(map(text, after.keys)),
            None if after.tags == {**self.stay, **self.tags} else "the tags of the mirror are %s" % after.tags,
            None if after.said(said) == said else "the entries of the mirror are %s" % after.said(said),
            None if self.blobs() == files else "the files of the mirror are %s" % sorted(self.blobs()),
        ])


class Both(Held):
    """The keys of a mirror after a copy: those that it held, and these keys of the source."""

    def __init__(self, before, source, keys):
        self.before, self.source, self.keys = before, source, before.keys | keys

    def member(self, key, name):
        return (self.before if key in self.before.keys else self.source).member(key, name)


class PartMirror(Mirror):
    """A mirror of the tags that `v*` matches. If it is exact, it is one with referrers."""

    def __init__(self, room, is_exact):
        super().__init__(room, ["--match", "v*", *(["--referrers"] if is_exact else [])])
        self.select(is_exact)
        spared = {name: key for name, key in self.before.tags.items() if not is_matching(name) and name not in self.tags}
        self.stay, kept = self.exactly(spared) if is_exact else (spared, self.before.keys_of(spared))
        self.layout = Both(self.before, self.source, self.source.members(self.roots, lambda keys: set()))
        self.members = self.layout.members(self.roots | kept, lambda keys: set() if is_exact else self.layout.referrers(keys))
        self.left, self.untagged = set() if is_exact else self.source.left(self.roots, set()), set()

    def select(self, is_exact):
        """Set the tags that are copied, and the keys that the copy starts from."""
        source = self.source
        self.tags = {name: key for name, key in source.tags.items() if is_matching(name)}
        self.roots = source.keys_of(self.tags)
        if is_exact:
            members = source.belonging(self.roots)
            self.tags.update(source.named(members))
            self.roots |= source.attached(members)

    def exactly(self, spared):
        """Return those of these tags of the mirror that stay in an exact one, and the keys that stay for them."""
        before, held = self.before, stems(self.before.keys)
        own = {name: key for name, key in spared.items() if stem(name) not in held or stem(name) in texts_of(key)}
        members = before.members(before.keys_of(own), lambda keys: before.referrers(keys) | set(tags_by(spared, keys).values()))
        stay = {**own, **tags_by(spared, members)}
        return stay, members | before.keys_of(stay)

    def order(self, tags):
        return sorted(tags, key=lambda name: (not is_matching(name), name))


def wrong_mirror(room, layout, other):
    """Return the problem with a mirror of a layout into another one, and again, or None."""
    for name, made in ("source", layout), ("mirror", other):
        shutil.rmtree("%s/%s" % (room, name), ignore_errors=True)
        write_layout("%s/%s" % (room, name), *made)
    return Mirror(room).wrong() or Mirror(room).wrong()


def wrong_part_mirror(room, chance):
    """Return the problem with mirrors of some tags of a random layout into another one, each made twice, or None."""
    contents, _, manifests = random_layout(chance)
    names = [tag_of(chance.choice(manifests), chance.choice(["", ".sig", ".a.b"])) for _ in range(5)]
    entries = [*random_entries(chance, manifests, names, False), (chance.choice(manifests), "v1")]
    write_entries(room + "/source", contents, entries)
    others, strays = random_entries(chance, manifests, names, True), chance.sample(contents, chance.randrange(3))
    add_odd(room + "/source", chance, chance.choice([0, 0, 0.4]))
    for is_exact in False, True:
        write_entries(room + "/mirror", contents, others, strays)
        add_odd(room + "/mirror", chance, chance.choice([0, 0, 0.4]))
        problem = PartMirror(room, is_exact).wrong() or PartMirror(room, is_exact).wrong()
        if problem:
            return "%s referrers: %s" % ("with" if is_exact else "without", problem)


def checks(room):
    for name, layout in CASES.items():
        yield name, wrong_layout(room, layout)
    chance = random.Random(1)
    for number in range(LAYOUTS):
        yield "random layout %d" % number, wrong_layout(room, random_layout(chance), chance)
    for name, layout in CASES.items():
        yield "a mirror of %s" % name, wrong_mirror(room, layout, random_layout(chance))
    for number in range(LAYOUTS):
        yield "mirror %d of a random layout" % number, wrong_mirror(room, random_layout(chance), random_layout(chance))
    for number in range(LAYOUTS):
        yield "mirror %d of some tags" % number, wrong_part_mirror(room, chance)
