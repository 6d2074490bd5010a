"""What entries of `index.json` mean whose media type leaves open what their file is, or whose size is not that of it, as some tools write
them: each command goes by the meant key, a save keeps the entry as it was, and a copy writes the key into DST."""
import json
import os
import shutil

from support.files import read
from support.indexes import entry, named
from support.layouts import (
    ARTIFACT, BAR, DOCKER_IMAGE, DOCKER_LIST, E, FOO, IMAGE, INDEX, LAYER, M2, M3, Content, blob, descriptor, digits, image, index, key,
    listing, write_layout,
)
from support.program import first, run, told, wrong_answer
from support.pruning import OCTETS, key_of, meant_key, name_of, text
from support.repair_layout import write

CONFIG = "application/vnd.oci.image.config.v1+json"
# The most bytes of a file that is read for what an entry means.
MOST = 4 << 20


def manifest(members, media_type=OCTETS):
    """Return a content of JSON with these members, each of which is a JSON text."""
    return Content(media_type, ("{%s}" % ",".join('"%s":%s' % it for it in members.items())).encode())


# What manifests have, each by a JSON text.
OF_IMAGE, OF_INDEX = {"config": descriptor(E), "layers": listing([FOO])}, {"manifests": listing([M2])}
PARTS = {IMAGE: OF_IMAGE, INDEX: OF_INDEX, DOCKER_IMAGE: OF_IMAGE, DOCKER_LIST: OF_INDEX, ARTIFACT: {"blobs": listing([FOO])}}
STATED = {it: manifest({"mediaType": '"%s"' % it, **parts}) for it, parts in PARTS.items()}
BARE_IMAGE, BARE_INDEX = manifest(OF_IMAGE), manifest(OF_INDEX)
WITH_CHARSET = IMAGE + "; charset=utf-8"


def of_size(size):
    """Return a manifest of an image of this size, which states its type."""
    whole = STATED[IMAGE].bytes
    return Content(OCTETS, whole[:-1] + b" " * (size - len(whole)) + b"}")


def stating(value, parts=OF_IMAGE):
    return manifest({"mediaType": value, **parts})


# The media type of an entry, the content of its file, and the media type that it means.
TYPES = {
    **{"octets that state %s" % it: (OCTETS, made, it) for it, made in STATED.items()},
    **{"a layer that states %s" % it: (LAYER, made, LAYER) for it, made in STATED.items()},
    **{"%s with parameters" % it: (it + "; charset=utf-8", made, it) for it, made in STATED.items()},
    "JSON that states a type": ("application/json", STATED[IMAGE], "application/json"),
    "an empty type, and a file that states one": ("", STATED[IMAGE], ""),
    "an image with parameters that states another type": (WITH_CHARSET, STATED[DOCKER_LIST], DOCKER_LIST),
    "an image in capitals that states a type": (IMAGE.upper(), STATED[INDEX], IMAGE.upper()),
    "octets like an image": (OCTETS, BARE_IMAGE, IMAGE),
    "octets like an index": (OCTETS, BARE_INDEX, INDEX),
    "octets like both": (OCTETS, manifest({**OF_IMAGE, **OF_INDEX}), INDEX),
    "octets with a list of nothing": (OCTETS, manifest({"manifests": "[]"}), INDEX),
    "octets like an image, with manifests that are no list": (OCTETS, manifest({**OF_IMAGE, "manifests": "{}"}), IMAGE),
    "octets like an artifact": (OCTETS, manifest(PARTS[ARTIFACT]), OCTETS),
    "parameters, like an image": (WITH_CHARSET, BARE_IMAGE, IMAGE),
    "parameters, like an index": (WITH_CHARSET, BARE_INDEX, INDEX),
    "parameters of a Docker list, like an image": (DOCKER_LIST + ";", BARE_IMAGE, IMAGE),
    "parameters of an artifact, like an index": (ARTIFACT + ";a=b;c=d", BARE_INDEX, INDEX),
    "parameters, like neither": (WITH_CHARSET, manifest({"config": descriptor(E)}), IMAGE),
    "parameters of an artifact, like neither": (ARTIFACT + ";a=b", manifest(PARTS[ARTIFACT]), ARTIFACT),
    "parameters that the file states too": (WITH_CHARSET, stating('"%s"' % WITH_CHARSET), IMAGE),
    "octets like an image that state another type": (OCTETS, stating('"text/plain"'), IMAGE),
    "octets like an image that state octets": (OCTETS, stating('"%s"' % OCTETS), IMAGE),
    "octets like an index that state an empty type": (OCTETS, stating('""', OF_INDEX), INDEX),
    "octets that state an artifact with parameters": (OCTETS, stating('"%s;a=b"' % ARTIFACT, PARTS[ARTIFACT]), ARTIFACT),
    "octets like an image that state a type in capitals": (OCTETS, stating('"%s"' % DOCKER_LIST.upper()), IMAGE),
    "octets that state another type": (OCTETS, stating('"text/plain"', PARTS[ARTIFACT]), OCTETS),
    "octets with manifests that are texts": (OCTETS, manifest({"manifests": '["a.yaml","b.yaml"]'}), OCTETS),
    "octets with a config and layers that are numbers": (OCTETS, manifest({"config": "1", "layers": "2"}), OCTETS),
    "octets like an image with a subject that is a number": (OCTETS, manifest({"subject": "7", **OF_IMAGE}), OCTETS),
    "octets like an image that state a number": (OCTETS, stating("5"), IMAGE),
    "octets like an index that state null": (OCTETS, stating("null", OF_INDEX), INDEX),
    "octets like an image that state a list": (OCTETS, stating('["%s"]' % INDEX), IMAGE),
    "a layer like an image": (LAYER, BARE_IMAGE, LAYER),
    "JSON like an index": ("application/json", BARE_INDEX, "application/json"),
    "octets with parameters, like an image": (OCTETS + "; charset=utf-8", BARE_IMAGE, OCTETS + "; charset=utf-8"),
    "octets in capitals, like an image": (OCTETS.upper(), BARE_IMAGE, OCTETS.upper()),
    "an image with a space, like an image": (IMAGE + " ; a=b", BARE_IMAGE, IMAGE + " ; a=b"),
    "an image in capitals, like an image": (IMAGE.upper(), BARE_IMAGE, IMAGE.upper()),
    "octets with a config and no layers": (OCTETS, manifest({"config": descriptor(E)}), OCTETS),
    "octets with layers and no config": (OCTETS, manifest({"layers": "[]"}), OCTETS),
    "octets with manifests that are no list": (OCTETS, manifest({"manifests": "{}"}), OCTETS),
    "octets with nothing": (OCTETS, Content(OCTETS, b"{}"), OCTETS),
    "octets of a list": (OCTETS, Content(OCTETS, b"[%s]" % STATED[IMAGE].bytes), OCTETS),
    "octets of a text": (OCTETS, Content(OCTETS, b'"%s"' % IMAGE.encode()), OCTETS),
    "octets that hold a manifest": (OCTETS, manifest({"in": STATED[IMAGE].bytes.decode()}), OCTETS),
    "octets of no bytes": (OCTETS, Content(OCTETS, b""), OCTETS),
    "octets that are no text": (OCTETS, Content(OCTETS, bytes(range(256))), OCTETS),
    "octets that are no UTF-8": (OCTETS, Content(OCTETS, STATED[IMAGE].bytes[:-1] + b',"a":"\xff"}'), OCTETS),
    "octets with more behind": (OCTETS, Content(OCTETS, STATED[IMAGE].bytes + b"{}"), OCTETS),
    "an image that states another type": (IMAGE, STATED[DOCKER_IMAGE], IMAGE),
    "a Docker image that states an OCI type": (DOCKER_IMAGE, STATED[IMAGE], DOCKER_IMAGE),
    "octets of 4 MiB": (OCTETS, of_size(MOST), IMAGE),
    "octets of 4 MiB and a byte": (OCTETS, of_size(MOST + 1), OCTETS),
    "sha512": (OCTETS, STATED[IMAGE]._replace(algorithm="sha512"), IMAGE),
}
# The media type of an entry and the content of its file; the entry has another size, and means that of the file.
SIZES = {
    "an image": (IMAGE, STATED[IMAGE], IMAGE),
    "an index": (INDEX, BARE_INDEX, INDEX),
    "a layer": (LAYER, FOO, LAYER),
    "no bytes": (LAYER, Content(LAYER, b""), LAYER),
    "octets": (OCTETS, Content(OCTETS, b"octets"), OCTETS),
    "octets that state an image": (OCTETS, STATED[IMAGE], IMAGE),
    "octets like an index": (OCTETS, BARE_INDEX, INDEX),
    "an image with parameters": (WITH_CHARSET, BARE_IMAGE, IMAGE),
    "an image that states another type": (IMAGE, STATED[DOCKER_IMAGE], IMAGE),
    "a layer of 4 MiB": (LAYER, Content(LAYER, bytes(MOST)), LAYER),
    "sha512": (LAYER, FOO._replace(algorithm="sha512"), LAYER),
}


def write_entries(folder, contents, entries):
    """Write a layout with these contents and entries."""
    shutil.rmtree(folder, ignore_errors=True)
    write_layout(folder, contents, {})
    write(folder, "index.json", json.dumps({"schemaVersion": 2, "manifests": entries}).encode())


def entries_of(folder):
    """Return the entries of a layout, or none if there is no index."""
    return json.loads(read(folder + "/index.json"))["manifests"] if os.path.isfile(folder + "/index.json") else []


def wrong_entries(folder, entries):
    """Return the problem with the entries of a layout, or None. Their order does not count."""
    found, wanted = (sorted(json.dumps(it, sort_keys=True) for it in them) for them in (entries_of(folder), entries))
    return None if found == wanted else "the entries of %s are %s" % (os.path.basename(folder), found)


def wrong_tagged(folder, value):
    """Return the problem with the one entry of a layout that has a name, or None."""
    found = [it for it in entries_of(folder) if name_of(it)]
    return None if found == [value] else "the entries with a name are %s" % found


def wrong_type(room, media_type, content, meant, size=None):
    """Return the problem with an entry of this media type and perhaps another size that is to mean a media type, or None. It has a tag."""
    stated = named(content, "a", {"k": "v"}, mediaType=media_type, artifactType="text/plain")
    stated["size"] = stated["size"] if size is None else size
    write_entries(room + "/layout", [E, FOO, M2, content], [stated])
    wanted = key(content._replace(media_type=meant))
    by_rules = text(meant_key(room + "/layout", key_of(stated)))
    held = wrong_held(room)
    shutil.rmtree(room + "/new", ignore_errors=True)
    copied = run(["copy", "layout", "a", "new"], room)
    return first([
        None if by_rules == wanted else "by the rules it means %s" % by_rules,
        wrong_answer(["resolve", "layout", "a"], room, wanted + "\n"),
        wrong_answer(["resolve", "layout", stated["digest"]], room, wanted + "\n"),
        wrong_answer(["tags", "layout"], room, "a %s\n" % wanted),
        held,
        None if copied.status == 0 and copied.out.startswith("copied %s\n" % wanted) else "copy: " + told(copied),
        wrong_entries(room + "/layout", [stated]),
        wrong_tagged(room + "/new", {**stated, "mediaType": meant, "size": len(content.bytes)}),
        wrong_held(room, "new"),
        wrong_answer(["resolve", "new", "a"], room, wanted + "\n"),
    ])


def wrong_held(room, layout="layout"):
    """Return the problem with the blobs of a layout, or None. All that the entry reaches is to be there."""
    ended = run(["verify", layout], room)
    return None if ended.status == 0 and ended.err == "" else "verify %s: %s" % (layout, told(ended))


def types(room):
    for name, (media_type, content, meant) in TYPES.items():
        yield name, wrong_type(room, media_type, content, meant)


def sizes(room):
    for name, (media_type, content, meant) in SIZES.items():
        length = len(content.bytes)
        others = {0, length + 1, max(length - 1, 0), (1 << 63) - 1} - {length}
        yield "another size of " + name, first(wrong_type(room, media_type, content, meant, it) for it in sorted(others))


# Entries whose file is not whole, or too large

def wrong_own(room, value, media_type, contents, found, out):
    """Return the problem with an entry whose file is not whole, or too large, or None: it means its own key, but for this media type. `found`
    is what `verify` finds. No prune starts, since the file may be that of a manifest."""
    write_entries(room + "/layout", contents, [value, named(M3, "other")])
    for path, content in out.items():
        write(room + "/layout", path, content)
    wanted = key_of(value)._replace(media_type=media_type)
    by_rules = meant_key(room + "/layout", key_of(value))
    files = sorted(os.listdir(room + "/layout/blobs/sha256"))
    ended = run(["verify", "layout"], room)
    pruned = run(["prune", "layout"], room)
    return first([
        None if by_rules == wanted else "by the rules it means %s" % text(by_rules),
        None if ended[:3] == (1, "%s %s\nheld %d\n" % (found, text(wanted), 4 + (found == "corrupt")), "") else told(ended),
        None if pruned[:2] == (1, "") and pruned.err == "ocicp: 96 Unknown %s\n" % text(wanted) else "prune: " + told(pruned),
        None if sorted(os.listdir(room + "/layout/blobs/sha256")) == files else "a file is gone",
    ])


def own_keys(room):
    """Check entries whose file is missing, damaged, of another kind or too large."""
    contents, changed = [E, FOO, BAR, M3], M2.bytes[:-1] + b" "
    for name, media_type, size, there, damaged in [
        ("octets", OCTETS, None, OCTETS, INDEX), ("parameters", WITH_CHARSET, None, IMAGE, IMAGE), ("another size", IMAGE, 7, IMAGE, IMAGE),
    ]:
        value = named(M2, "a", mediaType=media_type)
        value["size"] = value["size"] if size is None else size
        yield name + ", and no file", wrong_own(room, value, there, contents, "absent", {})
        yield name + ", and a file with other bytes", wrong_own(room, value, damaged, contents, "corrupt", {blob(M2): changed})
        yield name + ", and a manifest with other bytes", wrong_own(room, value, damaged, contents, "corrupt", {blob(M2): BARE_IMAGE.bytes})
        yield name + ", and a folder", wrong_own(room, value, there, contents, "corrupt", {blob(M2) + "/in": b"in"})
    large = of_size(MOST + 1)
    value = named(large, "a", mediaType=LAYER, size=MOST)
    yield "another size of a file of 4 MiB and a byte", wrong_own(room, value, LAYER, [*contents, large], "corrupt", {})
    value = named(M2, "a", mediaType=INDEX)
    write_entries(room + "/layout", [E, FOO, M2], [value])
    yield "an index whose file states an image", wrong_answer(["resolve", "layout", "a"], room, text(key_of(value)) + "\n")
    value = named(BARE_INDEX, "a", mediaType=IMAGE)
    yield "an image whose file is like an index", wrong_own(room, value, IMAGE, [E, FOO, BAR, M2, M3, BARE_INDEX], "corrupt", {})


def listed(room):
    """Check that descriptors in manifests are taken as they are written."""
    octets = M2._replace(media_type=OCTETS)
    above = index([octets])
    write_entries(room + "/layout", [E, FOO, M2, above], [named(above, "a")])
    os.remove("%s/layout/%s" % (room, blob(FOO)))
    yield "octets in an index", first([
        wrong_answer(["verify", "layout"], room, "held 2\n"),
        wrong_answer(["resolve", "layout", "sha256:" + digits(M2)], room, key(octets) + "\n"),
    ])
    larger = Content(INDEX, above.bytes.replace(b'"size":%d' % len(M2.bytes), b'"size":%d' % (len(M2.bytes) + 1)))
    write_entries(room + "/layout", [E, FOO, M2, larger], [named(larger, "a")])
    ended = run(["verify", "layout"], room)
    line = "corrupt sha256:%s %d %s" % (digits(M2), len(M2.bytes) + 1, OCTETS)
    yield "another size in an index", None if ended[:3] == (1, line + "\nheld 2\n", "") else told(ended)


# An image of an index that a tool tags

def platform_image(architecture, states):
    """Return an image for a platform, with its config and its layers. It may state its media type."""
    config = Content(CONFIG, json.dumps({"architecture": architecture, "os": "linux"}).encode())
    layers = [Content(LAYER, ("%s %d" % (architecture, number)).encode()) for number in range(2)]
    members = {"mediaType": '"%s"' % IMAGE} if states else {}
    made = manifest({"schemaVersion": "2", **members, "config": descriptor(config), "layers": listing(layers)}, IMAGE)
    return [made, config, *layers]


class Story:
    """A layout with an index of two images. Its tag `amd64` names one of them by an entry with another media type, and `other` a third image."""

    def __init__(self, room, media_type, states):
        self.room, self.layout = room, room + "/k"
        self.amd, self.arm = platform_image("amd64", states), platform_image("arm64", states)
        platforms = [entry(it[0], platform={"architecture": name, "os": "linux"}) for it, name in ((self.amd, "amd64"), (self.arm, "arm64"))]
        self.both = Content(INDEX, json.dumps({"schemaVersion": 2, "manifests": platforms}).encode())
        self.other = image([BAR])
        self.odd = named(self.amd[0], "amd64", {"k": "v"}, mediaType=media_type)
        self.image = {**self.odd, "mediaType": IMAGE}
        self.contents = [*self.amd, *self.arm, self.both, E, BAR, self.other]
        self.key, self.size = key(self.amd[0]), len(self.amd)
        self.fresh()

    def fresh(self):
        write_entries(self.layout, self.contents, [named(self.both, "both"), self.odd, named(self.other, "other")])

    def answer(self, words, out):
        return wrong_answer(words.split(), self.room, out)

    def held(self, layout, count):
        return self.answer("verify " + layout, "held %d\n" % count)

    def lost(self, contents, folder):
        """Return the problem with the files of contents in a layout, or None."""
        lost = [it for it in contents if not os.path.isfile("%s/%s" % (folder, blob(it))) or read("%s/%s" % (folder, blob(it))) != it.bytes]
        return "%s is lost" % key(lost[0]) if lost else None

    def reads(self):
        """Return the problem with what commands print of the layout, or None."""
        rows = ["amd64 " + self.key, "both " + key(self.both), "other " + key(self.other)]
        tree = run(["tree", "--json", "k", "amd64"], self.room)
        blobs = [it["descriptor"]["digest"] for it in json.loads(tree.out or '{"blobs":[]}')["blobs"]]
        return first([
            self.answer("resolve k amd64", self.key + "\n"),
            self.answer("tags k", "".join(it + "\n" for it in rows)),
            self.held("k", len(self.contents)),
            self.held("k amd64", self.size),
            self.answer("predecessors k amd64", key(self.both) + "\n"),
            None if blobs == ["sha256:" + digits(it) for it in self.amd] else "tree: " + told(tree),
            self.answer("resolve --platform linux/amd64 k both", self.key + "\n"),
        ])

    def copies(self):
        """Return the problem with copies of the tag into a new layout, an archive and a layout that has other images, or None."""
        for name in "d", "all":
            shutil.rmtree("%s/%s" % (self.room, name), ignore_errors=True)
        write_entries(self.room + "/e", [E, BAR, self.other], [named(self.other, "amd64")])
        made, there = "%s/d.tar" % self.room, "copied %s\nplanned %d pushed %d skipped 0\n" % (self.key, self.size, self.size)
        if os.path.exists(made):
            os.remove(made)
        everything = run(["copy", "--all", "k", "all"], self.room)
        return first([
            self.answer("copy k amd64 d", there),
            self.held("d", self.size),
            self.lost(self.amd, self.room + "/d"),
            wrong_entries(self.room + "/d", [self.image]),
            self.answer("copy k amd64 d again", "copied %s\nplanned 0 pushed 0 skipped %d\n" % (self.key, 1)),
            self.answer("copy k amd64 e", there),
            wrong_entries(self.room + "/e", [self.image, entry(self.other)]),
            self.answer("copy --archive k amd64 d.tar", there),
            self.held("d.tar", self.size),
            self.answer("resolve d.tar amd64", self.key + "\n"),
            None if everything.status == 0 and everything.err == "" else told(everything),
            self.held("all", len(self.contents)),
            wrong_entries(self.room + "/all", [named(self.both, "both"), self.image, named(self.other, "other"), entry(self.arm[0])]),
            self.answer("copy --all --prune k all", "".join("copied %s\n" % it for it in [self.key, key(self.both), key(self.other)])
                        + "planned 0 pushed 0 skipped 3\nkept %d removed 0 files 0 bytes 0\n" % len(self.contents)),
        ])

    def tagging(self):
        """Return the problem with new tags, or None. The entry is to stay as it was. A save gives an entry to each manifest that has none."""
        self.fresh()
        entries = [*entries_of(self.layout), entry(self.arm[0])]
        return first([
            self.answer("tag k other new", "tagged %s\n" % key(self.other)),
            wrong_entries(self.layout, [*entries, named(self.other, "new")]),
            self.answer("tag k amd64 newer", "tagged %s\n" % self.key),
            None if self.odd in entries_of(self.layout) else "the entry is not as it was",
            self.answer("resolve k newer", self.key + "\n"),
            self.answer("untag k amd64", "untagged %s\n" % self.key),
            self.answer("resolve k newer", self.key + "\n"),
        ])

    def removal(self, *flags):
        """Return the problem with the removal of the tag of the index and a prune, or None. All of the image is to stay."""
        self.fresh()
        size = sum(len(it.bytes) for it in [*self.arm, self.both])
        gone = sorted("removed-file %s %d\n" % (blob(it), len(it.bytes)) for it in [*self.arm, self.both])
        count = len(self.amd) + 3
        return first([
            self.answer("untag k both", "untagged %s\n" % key(self.both)),
            self.answer(" ".join(["prune", *flags, "k"]), "".join(gone) + "kept %d removed 0 files %d bytes %d\n" % (count, len(gone), size)),
            self.held("k", count),
            self.held("k amd64", self.size),
            self.lost([*self.amd, E, BAR, self.other], self.layout),
            wrong_entries(self.layout, [self.odd, named(self.other, "other")]),
        ])

    def untagging(self):
        """Return the problem with the removal of the tag, or None. The index needs the image."""
        self.fresh()
        return first([
            self.answer("untag k amd64", "untagged %s\n" % self.key),
            self.held("k", len(self.contents)),
            wrong_entries(self.layout, [named(self.both, "both"), named(self.other, "other"), entry(self.amd[0]), entry(self.arm[0])]),
        ])

    def repairs(self):
        """Return the problem with a repair of what the image lists, or None."""
        write_entries(self.layout, [self.amd[0]], [self.odd])
        write_entries(self.room + "/from", self.contents, [])
        rest = sorted(self.amd[1:], key=lambda it: (it.media_type, key(it)))
        lines = ["repaired %s\n" % key(it) for it in rest]
        size = sum(len(it.bytes) for it in rest)
        return first([
            self.answer("repair k from", "".join(lines) + "held %d repaired %d bytes %d missing 0\n" % (self.size, len(rest), size)),
            self.held("k", self.size),
            wrong_entries(self.layout, [self.odd]),
        ])

    def lacks(self):
        """Return the problem with a layout that lacks a layer of the image, or None."""
        self.fresh()
        os.remove("%s/%s" % (self.layout, blob(self.amd[-1])))
        ended = run(["verify", "--tags", "k"], self.room)
        missing = "%s %s" % (self.key, key(self.amd[-1]))
        lines = ["open " + missing, "held %d" % (len(self.contents) - 1), *("broken %s %s" % (it, key(self.amd[-1])) for it in ("amd64", "both"))]
        return None if ended[:3] == (1, "".join(it + "\n" for it in lines), "") else told(ended)


def stories(room):
    for media_type in OCTETS, WITH_CHARSET:
        for states in True, False:
            story = Story(room, media_type, states)
            name = "%s, %s `mediaType`" % (media_type, "with" if states else "without")
            yield name + ": it is read", story.reads()
            yield name + ": copies", story.copies()
            yield name + ": new tags", story.tagging()
            yield name + ": the index is removed", story.removal()
            yield name + ": the index is removed, and what has no tag", story.removal("--untagged")
            yield name + ": the tag is removed", story.untagging()
            yield name + ": a repair", story.repairs()
            yield name + ": a layer is missing", story.lacks()


def blobs(room):
    """Check that a tag of octets that are no manifest stays one of a blob."""
    for name, content in ("bytes", b"\x00\x01real bytes"), ("JSON", b'{"config":{},"data":[1,2]}'):
        made = Content(OCTETS, content)
        value = named(made, "blob", {"k": "v"})
        write_entries(room + "/k", [made, E, FOO, M2], [value, named(M2, "image")])
        shutil.rmtree(room + "/d", ignore_errors=True)
        yield "a blob of " + name, first([
            wrong_answer(["resolve", "k", "blob"], room, key(made) + "\n"),
            wrong_answer(["copy", "k", "blob", "d"], room, "copied %s\nplanned 1 pushed 1 skipped 0\n" % key(made)),
            wrong_answer(["verify", "d"], room, "held 1\n"),
            wrong_entries(room + "/d", [value]),
            wrong_answer(["untag", "k", "image"], room, "untagged %s\n" % key(M2)),
            wrong_entries(room + "/k", [value]),
            wrong_answer(["verify", "k"], room, "held 1\n"),
        ])


def checks(room):
    for number, group in enumerate([types, sizes, own_keys, listed, stories, blobs]):
        folder = "%s/%d" % (room, number)
        os.mkdir(folder)
        yield from group(folder)
