"""Layouts to prune, made by hand with the contents that go, and made at random."""
import os
import shutil
from collections import namedtuple

from support.indexes import add_odd
from support.layouts import (
    ARTIFACT, BAR, DOCKER_IMAGE, DOCKER_LIST, E, FOO, I1, IMAGE, INDEX, LAYER, M2, M3, S, Content, blob, descriptor, digits, image, index,
    write_layout,
)

GZIP, FOREIGN = LAYER + "+gzip", "application/vnd.oci.image.layer.nondistributable.v1.tar"
DRAFT = ".0123456789abcdef.new"
STRAY, ZEROS = "blobs/sha256/" + "0" * 63 + "1", "0" * 64

# Layers and images that no other sample has, and manifests that refer to them.
A, B, OLD = Content(LAYER, b"a layer"), Content(LAYER, b"b layer"), Content(LAYER, b"old layer")
A_ZIPPED, LONG = A._replace(media_type=GZIP), A._replace(algorithm="sha512")
FAR = A._replace(media_type=FOREIGN)
OLD_IMAGE, FAR_IMAGE = image([A, OLD]), image([FAR])
LONG_IMAGE, OLD_LONG = image([LONG]), image([B], subject=M3)._replace(algorithm="sha512")
SIGNED = image([B], subject=S)
BILL = index([SIGNED], subject=S)
OCTETS = M2._replace(media_type="application/octet-stream")
OF_OCTETS = image([B], subject=OCTETS)
OF_OLD, OF_BOTH = image([B], subject=OLD_IMAGE), image([], subject=I1)
HIGHER = index([I1])
ALL = [E, FOO, B, M2]
# What tags of digests name: a signature that states no subject, and that of it.
SIGNATURE, OF_SIGNATURE = image([A]), image([B])


def made_of(content, suffix=".sig"):
    """Return a tag that is made of the digest of a content."""
    return "%s-%s%s" % (content.algorithm, digits(content)[:64], suffix)


# (each refers to the one before)
CHAIN = [M2]
for _ in range(60):
    CHAIN.append(image([], subject=CHAIN[-1]))

# An image with a subject that is no manifest and not there, and an index that lists its own subject.
OF_NOTHING, OF_LISTED = image([B], subject=Content(LAYER, b"gone")), index([M3], subject=M3)

# A layout: its contents, its tags, and the other entries of its index; other files, each with its text; the files that go, and the contents
# that go only with --untagged; the contents that are counted without it; contents that go but share their file with another one; a manifest
# that one without a tag lists and that is not there; whether everything that is kept is there; and the tags that go only with --untagged.
Case = namedtuple("Case", "contents tags untagged files goes free shared lacks is_whole lost", defaults=[[], {}, [], [], [], None, True, []])
CASES = {
    "all is tagged": Case([E, FOO, BAR, M2, M3, I1], {"both": I1}),
    "a layer is tagged": Case([FOO, BAR], {"layer": FOO}, [BAR], goes=[BAR], free=[BAR]),
    "an image without a tag": Case([E, FOO, M2, A, OLD, OLD_IMAGE], {"new": M2}, [OLD_IMAGE], goes=[A, OLD, OLD_IMAGE], free=[OLD_IMAGE]),
    "images that share a layer": Case([E, FOO, BAR, M2, M3], {"new": M2}, [M3], goes=[BAR, M3], free=[M3]),
    "an index without a tag, of an image with one": Case([E, FOO, BAR, M2, M3, I1], {"new": M2}, [I1], goes=[BAR, M3, I1], free=[I1]),
    "an index without a tag, of one with an entry": Case([E, FOO, BAR, M2, M3, I1, HIGHER], {"new": M2}, [M3, I1, HIGHER],
                                                         goes=[BAR, M3, I1, HIGHER], free=[HIGHER]),
    "a layer without a tag that an image lists": Case([E, FOO, BAR, M2], {"new": M2}, [FOO, BAR], goes=[BAR], free=[BAR]),
    "two tags of one image": Case([E, FOO, BAR, M2, M3], {"a": M2, "b": M2}, [M3], goes=[BAR, M3], free=[M3]),
    "no tag": Case([E, FOO, M2], {}, [M2], {STRAY: b"stray"}, goes=[STRAY], free=[M2]),
    "no entry": Case([], {}, [], {STRAY: b"stray", blob(FOO): FOO.bytes}, goes=[STRAY, blob(FOO)]),
    "one digest by two media types": Case([E, A, image([A]), image([A_ZIPPED])], {"new": image([A])}, [image([A_ZIPPED])],
                                          goes=[A_ZIPPED, image([A_ZIPPED])], free=[image([A_ZIPPED])], shared=[A]),
    "an image also as a layer": Case([E, FOO, M2], {"layer": M2._replace(media_type=LAYER)}, [M2], goes=[E, FOO, M2], shared=[M2]),
    "an entry that means an image": Case([E, FOO, M2, BAR, M3], {"octets": OCTETS}, [M3], goes=[BAR, M3], free=[M3]),
    "one digest by two media types, without a tag": Case([E, FOO, M2, A], {"new": M2}, [A, A_ZIPPED], goes=[A, A_ZIPPED], free=[A, A_ZIPPED]),
    "referrers of referrers": Case([*ALL, S, SIGNED, BILL], {"new": M2}, [S, BILL]),
    "a subject with another media type": Case([*ALL, OF_OCTETS], {"new": M2}, [OF_OCTETS]),
    "a chain of referrers": Case([E, FOO, *CHAIN], {"new": M2}, [CHAIN[-1]]),
    "the other end of a chain of referrers": Case([E, FOO, *CHAIN], {"last": CHAIN[-1]}, free=[M2]),
    "a chain of referrers without a tag": Case([E, FOO, *CHAIN, A], {"layer": A}, [CHAIN[-1]], goes=[E, FOO, *CHAIN], free=[M2]),
    "a referrer that is tagged": Case([*ALL, S, SIGNED], {"signature": S}, [M2, SIGNED], free=[M2]),
    "what refers to an image without a tag": Case([*ALL, A, OLD, OLD_IMAGE, OF_OLD], {"new": M2}, [OLD_IMAGE, OF_OLD],
                                                  goes=[A, B, OLD, OLD_IMAGE, OF_OLD], free=[OLD_IMAGE]),
    "what refers to an image of a tagged index": Case([E, FOO, BAR, M2, M3, I1, S], {"both": I1}, [S]),
    "what refers to an index without a tag": Case([E, FOO, BAR, M2, M3, I1, OF_BOTH], {"new": M2}, [OF_BOTH], goes=[BAR, M3, I1, OF_BOTH],
                                                  free=[I1]),
    "an index lists what refers to its image": Case([*ALL, S, SIGNED, index([SIGNED])], {"new": M2}, [index([SIGNED])],
                                                    goes=[index([SIGNED])], free=[index([SIGNED])]),
    "an index lists its own subject": Case([E, FOO, BAR, M2, M3, OF_LISTED], {"new": M2}, [OF_LISTED], goes=[BAR, M3, OF_LISTED], free=[M3]),
    "a subject that is not there": Case([E, B, OLD_LONG, FOO, M2], {"new": M2}, [OLD_LONG], goes=[B, OLD_LONG], lacks=M3),
    "a subject that is no manifest and not there": Case([*ALL, OF_NOTHING], {"new": M2}, [OF_NOTHING], goes=[B, OF_NOTHING],
                                                        free=[OF_NOTHING], is_whole=False),
    "digests of sha512": Case([E, A, LONG, LONG_IMAGE, FOO, BAR, M3, B, OLD_LONG], {"new": LONG_IMAGE}, [OLD_LONG],
                              {blob(OLD._replace(algorithm="sha512")): b"old", blob(A): A.bytes},
                              goes=[FOO, BAR, M3, B, OLD_LONG, blob(OLD._replace(algorithm="sha512")), blob(A)], free=[M3]),
    "blobs that nothing lists": Case([E, FOO, M2], {"new": M2}, [], {STRAY: b"stray", blob(BAR): BAR.bytes}, goes=[STRAY, blob(BAR)]),
    "a layer that is not there": Case([E, FOO, M3], {"new": M3}, [], {STRAY: b""}, goes=[STRAY], is_whole=False),
    "a config that is not there": Case([FOO, M2, BAR], {"new": M2}, [BAR], goes=[BAR], free=[BAR], is_whole=False),
    "a layer with other bytes": Case([E, M2], {"new": M2}, [], {blob(FOO): b"other"}, is_whole=False),
    "an index without a tag lists what is not there": Case([E, FOO, M2, I1], {"new": M2}, [I1], goes=[I1], lacks=M3),
    "drafts": Case([E, FOO, M2], {"new": M2}, [], {
        it + DRAFT: b"draft" for it in ("index.json", "oci-layout", blob(FOO), blob(BAR), STRAY, "blobs/sha512/" + "f" * 128)
    }, goes=[it + DRAFT for it in ("index.json", "oci-layout", blob(FOO), blob(BAR), STRAY, "blobs/sha512/" + "f" * 128)]),
    "files with other names": Case([E, FOO, M2], {"new": M2}, [], {it: b"other" for it in [
        "blobs/" + ZEROS, "blobs/sha384/" + ZEROS, "blobs/sha256/other", "blobs/sha256/" + ZEROS[1:], "blobs/sha256/%s0" % ZEROS,
        "blobs/sha256/%sF" % ZEROS[1:], "blobs/sha256/%sg" % ZEROS[1:], "blobs/sha256/sha256:" + ZEROS, "blobs/sha256/%s." % ZEROS,
        "blobs/sha256/%s\n" % ZEROS, "blobs/sha256/%s\udcff" % ZEROS[1:], "blobs/sha256/" + ZEROS * 2, "blobs/sha512/" + ZEROS,
        "blobs/sha256/%s.new" % ZEROS, "blobs/sha256/%s.0.new" % ZEROS, "blobs/sha256/other" + DRAFT, "blobs/index.json" + DRAFT,
        "other" + DRAFT, "manifest.json", "sha256/" + ZEROS, ZEROS,
    ]}),
    "folders with other names": Case([E, FOO, M2], {"new": M2}, [], {
        "index.json%s/in" % DRAFT: b"in", "blobs/sha256/%s%s/in" % (ZEROS, DRAFT): b"in", "blobs/sha512/in/in": b"in",
    }),
    "a layer that is not distributed": Case([E, FOO, image([FOO]), image([FOO._replace(media_type=FOREIGN), BAR])],
                                            {"new": image([FOO._replace(media_type=FOREIGN), BAR])}, [image([FOO])],
                                            goes=[FOO, image([FOO])], free=[image([FOO])], shared=[FOO], is_whole=False),
    "the file of a layer that is not distributed": Case([E, FOO, M2, FAR_IMAGE], {"new": FAR_IMAGE}, [M2], {blob(FAR): FAR.bytes, STRAY: b"stray"},
                                                        goes=[FOO, M2, STRAY], free=[M2]),
    "a tag of a digest whose image goes": Case([E, FOO, BAR, A, M2, M3, SIGNATURE], {"new": M2, made_of(M3): SIGNATURE}, [M3],
                                              goes=[BAR, M3, A, SIGNATURE], free=[M3], lost=[made_of(M3)]),
    "a tag of a digest whose image stays": Case([E, FOO, A, M2, SIGNATURE], {"new": M2, made_of(M2): SIGNATURE}),
    "tags of digests, each of what the one before names": Case(
        [E, FOO, A, B, M2, SIGNATURE, OF_SIGNATURE], {"new": M2, made_of(M2): SIGNATURE, made_of(SIGNATURE): OF_SIGNATURE}),
    "the same tags of digests, without a tag of the image": Case(
        [E, FOO, BAR, A, B, M2, M3, SIGNATURE, OF_SIGNATURE], {"new": M3, made_of(M2): SIGNATURE, made_of(SIGNATURE): OF_SIGNATURE}, [M2],
        goes=[A, B, M2, SIGNATURE, OF_SIGNATURE], free=[M2], lost=[made_of(M2), made_of(SIGNATURE)]),
    "a ring of tags of digests": Case([E, FOO, BAR, A, M2, M3, SIGNATURE], {"new": SIGNATURE, made_of(M2): M3, made_of(M3): M2},
                                     goes=[FOO, BAR, M2, M3], lost=[made_of(M2), made_of(M3)]),
    "nothing but a ring of tags of digests": Case([E, FOO, BAR, M2, M3], {made_of(M2): M3, made_of(M3): M2}, lost=[made_of(M2), made_of(M3)]),
    "a ring of tags of digests, and a tag": Case([E, FOO, BAR, M2, M3], {"new": M2, made_of(M2): M3, made_of(M3): M2}),
    "a tag of a digest that names this image": Case([E, FOO, M2], {made_of(M2, ""): M2}),
    "a tag of a digest that is not there": Case([E, A, SIGNATURE], {made_of(M2): SIGNATURE}),
    "a tag of a digest that goes, whose key has another": Case([E, FOO, BAR, A, M3, SIGNATURE], {"new": SIGNATURE, made_of(M3): SIGNATURE}, [M3],
                                                              goes=[FOO, BAR, M3], free=[M3], lost=[made_of(M3)]),
    "a tag of the digest of an image of an index": Case([E, FOO, BAR, A, M2, M3, I1, SIGNATURE], {"both": I1, made_of(M3): SIGNATURE}),
    "a tag of the digest of an image of an index that goes": Case(
        [E, FOO, BAR, A, M2, M3, I1, SIGNATURE], {"new": M2, made_of(M3): SIGNATURE}, [I1],
        goes=[BAR, A, M3, I1, SIGNATURE], free=[I1], lost=[made_of(M3)]),
    "a tag of a digest of sha512": Case([E, A, LONG, LONG_IMAGE, SIGNATURE, B, OLD_LONG, M3, FOO, BAR],
                                       {"new": LONG_IMAGE, made_of(OLD_LONG): SIGNATURE}, [OLD_LONG],
                                       goes=[A, B, SIGNATURE, OLD_LONG, M3, FOO, BAR], free=[M3], lost=[made_of(OLD_LONG)]),
}


def write_case(folder, case):
    shutil.rmtree(folder, ignore_errors=True)
    write_layout(folder, case.contents, case.tags, case.untagged)
    for path, written in case.files.items():
        os.makedirs(os.path.dirname("%s/%s" % (folder, path)), exist_ok=True)
        with open("%s/%s" % (folder, path), "wb") as file:
            file.write(written)


# By kind, the members of a manifest: whether each is one content or a list of them, and whether it may be absent.
SHAPES = {
    IMAGE: [("subject", "one", True), ("config", "one", False), ("layers", "list", True)],
    INDEX: [("subject", "one", True), ("manifests", "list", True)],
    DOCKER_IMAGE: [("config", "one", False), ("layers", "list", True)],
    DOCKER_LIST: [("manifests", "list", True)],
    ARTIFACT: [("subject", "one", True), ("blobs", "list", True)],
}


def stated_type(chance, kind):
    """Return the JSON of a type that a manifest of a kind may state of itself, such that it is also a manifest of that type, or an empty text."""
    others = [DOCKER_IMAGE, IMAGE] if kind in (DOCKER_IMAGE, IMAGE) else [INDEX, DOCKER_LIST, ARTIFACT]
    return chance.choice(["", "", *['"%s"' % kind] * 4, '"%s"' % chance.choice(others), '"text/plain"', "5", "null"])


def random_manifest(chance, contents, number):
    kind = chance.choice([*SHAPES])
    members = ['"number":%d' % chance.choice([number, 0])]
    stated = stated_type(chance, kind)
    members += ['"mediaType":' + stated] if stated else []
    # (a kind without a subject may have a member of this name, which counts for nothing)
    for name, shape, is_optional in SHAPES[kind] + [("subject", "one", True)] * (kind in (DOCKER_IMAGE, DOCKER_LIST)):
        if is_optional and chance.random() < 0.2:
            continue
        listed = [descriptor(chance.choice(contents)) for _ in range(chance.randrange(3) if shape == "list" else 1)]
        members.append('"%s":%s' % (name, "[%s]" % ",".join(listed) if shape == "list" else listed[0]))
    return Content(kind, ("{%s}" % ",".join(members)).encode(), chance.choice(["sha256"] * 4 + ["sha512"]))


def random_contents(chance):
    """Return leaves of few bytes and media types, and manifests of them and of each other."""
    leaves = [Content(chance.choice([LAYER, GZIP]), b"%d" % chance.randrange(3), chance.choice(["sha256", "sha512"])) for _ in range(4)]
    contents = list(dict.fromkeys(leaves))
    for number in range(chance.randrange(1, 9)):
        contents.append(random_manifest(chance, contents, number))
        if chance.random() < 0.1:
            # (the same bytes by another media type)
            contents.append(contents[-1]._replace(media_type=LAYER))
    return list(dict.fromkeys(contents))


def write_random(folder, chance):
    contents = random_contents(chance)
    manifests = [it for it in contents if it.media_type in SHAPES] or contents
    shutil.rmtree(folder, ignore_errors=True)
    tagged = {name: chance.choice(manifests) for name in "abc"[: chance.choice([0, 1, 1, 1, 2, 3])]}
    tagged |= {made_of(chance.choice(manifests)): chance.choice(manifests) for _ in range(chance.choice([0, 0, 0, 1, 2]))}
    untagged = [it for it in contents if chance.random() < 0.5]
    lost = [it for it in contents if chance.random() < (0.02 if it.media_type in SHAPES else 0.1) and it not in untagged]
    here = [it for it in contents if blob(it) not in set(map(blob, lost))]
    write_layout(folder, here, tagged, untagged)
    for number in range(chance.randrange(3)):
        stray = "%s/blobs/sha256/%064x" % (folder, chance.randrange(1 << 256))
        with open(stray + chance.choice(["", "", DRAFT, ".old"]), "wb") as file:
            file.write(b"x" * number)
    add_odd(folder, chance, chance.choice([0, 0, 0.3, 0.7]))
