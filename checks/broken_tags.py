"""The lines `broken` of `verify --tags`, and all that they stand for in the document, for layouts made by hand and at random with missing and
damaged blobs, by the rules in support/verifying.py."""
import functools
import json
import multiprocessing
import os
import random
import shutil
import tarfile

from repair import damage
from support.files import stamps
from support.indexes import LOST, add_odd, entry, named, unreadable
from support.json_lines import of_error
from support.layouts import (
    BAR, DOCKER_IMAGE, DOCKER_LIST, E, FOO, I1, I3, I4, IMAGE, INDEX, LAYER, M2, M3, S, Content, blob, image, index, key, write_layout,
)
from support.program import first, run, told
from support.prune_cases import FOREIGN, random_contents
from support.pruning import MEMBERS, text
from support.repair_layout import write
from support.tar_files import pack
from support.verifying import Verify

# The number of layouts at random, and how many of them are to have each of the traits.
LAYOUTS, LEAST = 300, 6
FLAGS = [[], ["--workers", "1"], ["--workers", "0"], ["--workers", "7"]]
# Names of tags. Byte order is neither that of their letters nor that of UTF-16.
NAMES = ["a", "B", "b.c", "b-c", "10", "9", "a tag", "\u00e9", "\uffee", "\U0001f600", "sha256:" + "0" * 64]
# Contents that match their digests, and are no manifests.
NO_MANIFESTS = [
    Content(IMAGE, b"{"), Content(IMAGE, b'{"layers":[]}'), Content(INDEX, b'{"manifests":{}}'), Content(INDEX, b"[]"),
    Content(DOCKER_IMAGE, b'{"config":{}}'), Content(DOCKER_LIST, b'{"manifests":[null]}'),
]


def write_entries(folder, contents, entries):
    """Write a layout of these contents with these entries."""
    shutil.rmtree(folder, ignore_errors=True)
    write_layout(folder, contents, {})
    write(folder, "index.json", json.dumps({"schemaVersion": 2, "manifests": entries}).encode())


# One layout

def wrong_lines(folder, layout, flags, wanted):
    """Return the problem with the lines of `verify --tags`, and of `verify`, or None."""
    err = "".join(it + "\n" for it in wanted.errors())
    for words, lines in (["--tags", *flags], wanted.lines() + wanted.broken_lines()), (flags, wanted.lines()):
        ended = run(["verify", *words, layout], folder)
        out = ended.out.splitlines()
        if ended[:3] != (wanted.status(), "".join(it + "\n" for it in lines), err):
            return "verify %s: %s; it lacks %s, and has %s more" % (
                " ".join(words), told(ended), [it for it in lines if it not in out][:3], [it for it in out if it not in lines][:3])


def wrong_document(folder, layout, flags, wanted):
    """Return the problem with the document, or None. Only the first unreadable entry has a refusal."""
    ended = run(["verify", "--json", "--tags", *flags, layout], folder)
    err = "".join(it + "\n" for it in wanted.errors()[:1])
    if (ended.status, of_error(ended.err)) != (wanted.status(), err):
        return "--json: " + told(ended)
    found, document = json.loads(ended.out), wanted.document()
    for name in sorted({*found, *document}):
        if found.get(name) != document.get(name) or (name in found) != (name in document):
            return "--json: %s is %s, and not %s" % (name, found.get(name), document.get(name))


def wrong_layout(folder, flags=()):
    """Return the problem with the findings in a layout, or None. Nothing is to be changed."""
    wanted, when = Verify(folder + "/layout"), stamps(folder)
    return first([
        wrong_lines(folder, "layout", flags, wanted),
        wrong_document(folder, "layout", flags, wanted),
        None if stamps(folder) == when else "something has changed",
    ])


# Layouts made by hand

ZIPPED = Content(LAYER + "+gzip", b"zipped")
FAR = image([FOO._replace(media_type=FOREIGN), BAR])
TWO = image([ZIPPED, BAR, FOO])
# The entries of a layout, its contents, and those of them that are missing, and that have other bytes; and the lines for its tags, each a tag
# and a content.
CASES = {
    "nothing is damaged": ([named(I4, "b"), named(M2, "a")], [E, FOO, M2, I3, I4], [], [], []),
    "a layer that two tags share": ([named(I1, "b"), named(M2, "a"), named(BAR, "c")], [E, FOO, BAR, M2, M3, I1], [FOO], [],
                                    [("a", FOO), ("b", FOO)]),
    "a layer that one of two tags needs": ([named(M3, "b"), named(M2, "a")], [E, FOO, BAR, M2, M3], [], [BAR], [("b", BAR)]),
    "the first by media type, and then by digest": ([named(TWO, "a")], [E, ZIPPED, BAR, FOO, TWO], [FOO, ZIPPED], [BAR], [("a", FOO)]),
    "the first by media type is damaged": ([named(TWO, "a")], [E, ZIPPED, BAR, FOO, TWO], [FOO, ZIPPED], [E], [("a", E)]),
    "the tag's own blob": ([named(M2, "a"), named(M3, "b"), named(FOO, "c")], [E, FOO, BAR, M2, M3], [M2], [M3, FOO],
                           [("a", M2), ("b", M3), ("c", FOO)]),
    "what only a damaged manifest lists": ([named(I1, "a")], [E, FOO, BAR, M2, M3, I1], [BAR], [M3], [("a", M3)]),
    "the subject of a signature": ([named(S, "a"), entry(M2)], [E, FOO, M2, S], [FOO], [], [("a", FOO)]),
    "what refers to a tag's image": ([named(M2, "a"), entry(S)], [E, FOO, M2, S], [S], [], []),
    "an entry that the tag hides": ([named(M3, "a"), named(M2, "a")], [E, FOO, BAR, M2, M3], [BAR], [], []),
    "an entry that hides a whole one": ([named(M2, "a"), named(M3, "a")], [E, FOO, BAR, M2, M3], [BAR], [], [("a", BAR)]),
    "an unreadable entry of the tag": ([named(M2, "a"), named(M2, "a", size=-1)], [E, FOO, M2], [FOO], [], []),
    "an image without a tag": ([named(M2, "a"), entry(M3)], [E, FOO, BAR, M2, M3], [BAR], [], []),
    "a layer that is not to be distributed": ([named(FAR, "a")], [E, FOO, BAR, FAR], [FOO], [], []),
    "bytes that are no manifest": ([named(it, "%d" % place) for place, it in enumerate(NO_MANIFESTS)], NO_MANIFESTS, [], [],
                                   [("%d" % place, it) for place, it in enumerate(NO_MANIFESTS)]),
    "the order of the tags": ([named(M2, it) for it in NAMES], [E, FOO, M2], [FOO], [],
                              [(it, FOO) for it in sorted(NAMES, key=str.encode)]),
    "an entry with the empty name": ([named(M2, "")], [E, FOO, M2], [FOO], [], []),
    "no entry": ([], [E], [E], [], []),
}


def wrong_case(room, entries, contents, missing, damaged, lines):
    """Return the problem with a layout made by hand, or None."""
    write_entries(room + "/layout", [it for it in contents if it not in missing], entries)
    for content in damaged:
        write(room + "/layout", blob(content), content.bytes[:-1] + bytes([content.bytes[-1] ^ 1]))
    found = Verify(room + "/layout").broken_lines()
    if found != ["broken %s %s" % (name, key(it)) for name, it in lines]:
        return "by the rules it prints %s" % found
    return wrong_layout(room)


def by_hand(room):
    for name, case in CASES.items():
        yield name, wrong_case(room, *case)
    os.remove(room + "/layout/index.json")
    ended = run(["verify", "--tags", "layout"], room)
    yield "a layout without an index", None if ended[:3] == (0, "held 0\n", "") else told(ended)


# Layouts at random

def contents_of(chance):
    """Return random contents, some of them no manifests, and indexes of them, so that tags share blobs."""
    contents = random_contents(chance) + chance.sample(NO_MANIFESTS, chance.choice([0, 0, 1, 2]))
    for _ in range(chance.randrange(1, 4)):
        contents.append(index(chance.sample(contents, min(len(contents), chance.randrange(1, 5)))))
    return list(dict.fromkeys(contents))


def entry_of(chance, contents):
    """Return a random entry. Some are of a blob without a file, and some are no descriptors."""
    manifests = [it for it in contents if it.media_type in MEMBERS]
    content, name = chance.choice([*contents, *manifests * 3, LOST]), chance.choice([None, *NAMES[: chance.choice([3, len(NAMES)])]])
    if chance.random() < 0.08:
        return unreadable(chance, name)
    return named(content, name, {"k": "v"}) if name else entry(content)


def write_random(folder, chance):
    contents = contents_of(chance)
    write_entries(folder, contents, [entry_of(chance, contents) for _ in range(chance.randrange(1, 9))])
    add_odd(folder, chance, chance.choice([0, 0, 0.3]))
    damage(folder, chance, chance.choice([0, 0.1, 0.2, 0.3, 0.5]))


def traits(found):
    """Return whether the findings in a layout have each trait."""
    bad, broken = found.missing | found.corrupt, dict(found.broken)
    own = [found.tags[name] for name in broken]
    shared = [it for keys in broken.values() for it in keys]
    return {
        "no broken tag": not broken,
        "broken tags beside whole ones": bool(broken) and len(broken) < len(found.tags),
        "several broken tags": len(broken) > 1,
        "a tag with several bad blobs": any(len(keys) > 1 for keys in broken.values()),
        "a bad blob that tags share": len(set(shared)) < len(shared),
        "a bad blob that no tag reaches": bool(bad - set(shared)),
        "a missing blob of a tag": bool(found.missing & set(own)),
        "a damaged blob of a tag": bool(found.corrupt & set(own)),
        "bad blobs below a whole one of a tag": any(it not in bad for it in own),
        "missing and damaged blobs of one tag": any(found.missing & set(keys) and found.corrupt & set(keys) for keys in broken.values()),
        "a broken tag whose name is not of ASCII": not all(map(str.isascii, broken)),
        "entries that tags hide": bool(found.shadowed),
        "an unreadable entry": bool(found.unreadable),
        "a manifest that lists a missing blob": bool(found.open()),
        "an absent blob": bool(found.absent),
    }


def wrong_random(room, seed):
    """Return the problem with the findings in a layout that a seed makes, or None, and what there is in the layout."""
    chance, folder = random.Random(seed), "%s/%d" % (room, os.getpid())
    shutil.rmtree(folder, ignore_errors=True)
    write_random(folder + "/layout", chance)
    found = Verify(folder + "/layout")
    complaint = wrong_layout(folder, chance.choice(FLAGS))
    if not complaint and chance.random() < 0.2:
        pack(folder + "/layout.tar", folder + "/layout", ["."], chance.choice([tarfile.GNU_FORMAT, tarfile.PAX_FORMAT]))
        complaint = wrong_lines(folder, "layout.tar", [], found)
    return complaint and "seed %d: %s" % (seed, complaint), traits(found)


def at_random(room):
    with multiprocessing.Pool() as pool:
        results = pool.map(functools.partial(wrong_random, room), range(LAYOUTS), 10)
    yield "%d layouts at random" % LAYOUTS, first(it for it, _ in results)
    for what in results[0][1]:
        count = sum(found[what] for _, found in results)
        yield "%d of them have %s" % (count, what), None if count >= LEAST else "too few"


def checks(room):
    for number, group in enumerate([by_hand, at_random]):
        folder = "%s/%d" % (room, number)
        os.mkdir(folder)
        yield from group(folder)
