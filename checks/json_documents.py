"""The documents of `--json`: each has the facts of the lines, for layouts made by hand and at random, archives, odd texts, large sums
and a deep graph."""
import functools
import json
import multiprocessing
import os
import random
import shutil
import tarfile
import tempfile
from itertools import accumulate

from support import indexes, prune_cases
from support.json_rooms import Rooms
from support.layouts import BAR, E, FOO, IMAGE, LAYER, M2, M3, S, Content, descriptor, digits, image, write_layout
from support.program import TOP, first, run, told
from support.pruning import Held
from support.tar_files import pack

LAYOUTS = 40
# `L` is the layout or an archive of it, `M` another layout, and `N` a folder that does not exist.
OF_REFERENCES = ["resolve L REF", "predecessors L REF", "tree L REF", "tree --referrers L REF", "copy --dry-run L REF M"]
LOOKS = [
    "tags L", "verify L", "copy --dry-run --all --referrers L M", "copy --dry-run --all --descend L N", "copy --dry-run --all --prune L M",
    "copy --dry-run --all --prune --referrers L N", "copy --archive --dry-run --all L N", *OF_REFERENCES,
]
# (by one worker, since a copy by more that is refused may leave one or another blob)
CHANGES = [
    "prune --dry-run L", "prune --dry-run --untagged L", "prune --dry-run --leftovers L", "copy --workers 1 --progress L TAG M new",
    "copy --archive L TAG made.tar", "copy --archive --all --progress L all.tar", "copy --workers 1 --referrers --depth 1 L DIGEST N", "copy --workers 1 --all --descend L M", "copy --workers 1 --all --prune L M",
    "tag L DIGEST newer", "tag L TAG newest", "untag L TAG", "untag M new", "prune L", "prune --untagged L", "prune L",
    "prune M", "prune --untagged M", "verify M", "tags M",
]
# (a JSON text has some of these only as escapes)
TEXTS = [
    'a "quoted" text', "back\\slash\\u0041 \\", "a tab\tand\na line feed\r", "\x01\x1b[31m\x7f", "\u00e9\u4e16\U0001f600",
    "\u2028\ufeff/", "{}", " ", "\x80\x9f\uffff",
]
OF_TEXTS = [
    "resolve L TEXT", "tree --referrers L TEXT", "predecessors L TEXT", "copy L TEXT M", "copy --dry-run L TEXT N", "tag L TEXT newer", "tag M new TEXT", "untag M TEXT",
]
# The greatest size, and sums of sizes: the greatest that 64 bits hold, and others. Not every file system has files of such sizes.
MOST = (1 << 63) - 1
TOTALS = [(1 << 64) - 1, 1 << 64, 3 * MOST - 1]
LARGE = "/dev/shm"
# The number of images in a chain, and how deep a document may be nested.
DEPTH, NESTED = 3000, 5
EXAMPLE = TOP + "/examples/hello"


def words_of(command, **named):
    return [named.get(word, word) for word in command.split(" ")]


def write_others(folder):
    """Write an archive of the layout and another layout beside it."""
    pack(folder + "/layout.tar", folder + "/layout", ["."], tarfile.GNU_FORMAT)
    write_layout(folder + "/other", [E, FOO, BAR, M2, M3, S], {"a": M2, "old": M3, "z": M3}, [S])


def write_case(case, folder):
    prune_cases.write_case(folder + "/layout", case)
    write_others(folder)


def write_random(seed, folder):
    chance = random.Random(seed)
    prune_cases.write_random(folder + "/layout", chance)
    if chance.random() < 0.3:
        indexes.add_unreadable(folder + "/layout", chance)
    write_others(folder)
    if chance.random() < 0.5:
        prune_cases.write_random(folder + "/other", chance)
    if chance.random() < 0.3:
        indexes.add_unreadable(folder + "/other", chance)


def wrong_layout(room, make):
    """Return the problem with the documents about a layout and its archive, or with those of the commands that change it, or None."""
    rooms = Rooms(room, make)
    tag = min(Held(rooms.folders[0] + "/layout").tags, default="nope")
    named = {"M": "other", "N": "new", "TAG": tag, "DIGEST": "sha256:" + digits(E)}
    looks = [(layout, it) for layout in ("layout", "layout.tar") for it in LOOKS]
    commands = [(layout, reference, it) for layout, it in looks for reference in ([tag, named["DIGEST"]] if "REF" in it else [""])]
    commands += [("layout", "nope", it) for it in [*OF_REFERENCES, *CHANGES]]
    return first(rooms.wrong(words_of(it, L=layout, REF=reference, **named)) for layout, reference, it in commands)


def by_hand(room):
    cases = [("%s/%d" % (room, number), functools.partial(write_case, case)) for number, case in enumerate(prune_cases.CASES.values())]
    with multiprocessing.Pool() as pool:
        yield from zip(prune_cases.CASES, pool.starmap(wrong_layout, cases))


def at_random(room):
    cases = [("%s/%d" % (room, seed), functools.partial(write_random, seed)) for seed in range(LAYOUTS)]
    with multiprocessing.Pool() as pool:
        yield "%d layouts at random" % LAYOUTS, first(pool.starmap(wrong_layout, cases))


def example(room):
    rooms = Rooms(room, lambda folder: shutil.copytree(EXAMPLE, folder + "/layout"))
    for command in ["tags L", "tree --referrers L base", "verify L", "copy --all L M", "copy --all --prune L M", "untag M both", "prune M",
                    "prune --untagged M"]:
        yield "the example, " + command, rooms.wrong(words_of(command, L="layout", M="mirror"))
    for word in [*map(str, range(256)), "NotFound", "Memory"]:
        complaint = rooms.wrong(["explain", word]) if run(["explain", word], room).status == 0 else None
        if complaint:
            break
    yield "explain", complaint


def write_texts(folder):
    """Write a layout with odd tags, media types and artifact types, and files with such names."""
    layers = [Content(text, b"layer %d" % number) for number, text in enumerate(TEXTS)]
    images = [odd_image(text, layer) for text, layer in zip(TEXTS, layers)]
    signatures = [odd_image(text, layers[0], subject=images[0]) for text in TEXTS]
    # (no word can have a NUL)
    tags = {**dict(zip(TEXTS, images)), "a NUL \0": images[0]}
    write_layout(folder + "/layout", [E, *layers, *images, *signatures], tags, signatures)
    for number, text in enumerate(TEXTS):
        with open("%s/%s" % (folder, text.replace("/", " ")), "w") as file:
            file.write(text)


def odd_image(text, layer, subject=None):
    of = lambda it: {"mediaType": it.media_type, "digest": "sha256:" + digits(it), "size": len(it.bytes)}
    value = {"schemaVersion": 2, "artifactType": text, "config": of(E), "layers": [of(layer)]}
    return Content(IMAGE, json.dumps({**value, **({"subject": of(subject)} if subject else {})}).encode())


def texts(room):
    rooms = Rooms(room, write_texts)
    yield "odd tags", rooms.wrong(["tags", "layout"])
    for text in TEXTS:
        name = text.replace("/", " ")
        yield "the text %r" % text, first([
            *(rooms.wrong(words_of(it, L="layout", M="mirror", TEXT=text)) for it in OF_TEXTS),
            rooms.wrong(["mem", "%s=%s" % (text, name)]),
            # (refused, with the text in a value that the refusal carries)
            *(rooms.wrong(it) for it in [["mem", text], ["mem", "type=%s/%s" % (name, text)], ["copy", "layout", text, name],
                                         ["prune", name], ["untag", name, text], ["resolve", name, text]]),
        ])
    yield "copies of odd tags", first(rooms.wrong(it.split()) for it in [
        "copy --all --workers 1 --progress layout all", "copy --all --prune layout all", "verify all", "prune all", "prune --untagged all"])


def image_of(sizes):
    """Return an image of layers that state these sizes, and the names of their files."""
    layers = [{"mediaType": LAYER, "digest": "sha256:%064x" % number, "size": size} for number, size in enumerate(sizes, 1)]
    value = {"schemaVersion": 2, "config": json.loads(descriptor(E)), "layers": layers}
    return Content(IMAGE, json.dumps(value).encode()), [it["digest"][len("sha256:"):] for it in layers]


def write_sum(total, files, folder):
    """Write a layout of an image that has this number of bytes, with its blobs, by the sizes that it states. The layers are links to files
    without bytes of their own."""
    largest = [MOST] * ((total - 1000) // (MOST + 1))
    # (the last size has as many digits as the others, so the image has the same length)
    rest = total - sum(largest) - len(E.bytes) - len(image_of([*largest, MOST])[0].bytes)
    made, names = image_of([*largest, rest])
    write_layout(folder + "/layout", [E, made], {"new": made})
    for name, size in zip(names, [*largest, rest]):
        file = "%s/%d" % (files, size)
        open(file, "w").close()
        os.truncate(file, size)
        os.symlink(file, "%s/layout/blobs/sha256/%s" % (folder, name))


def sums(room):
    try:
        with tempfile.TemporaryDirectory(prefix="ocicp-checks-", dir=LARGE) as files:
            yield from sums_of(room, files)
    except OSError:
        yield "sums over 64 bits are not looked at, since no file is that large here", None


def sums_of(room, files):
    for total in TOTALS:
        rooms = Rooms(room, functools.partial(write_sum, total, files))
        complaint = rooms.wrong("copy --dry-run layout new other".split())
        wanted = '"bytes":%d,' if total < 1 << 64 else '"bytes":"%d",'
        yield "a sum of %d" % total, complaint or (None if wanted % total in rooms.ended.out else told(rooms.ended))


def write_chain(folder):
    """Write a layout of images, each with a tag and with the one before as its subject."""
    images = [M2]
    for _ in range(DEPTH):
        images.append(image([], subject=images[-1]))
    write_layout(folder + "/layout", [E, FOO, *images], {str(number): it for number, it in enumerate(images)})


def chain(room):
    """Check that documents about a deep graph are not nested more deeply."""
    rooms = Rooms(room, write_chain)
    for command in ["tags L", "tree L %d" % DEPTH, "tree --referrers L 0", "copy --dry-run L %d M" % DEPTH, "copy --all L M",
                    "prune M", "prune --untagged M"]:
        complaint = rooms.wrong(words_of(command, L="layout", M="mirror"))
        deepest = max(accumulate({"{": 1, "[": 1, "}": -1, "]": -1}.get(it, 0) for it in rooms.ended.out), default=0)
        yield "a chain of %d images, %s" % (DEPTH, command), complaint or (None if deepest <= NESTED else "it is nested %d deep" % deepest)


def checks(room):
    for number, group in enumerate([example, by_hand, at_random, texts, sums, chain]):
        folder = "%s/%d" % (room, number)
        os.mkdir(folder)
        yield from group(folder)
