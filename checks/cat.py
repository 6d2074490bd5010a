"""The command `cat`: the bytes of blobs, from a folder and from an archive, whole or damaged."""
import hashlib
import json
import os
import random
import subprocess
import tarfile
from collections import namedtuple

from support.layouts import E, FOO, INDEX, LAYER, Content, blob, descriptor, digits, image, index, key, write_layout
from support.program import PROGRAM, SECONDS
from support.tar_files import pack

MOST = 4 << 20
# The size of a blob of zeros, of which the file has no blocks, and the most kilobytes of memory that a run may take for it. (the memory of
# a run includes that of the process that started it)
ZEROS, MEMORY = 512 << 20, 256 << 10
CHANCE = random.Random(1)
# Blobs around the size up to which one is checked before its first byte is written, and around one and several parts.
SIZES = [0, 1, (1 << 20) - 1, 1 << 20, (1 << 20) + 1, MOST - 1, MOST, MOST + 1, MOST + (1 << 20), 3 * MOST + 5]
LAYERS = [Content(LAYER, CHANCE.randbytes(size)) for size in SIZES]
IMAGE = image([FOO, *LAYERS])
OTHER = Content(LAYER, b"by another algorithm", "sha512")
LIST = index([IMAGE])
# An index that states the platform of the image.
PLATFORM = {"architecture": "arm64", "os": "linux"}
STATED = Content(INDEX, json.dumps({"schemaVersion": 2, "manifests": [dict(json.loads(descriptor(IMAGE)), platform=PLATFORM)]}).encode())
CONTENTS = [E, FOO, *LAYERS, OTHER, IMAGE, LIST, STATED]
TAGS = {"image": IMAGE, "list": LIST, "stated": STATED, "empty": E, "other": OTHER}

Ended = namedtuple("Ended", "status out err")


def run(words, folder):
    """Run the program, which may print any length."""
    with open(folder + "/out", "wb") as out, open(folder + "/err", "wb") as err:
        status = subprocess.run([PROGRAM, *words], cwd=folder, stdin=subprocess.DEVNULL, stdout=out, stderr=err, timeout=SECONDS).returncode
    with open(folder + "/out", "rb") as out, open(folder + "/err") as err:
        return Ended(status, out.read(), err.read())


def told(ended):
    return "status %d, %d bytes that begin with %r, %r" % (ended.status, len(ended.out), ended.out[:20], ended.err)


def digest(content):
    return "%s:%s" % (content.algorithm, digits(content))


def whole(room):
    """Check each blob, by its digest and its tags."""
    for layout in "layout", "layout.tar":
        named = {**TAGS, **{digest(it): it for it in CONTENTS}}
        for reference, content in named.items():
            ended = run(["cat", layout, reference], room)
            right = (ended.status, ended.out, ended.err) == (0, content.bytes, "")
            yield "cat %s %.20s, %d bytes" % (layout, reference, len(content.bytes)), None if right else told(ended)
    as_json = run(["cat", "--json", "layout", "image"], room)
    yield "cat --json", None if (as_json.status, as_json.out) == (0, IMAGE.bytes) else told(as_json)
    picked = run(["cat", "--platform", "linux/arm64", "layout", "stated"], room)
    yield "cat --platform", None if (picked.status, picked.out) == (0, IMAGE.bytes) else told(picked)


def large(room):
    """Check the memory that a large blob takes."""
    whole = hashlib.sha256()
    for _ in range(ZEROS >> 20):
        whole.update(bytes(1 << 20))
    descriptor = {"mediaType": LAYER, "digest": "sha256:" + whole.hexdigest(), "size": ZEROS}
    write_layout(room + "/large", [], {})
    with open(room + "/large/index.json", "w") as file:
        json.dump({"schemaVersion": 2, "manifests": [descriptor]}, file)
    path = "%s/large/blobs/sha256/%s" % (room, whole.hexdigest())
    os.makedirs(os.path.dirname(path), exist_ok=True)
    with open(path, "wb") as file:
        file.truncate(ZEROS)
    process = subprocess.Popen([PROGRAM, "cat", "large", descriptor["digest"]], cwd=room, stdout=subprocess.DEVNULL)
    _, status, usage = os.wait4(process.pid, 0)
    process.returncode = os.waitstatus_to_exitcode(status)
    found = process.returncode, usage.ru_maxrss < MEMORY
    yield "%d MB" % (ZEROS >> 20), None if found == (0, True) else "status %d, %d KB" % (process.returncode, usage.ru_maxrss)


def damage(room, content, bytes):
    with open("%s/layout/%s" % (room, blob(content)), "wb") as file:
        file.write(bytes)


def damaged(room):
    """Check blobs whose files do not match."""
    for content in [LAYERS[1], LAYERS[3], LAYERS[6], LAYERS[7], LAYERS[9]]:
        good, size = content.bytes, len(content.bytes)
        for what, bad in {
            "another last byte": good[:-1] + bytes([good[-1] ^ 1]),
            "another first byte": bytes([good[0] ^ 1]) + good[1:],
            "a byte fewer": good[:-1],
            "a byte more": good + b"x",
            "no byte": b"",
        }.items():
            damage(room, content, bad)
            ended = run(["cat", "layout", digest(content)], room)
            # (a layout does not hold a file of another size)
            is_other = len(bad) != size
            line = ("ocicp: 75 Corrupt %s\n" if is_other else "ocicp: 88 Fetch %s 21 Corrupt\n") % key(content)
            is_cut = ended.out == b"" if is_other or size <= MOST else ended.out == bad
            yield "%d bytes, %s" % (size, what), None if (ended.status, ended.err) == (1, line) and is_cut else told(ended)
        damage(room, content, good)


def refused(room):
    for words, line in [
        (["layout", "nope"], "36 UnknownReference"),
        (["layout", ""], "35 EmptyReference"),
        (["layout", "sha256:" + "0" * 64], "36 UnknownReference"),
        (["--platform", "linux/arm64", "layout", "image"], "107 NoPlatform linux/arm64"),
        (["nothing", "image"], "70 NoLayoutFile"),
    ]:
        ended = run(["cat", *words], room)
        yield "cat %s" % words, None if ended == (1, b"", "ocicp: %s\n" % line) else told(ended)
    os.truncate("%s/layout/%s" % (room, blob(IMAGE)), 7)
    ended = run(["cat", "layout", "image"], room)
    yield "a damaged manifest", None if ended == (1, b"", "ocicp: 75 Corrupt %s\n" % key(IMAGE)) else told(ended)
    damage(room, IMAGE, IMAGE.bytes)
    os.remove("%s/layout/%s" % (room, blob(OTHER)))
    ended = run(["cat", "layout", "other"], room)
    yield "a blob without a file", None if ended == (1, b"", "ocicp: 36 UnknownReference\n") else told(ended)


def broken(room):
    """Check an output that takes nothing more."""
    for content in LAYERS[3], LAYERS[9]:
        with open("/dev/full", "wb") as full:
            command = [PROGRAM, "cat", "layout", digest(content)]
            ended = subprocess.run(command, cwd=room, stdout=full, stderr=subprocess.PIPE, text=True, timeout=SECONDS)
        found = ended.returncode, ended.stderr
        yield "%d bytes onto a full disk" % len(content.bytes), None if found == (1, "ocicp: 94 Output\n") else "%r" % (found,)


def checks(room):
    write_layout(room + "/layout", CONTENTS, TAGS)
    pack(room + "/layout.tar", room + "/layout", ["."], tarfile.GNU_FORMAT)
    for group in whole, large, damaged, broken, refused:
        yield from group(room)
