"""`copy --archive` writes, to the byte, the archive of the layout that the same copy makes in a new folder, without the entries of manifests that
were not asked for, and that another entry reaches. Wants `cc`."""
import hashlib
import io
import json
import os
import random
import shutil
import subprocess
import tarfile

from support import shim
from support.exports import LARGE, Export, copy_of, head, remove, told_bytes, tree, whole, words_of
from support.indexes import add_unreadable, entry, named, saved_text
from support.layouts import BAR, E, FOO, I1, IMAGE, INDEX, LAYER, M2, M3, S, Content, blob, descriptor, digits, image, write_layout
from support.program import PROGRAM, first, run, told
from support.prune_cases import write_random
from support.tar_files import END, pack

OCTETS, SBOM = "application/octet-stream", "application/spdx+json"
# Two media types of one digest.
TWIN = FOO._replace(media_type=OCTETS)
TWINS = image([FOO, TWIN])
LONG_LAYER = Content(LAYER, b"a layer by another algorithm", "sha512")
LONG = image([LONG_LAYER, FOO])._replace(algorithm="sha512")
BILL = image([BAR], subject=M2, artifact_type=SBOM)
OF_BILL, BY_TAG, LOOSE = image([], subject=BILL), image([BAR], number=1), image([FOO], number=2)
PLATFORM = {"architecture": "arm64", "os": "linux", "variant": "v8"}
PLATFORMS = [entry(M3), entry(M2, platform=PLATFORM, annotations={"k": "v"})]
STATED = Content(INDEX, json.dumps({"schemaVersion": 2, "manifests": PLATFORMS}).encode())
CONTENTS = [E, FOO, BAR, M2, M3, I1, S, TWINS, LONG_LAYER, LONG, BILL, OF_BILL, BY_TAG, LOOSE, STATED]
NOTES = {"org.opencontainers.image.created": "2024-05-01T00:00:00Z", "\u00e9": "a \"text\"\n"}
# The entries of the index: with more than a descriptor, without a tag, and two of one tag.
ENTRIES = [
    named(M3, "one", NOTES), named(M2, "one", NOTES, platform=PLATFORM, other=[1, None, {"z": "a"}]), named(I1, "v1.both"),
    named(M2, "v1.again"), named(BAR, "layer"), named(TWINS, "twins"), named(LONG, "v2.long"), named(STATED, "stated"),
    named(BY_TAG, "sha256-%s.sig" % digits(M2)), named(TWIN, "octets"), named(E, "a tag with spaces: \u00e9"),
    entry(S, artifactType="application/vnd.example.signature"), entry(BILL, annotations=NOTES), entry(OF_BILL), entry(LOOSE, annotations=NOTES),
]
# Files that no copy brings.
STRAYS = ["manifest.json", "blobs/sha256/" + "0" * 64, "blobs/sha256/%s.0123456789abcdef.new" % digits(FOO), "blobs/sha384/" + "0" * 96]
DIGEST = "sha256:" + digits(M3)
OF_BILLS = "--referrers --artifact-type %s SRC one DST" % SBOM
# The words of copies, and those by which all of the archive that they make is copied again.
COPIES = {
    "SRC one DST": "SRC one DST",
    "SRC one DST other": "SRC other DST",
    "SRC v1.both DST": "--all SRC DST",
    "SRC %s DST" % DIGEST: "SRC %s DST" % DIGEST,
    "SRC %s DST new" % DIGEST: "SRC new DST",
    "SRC layer DST": "SRC layer DST",
    "SRC twins DST": "SRC twins DST",
    "SRC octets DST": "--all SRC DST",
    "SRC v2.long DST": "SRC v2.long DST",
    "--platform linux/arm64 SRC stated DST": "SRC stated DST",
    "--referrers SRC one DST": "--referrers SRC one DST",
    "--referrers --depth 1 SRC one DST": "--referrers --depth 1 SRC one DST",
    "--referrers --platform linux/arm64 SRC stated DST new": "--referrers SRC new DST",
    OF_BILLS: OF_BILLS,
    "--referrers --artifact-type text/none SRC one DST": "SRC one DST",
    "--all SRC DST": "--all SRC DST",
    "--all --match v1* --match l?yer SRC DST": "--all SRC DST",
    "--all --match one --referrers SRC DST": "--all --match one --referrers SRC DST",
    "--all --referrers SRC DST": "--all --referrers SRC DST",
    "--no-wait --no-sync SRC one DST": "SRC one DST",
}
# Names of FILE. Some are those of files and folders of a layout, and one leads through a link to a folder.
NAMES = ["index.json", "oci-layout", "./-", "a name, with spaces: \u00e9", "in/made.tar", "in/../in//made.tar", "link/made.tar", "made.new"]
# Sizes of layers around those of a block and of a part.
PART = 1 << 20
SIZES = [0, 1, 511, 512, 513, 1024, PART - 1, PART, PART + 1, 3 * PART, 3 * PART + 5]
# The number of random layouts, how many of them at least can be copied, and flags of copies.
LAYOUTS, COPIED = 60, 20
FLAGS = [[], [], ["--referrers"], ["--match", "a*"]]
# The size of a layer of zeros, of which the file has no blocks, and the most kilobytes of memory that a run may take for it. (the memory of
# a run includes that of the process that started it)
ZEROS, MEMORY = 256 << 20, 96 << 10
# If the environment has this, an archive with a layer of 8 GiB is read to its end, which takes minutes.
ASKED = "OCICP_CHECK_8_GIB"
# Notes each read from a blob of `source`: its digits, and how many bytes it returned.
READS = r"""
#define _GNU_SOURCE
#include <dlfcn.h>
#include <stdio.h>
#include <stdlib.h>
#include <string.h>
#include <sys/syscall.h>
#include <unistd.h>
static void note(int file, long got) {
  char place[64], path[4096], text[4200];
  snprintf(place, sizeof place, "/proc/self/fd/%d", file);
  long length = syscall(SYS_readlink, place, path, sizeof path - 1);
  path[length < 0 ? 0 : length] = 0;
  if (got <= 0 || !strstr(path, "/source/blobs/")) return;
  int count = snprintf(text, sizeof text, "%s %ld\n", strrchr(path, '/') + 1, got);
  if (syscall(SYS_write, atoi(getenv("MARK")), text, count) != count) abort();
}
#define READ(name, rest, words)                                                                              \
  ssize_t name(int file, void *bytes, size_t count rest) {                                                   \
    ssize_t got = ((ssize_t (*)(int, void *, size_t rest))dlsym(RTLD_NEXT, #name))(file, bytes, count words); \
    note(file, got);                                                                                         \
    return got;                                                                                              \
  }
#define COMMA ,
READ(read, , )
READ(pread, COMMA off_t at, COMMA at)
READ(pread64, COMMA off_t at, COMMA at)
"""


def wrong_out(export):
    """Return the problem with copies onto the output, or None. What they print is to be on the error output."""
    ended, as_json = export.run_out(), export.run_out("--json")
    remove(export.room + "/folder")
    document = export.run("folder", "--json").out
    return first([
        None if ended == (0, export.archive, export.ended.out + export.ended.err) else "onto the output: " + told_bytes(ended),
        None if as_json == (0, export.archive, document) else "onto the output with --json: " + told_bytes(as_json),
    ])


def wrong_document(export):
    """Return the problem with the document of a copy into a file, or None."""
    remove(export.room + "/folder")
    wanted, ended = export.run("folder", "--json"), export.run("json.tar", "--archive", "--json")
    return first([
        None if ended[:3] == wanted[:3] else "--json: %s; and into a folder: %s" % (told(ended), told(wanted)),
        export.wrong_bytes("json.tar"),
    ])


def wrong_dry_run(export):
    """Return the problem with dry runs, or None. They are to print what that of a copy into a new folder prints, and to write nothing."""
    before = sorted(os.listdir(export.room))
    for flags in ["--dry-run"], ["--dry-run", "--json"]:
        wanted = export.run("new", *flags)
        for file in "new", "-":
            ended = export.run(file, "--archive", *flags)
            if ended[:3] != wanted[:3]:
                return "%s into %s: %s; and into a folder: %s" % (" ".join(flags), file, told(ended), told(wanted))
    return None if sorted(os.listdir(export.room)) == before else "a dry run writes something"


def path_of(line):
    """Return the part of a blob's path that a line names."""
    return line.split()[1].replace(":", "/")


def wrong_progress(export):
    """Return the problem with the lines of --progress, or None. There is to be one for each blob, in the order of the archive."""
    planned = export.run("new", "--dry-run").out.splitlines()[:-1]
    ended, onto = export.run("progress.tar", "--archive", "--progress"), export.run_out("--progress")
    # (what stays in SRC comes last)
    notes = export.ended.err
    err = ended.err.removesuffix(notes)
    lines, wanted = err.splitlines(), ["pushed " + it for it in planned]
    # (blobs of one digest share a file, and a line)
    paths = [path_of(it) for it in lines]
    return first([
        None if (ended.status, ended.out) == (0, export.ended.out) else "--progress: " + told(ended),
        None if set(lines) <= set(wanted) and set(paths) == set(map(path_of, wanted)) else "--progress prints %s, and not %s" % (lines, wanted),
        None if sorted(set(paths)) == paths else "--progress has another order: %s" % lines,
        None if onto == (0, export.archive, err + ended.out + notes) else "--progress onto the output: " + told_bytes(onto),
    ])


def wrong_verify(export):
    """Return the problem with the archive as a layout, or None."""
    ended = run(["verify", "made.tar"], export.room)
    return None if ended.status == 0 else "verify: " + told(ended)


def wrong_copies(room, words, again):
    """Return the problem with copies by these words, from a layout, from an archive of it, and from the archive that is made, or None."""
    export = Export(room, words)
    if not export.is_copied:
        return "into a folder: " + told(export.ended)
    sources = ["source"], ["source", "--workers", "1"], ["source", "--workers", "64"], ["source.tar"]
    looks = wrong_verify, lambda it: it.wrong_again(again), wrong_out, wrong_document, wrong_dry_run, wrong_progress
    return first(export.wrong_file(*it) for it in sources) or export.wrong_gnu() or first(it(export) for it in looks)


def by_words(room):
    """Check copies by all kinds of words."""
    write_layout(room + "/source", CONTENTS, {})
    with open(room + "/source/index.json", "w") as file:
        json.dump({"schemaVersion": 2, "manifests": ENTRIES, "annotations": {"k": "v"}}, file)
    for path in STRAYS:
        os.makedirs(os.path.dirname("%s/source/%s" % (room, path)), exist_ok=True)
        with open("%s/source/%s" % (room, path), "wb") as file:
            file.write(b"stray")
    pack(room + "/source.tar", room + "/source", ["."], tarfile.PAX_FORMAT)
    for words, again in COPIES.items():
        yield "copy --archive " + words.replace(digits(M3), digits(M3)[:12]), wrong_copies(room, words, again)


def by_entries(room):
    """Check the entries of an index of two images with a signature, and of one of these images, which has no entry in the layout."""
    write_layout(room + "/source", [E, FOO, BAR, M2, M3, I1, S], {"both": I1}, [S])
    both = named(I1, "both")
    for words, wanted in {
        "source both FILE": [both],
        "--all source FILE": [both],
        "--referrers source both FILE": [both, entry(S)],
        "--all --referrers source FILE": [both, entry(S)],
        "source %s FILE" % DIGEST: [named(M3, DIGEST)],
        "source %s FILE third" % DIGEST: [named(M3, "third")],
    }.items():
        ended = run(copy_of(words, "made.tar"), room)
        wrong = told(ended) if ended.status else wrong_index(room + "/made.tar", wanted)
        yield "the entries of copy --archive " + words.replace(digits(M3), digits(M3)[:12]), wrong
        remove(room + "/made.tar")


def wrong_index(path, wanted):
    with tarfile.open(path, "r:") as archive:
        found = archive.extractfile("index.json").read()
    return None if found == saved_text(wanted).encode() else "the index is %.500r" % found


def by_names(room):
    """Check files of several names."""
    write_layout(room + "/source", [E, FOO, M2], {"one": M2})
    export = Export(room, "SRC one DST")
    os.mkdir(room + "/in")
    os.symlink("in", room + "/link")
    for name in [*NAMES, room + "/made.tar"]:
        before = tree(room)
        ended = export.run(name, "--archive")
        complaint = first([None if ended[:3] == export.ended[:3] else told(ended), export.wrong_bytes(name)])
        remove(os.path.join(room, name))
        yield "FILE is %s" % name.replace(room, "ROOM"), complaint or (None if tree(room) == before else "another file is there")


def by_sizes(room):
    """Check layers of many sizes."""
    chance = random.Random(1)
    layers = [Content(LAYER, chance.randbytes(size), algorithm) for size in SIZES for algorithm in ("sha256", "sha512")]
    write_layout(room + "/source", [E, *layers, image(layers)], {"one": image(layers)})
    export = Export(room, "SRC one DST")
    complaint = export.wrong_file() if export.is_copied else "into a folder: " + told(export.ended)
    looks = Export.wrong_gnu, wrong_verify, lambda it: it.wrong_again("SRC one DST"), wrong_out
    yield "layers of %d sizes" % len(SIZES), complaint or first(it(export) for it in looks)
    yield "each layer is read once", wrong_reads(room, layers)


def wrong_reads(room, layers):
    """Return the problem with the reads of layers, or None. Each byte is to be read once."""
    with open(room + "/notes", "wb") as file:
        environment = dict(os.environ, LD_PRELOAD=shim.built(room, "reads", READS), MARK=str(file.fileno()))
        words = words_of("SRC one DST", "source", "read.tar", "--archive")
        ended = run(words, room, env=environment, pass_fds=[file.fileno()])
    counts = {digits(it): 0 for it in layers}
    with open(room + "/notes") as file:
        for name, got in map(str.split, file):
            counts[name] = counts.get(name, 0) + int(got)
    others = [it for it in layers if counts[digits(it)] != len(it.bytes)]
    return first([
        None if ended.status == 0 else told(ended),
        *("%d bytes are read of a layer of %d" % (counts[digits(it)], len(it.bytes)) for it in others),
    ])


def at_random(room):
    """Check archives of random layouts, and copies from these. What a copy into a folder refuses is refused in the same way."""
    copied = 0
    for seed in range(LAYOUTS):
        chance = random.Random(seed)
        write_random(room + "/source", chance)
        if chance.random() < 0.3:
            add_unreadable(room + "/source", chance)
        flags = chance.choice(FLAGS)
        export = Export(room, " ".join(["--all", *flags, "SRC", "DST"]))
        copied += export.is_copied
        yield "random layout %d" % seed, wrong_random(export, flags) if export.is_copied else wrong_refusal(export)
    yield "%d of these layouts are copied" % copied, None if copied >= COPIED else "too few"


def wrong_random(export, flags):
    """Return the problem with the archive of a random layout, or None. A copy from it is to have the files of the copy from the layout."""
    complaint = export.wrong_file() or export.wrong_gnu()
    # (the referrers that come with an image need not have a tag)
    words = ["copy", "--all", *(flags if "--referrers" in flags else []), "made.tar", "back"]
    back = run(words, export.room)
    same = back.status == 0 and tree(export.room + "/back") == tree(export.room + "/folder")
    return complaint or (None if same else "back into a folder: " + told(back))


def wrong_refusal(export):
    ended = export.run("made.tar", "--archive")
    return first([
        None if ended[:3] == export.ended[:3] else "%s; and into a folder: %s" % (told(ended), told(export.ended)),
        "there is an archive" if os.path.lexists(export.room + "/made.tar") else None,
    ])


def write_zeros(folder, size, name):
    """Write a layout of an image with a layer of zeros, of which the file has no blocks and this name, and return what its archive is to have,
    in order: bytes, and in the place of the layer its size."""
    layer = {"mediaType": LAYER, "digest": "sha256:" + name, "size": size}
    value = {"schemaVersion": 2, "config": json.loads(descriptor(E)), "layers": [layer]}
    made = Content(IMAGE, json.dumps(value).encode())
    write_layout(folder, [E, made], {"one": made})
    with open("%s/blobs/sha256/%s" % (folder, name), "wb") as file:
        file.truncate(size)
    files = [("oci-layout", b'{"imageLayoutVersion":"1.0.0"}'), ("index.json", saved_text([named(made, "one")]).encode())]
    blobs = sorted((blob(it), whole(blob(it), it.bytes)) for it in (E, made))
    path = "blobs/sha256/" + name
    before = [whole(*it) for it in [*files, ("blobs/", b""), ("blobs/sha256/", b"")]] + [it for at, it in blobs if at < path]
    return b"".join(before) + head(path, size), size, b"".join(it for at, it in blobs if at > path) + END


def zeros_of(size):
    """Return the name of a blob of this number of zeros."""
    hasher = hashlib.sha256()
    for _ in range(size // PART):
        hasher.update(bytes(PART))
    return hasher.hexdigest()


def begin_copy(room, layout):
    words = [PROGRAM, "copy", "--archive", layout, "one", "-"]
    return subprocess.Popen(words, cwd=room, stdin=subprocess.DEVNULL, stdout=subprocess.PIPE, stderr=subprocess.DEVNULL)


def wrong_zeros(room, size):
    """Return the problem with the archive of a large layer, or with the memory of the run, or None."""
    before, size, behind = write_zeros(room + "/zeros", size, zeros_of(size))
    process, zeros = begin_copy(room, "zeros"), bytes(PART)
    with process.stdout as out:
        is_right = out.read(len(before)) == before
        # (all is read, so that the program can end)
        for _ in range(size // PART):
            is_right &= out.read(PART) == zeros
        is_right &= out.read() == behind
    _, status, usage = os.wait4(process.pid, 0)
    process.returncode = os.waitstatus_to_exitcode(status)
    shutil.rmtree(room + "/zeros")
    found = process.returncode, is_right, usage.ru_maxrss < MEMORY
    return None if found == (0, True, True) else "status %d, %s bytes, %d KB" % (found[0], "the right" if is_right else "other", usage.ru_maxrss)


def wrong_begin(room, size):
    """Return the problem with what comes before a layer of this size, or None. The layer is not read to its end, so its name is no digest of
    it."""
    name = "%064x" % 1
    before, *_ = write_zeros(room + "/begun", size, name)
    with begin_copy(room, "begun") as process:
        found = process.stdout.read(len(before))
        process.kill()
    shutil.rmtree(room + "/begun")
    with tarfile.open(fileobj=io.BytesIO(before), mode="r:") as archive:
        last = [archive.next() for _ in range(5)][-1]
    return first([
        None if (last.name, last.size) == ("blobs/sha256/" + name, size) else "Python reads %s of %d bytes" % (last.name, last.size),
        None if found == before else "it begins with other bytes",
    ])


def large(room):
    """Check a large layer, the memory that it takes, and sizes that do not fit into a header."""
    yield "a layer of %d MB" % (ZEROS >> 20), wrong_zeros(room, ZEROS)
    for size in LARGE - 1, LARGE, LARGE + 513, 1 << 40:
        yield "what comes before a layer of %d bytes" % size, wrong_begin(room, size)
    if os.environ.get(ASKED):
        yield "a layer of 8 GiB", wrong_zeros(room, LARGE)


def checks(room):
    # (`large` first, before this process becomes large, since the memory of a run includes the memory of its parent)
    for number, group in enumerate([large, by_words, by_entries, by_names, by_sizes, at_random]):
        folder = "%s/%d" % (room, number)
        os.mkdir(folder)
        yield from group(folder)
