"""`copy --all --prune`, against `copy --all`, an index without the other tags and `prune --untagged` one after the other, refused, and killed
half-way. Wants `cc`."""
import os
import shutil
import signal

from support import shim
from support.dry_runs import wrong_dry_run
from support.files import files, stamps
from support.indexes import without_names
from support.layouts import BAR, E, FOO, I1, LAYER, M2, M3, S, Content, blob, image, key, write_layout
from support.program import first, run, told, wrong_layout
from support.pruning import Held, Prune

OLD = Content(LAYER, b"old layer")
OLD_IMAGE, OF_OLD = image([BAR, OLD]), image([], subject=image([BAR, OLD]))
# Contents, tags, and untagged entries.
SOURCES = {
    "an image": ([E, FOO, M2], {"new": M2}, []),
    "two images and their index": ([E, FOO, BAR, M2, M3, I1], {"both": I1, "b": M2, "a": M3}, []),
    "an untagged signature": ([E, FOO, M2, S], {"new": M2}, [S]),
}
MIRRORS = {
    "nothing": ([], {}, []),
    "the same image": ([E, FOO, M2], {"new": M2}, []),
    "an old image with that tag": ([E, BAR, OLD, OLD_IMAGE, OF_OLD], {"new": OLD_IMAGE}, [OF_OLD]),
    "old images with other tags": ([E, BAR, OLD, OLD_IMAGE, FOO, M3], {"z": OLD_IMAGE, "older": OLD_IMAGE, "a": M3}, []),
    "a signature of the image": ([E, FOO, M2, S], {"image": M2, "signature": S}, []),
    "an untagged index": ([E, FOO, BAR, M2, M3, I1], {"c": M2}, [I1]),
    "blobs that nothing lists": ([E, FOO, M2], {"new": M2}, []),
}
# One line is noted for each file that takes the place of another.
RENAMES = shim.CHANGES + r"""
static int on_change(const char *path) {
  if (path && strlen(path) > 11 && !strcmp(path + strlen(path) - 11, "/index.json")) mark();
  return 0;
}
"""


def fresh(room, source, mirror):
    for name, layout in ("source", source), ("mirror", mirror):
        shutil.rmtree("%s/%s" % (room, name), ignore_errors=True)
        write_layout("%s/%s" % (room, name), *layout)


def in_turn(room, folder):
    """Mirror into a folder by three commands, and return the texts that the one command is to print."""
    copied = run(["copy", "--all", "source", folder], room)
    assert copied.status == 0, told(copied)
    tags, wanted = Held("%s/%s" % (room, folder)).tags, Held(room + "/source").tags
    others = sorted(set(tags) - set(wanted), key=str.encode)
    without_names("%s/%s" % (room, folder), others)
    prune = Prune("%s/%s" % (room, folder), True)
    assert run(["prune", "--untagged", folder], room).status == 0
    lines = ["untagged %s %s %d %s\n" % (name, tags[name].digest, tags[name].size, tags[name].media_type) for name in others]
    return copied.out + "".join(lines) + prune.out, copied.err


def mirrored(room, library):
    """Copy each source into each mirror."""
    for source in SOURCES:
        for mirror in MIRRORS:
            fresh(room, SOURCES[source], MIRRORS[mirror])
            if mirror == "blobs that nothing lists":
                with open("%s/mirror/%s" % (room, blob(OLD)), "wb") as file:
                    file.write(OLD.bytes)
            shutil.rmtree(room + "/turn", ignore_errors=True)
            shutil.copytree(room + "/mirror", room + "/turn")
            out, left = in_turn(room, "turn")
            planned = wrong_dry_run(room, ["--all", "--prune"], out)
            saves, ended = shim.run_marked(library, ["copy", "--all", "--prune", "source", "mirror"], room)
            again = run(["copy", "--all", "--prune", "source", "mirror"], room)
            yield "%s, where there is %s" % (source, mirror), first([
                planned,
                None if ended[:3] == (0, out, left) else told(ended),
                None if files(room + "/mirror") == files(room + "/turn") else "other files than by three commands",
                None if saves == 1 else "the index is put in place %d times" % saves,
                None if again.status == 0 and "pushed 0" in again.out and "removed 0 files 0" in again.out else told(again),
            ])


def wrong_refusal(room, line):
    """Return the problem with a mirror that is to be refused with this line, and to change nothing, with --dry-run too, or None."""
    before = stamps(room + "/mirror")
    ends = [run(["copy", "--all", "--prune", *words, "source", "mirror"], room) for words in (["--dry-run"], [])]
    return first([
        *(None if it[:3] == (1, "", "ocicp: %s\n" % line) else told(it) for it in ends),
        None if stamps(room + "/mirror") == before else "the mirror has changed",
    ])


def refused(room):
    lost = Content(LAYER, b"lost")
    good = SOURCES["an image"]
    old = MIRRORS["old images with other tags"]
    fresh(room, ([E, FOO, M2], {}, [M2]), old)
    yield "a source without tags", wrong_refusal(room, "97 NoTags")
    fresh(room, ([E, FOO, M2], {"new": M2, "lost": lost}, []), old)
    yield "a source without the file of an entry", wrong_refusal(room, "96 Unknown " + key(lost))
    fresh(room, good, (old[0], old[1], [lost]))
    yield "a mirror without the file of an untagged entry", wrong_refusal(room, "96 Unknown " + key(lost))
    fresh(room, good, old)
    os.rename(room + "/mirror/blobs", room + "/blobs")
    os.symlink("../blobs", room + "/mirror/blobs")
    yield "a mirror whose blobs are elsewhere", wrong_refusal(room, "98 LinkedBlobs blobs")
    os.remove(room + "/mirror/blobs")
    os.rename(room + "/blobs", room + "/mirror/blobs")
    os.remove("%s/mirror/%s" % (room, blob(OLD)))
    yield "a mirror that lacks a layer", wrong_refusal(room, "80 DestinationOpen %s %s" % (key(OLD_IMAGE), key(OLD)))
    for words in ["--prune", "source", "new", "mirror"], ["--prune", "source", "mirror"], ["--prune", "--dry-run", "source", "mirror"]:
        before = stamps(room + "/mirror")
        ended = run(["copy", *words], room)
        yield "copy " + " ".join(words), first([
            None if ended.status == 2 and not ended.out else told(ended),
            None if stamps(room + "/mirror") == before else "the mirror has changed",
        ])


def killed_new(room, library):
    """Kill a mirror into a new folder before each change that it makes, and check that the same mirror again is not refused: at no time are
    there blobs and no index."""
    source = SOURCES["two images and their index"]
    for number in range(1, shim.MOST + 1):
        fresh(room, source, MIRRORS["nothing"])
        shutil.rmtree(room + "/mirror")
        made, ended = shim.run_marked(library, ["copy", "--all", "--prune", "source", "mirror"], room, {"LAST_CHANGE": str(number)})
        if made < number:
            break
        plan, again = (run(["copy", "--all", "--prune", *words, "source", "mirror"], room) for words in (["--dry-run"], []))
        yield "a mirror into a new folder, killed before change %d" % number, first([
            None if ended.status == -signal.SIGKILL else "it was not killed: " + told(ended),
            None if plan.status == 0 else told(plan),
            None if again.status == 0 else told(again),
            wrong_layout(room, "mirror", source[0], source[1]),
        ])
    yield "it makes between 10 and %d changes" % shim.MOST, None if 10 < number < shim.MOST else "it makes %d" % (number - 1)


def killed(room, library):
    """Kill a mirror before each change that it makes, and check that each tag, and everything that it reaches, is there."""
    source, mirror = SOURCES["two images and their index"], MIRRORS["old images with other tags"]
    fresh(room, source, mirror)
    shutil.copytree(room + "/mirror", room + "/turn")
    in_turn(room, "turn")
    for number in range(1, shim.MOST + 1):
        fresh(room, source, mirror)
        made, ended = shim.run_marked(library, ["copy", "--all", "--prune", "source", "mirror"], room, {"LAST_CHANGE": str(number)})
        if made < number:
            break
        tags, verified = Held(room + "/mirror").tags, run(["verify", "mirror"], room)
        again = run(["copy", "--all", "--prune", "source", "mirror"], room)
        yield "killed before change %d" % number, first([
            None if ended.status == -signal.SIGKILL else "it was not killed: " + told(ended),
            None if set(tags) in (set(source[1]), set(mirror[1])) else "tags: %s" % sorted(tags),
            None if verified.status == 0 else told(verified),
            None if again.status == 0 else told(again),
            None if files(room + "/mirror") == files(room + "/turn") else "the same mirror again leaves something else",
        ])
    yield "the mirror makes between 10 and %d changes" % shim.MOST, None if 10 < number < shim.MOST else "it makes %d" % (number - 1)


def checks(room):
    renames, kill = shim.built(room, "renames", RENAMES), shim.built(room, "kill", shim.KILLS)
    for number, group in enumerate([lambda at: mirrored(at, renames), refused, lambda at: killed(at, kill), lambda at: killed_new(at, kill)]):
        folder = "%s/%d" % (room, number)
        os.mkdir(folder)
        yield from group(folder)
