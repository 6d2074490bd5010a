"""Refusals of `prune`, `untag` and `tag`, which change nothing; folders that another process has locked; layouts that have lost their index;
files that cannot be removed. Wants `cc`."""
import fcntl
import os
import shutil
import subprocess
import tarfile

from support import shim
from support.files import files, stamps, wrong_refusal
from support.layouts import BAR, E, FOO, I1, LAYER, M2, M3, S, Content, blob, digits, image, index, key, write_layout
from support.program import NOBODY, PROGRAM, first, run, told
from support.pruning import Prune, notes, last_line

SECONDS = 60
A = Content(LAYER, b"a layer")
LONG = A._replace(algorithm="sha512")
STRAYS = ["blobs/sha256/%064x" % 1, "blobs/sha256/%064x" % 2, "blobs/sha512/%0128x" % 3, "index.json.0123456789abcdef.new"]
WAITS = "ocicp: waiting for another process that writes into layout\n"
LINKED = ["blobs", "blobs/sha256", "blobs/sha512"]
# An index that refers to the image that is tagged, and one that lacks an image.
REFERRER, LACKING = index([M3], subject=M2), index([I1, S])
# A referrer of an image that is not there.
LOST = image([A], number=1)
OF_LOST = image([], subject=LOST)
# Prunes without --untagged, and with it.
PLAIN, UNTAGGED = (
    [["prune", *form, *flags, "layout"] for flags in ([], ["--dry-run"], ["--no-wait"])] for form in ([], ["--untagged"]))
PRUNES = PLAIN + UNTAGGED
ALL = [E, FOO, BAR, M2, M3, A]
NO_TAGS, NO_INDEX = "97 NoTags", "109 NoIndex"
MIRRORS = [["copy", "--all", "--prune", *flags, "source", "layout"]
           for flags in ([], ["--dry-run"], ["--referrers"], ["--match", "n*"], ["--no-wait"])]
# A file beside the blobs whose name is no digest.
NOTES = "blobs/sha256/notes"

# Layouts without a tag, which only a prune with --untagged refuses, unless there is no entry: the contents, the tags, and the other
# entries of the index.
UNTAGGED_LAYOUTS = {
    "no tag": (ALL, {}, [M2, M3]),
    "an empty layout": ([], {}, []),
    "a tag that is the empty text": (ALL, {"": M2}, []),
}
# The causes of a refused prune, each with the contents, the tags, the other entries of the index, and the line of the refusal.
REFUSED = {
    "a tagged image that is not there": ([E, FOO, M2], {"new": M2, "other": M3}, [], "96 Unknown " + key(M3)),
    "an image without a tag that is not there": ([E, FOO, M2], {"new": M2}, [M3], "96 Unknown " + key(M3)),
    "a tagged layer that is not there": ([E, FOO, M2], {"new": M2, "layer": BAR}, [], "96 Unknown " + key(BAR)),
    "a layer without a tag that is not there": ([E, FOO, M2], {"new": M2}, [A, BAR], "96 Unknown " + key(A)),
    "an index that lacks an image": ([E, FOO, M2, I1], {"new": I1}, [], "96 Unknown " + key(M3)),
    "an index in an index that lacks an image": ([E, FOO, M2, I1, index([I1])], {"new": index([I1])}, [], "96 Unknown " + key(M3)),
    "an image that lacks its subject": ([E, S], {"new": S}, [], "96 Unknown " + key(M2)),
    "a referrer that lacks an image": ([E, FOO, M2, REFERRER], {"new": M2}, [REFERRER], "96 Unknown " + key(M3)),
}
# Contents without a tag that lack a manifest, so that nobody knows what they need. With --untagged they are removed.
LACKING_UNTAGGED = {
    "an index without a tag that lacks an image": ([*ALL, I1, LACKING], [LACKING], S),
    "an image without a tag that lacks its subject": ([*ALL, OF_LOST], [OF_LOST], LOST),
}
# A manifest, and the bytes of its file, which are damaged or cannot be read.
DAMAGED = {
    "other bytes": (M2, M2.bytes.replace(b"2", b"3")),
    "fewer bytes": (M2, M2.bytes[:-1]),
    "no JSON": (M2._replace(bytes=b"["), b"["),
    "no config": (M2._replace(bytes=b"{}"), b"{}"),
}


def fresh(room, contents, tags, untagged=(), strays=STRAYS):
    """Write a layout with files that a prune removes."""
    shutil.rmtree(room + "/layout", ignore_errors=True)
    write_layout(room + "/layout", contents, tags, untagged)
    os.makedirs(room + "/layout/blobs/sha512", exist_ok=True)
    for number, path in enumerate(strays):
        with open("%s/layout/%s" % (room, path), "wb") as file:
            file.write(b"x" * number)


def prunes(room):
    for what, (contents, tags, untagged, line) in REFUSED.items():
        fresh(room, contents, tags, untagged)
        yield "refused by " + what, first(wrong_refusal(room, words, line) for words in PRUNES)
    for what, layout in UNTAGGED_LAYOUTS.items():
        fresh(room, *layout)
        yield "%s, with --untagged" % what, first(wrong_refusal(room, words, NO_TAGS) for words in UNTAGGED)
        yield what, wrong_done(room, []) if layout[0] else first(wrong_refusal(room, words, NO_INDEX) for words in PLAIN)
    for what, (contents, untagged, lost) in LACKING_UNTAGGED.items():
        fresh(room, contents, {"new": M2}, untagged)
        yield what, first(wrong_refusal(room, words, "96 Unknown " + key(lost)) for words in PLAIN)
        yield "%s, with --untagged" % what, wrong_done(room, ["--untagged"])
    for what, (content, written) in DAMAGED.items():
        fresh(room, [E, FOO, content, M3], {"new": content, "other": M3})
        with open("%s/layout/%s" % (room, blob(content)), "wb") as file:
            file.write(written)
        yield "a manifest with %s" % what, first(wrong_refusal(room, words, "96 Unknown " + key(content)) for words in PRUNES)
        ended = run(["untag", "layout", "other"], room)
        yield "another tag, beside a manifest with %s" % what, None if ended[:3] == (0, "untagged %s\n" % key(M3), "") else told(ended)


def wrong_done(room, flags):
    """Return the problem with a prune that is not to be refused, or None."""
    prune = Prune(room + "/layout", bool(flags))
    ended = run(["prune", *flags, "layout"], room)
    return None if not prune.refusals and ended[:3] == (0, prune.out, "") else told(ended)


def linked(room):
    """Check layouts that share their blobs with another layout."""
    for link in LINKED:
        fresh(room, ALL, {"new": M2}, [M3])
        shutil.rmtree(room + "/shared", ignore_errors=True)
        os.rename("%s/layout/%s" % (room, link), room + "/shared")
        os.symlink(room + "/shared", "%s/layout/%s" % (room, link))
        yield "a link in the place of " + link, first(wrong_refusal(room, words, "98 LinkedBlobs " + link) for words in PRUNES)
    fresh(room, ALL, {"new": M2}, [M3])
    os.symlink(os.path.basename(blob(FOO)), "%s/layout/blobs/sha256/%064x" % (room, 9))
    yield "a blob that is a link to another one", first(wrong_refusal(room, words, "98 LinkedBlobs blobs/sha256") for words in PRUNES)
    # (the folder itself may be a link)
    fresh(room, ALL, {"new": M2}, [M3])
    os.rename(room + "/layout", room + "/real")
    os.symlink("real", room + "/layout")
    yield "a link to a layout", wrong_done(room, [])
    os.remove(room + "/layout")


def no_layouts(room):
    """Check paths that are no layouts, or no folders."""
    fresh(room, ALL, {"new": M2})
    with tarfile.open(room + "/layout.tar", "w") as archive:
        archive.add(room + "/layout", ".")
    os.symlink("layout.tar", room + "/link.tar")
    with open(room + "/text", "w") as file:
        file.write("a text\n")
    os.mkdir(room + "/folder")
    commands = [["prune"], ["prune", "--dry-run"], ["prune", "--no-wait"], ["untag"], ["untag", "--no-wait"]]
    for path, line in [*((it, "95 NotWritable " + it) for it in ("layout.tar", "link.tar", "text")),
                       *((it, "70 NoLayoutFile") for it in ("folder", "nothing", "nothing/in/it"))]:
        yield "%s is no layout" % path, first(
            wrong_refusal(room, [*words, path, *(["new"] if words[0] == "untag" else [])], line) for words in commands)


def lose(room, contents, strays=()):
    """Write a layout that has these blobs, and has lost its index."""
    fresh(room, contents, {}, strays=strays)
    os.remove(room + "/layout/index.json")


def no_index(room):
    """Check a layout that has blobs and has lost its index: nothing is removed from it. A mirror looks for that after SRC and the lock."""
    write_layout(room + "/source", [E, FOO, M2], {"new": M2})
    write_layout(room + "/without", [E, FOO, M2], {}, [M2])
    for what, contents, strays in ("a layer", [FOO], []), ("a blob of SHA-512", [LONG], []), ("an image", [E, FOO, M2], STRAYS), (NOTES, [], [NOTES]):
        lose(room, contents, strays)
        yield "%s and no index" % what, first(wrong_refusal(room, words, NO_INDEX) for words in [*PRUNES, *MIRRORS])
    lose(room, [E, FOO, M2])
    for words in MIRRORS[:2]:
        for source, line in ("without", NO_TAGS), ("nothing", "70 NoLayoutFile"):
            yield "%s: a source that is refused comes first" % " ".join(words), wrong_refusal(room, [*words[:-2], source, "layout"], line)
    folder = os.open(room + "/layout", os.O_RDONLY | os.O_DIRECTORY)
    fcntl.flock(folder, fcntl.LOCK_EX)
    yield "a mirror: the lock comes first", wrong_refusal(room, MIRRORS[-1], "99 Locked layout")
    os.close(folder)
    with open(room + "/layout/oci-layout", "w") as file:
        file.write("{}")
    yield "mirrors into a layout that cannot be opened", first(wrong_refusal(room, words, NO_INDEX) for words in MIRRORS)
    os.remove(room + "/layout/oci-layout")
    for words in PRUNES:
        yield "%s: blobs alone" % " ".join(words), wrong_refusal(room, words, "70 NoLayoutFile")
    yield "mirrors into blobs alone", first(wrong_refusal(room, words, NO_INDEX) for words in MIRRORS)
    yield from no_blobs(room)
    yield from not_lost(room)


def no_blobs(room):
    """Check layouts without an index and without blobs, which are empty ones."""
    for folders in ["sha256", "sha512"], ["sha256"], []:
        what = "no index, and %s" % (" and ".join(folders) or "no folder of blobs")
        lose(room, [], STRAYS[-1:])
        shutil.rmtree(room + "/layout/blobs")
        for it in folders:
            os.makedirs(room + "/layout/blobs/" + it)
        draft = "removed-file %s 0\n%s\n" % (STRAYS[-1], last_line(0, 0, [0]))
        yield "%s, with --untagged" % what, first(wrong_refusal(room, words, NO_TAGS) for words in UNTAGGED)
        for words in PLAIN[1], PLAIN[0]:
            ended = run(words, room)
            yield "%s: %s" % (what, " ".join(words)), None if ended[:3] == (0, draft, "") else told(ended)
        ended = run(MIRRORS[0], room)
        yield "%s: a mirror" % what, None if ended.status == 0 else told(ended)


def not_lost(room):
    """Check commands that a layout without its index does not refuse."""
    lose(room, [E, FOO, M3], STRAYS)
    out = "removed-file %s %d\n%s\n" % (STRAYS[-1], len(STRAYS) - 1, last_line(0, 0, [len(STRAYS) - 1]))
    for flags in ["--dry-run"], []:
        ended = run(["prune", "--leftovers", *flags, "layout"], room)
        yield " ".join(["no index: prune --leftovers", *flags]), None if ended[:3] == (0, out, "") else told(ended)
    before = files(room + "/layout")
    ended, left = run(["copy", "source", "new", "layout"], room), files(room + "/layout")
    yield "no index: a copy", first([
        None if ended.status == 0 else told(ended),
        first("%s has changed" % it for it in before if left.get(it) != before[it]),
        wrong_done(room, []),
    ])


def locked(room):
    """Check commands on a folder that another process has locked."""
    fresh(room, ALL, {"new": M2, "old": M3}, [A])
    shutil.copytree(room + "/layout", room + "/source")
    folder = os.open(room + "/layout", os.O_RDONLY | os.O_DIRECTORY)
    fcntl.flock(folder, fcntl.LOCK_EX)
    commands = {
        "prune": ["prune", "--no-wait", "layout"],
        "prune --untagged": ["prune", "--untagged", "--no-wait", "layout"],
        "untag": ["untag", "--no-wait", "layout", "old"],
        "tag": ["tag", "--no-wait", "layout", "new", "newer"],
        "copy": ["copy", "--no-wait", "source", "old", "layout"],
        "copy --all": ["copy", "--no-wait", "--all", "source", "layout"],
    }
    for name, words in commands.items():
        yield "%s --no-wait" % name, wrong_refusal(room, words, "99 Locked layout")
    prune = Prune(room + "/layout")
    for words in ["prune", "--dry-run", "layout"], ["prune", "--dry-run", "--no-wait", "layout"]:
        ended = run(words, room)
        yield "%s takes no lock" % " ".join(words), None if ended[:3] == (0, prune.out, "") else told(ended)
    os.close(folder)
    for words, out in (["untag", "layout", "old"], "untagged %s\n" % key(M3)), (["prune", "layout"], None):
        yield "%s waits for the lock" % words[0], wrong_wait(room, words, out or Prune(room + "/layout").out)
    for name, words in commands.items():
        ended = run(words, room)
        # (`prune --untagged` has removed the layer without a tag, which the source still has)
        wanted = {"untag": (1, "ocicp: 36 UnknownReference\n"), "copy --all": (0, notes(0, 1))}.get(name, (0, ""))
        yield "%s --no-wait, of a folder that is free" % name, None if (ended.status, ended.err) == wanted else told(ended)


def wrong_wait(room, words, out):
    """Return the problem with a command that has to wait, or None. Before it has the lock it is to change nothing."""
    when = stamps(room)
    folder = os.open(room + "/layout", os.O_RDONLY | os.O_DIRECTORY)
    fcntl.flock(folder, fcntl.LOCK_EX)
    pipes = {"stdin": subprocess.DEVNULL, "stdout": subprocess.PIPE, "stderr": subprocess.PIPE}
    with subprocess.Popen([PROGRAM, *words], cwd=room, text=True, **pipes) as process:
        said = process.stderr.readline()
        has_waited = process.poll() is None and stamps(room) == when
        os.close(folder)
        printed, err = process.communicate(timeout=SECONDS)
    return first([
        None if said == WAITS else "it says %r" % said,
        None if has_waited else "it does not wait for the lock",
        None if (process.returncode, printed, err) == (0, out, "") else "status %d, %s" % (process.returncode, (printed + err).strip()),
    ])


def written(room):
    """Check drafts that other processes are writing and have locked: they stay, and are not counted."""
    fresh(room, ALL, {"new": M2}, [M3])
    drafts = ["blobs/sha256/%s.%s.new" % (digits(it), "f" * 16) for it in (M2, A)] + [STRAYS[-1]]
    opened = [open("%s/layout/%s" % (room, it), "w") for it in drafts]
    for file in opened[1:]:
        fcntl.flock(file, fcntl.LOCK_EX)
    prune = Prune(room + "/layout", written=drafts[1:])
    for words in ["prune", "--dry-run", "layout"], ["prune", "layout"]:
        ended = run(words, room)
        yield "%s, with drafts that are written" % " ".join(words), None if ended[:3] == (0, prune.out, "") else told(ended)
    gone = [it for it in drafts if not os.path.exists("%s/layout/%s" % (room, it))]
    yield "drafts that are written stay", None if gone == drafts[:1] else "these are gone: %s" % gone
    for file in opened:
        file.close()


def wrong_kept(room, flags, kept, how):
    """Return the problem with a prune that cannot remove these files, or None. It is to remove the others, and to name these."""
    prune, before = Prune(room + "/layout", bool(flags)), files(room + "/layout")
    ended = how(["prune", *flags, "layout"])
    left = files(room + "/layout")
    lengths = {it: len(before[it]) for it in prune.gone if it not in kept}
    lines = ["removed-file %s " % it for it in kept]
    out = [it for it in prune.lines[:-1] if not it.startswith(tuple(lines))]
    out.append(last_line(len(prune.kept), len(prune.removed), lengths.values(), len(prune.free)))
    return first([
        None if (ended.status, ended.err) == (1, "ocicp: 79 NotRemoved %s\n" % kept[0]) else told(ended),
        None if ended.out.splitlines() == out else "it prints %s, and not %s" % (ended.out.splitlines(), out),
        None if set(before) - set(left) == set(lengths) else "it removed %s" % sorted(set(before) - set(left)),
        first("%s is not as it was" % it for it in left if it != "index.json" and left[it] != before[it]),
    ])


def wrong_later(room, flags):
    """Return the problem with a prune after one that could not remove all files, or None."""
    prune = Prune(room + "/layout", bool(flags))
    ended, verified = run(["prune", *flags, "layout"], room), run(["verify", "layout"], room)
    return first([
        None if prune.gone and not prune.removed else "the index was not saved",
        None if ended[:3] == (0, prune.out, "") else told(ended),
        None if verified[:3] == (0, "held %d\n" % len(prune.kept), "") else told(verified),
    ])


def not_removed(room):
    """Check files that cannot be removed, one by one and all files of a folder."""
    library = shim.built(room, "keep", shim.KEEPS)
    for flags, paths in ([], STRAYS), (["--untagged"], [*STRAYS, blob(BAR), blob(M3)]):
        for path in paths:
            fresh(room, ALL, {"new": M2}, [M3])
            environment = dict(os.environ, LD_PRELOAD=library, KEPT="layout/" + path)
            refused = wrong_kept(room, flags, [path], lambda words: run(words, room, env=environment))
            yield " ".join([path, "cannot be removed", *flags]), first([refused, wrong_later(room, flags)])
    fresh(room, ALL, {"new": M2}, [M3])
    yield unwritable(room)


def no_files(room):
    """Check what is no file in the place of a blob that nothing needs: it cannot be removed, and stays."""
    made = {"an empty folder": os.mkdir, "a folder with a folder": lambda at: os.makedirs(at + "/inner"), "a FIFO": os.mkfifo}
    for what, make in made.items():
        fresh(room, ALL, {"new": M2}, [M3])
        prune = Prune(room + "/layout")
        path = "blobs/sha256/%064x" % 9
        make("%s/layout/%s" % (room, path))
        mode = os.lstat("%s/layout/%s" % (room, path)).st_mode
        dry = run(["prune", "--dry-run", "layout"], room)
        shown = dry.status == 0 and "removed-file %s 0" % path in dry.out.splitlines()
        ended = run(["prune", "layout"], room)
        yield what + " in the place of a blob", first([
            None if shown else told(dry),
            None if ended[:3] == (1, prune.out, "ocicp: 79 NotRemoved %s\n" % path) else told(ended),
            None if os.lstat("%s/layout/%s" % (room, path)).st_mode == mode else "it is not as it was",
        ])


def unwritable(room):
    """Check a folder that may only be read, as another user if this one may write into every folder."""
    folder = room + "/layout/blobs/sha256"
    os.chmod(folder, 0o555)
    user = NOBODY if os.access(folder, os.W_OK) else {}
    flags = ["--untagged"]
    kept = [it for it in Prune(room + "/layout", True).gone if it.startswith("blobs/sha256/")]
    try:
        for path in stamps(room + "/layout") if user else []:
            os.chown("%s/layout/%s" % (room, path), user["user"], user["group"])
        os.chmod(room, 0o711)
        refused = wrong_kept(room, flags, kept, lambda words: run(words, room, **user))
    except OSError:
        return "a folder that may only be read is not looked at, since no other user can run the program here", None
    os.chmod(folder, 0o755)
    return "a folder that may only be read", first([refused, wrong_later(room, flags)])


def checks(room):
    for number, group in enumerate([prunes, linked, no_layouts, no_index, locked, written, not_removed, no_files]):
        folder = "%s/%d" % (room, number)
        os.mkdir(folder)
        os.chmod(room, 0o711)
        yield from group(folder)
