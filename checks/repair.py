"""The blobs that `repair` writes and the lines that it prints, for damage made by hand and at random, by the rules in support/repairing.py; and
repairs that are refused."""
import functools
import json
import multiprocessing
import os
import random
import shutil
import stat
import tarfile

from support import indexes, prune_cases
from support.files import MOST, files, read, stamps, wrong_refusal
from support.json_rooms import Rooms
from support.layouts import BAR, E, FOO, I1, I4, M2, S, blob, image, key, write_layout
from support.program import NOBODY, first, run, told
from support.pruning import MEMBERS
from support.repair_layout import ALL, LARGE, fresh, write
from support.repairing import Repair
from support.tar_files import pack
from support.verifying import Verify

LAYOUTS, DOCUMENTS = 120, 20
FLAGS = [[], ["--workers", "1"], ["--workers", "0"], ["--workers", "7"], ["--no-sync"]]


# Damage

def change(file, chance):
    """Change one byte of a file."""
    with open(file, "r+b") as opened:
        content = bytearray(opened.read() or b"x")
        content[chance.randrange(len(content))] ^= 1 << chance.randrange(8)
        opened.seek(0)
        opened.write(content)


def cut(file, chance):
    os.truncate(file, chance.randrange(max(1, os.path.getsize(file))))


def lengthen(file, chance):
    with open(file, "ab") as opened:
        opened.write(b"more"[: chance.randrange(1, 5)])


def remove(file, chance):
    os.remove(file)


def put_folder(file, chance):
    os.remove(file)
    os.mkdir(file)


def put_full_folder(file, chance):
    put_folder(file, chance)
    with open(file + "/in", "w") as opened:
        opened.write("in")


DAMAGES = [change, change, cut, lengthen, remove, remove, put_folder, put_full_folder]


def blobs_of(folder):
    """Return the paths of the blobs of a layout."""
    return sorted(it for it, content in files(folder).items() if it.startswith("blobs/") and isinstance(content, bytes))


def damage(folder, chance, share):
    """Damage this share of the blobs of a layout."""
    for file in blobs_of(folder):
        if chance.random() < share:
            chance.choice(DAMAGES)("%s/%s" % (folder, file), chance)


# One repair

def wrong_end(room, words, repair):
    """Return the problem with the output of a repair, or None."""
    ended = run(["repair", *words], room)
    if ended[:3] != (repair.status, repair.out, repair.err):
        lines = ended.out.splitlines()
        return "repair %s: %s; it lacks %s, and has %s more" % (
            " ".join(words), told(ended), [it for it in repair.lines if it not in lines][:3], [it for it in lines if it not in repair.lines][:3])


def with_folders(repair, before):
    """Return the files of a layout after a repair, with the folders of those that are written."""
    made = {it for written in repair.written for it in ("blobs", os.path.dirname(written))}
    # (of a large file the length stands for the bytes)
    written = {it: content if len(content) <= MOST else (stat.S_IFREG, len(content)) for it, content in repair.written.items()}
    return {**dict.fromkeys(made, (stat.S_IFDIR, False)), **before, **written}


def wrong_left(repair, before, when):
    """Return the problem with the files of a layout after a repair, or None. Each file that is written is to be a new one, and no other file
    is to be touched."""
    left, now = files(repair.folder), stamps(repair.folder)
    wanted = with_folders(repair, before)
    for it in sorted({*left, *wanted}):
        if left.get(it) != wanted.get(it):
            return "%s is %s" % (it, "not as it is to be" if it in left and it in wanted else "left" if it in left else "gone")
        if it in repair.written and it in when and now[it][0] == when[it][0]:
            return "%s was not replaced as a whole" % it
        if it in repair.written and read("%s/%s" % (repair.folder, it)) != repair.written[it]:
            return "%s has other bytes" % it
        if it not in repair.written and isinstance(left[it], bytes) and now[it] != when[it]:
            return "%s was written" % it


def wrong_repair(room, words, folders, flags=()):
    """Return the problem with a repair of the folder `layout` from these sources, or None: first with --dry-run, which changes nothing, then
    without, then once more. `folders` has the folder with the files of each source."""
    layout, words = room + "/layout", [*flags, "layout", *words]
    repair = Repair(layout, folders)
    before, when, all_before = files(layout), stamps(layout), stamps(room)
    complaint = wrong_end(room, ["--dry-run", *words], repair)
    complaint = complaint or (None if stamps(room) == all_before else "--dry-run changed something")
    complaint = complaint or wrong_end(room, words, repair) or wrong_left(repair, before, when)
    others = {it: stamp for it, stamp in all_before.items() if it.split("/")[0] not in ("layout", ".")}
    return complaint or first([
        None if others.items() <= stamps(room).items() else "a source was changed",
        wrong_verify(room, repair),
        wrong_again(room, words, repair, Repair(layout, folders)),
    ])


def wrong_verify(room, repair):
    """Return the problem with what `verify` finds after a repair, or None."""
    ended, found = run(["verify", "layout"], room), Verify(room + "/layout")
    is_whole = ended.status == 0 and ended.out.endswith("held %d\n" % len(repair.held))
    is_right = (ended.status, ended.out.splitlines()) == (found.status(), found.lines())
    # (a file that was not whole may now show that an entry means another key)
    if not is_right or is_whole != (repair.status == 0) and found.roots() == repair.roots:
        return "verify: " + told(ended)


def wrong_again(room, words, before, repair):
    """Return the problem with a repair of what was repaired before, or None. It is to write nothing."""
    if repair.roots != before.roots:
        return wrong_end(room, words, repair)
    if repair.written:
        return "there is more to repair: " + " ".join(repair.written)
    when = stamps(room)
    complaint = wrong_end(room, words, repair)
    return complaint or (None if stamps(room) == when else "a repair that repairs nothing changed something")


# Layouts at random

def spoil_index(folder, chance):
    """Leave the index of a source as it is, or remove it, or write something else. It is not read."""
    content = chance.choice(["", "", None, "{", '{"manifests":5}'])
    if content is None:
        os.remove(folder + "/index.json")
    elif content:
        write(folder, "index.json", content.encode())


def write_source(room, name, contents, chance):
    """Write a source with some of these contents, some of them damaged, and return the word that names it and the folder of its files."""
    folder = "%s/%s" % (room, name)
    write_layout(folder, contents, {})
    spoil_index(folder, chance)
    damage(folder, chance, chance.choice([0, 0.2, 0.5]))
    if chance.random() < 0.6:
        return name, folder
    pack(folder + ".tar", folder, ["."], chance.choice([tarfile.GNU_FORMAT, tarfile.PAX_FORMAT]))
    return name + ".tar", folder


def write_random(room, chance):
    """Write a layout with damage and up to three sources, and return the words that name the sources, and their folders."""
    contents, layout = prune_cases.random_contents(chance), room + "/layout"
    manifests = [it for it in contents if it.media_type in MEMBERS] or contents
    tagged = {name: chance.choice(manifests) for name in "abc"[: chance.choice([1, 1, 2, 3])]}
    write_layout(layout, contents, tagged, [it for it in contents if chance.random() < 0.2])
    if chance.random() < 0.15:
        indexes.add_unreadable(layout, chance)
    indexes.add_odd(layout, chance, chance.choice([0, 0, 0, 0.3]))
    damage(layout, chance, chance.choice([0.2, 0.5, 0.9, 1]))
    sources = [write_source(room, "source-%d" % number, contents, chance) for number in range(chance.randrange(1, 4))]
    if chance.random() < 0.2:
        sources.insert(chance.randrange(len(sources) + 1), ("layout", layout))
    return [list(it) for it in zip(*sources)]


def wrong_random(room, seed):
    """Return the problem with a repair of a layout that a seed makes, or None, and what happens in it."""
    chance, folder = random.Random(seed), "%s/%d" % (room, os.getpid())
    shutil.rmtree(folder, ignore_errors=True)
    words, folders = write_random(folder, chance)
    repair = Repair(folder + "/layout", folders)
    seen = bool(repair.repaired), bool(repair.missing), bool(repair.below), any(repair.origins.values()), not repair.missing
    complaint = wrong_repair(folder, words, folders, chance.choice(FLAGS))
    return complaint and "seed %d: %s" % (seed, complaint), seen


def at_random(room):
    with multiprocessing.Pool() as pool:
        results = pool.map(functools.partial(wrong_random, room), range(LAYOUTS), 5)
    yield "%d layouts at random" % LAYOUTS, first(it for it, _ in results)
    kinds = ["are repaired", "miss a blob", "have a blob that only a repaired manifest lists", "take from a later source", "miss nothing"]
    for number, what in enumerate(kinds):
        count = sum(seen[number] for _, seen in results)
        yield "%d of them %s" % (count, what), None if count >= LAYOUTS // 8 else "too few"


def wrong_documents(room, seed):
    """Return the problem with the documents of --json for a layout that a seed makes, or None."""
    rooms = Rooms("%s/%d" % (room, seed), lambda folder: write_random(folder, random.Random(seed)))
    words = write_random("%s/%d/words" % (room, seed), random.Random(seed))[0]
    return first(rooms.wrong(["repair", *flags, "layout", *words]) for flags in (["--dry-run"], [], []))


def documents(room):
    with multiprocessing.Pool() as pool:
        results = pool.map(functools.partial(wrong_documents, room), range(LAYOUTS, LAYOUTS + DOCUMENTS))
    yield "--json, %d layouts at random" % DOCUMENTS, first(results)


# Layouts made by hand

OTHER_TYPE, LONG = FOO._replace(media_type="text/plain"), FOO._replace(algorithm="sha512")


def wrong_case(room, out, *case, sources=("source",)):
    """Return the problem with the repair of a layout made by hand, or None. It is to repair these contents, in key order."""
    fresh(room, *case)
    repair = Repair(room + "/layout", ["%s/%s" % (room, it) for it in sources])
    if repair.lines != out:
        return "by the rules it prints %s" % repair.lines
    return wrong_repair(room, sources, repair.sources)


def lines(held, repaired, written):
    """Return the lines of a repair that misses nothing. The files of some contents are written."""
    size = sum(len(it.bytes) for it in written)
    return [*("repaired " + key(it) for it in repaired), "held %d repaired %d bytes %d missing 0" % (held, len(repaired), size)]


def by_hand(room):
    long_image = image([FOO, LONG, OTHER_TYPE])
    large_image = image(LARGE)
    yield "nothing is damaged", wrong_case(room, lines(9, [], []), ALL, {"a": I4, "b": I1}, [S])
    ordered = sorted(ALL, key=lambda it: (it.media_type, key(it)))
    yield "all is missing", wrong_case(room, lines(9, ordered, ALL), ALL, {"a": I4, "b": I1}, [S], ALL)
    yield "all is damaged", wrong_case(room, lines(9, ordered, ALL), ALL, {"a": I4, "b": I1}, [S], [], ALL)
    yield "the layout itself is a source", wrong_case(
        room, lines(9, [FOO, M2], [FOO, M2]), ALL, {"a": I4, "b": I1}, [S], [FOO], [M2], sources=["layout", "source", "layout"])
    yield "large layers, with one wrong byte at the end", wrong_case(
        room, lines(5, sorted(LARGE, key=key), LARGE), [E, *LARGE, large_image], {"a": large_image}, [], LARGE[:1], LARGE[1:])
    yield "keys that share a digest", wrong_case(
        room, lines(5, [FOO, LONG, OTHER_TYPE], [FOO, LONG]), [E, FOO, LONG, long_image], {"a": long_image}, [], [LONG], [FOO])
    yield "only blobs that no entry reaches are damaged", wrong_case(room, lines(3, [], []), [*ALL[:4], BAR], {"a": M2}, [], [], [BAR])
    fresh(room, ALL, {"a": I4, "b": I1}, [S])
    shutil.rmtree(room + "/layout/blobs")
    yield "a layout without `blobs`", wrong_repair(room, ["source"], [room + "/source"])


# Refusals

def refused(room):
    fresh(room, ALL, {"a": I4, "b": I1}, [S], [FOO], [M2])
    write(room, "no-layout/blobs/file", b"")
    write(room, "no-version/oci-layout", b'{"imageLayoutVersion":"2.0.0"}')
    write(room, "file", b"file")
    write(room, "file.gz", b"\x1f\x8b\x08\x00")
    pack(room + "/layout.tar", room + "/layout", ["."], tarfile.GNU_FORMAT)
    for words, line in [
        ("layout none", "70 NoLayoutFile"),
        ("layout no-layout", "70 NoLayoutFile"),
        ("layout source none", "70 NoLayoutFile"),
        ("layout source no-version", "72 BadVersion"),
        ("layout source file", "100 NotArchive"),
        ("layout file.gz source", "101 Compressed gzip"),
        ("none source", "70 NoLayoutFile"),
        ("no-layout source", "70 NoLayoutFile"),
        ("layout.tar source", "95 NotWritable layout.tar"),
    ]:
        for flags in [], ["--dry-run"]:
            words_of = ["repair", *flags, *words.split()]
            yield " ".join(words_of), wrong_refusal(room, words_of, line)
    for content in b"{", b"", b"[]", b'{"manifests":5}':
        write(room, "layout/index.json", content)
        ended = run(["repair", "layout", "source"], room)
        is_right = (ended.status, ended.out) == (1, "") and ended.err.startswith("ocicp: 73 BadIndex ")
        yield "an index of %d bytes" % len(content), None if is_right else told(ended)
    os.remove(room + "/layout/index.json")
    yield "a layout without an index is empty", wrong_answer_of_nothing(room)


def wrong_answer_of_nothing(room):
    ended = run(["repair", "layout", "source"], room)
    return None if ended[:3] == (0, "held 0 repaired 0 bytes 0 missing 0\n", "") else told(ended)


def unreadable(room):
    """Check that a file that cannot be read stops a repair that needs it, also if another source has the blob."""
    fresh(room, ALL, {"a": I4, "b": I1}, [S], [FOO], [M2])
    write_layout(room + "/other", ALL, {})
    # (root may read each file)
    how = NOBODY if os.geteuid() == 0 else {}
    for at, _, _ in os.walk(room):
        os.chmod(at, 0o777)
    for content, words, line in [
        (M2, ["layout", "source", "other"], "22 Device"),
        (FOO, ["--dry-run", "layout", "source"], "22 Device"),
        (M2, ["--workers", "1", "layout", "source", "layout"], "22 Device"),
    ]:
        file = "%s/source/%s" % (room, blob(content))
        os.chmod(file, 0)
        yield "a source with a file that cannot be read: repair " + " ".join(words), wrong_refusal(
            room, ["repair", *words], line, **how)
        os.chmod(file, 0o644)
    os.chmod("%s/source/%s" % (room, blob(BAR)), 0)
    repair = Repair(room + "/layout", [room + "/other"])
    ended = run(["repair", "layout", "source"], room, **how)
    yield "a file that cannot be read and is not needed", None if ended[:3] == (0, repair.out, "") else told(ended)


def checks(room):
    for number, group in enumerate([by_hand, at_random, documents, refused, unreadable]):
        folder = "%s/%d" % (room, number)
        os.makedirs(folder)
        yield from group(folder)
