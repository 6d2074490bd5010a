"""Copies into an archive that are refused for their words, for FILE, for SRC, or for an output that takes nothing more. Then there is no FILE,
and nothing beside it."""
import functools
import json
import os
import re
import subprocess

from support.exports import archive_of, content_of, copy_of, remove, run_bytes, told_bytes, write
from support.files import files, read, wrong_refusal
from support.indexes import entry, named
from support.json_lines import kind_of
from support.layouts import BAR, E, FOO, I1, IMAGE, LAYER, M2, M3, Content, blob, image, key, write_layout
from support.odd_archives import damaged
from support.program import NOBODY, PROGRAM, SECONDS, first, run, told
from support.tar_files import END

# A layer that does not fit into a pipe.
LONG, SMALL = Content(LAYER, b"a long layer. " * 300000), Content(LAYER, b"a small layer")
LAYERED = image([LONG, SMALL])
TEXT = b"a text\n"
# What may be at the path of FILE, and how it is made there.
TAKEN = {
    "a file": lambda path: write(path, TEXT),
    "an empty file": lambda path: write(path, b""),
    "an empty folder": os.mkdir,
    "a layout": lambda path: write_layout(path, [E, BAR], {"bar": BAR}),
    "a link to a file": functools.partial(os.symlink, "kept"),
    "a link to a folder": functools.partial(os.symlink, "source"),
    "a link to nothing": functools.partial(os.symlink, "nothing"),
    "a link to itself": functools.partial(os.symlink, "taken"),
    "a FIFO": os.mkfifo,
}
# Copies onto it. Some have a source that is no layout, or an unknown reference.
ONTO = [
    "source one FILE", "source one FILE other", "--all source FILE", "--dry-run source one FILE", "--no-sync --no-wait --workers 2 source one FILE",
    "--progress source one FILE", "nothing one FILE", "--all kept FILE", "source nope FILE",
]
# Paths at which no file can be made, and the reason.
NO_PLACE = {"missing/new.tar": "No such file or directory"}
# Words that are no command line, before FILE.
INVALID = [
    "--descend source one", "--descend --all source", "--prune --all source", "--prune --all --referrers source", "--prune --dry-run --all source",
    "--descend --dry-run source one", "--prune source one", "--workers 65 source one", "--match one source one",
    "--platform linux/arm64 --all source", "--all source one", "source", "--all", "",
]


def write_source(room):
    write_layout(room + "/source", [E, FOO, BAR, M2, M3, I1], {"one": M2, "both": I1})
    write(room + "/kept", TEXT)


def invalid(room):
    """Check command lines that are no such copies."""
    write_source(room)
    for words in INVALID:
        before = files(room)
        ended = run(copy_of(words + " FILE", "new.tar"), room)
        right = (ended.status, ended.out) == (2, "") and ended.err.startswith("error: ")
        yield "copy --archive %s FILE" % words, first([None if right else told(ended), None if files(room) == before else "something has changed"])


def taken(room):
    """Check that what is at the path of FILE stays, whatever it is, and that this is found before SRC is opened."""
    write_source(room)
    for what, make in TAKEN.items():
        make(room + "/taken")
        for path in ["taken", "./taken", room + "/taken"] if what == "a file" else ["taken"]:
            wrong = first(wrong_refusal(room, copy_of(it, path), "95 NotWritable " + path) for it in ONTO)
            yield "%s at %s" % (what, path.replace(room, "ROOM")), wrong
        remove(room + "/taken")
    yield "/dev/null", wrong_refusal(room, copy_of("source one FILE", "/dev/null"), "95 NotWritable /dev/null")
    yield "its folder is a file", wrong_refusal(room, copy_of("source one FILE", "kept/new.tar"), "95 NotWritable kept")


def wrong_place(room, path, reason, **how):
    """Return the problem with copies to a path at which no file can be made, or None. `how` goes to `run`."""
    before = files(room)
    # (the path is that of the file, or of its folder)
    place = "(%s|%s)" % (path, os.path.dirname(path))
    line, hint = "ocicp: 74 Device\n", "ocicp: 74 Device\nDST `%s`: .*: %s\\. Run `ocicp explain 74` for what to do\\.\n" % (place, reason)
    document = re.escape('{"error":[{"number":74,"name":"Device"}],"kind":"%s","side":"DST","path":"PLACE","os":"%s"}\n' % (kind_of(74, reason), reason)).replace("PLACE", place)
    wanted = {"--workers=2": line, "--all": line, "--no-sync": line, "--hint": hint, "--json": document}
    ends = [run(copy_of("source FILE" if flag == "--all" else "source one FILE", path, flag), room, **how) for flag in wanted]
    return first([
        *(None if it[:2] == (1, "") and re.fullmatch(err, it.err) else told(it) for it, err in zip(ends, wanted.values())),
        None if files(room) == before else "something is left",
    ])


def no_place(room):
    """Check paths at which no file can be made."""
    write_source(room)
    for path, reason in NO_PLACE.items():
        yield path, wrong_place(room, path, reason)
    os.mkdir(room + "/locked")
    os.chmod(room + "/locked", 0o555)
    # (root may write into any folder)
    how = NOBODY if os.access(room + "/locked", os.W_OK) else {}
    try:
        wrong = wrong_place(room, "locked/new.tar", "Permission denied", **how)
    except OSError:
        yield "a folder that may not be written is not looked at, since no other user can run the program here", None
    else:
        yield "a folder that may not be written", wrong


def wrong_output(room, words, make, err="ocicp: 94 Output\n"):
    """Return the problem with a run whose output `make` makes, or None."""
    with make() as out:
        ended = run_bytes(words, room, stdout=out)
    return None if (ended.status, ended.err) == (1, err) else told_bytes(ended)


def closed_pipe():
    """Return the writing end of a pipe that nobody reads."""
    reader, writer = os.pipe()
    os.close(reader)
    return os.fdopen(writer, "wb")


def outputs(room):
    """Check outputs that take nothing more, or only the beginning."""
    write_layout(room + "/source", [E, LONG, SMALL, LAYERED], {"one": LAYERED, "small": SMALL})
    run(["copy", "source", "one", "folder"], room)
    whole = archive_of(room + "/folder")
    full = lambda: open("/dev/full", "wb")
    for what, make in ("a full disk", full), ("a pipe that nobody reads", closed_pipe):
        # (an archive of less than 8 KB is in the program's buffer until that is flushed)
        for words in "source one FILE", "--all --workers 3 source FILE", "source small FILE":
            yield "copy --archive %s, FILE is %s" % (words, what), wrong_output(room, copy_of(words, "-"), make)
        yield "the lines go to %s" % what, first([
            wrong_output(room, copy_of("source one FILE", "lines.tar"), make),
            None if content_of(room + "/lines.tar") == whole else "the archive is another one",
        ])
        remove(room + "/lines.tar")
    as_json = '{"error":[{"number":94,"name":"Output"}],"kind":"device"}\n'
    yield "--json, FILE is a full disk", wrong_output(room, copy_of("source one FILE", "-", "--json"), full, err=as_json)
    # (without the file 1 the next one that is opened has its number)
    for what, file in ("FILE is -", "-"), ("FILE is a file", "closed.tar"):
        ended = run_bytes(copy_of("source one FILE", file), room, stdout=None, preexec_fn=functools.partial(os.close, 1))
        right = (ended.status, ended.err) == (1, "ocicp: 94 Output\n")
        same = file == "-" or content_of(room + "/closed.tar") == whole
        yield "a closed output, " + what, first([None if right else told_bytes(ended), None if same else "the archive is another one"])
    yield "a reader that ends early", wrong_reader(room, whole)


def wrong_reader(room, whole):
    """Return the problem with a copy whose reader ends after the first bytes, or None."""
    pipes = {"stdin": subprocess.DEVNULL, "stdout": subprocess.PIPE, "stderr": subprocess.PIPE}
    with subprocess.Popen([PROGRAM, *copy_of("source one FILE", "-")], cwd=room, **pipes) as process:
        begin = process.stdout.read(1000)
        process.stdout.close()
        err = process.stderr.read().decode()
        status = process.wait(SECONDS)
    found = begin == whole[:1000], status, err
    return None if found == (True, 1, "ocicp: 94 Output\n") else "%r" % (found,)


def wrong_source(room, words, line, **how):
    """Return the problem with a copy from a source that is refused with this line, or None. It is to be refused like a copy into a new folder,
    and to write nothing. `how` goes to the runs."""
    onto = run_bytes(copy_of(words, "-"), room, **how)
    planned = run(copy_of(words, "made.tar", "--dry-run"), room, **how)
    ends = [(run(copy_of(words, "made.tar", form), room, **how), run(into_folder(words, form), room, **how)) for form in ("--hint", "--json")]
    remove(room + "/folder")
    return first([
        wrong_refusal(room, copy_of(words, "made.tar"), line, **how),
        None if onto == (1, b"", "ocicp: %s\n" % line) else "onto the output: " + told_bytes(onto),
        None if planned[:3] == (1, "", "ocicp: %s\n" % line) else "a dry run: " + told(planned),
        *(None if one[:3] == other[:3] else "%s; and into a folder: %s" % (told(one), told(other)) for one, other in ends),
    ])


def into_folder(words, *flags):
    """Return the words of the same copy into a folder."""
    return [it for it in copy_of(words, "folder", *flags) if it != "--archive"]


def write_sources(room):
    """Write layouts that lack something, and archives that are none."""
    lost, unread = image([], number=1), Content(IMAGE, b"{}")
    write_source(room)
    for name in "version", "unversioned", "unindexed", "untagged", "lost", "spoiled", "unread", "unreadable", "hollow":
        write_layout("%s/%s" % (room, name), [E, FOO, M2, unread], {"one": M2, "unread": unread} if name == "unread" else {"one": M2})
    write(room + "/version/oci-layout", b'{"imageLayoutVersion":"2"}')
    write(room + "/unversioned/oci-layout", b"[]")
    write(room + "/unindexed/index.json", b"[")
    for name, entries in {
        "untagged": [entry(M2)],
        "lost": [named(M2, "one"), named(lost, "lost"), entry(FOO)],
        "unreadable": [{"annotations": {"org.opencontainers.image.ref.name": "bad"}}, named(M2, "one")],
    }.items():
        write("%s/%s/index.json" % (room, name), json.dumps({"schemaVersion": 2, "manifests": entries}).encode())
    write("%s/spoiled/%s" % (room, blob(M2)), M2.bytes[:-1] + b" ")
    os.remove("%s/hollow/%s" % (room, blob(FOO)))
    return lost, unread


def sources(room):
    """Check sources and references that are refused."""
    lost, unread = write_sources(room)
    for words, line in [
        ("source nope FILE", "36 UnknownReference"),
        ("source sha256:%064d FILE" % 0, "36 UnknownReference"),
        ("nothing one FILE", "70 NoLayoutFile"),
        ("--all nothing FILE", "70 NoLayoutFile"),
        ("/dev/null one FILE", "70 NoLayoutFile"),
        ("unversioned one FILE", "71 BadLayoutFile"),
        ("version one FILE", "72 BadVersion"),
        ("unindexed one FILE", "73 BadIndex 10 NotJson"),
        ("unreadable bad FILE", "73 BadIndex 14 BadDescriptor manifests 0"),
        ("--all unreadable FILE", "73 BadIndex 14 BadDescriptor manifests 0"),
        ("--referrers unreadable one FILE", "73 BadIndex 14 BadDescriptor manifests 0"),
        ("spoiled one FILE", "75 Corrupt " + key(M2)),
        ("--all spoiled FILE", "96 Unknown " + key(M2)),
        ("--referrers spoiled %s FILE" % key(FOO).split()[0], "75 Corrupt " + key(M2)),
        ("unread unread FILE", "77 BadManifest %s 12 NoConfig" % key(unread)),
        ("lost lost FILE", "36 UnknownReference"),
        ("--all lost FILE", "96 Unknown " + key(lost)),
        ("--all untagged FILE", "97 NoTags"),
        ("--platform linux/arm64 source both FILE", "107 NoPlatform linux/arm64"),
        ("--platform linux/arm64 source one FILE", "107 NoPlatform linux/arm64"),
        ("--all --match n* source FILE", "108 NoMatch"),
        ("hollow one FILE", "81 Plan 53 NotFound " + key(FOO)),
        ("kept one FILE", "100 NotArchive"),
    ]:
        yield "copy --archive " + words.replace("0" * 64, "0.."), wrong_source(room, words, line)
    yield "copy --archive source '' FILE", wrong_refusal(room, ["copy", "--archive", "source", "", "made.tar"], "35 EmptyReference")
    write(room + "/secret.tar", END)
    os.chmod(room + "/secret.tar", 0)
    os.chmod(room, 0o777)
    try:
        wrong = wrong_source(room, "secret.tar one FILE", "105 Device", **(NOBODY if os.access(room + "/secret.tar", os.R_OK) else {}))
    except OSError:
        yield "an archive that may not be read is not looked at, since no other user can run the program here", None
    else:
        yield "an archive that may not be read", wrong


def archives(room):
    """Check damaged archives, as `archives` does."""
    write_source(room)
    names = ["oci-layout", "index.json", *map(blob, (E, FOO, BAR, M2, M3, I1))]
    cases = list(damaged([(it.encode(), read("%s/source/%s" % (room, it))) for it in names]))
    yield "%d damaged archives" % len(cases), first(wrong_archive(room, *it) for it in cases)


def wrong_archive(room, label, written, lines):
    """Return the problem with the refusal of a damaged archive, or None. One of these lines is to be printed."""
    write(room + "/damaged.tar", written)
    ended = run(copy_of("damaged.tar one FILE", "made.tar"), room)
    is_told = ended[:2] == (1, "") and ended.err in ["ocicp: %s\n" % it for it in ([lines] if isinstance(lines, str) else lines)]
    return first([
        None if is_told else "%s: %s" % (label, told(ended)),
        "%s: something is left" % label if sorted(os.listdir(room)) != ["damaged.tar", "kept", "source"] else None,
    ])


def checks(room):
    # (another user runs some commands)
    os.chmod(room, 0o711)
    for number, group in enumerate([invalid, taken, no_place, outputs, sources, archives]):
        folder = "%s/%d" % (room, number)
        os.mkdir(folder)
        yield from group(folder)
