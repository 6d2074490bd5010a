"""Tar archives in the place of folders: each command prints the same as for the folder, and damaged archives are refused. Wants `cc`."""
import errno
import functools
import hashlib
import os
import shutil
import subprocess
import tarfile
import time

from support.files import read
from support.harms import CONTENTS, FROM, PLAIN, PLAIN_TAGS, answers_to, fresh, wrong_copy
from support.layouts import BAR, E, FOO, I1, LAYER, M2, M3, S, Content, blob, digits, image, index, key, write_layout
from support.odd_archives import PLACES, allowed, damaged, each, headers_for_long_names
from support.program import NOBODY, PROGRAM, SECONDS, first, leftovers, piped, run, told, wrong_layout
from support.pruning import notes
from support.session_commands import Commands, build
from support.tar_files import BLOCK, END, base256, extended, header, member, pack

# `SRC` is the folder or the archive, and `DST` the folder to copy into.
LOOKS = [
    "tags SRC",
    "verify SRC",
    "resolve SRC one",
    "resolve SRC sha256:" + digits(M3),
    "predecessors SRC one",
    "tree --referrers SRC new",
]
COPIES = [
    "copy SRC new DST",
    "copy --workers 3 SRC one DST other",
    "copy --all SRC DST",
    "copy --all --workers 3 SRC DST",
    "copy --referrers SRC new DST",
    "copy --referrers --workers 3 SRC new DST",
]
ALL = [*LOOKS, *COPIES, "copy --dry-run SRC new DST", "copy --all --referrers --dry-run SRC DST"]
# The commands for archives of which there are many. (By one worker, since a refused copy by more may leave one or another blob.)
FEW = ["verify SRC", "copy --all --workers 1 SRC DST"]
REFUSED = ["tags SRC", "copy --all SRC DST"]
# The commands for an empty blob.
OF_NOTHING = ["verify SRC", "tags SRC", "resolve SRC one", "resolve SRC nothing", "copy SRC one DST", "copy SRC nothing DST"]
ONTO_FILES = [
    *("copy %s%s DST" % (flags, source) for flags in ("", "--dry-run ", "--referrers ") for source in ("short new", "short lost", "lost new")),
    "copy kept.tar new DST",
    "copy broken.tar new DST",
    "copy --all --workers 3 short DST",
    "copy --all --dry-run short DST",
    "copy --all lost DST",
]

# The formats of GNU tar and of Python, and which layout each can hold: names in `long` have over 100 characters.
OF_TAR = {"v7": "short", "ustar": "short", "pax": "long", "gnu": "long", "oldgnu": "long"}
OF_PYTHON = {"USTAR": "short", "GNU": "long", "PAX": "long"}
# GNU tar writes a file the second time as a hard link to its own path.
NAMED_TWICE = [".", "./index.json", "oci-layout", "blobs", "blobs/sha256/"]
LARGE = Content(LAYER, b"a layer of some blocks. " * 60)
LARGER = image([LARGE])
CONTENTS_OF_SHORT = [E, FOO, BAR, LARGE, M2, M3, I1, S, LARGER]
TAGS_OF_SHORT = {"new": I1, "one": M2, "sig": S, "large": LARGER}
LONG_LAYER = Content(LAYER, b"long " * 20000, "sha512")
LONG = image([LONG_LAYER])._replace(algorithm="sha512")
NOTHING = Content("application/octet-stream", b"")
OTHER_FILE = b'[{"Config":"of no matter here"}]'
HUGE = 1 << 40
# Bytes of a pipe, and how they are refused.
PIPED = [
    ("no bytes", b"", "70 NoLayoutFile"),
    ("a text", b"no archive", "100 NotArchive"),
    ("a compressed archive", b"\x1f\x8b\x08" + bytes(BLOCK), "101 Compressed gzip"),
    ("half a member", header(b"other", 2 * BLOCK) + bytes(BLOCK), "103 Truncated 0"),
]
# Commands for an input that cannot be kept: the environment's TMPDIR, or None if the disk is full, and the folder that each names.
UNKEPT = [
    ("tags -", "missing", "FOLDER `missing`"),
    ("copy --dry-run --all - new", "missing", "SRC `missing`"),
    ("tags -", None, "FOLDER `temporary`"),
    ("copy --all - deep/new", None, "SRC `.`"),
    ("copy --all - old", None, "SRC `old`"),
    ("copy --archive --all - old/file.tar", None, "SRC `old`"),
    ("repair old -", None, "FROM `old`"),
]


def write(path, written):
    with open(path, "wb") as file:
        file.write(written)


def write_short(folder):
    write_layout(folder, CONTENTS_OF_SHORT, TAGS_OF_SHORT)
    write(folder + "/manifest.json", OTHER_FILE)


def write_long(folder):
    """Write a layout that also has an image with SHA-512 digests."""
    write_layout(folder, [*CONTENTS_OF_SHORT, LONG_LAYER, LONG], {**TAGS_OF_SHORT, "long": LONG})
    write(folder + "/manifest.json", OTHER_FILE)


def sums(folder):
    """Return the files below a folder, each with the sum of its bytes, or None if there is no such folder."""
    paths = [os.path.join(at, name) for at, _, names in os.walk(folder) for name in names]
    return {os.path.relpath(it, folder): hashlib.sha256(read(it)).hexdigest() for it in paths} if os.path.isdir(folder) else None


def files_of(folder):
    """Return the files of a layout, each with its path in it: first the files at its root, then the blobs."""
    paths = sorted(sums(folder), key=lambda it: (it.startswith("blobs"), it))
    return [(it.encode(), read("%s/%s" % (folder, it))) for it in paths]


def answer(room, source, command):
    """Run a command with this source, and return its end and the files that it copied."""
    shutil.rmtree(room + "/copied", ignore_errors=True)
    named = {"SRC": source, "DST": "copied"}
    ended = run([named.get(it, it) for it in command.split()], room)
    return ended, sums(room + "/copied")


# The folder of a name is the same each time.
answer_of_folder = functools.lru_cache(maxsize=None)(answer)


def wrong_command(room, archive, folder, command):
    (ended, copied), (wanted, files) = answer(room, archive, command), answer_of_folder(room, folder, command)
    if ended[:3] != wanted[:3]:
        return "%s: %s; and of the folder: %s" % (command, told(ended), told(wanted))
    if copied != files:
        return "%s: the copy has other files than that of the folder" % command


def wrong_archive(room, archive, folder, commands):
    """Return the problem with an archive, or None. Each command is to print the same for it as for the folder, and not to change it."""
    before = read("%s/%s" % (room, archive))
    return first([
        first(wrong_command(room, archive, folder, it) for it in commands),
        None if read("%s/%s" % (room, archive)) == before else "the archive is not as it was",
    ])


def wrong_by_hand(room, written, folder, commands=FEW):
    write(room + "/by-hand.tar", written)
    return wrong_archive(room, "by-hand.tar", folder, commands)


def wrong_refusal(room, written, line, commands=REFUSED):
    """Return the problem with the refusal of an archive, or None. It is to print this line, or one of these, and to change nothing."""
    write(room + "/by-hand.tar", written)
    lines = [line] if isinstance(line, str) else line
    for command in commands:
        ended, copied = answer(room, "by-hand.tar", command)
        if ended[:2] != (1, "") or ended.err not in ["ocicp: %s\n" % it for it in lines]:
            return "%s: %s; and not %s" % (command, told(ended), " or ".join(lines))
        if copied is not None:
            return "%s: there is a folder for the copy" % command
    return None if read(room + "/by-hand.tar") == written else "the archive is not as it was"


def wrong_folder(room, folder):
    """Return the problem with a folder for which each command is to succeed, or None."""
    for command in ALL:
        ended, files = answer_of_folder(room, folder, command)
        # (a copy leaves the signature behind)
        quiet = ended.err in ("", notes(1) if command in COPIES else "")
        if ended.status or not quiet or not ended.out or bool(files) != (command in COPIES):
            return "%s: %s" % (command, told(ended))


def by_archivers(room):
    """Check archives that GNU tar and Python make, of the folder itself, of the names in it, and of some files that are named twice."""
    is_gnu = shutil.which("tar") and b"GNU tar" in subprocess.run(["tar", "--version"], capture_output=True).stdout
    if not is_gnu:
        yield "archives of GNU tar are not looked at, since it is not here", None
    made = [("tar", form, folder) for form, folder in OF_TAR.items() if is_gnu]
    made += [("Python", form, folder) for form, folder in OF_PYTHON.items()]
    for program, form, folder in made:
        for names in ["."], sorted(os.listdir("%s/%s" % (room, folder))), NAMED_TWICE:
            if program == "tar":
                subprocess.run(["tar", "--format=" + form, "-cf", "made.tar", "-C", folder, *names], cwd=room, check=True)
            else:
                pack("%s/made.tar" % room, "%s/%s" % (room, folder), names, getattr(tarfile, form + "_FORMAT"))
            yield "%s of %s, %s" % (form, program, " ".join(names)), wrong_archive(room, "made.tar", folder, ALL)
    os.symlink("made.tar", room + "/link.tar")
    yield "a link to an archive", wrong_archive(room, "link.tar", folder, ALL)


def by_hand(room):
    """Check archives that no archiver makes, of a layout and of layouts that lack a file or have another one."""
    files = files_of(room + "/short")
    for label, written in allowed(files):
        yield label, wrong_by_hand(room, written, "short")
    for label, written in headers_for_long_names(files_of(room + "/long")):
        yield label + " of over 100 characters", wrong_by_hand(room, written, "long")
    for name in "oci-layout", "index.json", blob(FOO), blob(M2):
        path = name.encode()
        without = changed_folder(room, name, None)
        for other in b"/" + path, b"../" + path, b"blobs/../" + path, b"././" + path:
            written = each(files, lambda it, content: member(other if it == path else it, content))
            yield "%s in the place of %s" % (other.decode(), name), wrong_by_hand(room, written, without)
        for content in b"[", b"{}", b"bar":
            written = each(files) + member(path, content)
            yield "%r, and last, in the place of %s" % (content, name), wrong_by_hand(room, written, changed_folder(room, name, content))
    nothing = {"no bytes": b"", "a block of zeros": bytes(BLOCK), "zeros and a text": bytes(BLOCK) + b"a text" * 99}
    for label, written in {**nothing, "files behind the end": END + each(files)}.items():
        yield label, wrong_refusal(room, written, "70 NoLayoutFile")


def changed_folder(room, path, content):
    """Write the short layout into a new folder, without a file or with other content in it, and return the folder's name."""
    name = ("%s %s" % (path, content)).replace("/", " ")
    write_short("%s/%s" % (room, name))
    changed = "%s/%s/%s" % (room, name, path)
    os.remove(changed)
    if content is not None:
        write(changed, content)
    return name


def wrong_place(room, file, make, harm="a folder", length=0):
    """Return the problem with a copy from an archive, or None. At its end it has a member in the place of a file, which `make` makes and
    which is to act like that harm. This number of zeros follows it."""
    fresh(room, PLAIN, PLAIN_TAGS)
    path = (blob(CONTENTS[file]) if file in CONTENTS else file).encode()
    files = dict(files_of(room + "/source"))
    written = member(b"other", files.pop(path)) + each(files.items()) + make(path)
    shutil.rmtree(room + "/source")
    write(room + "/source", written)
    os.truncate(room + "/source", len(written) + length)
    return first([
        wrong_copy(room, answers_to(FROM, file, harm)),
        wrong_layout(room, "copied", PLAIN, PLAIN_TAGS),
        leftovers(room + "/copied", [*PLAIN, E, FOO]),
    ])


def places(room):
    """Check archives that have no regular file, or a huge one, in the place of a file."""
    for file in FROM:
        for what, make in PLACES.items():
            yield "%s in the place of %s" % (what, file), wrong_place(room + "/room", file, make)
        huge = lambda path: header(path, base256(HUGE))
        yield "1 TB in the place of %s" % file, wrong_place(room + "/room", file, huge, "a sparse file of 1 TB", HUGE)


def no_empty_blob(room):
    """Check archives that have no regular file in the place of an empty blob. It is damaged there, as in a folder."""
    folder = room + "/hollow"
    write_layout(folder, [E, FOO, M2, NOTHING], {"one": M2, "nothing": NOTHING})
    path = blob(NOTHING)
    os.remove("%s/%s" % (folder, path))
    os.mkdir("%s/%s" % (folder, path))
    for what, make in PLACES.items():
        written = make(path.encode()) + each(files_of(folder))
        yield "%s in the place of an empty blob" % what, wrong_by_hand(room, written, "hollow", OF_NOTHING)
    ended, _ = answer_of_folder(room, "hollow", "verify SRC")
    wanted = 1, "corrupt %s\nheld 4\n" % key(NOTHING), ""
    yield "the folder itself, without an empty blob", None if ended[:3] == wanted else told(ended)


def huge(room):
    """Check archives that have a member of 1 TB before all others."""
    files = each(files_of(room + "/short"))
    sizes = {"base 256": header(b"other", base256(HUGE)), "pax": extended((b"size", b"%d" % HUGE)) + header(b"other")}
    for label, start in sizes.items():
        with open(room + "/huge.tar", "wb") as file:
            file.write(start)
            file.seek(HUGE, os.SEEK_CUR)
            file.write(files)
        wrong = first(wrong_command(room, "huge.tar", "short", it) for it in FEW)
        yield "a member of 1 TB before the others, by %s" % label, wrong
    os.truncate(room + "/huge.tar", 0)
    os.truncate(room + "/huge.tar", HUGE)
    ended = run(["tags", "huge.tar"], room)
    yield "1 TB of zeros", None if ended[:3] == (1, "", "ocicp: 70 NoLayoutFile\n") else told(ended)


def refused(room):
    """Check damaged archives, files that are no archives, and a file that cannot be read. If it is not a regular file, it counts as a
    folder without a layout."""
    for label, written, line in damaged(files_of(room + "/short")):
        yield label, wrong_refusal(room, written, line)
    yield "each command with a damaged archive", wrong_refusal(room, b"no archive", "100 NotArchive", ALL)
    os.mkfifo(room + "/fifo")
    for path in "fifo", "/dev/null", "/dev/zero":
        ended = run(["tags", path], room)
        yield "%s is no archive" % path, None if ended[:3] == (1, "", "ocicp: 70 NoLayoutFile\n") else told(ended)
    yield unreadable(room)


def unreadable(room):
    """Check a file that may not be read, as another user if this one may read every file."""
    path = room + "/unreadable.tar"
    write(path, END)
    os.chmod(path, 0)
    os.chmod(room, 0o711)
    try:
        ends = [run(words, room, **(NOBODY if os.access(path, os.R_OK) else {})) for words in (["tags", path], ["copy", "--all", path, "copied"])]
    except OSError:
        return "a file that may not be read is not looked at, since no other user can run the program here", None
    return "a file that may not be read", first(None if it[:3] == (1, "", "ocicp: 105 Device\n") else told(it) for it in ends)


def onto_files(room):
    """Check that copies onto files change none of them, whatever the source is."""
    archive = each(files_of(room + "/short")) + END
    for name, written in ("kept.tar", archive), ("kept", b"a text\n"), ("empty", b""), ("broken.tar", b"no archive"):
        write("%s/%s" % (room, name), written)
    os.symlink("kept.tar", room + "/kept.link")
    for path in "kept.tar", "./kept", "empty", "kept.link", room + "/kept.tar":
        yield "a copy onto %s" % path.replace(room, "ROOM"), first(wrong_onto(room, path, it) for it in ONTO_FILES)


def wrong_onto(room, path, command):
    whole = os.path.join(room, path)
    before = read(whole), os.path.islink(whole), sorted(os.listdir(room))
    ended = run([path if it == "DST" else it for it in command.split()], room)
    if ended[:3] != (1, "", "ocicp: 95 NotWritable %s\n" % path):
        return "%s: %s" % (command, told(ended))
    if (read(whole), os.path.islink(whole), sorted(os.listdir(room))) != before:
        return "%s: a file is not as it was" % command


def from_pipe(room):
    """Check an archive that comes from a pipe. It is kept in a file without a name, so nothing is left of it."""
    archive = each(files_of(room + "/short")) + END
    os.mkdir(room + "/temporary")
    for command in ALL:
        yield "a pipe, " + command, wrong_piped(room, archive, command)
    for target in "piped.tar", "-":
        yield "a pipe, copy --archive to " + target, wrong_export(room, archive, target)
    yield "a pipe, repair", wrong_repair(room, archive, ["-"], "held 9 repaired 1 bytes 3 missing 0")
    yield "a pipe, repair from it twice", wrong_repair(room, archive, ["-", "-"], None)
    for label, written, line in PIPED:
        ended = piped(["tags", "-"], room, written)
        yield "a pipe with %s" % label, None if ended[:3] == (1, "", "ocicp: %s\n" % line) else told(ended)
    write_short(room + "/-")
    ended, wanted = piped(["tags", "./-"], room, b""), answer_of_folder(room, "short", "tags SRC")[0]
    yield "a folder with the name -", None if ended[:3] == wanted[:3] else told(ended)
    yield from unkept(room, archive)
    yield "a killed copy from a pipe", wrong_killed(room, archive)


def temporary(folder):
    return dict(os.environ, TMPDIR=folder)


def wrong_piped(room, archive, command):
    """Return the problem with a command for an archive from a pipe, or None."""
    shutil.rmtree(room + "/copied", ignore_errors=True)
    before = sorted(os.listdir(room))
    named = {"SRC": "-", "DST": "copied"}
    ended = piped([named.get(it, it) for it in command.split()], room, archive, env=temporary("temporary"))
    copied, (wanted, files) = sums(room + "/copied"), answer_of_folder(room, "short", command)
    shutil.rmtree(room + "/copied", ignore_errors=True)
    return first([
        None if ended[:3] == wanted[:3] and copied == files else "%s; and of the folder: %s" % (told(ended), told(wanted)),
        None if sorted(os.listdir(room)) == before and not os.listdir(room + "/temporary") else "something is left over",
    ])


def wrong_export(room, archive, target):
    """Return the problem with an archive of an archive from a pipe, or None. It is to be that of the folder."""
    made = []
    for source in "short", "-":
        words = ["copy", "--archive", "--all", source, target]
        ended = subprocess.run([PROGRAM, *words], cwd=room, input=archive, capture_output=True, timeout=SECONDS)
        if ended.returncode:
            return "%s: status %d, %r" % (source, ended.returncode, ended.stderr)
        made.append(ended.stdout if target == "-" else read("%s/%s" % (room, target)))
        if target != "-":
            os.remove("%s/%s" % (room, target))
    return None if made[0] == made[1] else "it is another one than that of the folder"


def wrong_repair(room, archive, sources, line):
    """Return the problem with a repair from a pipe, or None. It is to print this last line, or to be refused."""
    shutil.rmtree(room + "/broken", ignore_errors=True)
    write_short(room + "/broken")
    os.remove("%s/broken/%s" % (room, blob(FOO)))
    before = sums(room + "/broken")
    ended = piped(["repair", "broken", *sources], room, archive, env=temporary("missing"))
    if line is None:
        return None if ended[:3] == (1, "", "ocicp: 70 NoLayoutFile\n") and sums(room + "/broken") == before else told(ended)
    return None if ended.out.endswith(line + "\n") and sums(room + "/broken") == sums(room + "/short") else told(ended)


def unkept(room, archive):
    """Check inputs that cannot be read or kept. They are kept in the folder that a command writes into, or else in that for temporary files."""
    write_short(room + "/old")
    full = Commands(room, build(room)).failing("fill", "ocicp-stdin", errno.ENOSPC)
    for words, folder, named in UNKEPT:
        env = temporary(folder) if folder else {**full, "TMPDIR": "temporary"}
        ended = piped([*words.split(), "--hint"], room, archive, env=env)
        reason = "No such file or directory" if folder else "No space left on device"
        yield "%s, %s" % (words, reason), wrong_failure(ended, named, reason)
    yield "what they leave", None if sums(room + "/old") == sums(room + "/short") else "a file of `old` has changed"
    folder = os.open(room, os.O_RDONLY)
    ended = run(["tags", "--hint", "-"], room, stdin=folder)
    os.close(folder)
    yield "a folder as the input", wrong_failure(ended, "FOLDER `-`", "Is a directory")


def wrong_failure(ended, named, reason):
    """Return the problem with the end of a command that cannot read or keep its input, or None."""
    line = "%s: The archive could not be read: %s. Run `ocicp explain 105` for what to do.\n" % (named, reason)
    return None if ended[:3] == (1, "", "ocicp: 105 Device\n" + line) else told(ended)


def wrong_killed(room, archive):
    """Return the problem with what a copy from a pipe leaves if it is killed while it reads, or None."""
    os.mkdir(room + "/killed")
    pipes = {"stdin": subprocess.PIPE, "stdout": subprocess.DEVNULL, "stderr": subprocess.DEVNULL}
    with subprocess.Popen([PROGRAM, "copy", "--all", "-", "killed"], cwd=room, **pipes) as process:
        process.stdin.write(archive[:len(archive) // 2])
        process.stdin.flush()
        end = time.monotonic() + SECONDS
        while time.monotonic() < end and process.poll() is None and not keeps_input(process.pid):
            time.sleep(0.01)
        kept = process.poll() is None and keeps_input(process.pid)
        process.kill()
    return first([None if kept else "it keeps no input", None if not os.listdir(room + "/killed") else "something is left over"])


def keeps_input(process):
    """Return whether a process has a file without a name that has bytes."""
    files = "/proc/%d/fd/" % process
    try:
        opened = [(os.readlink(files + it), os.stat(files + it)) for it in os.listdir(files)]
    except FileNotFoundError:
        # (one is closed meanwhile)
        return False
    return any("ocicp-stdin" in path and state.st_nlink == 0 and state.st_size > 0 for path, state in opened)


def by_workers(room):
    """Check an archive of many layers that are read at once."""
    layers = [Content(LAYER, os.urandom(300 << 10)) for _ in range(50)]
    images = [image(layers[start:start + 10]) for start in range(0, 50, 10)]
    write_layout(room + "/many", [E, *layers, *images, index(images)], {"new": index(images)})
    pack(room + "/many.tar", room + "/many", ["."], tarfile.GNU_FORMAT)
    for command in "copy --workers 8 SRC new DST", "copy --all --workers 64 SRC DST", "verify SRC":
        yield "50 layers, %s" % command, wrong_command(room, "many.tar", "many", command)


def checks(room):
    write_short(room + "/short")
    write_long(room + "/long")
    for folder in "short", "long":
        yield "the folder %s itself" % folder, wrong_folder(room, folder)
    # (`places` first, before this process becomes large, since the memory of a run includes the memory of its parent)
    for group in places, no_empty_blob, by_archivers, by_hand, huge, refused, onto_files, from_pipe, by_workers:
        yield from group(room)
