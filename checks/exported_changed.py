"""Copies into an archive of blobs that are damaged, or that change while they are read. They are refused, there is no FILE and nothing beside it,
and an archive on the output is cut. Wants `cc`."""
import os
import tarfile

from support import shim
from support.exports import archive_of, content_of, copy_of, is_cut, place_in, remove, run_bytes, told_bytes, write
from support.files import files
from support.layouts import E, LAYER, Content, blob, image, key, write_layout
from support.program import first, run, told
from support.tar_files import END, pack

PART = 1 << 20
# A layer of several parts, each with other bytes.
LONG = Content(LAYER, b"".join(b"%8d" % number for number in range(3 * PART // 8)) + b"end")
SMALL = Content(LAYER, b"a small layer")
LAYERED = image([LONG, SMALL])
# The file HARMED is harmed once: before a file whose path has PART is opened, or before that is read once AFTER bytes of it are read.
HARMS = r"""
#define _GNU_SOURCE
#include <dlfcn.h>
#include <fcntl.h>
#include <stdarg.h>
#include <stdio.h>
#include <stdlib.h>
#include <string.h>
#include <sys/syscall.h>
#include <unistd.h>
static long got;
static void do_harm(void) {
  static int is_done;
  const char *harm = getenv("HARM"), *path = getenv("HARMED");
  if (__atomic_exchange_n(&is_done, 1, __ATOMIC_SEQ_CST)) return;
  long file = syscall(SYS_open, path, O_RDWR), last = lseek(file, -1, SEEK_END);
  char byte = '!';
  long failed = !strcmp(harm, "removed") ? syscall(SYS_unlink, path)
    : !strcmp(harm, "shorter") ? syscall(SYS_ftruncate, file, last)
    : syscall(SYS_pwrite64, file, &byte, 1, last + !strcmp(harm, "longer")) - 1;
  syscall(SYS_close, file);
  if (failed || syscall(SYS_write, atoi(getenv("MARK")), "x", 1) != 1) abort();
}
static int is_part(const char *path) { return strstr(path, getenv("PART")) != NULL; }
static void opens(const char *path) { if (is_part(path) && !atol(getenv("AFTER"))) do_harm(); }
static int reads(int file) {
  char place[64], path[4096];
  snprintf(place, sizeof place, "/proc/self/fd/%d", file);
  long length = syscall(SYS_readlink, place, path, sizeof path - 1);
  path[length < 0 ? 0 : length] = 0;
  if (!is_part(path)) return 0;
  if (got >= atol(getenv("AFTER"))) do_harm();
  return 1;
}
#define NEXT(type, name) ((type)dlsym(RTLD_NEXT, name))
#define OPEN(name)                                                                   \
  int name(const char *path, int flags, ...) {                                       \
    va_list rest; va_start(rest, flags); int mode = va_arg(rest, int); va_end(rest);  \
    opens(path);                                                                     \
    return NEXT(int (*)(const char *, int, ...), #name)(path, flags, mode);          \
  }
#define OPENAT(name)                                                                 \
  int name(int at, const char *path, int flags, ...) {                               \
    va_list rest; va_start(rest, flags); int mode = va_arg(rest, int); va_end(rest);  \
    opens(path);                                                                     \
    return NEXT(int (*)(int, const char *, int, ...), #name)(at, path, flags, mode); \
  }
#define READ(name, rest, words)                                                                     \
  ssize_t name(int file, void *bytes, size_t count rest) {                                          \
    int counts = reads(file);                                                                       \
    ssize_t now = NEXT(ssize_t (*)(int, void *, size_t rest), #name)(file, bytes, count words);      \
    if (counts && now > 0) got += now;                                                              \
    return now;                                                                                     \
  }
#define COMMA ,
OPEN(open)
OPEN(open64)
OPENAT(openat)
OPENAT(openat64)
READ(read, , )
READ(pread, COMMA off_t at, COMMA at)
READ(pread64, COMMA off_t at, COMMA at)
"""
# What happens to a blob.
CHANGES = {"another": "its last byte changes", "shorter": "it gets shorter", "longer": "it gets longer", "removed": "it is removed"}


def spoiled(room):
    """Check blobs of other bytes or sizes, in a layout and in an archive of it."""
    unread = "88 Fetch %s 21 Corrupt"
    for content, what, bad, line in [
        (LONG, "another last byte", LONG.bytes[:-1] + b"!", unread),
        (LONG, "another first byte", b"!" + LONG.bytes[1:], unread),
        (SMALL, "another last byte", SMALL.bytes[:-1] + b"!", unread),
        (E, "other bytes", b"[]", unread),
        (LONG, "a byte fewer", LONG.bytes[:-1], "75 Corrupt %s"),
        (LONG, "a byte more", LONG.bytes + b"!", "75 Corrupt %s"),
        (SMALL, "no byte", b"", "75 Corrupt %s"),
        (LAYERED, "another last byte", LAYERED.bytes[:-1] + b" ", "75 Corrupt %s"),
        (LAYERED, "a byte more", LAYERED.bytes + b"\n", "75 Corrupt %s"),
    ]:
        whole = fresh(room)
        write("%s/source/%s" % (room, blob(content)), bad)
        pack(room + "/source.tar", room + "/source", ["."], tarfile.GNU_FORMAT)
        for source in "source", "source.tar":
            wrong = wrong_blob(room, source, line % key(content), whole, content)
            yield "%s: %s of %d bytes" % (source, what, len(content.bytes)), wrong


def fresh(room):
    """Write a layout again, and return the archive of it."""
    for name in os.listdir(room):
        remove("%s/%s" % (room, name))
    write_layout(room + "/source", [E, LONG, SMALL, LAYERED], {"one": LAYERED})
    run(["copy", "source", "one", "folder"], room)
    whole = archive_of(room + "/folder"), {it: place_in(room + "/folder", blob(it)) for it in (E, LONG, SMALL, LAYERED)}
    remove(room + "/folder")
    return whole


def wrong_cut(out, whole, content):
    """Return the problem with what a refused copy has written onto the output, or None: it is to be cut, and right before this content."""
    archive, places = whole
    right = min(len(out), places[content])
    if out[:right] != archive[:right]:
        return "the output has other bytes before the blob"
    return None if is_cut(out) and len(out) < len(archive) - len(END) else "the output is not cut: it has %d bytes" % len(out)


def wrong_blob(room, source, line, whole, content):
    """Return the problem with copies of a damaged blob, or None."""
    before = files(room)
    ends = [run(copy_of("%s one FILE" % source, "made.tar", *flags), room) for flags in ([], ["--workers", "64"], ["--no-sync", "--progress"])]
    onto = run_bytes(copy_of("%s one FILE" % source, "-"), room)
    hint, folder = (run(["copy", "--hint", *words, source, "one", place], room) for words, place in ((["--archive"], "made.tar"), ([], "folder")))
    remove(room + "/folder")
    return first([
        *(None if (it.status, it.out) == (1, "") and it.err.endswith("ocicp: %s\n" % line) else told(it) for it in ends),
        None if ends[0].err == "ocicp: %s\n" % line else told(ends[0]),
        None if (onto.status, onto.err) == (1, "ocicp: %s\n" % line) else told_bytes(onto),
        None if hint[:3] == folder[:3] else "%s; and into a folder: %s" % (told(hint), told(folder)),
        wrong_cut(onto.out, whole, content),
        None if files(room) == before else "something is left",
    ])


def changed(room):
    """Check blobs that change after the copy was planned: when FILE is begun, when the blob is opened, and when a part of it has been read."""
    library = shim.built(room, "harms", HARMS)
    os.mkdir(room + "/in")
    for content, what, part, after, passing in [
        *((it, "FILE is begun", "/made.tar.", 0, []) for it in (SMALL, E, LONG, LAYERED)),
        # (the size may have been looked at before)
        *((it, "it is opened", blob(it), 0, ["longer"]) for it in (SMALL, E, LONG)),
        (LONG, "a part is read", blob(LONG), PART, ["longer", "removed"]),
    ]:
        for harm in CHANGES:
            environment = {"PART": part, "AFTER": str(after), "HARM": harm, "HARMED": "source/" + blob(content)}
            places = ["made.tar"] if what == "FILE is begun" else ["made.tar", "-"]
            wrong = first(wrong_change(library, room + "/in", content, environment, harm in passing, it) for it in places)
            yield "a blob of %d bytes: when %s, %s" % (len(content.bytes), what, CHANGES[harm]), wrong


def wrong_change(library, room, content, environment, may_pass, file):
    """Return the problem with a copy while whose blob changes, or None. If it may pass, then only with the whole archive."""
    whole = fresh(room)
    marks, mark = os.pipe()
    environment = dict(os.environ, LD_PRELOAD=library, MARK=str(mark), **environment)
    ended = run_bytes(copy_of("source one FILE", room + "/" + file if file != "-" else file), room, env=environment, pass_fds=[mark])
    os.close(mark)
    with os.fdopen(marks) as notes:
        is_harmed = notes.read() == "x"
    left = sorted(set(os.listdir(room)) - {"source"})
    written = ended.out if file == "-" else content_of(room + "/" + file)
    if may_pass and ended.status == 0:
        return None if written == whole[0] and left in ([], [file]) else "it passes with another archive, or leaves %s" % left
    return first([
        None if is_harmed else "nothing was harmed",
        None if (ended.status, ended.err) == (1, "ocicp: 88 Fetch %s 21 Corrupt\n" % key(content)) else told_bytes(ended),
        "%s is left" % left if left else None,
        wrong_cut(written, whole, content) if file == "-" else None,
    ])


def checks(room):
    for number, group in enumerate([spoiled, changed]):
        folder = "%s/%d" % (room, number)
        os.mkdir(folder)
        yield from group(folder)
