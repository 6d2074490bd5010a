"""Records the calls of the program that open or change files and folders, or put them onto the disk. Wants `cc`."""
import os

from support import shim
from support.disk import Call
from support.program import run

# Each call is made and noted under a lock, so that the notes have the order of the calls. A thread sleeps before it takes the lock, so that
# other threads make calls too. If CALLS is set, the process is killed before it makes more calls.
NOTES = r"""
#define _GNU_SOURCE
#include <dlfcn.h>
#include <errno.h>
#include <fcntl.h>
#include <pthread.h>
#include <signal.h>
#include <stdarg.h>
#include <stdio.h>
#include <stdlib.h>
#include <string.h>
#include <sys/stat.h>
#include <sys/syscall.h>
#include <unistd.h>
static pthread_mutex_t order = PTHREAD_MUTEX_INITIALIZER;
static long made;
static void begin(void) {
  const char *last = getenv("CALLS");
  usleep(2000);
  pthread_mutex_lock(&order);
  if (last && made == atol(last)) kill(getpid(), SIGKILL);
}
static void note(const char *start, const char *data, long count) {
  static char text[1 << 22];
  size_t length = snprintf(text, sizeof text, "%s", start);
  if (length + 2 * count + 1 >= sizeof text) abort();
  for (long at = 0; at < count; at++) length += sprintf(text + length, "%02x", (unsigned char)data[at]);
  text[length++] = '\n';
  if (syscall(SYS_write, atoi(getenv("NOTES")), text, length) != (long)length) abort();
}
static long end(long result, const char *name, int file, long number, const char *path, const char *other, const char *data, long count) {
  int error = errno;
  char start[1 << 14];
  if (result >= 0) {
    made++;
    long thread = syscall(SYS_gettid);
    if (file < 0) file = result;
    snprintf(start, sizeof start, "%ld\t%s\t%d\t%ld\t%s\t%s\t", thread, name, file, number, path, other);
    note(start, data, count);
  }
  pthread_mutex_unlock(&order);
  errno = error;
  return result;
}
#define NEXT(type, name) ((type)dlsym(RTLD_NEXT, name))
#define OPEN(name)                                                                                                  \
  int name(const char *path, int flags, ...) {                                                                      \
    va_list rest; va_start(rest, flags); int mode = va_arg(rest, int); va_end(rest);                                \
    begin();                                                                                                        \
    return end(NEXT(int (*)(const char *, int, ...), #name)(path, flags, mode), "open", -1, flags, path, "", 0, 0); \
  }
#define OPENAT(name)                                                                                                         \
  int name(int at, const char *path, int flags, ...) {                                                                       \
    va_list rest; va_start(rest, flags); int mode = va_arg(rest, int); va_end(rest);                                         \
    if (at != AT_FDCWD && path[0] != '/') abort();                                                                           \
    begin();                                                                                                                 \
    return end(NEXT(int (*)(int, const char *, int, ...), #name)(at, path, flags, mode), "open", -1, flags, path, "", 0, 0); \
  }
#define OF_FILE(name)                                                                  \
  int name(int file) {                                                                 \
    begin();                                                                           \
    return end(NEXT(int (*)(int), #name)(file), #name, file, 0, "", "", 0, 0);         \
  }
#define OF_PATH(name)                                                                  \
  int name(const char *path) {                                                         \
    begin();                                                                           \
    return end(NEXT(int (*)(const char *), #name)(path), #name, 0, 0, path, "", 0, 0); \
  }
OPEN(open)
OPEN(open64)
OPENAT(openat)
OPENAT(openat64)
OF_FILE(fsync)
OF_FILE(fdatasync)
OF_FILE(syncfs)
OF_PATH(unlink)
OF_PATH(rmdir)
int mkdir(const char *path, mode_t mode) {
  begin();
  return end(NEXT(int (*)(const char *, mode_t), "mkdir")(path, mode), "mkdir", 0, mode, path, "", 0, 0);
}
int rename(const char *from, const char *to) {
  begin();
  return end(NEXT(int (*)(const char *, const char *), "rename")(from, to), "rename", 0, 0, from, to, 0, 0);
}
int chmod(const char *path, mode_t mode) {
  begin();
  return end(NEXT(int (*)(const char *, mode_t), "chmod")(path, mode), "chmod", 0, mode, path, "", 0, 0);
}
int fchmod(int file, mode_t mode) {
  begin();
  return end(NEXT(int (*)(int, mode_t), "fchmod")(file, mode), "fchmod", file, mode, "", "", 0, 0);
}
int ftruncate(int file, off_t length) {
  begin();
  return end(NEXT(int (*)(int, off_t), "ftruncate")(file, length), "ftruncate", file, length, "", "", 0, 0);
}
ssize_t write(int file, const void *bytes, size_t count) {
  begin();
  ssize_t written = NEXT(ssize_t (*)(int, const void *, size_t), "write")(file, bytes, count);
  long place = written < 0 ? 0 : lseek(file, 0, SEEK_CUR) - written;
  return end(written, "write", file, place, "", "", bytes, written);
}
"""


def built(room):
    """Build the library that records, and return its path."""
    return shim.built(room, "record", NOTES)


def call_of(line, folder):
    """Return the call that a line notes."""
    thread, name, file, number, path, other, data = line.split("\t")
    path, other = (it and os.path.relpath(os.path.join(folder, it), folder) for it in (path, other))
    return Call(int(thread), name, int(file), int(number), path, other, bytes.fromhex(data))


def recorded(library, words, folder, most=None):
    """Run a command in a folder, and return its calls and its end. It is killed when it has made `most` calls."""
    path = folder + ".calls"
    with open(path, "wb") as file:
        limit = {} if most is None else {"CALLS": str(most)}
        environment = dict(os.environ, LD_PRELOAD=library, NOTES=str(file.fileno()), **limit)
        ended = run(words, folder, env=environment, pass_fds=[file.fileno()])
    with open(path) as file:
        return [call_of(line.rstrip("\n"), folder) for line in file], ended
