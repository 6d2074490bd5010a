"""Builds libraries that are called between the program and the C library. Wants `cc`."""
import os
import subprocess

from support.program import PROGRAM, run

# Calls `on_change` before each call that would change a file or a folder, with the path, or with NULL for a write to an open file; and
# before each call that waits for the disk, with SYNC; `synced` is then the path of the file that it waits for. It returns the error of that call, or 0 to let the call through.
CHANGES = r"""
#define _GNU_SOURCE
#include <dlfcn.h>
#include <errno.h>
#include <fcntl.h>
#include <signal.h>
#include <stdarg.h>
#include <stdio.h>
#include <stdlib.h>
#include <string.h>
#include <sys/stat.h>
#include <sys/syscall.h>
#include <unistd.h>
#define SYNC "(sync)"
static __thread char synced[4096];
static int on_change(const char *path);
static int is_refused(const char *path) {
  int error = on_change(path);
  if (error) errno = error;
  return error;
}
static int changes(int flags) { return (flags & O_ACCMODE) != O_RDONLY || (flags & (O_CREAT | O_TRUNC)); }
#define NEXT(type, name) ((type)dlsym(RTLD_NEXT, name))
#define OPEN(name)                                                                         \
  int name(const char *path, int flags, ...) {                                             \
    va_list rest; va_start(rest, flags); int mode = va_arg(rest, int); va_end(rest);        \
    if (changes(flags) && is_refused(path)) return -1;                                     \
    return NEXT(int (*)(const char *, int, ...), #name)(path, flags, mode);                \
  }
#define OPENAT(name)                                                                       \
  int name(int at, const char *path, int flags, ...) {                                     \
    va_list rest; va_start(rest, flags); int mode = va_arg(rest, int); va_end(rest);        \
    if (changes(flags) && is_refused(path)) return -1;                                     \
    return NEXT(int (*)(int, const char *, int, ...), #name)(at, path, flags, mode);       \
  }
OPEN(open)
OPEN(open64)
OPENAT(openat)
OPENAT(openat64)
int mkdir(const char *path, mode_t mode) {
  /* (as the system has it: that a folder is there is told first) */
  if (access(path, F_OK) == 0) { errno = EEXIST; return -1; }
  return is_refused(path) ? -1 : NEXT(int (*)(const char *, mode_t), "mkdir")(path, mode);
}
int rename(const char *from, const char *to) {
  if (is_refused(to)) return -1;
  return NEXT(int (*)(const char *, const char *), "rename")(from, to);
}
int renameat(int of, const char *from, int at, const char *to) {
  if (is_refused(to)) return -1;
  return NEXT(int (*)(int, const char *, int, const char *), "renameat")(of, from, at, to);
}
int unlink(const char *path) {
  return is_refused(path) ? -1 : NEXT(int (*)(const char *), "unlink")(path);
}
int rmdir(const char *path) {
  return is_refused(path) ? -1 : NEXT(int (*)(const char *), "rmdir")(path);
}
int unlinkat(int at, const char *path, int flags) {
  return is_refused(path) ? -1 : NEXT(int (*)(int, const char *, int), "unlinkat")(at, path, flags);
}
ssize_t write(int file, const void *bytes, size_t count) {
  if (file > 2 && is_refused(NULL)) return -1;
  return NEXT(ssize_t (*)(int, const void *, size_t), "write")(file, bytes, count);
}
static int is_sync_refused(int file) {
  char place[64];
  snprintf(place, sizeof place, "/proc/self/fd/%d", file);
  ssize_t length = readlink(place, synced, sizeof synced - 1);
  synced[length < 0 ? 0 : length] = 0;
  return is_refused(SYNC);
}
int fsync(int file) { return is_sync_refused(file) ? -1 : NEXT(int (*)(int), "fsync")(file); }
int fdatasync(int file) { return is_sync_refused(file) ? -1 : NEXT(int (*)(int), "fdatasync")(file); }
/* Writes a text into the pipe that the environment names. */
__attribute__((unused)) static void note(const char *text) {
  if (syscall(SYS_write, atoi(getenv("MARK")), text, strlen(text)) != (long)strlen(text)) abort();
}
__attribute__((unused)) static void mark(void) { note("x"); }
"""

# The process stops itself before the change whose number the environment has.
STOPS = CHANGES + r"""
static int on_change(const char *path) {
  static int count;
  if (__atomic_add_fetch(&count, 1, __ATOMIC_SEQ_CST) == atoi(getenv("STOP"))) kill(getpid(), SIGSTOP);
  return 0;
}
"""

# Each change is marked, and the process killed before one of them.
KILLS = CHANGES + r"""
static int on_change(const char *path) {
  static int count;
  mark();
  if (__atomic_add_fetch(&count, 1, __ATOMIC_SEQ_CST) == atoi(getenv("LAST_CHANGE"))) kill(getpid(), SIGKILL);
  return 0;
}
"""

# Each change is marked, and one is refused, for there is no room.
FULL = CHANGES + r"""
static int on_change(const char *path) {
  static int count;
  mark();
  return __atomic_add_fetch(&count, 1, __ATOMIC_SEQ_CST) == atoi(getenv("REFUSED_CHANGE")) ? ENOSPC : 0;
}
"""

# The removal of one file is refused.
KEEPS = CHANGES + r"""
static int on_change(const char *path) {
  const char *kept = getenv("KEPT");
  size_t length = path ? strlen(path) : 0, end = strlen(kept);
  return length >= end && strcmp(path + length - end, kept) == 0 ? EACCES : 0;
}
"""
# A command that is killed before each of its changes makes at most this many.
MOST = 100


def built(folder, name, source):
    """Build a library from C source for LD_PRELOAD, and return its path."""
    path = os.path.join(folder, name + ".so")
    words = ["cc", "-shared", "-fPIC", "-O1", "-Wall", "-Werror", "-x", "c", "-", "-o", path, "-ldl"]
    subprocess.run(words, input=source.encode(), check=True)
    return path


def run_marked(library, words, folder, environment={}, **how):
    """Run a command with a library that marks something, and return how many marks it made, and its end. `how` goes to `run`."""
    text, ended = run_noted(library, words, folder, environment, **how)
    return len(text), ended


def run_noted(library, words, folder, environment={}, **how):
    """Run a command with a library that notes something, and return the notes, which have to fit into a pipe, and its end."""
    marks, mark = os.pipe()
    environment = dict(os.environ, LD_PRELOAD=library, MARK=str(mark), **environment)
    ended = run(words, folder, env=environment, pass_fds=[mark], **how)
    os.close(mark)
    with os.fdopen(marks) as file:
        return file.read(), ended


def stopped(library, words, folder, number):
    """Begin a command that stops before this change, and return its process, or None if it has ended with fewer changes."""
    environment = dict(os.environ, LD_PRELOAD=library, STOP=str(number))
    process = subprocess.Popen([PROGRAM, *words], cwd=folder, env=environment, stdin=subprocess.DEVNULL,
                               stdout=subprocess.DEVNULL, stderr=subprocess.PIPE, text=True)
    _, status = os.waitpid(process.pid, os.WUNTRACED)
    if os.WIFSTOPPED(status):
        return process
    process.returncode = os.waitstatus_to_exitcode(status)
    process.stderr.close()
    return None
