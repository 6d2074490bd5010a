"""The commands of sessions, which checks/sessions/README.md lists. Wants `cc`."""
import errno
import fcntl
import os
import re
import subprocess
import threading

from support import shim
from support.program import PROGRAM, SECONDS, run
from support.terminal import run_on_terminal

# The call named CALL fails with ERROR if its path has PART. For "fill" that is a write to a file. The clock stands still.
SHIM = r"""
#define _GNU_SOURCE
#include <dlfcn.h>
#include <errno.h>
#include <fcntl.h>
#include <stdarg.h>
#include <stdio.h>
#include <stdlib.h>
#include <string.h>
#include <time.h>
#include <unistd.h>
#define NEXT(type, name) ((type)dlsym(RTLD_NEXT, name))
static int fails(const char *call, const char *path) {
  if (strcmp(getenv("CALL"), call) != 0 || !strstr(path, getenv("PART"))) return 0;
  errno = atoi(getenv("ERROR"));
  return 1;
}
int open(const char *path, int flags, ...) {
  va_list rest; va_start(rest, flags); int mode = va_arg(rest, int); va_end(rest);
  if (!(flags & O_DIRECTORY) && fails("open", path)) return -1;
  return NEXT(int (*)(const char *, int, ...), "open")(path, flags, mode);
}
int unlink(const char *path) { return fails("unlink", path) ? -1 : NEXT(int (*)(const char *), "unlink")(path); }
static int fills(int file) {
  char link[64], path[4096];
  snprintf(link, sizeof link, "/proc/self/fd/%d", file);
  ssize_t length = readlink(link, path, sizeof path - 1);
  if (length < 0) return 0;
  path[length] = 0;
  return fails("fill", path);
}
ssize_t write(int file, const void *bytes, size_t count) {
  if (file == STDOUT_FILENO && fails("write", "")) return -1;
  if (file > STDERR_FILENO && fills(file)) return -1;
  return NEXT(ssize_t (*)(int, const void *, size_t), "write")(file, bytes, count);
}
int clock_gettime(clockid_t clock, struct timespec *time) {
  (void)clock;
  *time = (struct timespec){0};
  return 0;
}
"""
# How a run ends that cannot write its output, or has no memory to do so: the line and the document, and the status.
BROKEN = ("ocicp: 94 Output", '{"error":[{"number":94,"name":"Output"}],"kind":"device"}'), 1
STARVED = ("ocicp: memory", '{"error":[{"name":"Memory"}],"kind":"memory"}'), 3
WAYS = {errno.EPIPE: BROKEN, errno.EIO: BROKEN, errno.ENOSPC: BROKEN, errno.ENOMEM: STARVED}


def build(folder):
    """Build the library by which calls fail, and return its path."""
    return shim.built(folder, "fails", SHIM)


def words_of(line):
    return ["" if word == "''" else word for word in line.split()]


def transcript(status, out, err):
    """Return both outputs and the status of a run, as a session has them."""
    *lines, rest = err.split("\n")
    return out + "".join("! %s\n" % line for line in lines) + rest + ("? %d\n" % status if status else "")


class Commands:
    """The commands in a folder. Each returns what it prints, or None."""

    def __init__(self, folder, library):
        self.folder, self.library = folder, library

    def ended(self, line, **how):
        """Run the program, and return the status and both outputs. `how` goes to `run`."""
        return run(words_of(line), self.folder, **how)[:3]

    def failing(self, call="none", part="", error=0):
        """Return an environment in which a call fails."""
        return dict(os.environ, LD_PRELOAD=self.library, CALL=call, PART=part, ERROR=str(error))

    def do_ocicp(self, line, **how):
        return transcript(*self.ended(line, **how))

    do_unordered = do_ocicp

    def do_trimmed(self, line):
        return re.sub(" +$", "", self.do_ocicp(line), flags=re.M)

    def do_within(self, line):
        words, part = line.split(":", 1)
        status, out, err = self.ended(words)
        return None if (status, err) == (0, "") and part in out else transcript(status, out, err)

    def do_invalid(self, line):
        status, out, err = self.ended(line)
        # (a run that prints nothing is told too)
        return None if (status, out) == (2, "") and err.startswith("error: ") else transcript(status, out, err) or "no output\n"

    def do_explained(self, line):
        told = self.do_ocicp("explain " + line.split()[0])
        return None if re.fullmatch(re.escape(line) + r"\n.*\.\n.*\.\n", told) else told

    def do_terminal(self, line):
        _, told = run_on_terminal(words_of(line), self.folder, env=self.failing())
        told = told.replace("\r", "\\r").replace("\x1b", "\\x1b")
        return told if not told or told.endswith("\n") else told + "\\c\n"

    def do_locked(self, line, call="open", error=errno.EACCES):
        part, words = line.split(" ", 1)
        return self.do_ocicp(words, env=self.failing(call, part, error))

    def do_starved(self, line):
        return self.do_locked(line, error=errno.ENOMEM)

    def do_stuck(self, line):
        return self.do_locked(line, call="unlink")

    def do_full(self, line):
        return self.do_locked(line, call="fill", error=errno.ENOSPC)

    def do_broken(self, line):
        for error, (forms, status) in WAYS.items():
            ended = self.ended(line, env=self.failing("write", "", error))
            if ended != (status, "", forms["--json" in line] + "\n"):
                return "%s: %s" % (os.strerror(error), transcript(*ended))

    def do_beside(self, line):
        path, words = line.split(" ", 1)
        os.makedirs(path, exist_ok=True)
        lock = os.open(path, os.O_RDONLY)
        fcntl.flock(lock, fcntl.LOCK_EX)
        pipes = {"stdin": subprocess.DEVNULL, "stdout": subprocess.PIPE, "stderr": subprocess.PIPE}
        with subprocess.Popen([PROGRAM, *words_of(words)], cwd=self.folder, text=True, **pipes) as process:
            timer = threading.Timer(SECONDS, process.kill)
            timer.start()
            said = process.stderr.readline()
            # (a process that another thread begins has the file too, until it runs the program)
            fcntl.flock(lock, fcntl.LOCK_UN)
            os.close(lock)
            out, err = process.communicate()
            timer.cancel()
        return transcript(process.returncode, out, said + err)

    def do_write(self, line):
        path, _, text = line.partition(" ")
        os.makedirs(os.path.dirname(path), exist_ok=True)
        with open(path, "w") as file:
            file.write(text)

    def do_large(self, line):
        path, text = line.split(" ")
        self.do_write("%s %s%s" % (path, "a" * (1 << 20), text))

    def do_header(self, line):
        path, typeflag, size, *text = line.split(" ", 3)
        # (the bytes of the sum count as spaces)
        total = sum((typeflag + size + 8 * " ").encode())
        fields = [("", 124), (size, 24), ("%o" % total, 8), (typeflag, 356)]
        self.do_write(path + " " + "".join(field.ljust(length, "\0") for field, length in fields) + "".join(text))

    def do_mkdir(self, line):
        os.makedirs(line, exist_ok=True)

    def do_link(self, line):
        path, target = line.split(" ")
        os.symlink(target, path)

    def do_rm(self, line):
        os.remove(line)

    def do_cat(self, line):
        with open(line) as file:
            return file.read() + "\n"

    def do_exists(self, line):
        return "yes\n" if os.path.exists(line) else "no\n"
