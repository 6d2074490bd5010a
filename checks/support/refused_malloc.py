"""Runs the program with one request for memory refused: the nth call of malloc, calloc or realloc. Wants `cc`."""
import functools
import multiprocessing
import os

from support import shim
from support.program import first

# A batch ends the search if one of its runs made fewer requests. A command that makes more than MOST is an error.
BATCH, MOST = 64, 4096

SHIM = r"""
#define _GNU_SOURCE
#include <dlfcn.h>
#include <errno.h>
#include <stdlib.h>
#include <unistd.h>
static long nth = -1, calls = 0;
static int refuses(void) {
  /* The first call comes before there is a second thread. */
  if (nth < 0) { const char *text = getenv("REFUSED_REQUEST"); nth = text ? atol(text) : 0; }
  if (__atomic_add_fetch(&calls, 1, __ATOMIC_RELAXED) != nth) return 0;
  if (write(atoi(getenv("MARK")), "x", 1) != 1) abort();
  errno = ENOMEM;
  return 1;
}
void *malloc(size_t size) {
  static void *(*next)(size_t);
  if (!next) next = (void *(*)(size_t))dlsym(RTLD_NEXT, "malloc");
  return refuses() ? NULL : next(size);
}
void *calloc(size_t count, size_t size) {
  static void *(*next)(size_t, size_t);
  if (!next) next = (void *(*)(size_t, size_t))dlsym(RTLD_NEXT, "calloc");
  return refuses() ? NULL : next(count, size);
}
void *realloc(void *old, size_t size) {
  static void *(*next)(void *, size_t);
  if (!next) next = (void *(*)(void *, size_t))dlsym(RTLD_NEXT, "realloc");
  return refuses() ? NULL : next(old, size);
}
"""


def build(folder):
    """Build the library that refuses, and return its path."""
    return shim.built(folder, "refuse", SHIM)


def run_refused(library, nth, words, folder, **how):
    """Run a command with the nth request refused, and return whether it made that many, and its end. `how` goes to `run`."""
    marks, ended = shim.run_marked(library, words, folder, {"REFUSED_REQUEST": str(nth)}, **how)
    return marks > 0, ended


def refused_in_turn(case, library, room, wrong):
    """Refuse each request of a command in turn, and return how many it makes, and the first problem that `wrong` finds, or None."""
    os.mkdir(room)
    with multiprocessing.Pool() as pool:
        for start in range(1, MOST, BATCH):
            runs = pool.map(functools.partial(wrong, case, library, room), range(start, start + BATCH), 4)
            complaint = first(it for _, it in runs)
            if complaint or not all(refused for refused, _ in runs):
                count = start - 1 + sum(refused for refused, _ in runs)
                return count, complaint or (None if count else "nothing was refused")
    return MOST, "it makes more requests than these"
