"""The number of threads that a copy, `verify` and `repair` start. Without a number of workers a copy starts as many as for three, and the others
one for each processor. Wants `cc`."""
import os

from support import shim
from support.layouts import BAR, E, FOO, I1, M2, M3, write_layout
from support.program import told

SHIM = r"""
#define _GNU_SOURCE
#include <dlfcn.h>
#include <pthread.h>
#include <stdlib.h>
#include <unistd.h>
int pthread_create(pthread_t *thread, const pthread_attr_t *attributes, void *(*start)(void *), void *argument) {
  int (*next)(pthread_t *, const pthread_attr_t *, void *(*)(void *), void *) = dlsym(RTLD_NEXT, "pthread_create");
  if (write(atoi(getenv("MARK")), "x", 1) != 1) abort();
  return next(thread, attributes, start, argument);
}
"""


def started(library, folder, *words):
    """Return how many threads a command starts, or the message if it was refused."""
    threads, ended = shim.run_marked(library, list(words), folder)
    return threads if ended.status == 0 else told(ended)


def checks(room):
    library = shim.built(room, "count", SHIM)
    blobs = [E, FOO, BAR, M2, M3, I1]
    write_layout(room + "/source", blobs, {"new": I1})
    usual, one, three = (
        started(library, room, "copy", *flags, "source", "new", "copied%d" % number)
        for number, flags in enumerate(([], ["--workers", "1"], ["--workers", "3"]))
    )
    counts = "%s threads by itself, %s for one worker, %s for three" % (usual, one, three)
    yield "a copy has three workers by itself", None if usual == three != one else counts
    # (the calling thread is a worker, and there are at most as many as blobs)
    wanted = {"": min(len(os.sched_getaffinity(0)), len(blobs)), "1": 1, "3": 3, "0": 3, "64": len(blobs)}
    for number, workers in wanted.items():
        for words in ["verify", "source"], ["repair", "source", "copied0"]:
            threads = started(library, room, words[0], *(["--workers", number] if number else []), *words[1:])
            name = "%s by %s" % (words[0], number + " workers" if number else "itself")
            yield name, None if threads == workers - 1 else "%s threads, and not %d" % (threads, workers - 1)
