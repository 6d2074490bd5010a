"""The files of a folder, and whether a command changes any of them."""
import os
import stat

from support.program import first, run, told

# Larger files are not read.
MOST = 32 << 10


def files(folder):
    """Return each path below a folder, with its bytes, the target of a link, or its kind. Large files and other kinds are not read."""
    found = {}
    for at, folders, names in os.walk(folder):
        for name in [*folders, *names]:
            path = os.path.join(at, name)
            state = os.lstat(path)
            found[os.path.relpath(path, folder)] = (
                os.readlink(path) if stat.S_ISLNK(state.st_mode)
                else read(path) if stat.S_ISREG(state.st_mode) and state.st_size <= MOST
                else (stat.S_IFMT(state.st_mode), stat.S_ISREG(state.st_mode) and state.st_size)
            )
    return found


def read(path):
    with open(path, "rb") as file:
        return file.read()


def stamps(folder):
    """Return each path below a folder, with the number of its file, its length, its mode and the time of its last change."""
    found = {}
    for at, folders, names in os.walk(folder):
        for name in [".", *folders, *names]:
            state = os.lstat(os.path.join(at, name))
            found[os.path.relpath(os.path.join(at, name), folder)] = (state.st_ino, state.st_size, state.st_mode, state.st_mtime_ns)
    return found


def wrong_refusal(room, words, line, status=1, **how):
    """Return the problem with a command that is to be refused with this line, and to change nothing, or None. `how` goes to `run`."""
    before, when = files(room), stamps(room)
    ended = run(words, room, **how)
    return first([
        None if ended[:3] == (status, "", "ocicp: %s\n" % line) else "%s: %s; and not %s" % (" ".join(words), told(ended), line),
        None if files(room) == before and stamps(room) == when else "%s: something has changed" % " ".join(words),
    ])
