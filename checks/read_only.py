"""Commands over a layout on a file system that may only be read. Wants `cc`.

A library returns EROFS from each call that would change something below one folder. A command that reads makes no such call, and prints the
same as elsewhere. A copy into that folder is refused, as `tag`, `untag` and an archive there are, and the layout stays.
"""
from support import shim
from support.layouts import BAR, E, FOO, I1, LAYER, M2, M3, S, Content, key, write_layout
from support.program import first, leftovers, run, told, wrong_layout

# Each call that is refused is marked.
SHIM = shim.CHANGES + r"""
static int on_change(const char *path) {
  const char *folder = getenv("READ_ONLY");
  size_t length = strlen(folder);
  if (!path || strncmp(path, folder, length) != 0 || (path[length] != '/' && path[length] != 0)) return 0;
  mark();
  return EROFS;
}
"""

CONTENTS = [E, FOO, BAR, M2, M3, I1, S]
OTHER = Content(LAYER, b"other")
TAGS = {"both": I1, "one": M2, "signature": S}
READING = [
    ["tags", "source"],
    ["resolve", "source", "one"],
    ["predecessors", "source", "one"],
    ["tree", "source", "both"],
    ["tree", "--referrers", "source", "one"],
    ["cat", "source", "one"],
    ["verify", "source"],
    ["copy", "--dry-run", "source", "both", "copied"],
    ["copy", "--dry-run", "other", "bar", "source"],
    ["copy", "--all", "--prune", "--dry-run", "other", "source"],
    ["copy", "--referrers", "source", "one", "copied"],
    ["copy", "--archive", "--referrers", "source", "one", "-"],
    ["prune", "--dry-run", "source"],
    ["repair", "--dry-run", "source", "other"],
    ["prune", "--dry-run", "--untagged", "source"],
]


def wrong_read(library, words, room, usual):
    """Return the problem with a command that reads, or None. It is to print the same as over a folder that may be written."""
    refused, ended = shim.run_marked(library, words, room, {"READ_ONLY": "source"})
    return first([
        None if usual.status == 0 and usual.out else "without the library: " + told(usual),
        None if ended[:3] == usual[:3] else told(ended),
        "%d calls would have changed something" % refused if refused else None,
    ])


def wrong_write(library, words, room, wanted):
    """Return the problem with a command that would change the folder, or None."""
    refused, ended = shim.run_marked(library, words, room, {"READ_ONLY": "source"})
    return first([
        None if ended[:3] == (1, "", wanted) else told(ended),
        None if refused else "no call was refused",
        wrong_layout(room, "source", CONTENTS, TAGS),
        leftovers(room + "/source", CONTENTS),
    ])


def checks(room):
    library = shim.built(room, "read_only", SHIM)
    write_layout(room + "/source", CONTENTS, TAGS)
    write_layout(room + "/other", [BAR, OTHER], {"bar": BAR, "other": OTHER})
    for words in READING:
        # (each copy has a destination of its own)
        usual = run([it + "-before" if it == "copied" else it for it in words], room)
        yield " ".join(words), wrong_read(library, words, room, usual)
    yield "what was copied", wrong_layout(room, "copied", CONTENTS, {"one": M2})
    for name, line in ("bar", "74 Device"), ("other", "82 Push %s 43 Device" % key(OTHER)):
        words = ["copy", "other", name, "source"]
        yield " ".join(words), wrong_write(library, words, room, "ocicp: %s\n" % line)
    for words in ["tag", "source", "one", "new"], ["untag", "source", "signature"], ["copy", "--archive", "other", "bar", "source/new.tar"]:
        yield " ".join(words), wrong_write(library, words, room, "ocicp: 74 Device\n")
