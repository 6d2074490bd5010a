"""Changes of a layout whose `index.json` is as other tools write it, for which each request for memory is refused in turn.

Such a run ends with status 3 and `ocicp: memory`, or as if nothing had been refused. Then `index.json` is the old one or the new one, and
from the old one the same command, repeated with all memory, makes the new one.
"""
import json
import os
import shutil

from support import refused_malloc
from support.layouts import BAR, E, FOO, M2, M3, NAME, S, descriptor, write_layout
from support.program import run, told
from support.refused_malloc import refused_in_turn


def entry(content, **members):
    return dict(json.loads(descriptor(content)), **members)


# Two entries of one tag, one without a file, one without a tag, one of a tag that stays, with members of their own, and two that are no
# descriptors, of which one has a name.
INDEX = {
    "schemaVersion": 2, "artifactType": "application/vnd.example", "annotations": {"k": "v"},
    "manifests": [
        entry(M2, annotations={NAME: "latest", "io.containerd.image.name": "docker.io/library/alpine:latest"}),
        entry(BAR, annotations={NAME: "gone"}, urls=["https://example.com/bar"]),
        entry(M3, annotations={NAME: "latest"}, platform={"architecture": "amd64", "os": "linux"}),
        entry(S, artifactType="application/vnd.example.signature"), "no descriptor",
        {"digest": "sha384:00", "annotations": {NAME: "latest"}}, entry(M3, annotations={NAME: "latest"}),
        entry(M2, annotations={NAME: "v1", "a": "b"}, other={"x": [1, None, True]}),
    ],
}
COMMANDS = {
    "a tag with two entries is removed": ["untag", "layout", "latest"],
    "a tag with two entries moves": ["copy", "source", "new", "layout", "latest"],
    "a tag is set": ["tag", "layout", "v1", "latest"],
    "a manifest is written": ["cat", "layout", "v1"],
    "all entries are listed": ["tags", "--all", "layout"],
    "shadowed entries are found": ["verify", "layout"],
}


def fresh(folder):
    """Restore the two layouts to their state before the command."""
    for layout in "source", "layout":
        shutil.rmtree("%s/%s" % (folder, layout), ignore_errors=True)
    os.makedirs(folder, exist_ok=True)
    write_layout(folder + "/source", [E, FOO], {"new": FOO})
    write_layout(folder + "/layout", [E, FOO, M2, M3, S], {})
    with open(folder + "/layout/index.json", "w") as file:
        json.dump(INDEX, file)


def index_bytes(folder):
    with open(folder + "/layout/index.json", "rb") as file:
        return file.read()


def wrong_run(words, library, room, nth):
    """Refuse the nth request of a command, and return whether it made that many, and the problem with it or with the index, or None."""
    folder = "%s/%d" % (room, os.getpid())
    fresh(folder)
    old, unhurt, new = index_bytes(folder), run(words, folder), index_bytes(folder)
    fresh(folder)
    refused, ended = refused_malloc.run_refused(library, nth, words, folder)
    complaint = None if ended[:3] == unhurt[:3] or refused and ended[:3] == (3, "", "ocicp: memory\n") else told(ended)
    left = index_bytes(folder)
    if left not in (old, new):
        complaint = complaint or "the index is neither the old one nor the new one"
    if left == old:
        again = run(words, folder)
        if again[:3] != unhurt[:3] or index_bytes(folder) != new:
            complaint = complaint or "the same command again: " + told(again)
    return refused, complaint and "request %d: %s" % (nth, complaint)


def checks(room):
    library = refused_malloc.build(room)
    for number, (what, words) in enumerate(COMMANDS.items()):
        count, complaint = refused_in_turn(words, library, "%s/%d" % (room, number), wrong_run)
        yield "%s, %d requests refused in turn" % (what, count), complaint
