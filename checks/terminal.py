"""Refusals on a terminal: a second line explains the last number of the first one. Through a pipe there is no such line. And answers on a
terminal, where control characters are escaped."""
import json
import os

from support.layouts import E, FOO, INDEX, M2, Content, descriptor, key, write_layout
from support.program import run, told
from support.terminal import run_on_terminal

UNKNOWN = "The layout has no tag with this name, and no blob with this digest"
NO_VERSION = "The file `oci-layout` is not a JSON object with a text `imageLayoutVersion`"

# The words, the line of the fault, the subject and the sentence of the second line, and the number that it names.
CASES = [
    ("resolve source nope", "36 UnknownReference", "`nope`: ", UNKNOWN, 36),
    ("copy source nope copied", "36 UnknownReference", "`nope`: ", UNKNOWN, 36),
    ("tags spoiled", "71 BadLayoutFile", "FOLDER `spoiled/oci-layout`: ", NO_VERSION, 71),
    ("copy spoiled one copied", "71 BadLayoutFile", "SRC `spoiled/oci-layout`: ", NO_VERSION, 71),
    ("copy source one spoiled", "71 BadLayoutFile", "DST `spoiled/oci-layout`: ", NO_VERSION, 71),
    ("mem abc.txt", "92 BadItem abc.txt", "", "The named item of `ocicp mem` has no `=`", 92),
]

# A tag, and how a terminal gets it. (the last two characters have a byte that begins control characters, too)
ODD = "a \x1b[31m\a\x7f\u0085\u009b \u00a0\u00e9\u4e16"
ESCAPED = "a \\u{1b}[31m\\u{7}\\u{7f}\\u{85}\\u{9b} \u00a0\u00e9\u4e16"
PIPE = ("The folder or archive is not an image layout: it does not exist, or has no file `oci-layout`. An archive from a pipe or a device "
        "is read from the standard input, as `-`")


def answers(room):
    """Check the tags of a layout on a terminal and through a pipe."""
    write_layout(room + "/odd", [E, FOO, M2], {ODD: M2})
    for name, found, tag in [
        ("tags odd", run_on_terminal(["tags", "odd"], room, shows_output=True), ESCAPED),
        ("tags odd, through a pipe", run(["tags", "odd"], room)[:2], ODD),
    ]:
        yield name, None if found == (0, "%s %s\n" % (tag, key(M2))) else "status %d, %r" % found


def platforms(room):
    """Check a refusal that prints a platform of an index, on a terminal and through a pipe."""
    entry = dict(json.loads(descriptor(M2)), platform={"os": ODD, "architecture": "b"})
    listed = Content(INDEX, json.dumps({"schemaVersion": 2, "manifests": [entry]}).encode())
    write_layout(room + "/platforms", [E, FOO, M2, listed], {"one": listed})
    words = ["resolve", "--platform", "a/b", "platforms", "one"]
    line = "ocicp: 107 NoPlatform a/b %s/b\n"
    status, text = run_on_terminal(words, room)
    yield "a platform of an index", None if status == 1 and text.startswith(line % ESCAPED) else "status %d, %r" % (status, text)
    ended = run(words, room)
    yield "a platform of an index, through a pipe", None if (ended.status, ended.err) == (1, line % ODD) else told(ended)


def pipes(room):
    """Check paths of a pipe, which is no archive."""
    os.mkfifo(room + "/pipe")
    line, second = "ocicp: 70 NoLayoutFile\n", "%s `pipe`: " + PIPE + ". Run `ocicp explain 70` for what to do.\n"
    for words, side in ("tags pipe", "FOLDER"), ("copy pipe one copied", "SRC"):
        found = run_on_terminal(words.split(), room)
        yield words, None if found == (1, line + second % side) else "status %d, %r" % found


def checks(room):
    yield from answers(room)
    yield from platforms(room)
    yield from pipes(room)
    write_layout(room + "/source", [E, FOO, M2], {"one": M2})
    write_layout(room + "/spoiled", [E, FOO, M2], {"one": M2})
    with open(room + "/spoiled/oci-layout", "w") as file:
        file.write("{}")
    for words, fault, subject, sentence, number in CASES:
        line = "ocicp: %s\n" % fault
        second = "%s%s. Run `ocicp explain %d` for what to do.\n" % (subject, sentence, number)
        found = run_on_terminal(words.split(), room)
        yield words, None if found == (1, line + second) else "status %d, %r" % found
        piped = run(words.split(), room)
        yield words + ", through a pipe", None if piped[:3] == (1, "", line) else "%r" % (piped[:3],)
    found = run_on_terminal(["tags", "source"], room)
    yield "tags source", None if found == (0, "") else "status %d, %r" % found
