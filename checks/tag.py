"""The command `tag`: it sets the tag of `index.json` that a copy from another layout would set, and changes nothing else. Wants `cc`."""
import json
import os
import shutil
import signal

from support import shim
from support.files import files, wrong_refusal
from support.indexes import entry, named
from support.layouts import BAR, E, FOO, I1, M2, M3, S, blob, digits, key, write_layout
from support.program import first, run, told

CONTENTS = [E, FOO, BAR, M2, M3, I1, S]
PLATFORM = {"architecture": "arm64", "os": "linux"}
NOTES = {"org.opencontainers.image.created": "2024-05-01T00:00:00Z"}
# The entries of the index. Those of `one` and of the signature say more than a descriptor.
ENTRIES = [
    named(M2, "one", NOTES, platform=PLATFORM),
    named(I1, "both"),
    named(M2, "again"),
    named(BAR, "layer"),
    entry(S, artifactType="application/vnd.example.signature"),
]
TAGS = {"one": M2, "both": I1, "again": M2, "layer": BAR}
# References, and what they resolve to.
REFERENCES = {**TAGS, **{"sha256:" + digits(it): it for it in (M2, M3, S, FOO)}}
NAMES = ["new", "one", "both", "a longer name, with spaces: \u00e9", "sha256:" + "0" * 64]
UNKNOWN, EMPTY = "36 UnknownReference", "35 EmptyReference"


def fresh(room):
    """Write a layout, and another one with the same files."""
    for layout in "layout", "other":
        shutil.rmtree("%s/%s" % (room, layout), ignore_errors=True)
        write_layout("%s/%s" % (room, layout), CONTENTS, {})
        with open("%s/%s/index.json" % (room, layout), "w") as file:
            json.dump({"schemaVersion": 2, "manifests": ENTRIES}, file)


def entries_of(room, name):
    """Return the entries of a tag in the saved index."""
    with open(room + "/layout/index.json") as file:
        return [it for it in json.load(file)["manifests"] if it.get("annotations", {}).get("org.opencontainers.image.ref.name") == name]


def members_of(content, reference):
    """Return the members that the entry of a reference has beside those of a descriptor, without the name."""
    taken = [it for it in ENTRIES if it["digest"] == "sha256:" + digits(content)]
    by_name = [it for it in taken if it.get("annotations", {}).get("org.opencontainers.image.ref.name") == reference]
    by_key = [it for it in taken if "annotations" not in it] or taken
    found = dict((by_name or by_key or [entry(content)])[-1])
    notes = {name: it for name, it in found.pop("annotations", {}).items() if name != "org.opencontainers.image.ref.name"}
    return found, notes


def wrong_tag(room, reference, name):
    """Return the problem with a tag that is set, or None. It is to be the one that a copy from the other layout sets."""
    fresh(room)
    before, content = files(room + "/layout"), REFERENCES[reference]
    ended = run(["tag", "layout", reference, name], room)
    after = files(room + "/layout")
    found, notes = members_of(content, reference)
    wanted = [{**found, "annotations": {**notes, "org.opencontainers.image.ref.name": name}}]
    saved = entries_of(room, name)
    again = run(["tag", "layout", reference, name], room)
    shutil.rmtree(room + "/layout")
    shutil.copytree(room + "/other", room + "/layout")
    copied = run(["copy", "other", reference, "layout", name], room)
    return first([
        None if ended[:3] == (0, "tagged %s\n" % key(content), "") else told(ended),
        None if {**after, "index.json": None} == {**before, "index.json": None} else "another file has changed",
        None if saved == wanted else "it has the entries %s" % saved,
        None if again[:3] == ended[:3] else "the same again: " + told(again),
        None if copied.status == 0 and files(room + "/layout") == after else "a copy leaves another index.json",
    ])


def one_by_one(room):
    for reference in REFERENCES:
        yield "tag %s" % reference, first(wrong_tag(room, reference, name) for name in NAMES)


def refused(room):
    fresh(room)
    for words, line in [
        (["nope", "new"], UNKNOWN), (["sha256:" + "0" * 64, "new"], UNKNOWN), (["", "new"], EMPTY), (["one", ""], EMPTY),
    ]:
        yield "tag %s" % words, wrong_refusal(room, ["tag", "layout", *words], line)
    with open("%s/layout/%s" % (room, blob(M2)), "ab") as file:
        file.write(b" ")
    yield "the tag of a damaged manifest", wrong_refusal(room, ["tag", "layout", "one", "new"], "75 Corrupt " + key(M2))
    ended = run(["tag", "layout", "layer", "new"], room)
    yield "another tag, beside a damaged manifest", None if ended[:3] == (0, "tagged %s\n" % key(BAR), "") else told(ended)
    os.mkdir(room + "/folder")
    for path, line in ("folder", "70 NoLayoutFile"), ("layout/index.json", "95 NotWritable layout/index.json"):
        yield "%s is no layout" % path, wrong_refusal(room, ["tag", path, "one", "new"], line)


def killed(room):
    """Kill a command before each change that it makes."""
    library = shim.built(room, "kill", shim.KILLS)
    words = ["tag", "layout", "both", "one"]
    fresh(room)
    run(words, room)
    new = files(room + "/layout")
    for number in range(1, shim.MOST + 1):
        fresh(room)
        old = files(room + "/layout")
        made, ended = shim.run_marked(library, words, room, {"LAST_CHANGE": str(number)})
        if made < number:
            break
        index = files(room + "/layout")["index.json"]
        again = run(words, room)
        yield "killed before change %d" % number, first([
            None if ended.status == -signal.SIGKILL else "it was not killed: " + told(ended),
            None if index in (old["index.json"], new["index.json"]) else "index.json is neither the old one nor the new one",
            # (the file that the killed command has left stays until the next copy or prune)
            None if again[:3] == (0, "tagged %s\n" % key(I1), "") else told(again),
            None if files(room + "/layout")["index.json"] == new["index.json"] else "it leaves another index.json",
        ])
    yield "between 3 and %d changes" % shim.MOST, None if 3 < number < shim.MOST else "%d changes" % (number - 1)


def checks(room):
    for number, group in enumerate([one_by_one, refused, killed]):
        folder = "%s/%d" % (room, number)
        os.mkdir(folder)
        yield from group(folder)
