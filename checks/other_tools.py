"""Changes of layouts whose `index.json` is as other tools write it, and of random ones with unreadable entries: each entry, and the index,
keeps what they wrote."""
import json
import random
import shutil

from support.indexes import entry, last_places, named, random_entries, saved_entries, saved_text
from support.layouts import BAR, E, FOO, I1, INDEX, M2, M3, NAME, S, image, key, write_layout
from support.program import first, run, told
from support.pruning import OCTETS, Held, is_readable, key_of, name_of, notes, text

CONTENTS = [E, FOO, BAR, M2, M3, I1, S]
NEW = image([BAR])
# The tag that is set and removed again. It comes after the others in byte order.
TAG = "zz"
CREATED = "2024-05-01T00:00:00Z"
# The number of random indexes, and the names of their entries. The source has a tag of one of them.
INDEXES = 40
NAMES = ["a", "b", "v1"]


def of_index(*entries, **members):
    return {"schemaVersion": 2, **members, "manifests": list(entries)}


LINUX = {"architecture": "amd64", "os": "linux"}
# The index of each tool, written by hand after what the tool writes.
TOOLS = {
    "docker save": of_index(
        named(M2, "latest", {"io.containerd.image.name": "docker.io/library/alpine:latest"}),
        named(M3, "latest", {"io.containerd.image.name": "docker.io/library/busybox:latest"}),
        mediaType=INDEX),
    "docker buildx build": of_index(
        named(I1, "v1", {"io.containerd.image.name": "docker.io/acme/app:v1", "org.opencontainers.image.created": CREATED}),
        mediaType=INDEX),
    "ctr images export": of_index(
        named(M2, "v1", {"io.containerd.image.name": "docker.io/library/hello:v1"}, platform=LINUX),
        named(I1, "v2", {"io.containerd.image.name": "docker.io/library/hello:v2"})),
    "cosign save": of_index(
        entry(M2, annotations={"kind": "dev.cosignproject.cosign/image"}),
        entry(S, annotations={"kind": "dev.cosignproject.cosign/sigs"}),
        mediaType=INDEX),
    "oras cp": of_index(
        named(M2, "v1", artifactType="application/vnd.example+type"),
        entry(S, artifactType="application/vnd.example.signature")),
    "skopeo copy": of_index(named(M2, "v1"), named(M3, "v2", platform=LINUX), entry(I1, platform=LINUX)),
    "umoci": of_index(named(M2, "v1", platform={**LINUX, "os.version": "1", "variant": "v8"})),
    "oras tag": of_index(named(I1, "v1"), {**named(M2, "v1-amd64"), "mediaType": OCTETS}),
    "a tool with members of its own": of_index(
        named(M2, "v1", {"a": "b"}, urls=["https://example.com/a"], data="e30=", other={"x": [1, None, True]}),
        artifactType="application/vnd.example", annotations={"k": "v"}, other=["y"]),
}


# The manifests without a tag that have no entry: each save gives them one.
UNLISTED = {"docker save": [M2], "docker buildx build": [M2, M3], "ctr images export": [M3], "oras tag": [M3]}


def fresh(room, index):
    for layout in "source", "layout", "all":
        shutil.rmtree("%s/%s" % (room, layout), ignore_errors=True)
    write_layout(room + "/source", [E, BAR, NEW], {"v1": NEW})
    write_layout(room + "/layout", CONTENTS, {})
    with open(room + "/layout/index.json", "w") as file:
        json.dump(index, file)


def index_bytes(room):
    with open(room + "/layout/index.json", "rb") as file:
        return file.read()


def sorted_entries(entries):
    return sorted(json.dumps(it, sort_keys=True) for it in entries)


def wrong_index(room, entries, members):
    """Return the problem with the saved index, or None. The entries may be in another order."""
    saved = json.loads(index_bytes(room))
    found = saved.pop("manifests")
    if saved != members:
        return "the index has %s" % saved
    if sorted_entries(found) != sorted_entries(entries):
        return "the entries are %s" % found


def wrong_run(room, *words):
    ended = run(words, room)
    return None if ended.status == 0 else told(ended)


def tags(room, layout):
    return run(["tags", layout], room).out


def wrong_change(room, index, unlisted):
    """Return the problem with a tag that is set and removed again with its image, or None. Only the entries of the unlisted manifests are new.
    """
    fresh(room, index)
    entries = index["manifests"] + [entry(it) for it in unlisted]
    before = tags(room, "layout")
    members = {**{name: value for name, value in index.items() if name != "manifests"}, "mediaType": INDEX}
    complaint = wrong_run(room, "copy", "source", "v1", "layout", TAG)
    complaint = complaint or wrong_index(room, [*entries, named(NEW, TAG)], members)
    once = index_bytes(room)
    return first([
        complaint,
        wrong_run(room, "copy", "source", "v1", "layout", TAG),
        None if index_bytes(room) == once else "a second copy changed the index",
        wrong_run(room, "untag", "layout", TAG),
        wrong_index(room, entries, members),
        None if tags(room, "layout") == before else "the tags changed",
    ])


def wrong_prune(room, index):
    """Return the problem with prunes of a layout, or None. The index stays as it is, and with `--untagged` the entries of tags do."""
    fresh(room, index)
    before = index_bytes(room)
    last = {it["annotations"][NAME]: it for it in index["manifests"] if NAME in it.get("annotations", {})}
    complaint = wrong_run(room, "prune", "layout") or (None if index_bytes(room) == before else "the index has changed")
    if not last:
        return complaint
    complaint = complaint or wrong_run(room, "prune", "--untagged", "layout")
    kept = json.loads(index_bytes(room))["manifests"]
    lost = [name for name, it in last.items() if it not in kept]
    return complaint or ("the entry of %s changed" % lost[0] if lost else None)


def wrong_copy(room, index):
    """Return the problem with a copy of all tags, or None."""
    fresh(room, index)
    complaint = wrong_run(room, "copy", "--all", "layout", "all")
    return complaint or (None if tags(room, "all") == tags(room, "layout") else "the tags differ")


def refusal(place):
    """Return the line for an entry that is no descriptor."""
    return "ocicp: 73 BadIndex 14 BadDescriptor manifests %d\n" % place


class Index:
    """A layout with these entries in its index, and what the commands are to print and to save."""

    def __init__(self, room, entries):
        self.room, self.entries, self.last = room, entries, last_places(entries)
        self.restore()
        self.held = Held(room + "/layout")
        self.refusals = "".join(map(refusal, self.held.unreadable))

    def restore(self):
        fresh(self.room, of_index(*self.entries))

    def named(self, name):
        return [it for it in self.entries if name_of(it) == name]

    def without(self, name):
        return [it for it in self.entries if name_of(it) != name]

    def wrong(self, words, status, out, err=""):
        """Return the problem with a command that is to end like this, or None. One that is refused is to change nothing."""
        before = index_bytes(self.room)
        ended = run(words, self.room)
        if ended[:3] != (status, out, err):
            return "%s: %s" % (" ".join(words), told(ended))
        return "%s: the index has changed" % words if err and index_bytes(self.room) != before else None

    def saved(self, entries, *new):
        """Return the entries that a save writes for these. These contents are new."""
        keys = self.held.keys.union(key_of(entry(it)) for it in new)
        listed = set().union(*map(Held(self.room + "/layout").listed, keys))
        return saved_entries(entries, keys, listed, self.held.meant)

    def wrong_index(self, entries, *new):
        """Return the problem with the saved index, or None. These contents are new."""
        wanted, found = saved_text(self.saved(entries, *new)), index_bytes(self.room).decode()
        return None if found == wanted else "the index is %.500s, and not %.500s" % (found, wanted)

    def wrong_copies(self):
        """Return the problem with copies of a tag into the layout and with its removal, or None."""
        count = len({key_of(entry(it)) for it in (NEW, E, BAR)} - self.held.keys)
        copied = "copied %s\nplanned %d pushed %d skipped 0\n" % (key(NEW), count, count)
        self.restore()
        complaint = first([
            self.wrong(["copy", "--all", "source", "layout"], 0, copied),
            self.wrong_index([*self.without("v1"), named(NEW, "v1")], NEW, E, BAR),
        ])
        self.restore()
        entries = [*self.entries, named(NEW, TAG)]
        return complaint or first([
            self.wrong(["copy", "source", "v1", "layout", TAG], 0, copied),
            self.wrong_index(entries, NEW, E, BAR),
            self.wrong_untag(TAG),
        ])

    def wrong_untag(self, name):
        """Return the problem with the removal of a name, or None. With a tag goes what belongs to it alone."""
        held, entries = Held(self.room + "/layout"), json.loads(index_bytes(self.room))["manifests"]
        left, own = held.left_without(name), [it for it in entries if name_of(it) == name]
        lines = ["untagged %s\n" % (text(held.meant(it)) if is_readable(it) else "-") for it in own]
        lines += ["untagged %s\n" % text(it) for it in held.belonged(name)]
        rest = [it for it in entries if name_of(it) != name and not (is_readable(it) and held.meant(it) in held.keys - left)]
        wanted = saved_text(saved_entries(rest, left, set().union(*map(held.listed, left)), held.meant))
        complaint = self.wrong(["untag", "layout", name], 0, "".join(lines))
        found = index_bytes(self.room).decode()
        return complaint or (None if found == wanted else "the index is %.500s, and not %.500s" % (found, wanted))

    def wrong_name(self, name):
        """Return the problem with a name, or None."""
        self.restore()
        entries = self.named(name)
        if not entries:
            return first(self.wrong([it, "layout", name], 1, "", "ocicp: 36 UnknownReference\n") for it in ("resolve", "untag"))
        if name in self.held.tags:
            ended = 0, text(self.held.tags[name]) + "\n", ""
        else:
            ended = 1, "", refusal(self.last[name]) if not is_readable(entries[-1]) else "ocicp: 36 UnknownReference\n"
        return first([
            self.wrong(["resolve", "layout", name], *ended),
            self.wrong_untag(name),
        ])

    def wrong_lists(self):
        """Return the problem with the tags and the findings, or None."""
        self.restore()
        held, status = self.held, 1 if self.refusals else 0
        shadowed = [it for place, it in enumerate(self.entries) if self.last.get(name_of(it), place) != place and is_readable(it)]
        lists = ["%s %s\n" % (name, text(it)) for name, it in sorted(held.tags.items())]
        findings = [
            *("absent %s\n" % text(it) for it in held.absent),
            *("shadowed %s %s\n" % (name_of(it), text(held.meant(it))) for it in shadowed),
            "held %d\n" % len(held.keys),
        ]
        return first([
            self.wrong(["tags", "layout"], status, "".join(lists), self.refusals),
            self.wrong(["verify", "layout"], 1 if held.absent else status, "".join(findings), self.refusals),
        ])

    def wrong_refused(self):
        """Return the problem with the commands that may be refused for an entry, or None."""
        self.restore()
        no_tags = [] if self.held.tags else ["ocicp: 97 NoTags\n"]
        absent = ["ocicp: 96 Unknown %s\n" % text(it) for it in self.held.absent]
        unreadable = [refusal(it) for it in self.held.unreadable]
        of_all = [it for place, entry in enumerate(self.entries) if name_of(entry) for it in self.lack_of(place, entry)]
        return first([
            self.wrong_answer(["prune", "--dry-run", "layout"], (absent + unreadable)[:1]),
            self.wrong_answer(["prune", "--dry-run", "--untagged", "layout"], (absent + unreadable + no_tags)[:1]),
            self.wrong_answer(["copy", "--all", "layout", "all"], (of_all + no_tags)[:1]),
            self.wrong_answer(["copy", "--all", "--referrers", "--dry-run", "layout", "all"], (unreadable + of_all + no_tags)[:1]),
        ])

    def lack_of(self, place, entry):
        """Return the line for an entry that a copy would leave out, in a list, or an empty one."""
        if not is_readable(entry):
            return [refusal(place)]
        key = self.held.meant(entry)
        return ["ocicp: 96 Unknown %s\n" % text(key)] if key in self.held.absent else []

    def wrong_answer(self, words, lines):
        """Return the problem with a command that is to be refused with one of these lines, or to succeed if there is none, or None."""
        ended = run(words, self.room)
        # (a copy says how many images without a tag stay)
        left = self.held.free() - Held(self.room + "/all").keys if ended.status == 0 and words == ["copy", "--all", "layout", "all"] else ()
        right = ended[:2] == (1, "") and ended.err in lines if lines else (ended.status, ended.err) == (0, notes(0, len(left)))
        return None if right else "%s: %s, and not %s" % (" ".join(words), told(ended), lines)


def wrong_at_random(room, chance):
    """Return the problem with a random index, or None."""
    index = Index(room, random_entries(chance, CONTENTS, NAMES))
    return index.wrong_lists() or index.wrong_copies() or index.wrong_refused() or first(map(index.wrong_name, NAMES))


def checks(room):
    chance = random.Random(1)
    for number in range(INDEXES):
        yield "random index %d" % number, wrong_at_random(room, chance)
    for tool, index in TOOLS.items():
        yield "%s: a tag is set and removed" % tool, wrong_change(room, index, UNLISTED.get(tool, []))
        yield "%s: prune" % tool, wrong_prune(room, index)
        if tool != "cosign save":
            yield "%s: copy --all" % tool, wrong_copy(room, index)
