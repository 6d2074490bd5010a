"""The lines that each command prints, made again from the document that it prints with `--json`."""
import errno
import json
import os

from support.pruning import Held, Key, last_line

DESCRIPTOR = {"mediaType": str, "digest": str, "size": int}
# A sum over this is a text.
GREATEST = (1 << 64) - 1
SUM = (int, str)
PRUNED = {"removed": list, "files": list, "kept": int, "bytes": SUM}
# Prunes with these words do not count what has no tag.
UNCOUNTED = {"--untagged", "--leftovers"}
CLEANED = {"untagged": list, **PRUNED}
COPIED = {"copied": list, "planned": int, "pushed": int, "skipped": int}
# What a copy names that stays in SRC. Each of these is left out if it is empty.
LEFT = ["attachedLeft", "untaggedLeft", "notDistributed"]
LEAST_DIGITS = 12
# The members that a blob of a tree, or a referrer, need not have.
OF_BLOBS, OF_REFERRERS = {"distributed": bool}, {"artifactType": str}
# The values of a fault beside its number and its name.
CARRIED = {
    13: {"member": str},
    14: {"member": str, "position": int},
    **dict.fromkeys([42, 53, 56, 57, 75, 77, 82, 83, 84, 88, 96], {"descriptor": dict}),
    54: {"descriptor": dict, "limit": int},
    55: {"descriptors": list},
    **dict.fromkeys([79, 93, 95, 98, 99], {"path": str}),
    80: {"holder": dict, "missing": dict},
    92: {"item": str},
    101: {"form": str},
    **dict.fromkeys([102, 103, 104], {"offset": int}),
    107: {"platform": str, "platforms": list},
}
# What a refusal that a file or folder causes says of it, in this order. The first is left out for a file of `mem`, and the last if the system
# did not fail there.
AT = {"side": str, "path": str, "os": str}
# The commands whose documents may have damaged manifests, and those whose documents may have unreadable entries. A document is then followed
# by the first refusal.
WHOLE = ["tags", "predecessors", "tree"]
REPORTING = [*WHOLE, "verify", "repair"]
# The line of an unreadable entry, without its place, and the lines of a damaged manifest, without its key.
UNREADABLE = "ocicp: 73 BadIndex 14 BadDescriptor manifests "
DAMAGED = ["ocicp: 75 Corrupt ", "ocicp: 77 BadManifest "]
MEMORY = '{"error":[{"name":"Memory"}],"kind":"memory"}\n'
# The last numbers of the refusals of each kind. The others are of the kind `refused`.
KINDS = {
    "notFound": {20, 36, 37, 45, 70, 97, 107, 108},
    "damaged": {*range(10, 15), 21, 31, 32, 40, 42, 53, 55, 71, 73, 75, 77, 80, 83, 96, 102, 103, 109},
    "locked": {99, 110},
    "device": {22, 43, 74, 79, 90, 93, 94, 105},
    "memory": {15, 23, 34, 38, 41, 47, 48, 52, 58, 63, 76, 86, 89, 91, 106},
}
# The kinds that some reasons of the system have in the place of `device`.
OF_SYSTEM = {
    os.strerror(error): kind for kind, errors in {
        "notFound": [errno.ENOENT], "full": [errno.ENOSPC, errno.EDQUOT], "denied": [errno.EACCES, errno.EPERM, errno.EROFS],
    }.items() for error in errors
}


def object_of(members):
    """Return the object with these members. No two may have one name."""
    if len(dict(members)) != len(members):
        raise ValueError("a member is there twice")
    return dict(members)


def no_number(text):
    raise ValueError("%s is no whole number" % text)


def read_document(text):
    """Read a document, which is one line."""
    if not text.endswith("\n") or text.count("\n") != 1:
        raise ValueError("it is not one line")
    return json.loads(text, object_pairs_hook=object_of, parse_float=no_number, parse_constant=no_number)


def taken(value, kinds):
    """Return the values of an object. It is to have exactly these members in this order, each of its type or of one of its types."""
    if type(value) is not dict or list(value) != list(kinds):
        raise ValueError("%.200s does not have the members %s" % (value, ", ".join(kinds)))
    for name, kind in kinds.items():
        if type(value[name]) not in (kind if isinstance(kind, tuple) else (kind,)):
            raise ValueError("%s is %.200r" % (name, value[name]))
    return list(value.values())


def key(descriptor):
    """Return a descriptor as a line has it."""
    media_type, digest, size = taken(descriptor, DESCRIPTOR)
    return "%s %d %s" % (digest, size, media_type)


def sum_of(value):
    """Return a sum, which is a number if 64 bits hold it, and otherwise a text."""
    if (type(value) is int) != (int(value) <= GREATEST) or str(int(value)) != str(value):
        raise ValueError("the sum is %r" % value)
    return int(value)


def tagged(value):
    tag, descriptor = taken(value, {"tag": str, "descriptor": dict})
    return tag, key(descriptor)


def take_list(value, name, words, commands):
    """Take a member out of the document of a command that speaks of the whole layout: a list that is not empty, or nothing."""
    if name not in value:
        return []
    speaks = words[0] in commands and (words[0] != "tree" or "--referrers" in words)
    taken_out = value.pop(name)
    if not speaks or type(taken_out) is not list or not taken_out:
        raise ValueError("%s is %.200r" % (name, taken_out))
    return taken_out


def take_reported(value, words):
    """Take the unreadable entries and the damaged manifests out of a document, and return how the line of each may begin, in their order."""
    places = take_list(value, "unreadable", words, REPORTING)
    if any(type(it) is not int for it in places) or places != sorted(set(places)):
        raise ValueError("unreadable is %.200r" % places)
    damaged = [key(it) for it in take_list(value, "damaged", words, WHOLE)]
    return [("%s%d\n" % (UNREADABLE, it),) for it in places] + [tuple(line + it for line in DAMAGED) for it in damaged]


def of_tags(value, words):
    tags, = taken(value, {"tags": list})
    return ["%s %s" % tagged(it) for it in tags]


def of_resolve(value, words):
    descriptor, = taken(value, {"descriptor": dict})
    return [key(descriptor)]


def of_predecessors(value, words):
    found, = taken(value, {"predecessors": list})
    return [key(it) for it in found]


def of_verify(value, words):
    types = {"absent": list, "corrupt": list, "corruptForeign": list, "open": (dict, type(None)), "shadowed": list, "held": int}
    by_tag = {"broken": list} if "--tags" in words else {}
    absent, corrupt, foreign, open_, shadowed, held, *broken = taken(value, {**types, **by_tag})
    tags = [taken(it, {"tag": str, "blobs": list}) for it in sum(broken, [])]
    pair = [taken(open_, {"holder": dict, "missing": dict})] if open_ else []
    return [
        *("absent " + key(it) for it in absent),
        *("corrupt " + key(it) for it in corrupt),
        *("corrupt-foreign " + key(it) for it in foreign),
        *("open %s %s" % (key(holder), key(missing)) for holder, missing in pair),
        *("shadowed %s %s" % tagged(it) for it in shadowed),
        "held %d" % held,
        *("broken %s %s" % (tag, key(blobs[0])) for tag, blobs in tags),
    ]


def of_explain(value, words):
    more = value.pop("more", None)
    if more == []:
        raise ValueError("more is empty")
    explained = [taken(it, {"number": int, "name": str, "text": str}) for it in [value, *(more or [])]]
    return ["\n\n".join("%d %s\n%s" % tuple(it) for it in explained)]


def of_tag(value, words):
    tag, descriptor = taken(value, {"tag": str, "descriptor": dict})
    if tag != words[-1]:
        raise ValueError("the tag is %r" % tag)
    return ["tagged " + key(descriptor)]


def of_untag(value, words):
    members = {"tag": str, "descriptor": (dict, type(None)), "descriptors": list, "belonged": list}
    tag, descriptor, descriptors, belonged = taken(value, members)
    if tag != words[-1]:
        raise ValueError("the tag is %r" % tag)
    if descriptors[-1] != descriptor:
        raise ValueError("the last entry has %s" % descriptors[-1])
    return ["untagged " + ("-" if it is None else key(it)) for it in descriptors + [it or {} for it in belonged]]


def of_mem(value, words):
    blobs, *counts = taken(value, {"blobs": list, "planned": int, "pushed": int, "skipped": int})
    return [*map(key, blobs), "planned %d pushed %d skipped %d" % tuple(counts)]


def of_prune(value, words):
    # (the tags are left out if none goes)
    tags = value.get("untagged", []) if "--untagged" in words else []
    left = {"untaggedLeft": int} if UNCOUNTED.isdisjoint(words) else {}
    taken(value, {**(CLEANED if tags else PRUNED), **left})
    return ["untagged %s %s" % tagged(it) for it in tags] + pruned_lines(*(value[name] for name in PRUNED), value["untaggedLeft"] if left else 0)


def pruned_lines(removed, files, kept, total, left):
    files = [taken(it, {"path": str, "length": int}) for it in files]
    had = {"blobs/" + taken(it, DESCRIPTOR)[1].replace(":", "/") for it in removed}
    if [path for path, _ in files] != sorted({path for path, _ in files}, key=str.encode):
        raise ValueError("the files are not in the order of their paths")
    lengths = [length for _, length in files]
    if sum(lengths) != sum_of(total):
        raise ValueError("the files do not have %s bytes" % total)
    return [
        *("removed " + key(it) for it in removed),
        *("removed-file %s %d" % (path, length) for path, length in files if path not in had),
        last_line(kept, len(removed), lengths, left),
    ]


def of_repair(value, words):
    repaired, missing, held, total = taken(value, {"repaired": list, "missing": list, "held": int, "bytes": SUM})
    return [
        *("repaired " + key(it) for it in repaired),
        *("missing " + key(it) for it in missing),
        "held %d repaired %d bytes %d missing %d" % (held, len(repaired), sum_of(total), len(missing)),
    ]


def tag_of(words):
    """Return the tag that a copy sets: DSTREF, or SRCREF if there is none."""
    places = [it for it, before in zip(words[1:], words) if not it.startswith("--") and before not in ("--workers", "--depth")]
    return places[3 if len(places) > 3 else 1]


def of_clean_up(value):
    return ["untagged %s %s" % tagged(it) for it in value["untagged"]] + pruned_lines(*(value[name] for name in PRUNED), 0)


def of_plan(value, words):
    kinds = {"blobs": list, "planned": int, "bytes": SUM, "skipped": int, **({"prune": dict} if "--prune" in words else {})}
    blobs, planned, total, skipped, *prune = taken(value, kinds)
    lines = [*map(key, blobs), "planned %d bytes %d skipped %d" % (planned, sum_of(total), skipped)]
    for it in prune:
        taken(it, CLEANED)
        lines += of_clean_up(it)
    return lines


def of_copy(value, words):
    if "--dry-run" in words:
        return of_plan(value, words)
    prunes = "--prune" in words
    left = {it: list for it in LEFT if it in value}
    copied, *counts = taken(value, {**COPIED, **(CLEANED if prunes else {}), **left})[:4]
    tags = [it["tag"] for it in copied]
    # (with --referrers the tags that are made of digests follow)
    if "--all" not in words and (tags[:1] != [tag_of(words)] or tags[1:] and "--referrers" not in words):
        raise ValueError("the tag is not %r" % tag_of(words))
    lines = ["copied " + tagged(it)[1] for it in copied] + ["planned %d pushed %d skipped %d" % tuple(counts)]
    return lines + (of_clean_up(value) if prunes else [])


def size(number):
    """Return a size in the form for people."""
    for least, tenth, unit in (999_950_000, 100_000_000, "GB"), (999_950, 100_000, "MB"), (1_000, 100, "KB"):
        if number >= least:
            return "%d.%d %s" % (*divmod((number + tenth // 2) // tenth, 10), unit)
    return "%d B" % number


class Labels:
    """The parts of a tree's lines that a layout decides: its keys, and the number of digits that tell its digests apart."""

    def __init__(self, folder):
        held = Held(folder)
        self.keys = held.keys.union(*map(held.all_listed, held.keys))
        digests = sorted({it.digest for it in held.keys})
        needed = [len(os.path.commonprefix(pair)) + 1 - len("sha256:") for pair in zip(digests, digests[1:])]
        self.digits = max([LEAST_DIGITS, *needed])

    def of(self, descriptor):
        """Return the short digest, the size and the media type."""
        media_type, digest, number = taken(descriptor, DESCRIPTOR)
        if Key(media_type, digest, number) not in self.keys:
            raise ValueError("the layout does not have %s" % descriptor)
        return "%s %s %s" % (digest[: len("sha256:") + self.digits], size(number), media_type)


def node(value, labels, is_referrer):
    """Return the line of a blob of a tree."""
    kinds = {"depth": int, "descriptor": dict, "tags": list, "repeated": bool, "absent": bool}
    kinds.update({name: kind for name, kind in (OF_REFERRERS if is_referrer else OF_BLOBS).items() if name in value})
    depth, descriptor, tags, repeated, absent, *_ = taken(value, kinds)
    types = [" (%s)" % value["artifactType"]] if "artifactType" in value else []
    marks = [" (shown above)" * repeated, " (absent)" * absent]
    if "distributed" in value:
        if value["distributed"] or absent:
            raise ValueError("%s is distributed or absent" % descriptor)
        marks = [" (not distributed)"]
    return "".join(["  " * depth, labels.of(descriptor), *types, *(" [%s]" % it for it in tags), *marks])


def of_tree(value, words, labels):
    blobs, referrers = taken(value, {"blobs": list, "referrers": list})
    lines = [node(it, labels, False) for it in blobs]
    if "--referrers" in words:
        return lines + ["referrers:" if referrers else "referrers: none"] + [node(it, labels, True) for it in referrers]
    if referrers:
        raise ValueError("it has referrers")
    return lines


LINES = {
    "tags": of_tags, "resolve": of_resolve, "predecessors": of_predecessors, "verify": of_verify, "explain": of_explain,
    "tag": of_tag, "untag": of_untag, "prune": of_prune, "repair": of_repair, "copy": of_copy, "mem": of_mem, "tree": of_tree,
}


def fault(value):
    """Return a fault as a line has it."""
    carried = CARRIED.get(value.get("number"), {})
    number, name, *values = taken(value, {"number": int, "name": str, **carried})
    values = [part for it in values for part in (it if isinstance(it, list) else [it])]
    return " ".join([str(number), name, *(key(it) if isinstance(it, dict) else str(it) for it in values)])


def kind_of(number, reason):
    """Return the kind of a refusal with this last number and this reason of the system, or None."""
    kind = next((kind for kind, numbers in KINDS.items() if number in numbers), "refused")
    return OF_SYSTEM.get(reason, kind) if kind == "device" else kind


def of_error(text):
    """Return the error output as it is without `--json`: with a line in the place of the document."""
    if text == MEMORY:
        return "ocicp: memory\n"
    before, document = text[: text[:-1].rfind("\n") + 1], text[text[:-1].rfind("\n") + 1 :]
    if not document.startswith("{"):
        return text
    value = read_document(document)
    faults, kind, *_ = taken(value, {"error": list, "kind": str, **{name: kind for name, kind in AT.items() if name in value}})
    if kind != kind_of(faults[-1]["number"], value.get("os")):
        raise ValueError("the kind of %s is %r" % (value, kind))
    if "path" not in value and len(value) > 2 or value.get("side", "SRC") not in ("SRC", "DST", "FOLDER"):
        raise ValueError("the file of the refusal is in %s" % value)
    return "%socicp: %s\n" % (before, " ".join(map(fault, faults)))
