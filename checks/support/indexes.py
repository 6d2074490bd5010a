"""Indexes of layouts with entries that are no descriptors, or that mean other keys than their own, made at random, and the indexes that a save
makes of them by the rules of docs/damage.md and docs/howto.md."""
import json

from support.files import read
from support.layouts import ARTIFACT, INDEX, LAYER, NAME, descriptor, image
from support.pruning import MEMBERS, OCTETS, Held, is_readable, key_of, name_of, plain_type

# Values that are no objects, or have nothing that a descriptor has.
OTHERS = [None, True, -7, 1.5, "a \"text\"\n", [], [{"z": 1, "a": [{"y": None, "b": "\u00e9"}]}], {}, {"x": [1, None, {"z": 1, "y": 2}]}]
# The members that make a descriptor unreadable. A member that is None goes.
BROKEN = [
    {"mediaType": None}, {"digest": None}, {"size": None}, {"mediaType": 5}, {"digest": ["sha256"]}, {"size": "385"}, {"size": -1},
    {"size": 1.5}, {"size": 1 << 63}, {"digest": "sha384:" + "0" * 96}, {"digest": "sha256:" + "0" * 63}, {"digest": "sha256:" + "A" * 64},
    {"digest": "../../x"}, {"digest": ""},
]
LOST = image([], number=9)
# Media types that are no manifest's, and what follows one that has parameters.
OTHER_TYPES, PARAMETERS = [OCTETS, OCTETS, OCTETS, "application/json", LAYER, ""], ["; charset=utf-8", ";", ";a=b;c=d"]


def entry(content, **members):
    return dict(json.loads(descriptor(content)), **members)


def named(content, name, annotations=(), **members):
    return entry(content, annotations={NAME: name, **dict(annotations)}, **members)


def unreadable(chance, name=None):
    """Return a value that is no descriptor, with this name."""
    if name is None and chance.random() < 0.4:
        return chance.choice(OTHERS)
    members = {**entry(LOST, platform={"os": "linux", "architecture": "amd64"}, other=chance.choice(OTHERS)), **chance.choice(BROKEN)}
    annotations = {} if name is None else {"annotations": {"k": "v", NAME: name}}
    return {it: value for it, value in {**members, **annotations}.items() if value is not None}


def add_unreadable(folder, chance):
    """Put values that are no descriptors into the index of a layout, some with the name of a tag."""
    index = json.loads(read(folder + "/index.json"))
    names = [None, "new", *filter(None, map(name_of, index["manifests"]))]
    for _ in range(chance.randrange(1, 4)):
        index["manifests"].insert(chance.randrange(len(index["manifests"]) + 1), unreadable(chance, chance.choice(names)))
    with open(folder + "/index.json", "w") as file:
        json.dump(index, file)


def odd(chance, value):
    """Return an entry of the same file with another media type or another size. One of a layer says of no other type that it is a manifest."""
    media_type, size = value["mediaType"], value["size"]
    kind = plain_type(media_type)
    types = [chance.choice(OTHER_TYPES), media_type]
    if kind in MEMBERS:
        types += [it + chance.choice(PARAMETERS) for it in (kind, kind if kind == ARTIFACT else chance.choice([*MEMBERS]))]
    sizes = [size, size, size + 1, max(size - 1, 0), 0, (1 << 63) - 1]
    return {**value, "mediaType": chance.choice(types), "size": chance.choice(sizes)}


def add_odd(folder, chance, share):
    """Give this share of the entries of a layout another media type or another size. Beside some of them the right one stays, without a name."""
    index, entries = json.loads(read(folder + "/index.json")), []
    for value in index["manifests"]:
        is_odd = is_readable(value) and chance.random() < share
        entries.append(odd(chance, value) if is_odd else value)
        if is_odd and chance.random() < 0.2:
            entries.append({name: it for name, it in value.items() if name != "annotations"})
    with open(folder + "/index.json", "w") as file:
        json.dump({**index, "manifests": entries}, file)


def random_entries(chance, contents, names):
    """Return entries with one of these names or none: of these contents, of a blob without a file, and values that are no descriptors."""
    entries = []
    for _ in range(chance.randrange(1, 8)):
        name = chance.choice([None, None, *names])
        content = chance.choice([*contents, LOST])
        members = {} if name is None else {"annotations": {"k": "v", NAME: name}}
        readable = entry(content, number=chance.randrange(9), **members)
        readable = odd(chance, readable) if chance.random() < 0.3 else readable
        entries.append(readable if chance.random() < 0.5 else unreadable(chance, name))
    return entries


def without_names(folder, names):
    """Write the index of a layout without the tags of these names. What they named stays, as entries without a tag."""
    held, entries = Held(folder), json.loads(read(folder + "/index.json"))["manifests"]
    rest, listed = [it for it in entries if name_of(it) not in names], set().union(*map(held.listed, held.keys))
    with open(folder + "/index.json", "w") as file:
        file.write(saved_text(saved_entries(rest, held.keys, listed, held.meant)))


def last_places(entries):
    """Return the place of the last entry of each name."""
    return {name_of(it): place for place, it in enumerate(entries) if name_of(it)}


def saved_entries(entries, keys, listed, meant=key_of):
    """Return the entries that a save writes: first those that are not held, and those whose name a later entry has; then those of the tags;
    then those without a name, and new ones in key order. These keys are held, and the manifests among them list others. `meant` returns the
    key that an entry means.
    """
    last = last_places(entries)
    is_held = [is_readable(it) and meant(it) in keys for it in entries]
    before = [it for place, it in enumerate(entries) if not is_held[place] or name_of(it) and last[name_of(it)] != place]
    tagged = [entries[last[name]] for name in sorted(last, key=str.encode) if is_held[last[name]]]
    loose = [it for place, it in enumerate(entries) if is_held[place] and not name_of(it)]
    has = set(map(meant, [*tagged, *loose]))
    new = sorted(it for it in keys - has if it.media_type in MEMBERS or it not in listed)
    return [*before, *tagged, *loose, *({"mediaType": it.media_type, "digest": it.digest, "size": it.size} for it in new)]


def saved_text(entries):
    """Return the text of an index with these entries, as a save writes it."""
    index = {"schemaVersion": 2, "mediaType": INDEX, "manifests": entries}
    return json.dumps(index, sort_keys=True, separators=(",", ":"), ensure_ascii=False)
