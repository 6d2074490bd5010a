"""What `verify` and `verify --tags` find in a layout, worked out from its files by the rules of `ocicp verify --help` and docs/damage.md."""
import json
import os

from support.files import read
from support.pruning import is_readable, key_of, meant_key, name_of, path, text
from support.repairing import is_match, listed


def descriptor_of(key):
    return {"mediaType": key.media_type, "digest": key.digest, "size": key.size}


class Verify:
    """The findings of `verify --tags` in a layout."""

    def __init__(self, folder):
        self.folder = folder
        self.entries = json.loads(read(folder + "/index.json"))["manifests"]
        self.unreadable = [place for place, it in enumerate(self.entries) if not is_readable(it)]
        # The name of each entry and the key that it means, which is None for one that is no descriptor.
        self.named = [(name_of(it), meant_key(folder, key_of(it)) if is_readable(it) else None) for it in self.entries]
        keys = [key for _, key in self.named if key]
        # The keys that are reached, in the order in which they are met, each with those that it lists.
        self.lists = self.reached(keys)
        self.missing = {it for it in self.lists if not self.has_file(it)}
        self.corrupt = {it for it in self.lists if self.has_file(it) and self.content(it) is None}
        self.absent = [it for it in keys if it in self.missing]
        names = [name for name, _ in self.named]
        self.shadowed = [(name, key) for place, (name, key) in enumerate(self.named) if name and key and name in names[place + 1:]]
        # The key of each tag: that of the last entry with its name, also of one whose blob is missing or damaged.
        self.tags = {name: key for name, key in dict(self.named).items() if name and key}
        bad = {name: sorted((self.missing | self.corrupt) & set(self.reached([key]))) for name, key in self.tags.items()}
        self.broken = [(name, bad[name]) for name in sorted(bad, key=str.encode) if bad[name]]

    def roots(self):
        """Return the keys that the entries mean."""
        return {key for _, key in self.named if key}

    def place(self, key):
        return "%s/%s" % (self.folder, path(key))

    def has_file(self, key):
        """Return whether something has the name of a key's file. If that is a folder, the key is damaged."""
        return os.path.exists(self.place(key))

    def content(self, key):
        """Return the bytes of a key's file, or None if there is none, or if they do not match the key, or are no manifest that it calls for."""
        content = read(self.place(key)) if os.path.isfile(self.place(key)) else None
        return content if content is not None and is_match(key, content) and listed(key.media_type, content) is not None else None

    def reached(self, keys):
        """Return these keys, and those that they reach through manifests that are not damaged, each with the keys that it lists. Those that a
        key lists are met in their order, after all that were met before."""
        found, queue = {}, list(keys)
        for key in queue:
            if key not in found:
                content = self.content(key)
                found[key] = [] if content is None else listed(key.media_type, content)
                queue += found[key]
        return found

    def open(self):
        """Return the first key that lists a missing one, and the first that it lists, in a list, or an empty one."""
        return [(key, it) for key, keys in self.lists.items() for it in keys if it in self.missing][:1]

    def held(self):
        return len(self.lists) - len(self.missing)

    def status(self):
        return 1 if self.missing or self.corrupt or self.unreadable else 0

    def lines(self):
        """Return the lines of `verify`."""
        return [
            *("absent " + text(it) for it in self.absent),
            *("corrupt " + text(it) for it in sorted(self.corrupt)),
            *("open %s %s" % (text(holder), text(it)) for holder, it in self.open()),
            *("shadowed %s %s" % (name, text(it)) for name, it in self.shadowed),
            "held %d" % self.held(),
        ]

    def broken_lines(self):
        """Return the lines that `--tags` adds."""
        return ["broken %s %s" % (name, text(keys[0])) for name, keys in self.broken]

    def errors(self):
        return ["ocicp: 73 BadIndex 14 BadDescriptor manifests %d" % it for it in self.unreadable]

    def document(self):
        """Return the document of `verify --tags --json`."""
        pairs = [{"holder": descriptor_of(holder), "missing": descriptor_of(it)} for holder, it in self.open()]
        found = {
            "absent": [*map(descriptor_of, self.absent)],
            "corrupt": [*map(descriptor_of, sorted(self.corrupt))],
            # (no manifest here lists a layer that is not to be distributed)
            "corruptForeign": [],
            "open": pairs[0] if pairs else None,
            "shadowed": [{"tag": name, "descriptor": descriptor_of(it)} for name, it in self.shadowed],
            "held": self.held(),
            "broken": [{"tag": name, "blobs": [*map(descriptor_of, keys)]} for name, keys in self.broken],
        }
        return {**found, "unreadable": self.unreadable} if self.unreadable else found
