"""The command `untag`, also of random layouts, against the rules of its help, and the findings of `verify` for entries without a file. Wants `cc`."""
import os
import random
import shutil
import signal

from attached import random_layout
from support import shim
from support.files import files, wrong_refusal
from support.indexes import add_odd
from support.layouts import BAR, E, FOO, I1, LAYER, M2, M3, S, Content, blob, digits, key, write_layout
from support.program import first, run, told
from support.pruning import Held, Prune, text

CONTENTS = [E, FOO, BAR, M2, M3, I1, S]
TAGS = {"both": I1, "one": M2, "again": M2, "layer": BAR, "sha256:" + digits(M3): S, "a longer name, with spaces: \u00e9": M3}
# The number of random layouts.
LAYOUTS = 40
UNKNOWN, EMPTY = "36 UnknownReference", "35 EmptyReference"


def fresh(room):
    shutil.rmtree(room + "/layout", ignore_errors=True)
    write_layout(room + "/layout", CONTENTS, TAGS, [S])


def tags(room):
    return run(["tags", "layout"], room)[:3]


def lines(names):
    """Return the end of `tags` for these tags."""
    return 0, "".join("%s %s\n" % (name, key(names[name])) for name in sorted(names, key=str.encode)), ""


def wrong_untag(room, name):
    """Return the problem with the removal of one tag, or None. What belongs to it alone is to go with it, and each file is to stay until a
    prune."""
    held, before = Held(room + "/layout"), files(room + "/layout")
    left = held.left_without(name)
    ended = run(["untag", "layout", name], room)
    after, saved = files(room + "/layout"), Held(room + "/layout")
    lines = ["untagged %s\n" % text(it) for it in [*held.by_name[name], *held.belonged(name)]]
    pruned = Prune(room + "/layout")
    prune = run(["prune", "layout"], room) if saved.has_entries else None
    return first([
        None if ended[:3] == (0, "".join(lines), "") else told(ended),
        None if {**after, "index.json": None} == {**before, "index.json": None} else "another file has changed",
        None if saved.keys == left else "what is held is not what is left",
        None if saved.tags == {it: key for it, key in held.tags.items() if it != name and key in left} else "the tags: %s" % sorted(saved.tags),
        None if not prune or prune[:3] == (0, pruned.out, "") else told(prune),
        wrong_refusal(room, ["untag", "layout", name], UNKNOWN),
    ])


def one_by_one(room):
    for name in TAGS:
        fresh(room)
        yield "untag %s" % name, wrong_untag(room, name)
    fresh(room)
    yield "each tag in turn", first(wrong_untag(room, name) for name in TAGS)


def at_random(room):
    """Remove each tag of random layouts, which have signatures and tags by digest, one by one and in turn."""
    gone = odd = 0
    for seed in range(LAYOUTS):
        chance = random.Random(seed)
        contents, names, manifests = random_layout(chance)
        untagged = [it for it in manifests if chance.random() < 0.3]
        for is_fresh in True, False:
            found = []
            for number, name in enumerate(names):
                if is_fresh or not number:
                    shutil.rmtree(room + "/layout", ignore_errors=True)
                    write_layout(room + "/layout", contents, names, untagged)
                    add_odd(room + "/layout", chance, chance.choice([0, 0.4]))
                held = Held(room + "/layout")
                if name in held.tags:
                    gone += len(held.keys - held.left_without(name))
                    odd += bool(held.odd)
                    found.append(wrong_untag(room, name))
            yield "random layout %d, %s" % (seed, "tag by tag" if is_fresh else "each tag in turn"), first(found)
    yield "what goes with the tags of random layouts", None if gone > LAYOUTS else "only %d keys" % gone
    yield "random layouts with entries that mean other keys", None if odd > LAYOUTS else "only %d" % odd


def refused(room):
    fresh(room)
    for name in "other", "bot", "both ", "BOTH", "sha256:" + digits(M2), "sha256:" + digits(FOO), "sha256:" + "0" * 64:
        yield "untag %s" % name, wrong_refusal(room, ["untag", "layout", name], UNKNOWN)
    yield "the empty text", wrong_refusal(room, ["untag", "layout", ""], EMPTY)


def killed(room):
    """Kill the removal of a tag before each change that it makes."""
    library = shim.built(room, "kill", shim.KILLS)
    without = {name: TAGS[name] for name in TAGS if name != "one"}
    for number in range(1, shim.MOST + 1):
        fresh(room)
        made, ended = shim.run_marked(library, ["untag", "layout", "one"], room, {"LAST_CHANGE": str(number)})
        if made < number:
            break
        found, verified = tags(room), run(["verify", "layout"], room)
        again = run(["untag", "layout", "one"], room)
        yield "killed before change %d" % number, first([
            None if ended.status == -signal.SIGKILL else "it was not killed: " + told(ended),
            None if found in (lines(TAGS), lines(without)) else "tags: %s" % (found,),
            None if verified[:3] == (0, "held %d\n" % len(CONTENTS), "") else told(verified),
            None if again.status == (0 if found == lines(TAGS) else 1) else told(again),
            None if tags(room) == lines(without) else "tags: %s" % (tags(room),),
        ])
    yield "between 3 and %d changes" % shim.MOST, None if 3 < number < shim.MOST else "%d changes" % (number - 1)


def absent(room):
    """Check entries of the index without a file, which `verify` prints first, in their order."""
    lost = [Content(LAYER, b"lost"), M3, Content(LAYER, b"also lost")]
    write_layout(room + "/lacks", [E, M2, BAR], {"a": lost[0], "image": M2, "b": lost[1]}, [lost[2], BAR])
    with open("%s/lacks/%s" % (room, blob(BAR)), "w") as file:
        file.write("BAR")
    out = ["absent " + key(it) for it in lost] + ["corrupt " + key(BAR), "open %s %s" % (key(M2), key(FOO)), "held 3"]
    ended = run(["verify", "lacks"], room)
    yield "entries without a file", None if ended[:3] == (1, "\n".join(out) + "\n", "") else told(ended)
    write_layout(room + "/whole", [E, FOO, M2], {"image": M2}, [BAR])
    ended = run(["verify", "whole"], room)
    yield "an entry without a file, of which all else is good", (
        None if ended[:3] == (1, "absent %s\nheld 3\n" % key(BAR), "") else told(ended))


def checks(room):
    for number, group in enumerate([one_by_one, at_random, refused, killed, absent]):
        folder = "%s/%d" % (room, number)
        os.mkdir(folder)
        yield from group(folder)
