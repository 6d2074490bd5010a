"""The contents that `prune` keeps, removes, counts and prints, with `--untagged` and without, for layouts made by hand and at random, by the
rules in support/pruning.py."""
import functools
import json
import multiprocessing
import os
import random
import shutil

from support.files import files, read, stamps
from support.layouts import BAR, DOCKER_IMAGE, DOCKER_LIST, E, FOO, IMAGE, INDEX, M2, M3, NAME, Content, blob, key
from support.program import first, run, told
from support.prune_cases import CASES, DRAFT, Case, write_case, write_random
from support.pruning import MEMBERS, Held, Prune, last_line, text

# The number of layouts at random, and how many of them are to have each of the traits.
LAYOUTS, LEAST = 300, 6
FORMS = [[], ["--untagged"]]


def paths(goes):
    """Return the files of contents and of paths."""
    return {it if isinstance(it, str) else blob(it) for it in goes}


def refusals_of(case, flags):
    """Return the refusals of a case, as it states them itself."""
    if flags:
        return [] if case.tags.keys() - case.lost else ["97 NoTags"]
    if not case.tags and not case.untagged:
        return ["109 NoIndex"]
    return ["96 Unknown " + key(case.lacks)] if case.lacks else []


def wrong_rules(case, prune, flags):
    """Return the problem with the answer of the rules to a case, or None. The case states itself which contents and files go, and which
    contents are counted."""
    refusals = refusals_of(case, flags)
    if prune.refusals or refusals:
        return None if prune.refusals == refusals else "by the rules it is refused: %s" % ", ".join(prune.refusals)
    goes = case.goes if flags else [it for it in case.goes if isinstance(it, str)]
    if set(map(text, prune.removed)) != {key(it) for it in goes if isinstance(it, Content)}:
        return "by the rules these are removed: %s" % ", ".join(map(text, prune.removed))
    if set(prune.orphans) != {it for it in case.lost if flags}:
        return "by the rules these tags go: %s" % ", ".join(prune.orphans)
    if set(prune.gone) != paths(goes) - paths(case.shared):
        return "by the rules these files go: %s" % ", ".join(prune.gone)
    if set(map(text, prune.free)) != {key(it) for it in case.free if not flags}:
        return "by the rules these are counted: %s" % ", ".join(map(text, prune.free))


def wrong_answer(folder, words, prune):
    """Return the problem with the output of a prune, or None."""
    ended = run(["prune", *words, "layout"], folder)
    if prune.refusals:
        lines = ["ocicp: %s\n" % it for it in prune.refusals]
        return None if ended[:2] == (1, "") and ended.err in lines else "%s; and not %s" % (told(ended), " or ".join(prune.refusals))
    if ended[:3] != (0, prune.out, ""):
        lines = ended.out.splitlines()
        return "%s; it lacks %s, and has %s more" % (
            told(ended), [it for it in prune.lines if it not in lines][:3], [it for it in lines if it not in prune.lines][:3])


def wrong_left(folder, prune, before):
    """Return the problem with the files after a prune, or None. Only the files that go are to be gone, and `index.json` may only change if
    a held key goes."""
    layout = folder + "/layout"
    left = files(layout)
    wanted = {path: it for path, it in before.items() if path not in prune.gone}
    for path in [*wanted, *left]:
        if path not in left or path not in wanted:
            return "%s is %s" % (path, "left" if path in left else "gone")
        if left[path] != wanted[path] and not (path == "index.json" and prune.removed):
            return "%s is not as it was" % path
    held = Held(layout)
    if held.tags != prune.tags:
        return "the tags are %s" % held.tags
    if held.keys != prune.kept or held.absent:
        return "not all is held, or too much: %s" % sorted(held.keys ^ prune.kept)


def wrong_prune(folder, flags, is_whole=True):
    """Return the problem with a prune of a layout, or None: first with --dry-run, which changes nothing, then without, then once more."""
    layout = folder + "/layout"
    prune = Prune(layout, bool(flags))
    before, when = files(layout), stamps(layout)
    complaint = wrong_answer(folder, ["--dry-run", *flags], prune)
    complaint = complaint or (None if stamps(layout) == when else "--dry-run changed something")
    complaint = complaint or wrong_answer(folder, flags, prune)
    if complaint or prune.refusals:
        return complaint or (None if stamps(layout) == when else "a refused prune changed something")
    return first([
        wrong_left(folder, prune, before),
        None if prune.removed or stamps(layout)["index.json"] == when["index.json"] else "index.json was written",
        wrong_answers(folder, prune) if is_whole else None,
        wrong_again(folder, flags, prune),
    ])


def wrong_answers(folder, prune):
    """Return the problem with the output of commands that read after a prune, or None. Each tag that stays is to be as it was, and everything
    kept to be good."""
    tags, verified = run(["tags", "layout"], folder), run(["verify", "layout"], folder)
    lines = ["%s %s\n" % (name, text(key)) for name, key in sorted(prune.tags.items())]
    return first([
        None if tags[:3] == (0, "".join(lines), "") else "tags: " + told(tags),
        None if verified[:3] == (0, "held %d\n" % len(prune.kept), "") else "verify: " + told(verified),
    ])


def wrong_again(folder, flags, before):
    """Return the problem with the same prune again, or None. It has nothing left to remove, and counts the same."""
    prune = Prune(folder + "/layout", bool(flags))
    if prune.out != last_line(len(before.kept), 0, [], len(before.free)) + "\n":
        return "there is more to remove, or to count: " + prune.out
    when = stamps(folder + "/layout")
    complaint = wrong_answer(folder, flags, prune)
    return complaint or (None if stamps(folder + "/layout") == when else "a prune that removes nothing changed something")


def by_hand(room):
    for name, case in CASES.items():
        for flags in FORMS:
            write_case(room + "/layout", case)
            complaint = wrong_rules(case, Prune(room + "/layout", bool(flags)), flags) or wrong_prune(room, flags, case.is_whole)
            yield " ".join([name, *flags]), complaint


def links(room):
    """Check links in the places of blobs. Each is removed itself, and its target stays."""
    write_case(room + "/layout", Case([E, FOO, M2, M3], {"new": M2}, [M3]))
    targets = {"to a file": "secret", "to a folder": "room", "to nothing": "nothing"}
    with open(room + "/secret", "wb") as file:
        file.write(BAR.bytes)
    os.makedirs(room + "/room")
    for number, target in enumerate(targets.values(), 1):
        os.symlink("%s/%s" % (room, target), "%s/layout/blobs/sha256/%064x" % (room, number))
    # (one that is held and goes, and one that stays)
    os.symlink(room + "/secret", "%s/layout/%s" % (room, blob(BAR)))
    shutil.copy("%s/layout/%s" % (room, blob(E)), room + "/config")
    os.remove("%s/layout/%s" % (room, blob(E)))
    os.symlink(room + "/config", "%s/layout/%s" % (room, blob(E)))
    for flags, counts in zip(FORMS, [(3, 0), (2, 2)]):
        prune = Prune(room + "/layout", bool(flags))
        right = (len(prune.gone), len(prune.removed)) == counts
        yield " ".join(["links in the places of blobs, by the rules", *flags]), None if right else "%s" % prune.gone
        yield " ".join(["links in the places of blobs", *flags]), wrong_prune(room, flags)
    for target in "secret", "room", "config":
        yield "what a link leads to, %s" % target, None if os.path.exists("%s/%s" % (room, target)) else "it is gone"


def others(room):
    """Check that something with the name of a draft stays if it is no file."""
    write_case(room + "/layout", Case([E, FOO, M2], {"new": M2}))
    os.mkfifo("%s/layout/index.json%s" % (room, DRAFT))
    os.symlink("index.json", "%s/layout/oci-layout%s" % (room, DRAFT))
    yield "a FIFO and a link with the names of drafts", wrong_prune(room, [])


def hide(folder, chance):
    """Put entries before that of a tag, some with its name, so that the tag hides them."""
    index = json.loads(read(folder + "/index.json"))
    names = [it["annotations"][NAME] for it in index["manifests"] if "annotations" in it]
    entries = [it for it in index["manifests"] if "annotations" not in it and names and chance.random() < 0.3]
    hidden = [dict(it, annotations={NAME: chance.choice(names)}) for it in entries]
    with open(folder + "/index.json", "w") as file:
        json.dump({**index, "manifests": hidden + [it for it in index["manifests"] if it not in entries]}, file)


def traits(prunes):
    """Return whether a layout has each trait, or nothing if a prune of it is refused, but for the lack of a tag. The first prune is without
    `--untagged`, and counts, and the second one is with it, and removes."""
    counts, removes = prunes
    held, free = counts.held, counts.free
    if counts.refusals or removes.refusals and removes.tags:
        return {}
    tagged, digests = set(held.tags.values()), {it.digest for it in held.keys}
    listed = {it for key in held.keys for it in held.listed(key)}
    loose = held.keys - tagged
    subjects = {it for key in loose for it in held.subject(key)}
    return {
        "files that go": bool(counts.gone),
        "no tag": not tagged,
        "what --untagged removes": bool(removes.tags and removes.removed),
        "a tag of a digest that goes": bool(removes.tags and removes.orphans),
        "a tag of a digest that stays": any(not held.is_free(*it) for it in removes.tags.items()),
        "referrers that it keeps": removes.kept != held.members(held.named_keys, lambda keys: set()),
        "nothing that is counted": not free,
        "an image that is counted": any(it.media_type in (IMAGE, DOCKER_IMAGE) for it in free),
        "an index that is counted": any(it.media_type in (INDEX, DOCKER_LIST) for it in free),
        "a listed manifest that is not counted": any(it.media_type in MEMBERS and not held.subject(it) for it in loose & listed - free),
        "a referrer of what is held": any(it.digest in digests for it in subjects),
        "a referrer whose subject has no entry": any(it in held.keys.difference(held.entries) for it in subjects),
        "a referrer whose subject is not there": any(it.digest not in digests for it in subjects),
        "a subject that is counted": bool(subjects & free),
        "a subject that is listed too": bool(subjects & loose - free),
        "a key that has a tag and is listed": bool(tagged & listed),
        "two keys with one digest": len(digests) < len(held.keys),
        "an entry that a tag hides": bool(held.named_keys - tagged),
        "a key that is counted and that a tag needs": bool(held.tags and free & removes.kept),
        "an entry that means a manifest": any(own.media_type not in MEMBERS and it.media_type in MEMBERS for own, it in held.odd),
        "an entry that means another size": any(own.size != it.size for own, it in held.odd),
        "an entry that means what has no tag": any(it in free for _, it in held.odd),
        "a tag whose entry means a manifest": any(own.media_type not in MEMBERS and it in tagged for own, it in held.odd),
    }


def wrong_random(room, seed):
    """Return the problem with a prune of a layout that a seed makes, or None, and what there is in the layout."""
    folder = "%s/%d" % (room, os.getpid())
    os.makedirs(folder, exist_ok=True)
    chance = random.Random(seed)
    write_random(folder + "/layout", chance)
    hide(folder + "/layout", chance)
    found = traits([Prune(folder + "/layout", bool(flags)) for flags in FORMS])
    complaint = wrong_prune(folder, chance.choice(FORMS), is_whole=False)
    return complaint and "seed %d: %s" % (seed, complaint), found


def at_random(room):
    with multiprocessing.Pool() as pool:
        results = pool.map(functools.partial(wrong_random, room), range(LAYOUTS), 10)
    yield "%d layouts at random" % LAYOUTS, first(it for it, _ in results)
    all_found = [found for _, found in results if found]
    for what in all_found[0]:
        count = sum(found[what] for found in all_found)
        yield "%d of them have %s" % (count, what), None if count >= LEAST else "too few"


def checks(room):
    for number, group in enumerate([by_hand, links, others, at_random]):
        folder = "%s/%d" % (room, number)
        os.mkdir(folder)
        yield from group(folder)
