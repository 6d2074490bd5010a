"""Prunes that are ended half-way, that cannot change a file, and that run beside copies. No tag loses anything, and the same prune,
made again, finishes. Wants `cc`."""
import os
import re
import resource
import shutil
import signal
from concurrent.futures import ThreadPoolExecutor

from support import shim
from support.files import files
from support.layouts import E, FOO, LAYER, M2, S, Content, image, key, write_layout
from support.program import first, leftovers, run, told, wrong_layout
from support.prune_layout import CONTENTS, FORMS, TAGS, UNTAGGED, Layout

# Each change is noted: the path of each file that is opened, renamed to, removed or synced.
NOTES = shim.CHANGES + r"""
static int on_change(const char *path) {
  note(path ? path : "(write)");
  if (path && strcmp(path, SYNC) == 0) { note(" "); note(synced); }
  note("\n");
  return 0;
}
"""

RUNS = 10
LAYERS = [Content(LAYER, b"layer %d" % number) for number in range(RUNS)]
IMAGES = {"image-%d" % number: image([layer]) for number, layer in enumerate(LAYERS)}
WAITS = re.compile(r"(ocicp: waiting for another process that writes into copied\n)?")


def killed(layout, library, what):
    """Kill a prune before each change that it makes."""
    counts = set()
    for number in range(1, shim.MOST + 1):
        layout.fresh()
        made, ended = shim.run_marked(library, layout.words, layout.room, {"LAST_CHANGE": str(number)})
        if made < number:
            break
        counts.add(len(layout.gone()))
        wrong = None if ended.status == -signal.SIGKILL else "it was not killed: " + told(ended)
        yield "%s, killed before change %d" % (what, number), first([wrong, layout.wrong_state(), layout.wrong_again()])
    yield "%s makes at most %d changes" % (what, shim.MOST), None if made < number else "it makes more"
    wanted = set(range(len(layout.prune.gone)))
    yield "%s, killed between each two removals" % what, None if counts == wanted else "so many files were gone: %s" % sorted(counts)


def noted(layout, line):
    """Return a noted change with its path in the layout. The layout itself is `.`."""
    what, _, path = line.rpartition(" ")
    path = path.removeprefix(os.path.realpath(layout.room) + "/")
    return " ".join(filter(None, [what, "." if path == "layout" else path.removeprefix("layout/")]))


def is_save(notes):
    """Return whether these changes write a new index: it is on the disk before it comes into its place, and then its name is. The names of
    blobs may be synced before."""
    draft = re.escape("index.json") + r"\.[0-9a-f]{16}\.new"
    wanted = [draft, r"\(write\)", r"\(sync\) " + draft, "index.json", r"\(sync\) \."]
    found = [it for place, it in enumerate(notes) if it != "(write)" or notes[place - 1] != "(write)"]
    before = found[:-len(wanted)]
    return all(it.startswith("(sync) ") for it in before) and all(map(re.fullmatch, wanted, found[len(before):])) and len(found) >= len(wanted)


def wrong_order(layout, library):
    """Return the problem with the order of the changes, or None. The index is to be on the disk before the first file is removed. The files
    that no held key has go first. Then the new index, if there is one, is saved, before the other files are removed."""
    layout.fresh()
    text, ended = shim.run_noted(library, layout.words, layout.room)
    notes = [noted(layout, it) for it in text.splitlines()]
    removed = [it for it in notes if it in layout.prune.gone]
    start, most = notes.index(removed[0]) if removed else 0, len(layout.prune.first)
    rest = notes[start + most:]
    save = rest[:next((place for place, it in enumerate(rest) if it in layout.prune.gone), len(rest))]
    return first([
        None if ended[:3] == (0, layout.prune.out, "") else told(ended),
        None if sorted(removed) == layout.prune.gone else "these were removed: %s" % removed,
        None if {"(sync) index.json", "(sync) ."} <= set(notes[:start]) else "these came first: %s" % notes[:start],
        None if all(it.startswith("(sync)") for it in notes[:start]) else "these came first: %s" % notes[:start],
        None if sorted(notes[start:start + most]) == layout.prune.first else "these went first: %s" % notes[start:start + most],
        None if (is_save(save) if layout.saves else not save) else "the save: %s" % save,
        None if rest[len(save):] == removed[most:] else "after the save: %s" % rest[len(save):],
    ])


def wrong_refused(layout, ended):
    """Return the problem with a prune for which one change was refused, or None. It removes nothing, or what no held key has, or all files
    but one."""
    gone = layout.gone()
    if not gone:
        return None if ended[:3] == (1, "", "ocicp: 74 Device\n") else told(ended)
    if gone == layout.prune.first and layout.saves:
        return None if ended[:3] == (1, layout.prune.unsaved, "ocicp: 74 Device\n") else told(ended)
    left = sorted(set(layout.prune.gone) - set(gone))
    if len(left) != 1:
        return "these files are left: %s" % left
    return None if (ended.status, ended.err) == (1, "ocicp: 79 NotRemoved %s\n" % left[0]) else told(ended)


def without_room(layout, library, what):
    """Refuse each change of a prune in turn."""
    nothing = unsaved = 0
    for number in range(1, shim.MOST + 1):
        layout.fresh()
        made, ended = shim.run_marked(library, layout.words, layout.room, {"REFUSED_CHANGE": str(number)})
        if made < number:
            break
        nothing += not layout.gone()
        unsaved += layout.saves and layout.gone() == layout.prune.first
        yield "%s, change %d refused" % (what, number), first([wrong_refused(layout, ended), layout.wrong_state(), layout.wrong_again()])
    saving = made - len(layout.prune.gone)
    yield "%s: %d refusals removed nothing, %d only what no held key has" % (what, nothing, unsaved), first([
        None if nothing + unsaved == saving else "but %d changes are no removals" % saving,
        None if (unsaved > 0) == layout.saves else "and the save was refused %d times" % unsaved,
    ])


def wrong_limit(layout):
    """Return the problem with a prune that can write no file, or None."""
    layout.fresh()
    limit = lambda: resource.setrlimit(resource.RLIMIT_FSIZE, (0, 0))
    ended = run(layout.words, layout.room, preexec_fn=limit, restore_signals=False)
    wanted = {path: it for path, it in layout.before.items() if path not in layout.prune.first}
    return first([
        None if ended[:3] == (1, layout.prune.unsaved, "ocicp: 74 Device\n") else told(ended),
        None if files(layout.room + "/layout") == wanted else "more or less is gone than what no held key has",
        layout.wrong_again(),
    ])


def copy_or_prune(room, name):
    """Copy an image, or prune, and return the problem with the output, or None."""
    words = ["prune", *(["--untagged"] if name == "--untagged" else []), "copied"]
    wanted = r"(removed.*\n)*kept \d+ removed \d+ files \d+ bytes \d+( untagged \d+ \(see --untagged\))?\n"
    if name in IMAGES:
        words, wanted = ["copy", "source", name, "copied"], r"copied %s\n(.*\n)*" % re.escape(key(IMAGES[name]))
    ended = run(words, room, seconds=30)
    if ended.status != 0 or not re.fullmatch(wanted, ended.out) or not WAITS.fullmatch(ended.err):
        return "%s: %s" % (" ".join(words), told(ended))


def wrong_beside(room):
    """Return the problem with copies and prunes at once in one folder, or None. Each image is to be there, and otherwise only the contents
    that were tagged before."""
    shutil.rmtree(room, ignore_errors=True)
    write_layout(room + "/source", [E, *LAYERS, *IMAGES.values()], IMAGES)
    # (a layer that one of the images has is there before, and nothing needs it yet)
    write_layout(room + "/copied", [*CONTENTS, LAYERS[0], image([LAYERS[1]])], TAGS, UNTAGGED)
    names = [it for number, name in enumerate(IMAGES) for it in (name, ["prune", "--untagged"][number % 2])]
    with ThreadPoolExecutor(2 * RUNS) as pool:
        complaints = list(pool.map(lambda name: copy_or_prune(room, name), names))
    contents = [E, FOO, M2, S, *LAYERS, *IMAGES.values()]
    return first([
        *complaints,
        copy_or_prune(room, "--untagged"),
        wrong_layout(room, "copied", contents, {**TAGS, **IMAGES}),
        leftovers(room + "/copied", contents),
    ])


def checks(room):
    kill, full, notes = (shim.built(room, name, source) for name, source in (("kill", shim.KILLS), ("full", shim.FULL), ("notes", NOTES)))
    for what, words in zip(["a prune with --untagged", "a prune"], FORMS):
        layout = Layout(room, words)
        yield "%s that is not ended" % what, layout.wrong_whole()
        yield "%s, the order of its changes" % what, wrong_order(layout, notes)
        yield from killed(layout, kill, what)
        yield from without_room(layout, full, what)
    yield "no room for index.json", wrong_limit(Layout(room, FORMS[0]))
    for number in range(3):
        yield "%d copies beside as many prunes, try %d" % (RUNS, number + 1), wrong_beside(room + "/beside")
