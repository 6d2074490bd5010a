"""Many copies at once into one layout, each under a name of its own."""
import os
import re
import shutil
from concurrent.futures import ThreadPoolExecutor

from support.layouts import BAR, E, LAYER, Content, image, key, write_layout
from support.program import first, leftovers, run, told, wrong_layout

RUNS = 20
LAYERS = [Content(LAYER, b"layer %d" % number) for number in range(RUNS)]
IMAGES = {"image-%d" % number: image([layer]) for number, layer in enumerate(LAYERS)}
ALL = [E, *LAYERS, *IMAGES.values()]
# A copy that has to wait says so once.
WAITS = re.compile(r"(ocicp: waiting for another process that writes into copied\n)?")


def copy(folder, name):
    """Copy one of the images, and return the problem with the output, or None."""
    ended = run(["copy", "source", name, "copied"], folder, seconds=30)
    if ended.status != 0 or not ended.out.startswith("copied %s\n" % key(IMAGES[name])) or not WAITS.fullmatch(ended.err):
        return "%s: %s" % (name, told(ended))


def copied_at_once(folder, old):
    """Copy all images at once into a layout that has the old contents, or into none, and return the problem, or None."""
    shutil.rmtree(folder, ignore_errors=True)
    os.mkdir(folder)
    write_layout(folder + "/source", ALL, IMAGES)
    if old:
        write_layout(folder + "/copied", old.values(), old)
    with ThreadPoolExecutor(RUNS) as pool:
        complaints = list(pool.map(lambda name: copy(folder, name), IMAGES))
    contents = [*old.values(), *ALL]
    return first([
        *complaints,
        wrong_layout(folder, "copied", contents, {**old, **IMAGES}),
        leftovers(folder + "/copied", contents),
    ])


def checks(room):
    yield "%d copies into a layout" % RUNS, copied_at_once(room + "/old", {"old": BAR})
    yield "%d copies into a folder that is not there" % RUNS, copied_at_once(room + "/new", {})
