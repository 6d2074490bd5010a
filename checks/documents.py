"""Checks the names in the documents: files and sections that they link to, paths in backquotes, and
the functions in the tables of calls in docs/map.md; and that the definitions which the documents call
closed are unfolded nowhere else."""
import glob
import os
import re

from support.program import TOP, first

CHANGELOG = "CHANGELOG.md"
DOCUMENTS = ["README.md", CHANGELOG]
DOCUMENTS += sorted(os.path.relpath(path, TOP) for path in glob.glob(TOP + "/docs/*.md"))
LINK = re.compile(r"\[[^]]*\]\(([^)\s]+)\)")
# A path from the top of the repository, without a pattern in it.
PATH = re.compile(r"`((?:crates|checks|bench|docs|release|examples|tools)/[\w./-]*)`")
# Folders that a build makes.
BUILT = "/out/"
CALLS = "| Crate | Functions, each called by the one before |"
STANDARD = "std"
# The folders of a crate's sources. A build leaves copies of them in another one.
ROOMS = ["src", "specs", "proofs"]
# The definitions that are closed to all sources but those whose paths begin so (docs/promises.md, "Not promised").
FOLDER = ("crates/oci_folder/",)
CLOSED = {name: FOLDER for name in ("IsWatched", "files_at", "drafts_at", "link_at", "may_leave_at")}
CLOSED["IsUnchanged"] = ("crates/oci_archive/src/read_at.rt",)
UNFOLDED = re.compile(r"\bunfold(?:ing)?\b(\s*\([^)]*\)|[^\n]*)")


def read(path):
    with open(os.path.join(TOP, path), encoding="utf-8") as file:
        return file.read()


def prose(path):
    """Return a document without its fenced blocks."""
    return re.sub(r"^```.*?^```$", "", read(path), flags=re.M | re.S)


def named_paths(document):
    """Return the paths that a document names. In the changelog only the newest version counts, since files are moved."""
    text = prose(document)
    return PATH.findall(text.split("\n## ")[1] if document == CHANGELOG else text)


def anchors(path):
    """Return the names of a document's sections, as links have them."""
    titles = re.findall(r"^#+ (.*)$", prose(path), re.M)
    return {re.sub(r"[^\w -]", "", title).lower().replace(" ", "-") for title in titles}


def wrong_link(document, target):
    """Return the problem with a link of a document, or None. Links into the network are not followed."""
    if re.match(r"\w+:", target):
        return None
    path, _, anchor = target.partition("#")
    place = os.path.normpath(os.path.join(os.path.dirname(document), path)) if path else document
    if not os.path.exists(os.path.join(TOP, place)):
        return "there is no %s" % place
    if anchor and anchor not in anchors(place):
        return "%s has no section #%s" % (place, anchor)


def wrong_path(path):
    """Return the problem with a path that a document names, or None. The path of something that a build makes need not exist."""
    if BUILT not in path and not os.path.exists(os.path.join(TOP, path)):
        return "there is no %s" % path


def sources(crate):
    """Return the sources of a crate as one text."""
    paths = glob.glob("%s/crates/%s/src/**/*.rt" % (TOP, crate), recursive=True)
    return "\n".join(read(path) for path in paths)


def wrong_calls(table):
    """Return a message about the first function of a table of calls that its crate does not have, or None."""
    rows = table.split("\n\n", 1)[0].splitlines()[2:]
    for crate, functions, *_ in (row.strip("|").split("|") for row in rows):
        crate = crate.strip(" `")
        names = [name.split("::")[-1] for name in re.findall(r"`([^`]+)`", functions)]
        if not names:
            return "the row of %s names no function" % crate
        text = "" if crate == STANDARD else sources(crate)
        for name in names:
            if crate != STANDARD and not re.search(r"\bfn %s\b" % name, text):
                return "%s has no function %s" % (crate, name)


def opened_by(path):
    """Return a message about a closed definition that a source unfolds and may not, or None."""
    words = set(re.findall(r"\w+", " ".join(UNFOLDED.findall(read(path)))))
    for name, homes in CLOSED.items():
        if name in words and not path.startswith(homes):
            return "%s unfolds %s" % (path, name)


def checks(room):
    for document in DOCUMENTS:
        yield "links of " + document, first(wrong_link(document, target) for target in LINK.findall(prose(document)))
        yield "paths of " + document, first(wrong_path(path) for path in named_paths(document))
    for table in read("docs/map.md").split(CALLS)[1:]:
        yield "calls in docs/map.md, to %s" % table.split("\n\n", 1)[0].split("`")[-2], wrong_calls(table)
    paths = (path for room in ROOMS for path in glob.glob("%s/crates/*/%s/**/*.*" % (TOP, room), recursive=True))
    yield "closed definitions stay closed", first(opened_by(os.path.relpath(path, TOP)) for path in sorted(paths))
