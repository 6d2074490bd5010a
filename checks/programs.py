"""The programs in docs/programs.md: that in Python, and that in Go if there is `go`, store an image."""
import os
import re
import shutil
import subprocess
import sys

from support.layouts import BAR, E, FOO, LAYER, Content, digits, image, index, write_layout
from support.program import PROGRAM, TOP

# The compiler may have to build its library first.
SECONDS = 300
LARGE = Content(LAYER, bytes(5 << 20))
ONE, TWO = image([FOO, LARGE]), image([BAR])
BOTH = index([ONE, TWO])
CONTENTS = [E, FOO, BAR, LARGE, ONE, TWO, BOTH]


def block(kind):
    """Return the fenced block of a kind."""
    with open(TOP + "/docs/programs.md") as file:
        found, = re.findall(r"^```%s\n(.*?)^```$" % kind, file.read(), re.M | re.S)
    return found


def write(path, text):
    with open(path, "w") as file:
        file.write(text)


def run(room, *words):
    environment = {**os.environ, "PATH": "%s/bin:%s" % (room, os.environ["PATH"]), "HOME": room, "GO111MODULE": "off", "GOFLAGS": ""}
    return subprocess.run(words, cwd=room, env=environment, stdin=subprocess.DEVNULL, stdout=subprocess.PIPE, stderr=subprocess.STDOUT,
                          timeout=SECONDS, text=True)


def wrong_store(room, name, *command):
    """Return the problem with a program that is to store exactly the image, and to be refused for a tag that is missing, or None."""
    os.mkdir("%s/%s" % (room, name))
    ended = run(room, *command, "layout", "both", name)
    if (ended.returncode, ended.stdout) != (0, "%d blobs\n" % len(CONTENTS)):
        return "status %d, %s" % (ended.returncode, ended.stdout)
    found = {}
    for digest in os.listdir("%s/%s" % (room, name)):
        with open("%s/%s/%s" % (room, name, digest), "rb") as file:
            found[digest] = file.read()
    if found != {"sha256:" + digits(it): it.bytes for it in CONTENTS}:
        return "it stores %s" % sorted(found)
    ended = run(room, *command, "layout", "nope", name)
    is_refused = ended.returncode == 1 and '"number":36' in ended.stdout
    return None if is_refused else "a missing tag: status %d, %s" % (ended.returncode, ended.stdout)


def checks(room):
    os.mkdir(room + "/bin")
    os.symlink(PROGRAM, room + "/bin/ocicp")
    write_layout(room + "/layout", [*CONTENTS, Content(LAYER, b"other")], {"both": BOTH})
    write(room + "/store.py", block("python"))
    yield "the program in Python", wrong_store(room, "python", sys.executable, "store.py")
    if shutil.which("go"):
        write(room + "/store.go", block("go"))
        ended = run(room, "go", "build", "-o", "store", "store.go")
        yield "the program in Go", ended.stdout or wrong_store(room, "go", "./store")
