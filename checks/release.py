"""The comparison of the release with the built program, over changed copies of it, with a stand-in for `rt`."""
import os
import shutil
import subprocess

from support.program import TOP

RT = '#!/bin/sh\necho "%s"\n'
TOOLCHAIN = "a stand-in"
PROGRAM = b"#!/bin/sh\necho ocicp 0.0.0\n"
SOURCE = "/crates/ocicp/src/main.rt"
CURRENT = [("sources", True), ("program", True), ("compared", True)]
LINES = {
    "sources": "release: its sources are those that are here: ",
    "program": "release: its program is the one that its text names: ",
    "compared": "release: its program is to the byte what was built here: ",
}


class Release:
    """A repository with one crate, its release, and the program that was built of it."""

    def __init__(self, room):
        self.room = room
        for folder in "bin", "release", "crates/ocicp/src":
            os.makedirs("%s/%s" % (room, folder))
        for name in "HANDLES", "release/sum", "release/describe", "release/compare":
            shutil.copy("%s/%s" % (TOP, name), "%s/%s" % (room, name))
        self.write("/crates.txt", b"ocicp: std\n")
        self.write(SOURCE, b"fn main() {}\n")
        self.write("/built", PROGRAM)
        self.write("/release/ocicp", PROGRAM)
        self.set_toolchain(TOOLCHAIN)
        self.write("/release/ocicp.txt", self.run(["release/describe", "built"]).encode())

    def write(self, path, content):
        with open(self.room + path, "wb") as file:
            file.write(content)
        os.chmod(file.name, 0o755)

    def set_toolchain(self, text):
        self.write("/bin/rt", (RT % text).encode())

    def run(self, words):
        environment = {"PATH": "%s/bin:%s" % (self.room, os.environ["PATH"])}
        return subprocess.run(words, cwd=self.room, env=environment, capture_output=True, text=True, check=True).stdout

    def wrong(self, wanted):
        """Return the problem with a comparison, or None. These are the checks that it is to make, and whether each is to pass."""
        *lines, last = self.run(["release/compare", "built"]).splitlines()
        passed = sum(passes for _, passes in wanted)
        if last != "%d passed, %d failed" % (passed, len(wanted) - passed):
            return "its last line is %r" % last
        for name, passes in wanted:
            line = next((it for it in lines if it.startswith(LINES[name])), "none")
            if passes != line.endswith(": ok") or not passes and not line.endswith("run release/update and commit what it leaves in release/"):
                return "it says of %s: %s" % (name, line)


def checks(room):
    here = Release(room + "/repository")
    yield "a release of these sources", here.wrong(CURRENT)
    here.write("/release/ocicp", PROGRAM.replace(b"0.0.0", b"0.0.1"))
    yield "a release that was changed by a byte", here.wrong([("sources", True), ("program", False), ("compared", False)])
    here.write("/release/ocicp", PROGRAM)
    here.write("/built", PROGRAM + b"#")
    yield "a program that was built otherwise", here.wrong([("sources", True), ("program", True), ("compared", False)])
    here.set_toolchain("another")
    yield "another toolchain, with which another program was built", here.wrong([("sources", True), ("program", True)])
    here.set_toolchain(TOOLCHAIN)
    here.write("/built", PROGRAM)
    here.write(SOURCE, b"fn main() { }\n")
    yield "a source that was changed by a byte", here.wrong([("sources", False), ("program", True), ("compared", True)])
    here.write(SOURCE, b"fn main() {}\n")
    with open(here.room + "/release/ocicp.txt") as file:
        text = file.read()
    here.write("/release/ocicp.txt", text.replace("sources ", "sources 0").encode())
    yield "a text that names another sum", here.wrong([("sources", False), ("program", True), ("compared", True)])
    os.remove(here.room + "/release/ocicp")
    yield "no release", here.wrong([("sources", False), ("program", False), ("compared", False)])
