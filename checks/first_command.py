"""The scripts `ocicp` and `build` over a repository of empty crates, with a stand-in for the toolchain."""
import fcntl
import hashlib
import os
import shutil
import subprocess
import sys

from support.program import TOP

CRATES = {"low": "", "left": "low", "right": "low", "high": "left right", "ocicp": "high low", "other": "low"}
PROGRAM = '#!/bin/sh\n[ "$1" != --version ] || exec echo "ocicp 0.0.0"\necho "%s with $*"\n'
RT = '#!/bin/sh\n[ $1 = version ] && echo "a stand-in" || echo "%s/kit/START-HERE.md"\n'
# Notes the crate, and makes its file if its libraries are proved. Refuses one crate, changes another, and at a third ends the build.
PROVER = r"""#!/bin/bash
for word; do case $word in --crate-name=*) name=${word#*=} ;; -o*) made=${word#-o} ;; esac; done
echo "$name" >>../../asked
for library in $(sed -n "s/^$name://p" ../../crates.txt); do
  [[ "$* " =~ \ --extern=$library=([^ ]*)\  && ( $library == sha2 || -e ${BASH_REMATCH[1]} ) ]] || { echo "$library is missing"; exit 1; }
done
[[ $name != "$REFUSED" ]] || { echo "the prover refuses $name"; exit 1; }
[[ $name != "$CHANGED" ]] || echo // >>src/lib.rt
[[ $name != "$ENDED" ]] || { exec 9>../../proving && flock 9 && kill "$PPID" && exec sleep 60; }
touch "$made"
"""
LINKER = '#!/bin/sh\necho linked\nwhile [ "$1" != -o ]; do shift; done\n[ -e "$3" ] && cp linked "$2"\n'


class Repository:
    """A repository of empty crates, with the scripts and the stand-ins."""

    def __init__(self, room):
        self.room = room
        for folder in "bin", "python", "kit/bin", "release", "tools", *("crates/%s/src/tests" % name for name in CRATES):
            os.makedirs("%s/%s" % (room, folder))
        for path in "ocicp", "build", "HANDLES", "release/sum", "release/describe", "tools/prover.py":
            shutil.copy("%s/%s" % (TOP, path), "%s/%s" % (room, path))
        os.symlink(sys.executable, room + "/python/python3")
        self.write("crates.txt", "".join("%s: %s sha2\n" % it for it in CRATES.items()))
        self.write("linked", PROGRAM % "a build")
        for path, text in ("bin/rt", RT % room), ("kit/bin/rattle", PROVER), ("kit/bin/rattle-link", LINKER):
            self.write(path, text)
        for name in CRATES:
            self.change(name + "/src/lib")

    def write(self, path, text, mode="w"):
        with open("%s/%s" % (self.room, path), mode) as file:
            file.write(text)
        os.chmod(file.name, 0o755)

    def change(self, file):
        self.write("crates/%s.rt" % file, "//\n", "a")

    def run(self, words, tools="bin", **how):
        """Return how a script ends, and the crates that it has proved."""
        self.write("asked", "")
        how["PATH"] = "%s/%s:%s/python:/usr/bin:/bin" % (self.room, tools, self.room)
        ended = subprocess.run(words, cwd=self.room, env=how, capture_output=True, text=True, timeout=60)
        with open(self.room + "/asked") as file:
            return ended, file.read().split()

    def wrong_try(self, wanted):
        """Return the problem with `./build --again`, or None. These crates are to be proved, and then `ocicp` is to say what it runs."""
        ended, asked = self.run(["./build", "--again"])
        right = ended.returncode == 0 and "is for trying" in ended.stderr and sorted(asked) == sorted(wanted.split())
        return self.wrong("", note="ocicp: this program is for trying") if right else "%s, %s" % (asked, ended)

    def wrong(self, wanted, runs="a build", refusal=None, note=None, **how):
        """Return the problem with a run of `ocicp`, or None. These crates are to be proved, each once and after those below it. Then
        this program is to run, or the build to fail with this text."""
        ended, asked = self.run(["./ocicp", "these", "words"], **how)
        says = refusal or note or wanted and "build: proving %d of 5 crates; all of them take about 35 minutes on four cores\n" % len(asked)
        right = says in ended.stderr if says else ended.stderr == ""
        right = right and (ended.returncode, ended.stdout) == ((1, "") if refusal else (0, runs + " with these words\n"))
        return None if right and sorted(asked) == sorted(wanted.split()) else "%s, %s" % (asked, ended)

    def release(self, script=PROGRAM % "the release", **said):
        """Make a script the release, with a text that says that it was built from these sources, unless something else is said."""
        self.write("release/ocicp", script)
        total = subprocess.run(["release/sum"], cwd=self.room, capture_output=True, text=True, check=True).stdout.strip()
        text = {"sources": total, "program": hashlib.sha256(script.encode()).hexdigest(), "machine": "Linux x86_64", **said}
        self.write("release/ocicp.txt", "".join("%s %s\n" % it for it in text.items()))


def wrong_flag(here):
    """Return the problem with a run of `build` with a flag that it does not have, or None."""
    ended, asked = here.run(["./build", "--agian"])
    return None if (ended.returncode, ended.stderr, asked) == (1, "build: usage: ./build [--again]\n", []) else "%s, %s" % (asked, ended)


def checks(room):
    here = Repository(room + "/repository")
    yield "the first build", here.wrong("low left right high ocicp")
    for name in CRATES:
        os.utime("%s/crates/%s/src/lib.rt" % (here.room, name))
    for file, wanted in ("ocicp/src/tests/more", ""), ("other/src/lib", ""), ("left/src/lib", "left high ocicp"):
        here.change(file)
        yield "a change of %s, and of the times of all files" % file, here.wrong(wanted)
    here.change("low/src/lib")
    changed = "build: the sources of high changed while it was proved: run this again\n"
    yield "a crate is refused", here.wrong("low left right high", refusal="the prover refuses high\n", REFUSED="high")
    yield "a crate changes while it is proved", here.wrong("high", refusal=changed, CHANGED="high")
    yield "a build is ended while it proves a crate", here.wrong("high", refusal="build: proving high\n", ENDED="high")
    with open(here.room + "/proving") as proving:
        ended = subprocess.run(["flock", "--timeout", "30", "0"], stdin=proving).returncode == 0
    yield "the prover has ended too", None if ended else "it goes on"
    os.mkdir(here.room + "/.git")
    with open(here.room + "/.git/rt-ci.lock", "w") as lock:
        fcntl.flock(lock, fcntl.LOCK_EX)
        yield "rt ci works in the repository", here.wrong("", refusal="build: rt ci works in this checkout")
    yield "the build goes on where it stopped", here.wrong("high ocicp")
    here.release()
    yield "a release of these sources", here.wrong("", "the release")
    yield "a release of these sources, without a toolchain", here.wrong("", "the release", tools="none")
    for said in {"program": "0" * 64}, {"machine": "Linux riscv64"}, {"script": "#!/bin/sh\nexit 127\n"}:
        here.release(**said)
        yield "a release with another %s" % [*said][0], here.wrong("")
    here.release()
    here.change("high/src/lib")
    yield "a release of other sources, without a toolchain", here.wrong("", refusal="there is no rt", tools="none")
    yield "a release of other sources", here.wrong("high ocicp")
    here.change("high/src/lib")
    yield "a build for trying", here.wrong_try("low left right high ocicp")
    here.change("right/src/lib")
    yield "a build for trying, again", here.wrong_try("right high ocicp")
    yield "a wrong flag of the build", wrong_flag(here)
    with open(TOP + "/README.md") as file:
        yield "README.md has the minutes of a build", None if "in about 35 minutes on four cores" in file.read() else "it has not"
