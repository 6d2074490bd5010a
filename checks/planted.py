"""The bugs that `tools/planted` takes for refused, over two small crates that are made here."""
import os
import re
import shutil
import subprocess

from support.program import TOP

# The time that the runs may take.
SECONDS = 900
SOURCE = """\
#![tactic(auto)]

ghost use Rattle.std.specs.Prelude.{◌≡◌};

pub fn two() -> u64
    ensures { result ≡ 2 }
{
    5 - 3
}

pub fn six() -> u64
    ensures { result ≡ 6 }
{
    two() * 3
}

pub fn eight() -> u64
    ensures { result ≡ 8 }
{
    4 + 4
}
"""
EDIT = "# refused by: its clause\n# only: %s\nfile: src/lib.rt\nold: %s\nnew: %s\n"
# The crate, the name and the function of each edit, its old and new text, and what is said of it.
EDITS = [
    ("small", "bug", "six", "two() * 3", "two() * 4", r"refused: note: src/lib\.rt:.* is not proved that what the function ensures"),
    ("small", "second_bug", "six", "two() * 3", "two() * 5", r"refused: note: src/lib\.rt:.* is not proved that what the function ensures"),
    ("small", "harmless", "eight", "4 + 4", "4 * 2", "FAILED: eight is not refused for itself: proved"),
    ("small", "twice", "six", "two()", "2", r"FAILED: its old text is 2 times in src/lib\.rt, and not once"),
    ("other", "unread", "two", "5 - 3", "five() - 3", "FAILED: the prover does not come to two: .*"),
    ("other", "of_callee", "six", "5 - 3", "5 - 2", "FAILED: six is not refused for itself: no proof: it calls `other::two`, which is not proved"),
    ("other", "unknown", "seven", "4 + 4", "4 + 3", "FAILED: the prover does not come to seven: .*"),
]


def write_repository(room):
    """Write a repository with the two crates, and the scripts that try their bugs."""
    os.mkdir(room + "/tools")
    for name in "planted", "prover.py":
        shutil.copy("%s/tools/%s" % (TOP, name), room + "/tools")
    with open(room + "/crates.txt", "w") as file:
        file.write("small:\nother:\n")
    for crate in "small", "other":
        os.makedirs("%s/crates/%s/src" % (room, crate))
        os.mkdir("%s/crates/%s/planted" % (room, crate))
        with open("%s/crates/%s/src/lib.rt" % (room, crate), "w") as file:
            file.write(SOURCE)
    for crate, name, function, old, new, _ in EDITS:
        with open("%s/crates/%s/planted/%s.edit" % (room, crate, name), "w") as file:
            file.write(EDIT % (function, old, new))


def checks(room):
    if not shutil.which("rt"):
        yield "the prover is not asked, since it is not here", None
        return
    write_repository(room)
    ended = subprocess.run(["tools/planted"], cwd=room, capture_output=True, text=True, timeout=SECONDS)
    for crate, name, *_, said in EDITS:
        found = [line for line in ended.stdout.splitlines() if line.startswith("planted %s/%s: " % (crate, name))]
        is_well = len(found) == 1 and re.fullmatch(".*?: " + said + ".*", found[0])
        yield "the edit %s" % name, None if is_well else "it says %s" % (found or ended.stderr or ended.stdout)
    last, count = ended.stdout.splitlines()[-1:], sum(said.startswith("refused") for *_, said in EDITS)
    is_well = ended.returncode == 1 and last == ["%d passed, %d failed" % (count, len(EDITS) - count)]
    yield "the last line and the status", None if is_well else "they are %s and %d" % (last, ended.returncode)
