"""Runs the prover as `rt ci` does, with the crates and the libraries that crates.txt names."""
import os
import subprocess
import sys
from pathlib import Path

TOP = Path(__file__).resolve().parent.parent
CRATES = TOP / "crates"
# The libraries that each crate uses. Those without a line of their own are the toolchain's.
LIBRARIES = {line.split()[0].strip(":"): line.split(":")[1].split() for line in open(TOP / "crates.txt") if ":" in line and line[0] != "#"}
PARTS = ["src", "specs", "proofs"]
# The time that one check of functions may take.
SECONDS = 3600


def find_kit():
    """Return the folder of the toolchain. Without a toolchain the script ends."""
    if os.system("command -v rt >/dev/null") != 0:
        sys.exit(f"{Path(sys.argv[0]).name}: there is no rt, the command of the Rattle toolchain")
    return Path(subprocess.check_output(["rt", "doc"], text=True)).parent


def most_at_once(for_each=1):
    """Return how many provers may run: this number for each processor, but at most one for each 2.5 GB of memory."""
    memory = int(dict(line.split(":") for line in open("/proc/meminfo"))["MemAvailable"].split()[0]) // 2_500_000
    return max(1, min(int(len(os.sched_getaffinity(0)) * for_each), memory))


def crates_below(name):
    """Return the crates that a crate uses, and those that these use."""
    found = [name]
    for it in found:  # (which grows)
        found += [below for below in LIBRARIES[it] if below in LIBRARIES and below not in found]
    return found[1:]


def library_of(name, libraries=None):
    """Return the path of a crate's proved library, in the folder `libraries` or where `rt ci` leaves it."""
    return (libraries or CRATES / name / "out/rlib") / f"{name}.rlib"


def why_unproved(name, libraries=None):
    """Return which crate below this one lacks its library, or has one of `rt ci` that is older than its sources; or None."""
    for below in crates_below(name):
        library = library_of(below, libraries)
        if not library.is_dir():
            return f"there is no {library}"
        files = [path for part in PARTS for path in (CRATES / below / part).rglob("*.*")]
        if not libraries and library.stat().st_mtime < max(path.stat().st_mtime for path in files):
            return f"{library} is older than the sources of {below}"
    return None


def prover_words(kit, verb, name, libraries, *more):
    """Return the command that proves a crate in its folder. The system ends its process when this one ends."""
    used = [(it, library_of(it, libraries) if it in LIBRARIES else f"{kit}/rlibs/{it}.rlib") for it in ["std", *LIBRARIES[name]]]
    folders = dict.fromkeys([f"{kit}/rlibs", *[library_of(it, libraries).parent for it in crates_below(name)]])
    return ["setpriv", "--pdeathsig=TERM", f"{kit}/bin/rattle", verb, *more, f"--crate-name={name}", f"--links={name}=",
            *[f"--extern={it}={path}" for it, path in used], *[f"-Ldependency={it}" for it in folders],
            f"--logic-built={kit}/logic_built", f"--antt-project={kit}/rattle/logic/antt-project.json"]


def check_functions(kit, name, libraries, folder, functions):
    """Check functions of a crate, whose sources are in a folder, and those that they call. Return the lines that the prover prints."""
    top = "src/main.rt" if (folder / "src/main.rt").is_file() else "src/lib.rt"
    words = prover_words(kit, "check", name, libraries, top, "--jobs=1", *[f"--only={it}" for it in functions])
    how = {"stdin": subprocess.DEVNULL, "stdout": subprocess.PIPE, "stderr": subprocess.STDOUT, "errors": "replace"}
    try:
        return subprocess.run(words, cwd=folder, timeout=SECONDS, **how).stdout.rstrip().split("\n")
    except subprocess.TimeoutExpired:
        return [f"the prover takes more than {SECONDS} s"]
