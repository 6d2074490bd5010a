"""The manual page and the completions: they are what tools/manual makes, and the shells can use them."""
import os
import shutil
import subprocess

from support.layouts import E, FOO, M2, write_layout
from support.program import PROGRAM, TOP

SECONDS = 60
FILES = ["ocicp.1", "completions/ocicp.bash", "completions/_ocicp"]
# Commands that print the problems with a file. Commands that are not installed are not run.
LINTS = [
    ("ocicp.1", ["groff", "-man", "-Tutf8", "-ww", "-z"]),
    ("completions/ocicp.bash", ["bash", "-n"]),
    ("completions/_ocicp", ["zsh", "-n"]),
]
# A tag that leaves a file if a shell runs it.
HARMFUL = "$(touch ran)"
TAGS = [r"\$\(touch\ ran\)", "v1", "v2"]
# The words of a command line after `ocicp`, and the completions of the last one.
COMPLETED = [
    (["co"], ["copy"]),
    (["--v"], ["--version"]),
    (["copy", "--re"], ["--referrers"]),
    (["copy", "--depth", ""], []),
    (["copy", "so"], ["source"]),
    (["copy", "source", "v"], ["v1", "v2"]),
    (["copy", "source", "v1", "mi"], ["mirror"]),
    (["copy", "--all", "source", "mi"], ["mirror"]),
    (["copy", "--workers", "2", "source", ""], TAGS),
    (["tree", "--referrers", "source", ""], TAGS),
    (["cat", "source", "v"], ["v1", "v2"]),
    (["tag", "source", ""], TAGS),
    (["tag", "source", "v1", ""], []),
    (["verify", "so"], ["source"]),
    (["repair", "mirror", "source", "so"], ["source"]),
    (["mem", "fi"], ["file"]),
    (["explain", ""], []),
    (["he"], ["help"]),
    (["help", "co"], ["copy"]),
    (["help", "copy", ""], []),
]
COMPLETE = """
source completions/ocicp.bash
complete -p ocicp >/dev/null || echo "nothing completes ocicp"
COMP_WORDS=(ocicp "$@") COMP_CWORD=$#
_ocicp
printf '%s\\n' "${COMPREPLY[@]}"
"""


def read(path):
    with open(path, encoding="utf-8") as file:
        return file.read()


def printed(words, room):
    """Return the text that a command prints on both outputs. Its `ocicp` is the program under test."""
    environment = {**os.environ, "OCICP": PROGRAM, "PATH": "%s/bin:%s" % (room, os.environ["PATH"])}
    return subprocess.run(words, cwd=room, env=environment, stdin=subprocess.DEVNULL, stdout=subprocess.PIPE,
                          stderr=subprocess.STDOUT, timeout=SECONDS, text=True).stdout


def wrong_completion(words, wanted, room):
    found = printed(["bash", "-c", COMPLETE, "bash", *words], room).split()
    return None if found == " ".join(wanted).split() else "it is completed to %s, and not to %s" % (found, wanted)


def checks(room):
    for folder in "bin", "mirror":
        os.mkdir("%s/%s" % (room, folder))
    os.symlink(PROGRAM, room + "/bin/ocicp")
    open(room + "/file", "w").close()
    write_layout(room + "/source", [E, FOO, M2], {"v1": M2, "v2": M2, HARMFUL: M2})
    said = printed([TOP + "/tools/manual", room], room)
    for file in FILES:
        same = not said and read("%s/%s" % (room, file)) == read("%s/docs/%s" % (TOP, file))
        yield "docs/%s is up to date" % file, None if same else said or "tools/manual makes another one: run it"
    for file, words in LINTS:
        if shutil.which(words[0]):
            yield "%s of docs/%s" % (" ".join(words), file), printed([*words, file], room) or None
    for words, wanted in COMPLETED:
        yield "bash completes: ocicp " + " ".join(words), wrong_completion(words, wanted, room)
    yield "no completion runs a tag", "a tag was run" if os.path.exists(room + "/ran") else None
