"""Runs the fenced commands of the documents for users, each document in a copy of the folder, in their order and in one shell. A
block `console` is a session, whose output is compared. A block `sh` has commands alone, each with a comment or none, and they succeed.
The code of docs/library.md has to be the example that it names."""
import os
import re
import shutil
import subprocess
from collections import namedtuple

from support.program import PROGRAM, TOP

SECONDS = 60
README = "README.md"
LIBRARY = "docs/library.md"
DOCUMENTS = [README, "docs/howto.md", "docs/damage.md", "docs/json.md"]
EXAMPLE = "/crates/example_copy/src/main.rt"
# Comes after the output of each command, with its status. No document has it.
END = "== that was it =="
# Parts of a clone that a session does not need.
LARGE = shutil.ignore_patterns("crates", ".git", "out", "ocicp")
# Commands of README that are looked for, and not run: `./test` runs this file, and `./build` takes 35 minutes.
UNRUN = ["./build", "./test"]
# The README's first two commands, of which .ci/run runs the second.
FIRST = ["./ocicp --help", "./test"]
# Tools that a machine may lack. A command that names one is then not run.
TOOLS = ["jq"]
# The place, in the home folder, to which README's `install` copies the program.
INSTALLED = ".local/bin/ocicp"

# `wanted` are the lines that the command is to print, or None if it is only to succeed.
Command = namedtuple("Command", "text wanted")


def blocks(document):
    """Return the fenced blocks of a document, each with its kind."""
    with open("%s/%s" % (TOP, document)) as file:
        return re.findall(r"^```(\w*)\n(.*?)^```$", file.read(), re.M | re.S)


def session(block):
    """Return the commands of a session."""
    found = []
    for line in block.splitlines():
        if line.startswith("$ "):
            found.append(Command(line[2:], []))
        elif found and found[-1].text.endswith("\\"):
            found[-1] = Command(found[-1].text + "\n" + line, [])
        elif found:
            found[-1].wanted.append(line)
    return found


def commands(document):
    """Return the commands of a document, in their order."""
    found = []
    for kind, text in blocks(document):
        if kind == "console":
            found += session(text)
        elif kind == "sh":
            found += [Command(line, None) for line in text.splitlines() if not line.startswith("#")]
    return found


def is_runnable(command):
    """Return whether a command can be run here."""
    lacking = [tool for tool in TOOLS if not shutil.which(tool)]
    return command.text not in UNRUN and not any(re.search(r"\b%s\b" % tool, command.text) for tool in lacking)


def ran(texts, folder):
    """Run commands in one shell, and return the lines that each prints on both outputs, and its status."""
    script = "".join('%s\n(status=$?; echo "%s$status"; exit $status)\n' % (text, END) for text in texts)
    home = os.path.dirname(folder)
    paths = "%s:%s" % (os.path.dirname("%s/%s" % (home, INSTALLED)), os.environ["PATH"])
    done = subprocess.run(["bash", "-c", "exec 2>&1\n" + script], cwd=folder, stdin=subprocess.DEVNULL, timeout=SECONDS,
                          stdout=subprocess.PIPE, text=True, env={**os.environ, "HOME": home, "PATH": paths})
    parts = re.split(END + r"(\d+)\n", done.stdout)
    return [(out.splitlines(), int(status)) for out, status in zip(parts[::2], parts[1::2])]


def clone(room, document):
    """Make a copy of the folder with the program, in a home folder of its own, and return its path."""
    home = "%s/%s" % (room, document.replace("/", "."))
    folder = home + "/clone"
    shutil.copytree(TOP, folder, ignore=LARGE)
    places = ["clone/ocicp", "clone/release/ocicp"]
    for place in places if document == README else [*places, INSTALLED]:
        os.makedirs(os.path.dirname("%s/%s" % (home, place)), exist_ok=True)
        shutil.copyfile(PROGRAM, "%s/%s" % (home, place))
        os.chmod("%s/%s" % (home, place), 0o755)
    return folder


def checks(room):
    for document in DOCUMENTS:
        yield from wrong_commands(document, clone(room, document))
    yield "the first commands of README.md", wrong_first_commands()
    for command in UNRUN:
        yield command, None if os.access(TOP + command[1:], os.X_OK) else "there is no such script"
    yield "the code of " + LIBRARY, wrong_code()


def wrong_commands(document, folder):
    """Run the commands of a document, one after the other."""
    found = [it for it in commands(document) if is_runnable(it)]
    if not any(it.wanted for it in found):
        yield "sessions", "%s has none" % document
    results = ran([it.text for it in found], folder)
    for number, command in enumerate(found):
        lines, status = results[number] if number < len(results) else (["it was not run"], 1)
        label = "%s: $ %s" % (document, command.text)
        if command.wanted is None:
            yield label, None if status == 0 else "it ends with %d, and prints %r" % (status, lines[-3:])
        else:
            yield label, None if lines == command.wanted else difference(lines, command.wanted, document)


def wrong_first_commands():
    """Return the problem with the first block of the README, or None: it sets all up on a fresh machine."""
    found = [it.text for it in commands(README)][:len(FIRST)]
    return None if found == FIRST and blocks(README)[0][0] == "sh" else "they are %s" % found


def wrong_code():
    """Return the problem with the code in docs/library.md, which is to be the whole example, or None."""
    with open(TOP + EXAMPLE) as file:
        found = [text for kind, text in blocks(LIBRARY) if kind == "rust"]
        return None if found == [file.read()] else "it is not what %s has" % EXAMPLE[1:]


def difference(lines, wanted, document):
    """Return a message about the first line that differs."""
    for line, other in zip([*lines, "no more"], [*wanted, "no more"]):
        if line != other:
            return "it prints %r where %s has %r" % (line, document, other)
    return "it prints %d lines where %s has %d" % (len(lines), document, len(wanted))
