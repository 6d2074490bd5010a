"""Runs the sessions of checks/sessions over the built program, each in a folder of its own. checks/sessions/README.md has their form."""
import hashlib
import os
import re
from concurrent.futures import ThreadPoolExecutor
from itertools import zip_longest

from support.program import first
from support.session_commands import Commands, build

FOLDER = os.path.dirname(os.path.abspath(__file__)) + "/sessions/"
NAMED = re.compile(r"<([A-Z]\w*)(?: (\w+))?>")
# The media type of the content LONG. The program keeps 8 KiB of its output before it writes them.
LONG = "a/" + "b" * 10000


def sections(file):
    """Yield the name of each section of a file, and its commands: the line of each, and the lines below it."""
    with open(FOLDER + file) as source:
        texts = re.split(r"^# ", source.read(), flags=re.M)[1:]
    for text in texts:
        head, *commands = re.split(r"^\$ ", text.rstrip("\n") + "\n", flags=re.M)
        yield head.split("\n")[0], [command.split("\n", 1) for command in commands]


def parts(algorithm, media_type, text):
    """Return the parts of a content by their names. The part without a name is its key, as the program prints it."""
    digits = hashlib.new(algorithm, text.encode()).hexdigest()
    digest = "%s:%s" % (algorithm, digits)
    return {
        None: "%s %d %s" % (digest, len(text), media_type),
        "digest": digest,
        "short": "%s:%.12s" % (algorithm, digits),
        "tag": "%s-%.64s" % (algorithm, digits),
        "descriptor": '{"mediaType":"%s","digest":"%s","size":%d}' % (media_type, digest, len(text)),
        "type": media_type,
        "bytes": text,
        "file": "blobs/%s/%s" % (algorithm, digits),
    }


def filled(text, contents):
    """Put in the parts of contents that a text names."""
    return NAMED.sub(lambda it: contents[it[1]][it[2]] if it[1] in contents else it[0], text)


def read_contents():
    """Return the parts of each content."""
    contents = {"LONG": parts("sha256", LONG, "long")}
    for name, [(line, _)] in sections("contents.txt"):
        contents[name] = parts(*filled(line, contents).split(" ", 2))
    return contents


class Session(Commands):
    """The commands of a session, with the contents that it names and the files that it begins with."""

    def __init__(self, folder, library, contents, files):
        super().__init__(folder, library)
        self.contents, self.files = contents, files

    def do_files(self, name):
        return self.wrong(self.files[name])

    def wrong(self, commands):
        """Run commands until one prints something else than the lines below it, and return the first line that differs, or None."""
        return first(self.wrong_command(*command) for command in commands)

    def wrong_command(self, line, wanted):
        """Run a command, and return the first line that differs from those below it, or None."""
        name, _, rest = line.partition(" ")
        rest, wanted = (filled(text, self.contents).replace("@", self.folder) for text in (rest, wanted))
        try:
            told = getattr(self, "do_" + name)(rest) or ""
        except OSError as error:
            return "$ %s: %s" % (line, error)
        order = sorted if name == "unordered" else list
        for one, other in zip_longest(order(told.split("\n")), order(wanted.split("\n")), fillvalue="no more"):
            if one != other:
                return "$ %s: it prints %r where the session has %r" % (line, one, other)


def checks(room):
    shared = build(room), read_contents(), dict(sections("files.txt"))

    def result(file, name, commands):
        folder = "%s/%s" % (room, name)
        os.mkdir(folder)
        return "%s: %s" % (file, name), Session(folder, *shared).wrong(commands) if commands else "it has no commands"

    files = sorted(it for it in os.listdir(FOLDER) if it.endswith(".session"))
    found = [(file, *section) for file in files for section in sections(file)]
    yield "%d sessions" % len(found), None if found else "there is nothing to run"
    # Most of the time they wait for the program.
    with ThreadPoolExecutor(os.cpu_count()) as pool:
        yield from pool.map(result, *zip(*found))
