"""The pages that people read: they are short, those of tasks do not repeat the manual, each page says for whom it is, and each flag that a
page names is one of the command."""
import glob
import os
import re

from support.program import TOP, first

README = "README.md"
MANUAL = "docs/ocicp.1"
CHANGES = "CHANGELOG.md"
# The most words of some pages, and of all pages together but for the manual, which is made from the help.
WORDS = {README: 1500, MANUAL: 4000, "docs/promises.md": 4500, "docs/DECISIONS.md": 4000}
TOGETHER = 20000
# Pages that repeat no run of so many words of the manual.
UNLIKE = [README, "docs/howto.md", "docs/damage.md"]
RUN = 8
# The beginning of the line that says for whom a page is.
READERS = "For "
# Pages for those who change the program, which name flags of other tools.
INNER = ["docs/contributing.md", "docs/map.md"]
# A command of a line of the shell, up to the next one.
PART = re.compile(r"[^|;&\n]+")
FLAG = re.compile(r"(?<![\w-])--[a-z][a-z0-9-]*")


def read(path):
    with open(os.path.join(TOP, path), encoding="utf-8") as file:
        return file.read()


def pages():
    """Return all pages but the manual."""
    return [README, CHANGES, *sorted(os.path.relpath(path, TOP) for path in glob.glob(TOP + "/docs/*.md"))]


def flags():
    """Return the flags of each command, as the manual has them. The empty name has those of all."""
    commands = read(MANUAL).replace("\\-", "-").split("\n.SH COMMANDS\n")[1].split("\n.SH ")[0].split(".SS ")[1:]
    found = {text.split("\n")[0]: set(FLAG.findall("\n".join(re.findall(r"^\\fB(?:-h, )?(--.*)$", text, re.M)))) for text in commands}
    every = set().union(*found.values())
    return {**{name: its | {"--help"} for name, its in found.items()}, "": every | {"--help", "--version"}}


def codes(page):
    """Yield the pieces of code on a page: the lines of its fenced blocks that are commands, and what is in backquotes."""
    text = read(page)
    for kind, block in re.findall(r"^```(\w*)\n(.*?)^```$", text, re.M | re.S):
        if kind != "rust":
            yield from (line.lstrip("$ ") for line in block.splitlines() if kind != "console" or line.startswith("$ "))
    yield from re.findall(r"`([^`\n]+)`", re.sub(r"^```.*?^```$", "", text, flags=re.M | re.S))


def wrong_flags(page, known):
    """Return the problem with a flag of `ocicp` on a page, or None. A piece of code that begins with the name of another tool is its own."""
    for part in (part.strip() for code in codes(page) for part in PART.findall(code)):
        words = re.sub(r"^(?:\$ )?(?:\./)?ocicp ", "", part).split()
        command = "" if part.startswith("--") else words[0] if words and words[0] in known else None
        wrong = [flag for flag in FLAG.findall(part) if command is not None and flag not in known[command]]
        if wrong:
            return "%s is no flag of %s, in `%s`" % (wrong[0], command or "any command", part)


def words(text):
    """Return the words of a text, in small letters."""
    return re.findall(r"[a-z0-9]+(?:[-'.][a-z0-9]+)*", text.lower())


def prose(text):
    """Return the words of a page without its code, its links and its commands."""
    text = re.sub(r"^```.*?^```$", " . ", text, flags=re.M | re.S)
    return words(re.sub(r"\]\([^)]*\)|`ocicp [^`]*`", " ", text))


def manual_words():
    """Return the words of the manual without its marks, and without its lines of commands."""
    text = re.sub(r"^\.nf$.*?^\.fi$", "", read(MANUAL).replace("\\-", "-"), flags=re.M | re.S)
    return words(re.sub(r"^\.[A-Z]+|\\f[A-Z]", "", text, flags=re.M))


def repeated(page):
    """Return a message about a run of words of a page that the manual has too, or None."""
    def runs(its):
        return [" ".join(its[at:at + RUN]) for at in range(len(its) - RUN + 1)]
    of_manual = set(runs(manual_words()))
    return first("the manual has too: %s" % run for run in runs(prose(read(page))) if run in of_manual)


def wrong_first_line(page):
    """Return the problem with a page whose first line does not say for whom it is, or None."""
    line = next((line for line in read(page).splitlines()[1:] if line), "")
    return None if line.startswith(READERS) else "it begins with %r, and not with %r" % (line[:40], READERS)


def checks(room):
    for page, most in WORDS.items():
        count = len(read(page).split())
        yield "the words of " + page, "it has %d, and may have %d" % (count, most) if count > most else None
    count = sum(len(read(page).split()) for page in pages())
    yield "the words of all pages", "they have %d, and may have %d" % (count, TOGETHER) if count > TOGETHER else None
    for page in UNLIKE:
        yield page + " does not repeat the manual", repeated(page)
    known = flags()
    for page in pages():
        if page not in (CHANGES, *INNER):
            yield "flags on " + page, wrong_flags(page, known)
        if page != README:
            yield "the readers of " + page, wrong_first_line(page)
