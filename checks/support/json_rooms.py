"""Runs each command twice, in two folders with the same files: once for its lines, and once with `--json`. The lines that `json_lines`
makes of the document have to be the lines of the other run, and both runs have to leave the same files."""
import os
import shutil
import subprocess
import time

from support import json_lines
from support.files import files
from support.program import PROGRAM, SECONDS, Ended, told
from support.pruning import notes

FORMS = ["lines", "json"]
CHANGES = ["copy", "tag", "untag", "prune", "repair"]


def run_long(words, folder, seconds=SECONDS):
    """Run the program, which may print any length."""
    began = time.monotonic()
    ended = subprocess.run([PROGRAM, *words], cwd=folder, stdin=subprocess.DEVNULL, capture_output=True, timeout=seconds)
    return Ended(ended.returncode, ended.stdout.decode(), ended.stderr.decode(), time.monotonic() - began, 0)


def with_json(words):
    """Return the words with `--json`, after the command or at the end."""
    return [words[0], "--json", *words[1:]] if len(" ".join(words)) % 2 else [*words, "--json"]


def lines_of(words, ended, folder):
    """Return the lines for the output and the error output of a run with `--json`, and how the line of each refusal after the output begins."""
    out, reported, left = ended.out, [], []
    # (a refusal has no document on stdout, but for those of a prune which could not remove a file, of unreadable entries, and of damaged
    # manifests)
    if ended.status == 0 or out:
        labels = [json_lines.Labels(folder + "/" + words[-2].removesuffix(".tar"))] if words[0] == "tree" else []
        value = json_lines.read_document(out)
        reported = json_lines.take_reported(value, words)
        lines = json_lines.LINES[words[0]](value, words, *labels)
        out = "".join(line + "\n" for line in lines)
        left = [len(value.get(it, [])) for it in json_lines.LEFT] if words[0] == "copy" else []
    return out, json_lines.of_error(ended.err) + notes(*left or [0]), reported


def first_reported(err, reported):
    """Return the first line of the error output. There is to be one for each refusal that is reported."""
    lines = err.splitlines(keepends=True)
    if len(lines) != len(reported) or not all(map(str.startswith, lines, reported)):
        raise ValueError("it has %s, and the lines are %.300r" % (reported, err))
    return lines[0]


def wrong_document(words, plain, ended, folder):
    """Return the problem with a run with `--json`, compared with the other run, or None."""
    # (that of a layout with unreadable entries or damaged manifests may have no line)
    reports = plain.err.startswith((json_lines.UNREADABLE, *json_lines.DAMAGED))
    is_listed = bool(plain.out or plain.status == 0) or bool(ended.out) and words[0] in json_lines.WHOLE and reports
    if ended.status != plain.status or bool(ended.out) != is_listed:
        return "%s; and without --json: %s" % (told(ended), told(plain))
    try:
        out, err, reported = lines_of(words, ended, folder)
        wanted = first_reported(plain.err, reported) if reported else plain.err
    except (ValueError, TypeError, KeyError) as error:
        return "%s: %s" % (error, told(ended))
    for made, line in (out, plain.out), (err, wanted):
        if made != line:
            at = next((at for at, pair in enumerate(zip(made, line)) if pair[0] != pair[1]), min(len(made), len(line)))
            start = line.rfind("\n", 0, at) + 1
            return "it says %.300r where the line is %.300r" % (made[start:], line[start:])


class Rooms:
    """A folder that `make` fills, and a copy of it."""

    def __init__(self, room, make):
        self.folders = lines, copy = ["%s/%s" % (room, form) for form in FORMS]
        for folder in self.folders:
            shutil.rmtree(folder, ignore_errors=True)
        os.makedirs(lines)
        make(lines)
        subprocess.run(["cp", "-a", lines, copy], check=True)
        self.ended = None

    def wrong(self, words, run=run_long):
        """Return the problem with a command, or None. `run` runs it in each folder."""
        plain, self.ended = run(words, self.folders[0]), run(with_json(words), self.folders[1])
        complaint = wrong_document(words, plain, self.ended, self.folders[1])
        if not complaint and words[0] in CHANGES and files(self.folders[0]) != files(self.folders[1]):
            complaint = "it leaves other files than without --json"
        return complaint and "%s: %s" % (" ".join(words), complaint)
