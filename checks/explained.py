"""Compares the numbers of refusals, and their names, as the crates' faults declare them (tools/numbers reads them), the
program explains them, docs/refusals.md and docs/json.md list them, and the pages for users name them. The text of each fault begins with the
number that its `number()` returns, and has all that it carries, in order."""
import glob
import re

from support.program import TOP, first, run, told
from support.tables import table

# A number is a byte.
NUMBERS = range(256)
# The documents with columns that tools/numbers writes.
DOCUMENTS = ["refusals.md", "json.md"]
# The pages for users.
PAGES = ["README.md", "docs/howto.md", "docs/damage.md"]
# A number and the name after it, in code; the number that `explain` is asked for; and parentheses that begin with a number, such as (75, 77)
# and (96; with `--referrers` 75, 77).
NAMED = re.compile(r"\b(\d+) ([A-Z][A-Za-z]*[a-z])\b")
ASKED = re.compile(r"\bexplain (\d+)()")
ENCLOSED = re.compile(r"\((\d{2,3}\b[^()]*)\)")
# In the place of a cause that is to be written.
UNWRITTEN = "?"
# A fault: the number in its text, the rest of the text, what the text is filled with, the variant's name, and the types that it carries.
FAULT = re.compile(r'#\[error\("(\d+) \w+([^"]*)"([^\]]*)\)\]\n(?: *///.*\n)* *(\w+)(?:\((.*)\))?,')


def read(path):
    """Return the text of a file."""
    with open(path, encoding="utf-8") as file:
        return file.read()


def listed():
    """Return the number and the name of each row of docs/refusals.md, and when the fault is returned."""
    return [(int(number), fault.split()[-1], cause) for number, fault, cause, *_ in table("/docs/refusals.md", "# Refusals")]


def used(page):
    """Yield the numbers of refusals on a page, each with the name after it, or nothing."""
    text = re.sub(r"\]\([^)]*\)", "]", read("%s/%s" % (TOP, page)))
    for code in re.findall(r"`[^`\n]+`|^ocicp: .*$", text, re.M):
        yield from NAMED.findall(code)
    yield from ASKED.findall(text)
    for numbers in ENCLOSED.findall(text):
        yield from ((number, "") for number in re.findall(r"\b\d{2,3}\b", numbers))


def wrong_text(source, fault):
    """Return the problem with the text of a fault of a source, or None."""
    number, rest, filled, name, types = fault.groups()
    variant = "%s::%s" % (re.findall(r"pub enum (\w+)", source[: fault.start()])[-1], name)
    returned = re.findall(r"\b%s\b(?:\(.*\))? => (?:Some\()?(\d+)" % variant, source)
    places = re.findall(r"\.(\d)", filled) if filled else re.findall(r"\{(\d)\}", rest)
    carried = [str(place) for place in range(len(types.split(",")))] if types else []
    if returned != [number] and (returned or "fn number(" in source):
        return "the text of %s begins with %s, and number() returns %s" % (variant, number, ", ".join(returned) or "no number")
    if places != carried or rest.count("{") != len(carried):
        return "the text of %s does not have all that it carries, in order" % variant


def wrong_texts():
    """Return the problem with the text of a fault of the crates, or None."""
    sources = [read(path) for path in sorted(glob.glob(TOP + "/crates/*/src/**/*.rt", recursive=True))]
    found = [(source, fault) for source in sources for fault in FAULT.finditer(source)]
    declared = sum(len(re.findall(r'#\[error\("\d', source)) for source in sources)
    missing = None if found and len(found) == declared else "of %d faults with a number %d can be read" % (declared, len(found))
    return missing or first(wrong_text(*it) for it in found)


def wrong_document(file, room):
    """Return the problem with a document of which tools/numbers has written another one into a folder, or None."""
    if read("%s/%s" % (room, file)) != read("%s/docs/%s" % (TOP, file)):
        return "tools/numbers makes another one: run it"


def wrong_list(rows):
    """Return the problem with the rows of docs/refusals.md, or None. A number that two types have must have one name."""
    names = {number: name for number, name, _ in rows}
    twice = [it for it in rows if rows.count(it) > 1 or names[it[0]] != it[1]]
    unwritten = [it for it in rows if it[2] in ("", UNWRITTEN)]
    return first([
        "no fault is declared" if not rows else None,
        "docs/refusals.md has %d %s twice, or under two names" % twice[0][:2] if twice else None,
        "docs/refusals.md does not say when %d %s is returned" % unwritten[0][:2] if unwritten else None,
    ])


def wrong_explanation(number, name, folder):
    """Return the problem with the output of `explain`, or None. The number has this name, or is not used if the name is None."""
    ended = run(["explain", str(number)], folder)
    if name is None:
        right = ended.status == 2 and not ended.out
    else:
        lines = ended.out.split("\n")
        right = (ended.status, ended.err, len(lines)) == (0, "", 4) and lines[0] == "%d %s" % (number, name)
    if not right:
        return "%d is %s in docs/refusals.md: %s" % (number, name or "no number", told(ended))


def wrong_explanations(name, numbers, folder):
    """Return the problem with the output of `explain` for a name, or None. It is that for each number with this name, in their order."""
    ended, each = run(["explain", name], folder), [run(["explain", str(number)], folder) for number in numbers]
    if (ended.status, ended.err, ended.out) != (0, "", "\n".join(it.out for it in each)):
        return "%s is not explained as %s: %s" % (name, ", ".join(map(str, numbers)), told(ended))


def wrong_use(page, names):
    """Return the problem with the numbers of refusals on a page, or None."""
    found = list(used(page))
    for number, name in found:
        if int(number) not in names:
            return "it has %s, docs/refusals.md does not" % number
        if name and names[int(number)] != name:
            return "it has %s %s, docs/refusals.md has %s" % (number, name, names[int(number)])
    return None if found else "it has no number"


def checks(room):
    rows = listed()
    names = {number: name for number, name, _ in rows}
    made = run([room], room, program=TOP + "/tools/numbers")
    for file in DOCUMENTS:
        yield "docs/%s is up to date" % file, told(made) if made.status else wrong_document(file, room)
    yield "docs/refusals.md", wrong_list(rows)
    yield "the texts of the faults", wrong_texts()
    yield "explain", first(wrong_explanation(number, names.get(number), room) for number in NUMBERS)
    having = {name: [it for it in sorted(names) if names[it] == name] for name in names.values()}
    yield "explain by name", first(wrong_explanations(*it, room) for it in having.items())
    for page in PAGES:
        yield page, wrong_use(page, names)
