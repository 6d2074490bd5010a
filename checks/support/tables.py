"""Reads the tables of the documents."""
import re

from support.program import TOP


def table(path, heading):
    """Return the rows of the first table below a heading, each a list of its cells."""
    with open(TOP + path) as file:
        below = file.read().split(heading + "\n", 1)[1]
    rows = re.search(r"^\|.*?(?=^$|\Z)", below, re.M | re.S).group().splitlines()[2:]
    return [[cell.strip() for cell in row.strip("|").split("|")] for row in rows]
