"""Words that are not UTF-8: the command line is invalid, whatever it asks for."""
from support.program import run, told


def checks(room):
    for words in [b"\xff"], [b"tags", b"\xc3("], [b"copy", b"a", b"b\x80", b"c"]:
        ended = run(words, room)
        right = ended[:3] == (2, "", "error: a word is not UTF-8\n")
        yield repr(words), None if right else told(ended)
