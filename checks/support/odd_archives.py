"""Archives of the files of a layout, written by hand: in every way that is allowed, and damaged in every way."""
import bz2
import functools
import gzip
import lzma
import os

from support.layouts import FOO, blob, digits
from support.tar_files import (
    BLOCK, END, GNU, V7, base256, comment_of, extended, header, long_name, member, old_sparse, octal, pax_sparse, record,
)

# No extended header may be longer.
MOST = 1 << 20


def each(files, make=member):
    """Return an archive without an end. `make` makes a part of it from the path and the content of each file."""
    return b"".join(make(path, content) for path, content in files)


def odd_numbers(files):
    """Yield archives with numbers that are written in other ways."""
    yield "sizes in base 256", each(files, lambda path, it: member(path, it, size=base256(len(it))))
    others = {"uid": base256(1 << 22, 8), "gid": base256(1 << 31, 8), "mtime": b"\xff" * 12}
    yield "owners and times in base 256", each(files, lambda path, it: member(path, it, **others))
    for form in b"%11o\0", b"%10o \0", b"%o          ", b"%o", b"%012o":
        yield "sizes as %r" % form, each(files, lambda path, it: member(path, it, size=(form % len(it))[:12]))
    for form in b"%07o\0", b"%6o\0 ", b"%08o", b" %o ", b"%o":
        yield "checksums as %r" % form, each(files, lambda path, it: member(path, it, checksum=lambda total: form % total))


def odd_names(files):
    """Yield archives with names that are written in other ways, and with other names."""
    head, tail = os.path.dirname, os.path.basename
    yield "names with bytes behind their end", each(files, lambda path, it: member(path + b"\0junk", it))
    yield "names in two fields", each(files, lambda path, it: member(tail(path), it, prefix=head(path)))
    yield "names in two fields, with ./", each(files, lambda path, it: member(tail(path), it, prefix=head(b"./" + path)))
    yield "prefixes in headers of GNU", each(files, lambda path, it: member(path, it, magic=GNU, prefix=b"elsewhere"))
    yield "prefixes in headers of v7", each(files, lambda path, it: member(path, it, magic=V7, kind=b"\0", prefix=b"elsewhere"))
    yield "the kind NUL", each(files, lambda path, it: member(path, it, kind=b"\0"))
    others = [b"oci-layoutx", b"x/oci-layout", b"blobs/oci-layout", b"index.jso", b"oci-layout\xff\xe4", b"n" * 100]
    others += [blob(FOO).upper().encode(), blob(FOO).encode() + b"0", blob(FOO).encode()[:-1], digits(FOO).encode()]
    yield "members of other names", each(files) + b"".join(member(it, b"[") for it in others)
    yield "a prefix of the whole field", member(b"n" * 100, b"[", prefix=b"p" * 155) + each(files)
    yield "each file twice", each(files, lambda path, it: member(path, b"[")) + each(files)
    yield "each file twice, first with ./", each(files, lambda path, it: member(b"./" + path, b"[")) + each(files)
    yield "each file twice, then with ./", each(files, lambda path, it: member(path, b"[") + member(b"./" + path, it))
    for kind in b"1", b"5":
        places = each(files, lambda path, it: header(path, kind=kind, link=b"other"))
        yield "members of kind %s before the files of their names" % kind.decode(), places + each(files)


def odd_headers(files):
    """Yield archives with extended headers of pax."""
    yield "paths of pax", each(files, lambda path, it: extended((b"path", path)) + member(b"other", it))
    yield "paths of pax with ./", each(files, lambda path, it: extended((b"path", b"./" + path)) + member(b"other", it))
    yield "paths of pax beside prefixes", each(files, lambda path, it: extended((b"path", path)) + member(b"n", it, prefix=b"p"))
    first, content = files[0]
    yield "a path of pax for the first alone", extended((b"path", first)) + member(b"other", content) + each(files[1:])
    for size in 0, 7777777:
        sized = each(files, lambda path, it: extended((b"size", b"%d" % len(it))) + member(path, it, size=size))
        yield "sizes of pax, and %d in each header" % size, sized
    notes = [(b"comment", b"a=b\n18 path=elsewhere\n"), (b"mtime", b"1.5"), (b"SCHILY.xattr.user.x", b"\0\n\xff"), (b"linkpath", b"l")]
    yield "other records of pax", each(files, lambda path, it: extended(*notes) + member(path, it))
    yield "other records for all", extended(*notes, kind=b"g") + each(files) + extended(*notes, kind=b"g") + member(b"other")
    last, content = files[-1]
    for_all = extended((b"path", last), (b"size", b"%d" % len(content)), kind=b"g")
    yield "a path and a size for all that follow", each(files[:-1]) + for_all + member(b"other", content, size=0)
    own = each(files, lambda path, it: extended((b"path", path), (b"size", b"%d" % len(it))) + member(b"other", it))
    yield "a path and a size for all, and for each", extended((b"path", b"other"), (b"size", b"9"), kind=b"g") + own


def long_headers(files):
    """Yield archives with long names of GNU, and with extended headers of the greatest length."""
    named = lambda path, it: member(path[:50], it, magic=GNU)
    yield "long names of GNU", each(files, lambda path, it: long_name(path) + named(path, it))
    yield "long names of GNU with ./", each(files, lambda path, it: long_name(b"./" + path) + named(path, it))
    yield "long names of GNU without a NUL", each(files, lambda path, it: long_name(path, end=b"") + named(path, it))
    link = long_name(b"l" * 200, b"K")
    yield "long links and names of GNU", each(files, lambda path, it: link + long_name(path) + named(path, it))
    yield "long names and links of GNU", each(files, lambda path, it: long_name(path) + link + named(path, it))
    for kind in b"x", b"g":
        yield "comments of 1 MiB in %s" % kind.decode(), member(b"it", comment_of(MOST), kind=kind) + member(b"other") + each(files)
    for kind in b"L", b"K":
        yield "a name of 1 MiB in %s" % kind.decode(), long_name(b"l" * (MOST - 1), kind) + member(b"other") + each(files)


def headers_for_long_names(files):
    """Yield archives in which names may have over 100 characters."""
    named = lambda path, it: member(path[:100], it, magic=GNU)
    yield "paths of pax", each(files, lambda path, it: extended((b"path", path)) + member(path[:100], it))
    yield "long names of GNU", each(files, lambda path, it: long_name(path) + named(path, it))


def links_to_themselves(files):
    """Yield archives in which hard links to their own paths follow the files."""
    whole = each(files)
    link = lambda path, it: header(path, kind=b"1", link=path)
    yield "each file, and a link to itself", each(files, lambda path, it: member(path, it) + link(path, it))
    yield "each file, and last links to themselves", whole + each(files, link) + each(files, link)
    yield "links to themselves before the files", each(files, link) + whole
    yield "links to themselves with a size", whole + each(files, lambda path, it: header(path, len(it), kind=b"1", link=path))
    yield "links with ./ to themselves", whole + each(files, lambda path, it: header(b"./" + path, kind=b"1", link=path))
    yield "links to themselves with ./", whole + each(files, lambda path, it: header(path, kind=b"1", link=b"./" + path))
    yield "links to themselves with /", whole + each(files, lambda path, it: header(path, kind=b"1", link=path + b"/"))
    other = header(b"other", kind=b"1", link=b"elsewhere")
    yield "links to themselves by pax", whole + each(files, lambda path, it: extended((b"path", path), (b"linkpath", path)) + other)
    yield "links to themselves by GNU", whole + each(files, lambda path, it: long_name(path, b"K") + long_name(path) + other)


def odd_members(files):
    """Yield archives with other members before the files, in another order, and with other ends."""
    whole = each(files)
    padding = -len(files[-1][1]) % BLOCK
    yield "the last file first", each(files[::-1]) + END
    yield "no end", whole
    yield "one block of zeros as the end", whole + bytes(BLOCK)
    yield "an end within the padding", whole[:-5]
    yield "an end before the padding", whole[:-padding]
    yield "members behind the end", whole + bytes(BLOCK) + each(files, lambda path, it: member(path, b"["))
    yield "a text behind the end", whole + END + b"a text"
    for further in 0, 1, 3:
        yield "a sparse member of GNU with %d further blocks" % further, old_sparse(b"other", further) + whole
    for form in "0.0", "0.1", "1.0":
        yield "a sparse member of pax " + form, pax_sparse(b"other", form) + whole
    for kind in b"VMDNA7":
        yield "a member of kind %c with content" % kind, member(b"other", b"s" * 700, kind=bytes([kind])) + whole
    for kind in b"123456":
        yield "a member of kind %c with a size" % kind, header(b"other", 700, kind=bytes([kind])) + whole


def allowed(files):
    """Yield all archives that are allowed, each with a label."""
    for group in odd_numbers, odd_names, odd_headers, long_headers, links_to_themselves, odd_members:
        yield from group(files)


# Members that can be in the place of a file and are no regular files.
PLACES = {
    "a hard link": lambda path: header(path, 3, kind=b"1", link=b"other"),
    "a symbolic link": lambda path: header(path, kind=b"2", link=b"other"),
    "a device": lambda path: header(path, kind=b"3"),
    "a folder": lambda path: header(path, kind=b"5"),
    "a folder whose name ends in /": lambda path: header(path + b"/", kind=b"5"),
    "a FIFO": lambda path: header(path, kind=b"6"),
    "a sparse file of GNU": functools.partial(old_sparse, further=2),
    **{"a sparse file of pax " + form: functools.partial(pax_sparse, form=form) for form in ("0.0", "0.1", "1.0")},
    "a file, and then a link": lambda path: member(path, b"[") + header(path, kind=b"2", link=b"other"),
    "a file, and then a symbolic link to itself": lambda path: member(path, b"[") + header(path, kind=b"2", link=path),
    "a file, and then a hard link to another": lambda path: member(path, b"[") + header(path, kind=b"1", link=b"other"),
}


def bad_headers(files):
    """Yield archives in which the second header, or the first, is damaged."""
    before, after = each(files[:1]), each(files[1:])
    plus = lambda more: {"checksum": lambda total: b"%06o\0 " % (total + more)}
    checksums = {
        "a checksum that is one too high": plus(1),
        "a checksum that is one too low": plus(-1),
        "a checksum of signed bytes": {"name": b"other\xff", **plus(-256)},
        "a checksum of letters": {"checksum": lambda total: b"letters\0"},
        "no checksum": {"checksum": lambda total: bytes(8)},
    }
    sizes = {
        "a size with an 8": {"size": b"00000000008\0"},
        "a size that ends in a letter": {"size": b"0000000010x\0"},
        "a negative size": {"size": b"-0000000010\0"},
    }
    for label, fields in {**checksums, **sizes}.items():
        bad = member(**{"name": b"other", "content": b"c" * 600, **fields})
        yield label, before + bad + after, "102 BadHeader %d" % len(before)
        yield label + ", first", bad + before + after, "100 NotArchive"


def bad_records(files):
    """Yield archives with malformed records of pax."""
    whole = each(files)
    texts = [
        b"13 path=other\n", b"15 path=other\n", b"path=other\n", b"14path=other\n", b"0 path=other\n", b"-14 path=other\n",
        b"14 path:other\n", b"14 path=others", b"99999999999999999999 path=other\n", b"14", b"3 \n", b"\n", record(b"path", b"other") + b"more",
        record(b"size", b"12x"), record(b"size", b"-1"), record(b"size", b"0x10"), record(b"size", b" 1"), record(b"size", b"1.5"),
    ]
    for kind in b"x", b"g":
        for text in texts:
            written = whole + member(b"it", text, kind=kind) + member(b"other") + END
            yield "%r in a header %s" % (text, kind.decode()), written, "102 BadHeader %d" % len(whole)
    for kind in b"x", b"g", b"L", b"K":
        content = long_name(b"l" * MOST, kind) if kind in b"LK" else member(b"it", comment_of(MOST + 1), kind=kind)
        yield "an extended header %s over 1 MiB" % kind.decode(), whole + content + member(b"other") + END, "104 TooLong %d" % len(whole)
    yield "the same, first", member(b"it", comment_of(MOST + 1), kind=b"x") + member(b"other") + whole + END, "104 TooLong 0"


def cut(files):
    """Yield archives that end too early."""
    whole, start, last = each(files), len(each(files[:1])), len(each(files[:-1]))
    for size in 1, 100, BLOCK - 1:
        yield "%d bytes" % size, whole[:size], "100 NotArchive"
    for size in BLOCK, BLOCK + len(files[0][1]) - 1:
        yield "the first header, and %d bytes" % (size - BLOCK), whole[:size], "103 Truncated 0"
    for size in 1, BLOCK - 1, BLOCK, BLOCK + len(files[1][1]) - 1:
        yield "%d bytes of the second member" % size, whole[:start + size], "103 Truncated %d" % start
    yield "all but the last byte of content", whole[:last + BLOCK + len(files[-1][1]) - 1], "103 Truncated %d" % last
    beyond = "103 Truncated %d" % len(whole)
    yield "a part of a block of zeros", whole + bytes(100), beyond
    path, sparse = extended((b"path", b"other")), old_sparse(b"other", 2)
    for label, written in ("an extended header", path), ("a long name", long_name(b"other")), ("a sparse member", sparse):
        for size in 100, BLOCK + 3:
            yield "%d bytes of %s" % (size, label), whole + written[:size], beyond
    for size in BLOCK, 2 * BLOCK, 2 * BLOCK + 100, 3 * BLOCK, len(sparse) - 1:
        yield "%d bytes of the map and content of a sparse member" % (size - BLOCK), whole + sparse[:size], beyond


def oversized(files):
    """Yield archives with sizes that go past the end. The last sizes are so large that they may count as no number."""
    whole = each(files)
    for label, field in ("all of octal", b"777777777777"), ("octal", octal(1 << 30, 12)), ("base 256", base256(1 << 40)):
        yield "a size past the end in " + label, whole + header(b"other", field), "103 Truncated %d" % len(whole)
    yield "a size that is one block too large", whole + header(b"other", 513) + bytes(BLOCK), "103 Truncated %d" % len(whole)
    path = extended((b"size", b"%d" % (1 << 40)))
    yield "a size of pax past the end", whole + path + header(b"other"), "103 Truncated %d" % (len(whole) + len(path))
    here = ["102 BadHeader %d" % len(whole), "103 Truncated %d" % len(whole)]
    for size in base256((1 << 63) - 1), base256(1 << 63), base256((1 << 64) - 1), base256((1 << 88) - 1), b"\xff" * 12:
        yield "the size %s" % size.hex(), whole + header(b"other", size) + END, here
    for size in (1 << 63) - 1, (1 << 64) - 1, 1 << 64, 10 ** 30:
        path = extended((b"size", b"%d" % size))
        yield "the size %d of pax" % size, whole + path + header(b"other") + END, [here[0], "103 Truncated %d" % (len(whole) + len(path))]


def foreign(files):
    """Yield files that are no archives."""
    whole = each(files) + END
    for form, written in ("gzip", gzip.compress(whole)), ("bzip2", bz2.compress(whole)), ("xz", lzma.compress(whole)):
        yield form, written, "101 Compressed " + form
    yield "zstd", b"\x28\xb5\x2f\xfd" + whole, "101 Compressed zstd"
    yield "a short file of gzip", gzip.compress(b""), "101 Compressed gzip"
    yield "a long text", b"This is a text and no archive.\n" * 100, "100 NotArchive"
    yield "a short text", b"This is a text.\n", "100 NotArchive"
    yield "the other half of an archive", whole[BLOCK:], "100 NotArchive"
    yield "100 zeros", bytes(100), "100 NotArchive"


def damaged(files):
    """Yield all archives that are refused, each with a label and with the line of the refusal, or the lines of which one is printed."""
    for group in bad_headers, bad_records, cut, oversized, foreign:
        yield from group(files)
