"""The archives of `copy --archive`, as other tools read them. A tool that is not installed is not asked."""
import gzip
import hashlib
import io
import json
import os
import shutil
import subprocess
import tarfile

from support.exports import Export, has_gnu_tar, members_of, tree
from support.layouts import BAR, E, FOO, I1, IMAGE, LAYER, M2, M3, S, Content, blob, descriptor, digits, image, write_layout
from support.program import run, told

LONG_LAYER = Content(LAYER, b"a layer by another algorithm", "sha512")
LONG = image([LONG_LAYER, FOO])._replace(algorithm="sha512")
# The options of buildah by which it keeps all that it writes in the folder where it runs.
BUILDAH = ["--root", "root", "--runroot", "run", "--storage-driver", "vfs", "pull", "--quiet", "--signature-policy", "policy.json"]
POLICY = {"default": [{"type": "insecureAcceptAnything"}]}


def built_image():
    """Return an image as builders make it, its config and its layer."""
    packed = io.BytesIO()
    with tarfile.open(fileobj=packed, mode="w", format=tarfile.USTAR_FORMAT) as archive:
        member = tarfile.TarInfo("hello.txt")
        member.size = 6
        archive.addfile(member, io.BytesIO(b"hello\n"))
    layer = Content(LAYER + "+gzip", gzip.compress(packed.getvalue(), mtime=0))
    root = {"type": "layers", "diff_ids": ["sha256:" + hashlib.sha256(packed.getvalue()).hexdigest()]}
    history = [{"created": "2024-05-01T00:00:00Z", "created_by": "a check"}]
    value = {"architecture": "amd64", "os": "linux", "config": {}, "rootfs": root, "history": history}
    config = Content("application/vnd.oci.image.config.v1+json", json.dumps(value).encode())
    text = '{"schemaVersion":2,"mediaType":"%s","config":%s,"layers":[%s]}' % (IMAGE, descriptor(config), descriptor(layer))
    return Content(IMAGE, text.encode()), config, layer


def output(room, *words):
    """Return the output of a tool, or its error output if it fails."""
    ended = subprocess.run(words, cwd=room, stdin=subprocess.DEVNULL, capture_output=True, env={**os.environ, "TZ": "UTC"})
    return ended.stdout if ended.returncode == 0 else b"status %d, %s" % (ended.returncode, ended.stderr[-300:])


def wrong_members(room):
    """Return the problem with the members as Python reads them, or None."""
    with tarfile.open(room + "/made.tar", "r:") as archive:
        contents = {it.name: archive.extractfile(it).read() for it in archive if it.isreg()}
        found = [
            (it.name, it.type, it.mode, it.mtime, it.uid, it.gid, it.uname, it.gname, it.linkname, it.size, contents.get(it.name, b""))
            for it in archive
        ]
    kinds = {True: (tarfile.DIRTYPE, 0o755), False: (tarfile.REGTYPE, 0o644)}
    wanted = [(name.rstrip("/"), *kinds[name.endswith("/")], 0, 0, 0, "", "", "", len(it), it) for name, it in members_of(room + "/folder", True)]
    return None if found == wanted else "it has %.300s, and not %.300s" % (found, wanted)


def wrong_list(room):
    """Return the problem with the lines of GNU tar, or None."""
    lines = output(room, "tar", "--numeric-owner", "--full-time", "-tvf", "made.tar").decode().splitlines()
    modes = {True: "drwxr-xr-x", False: "-rw-r--r--"}
    wanted = [[modes[name.endswith("/")], "0/0", str(len(it)), "1970-01-01", "00:00:00", name] for name, it in members_of(room + "/folder", True)]
    return None if [line.split(None, 5) for line in lines] == wanted else "it prints %.300s" % lines


def unpacked(room, tool):
    """Return the files that a tool unpacks, or what it prints."""
    shutil.rmtree(room + "/unpacked", ignore_errors=True)
    os.mkdir(room + "/unpacked")
    return output(room, tool, "-xf", "made.tar", "-C", "unpacked") or tree(room + "/unpacked")


def copied(room, *words):
    """Return the blobs that a tool copies into the layout `other`, or what it prints."""
    shutil.rmtree(room + "/other", ignore_errors=True)
    said = output(room, *words)
    found = tree(room + "/other") if os.path.isdir(room + "/other") else {}
    return {path: it for path, it in found.items() if path.startswith("blobs/")} or said


def tags_of_umoci(room):
    """Return the tags that umoci finds in the files of the archive, which it does not read itself."""
    unpacked(room, "tar")
    return set(output(room, "umoci", "list", "--layout", "unpacked").decode().splitlines())


def checks(room):
    made, config, layer = built_image()
    tags = {"both": I1, "one": M2, "a tag with spaces: \u00e9": M3, "layer": FOO, "long": LONG, "real": made}
    contents = [E, FOO, BAR, M2, M3, I1, S, LONG_LAYER, LONG, made, config, layer]
    write_layout(room + "/source", contents, tags, [S])
    export = Export(room, "--all --referrers SRC DST")
    yield "the archive", export.wrong_file() if export.is_copied else "into a folder: " + told(export.ended)
    if not os.path.exists(room + "/made.tar"):
        return
    with open(room + "/policy.json", "w") as file:
        json.dump(POLICY, file)
    yield "Python", wrong_members(room)
    if has_gnu_tar():
        yield "GNU tar lists it", wrong_list(room)
    place, blobs = "oci-archive:made.tar:real", {blob(it): it.bytes for it in (made, config, layer)}
    files = {name: it for name, it in members_of(room + "/folder", True) if not name.endswith("/")}
    # (an archive that a tool reads without a tag has one entry)
    one = run(["copy", "--archive", "source", "both", "one.tar"], room)
    yield "the archive of an index", None if one.status == 0 else told(one)
    for tool, wanted, find in [
        ("tar", files, lambda: unpacked(room, "tar")),
        ("bsdtar", files, lambda: unpacked(room, "bsdtar")),
        ("skopeo", made.bytes, lambda: output(room, "skopeo", "inspect", "--raw", place)),
        ("skopeo", I1.bytes, lambda: output(room, "skopeo", "inspect", "--raw", "oci-archive:one.tar")),
        ("skopeo", blobs, lambda: copied(room, "skopeo", "copy", "--policy", "policy.json", place, "oci:other:real")),
        ("buildah", b"%s\n" % digits(config).encode(), lambda: output(room, "buildah", *BUILDAH, place)),
        ("umoci", set(tags), lambda: tags_of_umoci(room)),
        ("oras", made.bytes, lambda: output(room, "oras", "manifest", "fetch", "--oci-layout", "made.tar:real")),
        ("oras", blobs, lambda: copied(room, "oras", "cp", "--from-oci-layout", "made.tar:real", "--to-oci-layout", "other:real")),
        ("regctl", blobs, lambda: copied(room, "regctl", "image", "import", "--name", "real", "ocidir://other:real", "made.tar")),
    ]:
        if not shutil.which(tool):
            yield "%s is not asked, since it is not here" % tool, None
            continue
        found = find()
        yield "%s reads it" % tool, None if found == wanted else "it has %.500r" % (found,)
