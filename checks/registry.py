"""The program `ocicp-registry`: pulls from a registry in memory and pushes to it, also while that misbehaves. Wants `openssl` for TLS."""
import hashlib
import json
import os
import re
import shutil
import signal
import ssl
import subprocess
import sys
import tarfile
import time
from concurrent.futures import ThreadPoolExecutor

from support.files import files
from support.layouts import BAR, E, FOO, IMAGE, INDEX, LAYER, Content, blob, descriptor, digits, image, index, key, write_layout
from support.program import PROGRAM, SECONDS, TOP, first, leftovers, run, told, wrong_layout
from support.registry import Faults, Registry
from support.tar_files import pack
from support.terminal import run_on_terminal

HELPER = TOP + "/ocicp-registry"
# A line on a terminal, as `ocicp` draws it, and its erasure.
AMOUNT = r"[\d.]+ [KM]?B"
LINE = re.compile(r"\r\x1b\[\?7l\d+ of \d+ blobs, %s of %s(, %s/s(, (\d+ min )?\d+ s left)?)?\x1b\[K\x1b\[\?7h" % (AMOUNT, AMOUNT, AMOUNT))
ERASURE = "\r\x1b[K"
# Runs at once, and the time in which a run ends that waits for a second.
AT_ONCE, SOON = 4, 15
MEGABYTE = 1 << 20
BIG = Content(LAYER, b"".join(b"%7d\n" % number for number in range(MEGABYTE // 8)))
ONE, TWO = image([FOO, BIG]), image([BAR], number=2)


def platform(content, architecture):
    return dict(json.loads(descriptor(content)), platform={"os": "linux", "architecture": architecture})


PLATFORMS = [platform(ONE, "amd64"), platform(TWO, "arm64")]
LIST = Content(INDEX, json.dumps({"schemaVersion": 2, "mediaType": INDEX, "manifests": PLATFORMS}).encode())
SIGNATURE = image([], subject=ONE, artifact_type="application/signature")
SBOM = image([], subject=SIGNATURE, artifact_type="application/sbom")
# A signature as `cosign` pushes it, with a tag alone, and the list of a registry without the API of referrers.
COSIGNED = image([BAR], number=3)
OF_ONE, OF_SIGNATURE = index([SIGNATURE]), index([SBOM])
IMAGES, ATTACHED = [E, FOO, BIG, BAR, ONE, TWO, LIST], [SIGNATURE, SBOM, COSIGNED]
COSIGN_TAG = "sha256-%s.sig" % digits(ONE)
LIST_TAGS = {"sha256-" + digits(ONE): OF_ONE, "sha256-" + digits(SIGNATURE): OF_SIGNATURE}
USER = {"auth": "dXNlcjpzZWNyZXQ="}


def digest(content):
    return "sha256:" + digits(content)


class Here:
    """A folder of its own with a registry, of which the repository `some/image` has the images."""

    def __init__(self, room, name, contents=IMAGES, tags=None, context=None, **faults):
        self.room = "%s/%s" % (room, name)
        os.makedirs(self.room + "/docker")
        self.registry = Registry(Faults(**faults), context)
        self.registry.hold("some/image", contents, tags or {"v1": LIST, "one": ONE})
        self.flags = ["--plain-http"]

    def __enter__(self):
        self.registry.__enter__()
        return self

    def __exit__(self, *_):
        self.registry.__exit__()

    def log_in(self, config):
        with open(self.room + "/docker/config.json", "w") as file:
            json.dump(config, file)

    def words(self, words):
        command, *rest = [it.replace("HOST", self.registry.host()) for it in words.split(" ")]
        return [command, *self.flags, *rest]

    def environment(self):
        path = "%s/docker:%s" % (self.room, os.environ["PATH"])
        return {**os.environ, "OCICP": PROGRAM, "DOCKER_CONFIG": self.room + "/docker", "no_proxy": "*", "PATH": path}

    def run(self, words, seconds=SECONDS):
        return run(self.words(words), self.room, seconds, program=HELPER, env=self.environment())

    def wrong(self, words, out=None, status=0, err="", asked=()):
        """Return the problem with a run that is to end so. `asked` has parts of paths, and the number of requests with each."""
        before = len(self.registry.requests)
        ended, requests = self.run(words), self.registry.requests[before:]
        counts = [(part, sum(part in "%s %s" % (it.method, it.path) for it in requests), wanted) for part, wanted in asked]
        return first([
            None if ended.status == status and (out is None or ended.out == out) else told(ended),
            None if (err in ended.err if err else not ended.err) and "Traceback" not in ended.err else told(ended),
            first("%d requests of %s, and not %d" % (found, part, wanted) for part, found, wanted in counts if found != wanted),
        ])

    def wrong_refusal(self, words, err, status=1, seconds=SECONDS):
        """Return the problem with a run that is to be refused so, and to change nothing in its folder."""
        before, began = files(self.room), time.monotonic()
        wrong = self.wrong(words, "", status, err)
        took = time.monotonic() - began
        changed = files(self.room) != before and "something has changed: %s" % sorted(set(files(self.room)) ^ set(before))
        return first([wrong, changed or None, None if took <= seconds else "it took %.0f s" % took])

    def wrong_layout(self, contents, tags, layout="layout"):
        return first([wrong_layout(self.room, layout, contents, tags), leftovers("%s/%s" % (self.room, layout), contents), self.left()])

    def left(self):
        return first("%s is left over" % it for it in os.listdir(self.room) if it.startswith(".ocicp"))

    def wrong_registry(self, contents, tags, repository="new"):
        """Return the problem with a repository that is to have exactly these contents and tags."""
        here = self.registry
        held = {name: data for name, (_, data) in here.manifests.get(repository, {}).items()}
        held.update(here.blobs.get(repository, {}))
        wanted, found = {digest(it): it.bytes for it in contents}, here.tags.get(repository, {})
        return first([
            None if held == wanted else "it has %d blobs and manifests, and not %d" % (len(held), len(wanted)),
            None if found == {name: digest(it) for name, it in tags.items()} else "its tags are %s" % found,
        ])


def pulled(content, planned, manifests, layers):
    """Return the lines of a pull into a new layout."""
    size = sum(len(it.bytes) for it in layers)
    counts = planned, planned, manifests, len(layers), size
    return "copied %s\n" % key(content) + "planned %d pushed %d skipped 0\nmanifests %d fetched %d bytes %d\n" % counts


def pushed(contents, planned, uploaded, mounted=0, size=0):
    counts = planned, uploaded, mounted, planned - uploaded - mounted, size
    return "".join("copied %s\n" % key(it) for it in contents) + "planned %d pushed %d mounted %d skipped %d bytes %d\n" % counts


LAYERS = [E, FOO, BIG, BAR]


def a_pull(room):
    with Here(room, "pull") as here:
        yield "a pull", first([here.wrong("pull HOST/some/image:v1 layout", pulled(LIST, 7, 3, LAYERS), asked=[("/blobs/", 4), ("GET", 7)]),
                               here.wrong_layout(IMAGES, {"v1": LIST})])
        again = "copied %s\nplanned 0 pushed 0 skipped 1\nmanifests 3 fetched 0 bytes 0\n" % key(LIST)
        wrong = here.wrong("pull HOST/some/image:v1 layout:docker.io/a:b", again, asked=[("/blobs/", 0), ("/manifests/", 3), ("GET", 3)])
        yield "a second pull fetches manifests alone", wrong or here.wrong_layout(IMAGES, {"v1": LIST, "docker.io/a:b": LIST})
        ended = here.run("pull --json HOST/some/image@%s as_json" % digest(ONE))
        one = json.loads(descriptor(ONE))
        value = {"copied": [{"tag": digest(ONE), "descriptor": one}], "planned": 4, "pushed": 4, "skipped": 0, "manifests": 1, "fetched": 3}
        value["bytes"] = sum(len(it.bytes) for it in LAYERS[:3])
        yield "--json, by a digest", None if ended[:3] == (0, json.dumps(value, separators=(",", ":")) + "\n", "") else told(ended)
        ended = here.run("pull --progress HOST/some/image:one listed")
        lines = sorted("fetched %s" % key(it) for it in LAYERS[:3]) + sorted("pushed %s" % key(it) for it in [*LAYERS[:3], ONE])
        yield "--progress", None if ended.status == 0 and sorted(ended.err.splitlines()) == lines else told(ended)
        words = here.words("pull HOST/some/image:v1 shown")
        status, text = run_on_terminal(words, here.room, program=HELPER, env=here.environment())
        # (the copy then draws lines of its own)
        is_right = status == 0 and LINE.match(text) and text.endswith(ERASURE) and not LINE.sub("", text).replace(ERASURE, "")
        yield "a line on a terminal", None if is_right else "status %d, %r" % (status, text)


def a_platform(room):
    with Here(room, "platform") as here:
        asked = [("/manifests/", 2), ("/blobs/", 2)]
        wrong = here.wrong("pull --platform linux/arm64 HOST/some/image:v1 layout", pulled(TWO, 3, 2, [E, BAR]), asked=asked)
        yield "--platform", wrong or here.wrong_layout([E, BAR, TWO], {"v1": TWO})
        line = "ocicp: 107 NoPlatform plan9/arm64 linux/amd64 linux/arm64\n"
        yield "no such platform", here.wrong_refusal("pull --platform plan9/arm64 HOST/some/image:v1 new", line)
        yield "no index", here.wrong_refusal("pull --json --platform linux/arm64 HOST/some/image:one new", '{"error":[{"number":107,')


def referrers(room):
    tags, contents = {"v1": ONE, COSIGN_TAG: COSIGNED}, [E, FOO, BIG, BAR, ONE, *ATTACHED]
    for name, faults in ("api", {}), ("pages", {"page": 1}):
        with Here(room, name, contents, tags, **faults) as here:
            wrong = here.wrong("pull HOST/some/image:v1 plain") or here.wrong_layout([E, FOO, BIG, ONE], {"v1": ONE}, "plain")
            yield "without --referrers, " + name, wrong
            yield "--referrers, " + name, here.wrong("pull --referrers HOST/some/image:v1 layout") or here.wrong_layout(contents, tags)
    tags, contents = {**tags, **LIST_TAGS}, [*contents, OF_ONE, OF_SIGNATURE]
    with Here(room, "tags", contents, tags, has_referrers=False) as here:
        wrong = here.wrong("pull --referrers HOST/some/image:v1 layout", asked=[("/referrers/", 1)])
        yield "--referrers without the API", wrong or here.wrong_layout(contents, tags)
    harmful = dict(json.loads(descriptor(TWO)), annotations={"org.opencontainers.image.ref.name": "v1"})
    with Here(room, "harmful", [*IMAGES, SIGNATURE], {"v1": ONE}, more_referrers=[harmful]) as here:
        wrong = here.wrong("pull --referrers HOST/some/image:v1 layout")
        yield "a referrer that claims the tag", wrong or here.wrong_layout([E, FOO, BIG, ONE, SIGNATURE], {"v1": ONE})


def changed_bytes(room):
    for name, content in ("layer", BIG), ("small layer", FOO), ("manifest", ONE), ("index", LIST):
        with Here(room, "changed_" + name.replace(" ", "_"), changed=digest(content)) as here:
            write_layout(here.room + "/layout", [E, BAR, TWO], {"v1": TWO})
            line = "ocicp-registry: %s/some/image: the bytes of the " % here.registry.host()
            wrong = here.wrong_refusal("pull HOST/some/image:v1 layout", line)
            yield "another byte in the " + name, wrong or here.wrong_layout([E, BAR, TWO], {"v1": TWO})


def cut_answers(room):
    image_one = [E, FOO, BIG, ONE], {"one": ONE}
    with Here(room, "cut", cuts=[10, 3 << 18, 0, 5]) as here:
        wrong = here.wrong("pull --tries 4 HOST/some/image:one layout", pulled(ONE, 4, 1, LAYERS[:3])) or here.wrong_layout(*image_one)
        ranges = [it.headers["Range"] for it in here.registry.asked("GET", digits(BIG)) if "Range" in it.headers]
        yield "cut answers", wrong or (None if ranges else "no Range is asked for")
    with Here(room, "whole", cuts=[1, 1, 3 << 18], has_ranges=False) as here:
        yield "a registry without ranges", here.wrong("pull HOST/some/image:one layout") or here.wrong_layout(*image_one)
    for name, size in ("gone", 1), ("never_more", 3 << 18):
        with Here(room, name, cuts=[size] * 100, has_ranges=False) as here:
            wrong = here.wrong_refusal("pull --tries 2 HOST/some/image:one layout", "broke off", seconds=SOON)
            yield "answers that are always cut after %d bytes" % size, wrong


def wrong_tokens(here, words):
    """Return the problem with a run by a token. The credentials are to go to the token service alone."""
    wrong = here.wrong(words)
    bare = [it for it in here.registry.requests if (it.headers.get("Authorization") or "").startswith("Basic") and it.path != "/token"]
    abroad = [it for it in here.registry.requests if it.host == 1 and "Authorization" in it.headers]
    return wrong or first(["%s %s has the password" % it[1:3] for it in bare] + ["%s %s has credentials" % it[1:3] for it in abroad])


def credentials(room):
    for scheme in "basic", "bearer":
        with Here(room, scheme, scheme=scheme) as here:
            yield scheme + ", without credentials", here.wrong_refusal("pull HOST/some/image:v1 layout", "/some/image: ")
            here.log_in({"auths": {"http://%s/v2/" % here.registry.host(): USER}})
            yield scheme, here.wrong("pull HOST/some/image:v1 layout") or here.wrong_layout(IMAGES, {"v1": LIST})
            here.log_in({"auths": {here.registry.host(): {"auth": "dXNlcjpvdGhlcg=="}}})
            yield scheme + ", with another password", here.wrong_refusal("pull HOST/some/image:v1 layout", "401")
            here.log_in({"auths": {"elsewhere.example": USER}})
            yield scheme + ", with those of another host", here.wrong_refusal("pull HOST/some/image:v1 layout", "/some/image: ")
            yield scheme + ", the other host is not asked", "it is" if here.registry.asked("GET", "elsewhere") else None
    with Here(room, "expired", scheme="bearer", uses=3) as here:
        here.log_in({"auths": {here.registry.host(): USER}})
        yield "tokens that expire", wrong_tokens(here, "pull HOST/some/image:v1 layout") or here.wrong_layout(IMAGES, {"v1": LIST})
        yield "a push with tokens", wrong_tokens(here, "push layout:v1 HOST/new:v1") or here.wrong_registry(IMAGES, {"v1": LIST})
    with Here(room, "identity", scheme="bearer") as here:
        here.log_in({"auths": {here.registry.host(): {"identitytoken": "secret"}}})
        yield "an identity token", wrong_tokens(here, "pull HOST/some/image:v1 layout")
    with Here(room, "helper", scheme="bearer") as here:
        for host, err in (here.registry.host(), ""), ("nowhere", "/some/image: "):
            write_helper(here.room + "/docker/docker-credential-some", host)
            here.log_in({"credHelpers": {here.registry.host(): "some"}})
            words = "pull HOST/some/image:v1 layout"
            wrong = here.wrong_refusal(words, err) if err else here.wrong(words)
            yield "a credential helper for " + (host if err else "the host"), wrong
        here.log_in({"credsStore": "missing"})
        yield "a credential helper that is missing", here.wrong_refusal("pull HOST/some/image:v1 layout", "docker-credential-missing: ")
        with open(here.room + "/docker/config.json", "w") as file:
            file.write("[")
        yield "an unreadable configuration", here.wrong_refusal("pull HOST/some/image:v1 layout", "config.json")


def write_helper(path, host):
    answer = json.dumps({"ServerURL": host, "Username": "user", "Secret": "secret"})
    lines = ["#!/bin/sh", "read -r host", "[ \"$host\" = %s ] || { echo 'credentials not found'; exit 1; }" % host, "echo '%s'" % answer]
    with open(path, "w") as file:
        file.write("\n".join([*lines, ""]))
    os.chmod(path, 0o755)


def busy(room):
    with Here(room, "busy", busy=3, after={"Retry-After": "1"}) as here:
        wrong = here.wrong("pull HOST/some/image:v1 layout") or here.wrong_layout(IMAGES, {"v1": LIST})
        times = [it.time for it in here.registry.requests[:4]]
        yield "429", wrong or first("it waits %.1f s" % (end - begin) for begin, end in zip(times, times[1:]) if end - begin < 1)
    with Here(room, "failing", busy=100, status=503) as here:
        yield "--tries, 503", here.wrong_refusal("pull --tries 2 HOST/some/image:v1 layout", "503")
        begin, end = here.registry.requests[0].time, here.registry.requests[-1].time
        yield "two requests, with a pause", None if len(here.registry.requests) == 2 and end - begin >= 0.5 else "%.1f s" % (end - begin)


def redirects(room):
    with Here(room, "moved", scheme="bearer") as here:
        here.registry.faults.moved = lambda it: here.registry.url("/cdn/" + it, 1)
        here.log_in({"auths": {here.registry.host(): USER}})
        wrong = wrong_tokens(here, "pull HOST/some/image:v1 layout") or here.wrong_layout(IMAGES, {"v1": LIST})
        followed = [it for it in here.registry.requests if it.host == 1]
        yield "a redirect to another host", wrong or (None if len(followed) == 4 else "it is not followed")
    for name, place, err in [
        ("to itself", lambda it: "/v2/some/image/blobs/" + it, "more than 8 redirects"),
        ("to a file", lambda it: "file:///etc/passwd", "is not https"),
        ("to nowhere", lambda it: "http://[", "http://[ is not https"),
        ("into a header", lambda it: "http://127.0.0.1:1/a b", "/some/image: "),
    ]:
        with Here(room, "moved_" + name.replace(" ", "_"), moved=place) as here:
            yield "a redirect " + name, here.wrong_refusal("pull --tries 1 HOST/some/image:v1 layout", err)


def slow(room):
    for name, faults in ("header", {"slow_header": 0.3}), ("body", {"slow_body": 0.3}):
        with Here(room, "slow_" + name, **faults) as here:
            words = "pull --timeout 1 --tries 1 HOST/some/image:v1 layout"
            yield "--timeout, a slow %s" % name, here.wrong_refusal(words, "/some/image: ", seconds=SOON)
    for number in signal.SIGINT, signal.SIGTERM:
        with Here(room, "signal_%d" % number, slow_header=0.002, slow_body=0.01) as here:
            write_layout(here.room + "/layout", [E, BAR, TWO], {"v1": TWO})
            words = [HELPER, *here.words("pull HOST/some/image:one layout")]
            process = subprocess.Popen(words, cwd=here.room, env=here.environment(), stdout=subprocess.PIPE, stderr=subprocess.STDOUT)
            end = time.monotonic() + SECONDS
            while not here.registry.asked("GET", digits(BIG)) and time.monotonic() < end:
                time.sleep(0.05)
            was_there = bool(here.left())
            process.send_signal(number)
            out, began = process.communicate(timeout=SECONDS)[0], time.monotonic()
            found = process.returncode, out, was_there
            wrong = None if found == (-number, b"", True) and time.monotonic() - began < SOON else "%r" % (found,)
            yield "ended by signal %d" % number, wrong or here.wrong_layout([E, BAR, TWO], {"v1": TWO})


def harmful_manifests(room):
    def listing(**members):
        return json.dumps({"schemaVersion": 2, "config": json.loads(descriptor(E)),
                           "layers": [dict({"mediaType": LAYER, "digest": digest(FOO), "size": 3}, **members)]}).encode()
    for name, data, err in [
        ("path", listing(digest="sha256:../../../escaped"), "no descriptor"), ("negative", listing(size=-1), "no descriptor"),
        ("text", listing(size="3"), "no descriptor"), ("large_size", listing(size=(1 << 63) - 1), "File too large"),
        ("other_size", listing(size=4), "broke off"), ("nested", b"[" * 100000, "no JSON object"), ("list", b"[]", "no JSON object"),
        ("too_large", b'{"layers":[]}' + b" " * (4 << 20), "more than 4194304 bytes"),
        ("other_type", b'{"mediaType":"a/b"}', "has the type a/b"), ("ambiguous", b'{"mediaType":"%s"}' % INDEX.encode(), "has the type"),
        ("missing", listing(mediaType=IMAGE, digest="sha256:" + "0" * 64), "no manifest"),
    ]:
        bad = Content(IMAGE, data)
        with Here(room, name, [E, FOO, bad], {"v1": bad}) as here:
            wrong = here.wrong_refusal("pull --tries 1 HOST/some/image:v1 layout", err)
            yield "a harmful manifest, " + name, wrong or (None if not os.path.exists(room + "/escaped") else "it wrote elsewhere")


def refused_pulls(room):
    with Here(room, "refused") as here:
        yield "no such tag", here.wrong_refusal("pull HOST/some/image:v9 layout", "there is no manifest v9")
        yield "no such repository", here.wrong_refusal("pull --json HOST/some/other:v1 layout", '{"error":[{"name":"Registry","text":"')
        yield "no folder for the layout", here.wrong_refusal("pull HOST/some/image:v1 none/layout", "No such file or directory")
        write_layout(here.room + "/layout", IMAGES, {"v1": LIST})
        os.remove("%s/layout/%s" % (here.room, blob(BIG)))
        before = len(here.registry.requests)
        wrong = here.wrong_refusal("pull HOST/some/image:v1 layout:new", "ocicp: 80 DestinationOpen %s %s\n" % (key(ONE), key(BIG)))
        fetched = [it for it in here.registry.requests[before:] if "/blobs/" in it.path]
        yield "a layout that lost a layer", wrong or ("blobs are fetched" if fetched else None)
        here.flags, before = [], len(here.registry.requests)
        wrong = here.wrong_refusal("pull --tries 1 HOST/some/image:v1 other", "/some/image: ")
        yield "without --plain-http", wrong or ("it sends requests" if len(here.registry.requests) > before else None)
        for words in [
            "", "pull HOST/some/image layout", "pull HOST/some/image:v1 layout@" + digest(FOO), "pull HOST/Some:v1 layout",
            "tags HOST/some:v1", "pull --timeout 0 HOST/some/image:v1 layout", "pull HOST/../x:v1 layout",
            "pull --referrer HOST/some/image:v1 layout",
            "push layout HOST/new:v1", "push layout:v1 HOST/new", "push --from A layout:v1 HOST/new:v1",
        ]:
            yield "an invalid command line: " + words, here.wrong_refusal(words, "usage: ", 2)


def secure(room):
    """Check TLS, with a certificate that only --tls-ca makes a good one."""
    words = "openssl req -x509 -newkey rsa:2048 -nodes -keyout key -out cert -days 2 -subj /CN=test -addext subjectAltName=IP:127.0.0.1"
    subprocess.run(words.split(" "), cwd=room, stdout=subprocess.DEVNULL, stderr=subprocess.DEVNULL, timeout=SECONDS, check=True)
    context = ssl.SSLContext(ssl.PROTOCOL_TLS_SERVER)
    context.load_cert_chain(room + "/cert", room + "/key")
    with Here(room, "secure", context=context) as here:
        here.flags = []
        yield "an unknown certificate", here.wrong_refusal("pull HOST/some/image:v1 layout", "certificate verify failed")
        yield "--tls-ca", here.wrong("pull --tls-ca ../cert HOST/some/image:v1 layout") or here.wrong_layout(IMAGES, {"v1": LIST})
        here.registry.faults.moved = lambda it: here.registry.url("/cdn/" + it, 1)
        yield "a redirect to plain HTTP", here.wrong_refusal("pull --tls-ca ../cert HOST/some/image:v1 other", "is not https")
        yield "a missing file of certificates", here.wrong_refusal("pull --tls-ca none HOST/some/image:v1 other", "none: No such file")


def a_push(room):
    size = sum(len(it.bytes) for it in IMAGES)
    for place in None, "relative", "elsewhere":
        with Here(room, "push_%s" % place, location=place) as here:
            write_layout(here.room + "/layout", [*IMAGES, SIGNATURE], {"v1": LIST}, [SIGNATURE])
            wrong = here.wrong("push layout:v1 HOST/new:v2", pushed([LIST], 7, 7, size=size)) or here.wrong_registry(IMAGES, {"v2": LIST})
            last = here.registry.requests[-1][1:3]
            wrong = wrong or (None if last == ("PUT", "/v2/new/manifests/v2") else "the last request is %s %s" % last)
            yield "a push, uploads %s" % place, wrong
            asked = [("POST", 0), ("HEAD", 7), ("PUT", 1)]
            wrong = here.wrong("push layout:v1 HOST/new:v3", pushed([LIST], 7, 0), asked=asked)
            yield "a second push", wrong or here.wrong_registry(IMAGES, {"v2": LIST, "v3": LIST})


def more_pushes(room):
    with Here(room, "mount") as here:
        write_layout(here.room + "/layout", IMAGES, {"v1": LIST})
        wrong = here.wrong("push --from some/image layout:v1 HOST/new:v1", asked=[("POST", 4), ("PUT /v2/new/blobs", 0)])
        yield "--from", wrong or here.wrong_registry(IMAGES, {"v1": LIST})
        ended = here.run("push --json --progress --from some/image layout@%s HOST/third:v1" % digest(TWO))
        counts = {"planned": 3, "pushed": 1, "mounted": 2, "skipped": 0, "bytes": len(TWO.bytes)}
        value = {"copied": [{"tag": "v1", "descriptor": json.loads(descriptor(TWO))}], **counts}
        lines = sorted("pushed " + key(it) for it in [E, BAR, TWO])
        right = ended.status == 0 and json.loads(ended.out) == value and sorted(ended.err.splitlines()) == lines
        yield "--json and --progress", None if right else told(ended)
        pack(here.room + "/layout.tar", here.room + "/layout", ["."], tarfile.GNU_FORMAT)
        wrong = here.wrong("push --from some/nothing layout.tar:v1 HOST/fourth:v1", asked=[("PUT /v2/fourth/blobs", 4)])
        yield "a push from an archive, and no such blobs in --from", wrong or here.wrong_registry(IMAGES, {"v1": LIST}, "fourth")
        yield "a push of a layer", here.wrong_refusal("push layout@%s HOST/fifth:v1" % digest(FOO), "is no manifest")
        yield "a push of a missing tag", here.wrong_refusal("push layout:v2 HOST/fifth:v1", "ocicp: 36 UnknownReference\n")
        shutil.copy(here.room + "/layout/" + blob(ONE), "%s/layout/%s" % (here.room, blob(TWO)))
        line = "ocicp: 75 Corrupt %s\n" % key(TWO)
        yield "a push with a damaged manifest", here.wrong_refusal("push layout:v1 HOST/fifth:v1", line)
    # (`ocicp cat` writes a part of a blob of more than 4 MiB before it has checked all of it)
    huge = Content(LAYER, bytes(5 * MEGABYTE))
    with Here(room, "damaged", is_credulous=True) as here:
        write_layout(here.room + "/layout", [E, huge, image([huge])], {"v1": image([huge])})
        with open("%s/layout/%s" % (here.room, blob(huge)), "r+b") as file:
            file.write(b"x")
        wrong = here.wrong_refusal("push layout:v1 HOST/new:v1", "ocicp: 88 Fetch %s 21 Corrupt\n" % key(huge))
        # (it may still read what it was sent)
        time.sleep(1)
        there = digest(huge) in here.registry.blobs.get("new", {}) or here.registry.manifests.get("new")
        yield "a push of a damaged layer", wrong or ("the registry has it" if there else None)
    with Here(room, "failing", busy=2, status=502) as here:
        write_layout(here.room + "/layout", IMAGES, {"v1": LIST})
        yield "502", here.wrong("push layout:v1 HOST/new:v1") or here.wrong_registry(IMAGES, {"v1": LIST})
    with Here(room, "strange", location="file:///etc/passwd") as here:
        write_layout(here.room + "/layout", IMAGES, {"v1": LIST})
        yield "uploads into a file", here.wrong_refusal("push layout:v1 HOST/new:v1", "is not https")


def pushed_referrers(room):
    contents, tags = [E, FOO, BIG, BAR, ONE, *ATTACHED], {"v1": ONE, COSIGN_TAG: COSIGNED}
    with Here(room, "attach") as here:
        write_layout(here.room + "/layout", contents, tags, [SIGNATURE, SBOM])
        yield "a push without --referrers", here.wrong("push layout:v1 HOST/new:v1") or here.wrong_registry([E, FOO, BIG, ONE], {"v1": ONE})
        size = sum(len(it.bytes) for it in [BAR, *ATTACHED])
        wrong = here.wrong("push --referrers layout:v1 HOST/new:v2", pushed([ONE, COSIGNED], 8, 4, 0, size))
        yield "a push --referrers", wrong or here.wrong_registry(contents, {"v1": ONE, "v2": ONE, COSIGN_TAG: COSIGNED})
    with Here(room, "lists", has_referrers=False) as here:
        write_layout(here.room + "/layout", contents, tags, [SIGNATURE, SBOM])
        other = image([], subject=ONE, number=9)
        here.registry.hold("new", [E, FOO, BIG, ONE, other, index([other])], {"sha256-" + digits(ONE): index([other])})
        yield "a push to a registry without the API", here.wrong("push --referrers layout:v1 HOST/new:v1") or wrong_lists(here, other)
        asked = [("POST", 0), ("PUT", 2)]
        yield "the same push again", here.wrong("push --referrers layout:v1 HOST/new:v1", asked=asked) or wrong_lists(here, other)
        wrong = here.wrong("pull --referrers HOST/new:v1 back") or here.wrong("pull --referrers HOST/new:v1 layout")
        wrong = wrong or here.wrong("push --referrers back:v1 HOST/back:v1") or same_tags(here, "new", "back")
        yield "what was pushed can be pulled", wrong


def wrong_lists(here, other):
    """Return the problem with the lists of referrers of a registry that keeps none itself. An entry of somebody else is to stay."""
    tags, held = here.registry.tags["new"], here.registry.manifests["new"]
    for content, wanted in (ONE, [other, SIGNATURE]), (SIGNATURE, [SBOM]):
        media_type, data = held[tags["sha256-" + digits(content)]]
        found = {it["digest"]: it.get("artifactType") for it in json.loads(data)["manifests"]}
        types = {digest(it): json.loads(it.bytes).get("artifactType") for it in wanted}
        if media_type != INDEX or found != types:
            return "the list of %s is %s" % (digits(content), found)
    return None if tags.get(COSIGN_TAG) == digest(COSIGNED) and tags.get("v1") == digest(ONE) else "the tags are %s" % tags


def same_tags(here, one, other):
    tags = here.registry.tags
    return None if tags[one] == tags[other] else "the tags are %s, and not %s" % (tags[other], tags[one])


def found_programs(room):
    """Check where `ocicp` is found: in the variable OCICP, beside the file, and in PATH."""
    with Here(room, "found") as here:
        for place in "python", "path", "beside", "apart":
            os.mkdir("%s/%s" % (here.room, place))
        os.symlink(sys.executable, here.room + "/python/python3")
        for place in "path", "beside":
            os.symlink(PROGRAM, "%s/%s/ocicp" % (here.room, place))
        for place in "beside", "apart":
            shutil.copy(HELPER, "%s/%s" % (here.room, place))
        for number, (place, path, program, status, err) in enumerate([
            ("apart", "", PROGRAM, 0, ""), ("beside", "", "", 0, ""), ("apart", ":%s/path" % here.room, "", 0, ""),
            ("apart", "", "", 1, "ocicp-registry: there is no ocicp: "), ("beside", "", here.room + "/none", 1, "/none: No such file"),
        ]):
            environment = dict(here.environment(), OCICP=program, PATH="%s/python%s" % (here.room, path))
            words = here.words("pull HOST/some/image:v1 layout%d" % number)
            ended = run(words, here.room, program="%s/%s/ocicp-registry" % (here.room, place), env=environment)
            yield "ocicp found, %d" % number, None if ended.status == status and err in ended.err else told(ended)


def listed_tags(room):
    with Here(room, "list", page=1) as here:
        yield "tags, by pages", here.wrong("tags HOST/some/image", "one\nv1\n")
        yield "tags --json", here.wrong("tags --json HOST/some/image", '{"tags":["one","v1"]}\n')
    with Here(room, "bad", more_tags=["a\x1b[31m"]) as here:
        yield "tags that are none", here.wrong_refusal("tags HOST/some/image", "has something that is no tag")


def checks(room):
    # (a process in the background may ignore this signal, and what it starts does then too)
    signal.signal(signal.SIGINT, signal.default_int_handler)
    groups = [a_pull, a_platform, referrers, changed_bytes, cut_answers, credentials, busy, redirects, slow, harmful_manifests]
    groups += [refused_pulls, a_push, more_pushes, pushed_referrers, found_programs, listed_tags]
    groups += [secure] if shutil.which("openssl") else []
    with ThreadPoolExecutor(AT_ONCE) as pool:
        folders = ["%s/%s" % (room, group.__name__) for group in groups]
        for folder in folders:
            os.mkdir(folder)
        for found in pool.map(lambda group, folder: list(group(folder)), groups, folders):
            yield from found
