"""A registry in memory, on loopback, that can be told to misbehave. It follows the OCI distribution specification 1.1, and is strict: it
takes no blob with another digest, and no manifest before all that it lists."""
import base64
import hashlib
import json
import re
import threading
import time
import urllib.parse
from collections import namedtuple
from http.server import BaseHTTPRequestHandler, ThreadingHTTPServer

from support.layouts import INDEX

# The longest body, in bytes, and the seconds that a connection may be idle.
MOST, SECONDS = 64 << 20, 20
MEMBERS = ("config", "layers", "manifests", "blobs")
PATH = re.compile(r"/v2/(.+?)/(?:(manifests|blobs|referrers)/([^/]+)|(tags)/list|blobs/(uploads)/(\w*))")
# `time` is in seconds, by the monotonic clock.
Request = namedtuple("Request", "host method path query headers time")
Reply = namedtuple("Reply", "status headers body", defaults=[{}, b""])


class Faults:
    """What a registry does otherwise than it should, or may do differently from others."""
    # The digest of a blob or manifest that is sent with another first byte.
    changed = None
    # The numbers of bytes after which one answer with a blob each is cut, the first ones first, and whether parts can be asked for.
    cuts, has_ranges = (), True
    # The scheme of the credentials, those of a user, and the number of requests for which a token is good.
    scheme, user, secret, uses = None, "user", "secret", 1000
    # The number of answers with this status that come before others, to requests for a blob or a manifest, and their headers.
    busy, status, after = 0, 429, {}
    # A function from a digest to the place to which a request for a blob is redirected.
    moved = None
    # The place of uploads: "relative", "elsewhere" for another host, or a text.
    location = None
    has_referrers, page = True, 1000
    # The seconds between two bytes of a header or of a body.
    slow_header = slow_body = 0
    # Descriptors that the list of referrers has besides, tags that do not exist, and whether uploads are believed.
    more_referrers, more_tags, is_credulous = (), (), False

    def __init__(self, **named):
        for name, value in named.items():
            getattr(self, name)
            setattr(self, name, value)


class Registry:
    """The contents of a registry, what was asked of it, and its servers: one for its own host, and one for another."""

    def __init__(self, faults=None, context=None):
        self.faults = faults or Faults()
        # By repository: blobs by digest, manifests by digest with their media types, and the digests of tags.
        self.blobs, self.manifests, self.tags = {}, {}, {}
        self.requests, self.tokens, self.uploads, self.turn = [], {}, 0, threading.RLock()
        self.servers = [Server(address, self, number) for number, address in enumerate(["127.0.0.1", "127.0.0.2"])]
        self.scheme = "https" if context else "http"
        if context:
            self.servers[0].socket = context.wrap_socket(self.servers[0].socket, server_side=True, do_handshake_on_connect=False)
        self.cuts = list(self.faults.cuts)

    def __enter__(self):
        for server in self.servers:
            threading.Thread(target=server.serve_forever, args=[0.05], daemon=True).start()
        return self

    def __exit__(self, *_):
        for server in self.servers:
            server.shutdown()
            server.server_close()

    def host(self, number=0):
        return "%s:%d" % self.servers[number].server_address

    def url(self, path, number=0):
        return "%s://%s%s" % (self.scheme if number == 0 else "http", self.host(number), path)

    def hold(self, repository, contents, tags):
        """Put contents into a repository, as `write_layout` does into a layout."""
        for it in contents:
            digest = "%s:%s" % (it.algorithm, hashlib.new(it.algorithm, it.bytes).hexdigest())
            if is_manifest(it.media_type):
                self.manifests.setdefault(repository, {})[digest] = (it.media_type, it.bytes)
            else:
                self.blobs.setdefault(repository, {})[digest] = it.bytes
            names = [name for name, tagged in tags.items() if tagged == it]
            self.tags.setdefault(repository, {}).update(dict.fromkeys(names, digest))

    def asked(self, method, part=""):
        """Return the requests with this method and this part in their paths."""
        return [it for it in self.requests if it.method == method and part in it.path]

    def answer(self, request, body):
        with self.turn:
            self.requests.append(request)
            if request.host == 1:
                return self.elsewhere(request, body)
            if request.path == "/token":
                return self.token(request, body)
            found = PATH.fullmatch(request.path)
            if not found:
                return refusal(404, "NAME_INVALID")
            repository, kind, name, tags, uploads, upload = found.groups()
            challenge = self.challenge(request, repository)
            if challenge:
                return Reply(401, {"WWW-Authenticate": challenge})
            if self.faults.busy > 0 and kind in ("manifests", "blobs"):
                self.faults.busy -= 1
                return Reply(self.faults.status, self.faults.after)
            return getattr(self, "on_%s" % (kind or tags or uploads))(request, repository, name or upload, body)

    def elsewhere(self, request, body):
        """Answer for the other host, which has the blobs of all repositories and takes uploads."""
        digest = request.path.rsplit("/", 1)[1]
        found = next((blobs[digest] for blobs in self.blobs.values() if digest in blobs), None)
        if request.method == "PUT":
            return self.on_uploads(request, "elsewhere", "1", body)
        return self.part(request, digest, found) if found is not None else refusal(404, "BLOB_UNKNOWN")

    def challenge(self, request, repository):
        """Return the challenge of a request without credentials that are good, or None."""
        sent = request.headers.get("Authorization")
        if self.faults.scheme == "basic" and sent != self.basic():
            return 'Basic realm="memory"'
        if self.faults.scheme == "bearer":
            rights = "pull" if request.method in ("GET", "HEAD") else "pull,push"
            scope = "repository:%s:%s" % (repository, rights)
            token = (sent or "").partition(" ")[2]
            uses, scopes = self.tokens.get(token, (0, ()))
            if uses <= 0 or scope not in scopes:
                return 'Bearer realm="%s",service="memory",scope="%s"' % (self.url("/token"), scope)
            self.tokens[token] = uses - 1, scopes

    def basic(self):
        return "Basic " + base64.b64encode(("%s:%s" % (self.faults.user, self.faults.secret)).encode()).decode()

    def token(self, request, body):
        form = urllib.parse.parse_qs(body.decode())
        is_known = request.headers.get("Authorization") == self.basic() or form.get("refresh_token") == [self.faults.secret]
        if not is_known:
            return refusal(401, "UNAUTHORIZED")
        scopes = " ".join(form.get("scope", []) or request.query.get("scope", [])).split()
        token = "token-%d" % len(self.tokens)
        self.tokens[token] = self.faults.uses, scopes
        return document({"token": token})

    def on_manifests(self, request, repository, name, body):
        held, tags = self.manifests.setdefault(repository, {}), self.tags.setdefault(repository, {})
        if request.method == "PUT":
            digest = "sha256:" + hashlib.sha256(body).hexdigest()
            if ":" in name and name != digest:
                return refusal(400, "DIGEST_INVALID")
            if self.lacks(repository, json.loads(body)):
                return refusal(400, "MANIFEST_BLOB_UNKNOWN")
            held[digest] = request.headers["Content-Type"], body
            if ":" not in name:
                tags[name] = digest
            return Reply(201, {"Location": request.path})
        digest = tags.get(name, name)
        if digest not in held:
            return refusal(404, "MANIFEST_UNKNOWN")
        media_type, data = held[digest]
        return Reply(200, {"Content-Type": media_type, "Docker-Content-Digest": digest}, self.sent(digest, data))

    def lacks(self, repository, content):
        """Return whether the repository lacks something that a manifest lists."""
        held = {**self.manifests.get(repository, {}), **self.blobs.get(repository, {})}
        listed = [it for name in MEMBERS for it in (content.get(name, []) if name != "config" else [content.get(name)])]
        return any(it and it["digest"] not in held for it in listed)

    def sent(self, digest, data):
        return bytes([data[0] ^ 1]) + data[1:] if digest == self.faults.changed else data

    def on_blobs(self, request, repository, digest, body):
        data = self.blobs.get(repository, {}).get(digest)
        if data is None:
            return refusal(404, "BLOB_UNKNOWN")
        if self.faults.moved and request.method == "GET":
            return Reply(307, {"Location": self.faults.moved(digest)})
        return self.part(request, digest, data)

    def part(self, request, digest, data):
        data, asked = self.sent(digest, data), re.fullmatch(r"bytes=(\d+)-", request.headers.get("Range", ""))
        if asked and self.faults.has_ranges:
            begin = int(asked[1])
            return Reply(206, {"Content-Range": "bytes %d-%d/%d" % (begin, len(data) - 1, len(data))}, data[begin:])
        return Reply(200, {"Content-Type": "application/octet-stream"}, data)

    def on_uploads(self, request, repository, upload, body):
        if request.method == "POST":
            mount, other = (request.query.get(name, [""])[0] for name in ("mount", "from"))
            if mount in self.blobs.get(other, {}):
                self.blobs.setdefault(repository, {})[mount] = self.blobs[other][mount]
                return Reply(201, {"Location": "/v2/%s/blobs/%s" % (repository, mount)})
            self.uploads += 1
            path = "/v2/%s/blobs/uploads/%d?state=a%%2Fb" % (repository, self.uploads)
            places = {None: self.url(path), "relative": path, "elsewhere": self.url(path, 1)}
            return Reply(202, {"Location": places.get(self.faults.location, self.faults.location)})
        digest = request.query.get("digest", [""])[0]
        if not self.faults.is_credulous and digest != "sha256:" + hashlib.sha256(body).hexdigest():
            return refusal(400, "DIGEST_INVALID")
        repository = re.match(r"/v2/(.+)/blobs/", request.path)[1]
        self.blobs.setdefault(repository, {})[digest] = body
        return Reply(201, {"Location": "/v2/%s/blobs/%s" % (repository, digest)})

    def on_referrers(self, request, repository, digest, body):
        if not self.faults.has_referrers:
            return refusal(404, "NOT_FOUND")
        found = [*self.faults.more_referrers]
        for name, (media_type, data) in self.manifests.get(repository, {}).items():
            if (json.loads(data).get("subject") or {}).get("digest") == digest:
                found.append({"mediaType": media_type, "digest": name, "size": len(data)})
        found, headers = self.page(request, found)
        return document({"schemaVersion": 2, "mediaType": INDEX, "manifests": found}, {**headers, "Content-Type": INDEX})

    def on_tags(self, request, repository, name, body):
        found, headers = self.page(request, sorted([*self.tags.get(repository, {}), *self.faults.more_tags]))
        return document({"name": repository, "tags": found}, headers)

    def page(self, request, items):
        """Return the items of a page, and the header that leads to the next one."""
        begin = int(request.query.get("begin", ["0"])[0])
        end = begin + self.faults.page
        return items[begin:end], {"Link": '<%s?begin=%d>; rel="next"' % (request.path, end)} if end < len(items) else {}

    def next_cut(self, request):
        """Return the number of bytes after which the answer to a request is to be cut, or None."""
        with self.turn:
            return self.cuts.pop(0) if self.cuts and request.method == "GET" and "/blobs/" in request.path else None


def is_manifest(media_type):
    return "manifest" in media_type or "index" in media_type


def document(value, headers={}):
    return Reply(200, {"Content-Type": "application/json", **headers}, json.dumps(value).encode())


def refusal(status, code):
    return Reply(status, {"Content-Type": "application/json"}, json.dumps({"errors": [{"code": code, "message": "refused"}]}).encode())


class Server(ThreadingHTTPServer):
    daemon_threads, block_on_close = True, False

    def __init__(self, address, registry, number):
        super().__init__((address, 0), Handler)
        self.registry, self.number = registry, number

    def handle_error(self, request, client_address):
        """Pass over a connection that the other side has ended."""


class Handler(BaseHTTPRequestHandler):
    """Reads requests, and writes the replies of the registry with the faults of the line."""
    protocol_version, timeout = "HTTP/1.1", SECONDS

    def log_message(self, *_):
        pass

    def serve(self):
        registry, length = self.server.registry, int(self.headers.get("Content-Length", "0"))
        if length > MOST:
            return self.send_error(413)
        body = self.rfile.read(length)
        self.close_connection = True
        if len(body) < length:
            return None
        path, _, query = self.path.partition("?")
        request = Request(self.server.number, self.command, path, urllib.parse.parse_qs(query), dict(self.headers), time.monotonic())
        self.write(registry.answer(request, body), registry.faults, registry.next_cut(request))

    do_GET = do_HEAD = do_POST = do_PUT = serve

    def write(self, reply, faults, cut):
        lines = ["HTTP/1.1 %d Said" % reply.status, "Content-Length: %d" % len(reply.body)]
        lines += ["%s: %s" % it for it in reply.headers.items()]
        self.trickle("\r\n".join([*lines, "", ""]).encode(), faults.slow_header)
        if self.command != "HEAD":
            self.trickle(reply.body[:cut], faults.slow_body)

    def trickle(self, data, seconds):
        """Write bytes, one at a time if the line is slow, for a bounded time."""
        end = time.monotonic() + SECONDS
        while seconds and data and time.monotonic() < end:
            self.wfile.write(data[:1])
            data = data[1:]
            time.sleep(seconds)
        self.wfile.write(data)
