"""Contents of images and indexes, and image layouts that hold them."""
import hashlib
import json
import os
from collections import namedtuple

EMPTY = "application/vnd.oci.empty.v1+json"
LAYER = "application/vnd.oci.image.layer.v1.tar"
IMAGE = "application/vnd.oci.image.manifest.v1+json"
INDEX = "application/vnd.oci.image.index.v1+json"
ARTIFACT = "application/vnd.oci.artifact.manifest.v1+json"
DOCKER_IMAGE = "application/vnd.docker.distribution.manifest.v2+json"
DOCKER_LIST = "application/vnd.docker.distribution.manifest.list.v2+json"
NAME = "org.opencontainers.image.ref.name"

# The last is the algorithm of the digest that it is listed by.
Content = namedtuple("Content", "media_type bytes algorithm", defaults=["sha256"])


def digits(content):
    return hashlib.new(content.algorithm, content.bytes).hexdigest()


def key(content):
    """Return the text of a content's key, as the program prints it."""
    return "%s:%s %d %s" % (content.algorithm, digits(content), len(content.bytes), content.media_type)


def descriptor(content):
    return '{"mediaType":"%s","digest":"%s:%s","size":%d}' % (
        content.media_type, content.algorithm, digits(content), len(content.bytes))


def listing(contents):
    return "[%s]" % ",".join(map(descriptor, contents))


def image(layers, subject=None, number=None, artifact_type=None):
    """Return an image with an empty config. A number tells it from other images of the same layers."""
    text = '{"schemaVersion":2,"mediaType":"%s","config":%s,"layers":%s' % (IMAGE, descriptor(E), listing(layers))
    text += ',"subject":' + descriptor(subject) if subject else ""
    text += ',"annotations":{"number":"%d"}' % number if number is not None else ""
    text += ',"artifactType":"%s"' % artifact_type if artifact_type else ""
    return Content(IMAGE, (text + "}").encode())


def index(contents, subject=None):
    text = '{"schemaVersion":2,"manifests":%s' % listing(contents)
    return Content(INDEX, (text + (',"subject":' + descriptor(subject) if subject else "") + "}").encode())


def wide_index(count):
    """Return this number of layers, and an index of them."""
    layers = [Content(LAYER, b"%d" % number) for number in range(count)]
    return [*layers, index(layers)]


def chain(count):
    """Return an empty config and this number of images, each with the one before as its subject."""
    contents = [E, image([])]
    for _ in range(count - 1):
        contents.append(image([], subject=contents[-1]))
    return contents


def signed_images(count):
    """Return this number of images, each with a layer and two signatures. The last content is an image."""
    contents = [E]
    for number in range(count):
        layers = [Content(LAYER, b"%d %d" % (number, place)) for place in range(3)]
        signed = image(layers[:1])
        contents += [*layers, *(image([layer], subject=signed) for layer in layers[1:]), signed]
    return contents


E = Content(EMPTY, b"{}")
FOO = Content(LAYER, b"foo")
BAR = Content(LAYER, b"bar")
M2 = image([FOO])
M3 = image([FOO, BAR])
S = image([], subject=M2)
I1 = index([M2, M3])
I3 = index([M2])
I4 = index([I3])


def blob(content):
    """Return the path of a content's file in a layout."""
    return "blobs/%s/%s" % (content.algorithm, digits(content))


def write_items(folder, contents):
    """Write each content into a file of its own, and return the items of `ocicp mem` that name these files."""
    for number, content in enumerate(contents):
        with open("%s/%d" % (folder, number), "wb") as file:
            file.write(content.bytes)
    return ["%s=%d" % (content.media_type, number) for number, content in enumerate(contents)]


def write_layout(folder, contents, names, untagged=()):
    """Write a layout that holds these contents. `names` has the content of each tag, and `untagged` the entries without a tag."""
    os.makedirs(folder + "/blobs/sha256")
    for content in contents:
        os.makedirs("%s/blobs/%s" % (folder, content.algorithm), exist_ok=True)
        with open("%s/%s" % (folder, blob(content)), "wb") as file:
            file.write(content.bytes)
    entries = [dict(json.loads(descriptor(content)), annotations={NAME: name}) for name, content in names.items()]
    entries += [json.loads(descriptor(content)) for content in untagged]
    with open(folder + "/index.json", "w") as file:
        json.dump({"schemaVersion": 2, "manifests": entries}, file)
    with open(folder + "/oci-layout", "w") as file:
        json.dump({"imageLayoutVersion": "1.0.0"}, file)
