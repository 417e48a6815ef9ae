"""SVG and HTML as trees of elements, read alike and strictly: no end tag and no quote may be left out."""

import re
from html import unescape

EMPTY = ("meta", "input")
TOKEN = re.compile(
    r'<!DOCTYPE html>|<(?P<end>/)?(?P<tag>\w+)(?P<attributes>(?: [\w-]+="[^"<]*")*)(?P<empty>/)?>|(?P<text>[^<]+)'
)
ATTRIBUTE = re.compile(r' ([\w-]+)="([^"<]*)"')


class Node:
    """An element: its tag, its attributes, its elements, and the texts directly in it."""

    def __init__(self, tag, attributes):
        self.tag, self.attributes, self.nodes, self.texts = tag, dict(attributes), [], []

    def all(self, test):
        """Every element below that a test holds for, in the document's order."""
        found = []
        for node in self.nodes:
            if test(node):
                found.append(node)
            found += node.all(test)
        return found

    def tagged(self, tag):
        """Every element below with a tag."""
        return self.all(lambda node: node.tag == tag)

    def first(self, tag):
        """The first element below with a tag."""
        return self.tagged(tag)[0]

    def kinds(self):
        """The words of its class."""
        return (self.attributes.get("class") or "").split()

    def data(self, name):
        """What it stands for, by a name."""
        return self.attributes.get(f"data-{name}")

    def number(self, name):
        """A number that it stands for."""
        return int(self.data(name))

    def text(self):
        """All text in it."""
        return "".join(self.texts) + "".join(node.text() for node in self.nodes)

    def words(self):
        """The texts that are drawn in it directly."""
        return [node.text() for node in self.nodes if node.tag == "text"]


def elements_of(text):
    """The tags and texts of a document, one after the other; what is neither ends the run."""
    end = 0
    for token in TOKEN.finditer(text):
        if token.start() != end:
            break
        end = token.end()
        yield token
    if end != len(text):
        raise SystemExit(f"no element begins here: {text[end:end + 60]!r}")


def node_of(token):
    """The element that a tag begins."""
    return Node(token["tag"], [(name, unescape(value)) for name, value in ATTRIBUTE.findall(token["attributes"])])


def tree_of(text):
    """The tree of a document, each of whose elements is ended."""
    opened = [Node("", [])]
    for token in elements_of(text):
        if token["text"]:
            opened[-1].texts.append(unescape(token["text"]))
        elif token["end"]:
            if opened.pop().tag != token["tag"]:
                raise SystemExit(f"{token[0]} ends another element")
        elif token["tag"]:
            opened[-1].nodes.append(node_of(token))
            if not token["empty"] and token["tag"] not in EMPTY:
                opened.append(opened[-1].nodes[-1])
    if len(opened) != 1:
        raise SystemExit(f"<{opened[-1].tag}> isn't ended")
    return opened[0]
