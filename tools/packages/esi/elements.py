"""XML as a tree of elements with lines. A document type, by which entities come, is refused, and so is what is huge."""

from collections.abc import Iterator
from dataclasses import dataclass, field
from xml.parsers import expat

from projects.faults import Refusal

LONGEST = 64 * 1024 * 1024
DEEPEST = 100


class XmlFault(Refusal):
    """Why a file is no tree of elements, by a kind that stays the same, with the line."""

    def __init__(self, kind: str, line: int, words: str) -> None:
        super().__init__(f"line {line}: {kind}: {words}")


@dataclass
class Element:
    """An element: its tag, its attributes, the text before its first element, its elements, and its line."""

    tag: str
    attributes: dict[str, str]
    line: int
    text: str = ""
    elements: "list[Element]" = field(default_factory=list)

    def all(self, tag: str) -> "Iterator[Element]":
        """The elements with a tag directly in it."""
        return (element for element in self.elements if element.tag == tag)

    def first(self, *path: str) -> "Element | None":
        """The first element along a path of tags."""
        found: Element | None = self
        for tag in path:
            found = next(found.all(tag), None) if found else None
        return found

    def words(self, *path: str) -> str:
        """The text of the first element along a path, without blanks at its ends; empty where there is none."""
        found = self.first(*path)
        return found.text.strip() if found else ""


class TreeMaker:
    """Makes the tree of a document while it is read."""

    def __init__(self) -> None:
        self.parser = expat.ParserCreate()
        self.parser.buffer_text = True
        self.parser.StartDoctypeDeclHandler = self.refuse_document_type
        self.parser.StartElementHandler = self.open
        self.parser.EndElementHandler = self.close
        self.parser.CharacterDataHandler = self.add_text
        self.opened = [Element("", {}, 1)]

    def refuse_document_type(self, *_declared: object) -> None:
        """No ESI file has one."""
        raise XmlFault("DocumentType", self.parser.CurrentLineNumber, "it could declare entities, and is refused")

    def open(self, tag: str, attributes: dict[str, str]) -> None:
        """An element begins."""
        line = self.parser.CurrentLineNumber
        if len(self.opened) > DEEPEST:
            raise XmlFault("TooDeep", line, f"elements are more than {DEEPEST} deep")
        element = Element(tag, attributes, line)
        self.opened[-1].elements.append(element)
        self.opened.append(element)

    def close(self, _tag: str) -> None:
        """The last element ends."""
        self.opened.pop()

    def add_text(self, text: str) -> None:
        """Characters are in the last element; those after an element in it say nothing in these files."""
        if not self.opened[-1].elements:
            self.opened[-1].text += text


def tree_of(content: bytes) -> Element:
    """The outermost element of a document."""
    maker = TreeMaker()
    try:
        maker.parser.Parse(content, True)
    except expat.ExpatError as error:
        raise XmlFault("BrokenXml", error.lineno, expat.ErrorString(error.code)) from error
    except (LookupError, ValueError) as error:
        raise XmlFault("BrokenXml", 1, str(error)) from error
    return maker.opened[0].elements[0]
