"""XML as a tree, without entities of its own: no document type, so nothing that a file can blow up or fetch."""

from xml.etree.ElementTree import Element, TreeBuilder
from xml.parsers import expat

from .errors import ToolError

DEEPEST = 64
"""The most elements that may stand within one another."""


def read_tree(data: bytes) -> Element:
    """The root element. Names are without their namespaces."""
    builder = _Builder()
    parser = expat.ParserCreate(namespace_separator=" ")
    parser.buffer_text = True
    parser.StartElementHandler = builder.start
    parser.EndElementHandler = builder.end
    parser.CharacterDataHandler = builder.data
    parser.StartDoctypeDeclHandler = _refuse_doctype
    try:
        parser.Parse(data, True)
    except expat.ExpatError as error:
        reason = expat.errors.messages.get(error.code, "it is no XML")
        raise ToolError(f"it is no XML: line {error.lineno}, column {error.offset + 1}: {reason}") from error
    except (ValueError, LookupError) as error:
        raise ToolError("its encoding isn't one of UTF-8, UTF-16 and ISO-8859-1") from error
    return builder.close()


def text_of(element: Element, child: str) -> str | None:
    """The text of the first child of this name, without blanks at its ends, or None where there is none."""
    found = element.find(child)
    return None if found is None or found.text is None else found.text.strip()


class _Builder:
    """Makes the tree of what the parser tells."""

    def __init__(self) -> None:
        self._tree = TreeBuilder()
        self._depth = 0

    def start(self, name: str, attributes: dict[str, str]) -> None:
        self._depth += 1
        if self._depth > DEEPEST:
            raise ToolError(f"its elements stand more than {DEEPEST} deep")
        self._tree.start(_local(name), {_local(key): value for key, value in attributes.items()})

    def end(self, name: str) -> None:
        self._depth -= 1
        self._tree.end(_local(name))

    def data(self, text: str) -> None:
        self._tree.data(text)

    def close(self) -> Element:
        return self._tree.close()


def _local(name: str) -> str:
    return name.rpartition(" ")[2]


def _refuse_doctype(*_: object) -> None:
    raise ToolError("it has a document type, which no topology file needs")
