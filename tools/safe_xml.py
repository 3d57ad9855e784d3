"""Reads XML from strangers, with the standard library alone.

`read` gives the root `Element` of a document, or raises `Refused` with one plain line, as
`NAME: line 12: an entity declaration`. Nothing is fetched and no entity is expanded but the five of XML and
numbers of characters. A document is read in pieces, and all that is kept of it is limited: its bytes, its
elements, their depth, their texts, and the bytes of one tag or remark, which the parser holds until it has
them all. So a gigabyte of one element, of one attribute or of one remark is refused when the limit is
reached, also from a pipe.

`run` ends a tool: with status 2 and that line if its `main` was refused, or with `out of memory`.
"""
import sys
from dataclasses import dataclass
from xml.parsers import expat

PIECE, BUFFER = 1 << 16, 1 << 13
ENCODINGS = ("UTF-8", "UTF-16", "ISO-8859-1", "US-ASCII")
XML = "http://www.w3.org/XML/1998/namespace "


class Refused(Exception):
    """One plain line: what is refused, where, and why."""


@dataclass(frozen=True)
class Limits:
    """The greatest values that are taken. `text` holds for each element and `name` for each name, in characters."""
    bytes: int = 1 << 26
    elements: int = 1_000_000
    depth: int = 64
    text: int = 1 << 20
    name: int = 1_000
    token: int = 1 << 20
    attributes: int = 100
    declarations: int = 1_000
    grammar: int = 1 << 18


class Element:
    """An element: its name without a namespace, the namespace or "", attributes, text, elements inside, line.

    The text is what stands directly in the element, in one piece. Attributes of a namespace are named
    `{NAMESPACE}name`, but those of XML itself as they are written: `xml:lang`.
    """
    __slots__ = "name", "namespace", "attributes", "text", "children", "line"

    def __init__(self, name, namespace, attributes, line):
        self.name, self.namespace, self.attributes, self.line = name, namespace, attributes, line
        self.text, self.children = "", ()

    def get(self, attribute, default=None):
        return self.attributes.get(attribute, default)

    def all(self, name):
        """The elements of this name directly inside."""
        return [it for it in self.children if it.name == name]


def plain(text, most=200):
    """A text from a stranger, fit for one line: no control characters, and not too long."""
    text = text if len(text) <= most else text[:most] + ".."
    return "".join(it if it.isprintable() else ascii(it)[1:-1] for it in text)


def read(path, allow_grammar=False, skip=(), limits=Limits()):
    """The root of the document in a file. Elements whose names are in `skip` are left out, with all inside.

    A document type is refused. With `allow_grammar` it may declare elements and attributes, as the MIME
    database does; entities, notations and parts elsewhere stay refused. A value that only a declaration
    gives is not reported: an attribute is there if it is written.
    """
    reader = _Reader(path, allow_grammar, frozenset(skip), limits)
    try:
        with open(path, "rb") as file:
            while piece := file.read(PIECE):
                reader.feed(piece)
    except IsADirectoryError:
        raise Refused(f"{plain(path)}: is a folder") from None
    except (FileNotFoundError, ValueError):
        raise Refused(f"{plain(path)}: no such file") from None
    except OSError as fault:
        raise Refused(f"{plain(path)}: can't be read: {plain(fault.strerror or 'a fault of the system')}") from None
    return reader.finish()


def run(main):
    """Ends the program with what `main` returns, or with status 2 and the line of what is refused."""
    try:
        sys.exit(main())
    except (Refused, MemoryError) as fault:
        print(fault if isinstance(fault, Refused) else "out of memory", file=sys.stderr)
        sys.exit(2)


class _Reader:
    """Builds the tree from the events of the parser, and judges each before it is kept."""

    def __init__(self, path, allow_grammar, skip, limits):
        self.path, self.allow_grammar, self.skip, self.limits = path, allow_grammar, skip, limits
        self.root, self.open, self.texts, self.lengths, self.skipped = None, [], [], [], 0
        self.fed, self.last_event, self.elements, self.declarations = 0, 0, 0, 0
        self.grammar_begin = None
        self.parser = parser = expat.ParserCreate(namespace_separator=" ")
        parser.specified_attributes = True
        parser.buffer_text, parser.buffer_size = True, BUFFER
        parser.XmlDeclHandler = self.declaration
        parser.StartDoctypeDeclHandler = self.grammar
        parser.EndDoctypeDeclHandler = self.grammar_end
        parser.AttlistDeclHandler = self.attribute_declaration
        parser.EntityDeclHandler = lambda *_: self.refuse("an entity declaration")
        parser.UnparsedEntityDeclHandler = parser.EntityDeclHandler
        parser.NotationDeclHandler = lambda *_: self.refuse("a notation declaration")
        parser.ExternalEntityRefHandler = lambda *_: self.refuse("an external entity")
        parser.SkippedEntityHandler = lambda *_: self.refuse("an entity that is not declared")
        parser.StartElementHandler = self.begin
        parser.EndElementHandler = self.end
        parser.CharacterDataHandler = self.characters
        parser.CommentHandler = lambda *_: self.event()
        parser.ProcessingInstructionHandler = lambda *_: self.event()
        parser.StartCdataSectionHandler = self.event
        parser.EndCdataSectionHandler = self.event

    def refuse(self, reason):
        raise Refused(f"{plain(self.path)}: line {self.parser.CurrentLineNumber}: {reason}")

    def feed(self, piece):
        self.fed += len(piece)
        if self.fed > self.limits.bytes:
            self.refuse(f"over {self.limits.bytes} bytes")
        self.parse(piece, False)
        if self.fed - self.last_event > self.limits.token:
            self.refuse(f"a tag, remark or declaration of over {self.limits.token} bytes")
        if self.grammar_begin is not None:
            self.judge_grammar(self.fed)

    def finish(self):
        self.parse(b"", True)
        return self.root

    def parse(self, piece, is_last):
        try:
            self.parser.Parse(piece, is_last)
        except expat.ExpatError as fault:
            reason = expat.errors.messages.get(fault.code, "a fault")
            raise Refused(f"{plain(self.path)}: line {fault.lineno}: no XML: {reason}") from None
        except (LookupError, ValueError):
            # An encoding that Python knows, and that has no table of characters.
            self.refuse("no XML: its encoding")

    def event(self):
        """Tells that the parser got on: what stands before this place is no longer held."""
        self.last_event = self.parser.CurrentByteIndex

    # The prolog.

    def declaration(self, _version, encoding, _standalone):
        self.event()
        if encoding is not None and encoding.upper() not in ENCODINGS:
            self.refuse(f"the encoding {plain(encoding, 40)}, which is not one of {', '.join(ENCODINGS)}")

    def grammar(self, _name, system, public, _has_internal):
        self.event()
        if not self.allow_grammar:
            self.refuse("a document type declaration")
        if system is not None or public is not None:
            self.refuse("a document type that stands elsewhere")
        self.grammar_begin = self.parser.CurrentByteIndex

    def grammar_end(self):
        self.event()
        self.judge_grammar(self.parser.CurrentByteIndex)
        self.grammar_begin = None

    def judge_grammar(self, end):
        if end - self.grammar_begin > self.limits.grammar + PIECE:
            self.refuse(f"a document type of over {self.limits.grammar} bytes")

    def attribute_declaration(self, *_):
        self.event()
        self.declarations += 1
        if self.declarations > self.limits.declarations:
            self.refuse(f"over {self.limits.declarations} declarations of attributes")

    # Elements.

    def begin(self, name, attributes):
        self.event()
        self.elements += 1
        if self.elements > self.limits.elements:
            self.refuse(f"over {self.limits.elements} elements")
        if len(self.open) + self.skipped >= self.limits.depth:
            self.refuse(f"elements inside each other over {self.limits.depth} deep")
        if len(attributes) > self.limits.attributes:
            self.refuse(f"over {self.limits.attributes} attributes of one element")
        if any(len(it) > self.limits.name for it in (name, *attributes)):
            self.refuse(f"a name of over {self.limits.name} characters")
        if any(len(it) > self.limits.text for it in attributes.values()):
            self.refuse(f"an attribute of over {self.limits.text} characters")
        namespace, _, name = name.rpartition(" ")
        if self.skipped or name in self.skip and self.open:
            self.skipped += 1
            return
        element = Element(name, namespace, {_attribute(its): value for its, value in attributes.items()},
                          self.parser.CurrentLineNumber)
        if self.open:
            above = self.open[-1]
            above.children = above.children or []
            above.children.append(element)
        else:
            self.root = element
        self.open.append(element)
        self.texts.append([])
        self.lengths.append(0)

    def end(self, _name):
        self.event()
        if self.skipped:
            self.skipped -= 1
        else:
            self.open.pop().text = "".join(self.texts.pop())
            self.lengths.pop()

    def characters(self, text):
        self.event()
        if self.skipped:
            return
        self.lengths[-1] += len(text)
        if self.lengths[-1] > self.limits.text:
            self.refuse(f"a text of over {self.limits.text} characters")
        self.texts[-1].append(text)


def _attribute(name):
    """The name of an attribute, as `Element` says it."""
    namespace, is_of_one, local = name.rpartition(" ")
    if not is_of_one:
        return name
    return "xml:" + local if namespace + " " == XML else "{" + namespace + "}" + local
