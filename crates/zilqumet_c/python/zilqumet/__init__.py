"""HTML to trees, by a parser that no page can make hang, or grow past a known limit.

    import zilqumet

    page = zilqumet.parse(b"<p class=a>One<p>Two")
    for node in page:                           # every node, in tree order
        print(node.kind, node.name, node.text, node.attrs)
    page.serialise()                            # '<html><head></head><body><p class="a">One</p><p>Two</p></body></html>'
    zilqumet.normalise(b"<p>One<p>Two")         # the same in one call
    zilqumet.parse(data, max_nodes=100_000)     # NodeBudget where a page would have more
    with zilqumet.Parser() as parser:           # in pieces, which are parsed as they come
        for piece in stream:
            parser.feed(piece)
        page = parser.finish()

    for node in page:                           # edits, as the DOM has them
        if node.name == "script":
            node.remove()

    page, ledger = zilqumet.audit(data)         # and what became of each token
    for token in ledger:
        print(token.start, token.end, token.kind, token.name, token.fate, token.node, token.cause)

Where there is no page, an exception says why: `Refused` is above all of them, and has the place. The work is done by libzilqumet, whose calls are proved;
this module holds its handles, and copies names and texts into Python's strings.
"""

from __future__ import annotations

import ctypes
import html.entities
import json
import os
import struct
import threading
from functools import partial
from itertools import accumulate
from operator import itemgetter
from pathlib import Path
from typing import Any, Callable, Iterable, Iterator, NamedTuple, Optional, Sequence, Union, overload

__all__ = [
    "BadContext", "BadEntities", "Counts", "EditError", "Entities", "ForeignContent", "HeldBudget", "InputTooLong", "Ledger", "Node", "NodeBudget",
    "Page", "ParseError", "Parser", "Position", "Refused", "StepBudget", "Stopped", "Token", "audit", "audit_fragment", "library_version", "normalise", "parse",
    "parse_counts", "parse_fragment", "positions",
]
__version__ = "0.1.0"

Data = Union[bytes, bytearray, memoryview, str]

_NO_LIMIT = 2**64 - 1
# no node, as a signed number
_NONE = -1
_KINDS = ("", "document", "contents", "element", "text", "comment", "doctype")
_TOKEN_KINDS = ("", "start tag", "end tag", "character", "comment", "doctype", "end of file")
_FATES = ("", "made", "text", "merged", "dropped", "ended")
_CAUSES_OF_DROPS = (None, "PrologSpace", "Null", "LeadingNewline", "InSelect", "InFrameset", "Misplaced", "InColumnGroup")
_CHARACTER = 3
_ELEMENT, _TEXT = 3, 4
_NAME, _DATA, _ATTR_NAME, _ATTR_VALUE = 0, 1, 2, 3
_PARENT, _FIRST_CHILD, _NEXT, _CONTENTS = 0, 1, 3, 5
_IN_FORM, _QUIRKS, _FOREIGN = 1, 2, 4


# THE LIBRARY


class _Handle(ctypes.Structure):
    _fields_ = [("held", ctypes.c_void_p)]


class _Span(ctypes.Structure):
    _fields_ = [("at", ctypes.c_void_p), ("len", ctypes.c_size_t)]


class _Options(ctypes.Structure):
    _fields_ = [(name, ctypes.c_uint64) for name in ("max_nodes", "max_held", "max_input", "max_steps")] + [("flags", ctypes.c_uint32)]


class _Counts(ctypes.Structure):
    _fields_ = [(name, ctypes.c_uint64) for name in ("code_points", "nodes", "held", "steps", "tokens", "errors")]


class _Row(ctypes.Structure):
    _fields_ = [(name, ctypes.c_uint64) for name in ("parent", "first_child", "next", "contents", "attrs")] + [
        ("name", _Span), ("text", _Span), ("kind", ctypes.c_uint32)]


class _Position(ctypes.Structure):
    _fields_ = [(name, ctypes.c_uint64) for name in ("offset", "line", "column")]


class _Texts(ctypes.Structure):
    _fields_ = [("at", ctypes.c_void_p), ("ends", ctypes.c_void_p), ("count", ctypes.c_size_t)]


# a token: where it begins and ends, its node, where its name lies and how long it is, its kind, code point, fate and cause
_TOKEN = struct.Struct("=2Qq2Q4I")

# a row as numbers of 64 bits: how many, and where two of them stand; the first four are links
_CELLS = ctypes.sizeof(_Row) // 8
_ATTRS, _KIND = 4, 9


def _library() -> str:
    """The library's file: what ZILQUMET_LIBRARY names, or what lies beside this module, or what the system finds."""
    beside = Path(__file__).with_name("libzilqumet.so.1")
    return os.environ.get("ZILQUMET_LIBRARY") or (str(beside) if beside.exists() else "libzilqumet.so.1")


# Calls that take a while let other threads run; each of them has handles of its own, or the lock of what it shares.
_slow = ctypes.CDLL(_library())
# The others keep the interpreter's lock, so that no two are in one page at once.
_quick = ctypes.PyDLL(_library())

_H = ctypes.POINTER(_Handle)
_O = ctypes.POINTER(_Options)
_U32, _U64, _SIZE, _BYTES, _INT, _NUMBER = ctypes.c_uint32, ctypes.c_uint64, ctypes.c_size_t, ctypes.c_char_p, ctypes.c_int, ctypes.c_int64
_PLACE = ctypes.POINTER(_U64)


def _call(library: Any, name: str, result: Any, *arguments: Any) -> Any:
    function = getattr(library, name)
    function.restype, function.argtypes = result, list(arguments)
    return function


_free = _call(_quick, "zq_free", None, _H)
_entities_read = _call(_slow, "zq_entities_read", _U32, _BYTES, _SIZE, _H)
_parse = _call(_slow, "zq_parse", _U32, _H, _O, _BYTES, _SIZE, _H, _PLACE)
_parse_fragment = _call(_slow, "zq_parse_fragment", _U32, _H, _O, _BYTES, _SIZE, _BYTES, _SIZE, _H, _PLACE)
_normalise = _call(_slow, "zq_normalise", _U32, _H, _O, _BYTES, _SIZE, _INT, _H, _PLACE)
_audit = _call(_slow, "zq_audit", _U32, _H, _O, _BYTES, _SIZE, _H, _H, _PLACE)
_audit_fragment = _call(_slow, "zq_audit_fragment", _U32, _H, _O, _BYTES, _SIZE, _BYTES, _SIZE, _H, _H, _PLACE)
_tokens = _call(_quick, "zq_tokens", _SIZE, _H, _U64, ctypes.c_void_p, _SIZE)
_parser_new = _call(_quick, "zq_parser_new", _U32, _H, _O, _H)
_parser_new_fragment = _call(_quick, "zq_parser_new_fragment", _U32, _H, _O, _BYTES, _SIZE, _H)
_parser_feed = _call(_slow, "zq_parser_feed", _U32, _H, _BYTES, _SIZE, _PLACE)
_parser_finish = _call(_slow, "zq_parser_finish", _U32, _H, _H, _PLACE)
_counts_of = _call(_quick, "zq_counts_of", _U32, _H, ctypes.POINTER(_Counts))
_root = _call(_quick, "zq_root", _U64, _H)
_rows = _call(_quick, "zq_rows", _SIZE, _H, _U64, ctypes.POINTER(_Row), _SIZE)
_all_texts = _call(_quick, "zq_all_texts", _U32, _H, _H, ctypes.POINTER(_Texts))
_kind_of = _call(_quick, "zq_kind_of", _U32, _H, _U64)
_link = _call(_quick, "zq_link", _NUMBER, _H, _U32, _U64)
_attr_count = _call(_quick, "zq_attr_count", _U64, _H, _U64)
_set_attr = _call(_quick, "zq_set_attr", _U32, _H, _U64, _BYTES, _SIZE, _BYTES, _SIZE)
_remove_attr = _call(_quick, "zq_remove_attr", _U32, _H, _U64, _BYTES, _SIZE)
_remove = _call(_quick, "zq_remove", _U32, _H, _U64)
_unwrap = _call(_quick, "zq_unwrap", _U32, _H, _U64)
_append = _call(_quick, "zq_append", _U32, _H, _U64, _U64)
_insert_before = _call(_quick, "zq_insert_before", _U32, _H, _U64, _U64)
_make_element = _call(_quick, "zq_make_element", _U32, _H, _BYTES, _SIZE, _PLACE)
_make_text = _call(_quick, "zq_make_text", _U32, _H, _BYTES, _SIZE, _PLACE)
_text_of = _call(_quick, "zq_text", _U32, _H, _U32, _U64, _U64, ctypes.POINTER(_Span))
_error = _call(_quick, "zq_error", _U32, _H, _U64, _H, _PLACE)
_positions = _call(_slow, "zq_positions", _U32, _BYTES, _SIZE, _PLACE, _SIZE, ctypes.POINTER(_Position))
_serialise = _call(_quick, "zq_serialise", _U32, _H, _INT, _H)
_bytes = _call(_quick, "zq_bytes", _U32, _H, ctypes.POINTER(_Span))
_strerror = _call(_quick, "zq_strerror", _BYTES, _U32)


def library_version() -> str:
    """The version of libzilqumet."""
    version: bytes = _call(_quick, "zq_version", _BYTES)()
    return version.decode()


# WHY THERE IS NO PAGE


class Refused(ValueError):
    """Why there is no page: `cause` says it in words. `place` counts the code points of the text before what was refused, or is None."""

    cause: str = ""
    place: Optional[int] = None


class InputTooLong(Refused):
    """More code points than `max_input`, or than 268,435,456."""


class ForeignContent(Refused):
    """A start tag svg or math: SVG and MathML are not parsed."""


class BadContext(Refused):
    """No HTML element can have the name of the fragment's context, or it is svg or math."""


class NodeBudget(Refused):
    """More nodes than `max_nodes`."""


class HeldBudget(Refused):
    """The nodes would hold more code points than `max_held`."""


class StepBudget(Refused):
    """More counted steps than `max_steps`."""


class Stopped(Refused):
    """The parser refused an earlier piece, and takes no more."""


class BadEntities(Refused):
    """Not a table of named character references."""


class EditError(ValueError):
    """Why a page is not edited, in words: `cause` is `not an element`, `bad name`, `not linkable`, `no parent`, `cycle` or `bad text`. The page is as it
    was. (An edit that would pass a limit is a `NodeBudget` or a `HeldBudget` without a place.)"""

    cause: str = ""


_CAUSES = {
    2: InputTooLong, 3: ForeignContent, 4: ForeignContent, 5: BadContext, 6: NodeBudget, 7: HeldBudget, 8: StepBudget, 9: Stopped, 14: BadEntities,
}
_OUT_OF_MEMORY, _BAD_HANDLE, _BAD_INDEX, _FIRST_OF_EDITS = 1, 12, 13, 17
_PLACED = (ForeignContent, NodeBudget, HeldBudget, StepBudget)


def _check(status: int, place: int = 0) -> None:
    """Raises what a status stands for."""
    if status == 0:
        return
    words = _strerror(status).decode()
    text = f"zilqumet: {words}"
    if status == _OUT_OF_MEMORY:
        raise MemoryError(text)
    cause = _CAUSES.get(status)
    if cause is None:
        raise RuntimeError(text)
    is_placed = issubclass(cause, _PLACED)
    refused = cause(f"{text} at {place}" if is_placed else text)
    refused.cause, refused.place = words, place if is_placed else None
    raise refused


def _check_edit(status: int) -> None:
    """Raises what the status of an edit stands for."""
    if status >= _FIRST_OF_EDITS:
        words = _strerror(status).decode()
        error = EditError(f"zilqumet: {words}")
        error.cause = words
        raise error
    if status in (6, 7):
        words = _strerror(status).decode()
        refused = _CAUSES[status](f"zilqumet: {words}")
        refused.cause = words
        raise refused
    _check(status)


class _Owner:
    """Owns a handle."""

    def __init__(self) -> None:
        self._handle = _Handle()

    def __del__(self, _free: Any = _free) -> None:
        _free(self._handle)


class _Buffer(_Owner):
    def text(self) -> str:
        span = _Span()
        _check(_bytes(self._handle, span))
        return ctypes.string_at(span.at, span.len).decode()


# NAMED CHARACTER REFERENCES


class Entities(_Owner):
    """A table of named character references, from the JSON of the standard's entities.json. `Entities.standard()` is the one that all calls use where
    they are given none; `Entities.core()` has `amp lt gt quot nbsp` alone."""

    _standard: Optional[Entities] = None
    _making = threading.Lock()

    def __init__(self, source: Optional[bytes] = None) -> None:
        super().__init__()
        self._lock = threading.Lock()
        if source is not None:
            _check(_entities_read(source, len(source), self._handle))

    @classmethod
    def core(cls) -> Entities:
        return cls()

    @classmethod
    def standard(cls) -> Entities:
        """The standard's 2,231 references, which Python's `html.entities` has."""
        with Entities._making:
            if Entities._standard is None:
                rows = {"&" + name: {"codepoints": [*map(ord, text)], "characters": text} for name, text in html.entities.html5.items()}
                Entities._standard = Entities(json.dumps(rows).encode())
            return Entities._standard


# PAGES


class Counts(NamedTuple):
    """What a page counts: code points of its text, nodes, code points that the nodes hold, steps, tokens, parse errors."""

    code_points: int
    nodes: int
    held: int
    steps: int
    tokens: int
    errors: int


class Position(NamedTuple):
    """Where a place stands: how many bytes are before it, its line, and its column in code points; both begin at 1."""

    offset: int
    line: int
    column: int


class ParseError(NamedTuple):
    """A parse error: how many code points of the text are before it, the standard's name of it (`tree-construction` for all of tree construction), and
    where that is in the bytes that were parsed; None of a page that came in pieces (`positions` tells it, by the bytes)."""

    place: int
    name: str
    offset: Optional[int] = None
    line: Optional[int] = None
    column: Optional[int] = None


class Token(NamedTuple):
    """A token of an input, and what became of it. `start` and `end` are places, as those of errors. `kind` is start tag, end tag, character, comment,
    doctype or end of file; `name` is the name of a tag, or the character, else empty. `fate` is made (`node` was made of it), text (it stands in the text
    `node`), merged (its attributes went to the html or the body that was there), dropped (it has no effect, for `cause`: PrologSpace, Null,
    LeadingNewline, InSelect, InFrameset, Misplaced or InColumnGroup) or ended (an end tag, or the end of the input)."""

    start: int
    end: int
    kind: str
    name: str
    fate: str
    node: Optional[Node] = None
    cause: Optional[str] = None


class Node:
    """A node of a page: `kind` is document, element, text, comment, doctype or contents (of a template)."""

    __slots__ = ("page", "number")

    def __init__(self, page: Page, number: int) -> None:
        self.page, self.number = page, number

    def _to(self, number: int) -> Optional[Node]:
        return None if number == _NONE else Node(self.page, number)

    @property
    def kind(self) -> str:
        return _KINDS[self.page._kinds[self.number]]

    @property
    def name(self) -> str:
        """The name of an element, else an empty text."""
        names = self.page._names
        return self.page._told(_NAME, self.number) if names is None else names[self.number]

    @property
    def text(self) -> str:
        """The text of a text or of a comment, else an empty one. `text_below` is the text in an element."""
        texts = self.page._texts
        return self.page._told(_DATA, self.number) if texts is None else texts[self.number]

    @property
    def attrs(self) -> dict[str, str]:
        """The attributes of an element, in the order of its tag. (A copy: `set_attr` and `remove_attr` change them.)"""
        page, number = self.page, self.number
        if page._names is None:
            return {page._told(_ATTR_NAME, number, at): page._told(_ATTR_VALUE, number, at) for at in range(_attr_count(page._handle, number))}
        ends = page._ends[page._firsts[number] + 2 : page._firsts[number + 1] + 1]
        told = [page._bytes[start:end].decode() for start, end in zip(ends, ends[1:])]
        return dict(zip(told[::2], told[1::2]))

    @property
    def doctype(self) -> tuple[Optional[str], Optional[str], Optional[str]]:
        """The name, the public and the system identifier of a doctype, None for what is absent."""
        name, public, system = (self.page._part(part, self.number) for part in (4, 5, 6))
        return name, public, system

    @property
    def parent(self) -> Optional[Node]:
        return self._to(self.page._parents[self.number])

    @property
    def contents(self) -> Optional[Node]:
        """What a template holds, which are no children of it."""
        return self._to(self.page._contents[self.number])

    @property
    def children(self) -> Iterator[Node]:
        """The children, as they are when the iteration begins."""
        page = self.page
        nexts, at, numbers = page._nexts, page._first_children[self.number], []
        while at != _NONE:
            numbers.append(at)
            at = nexts[at]
        return map(partial(Node, page), numbers)

    def _numbers(self) -> list[int]:
        """The numbers of the nodes below this one, in tree order; what a template holds in place of its children."""
        insides, nexts = self.page._insides, self.page._nexts
        numbers: list[int] = []
        behind: list[int] = []
        number = insides[self.number]
        while True:
            while number != _NONE:
                numbers.append(number)
                inside = insides[number]
                if inside == _NONE:
                    number = nexts[number]
                else:
                    behind.append(nexts[number])
                    number = inside
            if not behind:
                return numbers
            number = behind.pop()

    def __iter__(self) -> Iterator[Node]:
        """Every node below this one, in tree order; what a template holds in place of its children. They are those that are there when the iteration
        begins, whatever is edited meanwhile."""
        return map(partial(Node, self.page), self._numbers())

    @property
    def text_below(self) -> str:
        """All texts below this node, in tree order, those in templates with them, comments not; of a text its own."""
        page = self.page
        texts = (Node(page, number).text for number in self._numbers() if page._kinds[number] == _TEXT)
        return self.text if self.kind == "text" else "".join(texts)

    def set_attr(self, name: str, value: str) -> None:
        """Gives an element an attribute: the one of this name gets the value, or there is a new one behind the others. `bad name` where it has none of
        this name, and no attribute of HTML can have it."""
        name_bytes, value_bytes = _data(name), _data(value)
        self.page._edit(_set_attr, self.number, name_bytes, len(name_bytes), value_bytes, len(value_bytes))

    def remove_attr(self, name: str) -> None:
        """Takes the attribute of a name from an element, if it has it."""
        data = _data(name)
        self.page._edit(_remove_attr, self.number, data, len(data))

    def remove(self) -> None:
        """Takes the node out of its tree, with all below it. It then stands alone, and can be linked again."""
        self.page._edit(_remove, self.number)

    def unwrap(self) -> None:
        """Puts what is below an element in its place, of a template what it holds. It then stands alone, and nothing is below it."""
        self.page._edit(_unwrap, self.number)

    def append(self, child: Node) -> None:
        """Takes a node of this page from where it stands and makes it the last one just below; below a template, in its contents."""
        self.page._edit(_append, self.number, child._number_in(self.page))

    def insert_before(self, child: Node) -> None:
        """Takes a node of this page from where it stands and puts it just before this one."""
        self.page._edit(_insert_before, child._number_in(self.page), self.number)

    def _number_in(self, page: Page) -> int:
        if self.page is not page:
            raise ValueError("zilqumet: a node of another page")
        return self.number

    def __eq__(self, other: object) -> bool:
        return isinstance(other, Node) and self.page is other.page and self.number == other.number

    def __hash__(self) -> int:
        return hash((id(self.page), self.number))

    def __repr__(self) -> str:
        return f"<{self.kind} {self.name or self.text[:20]!r}>"


class _Column:
    """A number of each node, asked of the library."""

    __slots__ = ("tell",)

    def __init__(self, tell: Callable[[int], int]) -> None:
        self.tell = tell

    def __getitem__(self, number: int) -> int:
        return self.tell(number)


class Page(_Owner):
    """A parsed page, which its nodes keep. `for node in page` goes over all of them, in tree order. Links and texts are read all at once, in two calls, when the
    first of them is asked for; once the page is edited, each is asked for anew."""

    _data: Optional[bytes] = None
    # of each node those that it is linked to, the first one below it, or in it, its kind, and the number of its first text
    _parents: Union[list[int], _Column]
    _first_children: Union[list[int], _Column]
    _nexts: Union[list[int], _Column]
    _contents: Union[list[int], _Column]
    _insides: Union[list[int], _Column]
    _kinds: Union[bytearray, _Column]
    _firsts: Any
    # the names and texts of nodes, or None; all texts with the attributes, and where each begins
    _names: Optional[list[str]]
    _texts: Optional[list[str]]
    _bytes: Any
    _ends: Any

    def __getattr__(self, name: str) -> Any:
        """Reads links and texts when they are first asked for."""
        if name in ("_names", "_texts"):
            self._read_texts()
        elif name in ("_parents", "_first_children", "_nexts", "_contents", "_insides", "_kinds", "_firsts"):
            self._read_links()
        else:
            raise AttributeError(f"{type(self).__name__!r} object has no attribute {name!r}")
        return self.__dict__[name]

    def _read_links(self) -> None:
        count = self.counts.nodes
        rows = bytearray(count * ctypes.sizeof(_Row))
        _rows(self._handle, 0, ctypes.cast((_Row * count).from_buffer(rows), ctypes.POINTER(_Row)), count)
        cells = memoryview(rows).cast("q")
        self._parents, firsts, self._nexts, contents = (cells[column::_CELLS].tolist() for column in range(4))
        self._first_children, self._contents = firsts, contents
        self._kinds = rows[8 * _KIND :: 8 * _CELLS]
        has_templates = contents.count(_NONE) != count
        self._insides = [first if inside == _NONE else firsts[inside] for first, inside in zip(firsts, contents)] if has_templates else firsts
        # (and behind them the number of all)
        self._firsts = [0, *accumulate([2 + 2 * attrs for attrs in cells[_ATTRS::_CELLS].tolist()])]

    def _read_texts(self) -> None:
        buffer, texts = _Buffer(), _Texts()
        _check(_all_texts(self._handle, buffer._handle, texts))
        ends = self._ends = [0, *memoryview(ctypes.string_at(texts.ends, 8 * texts.count)).cast("Q")]
        data = self._bytes = ctypes.string_at(texts.at, ends[-1])
        # a node has a name or a text, and not both: so one piece of the bytes, from its first text to its third, has either
        firsts = self._firsts[:-1]
        places = map(slice, itemgetter(*firsts, 0)(ends), itemgetter(*[first + 2 for first in firsts], 0)(ends)[:-1])
        # (where all is ASCII a place in the bytes is one in the text)
        own = map(data.decode("ascii").__getitem__, places) if data.isascii() else map(bytes.decode, map(data.__getitem__, places))
        self._names, self._texts = names, told = [""] * len(firsts), [""] * len(firsts)
        kinds: Any = self._kinds
        for number, (kind, text) in enumerate(zip(kinds, own)):
            (names if kind == _ELEMENT else told)[number] = text

    def _part(self, part: int, node: int, index: int = 0) -> Optional[str]:
        span = _Span()
        status = _text_of(self._handle, part, node, index, span)
        return None if status == _BAD_INDEX else ctypes.string_at(span.at, span.len).decode()

    def _told(self, part: int, node: int, index: int = 0) -> str:
        return self._part(part, node, index) or ""

    def _edit(self, function: Any, *arguments: Any) -> None:
        """Calls what edits. From the first edit on, links and texts are asked for one by one."""
        handle = self._handle
        _check_edit(function(handle, *arguments))
        if self.__dict__.get("_names", ()) is not None:
            self._names = self._texts = self._bytes = self._ends = self._firsts = None
            self._parents, self._first_children, self._nexts, self._contents = (
                _Column(partial(_link, handle, link)) for link in (_PARENT, _FIRST_CHILD, _NEXT, _CONTENTS))
            self._kinds = _Column(partial(_kind_of, handle))
            self._insides = _Column(self._inside)

    def _inside(self, number: int) -> int:
        inside = self._contents[number]
        return self._first_children[number if inside == _NONE else inside]

    def _make(self, function: Any, text: str) -> Node:
        data, number = _data(text), _U64(0)
        self._edit(function, data, len(data), number)
        return Node(self, number.value)

    def make_element(self, name: str) -> Node:
        """A new element of HTML without attributes, which stands alone: `Node.append` and `Node.insert_before` link it. `bad name` where no start tag can
        have it, or it is `svg` or `math`."""
        return self._make(_make_element, name)

    def make_text(self, text: str) -> Node:
        """A new text, which stands alone. Below `script`, `style` and the like a text is written as it is, and may end its element."""
        return self._make(_make_text, text)

    @property
    def counts(self) -> Counts:
        counts = _Counts()
        _check(_counts_of(self._handle, counts))
        return Counts(*(getattr(counts, name) for name in Counts._fields))

    @property
    def root(self) -> Node:
        """The document, or the root that a fragment stands in."""
        return Node(self, _root(self._handle))

    def __iter__(self) -> Iterator[Node]:
        return iter(self.root)

    def _errors(self) -> Iterator[ParseError]:
        buffer, place = _Buffer(), _U64(0)
        for number in range(self.counts.errors):
            _check(_error(self._handle, number, buffer._handle, place))
            yield ParseError(place.value, buffer.text())

    @property
    def errors(self) -> list[ParseError]:
        """The parse errors, in order, with byte, line and column."""
        told = list(self._errors())
        if self._data is None:
            return told
        return [ParseError(*error[:2], *at) for error, at in zip(told, positions(self._data, (error.place for error in told)))]

    def serialise(self, *, escape_angles: bool = False) -> str:
        """The page as the standard writes it. escape_angles: `<` and `>` in values of attributes are escaped too."""
        buffer = _Buffer()
        _check(_serialise(self._handle, escape_angles, buffer._handle))
        return buffer.text()

    def to_etree(self, module: Any = None) -> Any:
        """The element html as an element of xml.etree.ElementTree, or of another module with its Element, SubElement and Comment, as lxml.etree. What a
        template holds are its children there; doctypes, and comments outside of html, are left out."""
        if module is None:
            import xml.etree.ElementTree as module
        top = next((node for node in self.root.children if node.kind == "element"), None)
        if top is None:
            return None
        made = module.Element(top.name, top.attrs)
        stack = [(top, made)]
        while stack:
            node, element = stack.pop()
            last = None
            for child in (node.contents or node).children:
                if child.kind == "text":
                    if last is None:
                        element.text = (element.text or "") + child.text
                    else:
                        last.tail = (last.tail or "") + child.text
                elif child.kind == "comment":
                    last = module.Comment(child.text)
                    element.append(last)
                elif child.kind == "element":
                    last = module.SubElement(element, child.name, child.attrs)
                    stack.append((child, last))
        return made


class Ledger(_Owner, Sequence[Token]):
    """The tokens of a page in their order, the end of the input last, and what became of each: a sequence of `Token`. It keeps its page."""

    _page: Page
    _rows: bytearray

    def _read(self, page: Page) -> Ledger:
        """Reads all tokens, in one call."""
        count = page.counts.tokens
        self._page, self._rows = page, bytearray(count * _TOKEN.size)
        _tokens(self._handle, 0, (ctypes.c_char * len(self._rows)).from_buffer(self._rows), count)
        return self

    def _token(self, row: tuple[int, ...]) -> Token:
        start, end, node, at, length, kind, code_point, fate, cause = row
        name = chr(code_point) if kind == _CHARACTER else ctypes.string_at(at, length).decode() if length else ""
        return Token(start, end, _TOKEN_KINDS[kind], name, _FATES[fate], None if node == _NONE else Node(self._page, node), _CAUSES_OF_DROPS[cause])

    def __len__(self) -> int:
        return len(self._rows) // _TOKEN.size

    def __iter__(self) -> Iterator[Token]:
        return map(self._token, _TOKEN.iter_unpack(self._rows))

    @overload
    def __getitem__(self, index: int) -> Token: ...

    @overload
    def __getitem__(self, index: slice) -> list[Token]: ...

    def __getitem__(self, index: Union[int, slice]) -> Union[Token, list[Token]]:
        numbers = range(len(self))[index]
        if isinstance(numbers, range):
            return [self[number] for number in numbers]
        return self._token(_TOKEN.unpack_from(self._rows, numbers * _TOKEN.size))


def _data(data: Data) -> bytes:
    return data.encode("utf-8", "surrogatepass") if isinstance(data, str) else bytes(data)


def _limits(options: dict[str, Optional[int]], flags: int = 0) -> _Options:
    unknown = set(options) - {name for name, _ in _Options._fields_[:4]}
    if unknown:
        raise TypeError(f"unexpected keyword argument {unknown.pop()!r}")
    numbers = (options.get(name) for name, _ in _Options._fields_[:4])
    return _Options(*(_NO_LIMIT if number is None else number for number in numbers), flags)


def _run(entities: Optional[Entities], function: Any, filled: Any, *arguments: Any) -> Any:
    """Calls what parses, with a table that no other thread reads meanwhile."""
    table = Entities.standard() if entities is None else entities
    place = _U64(0)
    with table._lock:
        status = function(table._handle, *arguments, filled._handle, place)
    _check(status, place.value)
    return filled


def parse(data: Data, *, foreign: bool = False, entities: Optional[Entities] = None, **limits: Optional[int]) -> Page:
    """The page of a document in UTF-8 (a str is encoded). Where foreign is true SVG and MathML are parsed, with names as "svg path"; else they are refused.
    Limits, each None or a number: max_nodes, max_held (code points in names, texts and attributes), max_input (code points) and max_steps."""
    data = _data(data)
    page: Page = _run(entities, _parse, Page(), _limits(limits, _FOREIGN * foreign), data, len(data))
    page._data = data
    return page


def parse_counts(
    data: Data, *, normalise: bool = False, foreign: bool = False, entities: Optional[Entities] = None, **limits: Optional[int]
) -> tuple[Counts, Optional[str]]:
    """What the page of a document counts, and where normalise is true its text: `parse` without a look at the nodes."""
    data = _data(data)
    page = _run(entities, _parse, Page(), _limits(limits, _FOREIGN * foreign), data, len(data))
    return page.counts, page.serialise() if normalise else None


def parse_fragment(
    data: Data,
    context: str = "div",
    *,
    in_form: bool = False,
    quirks: bool = False,
    foreign: bool = False,
    entities: Optional[Entities] = None,
    **limits: Optional[int],
) -> Page:
    """The page of a fragment, as innerHTML reads it, in the context of an element of this name; where foreign is true it may be one as "svg path". Its nodes
    are the children of the element html that is the root."""
    data, name = _data(data), context.encode()
    options = _limits(limits, _IN_FORM * in_form | _QUIRKS * quirks | _FOREIGN * foreign)
    page: Page = _run(entities, _parse_fragment, Page(), options, name, len(name), data, len(data))
    page._data = data
    return page


def audit(data: Data, *, foreign: bool = False, entities: Optional[Entities] = None, **limits: Optional[int]) -> tuple[Page, Ledger]:
    """The page of a document, as `parse` makes it, and what became of each token."""
    data, page, ledger = _data(data), Page(), Ledger()
    _run(entities, _audit, ledger, _limits(limits, _FOREIGN * foreign), data, len(data), page._handle)
    page._data = data
    return page, ledger._read(page)


def audit_fragment(
    data: Data,
    context: str = "div",
    *,
    in_form: bool = False,
    quirks: bool = False,
    foreign: bool = False,
    entities: Optional[Entities] = None,
    **limits: Optional[int],
) -> tuple[Page, Ledger]:
    """The same of a fragment, as `parse_fragment` makes it."""
    data, name, page, ledger = _data(data), context.encode(), Page(), Ledger()
    options = _limits(limits, _IN_FORM * in_form | _QUIRKS * quirks | _FOREIGN * foreign)
    _run(entities, _audit_fragment, ledger, options, name, len(name), data, len(data), page._handle)
    page._data = data
    return page, ledger._read(page)


def positions(data: Data, places: Iterable[int]) -> list[Position]:
    """Where places of an input stand in its bytes (a str is encoded): by one pass where they never fall, as those of a page's errors."""
    data, numbers = _data(data), list(places)
    count = len(numbers)
    told = (_Position * count)()
    _check(_positions(data, len(data), (_U64 * count)(*numbers), count, told))
    return [Position(at.offset, at.line, at.column) for at in told]


def normalise(
    data: Data, *, escape_angles: bool = False, foreign: bool = False, entities: Optional[Entities] = None, **limits: Optional[int]
) -> str:
    """The text of a document's tree, as the standard writes it."""
    data = _data(data)
    buffer: _Buffer = _run(entities, _normalise, _Buffer(), _limits(limits, _FOREIGN * foreign), data, len(data), escape_angles)
    return buffer.text()


class Parser(_Owner):
    """A document in pieces, cut anywhere, which are parsed as they come, or a fragment in a context: `feed` each, then `finish`, which answers the page.
    A refusal is told with the piece in which it is met, and after it each call raises `Stopped`. At the end of a `with` the parser lets go of all it has."""

    def __init__(
        self,
        context: Optional[str] = None,
        *,
        in_form: bool = False,
        quirks: bool = False,
        foreign: bool = False,
        entities: Optional[Entities] = None,
        **limits: Optional[int],
    ) -> None:
        super().__init__()
        self._lock = threading.Lock()
        table = Entities.standard() if entities is None else entities
        options = _limits(limits, _IN_FORM * in_form | _QUIRKS * quirks | _FOREIGN * foreign)
        name = None if context is None else context.encode()
        with table._lock:
            if name is None:
                status = _parser_new(table._handle, options, self._handle)
            else:
                status = _parser_new_fragment(table._handle, options, name, len(name), self._handle)
        _check(status)

    def _run(self, function: Any, *arguments: Any) -> None:
        place = _U64(0)
        with self._lock:
            status = function(self._handle, *arguments, place)
        if status == _BAD_HANDLE:
            raise ValueError("zilqumet: the parser is finished")
        _check(status, place.value)

    def feed(self, piece: Data) -> None:
        """Takes a piece (a str is encoded), and parses what it decides."""
        data = _data(piece)
        self._run(_parser_feed, data, len(data))

    def finish(self) -> Page:
        """Ends the input: the page of all that was fed, as `parse` or `parse_fragment` makes it of the whole."""
        page = Page()
        self._run(_parser_finish, page._handle)
        return page

    def __enter__(self) -> Parser:
        return self

    def __exit__(self, *_: Any) -> None:
        with self._lock:
            _free(self._handle)
