"""Reads the equations of .antt files: patterns, application, if and cond, lists, records and operators. What else stands there is left unread, unless a
definition that is asked for needs it.

A term is a tuple of its kind, its parts and its place: ("name", text), ("number", n), ("text", string), ("apply", function, arguments), ("if", test, yes,
no), ("lambda", names, body), ("record", base or None, fields), ("field", term, name) and ("op", sign, left, right). A pattern is ("any",), ("bind", name),
("number", n), ("make", constructor, patterns), ("nil",) or ("cons", first, rest)."""
import re
from pathlib import Path
from typing import NamedTuple

SIGNS = "→ ≡ ∷ ++ || && == + - * × ⊎ ≤ <".split()
# how strongly a sign binds, and whether what is right of it is taken first
STRENGTH = {"≡": (1, False), "||": (2, True), "&&": (3, True), "==": (4, False), "∷": (5, True), "++": (5, True), "+": (6, False), "-": (6, False), "*": (7, False)}
TOKEN = re.compile(
    r'(?P<space>\s+)|"(?P<text>[^"]*)"|(?P<sign>\+\+|\|\||&&|==|[→≡∷+*×⊎≤<-])|(?P<mark>\[\]|[(){};:=.,λ])|(?P<number>\d+)|'
    r"(?P<name>◌?[^\W\d◌](?:[\w\'◌]|(?<=\w)-(?=\w))*(?:\.[^\W\d][\w\']*)*◌?|◌\S+◌|_)"
)
COMMENT = re.compile(r'"[^"\n]*"|--[^\n]*')
USE = re.compile(r"use Rattle\.([\w.]+)(?:\.\{([^}]*)\}| as (\w+))\s*\Z")
HEAD = re.compile(r"(?:abbrev|unfoldable) pub ([^\s:]+) :|(?:pub )?(data|record) (\S+)|pub mod |use ")
# constructors whose names begin with a small letter
SMALL = ("true", "false", "zero", "suc")


class Unread(Exception):
    """That something stands in a file which this reader does not know."""


class Term(NamedTuple):
    kind: str
    parts: tuple
    place: tuple  # the file, the line, and the number of the token


class Equation(NamedTuple):
    patterns: tuple
    body: Term
    place: tuple


class Token(NamedTuple):
    kind: str
    text: str
    place: tuple


class Definition:
    """The equations of a name, which are read when they are asked for."""

    def __init__(self, module, name, begin):
        self.module, self.name, self.begin = module, name, begin
        self.sources, self.read = [], None

    @property
    def equations(self):
        if self.read is None:
            self.read = [equation(self, self.module.tokens(*it)) for it in self.sources]
        return self.read


class Clause(NamedTuple):
    """A field of a record: the names that it binds, what has to be equal, and what follows."""

    name: str
    bound: tuple
    premises: tuple
    conclusion: Term


class Module:
    """A file of a crate's specs/: what it takes from others, its definitions, its constructors, and its records by field."""

    def __init__(self, name, path):
        self.name, self.path = name, path
        self.taken, self.aliases = {}, {}
        self.definitions, self.makers, self.records, self.parameters = {}, {}, {}, {}
        text = COMMENT.sub(lambda it: it[0] if it[0].startswith('"') else "", path.read_text())
        for begin, item in items(text):
            self.take(begin, item)

    def take(self, begin, item):
        head = HEAD.match(item)
        if head is None:
            name = item.split(None, 1)[0]
            if name not in self.definitions:
                raise Unread(f"{self.path}:{begin}: {name} has no type")
            self.definitions[name].sources.append((begin, item))
        elif head[1]:
            self.definitions[head[1]] = Definition(self, head[1], begin)
        elif head[2]:
            fields = [line.strip() for line in joined(item).split("\n")[1:]]
            self.makers[head[3]] = head[3]
            if head[2] == "data":
                self.makers.update({it.split(" :", 1)[0].strip(): head[3] for it in fields if " :" in it})
            else:
                self.records[head[3]] = (begin, fields)
                self.parameters[head[3]] = [it for group in re.findall(r"\(([^:()]+) :", joined(item).split("\n")[0]) for it in group.split()]
        elif item.startswith("use "):
            self.use(begin, item)

    def use(self, begin, item):
        found = USE.match(item)
        if not found:
            raise Unread(f"{self.path}:{begin}: {item}")
        if found[3]:
            self.aliases[found[3]] = found[1]
        for it in (found[2] or "").split(","):
            name, _, alias = it.strip().partition(" as ")
            self.taken[alias or name] = (found[1], name)

    def tokens(self, begin, text):
        """Returns the tokens of an item that begins at a line."""
        found, at, line = [], 0, begin
        while at < len(text):
            it = TOKEN.match(text, at)
            if not it:
                raise Unread(f"{self.path}:{line}: {text[at:at + 30]!r}")
            if it.lastgroup == "space":
                line += it[0].count("\n")
            else:
                found.append(Token(it.lastgroup, it[it.lastgroup], (self.name, line, len(found))))
            at = it.end()
        return found

    def clauses(self, record):
        """Returns the fields of a record as clauses."""
        begin, fields = self.records[record]
        return [clause(self, begin, it) for it in fields if it]


def items(text):
    """Yields what begins at the start of a line, with the lines after it that are indented, and the number of its first line."""
    begin, lines = 0, []
    for number, line in enumerate(text.split("\n"), 1):
        if line[:1].strip() and line[0] != "}":
            if lines:
                yield begin, "\n".join(lines).rstrip()
            begin, lines = number, []
        if lines or line.strip():
            lines.append(line)
    if lines:
        yield begin, "\n".join(lines).rstrip()


def joined(item):
    """Returns a data type or record with each field in one line: what is indented more goes on."""
    return re.sub(r"\n {3,}", " ", item)


class Reader:
    """Reads terms from the tokens of one item."""

    def __init__(self, tokens, what):
        self.tokens, self.at, self.what = tokens, 0, what

    def peek(self):
        return self.tokens[self.at].text if self.at < len(self.tokens) and self.tokens[self.at].kind != "text" else None

    def next(self):
        if self.at == len(self.tokens):
            raise Unread(f"{self.what}: it ends too early")
        self.at += 1
        return self.tokens[self.at - 1]

    def need(self, text):
        token = self.next()
        if token.text != text or token.kind == "text":
            raise Unread(f"{self.what}: {token.text!r} at {token.place[:2]}, where {text!r} has to stand")
        return token

    def term(self, least=0):
        left = self.prefix()
        while self.at < len(self.tokens) and self.tokens[self.at].kind == "sign":
            sign = self.tokens[self.at]
            if sign.text not in STRENGTH:
                break
            strength, is_right = STRENGTH[sign.text]
            if strength < least:
                break
            self.at += 1
            right = self.term(strength + (not is_right))
            left = Term("op", (sign.text, left, right), sign.place)
        return left

    def prefix(self):
        word = self.peek()
        if word == "if":
            place = self.next().place
            test = self.term()
            self.need("then")
            yes = self.term()
            self.need("else")
            return Term("if", (test, yes, self.term()), place)
        if word == "λ":
            place, names = self.next().place, []
            while self.peek() != ".":
                # (a name with a point after it is one token only where another name follows)
                names.append(self.next().text)
            self.need(".")
            return Term("lambda", (tuple(names), self.term()), place)
        if word == "record":
            return self.record()
        return self.application()

    def record(self):
        place = self.next().place
        base = None if self.peek() == "{" else self.atom()
        self.need("{")
        fields = []
        while self.peek() != "}":
            name = self.next().text
            self.need("=")
            fields.append((name, self.term()))
            if self.peek() == ";":
                self.next()
        self.need("}")
        return Term("record", (base, tuple(fields)), place)

    def application(self):
        function, arguments = self.atom(), []
        while self.starts_atom():
            if self.peek() == "{":
                self.next()
                self.term()
                self.need("}")
                continue
            arguments.append(self.atom())
        if not arguments:
            return function
        if function.kind == "name" and function.parts == ("cond",) and len(arguments) == 3:
            return Term("if", tuple(arguments), function.place)
        return Term("apply", (function, tuple(arguments)), function.place)

    def starts_atom(self):
        if self.at == len(self.tokens):
            return False
        token = self.tokens[self.at]
        return token.kind in ("text", "number") or token.text in ("(", "[]", "{") or (token.kind == "name" and token.text not in ("then", "else"))

    def atom(self):
        token = self.next()
        if token.kind == "text":
            return Term("text", (token.text,), token.place)
        if token.kind == "number":
            return Term("number", (int(token.text),), token.place)
        if token.text == "[]":
            return Term("nil", (), token.place)
        if token.text == "(":
            inside = self.term()
            self.need(")")
            return inside
        if token.kind == "name":
            return Term("name", (token.text,), token.place)
        raise Unread(f"{self.what}: {token.text!r} at {token.place[:2]}")

    def pattern(self):
        """Reads one pattern that stands as an argument."""
        token = self.next()
        if token.kind == "number":
            return ("number", int(token.text))
        if token.text == "[]":
            return ("nil",)
        if token.text == "_":
            return ("any",)
        if token.text == "(":
            inside = self.whole_pattern()
            self.need(")")
            return inside
        if token.kind != "name":
            raise Unread(f"{self.what}: the pattern {token.text!r} at {token.place[:2]}")
        return ("make", token.text, ()) if is_constructor(token.text) else ("bind", token.text)

    def whole_pattern(self):
        if self.peek() and is_constructor(self.peek()) and self.tokens[self.at].kind == "name":
            name, parts = self.next().text, []
            while self.peek() not in (")", "∷", None):
                parts.append(self.pattern())
            first = ("make", name, tuple(parts))
        else:
            first = self.pattern()
        if self.peek() == "∷":
            self.next()
            return ("cons", first, self.whole_pattern())
        return first


def is_constructor(name):
    return name.rpartition(".")[2][:1].isupper() or name in SMALL


def equation(definition, tokens):
    reader = Reader(tokens, f"{definition.module.name} {definition.name}")
    place, patterns = reader.next().place, []
    while reader.peek() != "=":
        patterns.append(reader.pattern())
    reader.need("=")
    body = reader.term()
    if reader.at < len(tokens):
        raise Unread(f"{reader.what}: {tokens[reader.at].text!r} at {tokens[reader.at].place[:2]}")
    return Equation(tuple(patterns), body, place)


def clause(module, begin, field):
    """Reads a field `pub name : (x : T) → l ≡ r → .. → conclusion`."""
    tokens = module.tokens(begin, field.removeprefix("pub "))
    reader = Reader(tokens, f"{module.name} {tokens[0].text}")
    name = reader.next().text
    reader.need(":")
    bound, premises = [], []
    while True:
        if reader.peek() == "(" and tokens[reader.at + 2].text == ":":
            reader.next()
            bound.append(reader.next().text)
            while reader.next().text != ")":
                pass
        else:
            term = reader.term()
            if reader.at == len(tokens):
                return Clause(name, tuple(bound), tuple(premises), term)
            premises.append(term)
        reader.need("→")


class Specs:
    """The files of specs/ of all crates, each read once it is asked for."""

    def __init__(self, crates):
        self.crates, self.modules = Path(crates), {}

    def module(self, name):
        """Returns the file of a name like html_names.specs.Sets, or None where there is none, as of what Rattle's types declare."""
        if name not in self.modules:
            crate, _, rest = name.partition(".specs.")
            path = self.crates / crate / "specs" / (rest.replace(".", "/") + ".antt")
            self.modules[name] = Module(name, path) if path.is_file() else None
        return self.modules[name]
