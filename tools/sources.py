"""The functions of a crate's src/, and the one whose body an edit changes."""
import os
import re
from pathlib import Path
from typing import NamedTuple

from kit import rt

CLAUSE = re.compile(r"\b(requires|ensures|ghost|measure|decreases)\b")
IMPL = re.compile(r"(?m)^[ \t]*(?:unsafe\s+)?impl\b([^{;]*)\{")
FUNCTION = re.compile(r"\bfn\s+(\w+)")
# the attributes of a function, its visibility, and what else may stand before its `fn`
BEFORE = re.compile(r"(?:#\[[^\]]*\]\s*)*(?:(pub\b(?:\([^)]*\))?)\s*)?((?:(?:const|unsafe)\s+)*)\Z")
PAIRS = {"(": "()", "[": "[]", "{": "{}"}


class Owner(NamedTuple):
    """What an impl is for: a type, the trait or '', and the words of the trait's arguments."""

    type: str = ""
    trait: str = ""
    arguments: str = ""


class Function(NamedTuple):
    """A function with a body. Places are bytes of its file."""

    file: str
    module: str
    owner: Owner
    name: str
    begin: int  # where its first attribute begins, or it itself
    is_public: bool
    is_constant: bool
    head_end: int  # where its last clause ends, or its signature
    start: int  # its body's brackets
    end: int
    lines: range


class Edit(NamedTuple):
    """An edit that was read: a splice in the body of a function, which the checker calls `function`; None where there is none."""

    path: str
    function: str = None
    place: Function = None
    start: int = 0
    end: int = 0
    new: bytes = b""

    def label(self):
        return os.path.basename(self.path)

    def names(self):
        """Returns what no other edit of the same check may have: its function, and the functions that it adds to the file."""
        added = FUNCTION.findall(self.new.decode(errors="replace"))
        return {self.function, *((self.place.file, it) for it in added)}


def closing(text, at):
    """Returns where the bracket at `at` closes."""
    opens, closes = PAIRS[text[at]]
    depth = 0
    for found in re.compile(f"[{re.escape(opens + closes)}]").finditer(text, at):
        depth += 1 if found[0] == opens else -1
        if depth == 0:
            return found.start()
    raise ValueError("a bracket is never closed")


def body_of(text, at):
    """Returns, of the function whose name ends at `at`, where its last clause ends, and its body's start and end; None without a body."""
    head_end = at
    while found := re.compile(r"[({\[;]").search(text, at):
        if found[0] == ";":
            return None
        end = closing(text, found.start())
        if found[0] == "{" and not CLAUSE.search(text, head_end, found.start()):
            return head_end, found.start(), end
        at = end + 1
        if found[0] == "{":
            head_end = at
    return None


def owner_of(header):
    """Reads what stands between `impl` and its bracket."""
    header = re.split(r"\bwhere\b", re.sub(r"^\s*<[^<>]*>", "", header))[0]
    trait, _, type_ = header.rpartition(" for ")
    last_word = lambda text: (re.findall(r"\w+", text.partition("<")[0]) or [""])[-1]
    return Owner(last_word(type_), last_word(trait), "".join(re.findall(r"\w+", trait.partition("<")[2])))


def functions_of_file(file, text):
    """Returns the functions of a file whose text has no comments and strings, one character a byte."""
    module = re.sub(r"(^|/)(lib|main|mod)$", "", file[len("src/") : -len(".rt")]).replace("/", "::")
    impls = [(it.end(), closing(text, it.end() - 1), owner_of(it[1])) for it in IMPL.finditer(text)]
    line = lambda at: 1 + text.count("\n", 0, at)
    found = []
    for it in FUNCTION.finditer(text):
        body = body_of(text, it.end())
        if body:
            owner = next((who for start, end, who in impls if start <= it.start() < end), Owner())
            # (the checker's place of a function is its first attribute's)
            before = BEFORE.search(text, max(0, text.rfind("\n\n", 0, it.start())), it.start())
            lines = range(line(before.start()), line(body[2]) + 1)
            found.append(Function(file, module, owner, it[1], before.start(), before[1] == "pub", "const" in before[2], *body, lines))
    return found


def functions_of(crate):
    found = []
    for path, text in rt.rtlib.blanked(crate.folder).items():
        file = os.path.relpath(path, crate.folder)
        if file.startswith("src/"):
            found += functions_of_file(file, text.encode().decode("latin-1"))
    return found


def fitting_names(crate, function, names):
    """Returns those of the checker's names that can be the function's."""
    type_, trait, arguments = function.owner
    inside = "::".join(it for it in (crate.name, function.module) if it)
    if not type_:
        return [it for it in names if it == f"{inside}::{function.name}"]
    # a method has the module of its type, which may be another than that of the impl
    rest = r"\w*" if trait else ""
    fitting = [it for it in names if re.search(f"::{type_}{trait}{rest}::{function.name}$", it)]
    for better in (f"::{type_}{trait}{arguments}::", f"{inside}::{type_}"):
        if len(fitting) > 1:
            fitting = [it for it in fitting if better in it]
    return fitting


def checked_names(crate, functions, names):
    """Returns a dict from each function to the name by which the checker reports it, of those where both determine each other."""
    fitting = {it: fitting_names(crate, it, names) for it in functions}
    sole = {function: these[0] for function, these in fitting.items() if len(these) == 1}
    return {function: name for function, name in sole.items() if [*sole.values()].count(name) == 1}


def read(crate, path, texts, checked):
    """Returns the edit that leads to these texts, by file. `checked` has the checker's names of functions."""
    if len(texts) != 1:
        return Edit(path)
    [(file, text)] = texts.items()
    old, new = Path(crate.folder, file).read_bytes(), text.encode()
    start = len(os.path.commonprefix([old, new]))
    tail = len(os.path.commonprefix([old[start:][::-1], new[start:][::-1]]))
    end, new = len(old) - tail, new[start : len(new) - tail]
    for function, name in checked.items():
        is_inside = function.start < start and end <= function.end
        # a body before the old one, which then belongs to a function that nothing calls
        is_before = function.head_end <= start == end <= function.start and new.lstrip().startswith(b"{")
        if function.file == file and (is_inside or is_before):
            return Edit(path, name, function, start, end, new)
    return Edit(path)


def spliced(crate, edits):
    """Returns the texts of the files with all these edits, by file."""
    texts = {}
    for file in {it.place.file for it in edits}:
        data = Path(crate.folder, file).read_bytes()
        for edit in sorted((it for it in edits if it.place.file == file), key=lambda it: -it.start):
            data = data[: edit.start] + edit.new + data[edit.end :]
        texts[file] = data.decode()
    return texts
