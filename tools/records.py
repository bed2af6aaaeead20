"""What the verdicts on a crate's edits follow from, and at which of it all were refused."""
import functools
import hashlib
import os
import re
from pathlib import Path
from typing import NamedTuple

from kit import rt
from sources import closing, functions_of_file

RECORD = Path("tools/judged")
# what stands in the folder of one function's proof, and is of that proof alone
OF_ONE_PROOF = re.compile(r"/proofs/.+/(Invariants|Answers|Proof)\.antt$")
TRAIT = re.compile(r"\btrait\s+\w[^{;]*\{")
# a name from what is made of one function of a library: its contract, or its own proof
OF_ONE_FUNCTION = re.compile(rb"\bRattle\.(\w+)\.(?:specs\.contracts|proofs\.[a-z])")
# a module of tests
TESTS = re.compile(rb"(?m)^#\[cfg\(test\)\]\nmod (\w+);\n")
# what a file brings in: `pub` where it hands that on, and which names
IMPORT = re.compile(r"(?m)^(pub |pub\([^)]*\) |)(?:ghost )?use\s+([^;]*);\n?")
SUBMODULE = re.compile(r"(?m)^(?:pub(?:\([^)]*\))? )?mod \w+;\n?")
COMMENT = {".rt": re.compile(r"(?m)^\s*//.*\n?"), ".antt": re.compile(r"(?m)^\s*--.*\n?")}
# an impl of a type's own functions, of which none is left
EMPTY = re.compile(r"\bimpl\b(?:(?!\bfor\b)[^{;])*\{\s*\}")
# a file of definitions or lemmas, as texts name it
MODULE = re.compile(r"\b(\w+)(?:\.|::)(specs|proofs)((?:(?:\.|::)\w+)+)")
# the logic of the toolchain, which builds of one kit share: a verdict is about what can be proved, and all builds of a logic agree on that
LOGIC = re.compile(rb"logic \w+")
# what a file declares at its top, an impl there, and the type that it is of
TOP = re.compile(r"(?m)^(?:pub(?:\([^)]*\))? )?(?:(?:const|unsafe|ghost|extern \"C\") )*(?:struct|enum|union|const|static|type|trait|fn|macro|macro_rules!)\s+(\w+)")
IMPL = re.compile(r"(?m)^(?:unsafe )?impl\b")
IMPLS = re.compile(r"(?m)^(?:unsafe )?impl\b(?:<(?:[^<>]|<[^<>]*>)*>)?\s+(?:(?:[^{;\n]|<[^{;]*>)*?\bfor\s+)?(?:&(?:'\w+ )?(?:mut )?)?(?:\w+::)*([A-Za-z_]?\w*)")


functions_in = functools.lru_cache(maxsize=None)(functions_of_file)


def unseen(file, text, words):
    """Yields the spans of a file's text that no crate above can see that has these words, in order: functions that are not public, or not named there, with
    the comments above them, and the bodies of others; but of a trait's functions and of constant ones nothing. `text` has no comments and strings."""
    traits = [range(it.end(), closing(text, it.end() - 1)) for it in TRAIT.finditer(text)]
    end = 0
    for it in sorted(functions_in(file, text), key=lambda it: it.start):
        is_seen = it.is_constant or any(it.start in span for span in traits)
        if it.start >= end and not is_seen:
            is_whole = not (it.owner.trait or it.is_public and it.name in words)
            yield (len(text[: it.begin].rstrip()), it.end + 1) if is_whole else (it.start + 1, it.end)
            end = it.end


def entries(text):
    """Yields what an import brings in, entry by entry: what stands before its brackets, and what it is called."""
    front, opens, rest = text.partition("{")
    if not opens:
        yield text.strip(), (re.findall(r"\w+", text) or [""])[-1]
        return
    depth, part = 0, ""
    for sign in rest:
        depth += (sign == "{") - (sign == "}")
        if depth < 0 or sign == "," and not depth:
            yield from ((front + it, name) for it, name in entries(part) if it)
            part = ""
        else:
            part += sign


def seen(file, data, text, words):
    """Returns what a crate above that has these words can see of a file of src/, without comments, and sorted what of its imports is used there."""
    for start, end in reversed([*unseen(file, text, words)]):
        data = data[:start] + data[end:]
    left = COMMENT[".rt"].sub("", TESTS.sub(b"", data).decode(errors="replace"))
    imports = [(it[1], *entry) for it in IMPORT.finditer(left) for entry in entries(it[2])]
    left = SUBMODULE.sub("", IMPORT.sub("", left))
    if not EMPTY.sub("", left).strip():
        left = ""
    used = {*re.findall(r"\w+", left)}
    kept = sorted(f"{pub}{path}" for pub, path, name in imports if name in used or pub == "pub " and name in words)
    return "\n".join([*kept, *(it for it in left.splitlines() if it.strip())])


def files_of_tests(files):
    """Returns the files that are compiled for tests alone."""
    named = []
    for path in (it for it in map(Path, files) if it.suffix == ".rt"):
        folder = path.parent if path.stem in ("lib", "main", "mod") else path.with_suffix("")
        named += [f"{folder}/{it.decode()}.rt" for it in TESTS.findall(path.read_bytes())]
    return named


def sum_of(data):
    return hashlib.sha256(data).digest()


def sums_of(folder):
    """Returns the files of a crate's folder with the sums of their texts."""
    return [(it, sum_of(Path(it).read_bytes())) for it in rt.rtlib.files_of(folder)]


def bare(path):
    """Returns the text of a file without the comments that begin a line."""
    return COMMENT[Path(path).suffix].sub("", Path(path).read_text(errors="replace"))


@functools.lru_cache(maxsize=None)
def blanked(folder, _sums):
    return rt.rtlib.blanked.__wrapped__(folder)


def sources_seen(folder, words):
    """Yields the files of a library's src/ of which a crate above that has these words sees something, with that."""
    sums = tuple(sums_of(folder))
    files, texts = [it for it, _ in sums], blanked(folder, sums)
    tests = files_of_tests(files)
    for path in files:
        file = os.path.relpath(path, folder)
        if file.startswith("src/") and path.endswith(".rt") and path not in tests:
            if text := seen(file, Path(path).read_bytes(), texts[path].encode().decode("latin-1"), words):
                yield path, text


def impls_in(text):
    """Returns the types that a file's impls are of, an empty word among them where one is not read so."""
    found = IMPLS.findall(text)
    return {*found, *([""] if len(found) < len(IMPL.findall(text)) else [])}


def reached(texts, words):
    """Returns the texts of files that these words lead to: by the name of what a file declares at its top, or of the type of an impl there, or since it
    declares nothing, or has an impl of a type that is none of these files'; and those that the words of such files lead to. What no name leads to occurs in no
    proof."""
    declared = {path: {*TOP.findall(text)} for path, text in texts.items()}
    impls = {path: impls_in(text) for path, text in texts.items()}
    known = set().union(*declared.values())
    left, found, words = dict(texts), {}, set(words)
    while True:
        leads = lambda path: not declared[path] | impls[path] or impls[path] - known or (declared[path] | impls[path]) & words
        more = {path: text for path, text in left.items() if leads(path)}
        if not more:
            return found
        found |= more
        left = {path: text for path, text in left.items() if path not in more}
        words |= {word for text in more.values() for word in re.findall(r"\w+", text)}


def named_files(text, own, folders):
    """Yields the files of definitions and lemmas that a text names, of these folders by the crate's name; `own` is the name of its crate."""
    for name, part, path in MODULE.findall(text):
        steps = re.findall(r"\w+", path)
        folder = folders.get(own if name == "crate" else name)
        if folder:
            paths = (f"{folder}/{part}/{'/'.join(steps[:it])}.antt" for it in range(len(steps), 0, -1))
            yield from (it for it in paths if os.path.isfile(it))


def seen_from(crate):
    """Returns the files of the libraries below that a crate's verdicts can hang on, with the sums of what counts of each: contracts of functions that the
    crate's texts name, all that is no function, and the files of definitions and lemmas that are named there or by the crate, or by such files."""
    folders = {it.name: it.folder for it in crate.below()}
    own = "\n".join(Path(it).read_text(errors="replace") for it in rt.rtlib.files_of(crate.folder))
    words = {*re.findall(r"\w+", own)}
    found = reached({path: text for folder in folders.values() for path, text in sources_seen(folder, words)}, words)
    owner = lambda path: next(name for name, folder in folders.items() if path.startswith(f"{folder}/"))
    waiting = [*named_files(own, crate.name, folders)]
    waiting += [it for path, text in found.items() for it in named_files(text, owner(path), folders)]
    while waiting:
        path = waiting.pop()
        if path not in found:
            found[path] = bare(path)
            waiting += named_files(found[path], owner(path), folders)
    return [(path, sum_of(text.encode())) for path, text in found.items()]


@functools.lru_cache(maxsize=None)
def opened(name, folder, _sums):
    """Returns the other libraries of which this crate's files name what is made of one function, also of one that they cannot call."""
    return {it.decode() for path in rt.rtlib.files_of(folder) for it in OF_ONE_FUNCTION.findall(Path(path).read_bytes())} - {name}


def own_sums(crate):
    """Returns the files of the crate itself with their sums, those of definitions and lemmas without comments, and sources without those that begin a line."""
    texts = {it: data for it, data in sums_of(crate.folder)}
    for path in texts:
        if Path(path).suffix in COMMENT:
            texts[path] = sum_of(bare(path).encode())
    return [*texts.items()]


def digest(crate):
    """Returns what tells apart all that the verdicts on a crate's edits follow from: the toolchain's logic, the edits, the texts of the crate, and of those
    below what they can hang on; but all of a library of which the crate, or one below, names more. A program is linked with all that it reaches."""
    sums, named = own_sums(crate), set()
    for it in (crate, *crate.below()):
        named |= opened(it.name, it.folder, tuple(sums_of(it.folder)))
    if crate.is_program:
        named |= {it.name for it in crate.below()}
    for below in crate.below():
        if below.name in named:
            sums += sums_of(below.folder)
    whole = {it for it, _ in sums}
    sums += [it for it in seen_from(crate) if it[0] not in whole]
    if os.path.isdir(f"{crate.folder}/edits"):
        sums += [(str(it), sum_of(it.read_bytes())) for it in Path(crate.folder, "edits").iterdir()]
    kit = Path(rt.KIT, "KIT-ID").read_bytes()
    found = hashlib.sha256((LOGIC.search(kit) or [kit])[0])
    for path, sum_of_text in sorted(sums):
        found.update(f"\0{os.path.relpath(path)}\0".encode() + sum_of_text)
    return found.hexdigest()
class Verdicts(NamedTuple):
    """That all edits of a crate were refused: the digest at which they were, and how many seconds it took."""

    digest: str
    seconds: int


def recorded():
    """Returns the verdicts by the crate's name, as `judge --record` wrote them."""
    rows = [it.split() for it in RECORD.read_text().splitlines()] if RECORD.is_file() else []
    return {name: Verdicts(at, int(seconds)) for name, at, seconds in rows}


def record(crate, seconds):
    known = {**recorded(), crate.name: Verdicts(digest(crate), round(seconds))}
    RECORD.write_text("".join(f"{name} {known[name].digest} {known[name].seconds}\n" for name in sorted(known)))
