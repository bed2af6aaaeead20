"""The pages over which the tables are run, each with what is expected of it: cases in html5lib's form, and pages that the model reads."""
import random
from pathlib import Path
from typing import NamedTuple

from pages import CONTEXTS, module_of, page

# the folders and files of cases below a folder of suites
CASES = ("html5lib-tests/tree-construction", "corpus/cases", "corpus/foreign", "corpus/profile-only.dat")
OWN = Path(__file__).resolve().parent / "pages.dat"


class Missing(Exception):
    """That there are no cases where some have to be."""


class Page(NamedTuple):
    """A page, by a name; the context of a fragment, or None; the tree that a file of cases has for it, or None; and whether foreign content is parsed, or
    refused."""

    name: str
    text: bytes
    context: str = None
    tree: bytes = None
    parses_foreign: bool = True


def cases_of(path):
    """Yields the cases of a file in html5lib's form, but for those with scripting."""
    for number, part in enumerate((b"\n" + path.read_bytes()).split(b"\n#data\n")[1:], 1):
        data, _, rest = (b"\n" + part).partition(b"\n#errors\n")
        head, found, tree = rest.partition(b"#document\n")
        if not found:
            raise Missing(f"{path}: case {number} has no tree")
        words = head.decode(errors="replace").split("\n")
        if "#script-on" in words:
            continue
        context = words[words.index("#document-fragment") + 1] if "#document-fragment" in words else None
        yield Page(f"{path.name} {number}", data[1:], context, tree.rstrip(b"\n") + b"\n" if tree.strip() else b"")


def cases(suites):
    """Returns the cases of a folder of suites, and our own."""
    found = []
    for it in [*(Path(suites, it) for it in CASES), OWN]:
        files = sorted(it.glob("*.dat")) if it.is_dir() else [it] if it.is_file() else []
        here = [case for file in files for case in cases_of(file)]
        if not here:
            raise Missing(f"there are no cases in {it}")
        found += here
    return found


def random_pages(suites, count, seed):
    """Returns so many pages of pieces of markup, and about as many with foreign content."""
    chance = random.Random(seed)
    found = [Page(f"random page {it}", page(chance, False), chance.choice(CONTEXTS) if chance.random() < 0.4 else None) for it in range(count)]
    made = module_of(suites, "foreign_pages")
    for at, (kind, text, context) in enumerate(made.cases(seed, -(-count // len(made.CATS)))):
        found.append(Page(f"foreign page {at} of {kind}", text, context))
    return found
