"""What the tables make of a page, held against what is expected of it."""
from typing import NamedTuple

from rules.reading import Unread
from rules.running import Refused, Run
from rules.words import Wrong


class Expected(NamedTuple):
    """The tree of a page, as a file of cases or the model has it, the fates of its tokens and the numbers of those with an error, as the model has them; or why
    the page is refused."""

    tree: bytes = None
    fates: list = None
    errors: list = None
    refused: str = None


class Checked(NamedTuple):
    """What was found of a page: "same", or what differs; and the arms that were met."""

    found: str
    arms: frozenset


def expected(model, table, page):
    """Returns what is expected of a page, or None where its context is none."""
    try:
        made = model.parse(table, page.text, page.context, foreign=page.parses_foreign)
    except model.BadContext:
        return None
    except model.Foreign as why:
        return Expected(refused=str(why))
    tree = model.tree(made.doc).encode("utf-8", "surrogatepass")
    return Expected(tree if page.tree is None else page.tree, made.fates, made.errors())


def told(fate):
    """Returns a fate as the model tells it."""
    name, *parts = fate
    if name in ("Made", "Foreign", "Text"):
        return f"{'text' if name == 'Text' else 'made'} {parts[0]}"
    return f"dropped {parts[0][0]}" if name == "Dropped" else name.lower()


def first_difference(ones, others):
    at = next((at for at, (one, other) in enumerate(zip(ones, others)) if one != other), min(len(ones), len(others)))
    return f"token {at}: {ones[at] if at < len(ones) else 'nothing'} where {others[at] if at < len(others) else 'nothing'} is expected"


def checked(rules, model, table, page, wanted, defined=None, known=None):
    """Runs a page by the tables; and asks of each word what it is defined to do, where those definitions are given. Tells no arms of answers that are known,
    where these are given."""
    run = Run(rules, model, table, page.text, page.context, parses_foreign=page.parses_foreign, defined=defined)
    try:
        run.whole()
        found = compared(run, wanted)
    except Refused as why:
        found = "same" if wanted.refused and why.args[0] == ("Refused", (wanted.refused.capitalize(),)) else f"it ends by {why.args[0]!r}"
    except (Wrong, Unread, IndexError, ValueError, AttributeError, KeyError, TypeError, RecursionError) as why:
        found = f"{type(why).__name__}: {why}"
    if defined and defined.told:
        found = defined.told[0]
        defined.told.clear()
    return Checked(found, frozenset((*rules.arms(known), *run.asked)))


def compared(run, wanted):
    if wanted.refused:
        return f"it is not refused as {wanted.refused}"
    tree, fates = run.tree(), [told(it) for it in run.state.ledger.fates]
    if tree != wanted.tree:
        ones, others = tree.decode(errors="replace").split("\n"), wanted.tree.decode(errors="replace").split("\n")
        line = next(at for at, (one, other) in enumerate(zip([*ones, None], [*others, None])) if one != other)
        return f"line {line + 1} of the tree is {dict(enumerate(ones)).get(line)!r} where {dict(enumerate(others)).get(line)!r} is expected"
    if fates != wanted.fates:
        return first_difference(fates, wanted.fates)
    errors = run.state.ledger.errors
    return "same" if errors == wanted.errors else f"tokens {errors} have errors where {wanted.errors} are expected to"
