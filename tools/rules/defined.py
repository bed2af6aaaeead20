"""The words and questions of the tables as specs/ define them, beside what words.py makes of them: on the same state, and with the same outcome."""
from rules.evaluating import NONE, Record, Rules, made, some
from rules.words import MARKER, NAMES, attributes, codes

WORDS, REOPENING, ADOPTING = "html_construction.specs.Words", "html_open.specs.Reopening", "html_open.specs.Adopting"
SEARCHING, CLOSING = "html_tree.specs.Searching", "html_tree.specs.Closing"
# the statements that are compared, beside the words and questions
STATED = [(REOPENING, "Reopened")] + [(ADOPTING, it) for it in ("Popped", "NoEntry", "Forgotten", "OutOfScope", "Closed", "Round")]
# what is counted is not compared
UNCOUNTED = {("html_arena.specs.Tree", "more"): (2, lambda n, k: 0), ("html_arena.specs.Make", "made_weight"): (2, lambda tree, new: 0)}
UNCOUNTED |= {("html_arena.specs.Weight", "capped"): (1, lambda n: 0), ("html_construction.specs.Calls", "counting"): (2, lambda n, tree: tree)}
# the fields of a state that a word may change
FIELDS = "mode original templates quirks frameset_ok fostering outer_form began depth nodes".split()
TREE = "stack list head form detached".split()
ARENA = "labels parents children".split()
LEDGER = "fates history kept errors".split()


def number(node):
    return some(node.number) if node else NONE


def optional(text):
    return NONE if text is None else some(codes(text))


def origin_of(node):
    return made("Implied") if node.origin is None else made("Token", node.origin)


def label(node):
    """Returns a node without its links."""
    if node.kind == "element":
        named = {"name": codes(node.name), "tag": node.tag, "attrs": attributes(node.attributes.items()), "origin": origin_of(node)}
        return made("Element", Record(None, {**named, "is_clone": node.is_clone, "contents": number(node.contents)}))
    if node.kind == "contents":
        return made("Contents", node.host.number)
    if node.kind == "text":
        return made("Text", codes(node.data))
    if node.kind == "comment":
        return made("Comment", codes(node.data), node.origin)
    if node.kind == "doctype":
        return made("Doctype", *map(optional, node.data), node.origin)
    return made("Document")


def arena(state):
    nodes = state.document.nodes
    columns = {"labels": tuple(map(label, nodes)), "parents": tuple(number(it.parent) for it in nodes)}
    columns["children"] = tuple(tuple(one.number for one in it.children) for it in nodes)
    return Record(None, {**columns, "marks": (), "held": 0, "steps": 0, "limits": NONE})


def tree(state):
    own = state.tree
    fields = {"stack": tuple(it.number for it in own.stack), "tree": arena(state), "head": own.head, "form": own.form, "detached": own.detached}
    fields["list"] = tuple(made("Marker") if it is MARKER else made("Node", it.number) for it in own.list)
    return Record(None, {**fields, "steps": 0, "tokens": 0})


def whole(state):
    """Returns a state as the definitions have it."""
    ledger = state.ledger
    kept = {"fates": tuple(ledger.fates), "history": ledger.history, "kept": tuple(ord(it.data) for it in ledger.kept), "errors": tuple(ledger.errors)}
    fields = {it: getattr(state, it) for it in FIELDS}
    fields |= {"tree": tree(state), "stack": state.stack, "ledger": Record(None, kept), "context": state.context, "parses_foreign": state.parses_foreign}
    return Record(None, fields)


class Defined:
    """What the definitions say of words and questions. `told` gets each that they say otherwise."""

    def __init__(self, specs, changed=()):
        self.rules, self.told, self.words = Rules(specs, UNCOUNTED, changed), [], set()

    def did(self, word, token, before, after):
        """Compares what a word made of a state with what the definition makes of it."""
        self.words.add(word[0])
        self.compare(f"{word!r}", self.rules.value(WORDS, "after", word, token, before), after)

    def compare(self, what, wanted, after):
        parts = [(FIELDS, wanted, after), (TREE, wanted.tree, after.tree), (ARENA, wanted.tree.tree, after.tree.tree), (LEDGER, wanted.ledger, after.ledger)]
        for names, one, other in parts:
            for it in names:
                if getattr(one, it) != getattr(other, it):
                    self.told.append(f"{what}: {it} is {getattr(other, it)!r}, by its definition {getattr(one, it)!r}")

    def answered(self, query, token, before, answer):
        self.words.add(query[0])
        if bool(self.rules.value(WORDS, "answer", query, token, before)) != answer:
            self.told.append(f"{query!r}: {answer}, by its definition not")

    def reopened(self, fostering, before, after):
        """Compares the reconstruction of the active formatting elements with its definition."""
        self.words.add("Reopened")
        self.told += self.rules.unheld(REOPENING, "Reopened", (fostering, before.tree, after.tree))

    def adopted(self, name, nodes, subject, fostering, before, after):
        """Compares a step of the adoption agency algorithm with its definition."""
        self.words.add(name)
        old, new = before.tree, after.tree
        if name == "OtherEndTag":
            at = self.rules.value(SEARCHING, "found_name", old, self.rules.value(NAMES, "name_of", subject))
            if new.stack != self.rules.value(CLOSING, "before_index", at, old.stack):
                self.told.append(f"the end tag {subject!r}: the stack is {new.stack!r}")
            return
        numbers = {it: [one.number for one in these] if isinstance(these, list) else these.number for it, these in nodes.items()}
        numbers = {it: tuple(these) if isinstance(these, list) else these for it, these in numbers.items()}
        self.told += self.rules.unheld(ADOPTING, name, (subject, fostering, old, new) if name == "Round" else (subject, old, new), numbers)
