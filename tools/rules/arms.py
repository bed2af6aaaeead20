"""The arms of the tables: each equation of a name, each side of an if, each clause of the dispatcher, and each answer to a question of a plan."""
import re

from rules.evaluating import Value, made
from rules.running import DISPATCHING, FOREIGN, FOREIGN_TABLE, RECORDS, TABLES
from rules.words import READ, RESETTING

# code points that the tables tell apart
CHARACTERS = (0, 9, 10, 12, 13, 32, 97)


class Arms:
    """All arms, by a label in words, with the places at which they are noted."""

    def __init__(self, rules):
        self.rules, self.labels, self.called = rules, {}, {}
        starts = [it for module, record, _ in RECORDS for it in self.add_clauses(module, record)]
        starts += [(TABLES, "plan"), (RESETTING, "reset_mode"), (DISPATCHING, "settled")]
        starts += [(FOREIGN, "stack_after"), *READ]
        self.reached = reached_from(rules, starts)
        for it in self.reached:
            self.add_definition(*it)
        self.add_questions()

    def modes(self):
        """Returns the insertion modes, as html_construction declares them."""
        text = (self.rules.specs.crates / "html_construction/src/mode.rt").read_text()
        return re.findall(r"\w+", re.search(r"pub enum Mode \{([^}]*)\}", text)[1])

    def add_clauses(self, module, record):
        """Adds the clauses of a record, and returns what they stand on."""
        found, starts = self.rules.specs.module(module), []
        for it in found.clauses(record):
            head, parts = it.conclusion.parts if it.conclusion.kind == "apply" else (it.conclusion, ())
            starts += [one for term in (*it.premises, *parts) for one in definitions_in(self.rules, found, term)]
            self.labels.setdefault(f"{short(module)}: clause {it.name}", set()).add((*head.place, it.name))
        return starts

    def add_definition(self, module, name):
        found = self.rules.specs.module(module)
        for it in self.rules.equations(found.definitions[name]):
            what = f"{short(module)}: {name} {' '.join(map(shown_pattern, it.patterns))}".rstrip()
            self.labels.setdefault(what, set()).add(it.place)
            for term in ifs_in(it.body):
                self.labels.setdefault(f"{what}, if {shown(term.parts[0])}: then", set()).add((*term.place, "then"))
                self.labels.setdefault(f"{what}, if {shown(term.parts[0])}: else", set()).add((*term.place, "else"))

    # QUESTIONS

    def symbols(self):
        tags = [made(it.patterns[0][1].rpartition(".")[2]) for it in self.rules.specs.module("html_names.specs.Names").definitions["name_of"].equations]
        own = [it for it in tags if not it[0].startswith(("Svg", "Math")) or it[0] in ("Svg", "Math")]
        yield from (made(kind, it) for kind in ("Start", "End") for it in own)
        yield from (made("Char", it) for it in CHARACTERS)
        yield from (made(it) for it in ("Comment", "Doctype", "Eof"))

    def add_questions(self):
        """Adds the answers to the questions of the plan of each mode for each token, and of those for tokens that stay in foreign content."""
        for symbol in self.symbols():
            self.add_plan(self.rules.remembered(FOREIGN_TABLE, "in_foreign", made("Svg"), symbol), "InForeign", symbol)
        for mode in self.modes():
            for symbol in self.symbols():
                self.add_plan(self.rules.remembered(TABLES, "plan", made(mode), symbol), mode, symbol)
                self.rules.arms()

    def add_plan(self, plan, mode, symbol):
        if not isinstance(plan, Value):
            return
        if plan[0] == "Ask":
            path = [*map(self.call_at, plan.site)]
            for answer in (True, False):
                label = f"{mode}: {' > '.join(path)} {plan[1]!r}: {'yes' if answer else 'no'}"
                self.labels.setdefault(label, set()).add((plan.site, answer))
        for it in plan[1:]:
            self.add_plan(it, mode, symbol)

    def call_at(self, place):
        """Returns the name that stands at a place, with its number where its definition has it several times."""
        file, line, _ = place
        if file not in self.called:
            self.called[file] = {}
            found = self.rules.specs.module(file)
            for name in (name for module, name in self.reached if module == file):
                self.called[file].update(numbered([it.body for it in self.rules.equations(found.definitions[name])]))
        return self.called[file][place]


def definitions_in(rules, module, term):
    """Yields the definitions that a term names, each as its file and its name."""
    for it in names_in(term):
        name = it.parts[0]
        if name.partition(".")[0] not in module.aliases and (name in module.definitions or name in module.taken):
            found = rules.resolved(module, name)
            if found[0] == "call" and (found[2], found[1]) not in rules.given:
                yield found[2], found[1]


def reached_from(rules, starts):
    """Returns these definitions, and all on which they stand."""
    reached, waiting = {}, [*starts]
    while waiting:
        module, name = waiting.pop()
        if (module, name) not in reached:
            found, reached[module, name] = rules.specs.module(module), True
            waiting += [one for it in rules.equations(found.definitions[name]) for one in definitions_in(rules, found, it.body)]
    return [*reached]


def numbered(bodies):
    """Returns, by its place, each name in some terms, with its number where there are more of it."""
    places = {}
    for it in (name for body in bodies for name in names_in(body)):
        places.setdefault(it.parts[0], []).append(it.place)
    return {at: name if len(these) == 1 else f"{name} {1 + number}" for name, these in places.items() for number, at in enumerate(these)}


def short(module):
    return module.rpartition(".specs.")[2] or module


def terms_in(term):
    """Yields a term, and all terms in it."""
    if hasattr(term, "kind"):
        yield term
        for it in term.parts:
            yield from terms_in(it)
    elif isinstance(term, tuple):
        for it in term:
            yield from terms_in(it)


def names_in(term):
    return (it for it in terms_in(term) if it.kind == "name")


def ifs_in(term):
    return (it for it in terms_in(term) if it.kind == "if")


def shown_pattern(pattern):
    kind = pattern[0]
    if kind in ("bind", "number"):
        return str(pattern[1])
    if kind == "make":
        inside = " ".join([pattern[1], *map(shown_pattern, pattern[2])])
        return f"({inside})" if pattern[2] else inside
    if kind == "cons":
        return f"({shown_pattern(pattern[1])} ∷ {shown_pattern(pattern[2])})"
    return {"any": "_", "nil": "[]"}[kind]


def shown(term):
    """Returns a term in words."""
    kind, parts = term.kind, term.parts
    if kind in ("name", "number"):
        return str(parts[0])
    if kind == "text":
        return f'"{parts[0]}"'
    if kind == "nil":
        return "[]"
    if kind == "apply":
        return " ".join([shown(parts[0]), *(f"({shown(it)})" if it.kind in ("apply", "op", "if", "lambda") else shown(it) for it in parts[1])])
    if kind == "op":
        return f"{shown(parts[1])} {parts[0]} {shown(parts[2])}"
    if kind == "if":
        return f"if {shown(parts[0])} .."
    return kind
