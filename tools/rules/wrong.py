"""Faults to plant in the tables: an arm left out, two names exchanged, a word left out, another scope, and the like."""
import random
from typing import NamedTuple

from rules.arms import definitions_in, reached_from, short, shown, shown_pattern, terms_in
from rules.defined import STATED, WORDS
from rules.reading import Equation, Term
from rules.running import RECORDS

# the files whose definitions are no tables: lists, texts and the numbers of tags
OTHERS = ("html_names.specs.Names", "html_names.specs.Tags", "html_open.specs.Lists")
SCOPES = ("Default", "ListItem", "Button", "Table", "Select")
CAUSES = ("PrologSpace", "Null", "LeadingNewline", "InSelect", "InFrameset", "Misplaced", "InColumnGroup")
SETS = ("html_names.specs.Sets", "html_names.specs.Groups")
# what goes on without what stands before it, by how many arguments come before that
ONWARD = {"Do": 1, "Reconstruct": 0, "Adopt": 1, "CloseLink": 0, "Foster": 0}


class Fault(NamedTuple):
    """A fault: its kind, what it is in words, the definition's file and name, and the equations that it has with it. The arms of the pages that may see it,
    those first that rather do; None of what words are defined by."""

    kind: str
    label: str
    key: tuple
    equations: tuple
    arms: tuple


def replaced(term, old, new):
    """Returns a term, or some, in which another stands for a part of it."""
    if term is old:
        return new
    if isinstance(term, Term):
        return Term(term.kind, replaced(term.parts, old, new), term.place)
    return tuple(replaced(it, old, new) for it in term) if isinstance(term, tuple) else term


def named(term, name):
    return Term("name", (name,), term.place)


def is_call(term, name):
    return term.kind == "apply" and term.parts[0].kind == "name" and term.parts[0].parts[0] == name


def arms_of(equation, part):
    """Returns the innermost arm of an equation that a part of it stands in; before it, where the part is an if or stands in its test, that if's first side."""
    arms = [equation.place]
    for it in terms_in(equation.body):
        if it.kind == "if":
            for side, name in ((it.parts[1], "then"), (it.parts[2], "else")):
                if any(one is part for one in terms_in(side)):
                    arms = [(*it.place, name)]
            if it is part or any(one is part for one in terms_in(it.parts[0])):
                arms.insert(0, (*it.place, "then"))
    return tuple(arms)


def stated(rules):
    """Yields the definitions on which the statements stand that are compared beside words and questions."""
    for module, record in STATED:
        found = rules.specs.module(module)
        for it in found.clauses(record):
            yield from definitions_in(rules, found, it.conclusion)


def heads_in(body):
    """Returns of each name that is an argument, by its identity, the name of what is called."""
    calls = [it for it in terms_in(body) if it.kind == "apply" and it.parts[0].kind == "name"]
    return {id(one): it.parts[0].parts[0] for it in calls for one in it.parts[1] if one.kind == "name"}


class Faults:
    """All faults that these tools know, of the definitions that the tables reach."""

    def __init__(self, rules, defined, arms, seed):
        self.rules, self.chance, self.modes = rules, random.Random(seed), arms.modes()
        self.found, of_words = [], reached_from(defined.rules, [(WORDS, "after"), (WORDS, "answer"), *stated(defined.rules)])
        for module, name in sorted({*arms.reached, *of_words}):
            if module not in OTHERS:
                self.of_definition(rules.specs.module(module), name, (module, name) in arms.reached)
        for module, record, _ in RECORDS:
            self.of_record(rules.specs.module(module), record)

    def of_definition(self, module, name, is_of_tables):
        equations = tuple(self.rules.equations(module.definitions[name]))
        for at, it in enumerate(equations):
            what = f"{short(module.name)}: {name} {' '.join(map(shown_pattern, it.patterns))}".rstrip()
            if at + 1 < len(equations) and equations[-1].patterns[-1][0] in ("any", "bind"):
                self.add("an equation left out", f"{what}: left out", module, name, equations[:at] + equations[at + 1 :], (it.place,) if is_of_tables else None)
            self.heads = heads_in(it.body)
            for part in terms_in(it.body):
                for kind, words, new in self.of_term(module, part):
                    changed = Equation(it.patterns, replaced(it.body, part, new), it.place)
                    arms = arms_of(it, part) if is_of_tables else None
                    self.add(kind, f"{what}: {words}", module, name, (*equations[:at], changed, *equations[at + 1 :]), arms)

    def of_record(self, module, record):
        """Adds the faults of the clauses of the dispatcher: one left out, and a premise that is a test turned."""
        clauses = tuple(module.clauses(record))
        for at, it in enumerate(clauses):
            head = it.conclusion.parts[0] if it.conclusion.kind == "apply" else it.conclusion
            what, arms = f"{short(module.name)}: clause {it.name} of {record}", ((*head.place, it.name),)
            self.add("a clause left out", f"{what}: left out", module, record, clauses[:at] + clauses[at + 1 :], arms)
            for one in it.premises:
                left, right = one.parts[1:]
                if right.kind == "name" and right.parts[0] in ("true", "false"):
                    turned = replaced(it.premises, right, named(right, "false" if right.parts[0] == "true" else "true"))
                    others = (*clauses[:at], it._replace(premises=turned), *clauses[at + 1 :])
                    self.add("a clause turned", f"{what}: where not {shown(left)}", module, record, others, arms)

    def add(self, kind, label, module, name, equations, arms):
        self.found.append(Fault(kind if arms else f"of a word, {kind}", label, (module.name, name), equations, arms))

    def of_term(self, module, term):
        """Yields the faults of one term: a kind, words, and what stands in its place."""
        if term.kind == "if":
            yield "a side left out", f"if {shown(term.parts[0])}: its first side left out", term.parts[2]
        elif term.kind == "name":
            yield from self.of_name(module, term)
        elif term.kind == "record" and term.parts[0] is not None:
            for at, (field, _) in enumerate(term.parts[1]):
                yield "a field left out", f"{field} left as it was", Term("record", (term.parts[0], term.parts[1][:at] + term.parts[1][at + 1 :]), term.place)
        elif term.kind == "op" and term.parts[0] in ("||", "&&"):
            yield "half of a test", f"{shown(term)}: its first half left out", term.parts[2]
            yield "half of a test", f"{shown(term)}: its second half left out", term.parts[1]
        elif is_call(term, "Ask"):
            _, yes, no = term.parts[1]
            if yes != no:
                yield "answers exchanged", f"{shown(term.parts[1][0])}: its answers exchanged", Term("apply", (term.parts[0], (term.parts[1][0], no, yes)), term.place)
                yield "a question left out", f"{shown(term.parts[1][0])}: not asked, as if yes", yes
                yield "a question left out", f"{shown(term.parts[1][0])}: not asked, as if no", no
        elif is_call(term, "not"):
            yield "half of a test", f"{shown(term)}: without not", term.parts[1][0]
        for name, before in ONWARD.items():
            if is_call(term, name) and len(term.parts[1]) == before + 1:
                yield "a word left out", f"{' '.join([name, *map(shown, term.parts[1][:before])])}: left out", term.parts[1][before]

    def of_name(self, module, term):
        """The same of a name. The words begin with the name of the call of which it is an argument."""
        for kind, other in self.others(module, term):
            yield kind, f"{self.heads.get(id(term), '')} {other} for {term.parts[0]}".strip(), named(term, other)

    def others(self, module, term):
        """Yields a kind, and another name."""
        alias, _, name = term.parts[0].rpartition(".")
        others = {"tag": self.tags, "mode": lambda: self.modes, "scope": lambda: SCOPES}.get(alias)
        if others:
            other = self.chance.choice([it for it in others() if it != name])
            yield {"tag": "another name", "mode": "another mode", "scope": "another scope"}[alias], f"{alias}.{other}"
        elif term.parts[0] in ("again", "over"):
            other = {"again": "over", "over": "again"}[term.parts[0]]
            if other in module.definitions or other in module.taken:
                yield "another end", other
        elif term.parts[0] in ("true", "false"):
            yield "the other answer", "false" if term.parts[0] == "true" else "true"
        else:
            causes, sets = CAUSES, [it for it, (source, _) in module.taken.items() if source in SETS]
            for kind, these in (("another cause", [it for it in causes if it in module.taken]), ("another set", sets)):
                others = [it for it in these if it != term.parts[0]]
                if term.parts[0] in these and others:
                    yield kind, self.chance.choice(others)

    def tags(self):
        return [it.patterns[0][1].rpartition(".")[2] for it in self.rules.specs.module("html_names.specs.Names").definitions["name_of"].equations]

    def chosen(self, count):
        """Returns so many faults, of each kind about as many."""
        kinds = {}
        for it in self.found:
            kinds.setdefault(it.kind, []).append(it)
        for it in kinds.values():
            self.chance.shuffle(it)
        chosen = []
        while len(chosen) < min(count, len(self.found)):
            for it in kinds.values():
                if it and len(chosen) < count:
                    chosen.append(it.pop())
        return chosen
