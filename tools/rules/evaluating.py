"""Evaluates what reading.py reads.

Values: true and false are Python's, natural numbers are, a list is a tuple, and a constructor with its arguments is a Value. A record, and what this
package hands in as one (a state, a tree), is read by its fields. Whatever branch is taken is noted as an arm: an equation of a name, or a side of an if."""
from rules.reading import SMALL, Term, Unread, is_constructor

# what these tools give for the standard library's names
PLAIN = {
    "not": (1, lambda a: not a),
    "length": (1, len),
    "is_some": (1, lambda a: a[0] == "Some"),
    "unwrap_or": (2, lambda a, b: a[1] if a[0] == "Some" else b),
    "eqb": (2, lambda a, b: a == b),
    "nat_lt": (2, lambda a, b: a < b),
    "nat_le": (2, lambda a, b: a <= b),
    "min": (2, min),
    "max": (2, max),
    "take": (2, lambda n, xs: xs[:n]),
    "drop": (2, lambda n, xs: xs[n:]),
    "slice_index": (2, lambda xs, n: xs[n]),
    "codes": (1, lambda text: tuple(map(ord, text))),
    "bytes_eq": (2, lambda a, b: tuple(a) == tuple(b)),
    "to_ascii_lowercase": (1, lambda c: c + 32 if 65 <= c <= 90 else c),
    "reverse": (1, lambda xs: tuple(xs)[::-1]),
    "map": (2, lambda f, xs: tuple(call(f, (x,)) for x in xs)),
    "filter": (2, lambda f, xs: tuple(x for x in xs if call(f, (x,)))),
    "list_any": (2, lambda f, xs: any([call(f, (x,)) for x in xs])),
    "list_all": (2, lambda f, xs: all([call(f, (x,)) for x in xs])),
    "slice_index_or": (3, lambda xs, n, other: xs[n] if n < len(xs) else other),
    "slice_set": (3, lambda xs, n, x: (*xs[:n], x, *xs[n + 1 :]) if n < len(xs) else xs),
    "range_with_len": (2, lambda n, count: tuple(range(n, n + count))),
    "flat_map": (2, lambda f, xs: tuple(y for x in xs for y in call(f, (x,)))),
    "count_by": (2, lambda f, xs: sum(1 for x in xs if call(f, (x,)))),
    "sum_by": (2, lambda f, xs: sum(call(f, (x,)) for x in xs)),
    "last_of": (1, lambda xs: some(xs[-1]) if xs else NONE),
    "first_of": (1, lambda xs: some(xs[0]) if xs else NONE),
    "pointwise": (3, lambda f, xs, ys: len(xs) == len(ys) and all([call(f, it) for it in zip(xs, ys)])),
    "◌==◌": (2, lambda a, b: a == b),
    "true": (0, lambda: True),
    "false": (0, lambda: False),
    "zero": (0, lambda: 0),
    "suc": (1, lambda n: n + 1),
}


# the files of which all is of tags, modes and other small values alone, so that its answers are kept; the tables among them
KEPT = ("html_names.specs.Sets", "html_names.specs.Groups", "html_names.specs.Tags", "html_ledger.specs.Flags", "html_ledger.specs.Spaces")
KEPT += ("html_construction.specs.Modes", "html_modes.specs.Fitting", "html_modes.specs.Guards", "html_modes.specs.Rules", "html_modes.specs.RulesForeign")


# statements of trees that are not run
TOO_LARGE = ("WellFormed", "IsOpen")


class Value(tuple):
    """A constructor's name, and its arguments. A plan that asks also has the place where it was made, with those of the calls that led there."""

    site = None

    def __repr__(self):
        return " ".join([self[0], *(f"({it!r})" if isinstance(it, Value) and len(it) > 1 else repr(it) for it in self[1:])])


def made(name, *arguments):
    return Value((name, *arguments))


NONE = made("None")


def some(value):
    return made("Some", value)


class Record:
    """The fields of a record, over those of another where it is one that was changed."""

    def __init__(self, base, fields):
        if isinstance(base, Record):
            base, fields = base.base, {**{it: getattr(base, it) for it in base.names}, **fields}
        self.base = base
        self.__dict__.update(fields)
        self.names, self.hash = tuple(fields), None

    def __getattr__(self, name):
        if name == "base" or self.base is None:
            raise AttributeError(name)
        return getattr(self.base, name)

    def key(self):
        return tuple(getattr(self, it) for it in self.names)

    def __eq__(self, other):
        return isinstance(other, Record) and self.key() == other.key()

    def __hash__(self):
        if not self.hash:
            self.hash = hash(self.key())
        return self.hash


class Partial:
    """A function with the arguments that it has so far."""

    def __init__(self, function, arguments):
        self.function, self.arguments, self.arity = function, arguments, function.arity - len(arguments)

    def run(self, arguments):
        return self.function.run((*self.arguments, *arguments))


class Given:
    """A function of Python's."""

    def __init__(self, arity, run):
        self.arity, self.function = arity, run

    def run(self, arguments):
        return self.function(*arguments)


def call(function, arguments):
    """Applies a function, or a constructor, to arguments."""
    if isinstance(function, Value):
        return Value((*function, *arguments))
    if len(arguments) < function.arity:
        return Partial(function, arguments)
    if len(arguments) > function.arity:
        return call(function.run(arguments[: function.arity]), arguments[function.arity :])
    return function.run(arguments)


class Function:
    """A name with its equations, as something to call."""

    def __init__(self, rules, definition):
        self.rules, self.definition = rules, definition
        equations = rules.equations(definition)
        if not equations:
            raise Unread(f"{definition.module.name}: {definition.name} has no equation")
        self.arity = len(equations[0].patterns)
        self.equations = []
        for it in equations:
            names = {}
            binds = [(at, names.setdefault(one[1], len(names))) for at, one in enumerate(it.patterns) if one[0] == "bind"]
            tests = [(at, rules.matcher(definition.module, one, names)) for at, one in enumerate(it.patterns) if one[0] not in ("bind", "any")]
            self.equations.append([tests, binds, names, it, None])
        self.column, self.table = self.by_constructor(equations)

    def by_constructor(self, equations):
        """Returns the first column that has constructors in it, and for each of them the equations that may fit."""
        for column in range(self.arity):
            heads = [it.patterns[column] for it in equations]
            if any(it[0] == "make" and it[1] not in SMALL for it in heads) and len(heads) > 3:
                names = {it[1].rpartition(".")[2] for it in heads if it[0] == "make"}
                fits = lambda name, it: it[0] in ("any", "bind") or it[1].rpartition(".")[2] == name
                table = {name: [at for at, it in enumerate(heads) if fits(name, it)] for name in names}
                return column, (table, [at for at, it in enumerate(heads) if it[0] in ("any", "bind")])
        return None, None

    def run(self, arguments):
        if self.column is None:
            order = range(len(self.equations))
        else:
            table, others = self.table
            order = table.get(arguments[self.column][0], others)
        for at in order:
            entry = self.equations[at]
            tests, binds, names, equation, body = entry
            frame = [None] * len(names)
            for column, test in tests:
                if not test(arguments[column], frame):
                    break
            else:
                for column, slot in binds:
                    frame[slot] = arguments[column]
                if body is None:
                    body = entry[4] = self.rules.compiled(self.definition.module, equation.body, dict(names))
                self.rules.met.add(equation.place)
                return body(frame)
        raise Unread(f"{self.definition.module.name}: no equation of {self.definition.name} fits {arguments!r}")


class Rules:
    """All definitions, with those that are given in Python, and the arms that were met. `changed` has, for a definition, other equations than it has."""

    def __init__(self, specs, given=(), changed=()):
        self.specs, self.given, self.changed = specs, dict(given), dict(changed)
        self.met, self.calls, self.functions = set(), [], {}
        # what names were found to be of these arguments, with the arms that this met; and which of it was used
        self.answers, self.used, self.records = {}, set(), {}

    def equations(self, definition):
        return self.changed.get((definition.module.name, definition.name), definition.equations)

    def function(self, module, name):
        """Returns what a definition of a file is, as something to call."""
        key = module, name
        if key not in self.functions:
            if key in self.given:
                self.functions[key] = Given(*self.given[key])
            else:
                found = self.specs.module(module)
                self.functions[key] = Function(self, found.definitions[name])
        return self.functions[key]

    def value(self, module, name, *arguments):
        """Returns what a name of a file is, applied to these."""
        return call(self.function(module, name), arguments)

    def remembered(self, module, name, *arguments):
        """The same, of values alone, which is found once."""
        key = module, name, arguments
        found = self.answers.get(key)
        if found is None:
            met, used, calls = {*self.met}, self.used, [*self.calls]
            self.met.clear()
            self.used = set()
            self.calls.clear()
            value = self.value(module, name, *arguments)
            if isinstance(value, Record):
                value = self.records.setdefault(value, value)
            found = self.answers[key] = value, frozenset(self.arms())
            self.met |= met
            self.used = used
            self.calls[:] = calls
        self.used.add(key)
        return found[0]

    def arms(self, known=None):
        """Returns the arms that were met since this was last asked; but for those of answers that are known, where that is given, which is added to."""
        new = self.used if known is None else self.used - known
        if known is not None:
            known |= new
        arms = self.met.union(*(self.answers[it][1] for it in new))
        self.met.clear()
        self.used = set()
        return arms

    # NAMES

    def resolved(self, module, name):
        """Returns what a name stands for in a file: ("make", constructor, file), ("call", definition, file) or ("plain", name)."""
        first, _, rest = name.partition(".")
        if rest:
            if first in module.aliases:
                return ("make", rest, module.aliases[first])
            raise Unread(f"{module.name}: {name} is not known")
        if name in module.definitions:
            return ("call", name, module.name)
        if name in module.makers:
            return ("make", name, module.name)
        if name not in module.taken:
            raise Unread(f"{module.name}: {name} is not known")
        source, name = module.taken[name]
        if source.startswith("std."):
            if name in PLAIN:
                return ("plain", name)
            if is_constructor(name):
                return ("make", name, source)
            raise Unread(f"{module.name}: these tools do not know what {name} of the standard library is")
        if (source, name) in self.given:
            return ("call", name, source)
        other = self.specs.module(source)
        if other is None:
            return ("make", name, source)
        return self.resolved(other, name)

    # PATTERNS

    def matcher(self, module, pattern, names):
        """Returns a test of a value, which puts what it binds into a frame. `names` gets the place of each name there."""
        kind = pattern[0]
        if kind == "any":
            return lambda value, frame: True
        if kind == "bind":
            at = names.setdefault(pattern[1], len(names))

            def bind(value, frame):
                frame[at] = value
                return True

            return bind
        if kind == "number":
            return lambda value, frame: value == pattern[1]
        if kind == "nil":
            return lambda value, frame: len(value) == 0
        if kind == "cons":
            first, rest = self.matcher(module, pattern[1], names), self.matcher(module, pattern[2], names)
            return lambda value, frame: len(value) > 0 and first(value[0], frame) and rest(value[1:], frame)
        name = pattern[1]
        if name in SMALL:
            if name == "suc":
                inside = self.matcher(module, pattern[2][0], names)
                return lambda value, frame: value > 0 and inside(value - 1, frame)
            wanted = {"true": True, "false": False, "zero": 0}[name]
            return lambda value, frame: value == wanted
        found = self.resolved(module, name)
        if found[0] != "make":
            raise Unread(f"{module.name}: {name} is no constructor")
        parts, head = [self.matcher(module, it, names) for it in pattern[2]], found[1]

        def fits(value, frame):
            return value[0] == head and len(value) == len(parts) + 1 and all(test(it, frame) for test, it in zip(parts, value[1:]))

        return fits

    # TERMS

    def compiled(self, module, term, names):
        """Returns a function from a frame to the value of a term. `names` has the place of each name in the frame."""
        kind, parts = term.kind, term.parts
        if kind in ("number", "text"):
            value = parts[0]
            return lambda frame: value
        if kind == "nil":
            return lambda frame: ()
        if kind == "name":
            return self.compiled_name(module, term, names)
        if kind == "if":
            return self.compiled_if(module, term, names)
        if kind == "op":
            return self.compiled_op(module, term, names)
        if kind == "lambda":
            return self.compiled_lambda(module, term, names)
        if kind == "record":
            base = parts[0] and self.compiled(module, parts[0], names)
            fields = [(name, self.compiled(module, it, names)) for name, it in parts[1]]
            return lambda frame: Record(base and base(frame), {name: it(frame) for name, it in fields})
        if kind == "apply":
            return self.compiled_apply(module, term, names)
        raise Unread(f"{module.name}: a term {kind}")

    def compiled_name(self, module, term, names):
        first, *fields = term.parts[0].split(".")
        if first in names:
            at = names[first]
            if not fields:
                return lambda frame: frame[at]
            if len(fields) == 1:
                [field] = fields
                return lambda frame: getattr(frame[at], field)

            def read(frame):
                value = frame[at]
                for it in fields:
                    value = getattr(value, it)
                return value

            return read
        found = self.resolved(module, term.parts[0])
        if found[0] == "make":
            return self.compiled_constant(made(found[1]))
        if found[0] == "plain":
            arity, run = PLAIN[found[1]]
            if arity == 0:
                return lambda frame: run()
            value = Given(arity, run)
            return lambda frame: value
        return self.compiled_call(found, (), term.place)

    @staticmethod
    def compiled_constant(value):
        return lambda frame: value

    def compiled_call(self, found, arguments, place):
        """A definition with as many arguments as stand there."""
        function, calls, (_, name, file) = None, self.calls, found
        if file in KEPT and arguments:
            return lambda frame: self.remembered(file, name, *[it(frame) for it in arguments])

        def run(frame):
            nonlocal function
            if function is None:
                function = self.function(file, name)
            values = tuple([it(frame) for it in arguments])
            if not values and function.arity:
                return function
            calls.append(place)
            try:
                return call(function, values)
            finally:
                calls.pop()

        return run

    def compiled_apply(self, module, term, names):
        head, arguments = term.parts[0], [self.compiled(module, it, names) for it in term.parts[1]]
        if head.kind == "name" and head.parts[0].partition(".")[0] not in names:
            found = self.resolved(module, head.parts[0])
            if found[0] == "call":
                return self.compiled_call(found, arguments, term.place)
            if found[0] == "make":
                return self.compiled_make(found[1], arguments, term.place)
        function = self.compiled(module, head, names)
        return lambda frame: call(function(frame), tuple([it(frame) for it in arguments]))

    def compiled_make(self, name, arguments, place):
        def make(frame):
            value = Value((name, *[it(frame) for it in arguments]))
            if name == "Ask":
                value.site = (*self.calls, place)
            return value

        return make

    def compiled_if(self, module, term, names):
        test, yes, no = [self.compiled(module, it, names) for it in term.parts]
        met, then, other = self.met, (*term.place, "then"), (*term.place, "else")

        def choose(frame):
            if test(frame):
                met.add(then)
                return yes(frame)
            met.add(other)
            return no(frame)

        return choose

    def compiled_op(self, module, term, names):
        sign = term.parts[0]
        left, right = self.compiled(module, term.parts[1], names), self.compiled(module, term.parts[2], names)
        if sign == "||":
            return lambda frame: left(frame) or right(frame)
        if sign == "&&":
            return lambda frame: left(frame) and right(frame)
        if sign in ("==", "≡"):
            return lambda frame: left(frame) == right(frame)
        if sign == "∷":
            return lambda frame: (left(frame), *right(frame))
        if sign == "+":
            return lambda frame: left(frame) + right(frame)
        if sign == "++":
            return lambda frame: (*left(frame), *right(frame))
        if sign == "*":
            return lambda frame: left(frame) * right(frame)
        if sign == "-":
            return lambda frame: max(0, left(frame) - right(frame))
        raise Unread(f"{module.name}: the sign {sign}")

    def compiled_lambda(self, module, term, names):
        bound, body = term.parts
        inner = dict(names)
        places = [inner.setdefault(it, len(inner)) for it in bound]
        run = self.compiled(module, body, inner)
        size = len(inner) + 8

        def make(frame):
            def apply(*arguments):
                own = [*frame, *[None] * (size - len(frame))]
                for at, value in zip(places, arguments):
                    own[at] = value
                return run(own)

            return Given(len(bound), apply)

        return make

    # CLAUSES OF RECORDS

    def clauses(self, module, record, parameters):
        """Returns the fields of a record as functions: from the values of the record's parameters, by these names, to what follows, as a name and its file,
        its arguments and a frame for them, or None where a premise does not hold."""
        found = self.specs.module(module)
        return [self.compiled_clause(found, it, parameters) for it in self.changed.get((module, record)) or found.clauses(record)]

    def unheld(self, name, record, arguments, others=()):
        """Returns which fields of a record do not hold, where its parameters are these and the fields that are no statements are others, by name."""
        module = self.specs.module(name)
        values = dict(zip(module.parameters[record], arguments)) | dict(others)
        return [f"{record}: not so that {it.name}" for it in module.clauses(record) if it.name not in values and not self.does_hold(module, it, values)]

    def does_hold(self, module, clause, values):
        """Returns whether a field of a record holds, where these are its parameters and its other fields."""
        head = clause.conclusion.parts[0] if clause.conclusion.kind == "apply" else clause.conclusion
        what = self.resolved(module, head.parts[0]) if head.kind == "name" else ("", "")
        if what[1] in TOO_LARGE:
            return True
        names = {it: at for at, it in enumerate((*values, *clause.bound))}
        if what[0] == "make":
            frame = [*values.values()]
            return not self.unheld(what[2], what[1], [self.compiled(module, it, names)(frame) for it in clause.conclusion.parts[1]])
        # (what is said of each node is asked of each that there is, and of one that is none)
        run, every = self.compiled(module, clause.conclusion, names), range(len(values["new"].tree.labels) + 1) if clause.bound else (None,)
        return all(run([*values.values(), it]) is True for it in every)

    def compiled_clause(self, module, it, parameters):
        names = {name: at for at, name in enumerate(parameters)}
        premises = []
        for premise in it.premises:
            if premise.kind != "op" or premise.parts[0] != "≡":
                raise Unread(f"{module.name}: the premise {premise!r} of {it.name}")
            value = self.compiled(module, premise.parts[1], names)
            premises.append((unplaced(premise.parts[1]), value, self.matcher(module, pattern_of(premise.parts[2], it.bound), names)))
        head, parts = it.conclusion, ()
        if head.kind == "apply":
            head, parts = head.parts
        arguments, arm = [self.compiled(module, one, names) for one in parts], (*head.place, it.name)
        head = self.resolved(module, head.parts[0])[1:]

        def run(values, known):
            # (what several clauses ask is asked once)
            frame = [*values, *[None] * (len(names) - len(values))]
            for key, value, fits in premises:
                if key not in known:
                    known[key] = value(frame)
                if not fits(known[key], frame):
                    return None
            self.met.add(arm)
            return head, arguments, frame

        return run


def unplaced(term):
    """Returns a term without its places."""
    if isinstance(term, Term):
        return (term.kind, unplaced(term.parts))
    return tuple(map(unplaced, term)) if isinstance(term, tuple) else term


def pattern_of(term, bound):
    """Returns a term that stands right of ≡ as a pattern."""
    if term.kind == "number":
        return ("number", term.parts[0])
    if term.kind == "name":
        return ("bind", term.parts[0]) if term.parts[0] in bound else ("make", term.parts[0], ())
    if term.kind == "apply":
        return ("make", term.parts[0].parts[0], tuple(pattern_of(it, bound) for it in term.parts[1]))
    raise Unread(f"{term!r} as a pattern")

