"""Runs a page by the tables: the tokens of the model's tokenizer, by the dispatcher (13.2.6) as html_modes/specs/Dispatching.antt has it."""
from rules.defined import WORDS, whole
from rules.evaluating import NONE, Rules, made
from rules.nodes import written
from rules.words import GIVEN, NAMES, SETS, State, Token, Wrong, codes, text_of

DISPATCHING, FOREIGN, TABLES = "html_modes.specs.Dispatching", "html_modes.specs.Foreign", "html_modes.specs.Rules"
FOREIGN_TABLE = "html_modes.specs.RulesForeign"
# the records of the dispatcher, with the names of their parameters
RECORDS = ((DISPATCHING, "IsEntry", "oytaz"), (DISPATCHING, "IsDispatched", "oytaz"))
# a token that enters the rules of modes more often goes round for ever
MOST_ENTRIES = 500
OVER, AGAIN = made("Over"), made("Again")
TEXT_MODES = (("is_rcdata", "rcdata"), ("is_rawtext", "rawtext"))


class Refused(Exception):
    """That the page is refused: by how the token's rule ends."""


def prepared(specs, changed=()):
    """Returns the rules, with the clauses of the dispatcher."""
    rules = Rules(specs, GIVEN, changed)
    rules.dispatcher = [rules.clauses(*it) for it in RECORDS]
    return rules


class Run:
    """A page under way. `asked` has the arms that hang on an answer: the place of a question in a plan, and the answer."""

    def __init__(self, rules, model, table, page, context=None, is_in_form=False, parses_foreign=True, defined=None):
        self.defined = defined
        self.rules, self.asked, self.turns = rules, set(), 0
        self.state = State(rules, context, is_in_form, parses_foreign)
        text = model.newlines(model.decode(page))
        self.tokenizer = model.Tokenizer(table, text, self.text_mode(context), None)
        self.tokenizer.foreign = self.is_in_foreign
        self.entry, self.dispatch = rules.dispatcher

    def is_in_foreign(self):
        """Whether the adjusted current node is an element of foreign content, where a section CDATA is one."""
        return self.rules.value("html_construction.specs.Foreign", "foreign_tag", self.state) != NONE

    def text_mode(self, name):
        """How the tokenizer reads on after an element of this name (13.2.6.2 and 13.4)."""
        if name in ("script", "plaintext"):
            return name
        tag = self.rules.remembered(NAMES, "tag_of", codes(name or ""))
        return next((mode for a_set, mode in TEXT_MODES if self.rules.remembered(SETS, a_set, tag)), "data")

    def whole(self):
        """Runs the page to its end."""
        while True:
            token = Token(self.rules, self.tokenizer.next())
            self.take(token)
            if token.kind == "S" and self.state.ledger.fates[-1][0] == "Made":
                mode = self.text_mode(token.data)
                if mode != "data":
                    self.tokenizer.switch(mode)
            if token.kind == "Z":
                return

    def take(self, token):
        """The token enters the rules until it is done with."""
        state, before = self.state, len(self.state.ledger.fates) + len(self.state.ledger.kept)
        state.token = token
        begun = self.rules.value(DISPATCHING, "begun", state)
        state.began, state.depth, state.nodes = begun.began, begun.depth, begun.nodes
        self.turns = 0
        for _ in range(MOST_ENTRIES):
            ending = self.enter(token)
            if ending != AGAIN:
                break
        else:
            raise Wrong("the token is never done with")
        if ending != OVER:
            raise Refused(ending)
        state.mode = self.rules.value(DISPATCHING, "settled", state).mode
        if len(state.ledger.fates) + len(state.ledger.kept) != before + 1:
            raise Wrong(f"{token.whole!r} has {len(state.ledger.fates) + len(state.ledger.kept) - before} fates")

    def enter(self, token):
        """One entry, and how it ends."""
        given = (None, token.symbol, token.whole, self.state, None)
        head, arguments, frame = self.only(self.entry, given)
        if head == ("IsDispatched", DISPATCHING):
            head, arguments, frame = self.only(self.dispatch, given)
        if head == ("FollowsOn", DISPATCHING):
            stack = self.rules.value(FOREIGN, "stack_after", self.state.tree, token.symbol, token.whole)
            self.state.tree.stack[:] = stack
        elif head != ("Follows", TABLES):
            raise Wrong(f"these tools do not know the clause {head}")
        return self.follow(arguments[0](frame))

    def only(self, clauses, given):
        """Returns what follows by the one clause whose premises hold."""
        known = {}
        found = [it for it in (one(given, known) for one in clauses) if it is not None]
        if len(found) != 1:
            raise Wrong(f"{len(found)} clauses of the dispatcher hold")
        return found[0]

    # PLANS

    def follow(self, plan):
        """Follows a plan for the token, and returns how it ends."""
        while True:
            kind = plan[0]
            if kind == "Stop":
                return plan[1]
            if kind == "Foster":
                return self.foster(plan[1])
            if kind == "By":
                plan = self.table(plan[1])
            elif kind == "Ask":
                answer = self.ask(plan[1])
                self.asked.add((plan.site, answer))
                plan = plan[2] if answer else plan[3]
            else:
                self.step(*plan[:-1])
                plan = plan[-1]

    def step(self, kind, *words):
        """Does what a plan says before it goes on."""
        if kind == "Do":
            self.do(*words)
        elif kind == "Reconstruct":
            self.reconstruct()
        elif kind == "Adopt":
            self.adopt(self.state.adopt(text_of(self.rules.remembered(NAMES, "name_of", *words))), *words)
        elif kind == "CloseLink":
            self.adopt(self.state.close_link(), made("A"))
        elif kind == "Settle":
            kept, self.state.ledger.kept = self.state.ledger.kept, []
            self.each(kept, *words)
        elif kind == "Each":
            self.each(*words)
        else:
            raise Wrong(f"these tools do not know the plan {kind}")

    def table(self, mode):
        """Returns the plan of the table of another mode for the token."""
        self.turns += 1
        if self.turns > MOST_ENTRIES:
            raise Wrong("the rules of modes go by one another for ever")
        return self.rules.remembered(TABLES, "plan", mode, self.state.token.symbol)

    def foster(self, plan):
        """Follows a plan with foster parenting."""
        self.state.fostering = True
        ending = self.follow(plan)
        self.state.fostering = False
        return ending

    def each(self, tokens, plan):
        """Follows a plan for each of these tokens."""
        own = self.state.token
        for it in tokens:
            self.state.token = it
            if self.follow(plan) != OVER:
                raise Wrong("a pending table character token is not done with")
        self.state.token = own

    # WORDS, AS THEY ARE DEFINED

    def is_defined(self, name):
        return self.defined and name in self.rules.specs.module(WORDS).makers

    def do(self, word):
        """Does what a word says; and, where definitions are asked too, compares what the word's makes of the state."""
        state = self.state
        if not self.is_defined(word[0]):
            state.do(word)
            return
        before = whole(state)
        state.do(word)
        self.defined.did(word, state.token.whole, before, whole(state))

    def ask(self, query):
        answer = bool(self.state.ask(query))
        if self.is_defined(query[0]):
            self.defined.answered(query, self.state.token.whole, whole(self.state), answer)
        return answer

    def reconstruct(self):
        if not self.defined:
            self.state.reconstruct()
            return
        before = whole(self.state)
        self.state.reconstruct()
        self.defined.reopened(self.state.fostering, before, whole(self.state))

    def adopt(self, steps, subject):
        """Runs the adoption agency algorithm to its end."""
        before = self.defined and whole(self.state)
        for name, nodes in steps:
            if self.defined:
                after = whole(self.state)
                self.defined.adopted(name, nodes, subject, self.state.fostering, before, after)
                before = after

    def tree(self):
        return written(self.state.root)
