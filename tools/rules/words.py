"""What the words of the tables mean, written after the standard (13.2.4 and 13.2.6), on the nodes of nodes.py: what a rule does and asks.

Nothing is taken from the definitions of the words in specs/, which is what is run, but: the sets of elements, their scopes and groups; the table of
"reset the insertion mode appropriately"; the tables of names; and what is our own: what a token may be dropped for, and where a part of a table may go.
"""
import functools

from rules.evaluating import NONE, Record, made, some
from rules.nodes import Document

SETS, NAMES, FOREIGN, GROUPS = "html_names.specs.Sets", "html_names.specs.Names", "html_names.specs.Foreign", "html_tree.specs.Groups"
ERRORS, MAY_DROP = "html_ledger.specs.Errors", "html_ledger.specs.MayDrop"
TOKENS, FLAGS, RESETTING = "html_construction.specs.Tokens", "html_ledger.specs.Flags", "html_construction.specs.Resetting"
# what is read here of specs/, beside the table of resetting and the tables of names
READ = [(SETS, it) for it in ("is_special", "is_implied", "is_fostering", "ends_default_scope")] + [(GROUPS, it) for it in ("in_group", "is_stop", "is_context")]
READ += [(FLAGS, it) for it in ("history_at", "after", "has_error", "may_misplace_tag")] + [("html_tree.specs.Seats", "may_carry"), (MAY_DROP, "is_outside_column_group")]
MARKER = None
SPACES = "\t\n\f\r "


class Wrong(Exception):
    """That a rule cannot be followed as it stands."""


def codes(text):
    return tuple(map(ord, text))


def text_of(these):
    return "".join(map(chr, these))


def lowered(text):
    return "".join(chr(ord(c) + 32) if "A" <= c <= "Z" else c for c in text)


# the ids that set quirks mode, in small letters: public ones, what public ones begin with, and so without a system id, and a system one
QUIRKY = ("-//w3o//dtd w3 html strict 3.0//en//", "-/w3c/dtd html 4.0 transitional/en", "html")
QUIRKY_FRONTS = ("-//ietf//dtd html", "-//w3c//dtd html 3", "-//w3c//dtd html 4.0 frameset//", "-//w3c//dtd html 4.0 transitional//")
QUIRKY_ALONE = ("-//w3c//dtd html 4.01 frameset//", "-//w3c//dtd html 4.01 transitional//")
QUIRKY_SYSTEM = "http://www.ibm.com/data/dtd/v11/ibmxhtml1-transitional.dtd"


def is_quirky(name, public, system, force_quirks):
    public_id, system_id = lowered(public or ""), lowered(system or "")
    if force_quirks or name != "html" or public_id in QUIRKY or system_id == QUIRKY_SYSTEM:
        return True
    return public_id.startswith(QUIRKY_FRONTS) or (system is None and public_id.startswith(QUIRKY_ALONE))


# what definitions of trees ask of a node, for those definitions of specs/ that are run
GIVEN = {
    ("html_arena.specs.Tree", "tag_at"): (2, lambda tree, node: node.tag),
    ("html_arena.specs.Tree", "label_of"): (2, lambda tree, node: node),
    ("html_arena.specs.Data", "name_in"): (1, lambda node: codes(node.name)),
    ("html_arena.specs.Data", "attrs_in"): (1, lambda node: attributes(node.attributes.items())),
}


def attributes(pairs):
    """Returns attributes as the definitions have them."""
    return tuple(Record(None, {"name": codes(name), "value": codes(value)}) for name, value in pairs)


@functools.cache
def method(front, name):
    """Returns the name of the method for a word or a question."""
    return front + "".join(f"_{c.lower()}" if c.isupper() else c for c in name)


class Token:
    """A token: its kind by one letter as the model has it, its name or data, and its attributes; as a symbol, and as the definitions have it whole."""

    def __init__(self, rules, made_of):
        self.kind, self.data = made_of[0], made_of[1] if len(made_of) > 1 else None
        self.attributes = dict(made_of[2]) if self.kind == "S" else {}
        self.closes_itself = self.kind == "S" and made_of[3]
        self.ids = made_of[1:] if self.kind == "D" else None
        self.symbol, self.whole = self.seen_by(rules)

    def seen_by(self, rules):
        if self.kind in "SE":
            name = codes(self.data)
            tag = rules.remembered(NAMES, "tag_of", name)
            if self.kind == "E":
                return made("End", tag), made("End", name)
            return made("Start", tag), made("Start", name, attributes(self.attributes.items()), self.closes_itself)
        if self.kind == "C":
            return made("Char", ord(self.data)), made("Char", ord(self.data))
        name = {"M": "Comment", "D": "Doctype", "Z": "Eof"}[self.kind]
        if self.kind == "M":
            return made(name), made(name, codes(self.data))
        if self.kind == "D":
            *ids, force_quirks = self.ids
            return made(name), made(name, *[NONE if it is None else some(codes(it)) for it in ids], force_quirks)
        return made(name), made(name)


class Tree:
    """The stack of open elements, the list of active formatting elements, and the element pointers."""

    def __init__(self, nodes):
        self.tree, self.labels = self, nodes
        self.stack, self.list = [], []
        self.head_element = self.form_element = None
        self.detached = NONE

    @property
    def head(self):
        return some(self.head_element.number) if self.head_element else NONE

    @property
    def form(self):
        return some(self.form_element.number) if self.form_element else NONE


class Ledger:
    """The fates of the tokens so far, what they settle, the pending table character tokens, and the numbers of the tokens with an error."""

    def __init__(self, history):
        self.history, self.fates, self.kept, self.errors = history, [], [], []


class State:
    """Tree construction under way. What definitions of specs/ read of it has the names that it has there."""

    def __init__(self, rules, context=None, is_in_form=False, parses_foreign=True):
        self.rules, self.document = rules, Document()
        self.tree = Tree(self.document.nodes)
        self.mode = self.original = self.began = made("Initial")
        self.templates, self.quirks, self.frameset_ok, self.fostering = (), False, True, False
        self.parses_foreign, self.outer_form, self.depth, self.nodes = parses_foreign, False, 0, 0
        self.context, setting = NONE, made("Document")
        if context is not None:
            tag = rules.remembered(NAMES, "tag_of", codes(context))
            self.context, setting = some(tag), made("Fragment", tag, is_in_form)
        self.ledger = Ledger(rules.remembered(FLAGS, "history_at", setting))
        self.root = self.document.make("document") if context is None else self.begin_fragment(context, is_in_form)
        self.token = None

    def begin_fragment(self, context, is_in_form):
        """The root of a fragment (13.4)."""
        root = self.element("html", {})
        self.tree.stack.append(root)
        if context == "template":
            self.templates = (made("InTemplate"),)
        self.outer_form = is_in_form or context == "form"
        self.do_reset()
        return root

    # WHAT DEFINITIONS READ

    @property
    def stack(self):
        return tuple(it.tag for it in reversed(self.tree.stack))

    # NODES

    def element(self, name, pairs, **origin):
        node = self.document.make("element", name, pairs, **origin)
        node.tag = self.rules.remembered(NAMES, "tag_of", codes(name))
        return node

    def is_in(self, a_set, node):
        return self.rules.remembered(SETS, a_set, node.tag)

    def in_group(self, group, node):
        return self.rules.remembered(GROUPS, "in_group", group, node.tag)

    def ends_search(self, stop, node):
        return self.rules.remembered(GROUPS, "is_stop", stop, node.tag)

    @property
    def current(self):
        if not self.tree.stack:
            raise Wrong("there is no current node")
        return self.tree.stack[-1]

    def pop(self):
        if not self.tree.stack:
            raise Wrong("the stack of open elements is empty")
        return self.tree.stack.pop()

    def place(self, target=None):
        """The appropriate place for inserting a node: the parent, and the child before which it goes."""
        target = target or self.current
        stack = self.tree.stack
        if self.fostering and self.is_in("is_fostering", target):
            template = max((at for at, it in enumerate(stack) if it.name == "template"), default=-1)
            table = max((at for at, it in enumerate(stack) if it.name == "table"), default=-1)
            if template >= 0 and (table < 0 or template > table):
                return stack[template].contents, None
            if table < 0:
                return stack[0], None
            if stack[table].parent:
                return stack[table].parent, stack[table]
            target = stack[table - 1]
        return target.contents or target, None

    def target(self, target):
        """The place that a target names."""
        if target[0] == "Current":
            was, self.fostering = self.fostering, target[1]
            place = self.place()
            self.fostering = was
            return place
        if target[0] == "Document":
            return self.root, None
        node = {"First": self.tree.stack[0], "Head": self.tree.head_element}[target[0]]
        return node.contents or node, None

    def clone(self, node):
        """Creates an element for the token for which another was created."""
        return self.element(node.name, node.attributes, origin=node.origin, is_clone=True)

    def insert(self, node, place=None, is_open=True):
        node.put(*(place or self.place()))
        if is_open:
            self.tree.stack.append(node)
        return node

    def insert_for_token(self, place=None, is_open=True, name=None):
        place = place or self.place()
        node = self.insert(self.element(name or self.token.data, self.token.attributes, origin=self.number), place, is_open)
        self.give("Made", node.number)
        return node

    @property
    def number(self):
        """The number of the token, which is that of its fate."""
        return len(self.ledger.fates)

    # FATES

    def give(self, name, *parts, is_ignored=False):
        fate, symbol, history = made(name, *parts), self.token.symbol, self.ledger.history
        of_kind = made(name, 0) if name in ("Made", "Text", "Foreign") else fate
        if self.rules.remembered(FLAGS, "has_error", history, symbol, of_kind) or (is_ignored and self.rules.remembered(ERRORS, "may_be_ignored", symbol)):
            self.ledger.errors.append(len(self.ledger.fates))
        self.ledger.fates.append(fate)
        self.ledger.history = self.rules.remembered(FLAGS, "after", history, symbol, of_kind)

    # WORDS

    def do(self, word):
        name = method("do", word[0])
        if not hasattr(self, name):
            raise Wrong(f"these tools do not know the word {word[0]}")
        getattr(self, name)(*word[1:])

    def do_clear_to(self, context):
        while not self.rules.remembered(GROUPS, "is_context", context, self.current.tag):
            self.pop()

    def do_pop(self):
        self.pop()

    def do_close_through(self, group, stop):
        # (the implied end tags that are generated first, but for those of the group, would be of elements that are popped in any case)
        if self.finds(group, stop):
            while not self.in_group(group, self.pop()):
                pass

    def do_close_named(self):
        for at in range(len(self.tree.stack) - 1, -1, -1):
            node = self.tree.stack[at]
            if node.name == self.token.data:
                del self.tree.stack[at:]
                return
            if self.is_in("is_special", node):
                return

    def do_implied(self, but):
        while self.is_in("is_implied", self.current) and some(self.current.tag) != but:
            self.pop()

    def do_add_marker(self):
        self.tree.list.append(MARKER)

    def do_clear_to_marker(self):
        while self.tree.list and self.tree.list.pop() is not MARKER:
            pass

    def do_insert(self):
        self.insert_for_token()

    def do_insert_at(self, target):
        self.insert_for_token(self.target(target))

    def do_insert_part(self):
        self.insert_for_token(self.target(made("Current", False)))

    def do_insert_void(self, tag, place=None):
        if self.token.symbol != made("Start", tag):
            raise Wrong(f"an element {tag!r} is inserted for the token {self.token.symbol!r}")
        self.insert_for_token(place, is_open=False, name="img" if self.token.data == "image" else None)

    def do_insert_void_at(self, tag, target):
        self.do_insert_void(tag, self.target(target))

    def do_insert_listed(self):
        node, alike = self.insert_for_token(), []
        for it in reversed(self.tree.list):
            if it is MARKER:
                break
            if it.name == node.name and it.attributes == node.attributes:
                alike.append(it)
        if len(alike) >= 3:
            self.unlist(alike[-1])
        self.tree.list.append(node)

    def do_insert_head(self):
        self.tree.head_element = self.insert_for_token()

    def do_insert_form(self):
        self.tree.form_element = self.insert_for_token()

    def do_insert_closed_form(self):
        self.tree.form_element = self.insert_for_token(is_open=False)

    def do_close_form(self):
        node, self.tree.form_element, self.outer_form = self.tree.form_element, None, False
        if node and self.is_in_scope(node):
            self.do_implied(NONE)
            if node in self.tree.stack:
                self.tree.stack.remove(node)

    def do_replace_body(self):
        self.tree.stack[1].remove()
        self.tree.detached = some(self.tree.stack[1].number)
        del self.tree.stack[1:]
        self.insert_for_token()

    def do_insert_root(self):
        self.insert_for_token((self.root, None))

    def imply(self, name, place=None, is_open=True):
        return self.insert(self.element(text_of(self.rules.remembered(NAMES, "name_of", name)), {}), place, is_open)

    def do_imply(self, tag):
        self.imply(tag)

    def do_imply_part(self, tag):
        self.imply(tag, self.target(made("Current", False)))

    def do_imply_void(self, tag):
        self.imply(tag, is_open=False)

    def do_imply_head(self):
        self.tree.head_element = self.imply(made("Head"))

    def do_imply_root(self):
        self.imply(made("Html"), (self.root, None))

    def do_insert_comment(self, place=None):
        node = self.document.make("comment", data=self.token.data, origin=self.number)
        node.put(*(place or self.place()))
        self.give("Made", node.number)

    def do_insert_comment_at(self, target):
        self.do_insert_comment(self.target(target))

    def do_insert_doctype(self):
        node = self.document.make("doctype", data=self.token.ids[:3], origin=self.number)
        node.put(self.root)
        self.give("Made", node.number)

    def do_insert_character(self, character=None):
        parent, before = self.place()
        at = len(parent.children) if before is None else parent.children.index(before)
        if at and parent.children[at - 1].kind == "text":
            node = parent.children[at - 1]
        else:
            node = self.document.make("text")
            node.put(parent, before)
        node.data += character or self.token.data
        self.give("Text", node.number)

    def do_insert_replacement(self):
        self.do_insert_character("\ufffd")

    def merge_into(self, node):
        for name, value in self.token.attributes.items():
            node.attributes.setdefault(name, value)
        self.give("Merged")

    def do_merge_into_root(self):
        self.merge_into(self.tree.stack[0])

    def do_merge_into_body(self):
        self.merge_into(self.tree.stack[1])

    def do_drop(self, cause):
        self.give("Dropped", cause)

    def do_end(self):
        self.give("Ended", is_ignored=len(self.tree.stack) == self.depth and len(self.document.nodes) == self.nodes)

    def do_switch(self, mode):
        self.mode = mode

    def do_enter(self, mode):
        self.original, self.mode = self.mode, mode

    def do_leave(self):
        self.mode = self.original

    def do_frameset_off(self):
        self.frameset_ok = False

    def do_quirks(self, is_on):
        self.quirks = is_on

    def do_reset(self):
        self.mode = self.rules.remembered(RESETTING, "reset_mode", self.context, some(0) if self.tree.head_element else NONE, self.templates, self.stack)

    def do_push_template(self, mode):
        self.templates = (*self.templates, mode)

    def do_pop_template(self):
        if not self.templates:
            raise Wrong("the stack of template insertion modes is empty")
        self.templates = self.templates[:-1]

    # (a foreign element: its name and attributes by the tables of the standard, in the form in which trees have them)

    def insert_foreign(self, space, is_open):
        name = text_of(self.rules.remembered(TOKENS, "foreign_name", space, codes(self.token.data)))
        pairs = {}
        for it, value in self.token.attributes.items():
            adjusted = self.rules.remembered(FOREIGN, "adjusted_attr", space, codes(it))
            pairs[text_of(adjusted[1]) if adjusted != NONE else it] = value
        node = self.insert(self.element(name, pairs, origin=self.number), is_open=is_open)
        self.give("Foreign", node.number)

    def do_insert_foreign(self, space):
        self.insert_foreign(space, True)

    def do_insert_foreign_void(self, space):
        self.insert_foreign(space, False)

    def do_keep(self):
        self.ledger.kept.append(self.token)

    def do_begin_own_part(self):
        self.depth, self.nodes = len(self.tree.stack), len(self.document.nodes)

    # FORMATTING

    def unlist(self, node):
        self.tree.list.pop(next(at for at, it in enumerate(self.tree.list) if it is node))

    def is_listed(self, node):
        return any(it is node for it in self.tree.list)

    def listed(self, name):
        """The last element of a name in the list, after the last marker."""
        for it in reversed(self.tree.list):
            if it is MARKER or it.name == name:
                return it
        return None

    def reconstruct(self):
        """Reconstruct the active formatting elements, if any (13.2.4.3)."""
        entries, stack = self.tree.list, self.tree.stack
        at = len(entries)
        while at and entries[at - 1] is not MARKER and entries[at - 1] not in stack:
            at -= 1
        for it in range(at, len(entries)):
            entries[it] = self.insert(self.clone(entries[it]))

    def adopt(self, subject):
        """The adoption agency algorithm for a token of this name (13.2.6.4.7). Yields, after each step that ends it and each of its rounds, how html_open
        names it, and with which nodes."""
        stack = self.tree.stack
        if self.current.name == subject and not self.is_listed(self.current):
            yield "Popped", {"current": self.pop()}
            return
        for _ in range(8):
            formatting = self.listed(subject)
            if formatting is None:
                yield "NoEntry", {}
                self.close_named(subject)
                yield "OtherEndTag", {}
                return
            found = {"formatting_element": formatting}
            if formatting not in stack:
                self.unlist(formatting)
                yield "Forgotten", found
                return
            if not self.is_in_scope(formatting):
                yield "OutOfScope", found
                return
            at = stack.index(formatting)
            block = next((it for it in stack[at + 1 :] if self.is_in("is_special", it)), None)
            if block is None:
                del stack[at:]
                self.unlist(formatting)
                yield "Closed", found
                return
            end = stack.index(block)
            found |= {"lower": stack[: at - 1], "common_ancestor": stack[at - 1], "inner": stack[at + 1 : end], "furthest_block": block, "upper": stack[end + 1 :]}
            clones = self.adopt_once(formatting, block, stack[at - 1])
            yield "Round", {**found, "cloned_elements": clones[:-1], "new_element": stack[stack.index(block) + 1]}

    def adopt_once(self, formatting, block, ancestor):
        """One round. Returns the elements of which clones were made."""
        entries, stack = self.tree.list, self.tree.stack
        bookmark, last, cloned = entries.index(formatting), block, []
        above, count = stack.index(block), 0
        while True:
            count += 1
            above -= 1
            node = stack[above]
            if node is formatting:
                break
            if count > 3 and self.is_listed(node):
                bookmark -= entries.index(node) < bookmark
                self.unlist(node)
            if not self.is_listed(node):
                stack.pop(above)
                continue
            clone = self.clone(node)
            cloned.append(node)
            entries[entries.index(node)] = stack[above] = clone
            if last is block:
                bookmark = entries.index(clone) + 1
            last.put(clone)
            last = clone
        last.put(*self.place(ancestor))
        clone = self.clone(formatting)
        for it in [*block.children]:
            it.put(clone)
        clone.put(block)
        bookmark -= entries.index(formatting) < bookmark
        self.unlist(formatting)
        entries.insert(bookmark, clone)
        stack.remove(formatting)
        stack.insert(stack.index(block) + 1, clone)
        return [*cloned, formatting]

    def close_named(self, name):
        """Any other end tag, of this name."""
        for at in range(len(self.tree.stack) - 1, -1, -1):
            node = self.tree.stack[at]
            if node.name == name:
                del self.tree.stack[at:]
                return
            if self.is_in("is_special", node):
                return

    def close_link(self):
        """If the list contains an a element after the last marker: run the adoption agency algorithm for the token, then remove that element from the list
        and from the stack if the algorithm did not. Yields what the algorithm does."""
        node = self.listed("a")
        if node:
            yield from self.adopt("a")
            if self.is_listed(node):
                self.unlist(node)
            if node in self.tree.stack:
                self.tree.stack.remove(node)

    # QUERIES

    def ask(self, query):
        name = method("ask", query[0])
        if not hasattr(self, name):
            raise Wrong(f"these tools do not know the query {query[0]}")
        return getattr(self, name)(*query[1:])

    def finds(self, group, stop):
        for it in reversed(self.tree.stack):
            if self.in_group(group, it):
                return True
            if self.ends_search(stop, it):
                return False
        return False

    def is_in_scope(self, node):
        for it in reversed(self.tree.stack):
            if it is node:
                return True
            if self.is_in("ends_default_scope", it):
                return False
        return False

    ask_finds = finds

    def ask_is_current(self, group):
        return self.in_group(group, self.current)

    def ask_can_pop(self, group):
        return len(self.tree.stack) > 1 and self.in_group(group, self.current)

    def ask_is_option_in_group(self):
        return [it.name for it in self.tree.stack[-2:]] == ["optgroup", "option"]

    def ask_has_seat(self, tag):
        return self.rules.value("html_tree.specs.Seats", "may_carry", tag, self.current.number, self.current.tag)

    def ask_has_template(self):
        return any(it.name == "template" for it in self.tree.stack)

    def ask_is_fragment(self):
        return self.context != NONE

    def ask_is_root_alone(self):
        return len(self.tree.stack) == 1

    def ask_is_frameset_ok(self):
        return self.frameset_ok

    def ask_is_quirks(self):
        return self.quirks

    def ask_has_template_mode(self):
        return bool(self.templates)

    def ask_awaits_doctype(self):
        return self.ledger.history.awaits_doctype

    def ask_has_form(self):
        return self.outer_form or self.tree.form_element is not None

    def ask_has_body(self):
        return len(self.tree.stack) > 1 and self.tree.stack[1].name == "body"

    def ask_can_replace_body(self):
        return self.ask_has_body() and self.tree.detached == NONE

    def ask_may_misplace(self, tag):
        return self.rules.remembered(FLAGS, "may_misplace_tag", self.ledger.history, tag)

    def ask_is_outside_column_group(self):
        return self.began[0] == "InColumnGroup" and self.ledger.history.col and self.rules.remembered(MAY_DROP, "is_outside_column_group", self.token.symbol)

    def ask_sets_quirks(self):
        return is_quirky(*self.token.ids)

    def ask_is_hidden(self):
        return lowered(self.token.attributes.get("type", "")) == "hidden"

    def ask_closes_itself(self):
        return self.token.closes_itself

    def ask_is_in_table(self):
        return self.mode[0] in ("InTable", "InCaption", "InTableBody", "InRow", "InCell")

    def ask_collects_text(self):
        return self.current.name in ("table", "tbody", "template", "tfoot", "thead", "tr")

    def ask_are_spaces_kept(self):
        return all(it.data in SPACES for it in self.ledger.kept if it.data != "\0")

    def ask_is_null(self):
        return self.token.data == "\0"

    def ask_is_prolog_space(self):
        return self.token.kind == "C" and self.token.data in SPACES and self.ledger.history.prolog

    def ask_is_leading_newline(self):
        return self.token.kind == "C" and self.token.data == "\n" and self.ledger.history.ignore_line_feed

    def ask_parses_foreign(self):
        return self.parses_foreign
