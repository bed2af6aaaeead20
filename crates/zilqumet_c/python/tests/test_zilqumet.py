"""What the module answers."""

import gc
import html.entities
import threading
import unittest
import xml.etree.ElementTree as ElementTree

import zilqumet


def shown(page):
    return [(node.kind, node.name or node.text) for node in page]


class Trees(unittest.TestCase):
    PAGE = b"<!DOCTYPE html><p id=a class='b c'>One<p>Tw\xc3\xb6<!--x--><template><b>T</b></template>"

    def test_nodes(self):
        page = zilqumet.parse(self.PAGE)
        self.assertEqual(shown(page), [
            ("doctype", ""), ("element", "html"), ("element", "head"), ("element", "body"), ("element", "p"), ("text", "One"), ("element", "p"),
            ("text", "Twö"), ("comment", "x"), ("element", "template"), ("element", "b"), ("text", "T")])
        p = next(node for node in page if node.name == "p")
        self.assertEqual(p.attrs, {"id": "a", "class": "b c"})
        self.assertEqual([*p.attrs], ["id", "class"])
        self.assertEqual((p.parent.name, p.parent.parent.parent, page.root.parent), ("body", page.root, None))
        self.assertEqual([node.name for node in p.parent.children], ["p", "p"])
        self.assertEqual((page.root.kind, page.root.number), ("document", 0))
        self.assertEqual(next(iter(page)).doctype, ("html", None, None))
        self.assertEqual(next(zilqumet.parse(b"<!DOCTYPE a PUBLIC 'b' 'c'>").root.children).doctype, ("a", "b", "c"))

    def test_templates(self):
        page = zilqumet.parse(self.PAGE)
        template = next(node for node in page if node.name == "template")
        self.assertEqual([*template.children], [])
        self.assertEqual((template.contents.kind, [node.name for node in template.contents.children]), ("contents", ["b"]))
        self.assertEqual(shown(template), [("element", "b"), ("text", "T")])
        self.assertEqual(template.contents.parent, None)

    def test_text_below(self):
        page = zilqumet.parse(self.PAGE)
        self.assertEqual(page.root.text_below, "OneTwöT")
        self.assertEqual(next(node for node in page if node.kind == "text").text_below, "One")

    def test_equality(self):
        page, other = zilqumet.parse(b"<p>"), zilqumet.parse(b"<p>")
        self.assertEqual(page.root, page.root)
        self.assertEqual(len({page.root, page.root, other.root}), 2)
        self.assertNotEqual(page.root, other.root)
        self.assertEqual(repr(page.root), "<document ''>")

    def test_a_node_keeps_its_page(self):
        node = next(iter(zilqumet.parse(b"<p>kept")))
        gc.collect()
        self.assertEqual(node.text_below, "kept")

    def test_depth(self):
        page = zilqumet.parse(b"<div>" * 20000 + b"x")
        self.assertEqual(page.root.text_below, "x")
        self.assertEqual(sum(node.name == "div" for node in page), 20000)

    def test_etree(self):
        root = zilqumet.parse(b"<p a=b>One<b>Two</b>Three<!--c-->Four<template><i>T</i></template>").to_etree()
        self.assertEqual(
            ElementTree.tostring(root, encoding="unicode"),
            '<html><head /><body><p a="b">One<b>Two</b>Three<!--c-->Four<template><i>T</i></template></p></body></html>')


class Texts(unittest.TestCase):
    def test_normalise(self):
        self.assertEqual(zilqumet.normalise(b"<p>One<p>Two"), "<html><head></head><body><p>One</p><p>Two</p></body></html>")
        self.assertEqual(zilqumet.normalise("<p>Ö"), "<html><head></head><body><p>Ö</p></body></html>")
        self.assertEqual(zilqumet.normalise(b""), "<html><head></head><body></body></html>")
        self.assertEqual(zilqumet.normalise(b"\xff"), "<html><head></head><body>\ufffd</body></html>")
        self.assertEqual(zilqumet.normalise("\ud800"), zilqumet.normalise(b"\xed\xa0\x80"))

    def test_angles(self):
        page = zilqumet.parse(b"<a b='<'>")
        self.assertIn('<a b="<">', page.serialise())
        self.assertIn('<a b="&lt;">', page.serialise(escape_angles=True))
        self.assertIn('<a b="&lt;">', zilqumet.normalise(b"<a b='<'>", escape_angles=True))

    def test_fragment(self):
        self.assertEqual(shown(zilqumet.parse_fragment(b"<td>x", "tr")), [("element", "td"), ("text", "x")])
        self.assertEqual(zilqumet.parse_fragment(b"<td>x").serialise(), "x")
        self.assertEqual(zilqumet.parse_fragment(b"<form>x", in_form=True).serialise(), "x")
        self.assertEqual(zilqumet.parse_fragment(b"<p><table>", quirks=True).serialise(), "<p><table></table></p>")

    def test_foreign(self):
        page = zilqumet.parse(b"<svg viewbox=0><path/><p>x", foreign=True)
        self.assertEqual(page.serialise(), '<html><head></head><body><svg viewBox="0"><path></path></svg><p>x</p></body></html>')
        self.assertIn(("element", "svg path"), shown(page))
        self.assertEqual(zilqumet.parse_fragment(b"<g/><p>x", "svg path", foreign=True).serialise(), "<g></g><p>x</p>")
        self.assertIn("<math><mi>x</mi></math>", zilqumet.normalise(b"<math><mi>x", foreign=True))

    def test_pieces(self):
        parser = zilqumet.Parser()
        for byte in "<p>é&eacute;<p>".encode():
            parser.feed(bytes([byte]))
        self.assertEqual(parser.finish().serialise(), "<html><head></head><body><p>éé</p><p></p></body></html>")
        with self.assertRaises(ValueError):
            parser.feed(b"x")
        with self.assertRaises(ValueError):
            parser.finish()

    def test_pieces_are_parsed_as_they_come(self):
        with zilqumet.Parser() as parser:
            parser.feed("<p>x<sv")
            with self.assertRaises(zilqumet.ForeignContent) as told:
                parser.feed(b"g>")
            self.assertEqual(told.exception.place, 4)
            with self.assertRaises(zilqumet.Stopped):
                parser.feed(b"x")
            with self.assertRaises(zilqumet.Stopped):
                parser.finish()
        with zilqumet.Parser(foreign=True) as parser:
            parser.feed(b"<table><svg>")
        with self.assertRaises(ValueError):
            parser.feed(b"x")
        # of a page in pieces no bytes are there
        with zilqumet.Parser() as parser:
            parser.feed(b"<p>")
            self.assertEqual(parser.finish().errors[0], (0, "tree-construction", None, None, None))

    def test_pieces_of_a_fragment(self):
        def written(pieces, context, **options):
            with zilqumet.Parser(context, **options) as parser:
                for piece in pieces:
                    parser.feed(piece)
                return parser.finish().serialise()

        self.assertEqual(written("<td>x", "tr"), "<td>x</td>")
        self.assertEqual(written("<p>&eacute;", "textarea"), "&lt;p&gt;é")
        self.assertEqual(written("<form>x", "div", in_form=True), "x")
        self.assertEqual(written("<p><table>", "div", quirks=True), "<p><table></table></p>")
        self.assertEqual(written("<g/><p>x", "svg path", foreign=True), "<g></g><p>x</p>")
        self.assertEqual(written([], "p"), "")
        for context in ("svg", "Q", "a b", ""):
            with self.assertRaises(zilqumet.BadContext):
                zilqumet.Parser(context)
        with self.assertRaises(zilqumet.NodeBudget) as told:
            written(["a", "<b>"], "p", max_nodes=2)
        self.assertEqual(told.exception.place, 1)

    def test_table_of_a_parser(self):
        table = zilqumet.Entities(b'{"&eacute;": {"codepoints": [233], "characters": "\\u00e9"}}')
        parsers = [zilqumet.Parser(entities=table) for _ in range(3)]
        del table
        for parser in parsers:
            parser.feed(b"&eac")
            parser.feed(b"ute;")
            self.assertEqual(parser.finish().root.text_below, "é")

    def test_errors_and_counts(self):
        self.assertEqual(zilqumet.parse(b"<!DOCTYPE html><p a a>").errors, [(21, "duplicate-attribute", 21, 1, 22)])
        self.assertEqual(zilqumet.parse(b"<p>").errors[0], zilqumet.ParseError(0, "tree-construction", 0, 1, 1))
        error = zilqumet.parse("<!DOCTYPE html>\r\né<p a a>".encode()).errors[0]
        self.assertEqual((error.place, error.offset, error.line, error.column), (23, 25, 2, 8))
        self.assertEqual(zilqumet.parse_fragment(b"x\n</b>").errors, [(2, "tree-construction", 2, 2, 1)])
        self.assertEqual(zilqumet.positions("é\n", (0, 1, 2, 9)), [(0, 1, 1), (2, 1, 2), (3, 2, 1), (3, 2, 1)])
        self.assertEqual(zilqumet.positions(b"", ()), [])
        counts = zilqumet.parse(b"<p a=b>x").counts
        self.assertEqual((counts.code_points, counts.nodes, counts.held, counts.tokens, counts.errors), (8, 6, 16, 3, 1))


class Ledger(unittest.TestCase):
    def test_audit(self):
        data = "<!DOCTYPE html> <p>é<body b><!--c--><select><div></p>"
        page, ledger = zilqumet.audit(data)
        self.assertEqual(page.serialise(), zilqumet.parse(data).serialise())
        self.assertEqual([(token.start, token.end, token.kind, token.name, token.fate, token.node and token.node.number, token.cause) for token in ledger], [
            (0, 15, "doctype", "", "made", 1, None), (15, 16, "character", " ", "dropped", None, "PrologSpace"),
            (16, 19, "start tag", "p", "made", 5, None), (19, 20, "character", "é", "text", 6, None), (20, 28, "start tag", "body", "merged", None, None),
            (28, 36, "comment", "", "made", 7, None), (36, 44, "start tag", "select", "made", 8, None),
            (44, 49, "start tag", "div", "dropped", None, "InSelect"), (49, 53, "end tag", "p", "ended", None, None),
            (53, 53, "end of file", "", "ended", None, None)])
        self.assertEqual([token.node.name or token.node.text for token in ledger if token.node], ["", "p", "é", "c", "select"])
        self.assertEqual((len(ledger), page.counts.tokens), (10, 10))
        self.assertEqual((ledger[2], ledger[-1].kind, ledger[7:9]), ([*ledger][2], "end of file", [*ledger][7:9]))
        with self.assertRaises(IndexError):
            ledger[10]

    def test_a_ledger_keeps_its_page(self):
        ledger = zilqumet.audit("<p>" * 99)[1]
        gc.collect()
        self.assertEqual({token.node.name for token in ledger if token.fate == "made"}, {"p"})

    def test_edits_leave_the_ledger(self):
        page, ledger = zilqumet.audit("<b>x</b>")
        ledger[0].node.unwrap()
        self.assertEqual((page.serialise(), ledger[0].name, ledger[0].node.name), ("<html><head></head><body>x</body></html>", "b", "b"))

    def test_causes(self):
        def cause(data, context=None):
            ledger = zilqumet.audit(data)[1] if context is None else zilqumet.audit_fragment(data, context)[1]
            return next(token.cause for token in ledger if token.fate == "dropped")

        self.assertEqual(
            [cause(" "), cause("x\0"), cause("<pre>\n"), cause("<select><p>"), cause("<frameset>x"), cause("<tr>"), cause("x", "colgroup")],
            ["PrologSpace", "Null", "LeadingNewline", "InSelect", "InFrameset", "Misplaced", "InColumnGroup"])

    def test_refusals(self):
        with self.assertRaises(zilqumet.ForeignContent) as told:
            zilqumet.audit(b"x<svg>")
        self.assertEqual(told.exception.place, 1)
        with self.assertRaises(zilqumet.NodeBudget):
            zilqumet.audit(b"x", max_nodes=4)
        with self.assertRaises(zilqumet.BadContext):
            zilqumet.audit_fragment(b"x", "Q")
        page, ledger = zilqumet.audit(b"<svg>", foreign=True)
        self.assertEqual((ledger[0].fate, ledger[0].node.name), ("made", "svg svg"))

    def test_audit_of_a_fragment(self):
        page, ledger = zilqumet.audit_fragment(b"<td>&eacute;", "tr")
        self.assertEqual([token[2:5] for token in ledger], [("start tag", "td", "made"), ("character", "é", "text"), ("end of file", "", "ended")])
        self.assertEqual((page.serialise(), ledger[1].node), ("<td>é</td>", [*page][1]))
        self.assertEqual(zilqumet.audit_fragment(b"<form>", in_form=True)[1][0].fate, "dropped")


class Edits(unittest.TestCase):
    def named(self, page, name):
        return next(node for node in page if node.name == name)

    def refused(self, cause, call, *arguments):
        with self.assertRaises(zilqumet.EditError) as told:
            call(*arguments)
        self.assertEqual((told.exception.cause, str(told.exception)), (cause, "zilqumet: " + cause))

    def test_attributes(self):
        page = zilqumet.parse_fragment("<p a=b c=d>x")
        p, text = page
        p.set_attr("a", "é<")
        p.set_attr("e", "")
        p.remove_attr("c")
        p.remove_attr("z")
        self.assertEqual((p.attrs, p.name, text.text, text.attrs), ({"a": "é<", "e": ""}, "p", "x", {}))
        self.assertEqual(page.serialise(), '<p a="é<" e="">x</p>')
        self.refused("bad name", p.set_attr, "b c", "")
        self.refused("bad text", p.set_attr, "a", "\ud800")
        self.refused("not an element", text.set_attr, "a", "b")
        self.assertEqual(p.attrs, {"a": "é<", "e": ""})

    def test_removing(self):
        page = zilqumet.parse_fragment("<p>One<script>x</script><b>two<i>three</i></b></p><script>y</script>four")
        for node in page:
            if node.name == "script":
                node.remove()
            elif node.name == "b":
                node.unwrap()
        self.assertEqual(page.serialise(), "<p>Onetwo<i>three</i></p>four")
        self.assertEqual(shown(page), [("element", "p"), ("text", "One"), ("text", "two"), ("element", "i"), ("text", "three"), ("text", "four")])
        self.assertEqual(page.root.text_below, "Onetwothreefour")
        # an edited page is gone over as it is when the iteration begins, too
        for node in page:
            if node.kind == "element":
                node.unwrap()
        self.assertEqual((page.serialise(), len([*page.root.children])), ("Onetwothreefour", 4))
        for node in page.root.children:
            node.remove()
        self.assertEqual(page.serialise(), "")
        self.refused("no parent", page.root.unwrap)

    def test_making_and_linking(self):
        page = zilqumet.parse_fragment("<p>x<template></template>")
        p, template = self.named(page, "p"), self.named(page, "template")
        b = page.make_element("b")
        b.append(page.make_text("y<"))
        self.assertEqual((b.parent, [*b.children][0].text, b.kind), (None, "y<", "element"))
        p.insert_before(b)
        self.assertEqual(page.serialise(), "<b>y&lt;</b><p>x<template></template></p>")
        template.append(b)
        self.assertEqual(page.serialise(), "<p>x<template><b>y&lt;</b></template></p>")
        self.assertEqual((b.parent, template.contents.kind), (template.contents, "contents"))
        self.refused("cycle", b.append, p)
        self.refused("not linkable", b.append, page.root)
        self.refused("no parent", page.root.insert_before, b)
        self.refused("bad name", page.make_element, "B")
        with self.assertRaises(ValueError):
            p.append(zilqumet.parse_fragment("z").root)
        self.assertEqual(page.counts.nodes, 7)

    def test_limits_of_edits(self):
        page = zilqumet.parse_fragment("<p>x", max_nodes=3, max_held=10)
        with self.assertRaises(zilqumet.NodeBudget) as told:
            page.make_text("y")
        self.assertEqual((told.exception.place, told.exception.cause), (None, "node budget"))
        with self.assertRaises(zilqumet.HeldBudget):
            next(iter(page)).set_attr("a", "bbbbbbbb")
        self.assertEqual(page.serialise(), "<p>x</p>")


class References(unittest.TestCase):
    def test_standard(self):
        for name, text in html.entities.html5.items():
            if name.endswith(";"):
                self.assertEqual(zilqumet.parse_fragment(f"&{name}".encode()).root.text_below, text)

    def test_others(self):
        table = zilqumet.Entities(b'{"&eacute;": {"codepoints": [233], "characters": "\\u00e9"}}')
        self.assertEqual(zilqumet.parse_fragment(b"&eacute;&Eacute;", entities=table).root.text_below, "é&Eacute;")
        self.assertEqual(zilqumet.parse_fragment(b"&eacute;&lt;", entities=zilqumet.Entities.core()).root.text_below, "&eacute;<")
        with self.assertRaises(zilqumet.BadEntities):
            zilqumet.Entities(b"{")


class Refusals(unittest.TestCase):
    def refused(self, cause, place, text, call, *arguments, **options):
        with self.assertRaises(cause) as told:
            call(*arguments, **options)
        self.assertEqual((type(told.exception), told.exception.place, str(told.exception)), (cause, place, text))

    def test_foreign_content(self):
        self.refused(zilqumet.ForeignContent, 4, "zilqumet: foreign svg at 4", zilqumet.parse, b"<p>x<svg>")
        self.refused(zilqumet.ForeignContent, 0, "zilqumet: foreign math at 0", zilqumet.normalise, b"<math>")

    def test_limits(self):
        self.refused(zilqumet.NodeBudget, 0, "zilqumet: node budget at 0", zilqumet.parse, b"<p>", max_nodes=3)
        self.refused(zilqumet.HeldBudget, 0, "zilqumet: held budget at 0", zilqumet.parse, b"<p>", max_held=3)
        self.refused(zilqumet.InputTooLong, None, "zilqumet: input too long", zilqumet.parse, b"xxx", max_input=2)
        with self.assertRaises(zilqumet.StepBudget):
            zilqumet.parse(b"<p>" * 99, max_steps=100)
        self.assertEqual(zilqumet.parse(b"<p>", max_nodes=5, max_held=None).counts.nodes, 5)
        parser = zilqumet.Parser(max_nodes=3)
        self.refused(zilqumet.NodeBudget, 0, "zilqumet: node budget at 0", parser.feed, b"<p>")
        self.refused(zilqumet.Stopped, None, "zilqumet: stopped", parser.finish)
        self.refused(zilqumet.NodeBudget, 0, "zilqumet: node budget at 0", zilqumet.Parser, max_nodes=0)
        with self.assertRaises(TypeError):
            zilqumet.parse(b"", max_node=3)

    def test_context(self):
        for context in ("svg", "Q", "a b", ""):
            self.refused(zilqumet.BadContext, None, "zilqumet: bad context", zilqumet.parse_fragment, b"x", context)

    def test_all_are_refusals(self):
        with self.assertRaises(zilqumet.Refused):
            zilqumet.parse(b"<svg>")
        self.assertTrue(issubclass(zilqumet.Refused, ValueError))


class Threads(unittest.TestCase):
    def test_threads(self):
        done = []

        def work():
            for _ in range(100):
                done.append(zilqumet.normalise(b"<b><p>x&eacute;</b>" * 50))

        threads = [threading.Thread(target=work) for _ in range(4)]
        for it in threads:
            it.start()
        for it in threads:
            it.join()
        self.assertEqual((len(set(done)), len(done)), (1, 400))

    def test_many(self):
        for _ in range(2000):
            zilqumet.parse(b"<table><tr><td>x")

    def test_version(self):
        self.assertEqual(zilqumet.library_version(), zilqumet.__version__)


if __name__ == "__main__":
    unittest.main()
