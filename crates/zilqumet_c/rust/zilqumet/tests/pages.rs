//! What the crate answers.

use std::io::{ErrorKind, Write};
use zilqumet::{normalise, parse, parse_fragment, Cause, EditError, Error, Fate, Kind, Options, Page, Token, TokenKind};

fn written(bytes: &[u8]) -> String {
    normalise(bytes).unwrap()
}

#[test]
fn nodes() {
    let page = parse("<!DOCTYPE html><p a=\"ä\" b>One<p>Two<!--c--><template><i>T</template>".as_bytes()).unwrap();
    let root = page.root();
    assert_eq!((root.kind(), root.parent()), (Kind::Document, None));
    let children: Vec<_> = root.children().collect();
    assert_eq!(children.len(), 2);
    let (doctype, html) = (children[0], children[1]);
    assert_eq!((doctype.kind(), doctype.doctype()), (Kind::Doctype, [Some("html"), None, None]));
    let body = html.last_child().unwrap();
    assert_eq!((html.name(), html.first_child().unwrap().name(), body.name()), ("html", "head", "body"));
    assert_eq!(body.previous_sibling(), html.first_child());
    let p = body.first_child().unwrap();
    assert_eq!(p.attrs().collect::<Vec<_>>(), [("a", "ä"), ("b", "")]);
    assert_eq!((p.attrs().len(), p.attr("b"), p.attr("c"), p.text()), (2, Some(""), None, ""));
    let below: Vec<_> = body.descendants().map(|it| (it.kind(), it.name().to_owned() + it.text())).collect();
    let want = [
        (Kind::Element, "p"),
        (Kind::Text, "One"),
        (Kind::Element, "p"),
        (Kind::Text, "Two"),
        (Kind::Comment, "c"),
        (Kind::Element, "template"),
        (Kind::Element, "i"),
        (Kind::Text, "T"),
    ];
    assert_eq!(below, want.map(|(kind, text)| (kind, text.to_owned())));
    let template = body.last_child().unwrap().last_child().unwrap();
    let contents = template.contents().unwrap();
    assert_eq!((contents.kind(), contents.host(), contents.parent(), template.first_child()), (Kind::Contents, Some(template), None, None));
    assert_eq!(template.descendants().count(), 2);
    assert_eq!(contents.descendants().count(), 2);
    assert_eq!(format!("{:?}", p), "Node { kind: Element, name: \"p\", text: \"\" }");
}

#[test]
fn texts() {
    assert_eq!(written(b"<p>One<p>Two"), "<html><head></head><body><p>One</p><p>Two</p></body></html>");
    assert_eq!(written(b""), "<html><head></head><body></body></html>");
    assert_eq!(written(b"\xff"), "<html><head></head><body>\u{fffd}</body></html>");
    let page = parse_fragment("div", b"<a b='<'>").unwrap();
    assert_eq!(page.serialise().unwrap(), "<a b=\"<\"></a>");
    assert_eq!(page.serialise_with(true).unwrap(), "<a b=\"&lt;\"></a>");
}

#[test]
fn fragments() {
    assert_eq!(parse_fragment("tr", b"<td>x").unwrap().serialise().unwrap(), "<td>x</td>");
    let write = |options: Options, bytes: &[u8]| options.parse_fragment("div", bytes).unwrap().serialise().unwrap();
    assert_eq!(write(Options::new().in_form(true), b"<form>x"), "x");
    assert_eq!(write(Options::new().in_form(true).in_form(false), b"<form>x"), "<form>x</form>");
    assert_eq!(write(Options::new().foreign(true), b"<svg><path/></svg>"), "<svg><path></path></svg>");
    assert_eq!(Options::new().foreign(true).parse_fragment("svg path", b"<g/>x").unwrap().serialise().unwrap(), "<g></g>x");
    assert_eq!(write(Options::new().quirks(true), b"<p><table>"), "<p><table></table></p>");
    assert_eq!(parse_fragment("svg", b"x").err(), Some(Error::BadContext));
}

#[test]
fn pieces() {
    let options = Options::new();
    let mut parser = options.parser().unwrap();
    for byte in "<p>é".bytes() {
        parser.feed(&[byte]).unwrap();
    }
    parser.feed(b"").unwrap();
    assert_eq!(parser.finish().unwrap().serialise().unwrap(), "<html><head></head><body><p>é</p></body></html>");
}

#[test]
fn pieces_as_they_come() {
    let mut parser = Options::new().parser().unwrap();
    assert_eq!(parser.feed(b"<p>x<sv"), Ok(()));
    assert_eq!(parser.feed(b"g>"), Err(Error::ForeignSvg { at: 4 }));
    assert_eq!(parser.feed(b"x"), Err(Error::Stopped));
    assert_eq!(parser.finish().err(), Some(Error::Stopped));
    assert_eq!(Options::new().max_nodes(0).parser().err(), Some(Error::NodeBudget { at: 0 }));
    // by the table of options that are gone
    let json = br#"{"&eacute;": {"codepoints": [233], "characters": "\u00e9"}}"#;
    let mut parser = Options::new().entities(json).unwrap().parser().unwrap();
    parser.write_all(b"&eac").unwrap();
    parser.write_all(b"ute;").unwrap();
    parser.flush().unwrap();
    assert_eq!(parser.finish().unwrap().root().text_below().unwrap(), "é");
    let mut parser = Options::new().max_input(2).parser().unwrap();
    let refused = std::io::copy(&mut &b"abc"[..], &mut parser).unwrap_err();
    assert_eq!((refused.kind(), refused.to_string().as_str()), (ErrorKind::InvalidData, "input too long"));
}

#[test]
fn pieces_of_a_fragment() {
    let written = |options: Options, context: &str, text: &str| {
        let mut parser = options.fragment_parser(context).unwrap();
        for byte in text.bytes() {
            parser.feed(&[byte]).unwrap();
        }
        parser.finish().unwrap().serialise().unwrap()
    };
    assert_eq!(written(Options::new(), "tr", "<td>x"), "<td>x</td>");
    assert_eq!(written(Options::new().in_form(true), "div", "<form>x"), "x");
    assert_eq!(written(Options::new().foreign(true), "svg path", "<g/><p>x"), "<g></g><p>x</p>");
    assert_eq!(Options::new().fragment_parser("svg").err(), Some(Error::BadContext));
    assert_eq!(Options::new().max_held(3).fragment_parser("p").err(), Some(Error::HeldBudget { at: 0 }));
}

#[test]
fn places() {
    let text = "é\r\nx<p a a>".as_bytes();
    let page = parse(text).unwrap();
    let places: Vec<_> = page.errors().unwrap().iter().map(|it| it.place).collect();
    let at = zilqumet::positions(text, &places);
    let last = at.last().unwrap();
    assert_eq!((last.offset, last.line, last.column), (11, 2, 8));
    assert_eq!(zilqumet::positions(b"", &[]), []);
    let page = parse(b"<p>One<!--c--><b>two</b><template>T").unwrap();
    assert_eq!(page.root().text_below().unwrap(), "OnetwoT");
}

#[test]
fn ledger() {
    let bytes = "<!DOCTYPE html> <p>é<body b><!--c--></p>".as_bytes();
    let (page, ledger) = Options::new().audit(bytes).unwrap();
    let token = |start, end, kind, fate| Token { start, end, kind, fate };
    let want = [
        token(0, 15, TokenKind::Doctype, Fate::Made(1)),
        token(15, 16, TokenKind::Character(' '), Fate::Dropped(Cause::PrologSpace)),
        token(16, 19, TokenKind::StartTag("p"), Fate::Made(5)),
        token(19, 20, TokenKind::Character('é'), Fate::Text(6)),
        token(20, 28, TokenKind::StartTag("body"), Fate::Merged),
        token(28, 36, TokenKind::Comment, Fate::Made(7)),
        token(36, 40, TokenKind::EndTag("p"), Fate::Ended),
        token(40, 40, TokenKind::EndOfFile, Fate::Ended),
    ];
    assert!(ledger.iter().eq(want));
    assert_eq!((ledger.len(), ledger.iter().len(), ledger.get(2), ledger.get(8)), (8, 8, Some(want[2]), None));
    assert_eq!((page.node(5).unwrap().name(), page.node(6).unwrap().text(), page.node(7).unwrap().text()), ("p", "é", "c"));
    assert_eq!(page.serialise().unwrap(), parse(bytes).unwrap().serialise().unwrap());
    // the ledger has its names of its own
    drop(page);
    assert_eq!(ledger.get(2).unwrap().kind, TokenKind::StartTag("p"));
    assert_eq!(format!("{ledger:?}").matches("Token").count(), 8);
}

#[test]
fn ledgers_of_fragments_and_refusals() {
    let (page, ledger) = Options::new().audit_fragment("tr", b"<td><tr>").unwrap();
    assert_eq!((page.serialise().unwrap().as_str(), ledger.len(), ledger.get(0).unwrap().fate), ("<td></td>", 3, Fate::Made(1)));
    let causes = |context: &str, bytes: &[u8]| {
        let (_, ledger) = Options::new().audit_fragment(context, bytes).unwrap();
        let fates: Vec<Fate> = ledger.iter().map(|it| it.fate).filter(|it| matches!(it, Fate::Dropped(_))).collect();
        fates
    };
    assert_eq!(causes("div", b"\0<pre>\n<select><p>"), [Cause::Null, Cause::LeadingNewline, Cause::InSelect].map(Fate::Dropped));
    assert_eq!((causes("frameset", b"x"), causes("colgroup", b"x")), (vec![Fate::Dropped(Cause::InFrameset)], vec![Fate::Dropped(Cause::InColumnGroup)]));
    assert_eq!(causes("div", b"<tr>"), [Fate::Dropped(Cause::Misplaced)]);
    assert_eq!(Options::new().audit(b"<p><svg>").err(), Some(Error::ForeignSvg { at: 3 }));
    assert_eq!(Options::new().audit_fragment("Q", b"").err(), Some(Error::BadContext));
}

fn number_of(page: &Page, name: &str) -> u64 {
    page.root().descendants().find(|it| it.name() == name).unwrap().number()
}

#[test]
fn attributes_edited() {
    let mut page = parse_fragment("div", b"<p a=b c=d>x").unwrap();
    let (p, text) = (1, 2);
    assert_eq!((page.set_attr(p, "a", "é<"), page.set_attr(p, "e", ""), page.remove_attr(p, "c"), page.remove_attr(p, "z")), (Ok(()), Ok(()), Ok(()), Ok(())));
    assert_eq!(page.serialise().unwrap(), "<p a=\"é<\" e=\"\">x</p>");
    assert_eq!(page.set_attr(p, "B", ""), Err(EditError::BadName));
    assert_eq!((page.set_attr(text, "a", ""), page.remove_attr(99, "a")), (Err(EditError::NotElement), Err(EditError::NoNode)));
    assert_eq!(page.node(p).unwrap().attr("a"), Some("é<"));
    assert_eq!(page.node(99), None);
}

#[test]
fn nodes_edited() {
    let mut page = parse_fragment("div", b"<p>One<b>two</b></p><template>T</template>").unwrap();
    let (p, b, template) = (number_of(&page, "p"), number_of(&page, "b"), number_of(&page, "template"));
    let (i, text) = (page.make_element("i").unwrap(), page.make_text("y<").unwrap());
    page.append(i, text).unwrap();
    page.insert_before(i, p).unwrap();
    page.unwrap(b).unwrap();
    assert_eq!(page.serialise().unwrap(), "<i>y&lt;</i><p>Onetwo</p><template>T</template>");
    page.append(template, p).unwrap();
    page.remove(i).unwrap();
    assert_eq!(page.serialise().unwrap(), "<template>T<p>Onetwo</p></template>");
    let root = page.root().number();
    assert_eq!((page.append(p, template), page.append(i, root)), (Err(EditError::Cycle), Err(EditError::NotLinkable)));
    assert_eq!((page.unwrap(b), page.insert_before(p, i)), (Err(EditError::NoParent), Err(EditError::NoParent)));
    assert_eq!((page.make_element("svg"), page.remove(99)), (Err(EditError::BadName), Err(EditError::NoNode)));
    assert_eq!((EditError::Cycle.status(), EditError::Cycle.to_string().as_str()), (21, "cycle"));
    let mut page = Options::new().max_nodes(3).max_held(9).parse_fragment("div", b"<p>x").unwrap();
    assert_eq!((page.make_text("y"), page.set_attr(1, "a", "bbbb")), (Err(EditError::NodeBudget), Err(EditError::HeldBudget)));
}

#[test]
fn references() {
    let json = br#"{"&eacute;": {"codepoints": [233], "characters": "\u00e9"}}"#;
    assert!(Options::new().entities(json).unwrap().normalise(b"&eacute;").unwrap().contains("é"));
    assert!(written(b"&eacute;").contains("&amp;eacute;"));
    assert_eq!(Options::new().entities(b"{").err(), Some(Error::BadEntities));
}

#[test]
fn refusals() {
    assert_eq!(parse(b"<p><svg>").err(), Some(Error::ForeignSvg { at: 3 }));
    let told = normalise(b"<math>").err().unwrap();
    assert_eq!((told.status(), told.place(), told.to_string().as_str()), (4, Some(0), "foreign math at 0"));
    assert_eq!(Options::new().max_nodes(3).parse(b"<p>").err(), Some(Error::NodeBudget { at: 0 }));
    assert_eq!(Options::new().max_held(3).parse(b"<p>").err(), Some(Error::HeldBudget { at: 0 }));
    assert!(matches!(Options::new().max_steps(9).parse(b"<p>").err(), Some(Error::StepBudget { .. })));
    assert_eq!(Options::new().max_input(2).parse(b"<p>").err().map(|it| it.to_string()), Some("input too long".to_owned()));
}

#[test]
fn counts_and_errors() {
    let page = parse(b"<!DOCTYPE html><p a a>").unwrap();
    let counts = page.counts();
    assert_eq!((counts.code_points, counts.nodes, counts.tokens, counts.errors), (22, 6, 3, 1));
    let errors = page.errors().unwrap();
    assert_eq!((errors.len(), errors[0].place, errors[0].name.as_str()), (1, 21, "duplicate-attribute"));
    assert_eq!(zilqumet::library_version(), env!("CARGO_PKG_VERSION"));
}

#[test]
fn threads() {
    let threads: Vec<_> = (0..4).map(|_| std::thread::spawn(|| (0..100).map(|_| written(b"<b><p>x</b>")).collect::<Vec<_>>())).collect();
    let all: Vec<_> = threads.into_iter().flat_map(|it| it.join().unwrap()).collect();
    assert!(all.len() == 400 && all.iter().all(|it| *it == all[0]));
}
