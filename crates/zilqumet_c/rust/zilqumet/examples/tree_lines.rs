//! tree_lines tree|audit ENTITIES [CONTEXT] < PAGE: what html_cmd's `tree`, or `audit`, prints. For the test that compares the two.
use std::io::{Read, Write};
use zilqumet::{Error, Fate, Kind, Ledger, Node, Options, Page, TokenKind};

fn line(depth: usize, text: &str, out: &mut Vec<u8>) {
    out.extend(format!("| {}{text}\n", "  ".repeat(depth)).as_bytes());
}

/// Writes the line of a node and those of its attributes.
fn show(node: Node<'_>, depth: usize, out: &mut Vec<u8>) {
    match node.kind() {
        Kind::Element => {
            line(depth, &format!("<{}>", node.name()), out);
            let mut attrs: Vec<_> = node.attrs().collect();
            attrs.sort_by_key(|(name, _)| name.encode_utf16().collect::<Vec<u16>>());
            for (name, value) in attrs {
                line(depth + 1, &format!("{name}=\"{value}\""), out);
            }
        }
        Kind::Text => line(depth, &format!("\"{}\"", node.text()), out),
        Kind::Comment => line(depth, &format!("<!-- {} -->", node.text()), out),
        _ => {
            let [name, public, system] = node.doctype().map(|it| it.unwrap_or(""));
            let rest = if public.is_empty() && system.is_empty() { String::new() } else { format!(" \"{public}\" \"{system}\"") };
            line(depth, &format!("<!DOCTYPE {name}{rest}>"), out);
        }
    }
}

/// A node, how deep its line stands, and whether it is what a template holds.
type Entry<'a> = (Node<'a>, usize, bool);

fn push_children<'a>(node: Node<'a>, depth: usize, stack: &mut Vec<Entry<'a>>) {
    let children: Vec<_> = node.children().collect();
    stack.extend(children.into_iter().rev().map(|child| (child, depth, false)));
}

/// The lines of a tree.
fn tree(page: &Page) -> Vec<u8> {
    let (mut out, mut stack) = (Vec::new(), Vec::new());
    push_children(page.root(), 0, &mut stack);
    while let Some((node, depth, is_contents)) = stack.pop() {
        if is_contents {
            line(depth, "content", &mut out);
        } else {
            show(node, depth, &mut out);
        }
        push_children(node, depth + 1, &mut stack);
        if let Some(contents) = node.contents() {
            stack.push((contents, depth + 1, true));
        }
    }
    out
}

/// The lines of a ledger.
fn audit(ledger: &Ledger) -> Vec<u8> {
    let mut out = Vec::new();
    for token in ledger {
        let kind = match token.kind {
            TokenKind::StartTag(name) => format!("start {name}"),
            TokenKind::EndTag(name) => format!("end {name}"),
            TokenKind::Character(c) => format!("char U+{:04X}", c as u32),
            TokenKind::Comment => "comment".to_owned(),
            TokenKind::Doctype => "doctype".to_owned(),
            TokenKind::EndOfFile => "eof".to_owned(),
        };
        let fate = match token.fate {
            Fate::Made(node) => format!("made {node}"),
            Fate::Text(node) => format!("text {node}"),
            Fate::Merged => "merged".to_owned(),
            Fate::Dropped(cause) => format!("dropped {cause:?}"),
            Fate::Ended => "ended".to_owned(),
        };
        out.extend(format!("{} {} {kind} {fate}\n", token.start, token.end).as_bytes());
    }
    out
}

/// What is asked for, of a page.
fn told(words: &[String], bytes: &[u8]) -> Result<Vec<u8>, Error> {
    let table = std::fs::read(&words[1]).expect("the table is there");
    let options = Options::new().entities(&table)?;
    let context = words.get(2);
    if words[0] == "audit" {
        let (_, ledger) = match context {
            Some(context) => options.audit_fragment(context, bytes)?,
            None => options.audit(bytes)?,
        };
        return Ok(audit(&ledger));
    }
    Ok(tree(&match context {
        Some(context) => options.parse_fragment(context, bytes)?,
        None => options.parse(bytes)?,
    }))
}

fn main() -> std::io::Result<()> {
    let words: Vec<String> = std::env::args().skip(1).collect();
    let mut bytes = Vec::new();
    std::io::stdin().read_to_end(&mut bytes)?;
    match told(&words, &bytes) {
        Ok(out) => std::io::stdout().write_all(&out),
        Err(error) => {
            eprintln!("refused: {error}");
            std::process::exit(1);
        }
    }
}
