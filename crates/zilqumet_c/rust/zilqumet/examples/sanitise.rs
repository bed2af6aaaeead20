//! Writes of the page on standard input its text and a few elements, without attributes. What stands in a script, a style or their like goes.
use std::io::Read;
use zilqumet::{Kind, Node, Options};

const KEPT: &[&str] = &["p", "b", "i", "em", "strong", "ul", "ol", "li", "blockquote", "code", "pre"];
const DROPPED: &[&str] = &[
    "script", "style", "template", "noscript", "iframe", "noembed", "noframes", "textarea", "title", "select", "xmp", "plaintext",
];

fn write(node: Node<'_>, depth: usize, out: &mut String) {
    let (name, is_kept) = (node.name(), KEPT.contains(&node.name()));
    if DROPPED.contains(&name) || depth > 200 {
        return;
    }
    if is_kept {
        out.push_str(&format!("<{name}>"));
    }
    if node.kind() == Kind::Text {
        out.push_str(&node.text().replace('&', "&amp;").replace('<', "&lt;").replace('>', "&gt;"));
    }
    for child in node.children() {
        write(child, depth + 1, out);
    }
    if is_kept {
        out.push_str(&format!("</{name}>"));
    }
}

fn main() -> Result<(), Box<dyn std::error::Error>> {
    let (mut bytes, mut out) = (Vec::new(), String::new());
    std::io::stdin().read_to_end(&mut bytes)?;
    write(Options::new().max_nodes(100_000).parse(&bytes)?.root(), 0, &mut out);
    print!("{out}");
    Ok(())
}
