//! Prints the elements and texts of a page on standard input, each below its parent.
use std::io::Read;
use zilqumet::{Kind, Options};

fn main() -> Result<(), Box<dyn std::error::Error>> {
    let mut bytes = Vec::new();
    std::io::stdin().read_to_end(&mut bytes)?;
    let page = Options::new().max_nodes(100_000).parse(&bytes)?;
    for node in page.root().descendants() {
        let depth = std::iter::successors(node.parent(), |it| it.parent()).count() - 1;
        let space = "  ".repeat(depth);
        match node.kind() {
            Kind::Element => println!("{space}<{}>", node.name()),
            Kind::Text => println!("{space}\"{}\"", node.text()),
            _ => {}
        }
    }
    Ok(())
}
