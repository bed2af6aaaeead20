//! Nodes, and the ways from one to others.

use crate::{bytes_in, check, text_in, Error, Handle, Page};
use std::fmt;
use zilqumet_sys as sys;

/// What a node is. The contents of a template are a node of their own, above which there is none.
#[derive(Clone, Copy, Debug, PartialEq, Eq, Hash)]
pub enum Kind {
    Document,
    Contents,
    Element,
    Text,
    Comment,
    Doctype,
}

/// A node of a page.
#[derive(Clone, Copy)]
pub struct Node<'a> {
    page: &'a Page,
    number: u64,
}

impl<'a> Node<'a> {
    pub(crate) fn at(page: &'a Page, number: u64) -> Node<'a> {
        Node { page, number }
    }

    /// Its number, which no other node of the page has.
    pub fn number(self) -> u64 {
        self.number
    }

    pub fn kind(self) -> Kind {
        // SAFETY: the page's own handle.
        match unsafe { sys::zq_kind_of(self.page.handle.get(), self.number) } {
            sys::ZQ_DOCUMENT => Kind::Document,
            sys::ZQ_CONTENTS => Kind::Contents,
            sys::ZQ_ELEMENT => Kind::Element,
            sys::ZQ_TEXT => Kind::Text,
            sys::ZQ_COMMENT => Kind::Comment,
            _ => Kind::Doctype,
        }
    }

    fn link(self, link: u32) -> Option<Node<'a>> {
        // SAFETY: the page's own handle.
        let number = unsafe { sys::zq_link(self.page.handle.get(), link, self.number) };
        (number != sys::ZQ_NO_NODE).then_some(Node { number, ..self })
    }

    pub fn parent(self) -> Option<Node<'a>> {
        self.link(sys::ZQ_PARENT)
    }

    pub fn first_child(self) -> Option<Node<'a>> {
        self.link(sys::ZQ_FIRST_CHILD)
    }

    pub fn last_child(self) -> Option<Node<'a>> {
        self.link(sys::ZQ_LAST_CHILD)
    }

    pub fn next_sibling(self) -> Option<Node<'a>> {
        self.link(sys::ZQ_NEXT)
    }

    pub fn previous_sibling(self) -> Option<Node<'a>> {
        self.link(sys::ZQ_PREVIOUS)
    }

    /// What a template holds, which are no children of it.
    pub fn contents(self) -> Option<Node<'a>> {
        self.link(sys::ZQ_TEMPLATE_CONTENTS)
    }

    /// The template that holds these contents.
    pub fn host(self) -> Option<Node<'a>> {
        self.link(sys::ZQ_HOST)
    }

    pub fn children(self) -> Children<'a> {
        Children { next: self.first_child() }
    }

    /// All nodes below this one, in tree order; what a template holds in place of its children.
    pub fn descendants(self) -> Descendants<'a> {
        Descendants { below: self, next: below(self) }
    }

    fn part(self, part: u32, index: u64) -> Option<&'a str> {
        let mut span = sys::zq_span { at: std::ptr::null(), len: 0 };
        // SAFETY: the page's own handle; what it hands out stays while the page is lent, since no call changes it.
        let bytes = unsafe {
            if sys::zq_text(self.page.handle.get(), part, self.number, index, &mut span) != sys::ZQ_OK {
                return None;
            }
            bytes_in(span)
        };
        std::str::from_utf8(bytes).ok()
    }

    /// The name of an element, else an empty text.
    pub fn name(self) -> &'a str {
        self.part(sys::ZQ_NAME, 0).unwrap_or("")
    }

    /// The text of a text or of a comment, else an empty one.
    pub fn text(self) -> &'a str {
        self.part(sys::ZQ_DATA, 0).unwrap_or("")
    }

    /// All texts below this node, in tree order, those in templates with them; comments are none.
    ///
    /// # Errors
    ///
    /// `OutOfMemory`.
    pub fn text_below(self) -> Result<String, Error> {
        let buffer = Handle::new();
        // SAFETY: the page's own handle, and another of our own.
        check(unsafe { sys::zq_text_below(self.page.handle.get(), self.number, buffer.get()) }, 0)?;
        text_in(&buffer)
    }

    /// The attributes of an element, as names and values, in the order of its tag.
    pub fn attrs(self) -> Attrs<'a> {
        // SAFETY: the page's own handle.
        Attrs { node: self, index: 0, count: unsafe { sys::zq_attr_count(self.page.handle.get(), self.number) } }
    }

    /// The value of an attribute.
    pub fn attr(self, name: &str) -> Option<&'a str> {
        self.attrs().find(|(own, _)| *own == name).map(|(_, value)| value)
    }

    /// The name, the public and the system identifier of a doctype, where they are there.
    pub fn doctype(self) -> [Option<&'a str>; 3] {
        [sys::ZQ_DOCTYPE_NAME, sys::ZQ_PUBLIC_ID, sys::ZQ_SYSTEM_ID].map(|part| self.part(part, 0))
    }
}

impl PartialEq for Node<'_> {
    fn eq(&self, other: &Self) -> bool {
        std::ptr::eq(self.page, other.page) && self.number == other.number
    }
}

impl Eq for Node<'_> {}

impl fmt::Debug for Node<'_> {
    fn fmt(&self, f: &mut fmt::Formatter<'_>) -> fmt::Result {
        f.debug_struct("Node").field("kind", &self.kind()).field("name", &self.name()).field("text", &self.text()).finish()
    }
}

/// The first node below a node, in tree order.
fn below(node: Node<'_>) -> Option<Node<'_>> {
    node.contents().unwrap_or(node).first_child()
}

/// The children of a node.
#[derive(Clone, Debug)]
pub struct Children<'a> {
    next: Option<Node<'a>>,
}

impl<'a> Iterator for Children<'a> {
    type Item = Node<'a>;

    fn next(&mut self) -> Option<Node<'a>> {
        let node = self.next?;
        self.next = node.next_sibling();
        Some(node)
    }
}

/// The nodes below a node.
#[derive(Clone, Debug)]
pub struct Descendants<'a> {
    below: Node<'a>,
    next: Option<Node<'a>>,
}

impl<'a> Descendants<'a> {
    /// The next node in tree order that is not below this one.
    fn behind(&self, node: Node<'a>) -> Option<Node<'a>> {
        let mut at = node;
        while at != self.below {
            if let Some(next) = at.next_sibling() {
                return Some(next);
            }
            let above = at.parent()?;
            at = above.host().unwrap_or(above);
            if above == self.below {
                return None;
            }
        }
        None
    }
}

impl<'a> Iterator for Descendants<'a> {
    type Item = Node<'a>;

    fn next(&mut self) -> Option<Node<'a>> {
        let node = self.next?;
        self.next = below(node).or_else(|| self.behind(node));
        Some(node)
    }
}

/// The attributes of an element.
#[derive(Clone, Debug)]
pub struct Attrs<'a> {
    node: Node<'a>,
    index: u64,
    count: u64,
}

impl<'a> Iterator for Attrs<'a> {
    type Item = (&'a str, &'a str);

    fn next(&mut self) -> Option<(&'a str, &'a str)> {
        if self.index == self.count {
            return None;
        }
        let index = self.index;
        self.index += 1;
        Some((self.node.part(sys::ZQ_ATTR_NAME, index)?, self.node.part(sys::ZQ_ATTR_VALUE, index)?))
    }

    fn size_hint(&self) -> (usize, Option<usize>) {
        let left = (self.count - self.index) as usize;
        (left, Some(left))
    }
}

impl ExactSizeIterator for Attrs<'_> {}
