//! Edits of a page's nodes, by their numbers.

use crate::{Error, Page};
use std::fmt;
use zilqumet_sys as sys;

/// Why a page is not edited; it is then as it was.
#[derive(Clone, Copy, Debug, PartialEq, Eq)]
#[non_exhaustive]
pub enum EditError {
    /// There is no node of this number.
    NoNode,
    /// The node is no element.
    NotElement,
    /// No tag of HTML can have this name.
    BadName,
    /// The root, a document and the contents of a template have no parent.
    NotLinkable,
    /// The node has no parent.
    NoParent,
    /// The node would stand below itself.
    Cycle,
    /// The next node would pass the page's limit on nodes.
    NodeBudget,
    /// The next code points would pass the page's limit on those that nodes hold.
    HeldBudget,
    /// Memory was refused.
    OutOfMemory,
    /// Another answer of the library, by its number.
    Other(u32),
}

impl EditError {
    fn of(status: u32) -> EditError {
        match status {
            sys::ZQ_BAD_INDEX => EditError::NoNode,
            sys::ZQ_NOT_ELEMENT => EditError::NotElement,
            sys::ZQ_BAD_NAME => EditError::BadName,
            sys::ZQ_NOT_LINKABLE => EditError::NotLinkable,
            sys::ZQ_NO_PARENT => EditError::NoParent,
            sys::ZQ_CYCLE => EditError::Cycle,
            sys::ZQ_NODE_BUDGET => EditError::NodeBudget,
            sys::ZQ_HELD_BUDGET => EditError::HeldBudget,
            sys::ZQ_OUT_OF_MEMORY => EditError::OutOfMemory,
            other => EditError::Other(other),
        }
    }

    /// The library's number of it.
    pub fn status(self) -> u32 {
        match self {
            EditError::NoNode => sys::ZQ_BAD_INDEX,
            EditError::NotElement => sys::ZQ_NOT_ELEMENT,
            EditError::BadName => sys::ZQ_BAD_NAME,
            EditError::NotLinkable => sys::ZQ_NOT_LINKABLE,
            EditError::NoParent => sys::ZQ_NO_PARENT,
            EditError::Cycle => sys::ZQ_CYCLE,
            EditError::NodeBudget => sys::ZQ_NODE_BUDGET,
            EditError::HeldBudget => sys::ZQ_HELD_BUDGET,
            EditError::OutOfMemory => sys::ZQ_OUT_OF_MEMORY,
            EditError::Other(status) => status,
        }
    }
}

impl fmt::Display for EditError {
    fn fmt(&self, f: &mut fmt::Formatter<'_>) -> fmt::Result {
        Error::Other(self.status()).fmt(f)
    }
}

impl std::error::Error for EditError {}

fn check(status: u32) -> Result<(), EditError> {
    if status == sys::ZQ_OK {
        Ok(())
    } else {
        Err(EditError::of(status))
    }
}

/// Edits, as the DOM has them. Nodes are named by their numbers (`Node::number`), which they keep: what is taken out stands alone, with all below it, and can
/// be linked again. The limits that the page was parsed within hold for edits too.
///
/// ```
/// let mut page = zilqumet::parse_fragment("div", b"<p>One<script>x</script>")?;
/// let scripts: Vec<u64> = page.root().descendants().filter(|it| it.name() == "script").map(|it| it.number()).collect();
/// for script in scripts {
///     page.remove(script)?;
/// }
/// assert_eq!(page.serialise()?, "<p>One</p>");
/// # Ok::<(), Box<dyn std::error::Error>>(())
/// ```
impl Page {
    /// Gives an element an attribute: the one of this name gets the value, or there is a new one behind the others.
    ///
    /// # Errors
    ///
    /// `NoNode`, `NotElement`; `BadName` where the element has none of this name, and no attribute of HTML can have it; `HeldBudget`, `OutOfMemory`.
    pub fn set_attr(&mut self, node: u64, name: &str, value: &str) -> Result<(), EditError> {
        // SAFETY: a handle of our own, and two texts' bytes.
        check(unsafe { sys::zq_set_attr(self.handle.get(), node, name.as_ptr(), name.len(), value.as_ptr(), value.len()) })
    }

    /// Takes the attribute of a name from an element, if it has it.
    ///
    /// # Errors
    ///
    /// `NoNode`, `NotElement`, `OutOfMemory`.
    pub fn remove_attr(&mut self, node: u64, name: &str) -> Result<(), EditError> {
        // SAFETY: a handle of our own, and a text's bytes.
        check(unsafe { sys::zq_remove_attr(self.handle.get(), node, name.as_ptr(), name.len()) })
    }

    /// Takes a node out, with all below it. One that has no parent stays as it is.
    ///
    /// # Errors
    ///
    /// `NoNode`.
    pub fn remove(&mut self, node: u64) -> Result<(), EditError> {
        // SAFETY: a handle of our own.
        check(unsafe { sys::zq_remove(self.handle.get(), node) })
    }

    /// Puts what is below an element in its place, of a template what it holds. It then stands alone, and nothing is below it.
    ///
    /// # Errors
    ///
    /// `NoNode`, `NotElement`, `NoParent`; `Cycle` of a template that stands in what it holds.
    pub fn unwrap(&mut self, node: u64) -> Result<(), EditError> {
        // SAFETY: a handle of our own.
        check(unsafe { sys::zq_unwrap(self.handle.get(), node) })
    }

    /// Takes `child` from where it stands and makes it the last node just below `parent`; below a template, in its contents.
    ///
    /// # Errors
    ///
    /// `NotLinkable` where `child` is the root, a document, or the contents of a template; `NoNode`; `Cycle`.
    pub fn append(&mut self, parent: u64, child: u64) -> Result<(), EditError> {
        // SAFETY: a handle of our own.
        check(unsafe { sys::zq_append(self.handle.get(), parent, child) })
    }

    /// Takes `child` from where it stands and puts it just before `next`.
    ///
    /// # Errors
    ///
    /// Those of `append`; `NoParent` where `next` has none.
    pub fn insert_before(&mut self, child: u64, next: u64) -> Result<(), EditError> {
        // SAFETY: a handle of our own.
        check(unsafe { sys::zq_insert_before(self.handle.get(), child, next) })
    }

    /// Makes an element of HTML without attributes, which stands alone, and tells its number; a template with its contents, the node after it.
    ///
    /// # Errors
    ///
    /// `BadName` where no start tag can have the name, or it is `svg` or `math`; `NodeBudget`, `HeldBudget`, `OutOfMemory`.
    pub fn make_element(&mut self, name: &str) -> Result<u64, EditError> {
        let mut node = sys::ZQ_NO_NODE;
        // SAFETY: a handle of our own, a text's bytes, and a place for what is told.
        check(unsafe { sys::zq_make_element(self.handle.get(), name.as_ptr(), name.len(), &mut node) })?;
        Ok(node)
    }

    /// Makes a text, which stands alone, and tells its number. Below `script`, `style` and the like a text is written as it is, and may end its element.
    ///
    /// # Errors
    ///
    /// `NodeBudget`, `HeldBudget`, `OutOfMemory`.
    pub fn make_text(&mut self, text: &str) -> Result<u64, EditError> {
        let mut node = sys::ZQ_NO_NODE;
        // SAFETY: as in `make_element`.
        check(unsafe { sys::zq_make_text(self.handle.get(), text.as_ptr(), text.len(), &mut node) })?;
        Ok(node)
    }
}
