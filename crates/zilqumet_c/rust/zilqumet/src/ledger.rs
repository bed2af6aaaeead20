//! What became of each token.

use crate::{bytes_in, Error, Handle, Page};
use std::fmt;
use zilqumet_sys as sys;

/// The tokens of a page in their order, the end of the input last, and the fate of each.
///
/// ```
/// use zilqumet::{Cause, Fate, Options, TokenKind};
/// let (page, ledger) = Options::new().audit(b"<p>a<select><div>")?;
/// for token in &ledger {
///     if let Fate::Made(number) = token.fate {
///         println!("{}..{}: {}", token.start, token.end, page.node(number).unwrap().name());
///     }
/// }
/// let last_tag = ledger.get(3).unwrap();
/// assert_eq!((last_tag.kind, last_tag.fate), (TokenKind::StartTag("div"), Fate::Dropped(Cause::InSelect)));
/// # Ok::<(), zilqumet::Error>(())
/// ```
pub struct Ledger {
    rows: Vec<sys::zq_token>,
    // the names in the rows lie in it
    _handle: Handle,
}

impl Ledger {
    /// The tokens in a handle that was filled with a page.
    pub(crate) fn read(handle: Handle, page: &Page) -> Result<Ledger, Error> {
        let (count, mut rows) = (page.counts().tokens as usize, Vec::new());
        rows.try_reserve_exact(count).map_err(|_| Error::OutOfMemory)?;
        // SAFETY: a handle of our own, and room for so many tokens, of which as many are written as the call answers.
        unsafe {
            let told = sys::zq_tokens(handle.get(), 0, rows.as_mut_ptr(), count);
            rows.set_len(told);
        }
        Ok(Ledger { rows, _handle: handle })
    }

    /// How many tokens there are; at least the end of the input is one.
    #[allow(clippy::len_without_is_empty)]
    pub fn len(&self) -> usize {
        self.rows.len()
    }

    /// The token of a number, from 0.
    pub fn get(&self, index: usize) -> Option<Token<'_>> {
        self.rows.get(index).map(|row| self.token(row))
    }

    /// All tokens, in their order.
    pub fn iter(&self) -> Tokens<'_> {
        Tokens { ledger: self, rows: self.rows.iter() }
    }

    fn token<'a>(&'a self, row: &sys::zq_token) -> Token<'a> {
        // SAFETY: the name was told by the library, of the handle that this ledger keeps as it is.
        let name = std::str::from_utf8(unsafe { bytes_in(row.name) }).unwrap_or("");
        Token { start: row.start, end: row.end, kind: kind_of(row, name), fate: fate_of(row) }
    }
}

impl<'a> IntoIterator for &'a Ledger {
    type Item = Token<'a>;
    type IntoIter = Tokens<'a>;

    fn into_iter(self) -> Tokens<'a> {
        self.iter()
    }
}

impl fmt::Debug for Ledger {
    fn fmt(&self, f: &mut fmt::Formatter<'_>) -> fmt::Result {
        f.debug_list().entries(self).finish()
    }
}

/// The tokens of a ledger.
#[derive(Clone)]
pub struct Tokens<'a> {
    ledger: &'a Ledger,
    rows: std::slice::Iter<'a, sys::zq_token>,
}

impl<'a> Iterator for Tokens<'a> {
    type Item = Token<'a>;

    fn next(&mut self) -> Option<Token<'a>> {
        self.rows.next().map(|row| self.ledger.token(row))
    }

    fn size_hint(&self) -> (usize, Option<usize>) {
        self.rows.size_hint()
    }
}

impl ExactSizeIterator for Tokens<'_> {}

/// A token of an input, and its one fate. `start` and `end` are places: how many code points of the text are before.
#[derive(Clone, Copy, Debug, PartialEq, Eq)]
pub struct Token<'a> {
    pub start: u64,
    pub end: u64,
    pub kind: TokenKind<'a>,
    pub fate: Fate,
}

/// What a token is; a tag has its name.
#[derive(Clone, Copy, Debug, PartialEq, Eq)]
pub enum TokenKind<'a> {
    StartTag(&'a str),
    EndTag(&'a str),
    Character(char),
    Comment,
    Doctype,
    EndOfFile,
}

/// What became of a token. Nodes are told by their numbers: `Page::node`.
#[derive(Clone, Copy, Debug, PartialEq, Eq)]
pub enum Fate {
    /// This node was made of it.
    Made(u64),
    /// It stands in this text.
    Text(u64),
    /// Its attributes went to the `html` or the `body` that was there.
    Merged,
    /// It has no effect on the tree.
    Dropped(Cause),
    /// An end tag, or the end of the input.
    Ended,
}

/// Why a token was dropped.
#[derive(Clone, Copy, Debug, PartialEq, Eq)]
#[non_exhaustive]
pub enum Cause {
    /// White space before the head.
    PrologSpace,
    /// U+0000.
    Null,
    /// A line feed just after a start tag `pre`, `listing` or `textarea`.
    LeadingNewline,
    /// A start tag that a select does not take.
    InSelect,
    /// A start tag or a code point that a page of frames does not take.
    InFrameset,
    /// A start tag or a doctype where it can't stand.
    Misplaced,
    /// A start tag or a code point that a column group does not take.
    InColumnGroup,
    /// Another cause of the library, by its number.
    Other(u32),
}

fn kind_of<'a>(row: &sys::zq_token, name: &'a str) -> TokenKind<'a> {
    match row.kind {
        sys::ZQ_START_TAG => TokenKind::StartTag(name),
        sys::ZQ_END_TAG => TokenKind::EndTag(name),
        sys::ZQ_CHARACTER => TokenKind::Character(char::from_u32(row.code_point).unwrap_or(char::REPLACEMENT_CHARACTER)),
        sys::ZQ_COMMENT_TOKEN => TokenKind::Comment,
        sys::ZQ_DOCTYPE_TOKEN => TokenKind::Doctype,
        _ => TokenKind::EndOfFile,
    }
}

fn fate_of(row: &sys::zq_token) -> Fate {
    match row.fate {
        sys::ZQ_MADE => Fate::Made(row.node),
        sys::ZQ_IN_TEXT => Fate::Text(row.node),
        sys::ZQ_MERGED => Fate::Merged,
        sys::ZQ_DROPPED => Fate::Dropped(cause_of(row.cause)),
        _ => Fate::Ended,
    }
}

fn cause_of(number: u32) -> Cause {
    match number {
        sys::ZQ_PROLOG_SPACE => Cause::PrologSpace,
        sys::ZQ_NULL => Cause::Null,
        sys::ZQ_LEADING_NEWLINE => Cause::LeadingNewline,
        sys::ZQ_IN_SELECT => Cause::InSelect,
        sys::ZQ_IN_FRAMESET => Cause::InFrameset,
        sys::ZQ_MISPLACED => Cause::Misplaced,
        sys::ZQ_IN_COLUMN_GROUP => Cause::InColumnGroup,
        other => Cause::Other(other),
    }
}
