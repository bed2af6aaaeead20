//! HTML to trees, by a parser that no page can make hang, or grow past a known limit.
//!
//! ```
//! let page = zilqumet::parse(b"<p class=a>One<p>Two")?;
//! for node in page.root().descendants() {
//!     println!("{:?} {} {}", node.kind(), node.name(), node.text());
//! }
//! assert_eq!(page.serialise()?, r#"<html><head></head><body><p class="a">One</p><p>Two</p></body></html>"#);
//! # Ok::<(), zilqumet::Error>(())
//! ```
//!
//! The work is done by libzilqumet, whose calls are proved; this crate holds its handles. A page stays on the thread that made it.

use std::cell::UnsafeCell;
use std::ffi::CStr;
use std::fmt;
use std::io;
use std::marker::PhantomData;
use zilqumet_sys as sys;

mod edit;
mod ledger;
mod node;

pub use edit::EditError;
pub use ledger::{Cause, Fate, Ledger, Token, TokenKind, Tokens};
pub use node::{Attrs, Children, Descendants, Kind, Node};

/// Why there is no page, or no text.
#[derive(Clone, Copy, Debug, PartialEq, Eq)]
#[non_exhaustive]
pub enum Error {
    /// Memory was refused.
    OutOfMemory,
    /// More code points than `max_input`, or than 268,435,456.
    InputTooLong,
    /// A start tag `svg`, at a place: how many code points of the text are before it.
    ForeignSvg { at: u64 },
    /// A start tag `math`, at a place.
    ForeignMath { at: u64 },
    /// No HTML element can have the name of the fragment's context, or it is `svg` or `math`.
    BadContext,
    /// The token at a place would make more nodes than `max_nodes`.
    NodeBudget { at: u64 },
    /// The token at a place would have the nodes hold more code points than `max_held`.
    HeldBudget { at: u64 },
    /// More steps than `max_steps` were counted before the token at a place.
    StepBudget { at: u64 },
    /// The parser refused an earlier piece.
    Stopped,
    /// Not a table of named character references.
    BadEntities,
    /// Another answer of the library, by its number.
    Other(u32),
}

impl Error {
    fn of(status: u32, at: u64) -> Error {
        match status {
            sys::ZQ_OUT_OF_MEMORY => Error::OutOfMemory,
            sys::ZQ_INPUT_TOO_LONG => Error::InputTooLong,
            sys::ZQ_FOREIGN_SVG => Error::ForeignSvg { at },
            sys::ZQ_FOREIGN_MATH => Error::ForeignMath { at },
            sys::ZQ_BAD_CONTEXT => Error::BadContext,
            sys::ZQ_NODE_BUDGET => Error::NodeBudget { at },
            sys::ZQ_HELD_BUDGET => Error::HeldBudget { at },
            sys::ZQ_STEP_BUDGET => Error::StepBudget { at },
            sys::ZQ_STOPPED => Error::Stopped,
            sys::ZQ_BAD_ENTITIES => Error::BadEntities,
            other => Error::Other(other),
        }
    }

    /// The library's number of it.
    pub fn status(self) -> u32 {
        match self {
            Error::OutOfMemory => sys::ZQ_OUT_OF_MEMORY,
            Error::InputTooLong => sys::ZQ_INPUT_TOO_LONG,
            Error::ForeignSvg { .. } => sys::ZQ_FOREIGN_SVG,
            Error::ForeignMath { .. } => sys::ZQ_FOREIGN_MATH,
            Error::BadContext => sys::ZQ_BAD_CONTEXT,
            Error::NodeBudget { .. } => sys::ZQ_NODE_BUDGET,
            Error::HeldBudget { .. } => sys::ZQ_HELD_BUDGET,
            Error::StepBudget { .. } => sys::ZQ_STEP_BUDGET,
            Error::Stopped => sys::ZQ_STOPPED,
            Error::BadEntities => sys::ZQ_BAD_ENTITIES,
            Error::Other(status) => status,
        }
    }

    /// How many code points of the text are before what was refused, where that has a place.
    pub fn place(self) -> Option<u64> {
        match self {
            Error::ForeignSvg { at }
            | Error::ForeignMath { at }
            | Error::NodeBudget { at }
            | Error::HeldBudget { at }
            | Error::StepBudget { at } => Some(at),
            _ => None,
        }
    }
}

impl fmt::Display for Error {
    fn fmt(&self, f: &mut fmt::Formatter<'_>) -> fmt::Result {
        // SAFETY: the library answers any number with a text that stays for good.
        let text = unsafe { CStr::from_ptr(sys::zq_strerror(self.status())) };
        f.write_str(&text.to_string_lossy())?;
        match self.place() {
            Some(place) => write!(f, " at {place}"),
            None => Ok(()),
        }
    }
}

impl std::error::Error for Error {}

impl From<Error> for io::Error {
    /// A piece that was refused, as a failed write.
    fn from(error: Error) -> io::Error {
        match error {
            Error::OutOfMemory => io::Error::new(io::ErrorKind::OutOfMemory, error),
            _ => io::Error::new(io::ErrorKind::InvalidData, error),
        }
    }
}

fn check(status: u32, place: u64) -> Result<(), Error> {
    if status == sys::ZQ_OK {
        Ok(())
    } else {
        Err(Error::of(status, place))
    }
}

/// A handle of the library, in a box, so that it never moves; neither `Send` nor `Sync`, so that no two calls are in it at once.
struct Handle {
    at: Box<UnsafeCell<sys::zq_handle>>,
    stays: PhantomData<*mut ()>,
}

impl Handle {
    fn new() -> Handle {
        let empty = sys::zq_handle { held: std::ptr::null_mut() };
        Handle { at: Box::new(UnsafeCell::new(empty)), stays: PhantomData }
    }

    fn get(&self) -> *mut sys::zq_handle {
        self.at.get()
    }
}

impl Drop for Handle {
    fn drop(&mut self) {
        // SAFETY: the handle is this one's alone, and nothing that it handed out outlives it.
        unsafe { sys::zq_free(self.get()) }
    }
}

/// How pages are parsed: limits, named references, and of fragments where their context stands.
///
/// ```
/// let few = zilqumet::Options::new().max_nodes(3);
/// assert!(matches!(few.parse(b"<p>"), Err(zilqumet::Error::NodeBudget { .. })));
/// ```
pub struct Options {
    raw: sys::zq_options,
    entities: Handle,
}

impl Default for Options {
    fn default() -> Options {
        Options::new()
    }
}

impl Options {
    /// No limits, and the references `amp lt gt quot nbsp` alone.
    pub fn new() -> Options {
        let raw = sys::zq_options { max_nodes: u64::MAX, max_held: u64::MAX, max_input: u64::MAX, max_steps: u64::MAX, flags: 0 };
        Options { raw, entities: Handle::new() }
    }

    /// The most nodes of a page.
    pub fn max_nodes(mut self, count: u64) -> Options {
        self.raw.max_nodes = count;
        self
    }

    /// The most code points in the names, attributes and texts of a page.
    pub fn max_held(mut self, count: u64) -> Options {
        self.raw.max_held = count;
        self
    }

    /// The most code points of an input.
    pub fn max_input(mut self, count: u64) -> Options {
        self.raw.max_input = count;
        self
    }

    /// The most counted steps.
    pub fn max_steps(mut self, count: u64) -> Options {
        self.raw.max_steps = count;
        self
    }

    /// Of fragments: the context stands in a form.
    pub fn in_form(self, yes: bool) -> Options {
        self.flag(sys::ZQ_IN_FORM, yes)
    }

    /// Of fragments: the context's document is in quirks mode.
    pub fn quirks(self, yes: bool) -> Options {
        self.flag(sys::ZQ_QUIRKS, yes)
    }

    /// SVG and MathML are parsed, with names as `svg path`, which contexts may have too; without it they are refused.
    pub fn foreign(self, yes: bool) -> Options {
        self.flag(sys::ZQ_FOREIGN, yes)
    }

    fn flag(mut self, flag: u32, yes: bool) -> Options {
        self.raw.flags = if yes { self.raw.flags | flag } else { self.raw.flags & !flag };
        self
    }

    /// The named references of the standard's entities.json.
    ///
    /// # Errors
    ///
    /// `BadEntities` where the bytes are no such table; `OutOfMemory`.
    pub fn entities(self, json: &[u8]) -> Result<Options, Error> {
        // SAFETY: a slice's bytes, and a handle of our own.
        check(unsafe { sys::zq_entities_read(json.as_ptr(), json.len(), self.entities.get()) }, 0)?;
        Ok(self)
    }

    /// The page of a document.
    ///
    /// # Errors
    ///
    /// All but `BadContext` and `BadEntities`.
    pub fn parse(&self, bytes: &[u8]) -> Result<Page, Error> {
        let (page, mut place) = (Handle::new(), 0);
        // SAFETY: a slice's bytes, two handles of our own, and places for what is told.
        let status = unsafe { sys::zq_parse(self.entities.get(), &self.raw, bytes.as_ptr(), bytes.len(), page.get(), &mut place) };
        check(status, place)?;
        Ok(Page { handle: page })
    }

    /// The page of a fragment, as `innerHTML` reads it, in the context of an element of this name. Its nodes are below the element `html` that is its root.
    ///
    /// # Errors
    ///
    /// `BadContext`, and those of `parse`.
    pub fn parse_fragment(&self, context: &str, bytes: &[u8]) -> Result<Page, Error> {
        let (page, mut place) = (Handle::new(), 0);
        // SAFETY: as in `parse`.
        let status = unsafe {
            sys::zq_parse_fragment(
                self.entities.get(),
                &self.raw,
                context.as_ptr(),
                context.len(),
                bytes.as_ptr(),
                bytes.len(),
                page.get(),
                &mut place,
            )
        };
        check(status, place)?;
        Ok(Page { handle: page })
    }

    /// The text of a document's tree, as the standard writes it.
    ///
    /// # Errors
    ///
    /// Those of `parse`.
    pub fn normalise(&self, bytes: &[u8]) -> Result<String, Error> {
        let (buffer, mut place) = (Handle::new(), 0);
        // SAFETY: as in `parse`.
        let status = unsafe { sys::zq_normalise(self.entities.get(), &self.raw, bytes.as_ptr(), bytes.len(), 0, buffer.get(), &mut place) };
        check(status, place)?;
        text_in(&buffer)
    }

    /// The page of a document, as `parse` makes it, and what became of each token.
    ///
    /// # Errors
    ///
    /// Those of `parse`.
    pub fn audit(&self, bytes: &[u8]) -> Result<(Page, Ledger), Error> {
        let (page, ledger, mut place) = (Handle::new(), Handle::new(), 0);
        // SAFETY: a slice's bytes, three handles of our own, and places for what is told.
        let status =
            unsafe { sys::zq_audit(self.entities.get(), &self.raw, bytes.as_ptr(), bytes.len(), page.get(), ledger.get(), &mut place) };
        check(status, place)?;
        let page = Page { handle: page };
        let ledger = Ledger::read(ledger, &page)?;
        Ok((page, ledger))
    }

    /// The same of a fragment in a context, as `parse_fragment` makes it.
    ///
    /// # Errors
    ///
    /// Those of `parse_fragment`.
    pub fn audit_fragment(&self, context: &str, bytes: &[u8]) -> Result<(Page, Ledger), Error> {
        let (page, ledger, mut place) = (Handle::new(), Handle::new(), 0);
        // SAFETY: as in `audit`.
        let status = unsafe {
            sys::zq_audit_fragment(
                self.entities.get(),
                &self.raw,
                context.as_ptr(),
                context.len(),
                bytes.as_ptr(),
                bytes.len(),
                page.get(),
                ledger.get(),
                &mut place,
            )
        };
        check(status, place)?;
        let page = Page { handle: page };
        let ledger = Ledger::read(ledger, &page)?;
        Ok((page, ledger))
    }

    /// A parser of a document in pieces. It shares the table of references, and lives as long as it likes.
    ///
    /// # Errors
    ///
    /// `NodeBudget` where not even an empty page is within the limits; `OutOfMemory`.
    pub fn parser(&self) -> Result<Parser, Error> {
        let handle = Handle::new();
        // SAFETY: two handles of our own.
        check(unsafe { sys::zq_parser_new(self.entities.get(), &self.raw, handle.get()) }, 0)?;
        Ok(Parser { handle })
    }

    /// The same of a fragment in a context, as `parse_fragment` has it.
    ///
    /// # Errors
    ///
    /// `BadContext`, and those of `parser`; `HeldBudget` where the root alone passes that limit.
    pub fn fragment_parser(&self, context: &str) -> Result<Parser, Error> {
        let handle = Handle::new();
        // SAFETY: a text's bytes, and two handles of our own.
        let status = unsafe { sys::zq_parser_new_fragment(self.entities.get(), &self.raw, context.as_ptr(), context.len(), handle.get()) };
        check(status, 0)?;
        Ok(Parser { handle })
    }
}

/// The page of a document, by `Options::new()`.
///
/// # Errors
///
/// Those of `Options::parse`.
pub fn parse(bytes: &[u8]) -> Result<Page, Error> {
    Options::new().parse(bytes)
}

/// The page of a fragment in a context, by `Options::new()`.
///
/// # Errors
///
/// Those of `Options::parse_fragment`.
pub fn parse_fragment(context: &str, bytes: &[u8]) -> Result<Page, Error> {
    Options::new().parse_fragment(context, bytes)
}

/// The text of a document's tree, by `Options::new()`.
///
/// # Errors
///
/// Those of `Options::normalise`.
pub fn normalise(bytes: &[u8]) -> Result<String, Error> {
    Options::new().normalise(bytes)
}

/// The version of the library.
pub fn library_version() -> &'static str {
    // SAFETY: the library's version stays for good.
    unsafe { CStr::from_ptr(sys::zq_version()) }.to_str().unwrap_or("")
}

/// A document or a fragment in pieces, cut anywhere, which are parsed as they come. It is a writer too: `std::io::copy(&mut stream, &mut parser)`.
///
/// ```
/// let mut parser = zilqumet::Options::new().parser()?;
/// std::io::copy(&mut &b"<p>One<p>Two"[..], &mut parser)?;
/// assert_eq!(parser.finish()?.serialise()?, "<html><head></head><body><p>One</p><p>Two</p></body></html>");
/// # Ok::<(), Box<dyn std::error::Error>>(())
/// ```
pub struct Parser {
    handle: Handle,
}

impl Parser {
    /// Takes a piece. What it decides is parsed.
    ///
    /// # Errors
    ///
    /// Those of `Options::parse`, with the piece in which they are met; after one of them each call answers `Stopped`.
    pub fn feed(&mut self, piece: &[u8]) -> Result<(), Error> {
        let mut place = 0;
        // SAFETY: a slice's bytes, and a handle of our own.
        let status = unsafe { sys::zq_parser_feed(self.handle.get(), piece.as_ptr(), piece.len(), &mut place) };
        check(status, place)
    }

    /// The page of all that was fed.
    ///
    /// # Errors
    ///
    /// Those of `Options::parse`; `Stopped` after a refused piece.
    pub fn finish(self) -> Result<Page, Error> {
        let (page, mut place) = (Handle::new(), 0);
        // SAFETY: two handles of our own.
        let status = unsafe { sys::zq_parser_finish(self.handle.get(), page.get(), &mut place) };
        check(status, place)?;
        Ok(Page { handle: page })
    }
}

impl io::Write for Parser {
    /// Takes all of the piece, as `feed`.
    fn write(&mut self, piece: &[u8]) -> io::Result<usize> {
        self.feed(piece)?;
        Ok(piece.len())
    }

    fn flush(&mut self) -> io::Result<()> {
        Ok(())
    }
}

/// Where a place stands: how many bytes are before it, its line, and its column in code points; both begin at 1.
#[derive(Clone, Copy, Debug, PartialEq, Eq)]
pub struct Position {
    pub offset: u64,
    pub line: u64,
    pub column: u64,
}

/// Where places of an input stand in its bytes, one for one: by one pass where they never fall, as those of a page's errors.
pub fn positions(bytes: &[u8], places: &[u64]) -> Vec<Position> {
    let mut told = vec![sys::zq_position { offset: 0, line: 1, column: 1 }; places.len()];
    // SAFETY: a slice's bytes, and two arrays of this many elements.
    let _ok = unsafe { sys::zq_positions(bytes.as_ptr(), bytes.len(), places.as_ptr(), places.len(), told.as_mut_ptr()) };
    told.into_iter().map(|sys::zq_position { offset, line, column }| Position { offset, line, column }).collect()
}

/// What a page counts.
#[derive(Clone, Copy, Debug, PartialEq, Eq)]
pub struct Counts {
    /// Code points of the input.
    pub code_points: u64,
    pub nodes: u64,
    /// Code points in the names, attributes and texts of the nodes.
    pub held: u64,
    pub steps: u64,
    pub tokens: u64,
    /// Parse errors.
    pub errors: u64,
}

/// A parse error: how many code points of the text are before it, and the standard's name of it (`tree-construction` for all of tree construction).
#[derive(Clone, Debug, PartialEq, Eq)]
pub struct ParseError {
    pub place: u64,
    pub name: String,
}

/// A parsed page.
pub struct Page {
    handle: Handle,
}

impl Page {
    /// The node that all others are below: a document, or the root that a fragment stands in.
    pub fn root(&self) -> Node<'_> {
        // SAFETY: a handle of our own.
        Node::at(self, unsafe { sys::zq_root(self.handle.get()) })
    }

    /// The node of a number, as `Node::number` told it; none where there is none.
    pub fn node(&self, number: u64) -> Option<Node<'_>> {
        // SAFETY: a handle of our own.
        let kind = unsafe { sys::zq_kind_of(self.handle.get(), number) };
        (kind != sys::ZQ_NO_KIND).then(|| Node::at(self, number))
    }

    /// What the page counts.
    pub fn counts(&self) -> Counts {
        let mut counts = sys::zq_counts { code_points: 0, nodes: 0, held: 0, steps: 0, tokens: 0, errors: 0 };
        // SAFETY: a handle of our own that holds a page.
        let _ok = unsafe { sys::zq_counts_of(self.handle.get(), &mut counts) };
        let sys::zq_counts { code_points, nodes, held, steps, tokens, errors } = counts;
        Counts { code_points, nodes, held, steps, tokens, errors }
    }

    /// The parse errors, in order.
    ///
    /// # Errors
    ///
    /// `OutOfMemory`.
    pub fn errors(&self) -> Result<Vec<ParseError>, Error> {
        let (name, mut told) = (Handle::new(), Vec::new());
        loop {
            let mut place = 0;
            // SAFETY: two handles of our own.
            match unsafe { sys::zq_error(self.handle.get(), told.len() as u64, name.get(), &mut place) } {
                sys::ZQ_BAD_INDEX => return Ok(told),
                status => check(status, 0)?,
            }
            told.push(ParseError { place, name: text_in(&name)? });
        }
    }

    /// The page as the standard writes it.
    ///
    /// # Errors
    ///
    /// `OutOfMemory`.
    pub fn serialise(&self) -> Result<String, Error> {
        self.serialise_with(false)
    }

    /// The page as the standard writes it; with `escape_angles`, `<` and `>` in values of attributes are escaped too.
    ///
    /// # Errors
    ///
    /// `OutOfMemory`.
    pub fn serialise_with(&self, escape_angles: bool) -> Result<String, Error> {
        let buffer = Handle::new();
        // SAFETY: two handles of our own.
        check(unsafe { sys::zq_serialise(self.handle.get(), escape_angles.into(), buffer.get()) }, 0)?;
        text_in(&buffer)
    }
}

/// The text in a buffer.
fn text_in(buffer: &Handle) -> Result<String, Error> {
    let mut span = sys::zq_span { at: std::ptr::null(), len: 0 };
    // SAFETY: a handle of our own; what it hands out is copied before the handle is used again.
    let bytes = unsafe {
        check(sys::zq_bytes(buffer.get(), &mut span), 0)?;
        bytes_in(span)
    };
    Ok(String::from_utf8_lossy(bytes).into_owned())
}

/// The bytes of a span.
///
/// # Safety
///
/// The span was told by the library, of a handle that stays as it is for `'a`.
unsafe fn bytes_in<'a>(span: sys::zq_span) -> &'a [u8] {
    if span.len == 0 {
        &[]
    } else {
        std::slice::from_raw_parts(span.at, span.len)
    }
}
