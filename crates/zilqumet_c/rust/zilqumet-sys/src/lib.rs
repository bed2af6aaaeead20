//! `zilqumet.h`, call by call: that file says what each asks for and answers. The crate `zilqumet` has the same as safe Rust.
#![allow(non_camel_case_types)]

use std::os::raw::{c_char, c_int, c_void};

/// A page, a parser, a table of references, a buffer or a ledger: each is such a struct in C.
#[repr(C)]
pub struct zq_handle {
    pub held: *mut c_void,
}

#[repr(C)]
#[derive(Clone, Copy)]
pub struct zq_span {
    pub at: *const u8,
    pub len: usize,
}

#[repr(C)]
#[derive(Clone, Copy)]
pub struct zq_options {
    pub max_nodes: u64,
    pub max_held: u64,
    pub max_input: u64,
    pub max_steps: u64,
    pub flags: u32,
}

#[repr(C)]
#[derive(Clone, Copy)]
pub struct zq_counts {
    pub code_points: u64,
    pub nodes: u64,
    pub held: u64,
    pub steps: u64,
    pub tokens: u64,
    pub errors: u64,
}

#[repr(C)]
#[derive(Clone, Copy)]
pub struct zq_token {
    pub start: u64,
    pub end: u64,
    pub node: u64,
    pub name: zq_span,
    pub kind: u32,
    pub code_point: u32,
    pub fate: u32,
    pub cause: u32,
}

#[repr(C)]
#[derive(Clone, Copy)]
pub struct zq_position {
    pub offset: u64,
    pub line: u64,
    pub column: u64,
}

pub const ZQ_OK: u32 = 0;
pub const ZQ_OUT_OF_MEMORY: u32 = 1;
pub const ZQ_INPUT_TOO_LONG: u32 = 2;
pub const ZQ_FOREIGN_SVG: u32 = 3;
pub const ZQ_FOREIGN_MATH: u32 = 4;
pub const ZQ_BAD_CONTEXT: u32 = 5;
pub const ZQ_NODE_BUDGET: u32 = 6;
pub const ZQ_HELD_BUDGET: u32 = 7;
pub const ZQ_STEP_BUDGET: u32 = 8;
pub const ZQ_STOPPED: u32 = 9;
pub const ZQ_BAD_HANDLE: u32 = 12;
pub const ZQ_BAD_INDEX: u32 = 13;
pub const ZQ_BAD_ENTITIES: u32 = 14;
pub const ZQ_NOT_ELEMENT: u32 = 17;
pub const ZQ_BAD_NAME: u32 = 18;
pub const ZQ_NOT_LINKABLE: u32 = 19;
pub const ZQ_NO_PARENT: u32 = 20;
pub const ZQ_CYCLE: u32 = 21;

pub const ZQ_IN_FORM: u32 = 1;
pub const ZQ_QUIRKS: u32 = 2;
pub const ZQ_FOREIGN: u32 = 4;

pub const ZQ_NO_KIND: u32 = 0;
pub const ZQ_DOCUMENT: u32 = 1;
pub const ZQ_CONTENTS: u32 = 2;
pub const ZQ_ELEMENT: u32 = 3;
pub const ZQ_TEXT: u32 = 4;
pub const ZQ_COMMENT: u32 = 5;
pub const ZQ_DOCTYPE: u32 = 6;

pub const ZQ_PARENT: u32 = 0;
pub const ZQ_FIRST_CHILD: u32 = 1;
pub const ZQ_LAST_CHILD: u32 = 2;
pub const ZQ_NEXT: u32 = 3;
pub const ZQ_PREVIOUS: u32 = 4;
pub const ZQ_TEMPLATE_CONTENTS: u32 = 5;
pub const ZQ_HOST: u32 = 6;

pub const ZQ_NAME: u32 = 0;
pub const ZQ_DATA: u32 = 1;
pub const ZQ_ATTR_NAME: u32 = 2;
pub const ZQ_ATTR_VALUE: u32 = 3;
pub const ZQ_DOCTYPE_NAME: u32 = 4;
pub const ZQ_PUBLIC_ID: u32 = 5;
pub const ZQ_SYSTEM_ID: u32 = 6;

pub const ZQ_START_TAG: u32 = 1;
pub const ZQ_END_TAG: u32 = 2;
pub const ZQ_CHARACTER: u32 = 3;
pub const ZQ_COMMENT_TOKEN: u32 = 4;
pub const ZQ_DOCTYPE_TOKEN: u32 = 5;
pub const ZQ_END_OF_FILE: u32 = 6;

pub const ZQ_MADE: u32 = 1;
pub const ZQ_IN_TEXT: u32 = 2;
pub const ZQ_MERGED: u32 = 3;
pub const ZQ_DROPPED: u32 = 4;
pub const ZQ_ENDED: u32 = 5;

pub const ZQ_PROLOG_SPACE: u32 = 1;
pub const ZQ_NULL: u32 = 2;
pub const ZQ_LEADING_NEWLINE: u32 = 3;
pub const ZQ_IN_SELECT: u32 = 4;
pub const ZQ_IN_FRAMESET: u32 = 5;
pub const ZQ_MISPLACED: u32 = 6;
pub const ZQ_IN_COLUMN_GROUP: u32 = 7;

pub const ZQ_NO_NODE: u64 = u64::MAX;

extern "C" {
    pub fn zq_version() -> *const c_char;
    pub fn zq_strerror(status: u32) -> *const c_char;
    pub fn zq_free(handle: *mut zq_handle);
    pub fn zq_entities_read(json: *const u8, len: usize, entities: *mut zq_handle) -> u32;
    pub fn zq_parse(entities: *mut zq_handle, options: *const zq_options, bytes: *const u8, len: usize, page: *mut zq_handle, place: *mut u64) -> u32;
    pub fn zq_parse_fragment(
        entities: *mut zq_handle,
        options: *const zq_options,
        context: *const u8,
        context_len: usize,
        bytes: *const u8,
        len: usize,
        page: *mut zq_handle,
        place: *mut u64,
    ) -> u32;
    pub fn zq_parser_new(entities: *mut zq_handle, options: *const zq_options, parser: *mut zq_handle) -> u32;
    pub fn zq_parser_new_fragment(
        entities: *mut zq_handle,
        options: *const zq_options,
        context: *const u8,
        context_len: usize,
        parser: *mut zq_handle,
    ) -> u32;
    pub fn zq_parser_feed(parser: *mut zq_handle, piece: *const u8, len: usize, place: *mut u64) -> u32;
    pub fn zq_parser_finish(parser: *mut zq_handle, page: *mut zq_handle, place: *mut u64) -> u32;
    pub fn zq_counts_of(page: *mut zq_handle, counts: *mut zq_counts) -> u32;
    pub fn zq_root(page: *mut zq_handle) -> u64;
    pub fn zq_kind_of(page: *mut zq_handle, node: u64) -> u32;
    pub fn zq_link(page: *mut zq_handle, link: u32, node: u64) -> u64;
    pub fn zq_attr_count(page: *mut zq_handle, node: u64) -> u64;
    pub fn zq_text(page: *mut zq_handle, part: u32, node: u64, index: u64, text: *mut zq_span) -> u32;
    pub fn zq_error(page: *mut zq_handle, index: u64, name: *mut zq_handle, place: *mut u64) -> u32;
    pub fn zq_positions(bytes: *const u8, len: usize, places: *const u64, count: usize, positions: *mut zq_position) -> u32;
    pub fn zq_text_below(page: *mut zq_handle, node: u64, buffer: *mut zq_handle) -> u32;
    pub fn zq_audit(
        entities: *mut zq_handle,
        options: *const zq_options,
        bytes: *const u8,
        len: usize,
        page: *mut zq_handle,
        ledger: *mut zq_handle,
        place: *mut u64,
    ) -> u32;
    pub fn zq_audit_fragment(
        entities: *mut zq_handle,
        options: *const zq_options,
        context: *const u8,
        context_len: usize,
        bytes: *const u8,
        len: usize,
        page: *mut zq_handle,
        ledger: *mut zq_handle,
        place: *mut u64,
    ) -> u32;
    pub fn zq_tokens(ledger: *mut zq_handle, from: u64, tokens: *mut zq_token, len: usize) -> usize;
    pub fn zq_set_attr(page: *mut zq_handle, node: u64, name: *const u8, name_len: usize, value: *const u8, value_len: usize) -> u32;
    pub fn zq_remove_attr(page: *mut zq_handle, node: u64, name: *const u8, name_len: usize) -> u32;
    pub fn zq_remove(page: *mut zq_handle, node: u64) -> u32;
    pub fn zq_unwrap(page: *mut zq_handle, node: u64) -> u32;
    pub fn zq_append(page: *mut zq_handle, parent: u64, child: u64) -> u32;
    pub fn zq_insert_before(page: *mut zq_handle, child: u64, next: u64) -> u32;
    pub fn zq_make_element(page: *mut zq_handle, name: *const u8, len: usize, node: *mut u64) -> u32;
    pub fn zq_make_text(page: *mut zq_handle, text: *const u8, len: usize, node: *mut u64) -> u32;
    pub fn zq_serialise(page: *mut zq_handle, angles: c_int, buffer: *mut zq_handle) -> u32;
    pub fn zq_normalise(
        entities: *mut zq_handle,
        options: *const zq_options,
        bytes: *const u8,
        len: usize,
        angles: c_int,
        buffer: *mut zq_handle,
        place: *mut u64,
    ) -> u32;
    pub fn zq_bytes(buffer: *mut zq_handle, bytes: *mut zq_span) -> u32;
}
