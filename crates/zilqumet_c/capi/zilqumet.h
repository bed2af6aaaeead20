/* zilqumet.h: an HTML parser that no page can make hang, or grow past a known limit.
 *
 * A document or a fragment in UTF-8 becomes the tree that the HTML standard says (WHATWG HTML, sections 13.2 to 13.4, scripting disabled, as of
 * 1 January 2024), or the call says why not. What is proved of each call stands in the library's README; in short: it returns, it touches no
 * memory but its own and what it was handed, and ZQ_OK comes with the page of these very bytes.
 *
 *     zq_page page = ZQ_EMPTY;
 *     uint64_t node, place;
 *     uint32_t status = zq_parse(NULL, NULL, bytes, len, &page, &place);
 *     if (status != ZQ_OK)
 *         fprintf(stderr, "%s at %lu\n", zq_strerror(status), (unsigned long)place);
 *     else
 *         for (node = zq_first_child(&page, zq_root(&page)); node != ZQ_NO_NODE; node = zq_next(&page, node))
 *             ...
 *     zq_free(&page);
 *
 * HANDLES. A page, a parser, a table of references, a buffer and a ledger are handles: structs of one pointer, which the caller keeps wherever it likes.
 *   - A handle begins as ZQ_EMPTY. A call that fills a handle frees what was in it first.
 *   - zq_free frees what a handle holds, whatever that is, and leaves it empty. To free an empty handle does nothing.
 *   - A handle is passed by its address, and is not copied: of two copies one would be freed behind the other's back.
 *   - `held` is the library's: it is neither read nor written by the caller.
 *
 * POINTERS. What zq_text, zq_rows, zq_all_texts, zq_tokens and zq_bytes hand out points into the handle. It stays there, unchanged, until that handle is freed or
 * filled again, or, where it is a page, edited, and is only read. Texts are UTF-8, with their length beside them; no zero byte ends them.
 *
 * THREADS. The library has no state of its own. Threads that use handles of their own need nothing; that a parser shares its table with the handle
 * that the table was read into is no exception. A handle is in one call at a time, reading included, and a page or a parser stays with the thread that
 * made it.
 *
 * ANSWERS. A call that can fail answers an enum zq_status as a uint32_t: ZQ_OK, which is 0, or why not. A null pointer, an empty handle, one that
 * holds something else, and a node or an index out of range are such answers, and change nothing, but that a handle which was to be filled may be empty.
 * Only these are not answered: a pointer to what is not there, a handle that was copied, and two calls at once on one handle.
 *
 * MEMORY comes from malloc, realloc and free. Where it is refused the call answers ZQ_OUT_OF_MEMORY, and nothing leaks.
 */
#ifndef ZILQUMET_H
#define ZILQUMET_H

#include <stddef.h>
#include <stdint.h>

#ifdef __cplusplus
extern "C" {
#endif

/* The version that a program was compiled with. zq_version tells that of the library. */
#define ZQ_VERSION "0.1.0"

/* What a call answers. */
enum zq_status {
    ZQ_OK = 0,
    ZQ_OUT_OF_MEMORY = 1,  /* memory was refused */
    ZQ_INPUT_TOO_LONG = 2, /* more code points than max_input, or than 268,435,456 */
    ZQ_FOREIGN_SVG = 3,    /* a start tag svg, at a place: SVG is not parsed */
    ZQ_FOREIGN_MATH = 4,   /* a start tag math, at a place: MathML is not parsed */
    ZQ_BAD_CONTEXT = 5,    /* no HTML element can have the name of the fragment's context, or it is svg or math */
    ZQ_NODE_BUDGET = 6,    /* the token at a place would make more nodes than max_nodes */
    ZQ_HELD_BUDGET = 7,    /* the token at a place would have the nodes hold more code points than max_held */
    ZQ_STEP_BUDGET = 8,    /* more steps than max_steps were counted before the token at a place */
    ZQ_STOPPED = 9,        /* an earlier piece was refused: the parser takes no more */
    ZQ_READ = 10,          /* (no call of this version answers it) */
    ZQ_WRITE = 11,         /* the function that zq_serialise_to was handed answered other than 0 */
    ZQ_BAD_HANDLE = 12,    /* the handle is empty, or holds something else, or one handle was passed twice */
    ZQ_BAD_INDEX = 13,     /* there is no such node, text, attribute or error */
    ZQ_BAD_ENTITIES = 14,  /* not a file of named character references */
    ZQ_BAD_POINTER = 15,   /* a pointer is null that must not be */
    ZQ_BAD_FLAGS = 16,     /* a flag that this version does not know */
    ZQ_NOT_ELEMENT = 17,   /* the node is no element */
    ZQ_BAD_NAME = 18,      /* no tag of HTML can have this name */
    ZQ_NOT_LINKABLE = 19,  /* the root, a document and the contents of a template have no parent */
    ZQ_NO_PARENT = 20,     /* the node has no parent */
    ZQ_CYCLE = 21,         /* the node would stand below itself */
    ZQ_BAD_TEXT = 22       /* the text is not UTF-8 */
};

/* A parsed page; an input that is not at its end; named character references; bytes; what became of the tokens of a page. */
typedef struct zq_page { void *held; } zq_page;
typedef struct zq_parser { void *held; } zq_parser;
typedef struct zq_entities { void *held; } zq_entities;
typedef struct zq_buffer { void *held; } zq_buffer;
typedef struct zq_ledger { void *held; } zq_ledger;
#define ZQ_EMPTY { NULL }

/* Some bytes. */
typedef struct zq_span {
    const uint8_t *at;
    size_t len;
} zq_span;

/* How a page is parsed: the most nodes that it may have, code points that its nodes may hold (names, texts, attributes), code points that the input
 * may have, and steps that may be counted; and flags, any of those below or none. Without limits a page of n code points has at most 2(n+32)^2
 * nodes, 34(n+2)^2 held code points and 1024(n+32)^3 steps: these are proved; most pages have about as many of each as they have code points.
 * Wherever a call takes options, a null pointer stands for ZQ_DEFAULTS. */
typedef struct zq_options {
    uint64_t max_nodes, max_held, max_input, max_steps;
    uint32_t flags;
} zq_options;
#define ZQ_DEFAULTS { UINT64_MAX, UINT64_MAX, UINT64_MAX, UINT64_MAX, 0 }

/* Of a fragment: its context stands in a form; its document is in quirks mode. */
#define ZQ_IN_FORM 1u
#define ZQ_QUIRKS 2u

/* SVG and MathML are parsed; without this flag they are refused, as ZQ_FOREIGN_SVG and ZQ_FOREIGN_MATH. Their elements have names of their own kind,
 * "svg path" and "math mi", which contexts may have too, and attributes as "xlink href"; the serializer writes the names of the page. */
#define ZQ_FOREIGN 4u

/* What a page counts: code points of the input, nodes, code points that the nodes hold, steps, tokens, parse errors. held and steps stop at
 * UINT64_MAX. */
typedef struct zq_counts {
    uint64_t code_points, nodes, held, steps, tokens, errors;
} zq_counts;

/* What a node is. The contents of a template are a node of their own, which no node is above: ZQ_TEMPLATE_CONTENTS leads there, ZQ_HOST back. */
enum zq_kind { ZQ_NO_KIND, ZQ_DOCUMENT, ZQ_CONTENTS, ZQ_ELEMENT, ZQ_TEXT, ZQ_COMMENT, ZQ_DOCTYPE };

/* Where zq_link leads. */
enum zq_link_name { ZQ_PARENT, ZQ_FIRST_CHILD, ZQ_LAST_CHILD, ZQ_NEXT, ZQ_PREVIOUS, ZQ_TEMPLATE_CONTENTS, ZQ_HOST };

/* Which text of a node zq_text tells: an element's name; the text of a text or of a comment; the name and the value of an attribute; the name and
 * the identifiers of a doctype. */
enum zq_part { ZQ_NAME, ZQ_DATA, ZQ_ATTR_NAME, ZQ_ATTR_VALUE, ZQ_DOCTYPE_NAME, ZQ_PUBLIC_ID, ZQ_SYSTEM_ID };

/* Nodes are numbers, from 0 up to the count of nodes; this one stands for none. */
#define ZQ_NO_NODE UINT64_MAX

/* A node, its links (ZQ_NO_NODE where there is none), the number of its attributes, its kind, its name and its text (empty where it has none). */
typedef struct zq_row {
    uint64_t parent, first_child, next, contents, attrs;
    zq_span name, text;
    uint32_t kind;
} zq_row;

/* Where a place stands: how many bytes are before it, the number of its line, and its column in code points; both begin at 1. */
typedef struct zq_position {
    uint64_t offset, line, column;
} zq_position;

/* All texts of a page: count of them, one behind the other at `at`; ends[i] is how many bytes there are up to the end of text i. */
typedef struct zq_texts {
    const uint8_t *at;
    const uint64_t *ends;
    size_t count;
} zq_texts;

/* ---- the library ---- */

/* The version of the library, as "0.1.0". It stays for good. */
const char *zq_version(void);

/* What a status says, in English, without a dot: "out of memory". Any number has an answer. It stays for good. */
const char *zq_strerror(uint32_t status);

/* Frees what a handle holds, and leaves it empty: zq_free(&page). Null is allowed. */
void zq_free(void *handle);

/* ---- named character references ---- */

/* Reads the standard's table of named character references (https://html.spec.whatwg.org/entities.json), len bytes of JSON at json, into entities.
 * Without one pages know &amp; &lt; &gt; &quot; and &nbsp; alone: pass a null pointer, or an empty handle, to the calls below.
 * Answers ZQ_BAD_ENTITIES, and leaves the handle empty, where the bytes are no such table. */
uint32_t zq_entities_read(const void *json, size_t len, zq_entities *entities);

/* ---- parsing ---- */

/* Parses a document of len bytes at bytes, in UTF-8 (ill-formed parts are read as U+FFFD), and fills page with it.
 * entities, options and place may be null. Where the answer has a place (ZQ_FOREIGN_.., ZQ_.._BUDGET), *place is told it, else 0: the code points
 * of the text before it, a byte order mark at its start left out and CR LF counted as one. The page is empty then. */
uint32_t zq_parse(zq_entities *entities, const zq_options *options, const void *bytes, size_t len, zq_page *page, uint64_t *place);

/* The same of a fragment, as innerHTML does it, in a context: the name of an element, context_len bytes at context, in lower case. */
uint32_t zq_parse_fragment(zq_entities *entities, const zq_options *options, const void *context, size_t context_len, const void *bytes, size_t len,
                           zq_page *page, uint64_t *place);

/* A document or a fragment in pieces, cut anywhere, which are parsed as they come: the parser keeps the tree so far and what is undecided yet.
 *
 * zq_parser_new fills parser with one that was fed nothing, and zq_parser_new_fragment with one of a fragment, as zq_parse_fragment has it. entities and
 * options may be null. The parser shares the table: that handle may be freed, or filled again, while the parser goes on by the table as it was. A
 * context that no element has is ZQ_BAD_CONTEXT, and limits that not even an empty page keeps are ZQ_NODE_BUDGET or ZQ_HELD_BUDGET, at place 0.
 * zq_parser_feed takes len bytes at piece, which are not looked at afterwards, and parses what they decide: all but at most three bytes of a code point
 * that is not whole, and the tokens that more bytes may change. place may be null, and is told as by zq_parse. A refusal is told with the piece in which
 * it is met (ZQ_INPUT_TOO_LONG, ZQ_FOREIGN_.., ZQ_.._BUDGET, ZQ_OUT_OF_MEMORY); from then on each call answers ZQ_STOPPED, and all that is left is to
 * free.
 * zq_parser_finish ends the input: it fills page with the page of all bytes fed, the very one that zq_parse makes of them, or answers why not, and
 * leaves the parser empty whatever it answers but ZQ_BAD_POINTER or ZQ_BAD_HANDLE.
 * zq_free ends a parser that is not finished. */
uint32_t zq_parser_new(zq_entities *entities, const zq_options *options, zq_parser *parser);
uint32_t zq_parser_new_fragment(zq_entities *entities, const zq_options *options, const void *context, size_t context_len, zq_parser *parser);
uint32_t zq_parser_feed(zq_parser *parser, const void *piece, size_t len, uint64_t *place);
uint32_t zq_parser_finish(zq_parser *parser, zq_page *page, uint64_t *place);

/* ---- reading a page ---- */

/* What the page counts. */
uint32_t zq_counts_of(zq_page *page, zq_counts *counts);

/* The node that all others are below: a document, or of a fragment an element html whose children are the fragment. ZQ_NO_NODE without a page. */
uint64_t zq_root(zq_page *page);

/* An enum zq_kind: ZQ_NO_KIND where there is no such node. */
uint32_t zq_kind_of(zq_page *page, uint64_t node);

/* The node that an enum zq_link_name leads to, or ZQ_NO_NODE; and the same by names of their own. */
uint64_t zq_link(zq_page *page, uint32_t link, uint64_t node);
uint64_t zq_parent(zq_page *page, uint64_t node);
uint64_t zq_first_child(zq_page *page, uint64_t node);
uint64_t zq_last_child(zq_page *page, uint64_t node);
uint64_t zq_next(zq_page *page, uint64_t node);
uint64_t zq_previous(zq_page *page, uint64_t node);
uint64_t zq_template_contents(zq_page *page, uint64_t node);

/* How many attributes a node has: 0 where there is no such node. */
uint64_t zq_attr_count(zq_page *page, uint64_t node);

/* Tells where a text of a node lies (part is an enum zq_part; index is the number of the attribute, from 0, and else not looked at). A name, or a text,
 * that nodes of this kind do not have is empty; an attribute, or a part of a doctype, that is not there is ZQ_BAD_INDEX. */
uint32_t zq_text(zq_page *page, uint32_t part, uint64_t node, uint64_t index, zq_span *text);

/* The same texts, empty where there is no such text. */
zq_span zq_name(zq_page *page, uint64_t node);
zq_span zq_data(zq_page *page, uint64_t node);
zq_span zq_attr_name(zq_page *page, uint64_t node, uint64_t index);
zq_span zq_attr_value(zq_page *page, uint64_t node, uint64_t index);

/* Copies a text of a node to the front of the room bytes at out, if it fits there, and tells its length. Nothing is written where it does not fit: a
 * call with no room asks for the length. */
uint32_t zq_copy(zq_page *page, uint32_t part, uint64_t node, uint64_t index, void *out, size_t room, size_t *len);

/* Fills rows with the nodes from, from + 1, .., at most len of them, and answers how many were there: one call for many nodes. */
size_t zq_rows(zq_page *page, uint64_t from, zq_row *rows, size_t len);

/* Fills buffer with all texts of a page, and tells where they lie: of each node, from 0 up, its name, its text, and the name and the value of each of its
 * attributes. With zq_rows that is a page in two calls, for languages in which a call is dear. zq_bytes does not read such a buffer. */
uint32_t zq_all_texts(zq_page *page, zq_buffer *buffer, zq_texts *texts);

/* The parse error of a number, from 0: fills name with the standard's name of it ("tree-construction" stands for all that tree construction finds), and
 * tells its place, as in zq_parse. ZQ_BAD_INDEX behind the last. */
uint32_t zq_error(zq_page *page, uint64_t index, zq_buffer *name, uint64_t *place);

/* Tells of count places of an input where they stand, in the len bytes at bytes that were parsed: positions[i] is that of places[i], and a place behind
 * the end stands at the end. CR, LF and CR LF end a line. It goes through the bytes once where the places never fall, as those of zq_error. Both arrays
 * have count elements, and do not overlap. */
uint32_t zq_positions(const void *bytes, size_t len, const uint64_t *places, size_t count, zq_position *positions);

/* Fills buffer with the text below a node: its texts in tree order, one behind the other, those in templates with them, comments not. ZQ_BAD_INDEX where there
 * is no such node. */
uint32_t zq_text_below(zq_page *page, uint64_t node, zq_buffer *buffer);

/* ---- the ledger ---- */

/* What a token is: a start or an end tag; a code point of text; a comment; a doctype; the end of the input. */
enum zq_token_kind { ZQ_START_TAG = 1, ZQ_END_TAG, ZQ_CHARACTER, ZQ_COMMENT_TOKEN, ZQ_DOCTYPE_TOKEN, ZQ_END_OF_FILE };

/* What became of a token: a node was made of it; it stands in a text; its attributes went to the html or the body that was there; it has no effect on the
 * tree; it is an end tag, or the end of the input, and did what it does. */
enum zq_fate { ZQ_MADE = 1, ZQ_IN_TEXT, ZQ_MERGED, ZQ_DROPPED, ZQ_ENDED };

/* Why a token was dropped: white space before the head; U+0000; a line feed just after a start tag pre, listing or textarea; what a select does not take, or
 * a page of frames; a start tag or a doctype where it can't stand; what a column group does not take. */
enum zq_cause {
    ZQ_NO_CAUSE, ZQ_PROLOG_SPACE, ZQ_NULL, ZQ_LEADING_NEWLINE, ZQ_IN_SELECT, ZQ_IN_FRAMESET, ZQ_MISPLACED, ZQ_IN_COLUMN_GROUP
};

/* A token and its one fate: the places where it begins and ends, as those of errors; the node that was made of it, or whose text it is in, else ZQ_NO_NODE;
 * the name of a tag, else an empty one; an enum zq_token_kind; the code point of a ZQ_CHARACTER, else 0; an enum zq_fate; an enum zq_cause. */
typedef struct zq_token {
    uint64_t start, end, node;
    zq_span name;
    uint32_t kind, code_point, fate, cause;
} zq_token;

/* Parse as zq_parse and zq_parse_fragment do, fill page as they do, and ledger with the fate of each token. Both are empty where the input is refused. An
 * edit of the page leaves the ledger as it is: nodes keep their numbers. */
uint32_t zq_audit(zq_entities *entities, const zq_options *options, const void *bytes, size_t len, zq_page *page, zq_ledger *ledger, uint64_t *place);
uint32_t zq_audit_fragment(zq_entities *entities, const zq_options *options, const void *context, size_t context_len, const void *bytes, size_t len,
                           zq_page *page, zq_ledger *ledger, uint64_t *place);

/* Fills tokens with those of the numbers from, from + 1, .., at most len of them, and answers how many were there. They stand in the order of the input, its end
 * last; a page counts them (zq_counts). It goes past the tokens before from, so few calls with large arrays are quickest. */
size_t zq_tokens(zq_ledger *ledger, uint64_t from, zq_token *tokens, size_t len);

/* ---- editing a page ---- */

/* Edits of a page's nodes. One that is refused changes nothing. Nodes keep their numbers: what is taken out stands alone, with all below it, and can be linked
 * again; it is freed with the page. The limits that the page was parsed within hold for its edits too (ZQ_NODE_BUDGET, ZQ_HELD_BUDGET). zq_counts_of tells
 * the nodes and the held code points that there are then, and all else of the input. Names, values and texts are so many bytes of UTF-8, else the answer is
 * ZQ_BAD_TEXT. A node that is not there is ZQ_BAD_INDEX.
 *
 * zq_set_attr gives an element an attribute: the one of this name gets the value, or there is a new one behind the others. ZQ_BAD_NAME where the element has
 * none of this name, and no attribute of HTML can have it (letters in lower case). zq_remove_attr takes the attribute of a name away, if it is there.
 * ZQ_NOT_ELEMENT where the node is none. */
uint32_t zq_set_attr(zq_page *page, uint64_t node, const void *name, size_t name_len, const void *value, size_t value_len);
uint32_t zq_remove_attr(zq_page *page, uint64_t node, const void *name, size_t name_len);

/* zq_remove takes a node out, with all below it; one that has no parent stays as it is. zq_unwrap puts what is below an element in its place, of a template
 * what it holds; the element then stands alone, and nothing is below it. ZQ_NOT_ELEMENT; ZQ_NO_PARENT; ZQ_CYCLE of a template that stands in what it holds. */
uint32_t zq_remove(zq_page *page, uint64_t node);
uint32_t zq_unwrap(zq_page *page, uint64_t node);

/* Both take child, with all below it, from where it stands. zq_append makes it the last node just below parent; below a template, in its contents.
 * zq_insert_before puts it just before next. ZQ_NOT_LINKABLE where child is the page's root, a document, or the contents of a template; ZQ_NO_PARENT where
 * next has none; ZQ_CYCLE where child would stand below itself. What is below a text, a comment or a doctype is written behind it. */
uint32_t zq_append(zq_page *page, uint64_t parent, uint64_t child);
uint32_t zq_insert_before(zq_page *page, uint64_t child, uint64_t next);

/* Make a node that stands alone, to be linked, and tell its number, or ZQ_NO_NODE: an element of HTML without attributes, whose name is in lower case
 * (ZQ_BAD_NAME where no start tag can have it, or it is svg or math; a template is made with its contents, the node after it), and a text. Below script,
 * style and the like a text is written as it is, and may end its element. */
uint32_t zq_make_element(zq_page *page, const void *name, size_t len, uint64_t *node);
uint32_t zq_make_text(zq_page *page, const void *text, size_t len, uint64_t *node);

/* ---- writing ---- */

/* Fills buffer with the page as text, in UTF-8, as the standard serializes it (13.3). angles: 0, or not 0 to write < and > in values of attributes as
 * &lt; and &gt; too. */
uint32_t zq_serialise(zq_page *page, int angles, zq_buffer *buffer);

/* Parses as zq_parse does and fills buffer as zq_serialise does. */
uint32_t zq_normalise(zq_entities *entities, const zq_options *options, const void *bytes, size_t len, int angles, zq_buffer *buffer, uint64_t *place);

/* Tells where the bytes of a buffer lie. */
uint32_t zq_bytes(zq_buffer *buffer, zq_span *bytes);

/* Hands the page as text to a function, in one piece; context goes along. The function answers 0 where it took it, and the bytes
 * are there until it returns. */
typedef int (*zq_write)(void *context, const uint8_t *bytes, size_t len);
uint32_t zq_serialise_to(zq_page *page, int angles, zq_write write, void *context);

#ifdef __cplusplus
}
#endif
#endif
