/* The library's calls: each tests the pointers that it was handed, and hands them on to a call that is proved. */
#include "proved.h"

/* The structs as the crate lays them out (#[repr(C)] in src/). */
_Static_assert(sizeof(void *) == 8 && sizeof(size_t) == 8, "64 bits");
_Static_assert(sizeof(zq_page) == 8 && sizeof(zq_parser) == 8 && sizeof(zq_entities) == 8 && sizeof(zq_buffer) == 8 && sizeof(zq_ledger) == 8,
               "handles");
_Static_assert(sizeof(proved_slot) == 8 && sizeof(proved_limits) == 40, "what is handed on");
_Static_assert(sizeof(zq_span) == 16 && offsetof(zq_span, len) == 8, "spans");
_Static_assert(sizeof(zq_counts) == 48 && offsetof(zq_counts, errors) == 40, "counts");
_Static_assert(sizeof(zq_row) == 80 && offsetof(zq_row, attrs) == 32 && offsetof(zq_row, name) == 40 && offsetof(zq_row, kind) == 72, "rows");
_Static_assert(sizeof(zq_token) == 56 && offsetof(zq_token, node) == 16 && offsetof(zq_token, name) == 24 && offsetof(zq_token, kind) == 40
               && offsetof(zq_token, cause) == 52, "tokens");
_Static_assert(sizeof(zq_position) == 24 && offsetof(zq_position, line) == 8 && offsetof(zq_position, column) == 16, "positions");
_Static_assert(sizeof(zq_texts) == 24 && offsetof(zq_texts, ends) == 8 && offsetof(zq_texts, count) == 16, "texts");

#define KNOWN_FLAGS (ZQ_IN_FORM | ZQ_QUIRKS | ZQ_FOREIGN)

const char *zq_version(void) { return ZQ_VERSION; }

const char *zq_strerror(uint32_t status)
{
    static const char *const texts[] = {
        "ok",
        "out of memory",
        "input too long",
        "foreign svg",
        "foreign math",
        "bad context",
        "node budget",
        "held budget",
        "step budget",
        "stopped",
        "cannot read",
        "cannot write",
        "bad handle",
        "bad index",
        "bad entities",
        "bad pointer",
        "bad flags",
        "not an element",
        "bad name",
        "not linkable",
        "no parent",
        "cycle",
        "bad text",
    };
    return status < sizeof texts / sizeof texts[0] ? texts[status] : "unknown status";
}

/* A handle as the proved calls take it. All handles are structs of this one pointer. */
static proved_slot *slot(void *handle) { return handle; }

/* Whether there are len bytes at a pointer, as far as that can be told: no object is larger than PTRDIFF_MAX. */
static int are_bytes(const void *bytes, size_t len) { return (bytes != NULL || len == 0) && len <= PTRDIFF_MAX; }

/* A pointer that is not null, to the same bytes. */
static const uint8_t *some(const void *bytes) { return bytes != NULL ? bytes : (const void *)""; }

/* Tells the limits of options, and their flags. */
static uint32_t read_options(const zq_options *options, proved_limits *limits, uint32_t *flags)
{
    static const zq_options defaults = ZQ_DEFAULTS;
    const zq_options *set = options != NULL ? options : &defaults;
    *limits = (proved_limits){ set->max_nodes, set->max_held, set->max_input, set->max_steps, (set->flags & ZQ_FOREIGN) != 0 };
    *flags = set->flags;
    return (set->flags & ~KNOWN_FLAGS) == 0 ? ZQ_OK : ZQ_BAD_FLAGS;
}

void zq_free(void *handle)
{
    if (handle != NULL)
        proved_free(slot(handle));
}

uint32_t zq_entities_read(const void *json, size_t len, zq_entities *entities)
{
    if (entities == NULL || !are_bytes(json, len))
        return ZQ_BAD_POINTER;
    return proved_entities_read(some(json), len, slot(entities));
}

/* What all calls that parse have in common: the table, or an empty handle in its place; the limits; where the place is told. */
typedef struct call {
    proved_slot core, *entities;
    proved_limits limits;
    uint32_t flags;
    uint64_t unused, *place;
} call;

/* Makes a call ready: filled is the handle that it fills. */
static uint32_t begin(call *it, zq_entities *entities, const zq_options *options, void *filled, uint64_t *place)
{
    it->core.held = NULL;
    it->entities = entities != NULL ? slot(entities) : &it->core;
    it->place = place != NULL ? place : &it->unused;
    *it->place = 0;
    if (filled == NULL)
        return ZQ_BAD_POINTER;
    if (filled == (void *)entities)
        return ZQ_BAD_HANDLE;
    return read_options(options, &it->limits, &it->flags);
}

uint32_t zq_parse(zq_entities *entities, const zq_options *options, const void *bytes, size_t len, zq_page *page, uint64_t *place)
{
    call it;
    uint32_t status = begin(&it, entities, options, page, place);
    if (status != ZQ_OK)
        return status;
    if (!are_bytes(bytes, len))
        return ZQ_BAD_POINTER;
    return proved_parse(it.entities, &it.limits, some(bytes), len, slot(page), it.place);
}

uint32_t zq_parse_fragment(zq_entities *entities, const zq_options *options, const void *context, size_t context_len, const void *bytes, size_t len,
                           zq_page *page, uint64_t *place)
{
    call it;
    uint32_t status = begin(&it, entities, options, page, place);
    if (status != ZQ_OK)
        return status;
    if (!are_bytes(bytes, len) || !are_bytes(context, context_len))
        return ZQ_BAD_POINTER;
    return proved_parse_fragment(it.entities, &it.limits, some(context), context_len, (it.flags & ZQ_IN_FORM) != 0, (it.flags & ZQ_QUIRKS) != 0,
                                 some(bytes), len, slot(page), it.place);
}

uint32_t zq_parser_new(zq_entities *entities, const zq_options *options, zq_parser *parser)
{
    call it;
    uint32_t status = begin(&it, entities, options, parser, NULL);
    return status != ZQ_OK ? status : proved_parser_new(it.entities, &it.limits, slot(parser));
}

uint32_t zq_parser_new_fragment(zq_entities *entities, const zq_options *options, const void *context, size_t context_len, zq_parser *parser)
{
    call it;
    uint32_t status = begin(&it, entities, options, parser, NULL);
    if (status != ZQ_OK)
        return status;
    if (!are_bytes(context, context_len))
        return ZQ_BAD_POINTER;
    return proved_parser_new_fragment(it.entities, &it.limits, some(context), context_len, (it.flags & ZQ_IN_FORM) != 0, (it.flags & ZQ_QUIRKS) != 0,
                                      slot(parser));
}

uint32_t zq_parser_feed(zq_parser *parser, const void *piece, size_t len, uint64_t *place)
{
    uint64_t unused;
    uint64_t *at = place != NULL ? place : &unused;
    *at = 0;
    if (parser == NULL || !are_bytes(piece, len))
        return ZQ_BAD_POINTER;
    return proved_parser_feed(slot(parser), some(piece), len, at);
}

uint32_t zq_parser_finish(zq_parser *parser, zq_page *page, uint64_t *place)
{
    uint64_t unused;
    uint64_t *at = place != NULL ? place : &unused;
    *at = 0;
    if (parser == NULL || page == NULL)
        return ZQ_BAD_POINTER;
    if ((void *)parser == (void *)page)
        return ZQ_BAD_HANDLE;
    return proved_parser_finish(slot(parser), slot(page), at);
}

uint32_t zq_counts_of(zq_page *page, zq_counts *counts)
{
    return page != NULL && counts != NULL ? proved_counts_of(slot(page), counts) : ZQ_BAD_POINTER;
}

uint64_t zq_root(zq_page *page) { return page != NULL ? proved_root(slot(page)) : ZQ_NO_NODE; }

uint32_t zq_kind_of(zq_page *page, uint64_t node) { return page != NULL ? proved_kind_of(slot(page), node) : ZQ_NO_KIND; }

uint64_t zq_link(zq_page *page, uint32_t link, uint64_t node) { return page != NULL ? proved_link(slot(page), link, node) : ZQ_NO_NODE; }

uint64_t zq_parent(zq_page *page, uint64_t node) { return zq_link(page, ZQ_PARENT, node); }

uint64_t zq_first_child(zq_page *page, uint64_t node) { return zq_link(page, ZQ_FIRST_CHILD, node); }

uint64_t zq_last_child(zq_page *page, uint64_t node) { return zq_link(page, ZQ_LAST_CHILD, node); }

uint64_t zq_next(zq_page *page, uint64_t node) { return zq_link(page, ZQ_NEXT, node); }

uint64_t zq_previous(zq_page *page, uint64_t node) { return zq_link(page, ZQ_PREVIOUS, node); }

uint64_t zq_template_contents(zq_page *page, uint64_t node) { return zq_link(page, ZQ_TEMPLATE_CONTENTS, node); }

uint64_t zq_attr_count(zq_page *page, uint64_t node) { return page != NULL ? proved_attr_count(slot(page), node) : 0; }

uint32_t zq_text(zq_page *page, uint32_t part, uint64_t node, uint64_t index, zq_span *text)
{
    return page != NULL && text != NULL ? proved_text(slot(page), part, node, index, text) : ZQ_BAD_POINTER;
}

/* A text of a node, or an empty one. */
static zq_span text_or_empty(zq_page *page, uint32_t part, uint64_t node, uint64_t index)
{
    zq_span text = { (const uint8_t *)"", 0 };
    zq_text(page, part, node, index, &text);
    return text;
}

zq_span zq_name(zq_page *page, uint64_t node) { return text_or_empty(page, ZQ_NAME, node, 0); }

zq_span zq_data(zq_page *page, uint64_t node) { return text_or_empty(page, ZQ_DATA, node, 0); }

zq_span zq_attr_name(zq_page *page, uint64_t node, uint64_t index) { return text_or_empty(page, ZQ_ATTR_NAME, node, index); }

zq_span zq_attr_value(zq_page *page, uint64_t node, uint64_t index) { return text_or_empty(page, ZQ_ATTR_VALUE, node, index); }

uint32_t zq_copy(zq_page *page, uint32_t part, uint64_t node, uint64_t index, void *out, size_t room, size_t *len)
{
    uint8_t nothing[1];
    if (page == NULL || len == NULL || !are_bytes(out, room))
        return ZQ_BAD_POINTER;
    return proved_copy(slot(page), part, node, index, out != NULL ? out : nothing, room, len);
}

size_t zq_rows(zq_page *page, uint64_t from, zq_row *rows, size_t len)
{
    if (page == NULL || rows == NULL || len > PTRDIFF_MAX / sizeof *rows)
        return 0;
    return proved_rows(slot(page), from, rows, len);
}

uint32_t zq_all_texts(zq_page *page, zq_buffer *buffer, zq_texts *texts)
{
    if (page == NULL || buffer == NULL || texts == NULL)
        return ZQ_BAD_POINTER;
    if ((void *)page == (void *)buffer)
        return ZQ_BAD_HANDLE;
    return proved_all_texts(slot(page), slot(buffer), texts);
}

uint32_t zq_error(zq_page *page, uint64_t index, zq_buffer *name, uint64_t *place)
{
    if (page == NULL || name == NULL || place == NULL)
        return ZQ_BAD_POINTER;
    if ((void *)page == (void *)name)
        return ZQ_BAD_HANDLE;
    return proved_error(slot(page), index, slot(name), place);
}

uint32_t zq_positions(const void *bytes, size_t len, const uint64_t *places, size_t count, zq_position *positions)
{
    if (!are_bytes(bytes, len) || (count != 0 && (places == NULL || positions == NULL)) || count > PTRDIFF_MAX / sizeof *positions)
        return ZQ_BAD_POINTER;
    if (count != 0)
        proved_positions(some(bytes), len, places, count, positions, count);
    return ZQ_OK;
}

uint32_t zq_text_below(zq_page *page, uint64_t node, zq_buffer *buffer)
{
    if (page == NULL || buffer == NULL)
        return ZQ_BAD_POINTER;
    if ((void *)page == (void *)buffer)
        return ZQ_BAD_HANDLE;
    return proved_text_below(slot(page), node, slot(buffer));
}

/* Makes a call ready that fills a ledger beside a page. */
static uint32_t begin_audit(call *it, zq_entities *entities, const zq_options *options, zq_page *page, zq_ledger *ledger, uint64_t *place)
{
    uint32_t status = begin(it, entities, options, page, place);
    if (status != ZQ_OK)
        return status;
    if (ledger == NULL)
        return ZQ_BAD_POINTER;
    return (void *)ledger == (void *)page || (void *)ledger == (void *)entities ? ZQ_BAD_HANDLE : ZQ_OK;
}

uint32_t zq_audit(zq_entities *entities, const zq_options *options, const void *bytes, size_t len, zq_page *page, zq_ledger *ledger, uint64_t *place)
{
    call it;
    uint32_t status = begin_audit(&it, entities, options, page, ledger, place);
    if (status != ZQ_OK)
        return status;
    if (!are_bytes(bytes, len))
        return ZQ_BAD_POINTER;
    return proved_audit(it.entities, &it.limits, some(bytes), len, slot(page), slot(ledger), it.place);
}

uint32_t zq_audit_fragment(zq_entities *entities, const zq_options *options, const void *context, size_t context_len, const void *bytes, size_t len,
                           zq_page *page, zq_ledger *ledger, uint64_t *place)
{
    call it;
    uint32_t status = begin_audit(&it, entities, options, page, ledger, place);
    if (status != ZQ_OK)
        return status;
    if (!are_bytes(bytes, len) || !are_bytes(context, context_len))
        return ZQ_BAD_POINTER;
    return proved_audit_fragment(it.entities, &it.limits, some(context), context_len, (it.flags & ZQ_IN_FORM) != 0, (it.flags & ZQ_QUIRKS) != 0,
                                 some(bytes), len, slot(page), slot(ledger), it.place);
}

size_t zq_tokens(zq_ledger *ledger, uint64_t from, zq_token *tokens, size_t len)
{
    if (ledger == NULL || tokens == NULL || len > PTRDIFF_MAX / sizeof *tokens)
        return 0;
    return proved_tokens(slot(ledger), from, tokens, len);
}

uint32_t zq_set_attr(zq_page *page, uint64_t node, const void *name, size_t name_len, const void *value, size_t value_len)
{
    if (page == NULL || !are_bytes(name, name_len) || !are_bytes(value, value_len))
        return ZQ_BAD_POINTER;
    return proved_set_attr(slot(page), node, some(name), name_len, some(value), value_len);
}

uint32_t zq_remove_attr(zq_page *page, uint64_t node, const void *name, size_t name_len)
{
    if (page == NULL || !are_bytes(name, name_len))
        return ZQ_BAD_POINTER;
    return proved_remove_attr(slot(page), node, some(name), name_len);
}

uint32_t zq_remove(zq_page *page, uint64_t node) { return page != NULL ? proved_remove(slot(page), node) : ZQ_BAD_POINTER; }

uint32_t zq_unwrap(zq_page *page, uint64_t node) { return page != NULL ? proved_unwrap(slot(page), node) : ZQ_BAD_POINTER; }

uint32_t zq_append(zq_page *page, uint64_t parent, uint64_t child)
{
    return page != NULL ? proved_append(slot(page), parent, child) : ZQ_BAD_POINTER;
}

uint32_t zq_insert_before(zq_page *page, uint64_t child, uint64_t next)
{
    return page != NULL ? proved_insert_before(slot(page), child, next) : ZQ_BAD_POINTER;
}

/* Tells the number of a node that was made, or that there is none. */
static uint32_t tell(uint32_t status, uint64_t number, uint64_t *node)
{
    *node = status == ZQ_OK ? number : ZQ_NO_NODE;
    return status;
}

uint32_t zq_make_element(zq_page *page, const void *name, size_t len, uint64_t *node)
{
    uint64_t number = ZQ_NO_NODE;
    uint32_t status;
    if (page == NULL || node == NULL || !are_bytes(name, len))
        return ZQ_BAD_POINTER;
    status = proved_make_element(slot(page), some(name), len, &number);
    return tell(status, number, node);
}

uint32_t zq_make_text(zq_page *page, const void *text, size_t len, uint64_t *node)
{
    uint64_t number = ZQ_NO_NODE;
    uint32_t status;
    if (page == NULL || node == NULL || !are_bytes(text, len))
        return ZQ_BAD_POINTER;
    status = proved_make_text(slot(page), some(text), len, &number);
    return tell(status, number, node);
}

uint32_t zq_serialise(zq_page *page, int angles, zq_buffer *buffer)
{
    if (page == NULL || buffer == NULL)
        return ZQ_BAD_POINTER;
    if ((void *)page == (void *)buffer)
        return ZQ_BAD_HANDLE;
    return proved_serialise(slot(page), angles != 0, slot(buffer));
}

uint32_t zq_normalise(zq_entities *entities, const zq_options *options, const void *bytes, size_t len, int angles, zq_buffer *buffer, uint64_t *place)
{
    call it;
    uint32_t status = begin(&it, entities, options, buffer, place);
    if (status != ZQ_OK)
        return status;
    if (!are_bytes(bytes, len))
        return ZQ_BAD_POINTER;
    return proved_normalise(it.entities, &it.limits, some(bytes), len, angles != 0, slot(buffer), it.place);
}

uint32_t zq_bytes(zq_buffer *buffer, zq_span *bytes)
{
    return buffer != NULL && bytes != NULL ? proved_bytes(slot(buffer), bytes) : ZQ_BAD_POINTER;
}

uint32_t zq_serialise_to(zq_page *page, int angles, zq_write write, void *context)
{
    zq_buffer buffer = ZQ_EMPTY;
    zq_span text;
    uint32_t status = write != NULL ? zq_serialise(page, angles, &buffer) : ZQ_BAD_POINTER;
    if (status == ZQ_OK)
        status = zq_bytes(&buffer, &text);
    if (status == ZQ_OK && write(context, text.at, text.len) != 0)
        status = ZQ_WRITE;
    zq_free(&buffer);
    return status;
}
