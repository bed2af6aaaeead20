/* The calls that are proved (src/), as C sees them. They ask for what zilqumet.c tests: no null pointer, and no handle twice. */
#ifndef ZILQUMET_PROVED_H
#define ZILQUMET_PROVED_H

#include "zilqumet.h"

#include <stdbool.h>

/* Any of the handles. */
typedef struct proved_slot { void *held; } proved_slot;

typedef struct proved_limits { uint64_t nodes, held, code_points, steps, foreign; } proved_limits;

void proved_free(proved_slot *handle);
uint32_t proved_entities_read(const uint8_t *json, size_t len, proved_slot *entities);
uint32_t proved_parse(proved_slot *entities, const proved_limits *limits, const uint8_t *bytes, size_t len, proved_slot *page, uint64_t *place);
uint32_t proved_parse_fragment(proved_slot *entities, const proved_limits *limits, const uint8_t *context, size_t context_len, bool in_form, bool quirks,
                               const uint8_t *bytes, size_t len, proved_slot *page, uint64_t *place);
uint32_t proved_parser_new(proved_slot *entities, const proved_limits *limits, proved_slot *parser);
uint32_t proved_parser_new_fragment(proved_slot *entities, const proved_limits *limits, const uint8_t *context, size_t context_len, bool in_form, bool quirks,
                                    proved_slot *parser);
uint32_t proved_parser_feed(proved_slot *parser, const uint8_t *piece, size_t len, uint64_t *place);
uint32_t proved_parser_finish(proved_slot *parser, proved_slot *page, uint64_t *place);
uint32_t proved_counts_of(proved_slot *page, zq_counts *counts);
uint64_t proved_root(proved_slot *page);
uint32_t proved_kind_of(proved_slot *page, uint64_t node);
uint64_t proved_link(proved_slot *page, uint32_t link, uint64_t node);
uint64_t proved_attr_count(proved_slot *page, uint64_t node);
uint32_t proved_text(proved_slot *page, uint32_t part, uint64_t node, uint64_t index, zq_span *text);
uint32_t proved_copy(proved_slot *page, uint32_t part, uint64_t node, uint64_t index, uint8_t *out, size_t room, size_t *len);
size_t proved_rows(proved_slot *page, uint64_t from, zq_row *rows, size_t len);
uint32_t proved_all_texts(proved_slot *page, proved_slot *buffer, zq_texts *texts);
uint32_t proved_error(proved_slot *page, uint64_t index, proved_slot *name, uint64_t *place);
size_t proved_positions(const uint8_t *bytes, size_t len, const uint64_t *places, size_t count, zq_position *positions, size_t room);
uint32_t proved_text_below(proved_slot *page, uint64_t node, proved_slot *buffer);
uint32_t proved_audit(proved_slot *entities, const proved_limits *limits, const uint8_t *bytes, size_t len, proved_slot *page, proved_slot *ledger,
                      uint64_t *place);
uint32_t proved_audit_fragment(proved_slot *entities, const proved_limits *limits, const uint8_t *context, size_t context_len, bool in_form, bool quirks,
                               const uint8_t *bytes, size_t len, proved_slot *page, proved_slot *ledger, uint64_t *place);
size_t proved_tokens(proved_slot *ledger, uint64_t from, zq_token *tokens, size_t len);
uint32_t proved_set_attr(proved_slot *page, uint64_t node, const uint8_t *name, size_t name_len, const uint8_t *value, size_t value_len);
uint32_t proved_remove_attr(proved_slot *page, uint64_t node, const uint8_t *name, size_t name_len);
uint32_t proved_remove(proved_slot *page, uint64_t node);
uint32_t proved_unwrap(proved_slot *page, uint64_t node);
uint32_t proved_append(proved_slot *page, uint64_t parent, uint64_t child);
uint32_t proved_insert_before(proved_slot *page, uint64_t child, uint64_t next);
uint32_t proved_make_element(proved_slot *page, const uint8_t *name, size_t len, uint64_t *number);
uint32_t proved_make_text(proved_slot *page, const uint8_t *text, size_t len, uint64_t *number);
uint32_t proved_serialise(proved_slot *page, bool angles, proved_slot *buffer);
uint32_t proved_normalise(proved_slot *entities, const proved_limits *limits, const uint8_t *bytes, size_t len, bool angles, proved_slot *buffer,
                          uint64_t *place);
uint32_t proved_bytes(proved_slot *buffer, zq_span *bytes);

#endif
