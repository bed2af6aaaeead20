/* A test of random pages: what tools/fuzz hands in, or by main the rows of a file: fuzz ROWS [ENTITIES]. It ends the program where a page differs from
 * what it is in pieces, within its own counts, or with foreign content parsed where there is none; where the page's links do not meet; where a text is
 * not UTF-8, or two calls tell two of it; where a bound that is proved does not hold; where the ledger does not go with the page; and where random edits
 * leave no tree. What the page is written as is parsed again.
 *
 * The first four bytes of an input are: flags (below), the number of the fragment's context (0: a document), and the lengths of the pieces. The rest is the
 * page. A row is the same as text: eight hexadecimal digits, a space, and the page, in which \xHH stands for what is not plain. */
#include "zilqumet.h"

#include <stdio.h>
#include <stdlib.h>
#include <string.h>

/* The flags: those of zq_options; whether there is a table of references; which limit is tried (two bits); whether angles are written in attributes. */
enum { FOREIGN = 1, IN_FORM = 2, QUIRKS = 4, TABLE = 8, LIMIT = 48, ANGLES = 64 };

#define MOST_NODES 20000

static const char *const contexts[] = {
    "", "div", "body", "head", "html", "table", "tbody", "tr", "td", "caption", "colgroup", "select", "template", "frameset", "title", "textarea", "style",
    "script", "plaintext", "noscript", "p", "form", "button", "option", "li", "a", "b", "svg svg", "svg path", "svg desc", "svg title", "svg foreignObject",
    "math math", "math mi", "math mtext", "math annotation-xml", "Td", "a b", "svg", "math",
};

/* A page as it was read. */
typedef struct seen {
    zq_page page;
    uint32_t status;
    uint64_t place;
    zq_counts counts;
    zq_row *rows;
    zq_buffer held;
    zq_texts texts;
} seen;

static zq_entities table = ZQ_EMPTY;

#define MUST(fact) ((fact) ? (void)0 : fail(#fact, __LINE__))

static void fail(const char *fact, int line)
{
    fprintf(stderr, "fuzz.c:%d: not so: %s\n", line, fact);
    abort();
}

static int is_same_span(zq_span a, zq_span b) { return a.len == b.len && (a.len == 0 || memcmp(a.at, b.at, a.len) == 0); }

/* Whether bytes are well-formed UTF-8. */
static int is_text(zq_span s)
{
    for (size_t at = 0; at < s.len;) {
        uint8_t c = s.at[at++], low = 0x80, high = 0xBF;
        int more = c < 0x80 ? 0 : c < 0xC2 ? -1 : c < 0xE0 ? 1 : c < 0xF0 ? 2 : c < 0xF5 ? 3 : -1;
        if (more < 0)
            return 0;
        low = c == 0xE0 ? 0xA0 : c == 0xF0 ? 0x90 : low;
        high = c == 0xED ? 0x9F : c == 0xF4 ? 0x8F : high;
        for (; more > 0; more--, low = 0x80, high = 0xBF)
            if (at == s.len || s.at[at] < low || s.at[at++] > high)
                return 0;
    }
    return 1;
}

/* READING */

/* The text of a number among all texts of a page. */
static zq_span text_at(const seen *it, size_t number)
{
    uint64_t from = number == 0 ? 0 : it->texts.ends[number - 1];
    return (zq_span){ it->texts.at + from, it->texts.ends[number] - from };
}

/* The texts of a node, of which the first has this number, are told alike by all calls; returns how many they are. */
static size_t check_texts(seen *it, uint64_t node, size_t number)
{
    const zq_row *row = &it->rows[node];
    size_t len = 0;
    MUST(zq_attr_count(&it->page, node) == row->attrs);
    MUST(is_same_span(zq_name(&it->page, node), row->name) && is_same_span(text_at(it, number), row->name));
    MUST(is_same_span(zq_data(&it->page, node), row->text) && is_same_span(text_at(it, number + 1), row->text));
    MUST(is_text(row->name) && is_text(row->text));
    MUST(zq_copy(&it->page, ZQ_DATA, node, 0, NULL, 0, &len) == ZQ_OK && len == row->text.len);
    for (uint64_t at = 0; at < row->attrs; at++) {
        zq_span name = zq_attr_name(&it->page, node, at), value = zq_attr_value(&it->page, node, at);
        MUST(is_same_span(text_at(it, number + 2 + 2 * at), name) && is_same_span(text_at(it, number + 3 + 2 * at), value));
        MUST(is_text(name) && is_text(value));
        for (uint64_t other = 0; other < at; other++)
            MUST(!is_same_span(zq_attr_name(&it->page, node, other), name));
    }
    zq_span none;
    MUST(zq_text(&it->page, ZQ_ATTR_NAME, node, row->attrs, &none) == ZQ_BAD_INDEX);
    return 2 + 2 * row->attrs;
}

/* A node and those beside it, above it and below it lead to each other. */
static void check_links(seen *it, uint64_t node)
{
    zq_page *page = &it->page;
    uint64_t parent = zq_parent(page, node), previous = zq_previous(page, node), next = zq_next(page, node);
    uint64_t first = zq_first_child(page, node), last = zq_last_child(page, node), contents = zq_template_contents(page, node);
    const zq_row *row = &it->rows[node];
    MUST(row->parent == parent && row->first_child == first && row->next == next && row->contents == contents && row->kind == zq_kind_of(page, node));
    MUST(row->kind > ZQ_NO_KIND && row->kind <= ZQ_DOCTYPE);
    MUST(parent != ZQ_NO_NODE || (previous == ZQ_NO_NODE && next == ZQ_NO_NODE));
    if (parent != ZQ_NO_NODE) {
        MUST(parent < it->counts.nodes && it->rows[parent].kind <= ZQ_ELEMENT);
        MUST(previous == ZQ_NO_NODE ? zq_first_child(page, parent) == node : zq_next(page, previous) == node && zq_parent(page, previous) == parent);
        MUST(next == ZQ_NO_NODE ? zq_last_child(page, parent) == node : zq_previous(page, next) == node && zq_parent(page, next) == parent);
    }
    MUST((first == ZQ_NO_NODE) == (last == ZQ_NO_NODE));
    MUST(first == ZQ_NO_NODE || (row->kind <= ZQ_ELEMENT && zq_parent(page, first) == node && zq_parent(page, last) == node));
    MUST(contents == ZQ_NO_NODE || (row->kind == ZQ_ELEMENT && it->rows[contents].kind == ZQ_CONTENTS && zq_link(page, ZQ_HOST, contents) == node));
    MUST((row->kind == ZQ_CONTENTS) == (zq_link(page, ZQ_HOST, node) != ZQ_NO_NODE));
}

/* No node is above itself: a walk from the root meets each node at most once, and comes back. */
static void check_walk(seen *it)
{
    uint64_t root = zq_root(&it->page), node = root, met = 0;
    MUST(root < it->counts.nodes && it->rows[root].parent == ZQ_NO_NODE);
    for (;;) {
        MUST(++met <= it->counts.nodes);
        const zq_row *row = &it->rows[node];
        uint64_t below = row->contents != ZQ_NO_NODE ? row->contents : row->first_child;
        if (below != ZQ_NO_NODE) {
            node = below;
            continue;
        }
        while (node != root && it->rows[node].next == ZQ_NO_NODE)
            node = it->rows[node].kind == ZQ_CONTENTS ? zq_link(&it->page, ZQ_HOST, node) : it->rows[node].parent;
        if (node == root)
            return;
        node = it->rows[node].next;
    }
}

/* What is proved of a page of n code points. */
static void check_bounds(const zq_counts *counts)
{
    uint64_t n = counts->code_points;
    MUST(counts->nodes <= 2 * (n + 32) * (n + 32));
    MUST(counts->held <= 34 * (n + 2) * (n + 2));
    MUST(counts->steps <= 1024 * (n + 32) * (n + 32) * (n + 32));
}

/* Reads a page, as it was parsed or edited. */
static void look(seen *it)
{
    MUST(zq_counts_of(&it->page, &it->counts) == ZQ_OK);
    it->rows = malloc((it->counts.nodes + 1) * sizeof *it->rows);
    MUST(it->rows != NULL && zq_all_texts(&it->page, &it->held, &it->texts) == ZQ_OK);
    MUST(zq_rows(&it->page, 0, it->rows, it->counts.nodes + 1) == it->counts.nodes);
    MUST(zq_kind_of(&it->page, it->counts.nodes) == ZQ_NO_KIND);
    if (it->counts.nodes > MOST_NODES)
        return;
    size_t number = 0;
    for (uint64_t node = 0; node < it->counts.nodes; node++) {
        check_links(it, node);
        number += check_texts(it, node, number);
    }
    MUST(number == it->texts.count);
    check_walk(it);
}

/* Reads what was parsed. */
static void read_page(seen *it)
{
    it->rows = NULL;
    if (it->status != ZQ_OK) {
        MUST(zq_root(&it->page) == ZQ_NO_NODE);
        return;
    }
    look(it);
    check_bounds(&it->counts);
}

static void let_go(seen *it)
{
    free(it->rows);
    zq_free(&it->held);
    zq_free(&it->page);
}

/* PARSING */

/* A page, and how it is parsed. */
typedef struct task {
    zq_entities *entities;
    zq_options options;
    const char *context;
    const uint8_t *bytes, *cuts;
    size_t len;
} task;

static seen parsed(const task *it, const zq_options *options)
{
    seen made = { .page = ZQ_EMPTY, .held = ZQ_EMPTY };
    if (*it->context)
        made.status = zq_parse_fragment(it->entities, options, it->context, strlen(it->context), it->bytes, it->len, &made.page, &made.place);
    else
        made.status = zq_parse(it->entities, options, it->bytes, it->len, &made.page, &made.place);
    read_page(&made);
    return made;
}

/* The same in pieces, whose lengths go by turns. A parser that refused a piece takes no more. */
static seen parsed_in_pieces(const task *it, const zq_options *options)
{
    seen made = { .page = ZQ_EMPTY, .held = ZQ_EMPTY };
    zq_parser parser = ZQ_EMPTY;
    if (*it->context)
        made.status = zq_parser_new_fragment(it->entities, options, it->context, strlen(it->context), &parser);
    else
        made.status = zq_parser_new(it->entities, options, &parser);
    for (size_t from = 0, turn = 0; made.status == ZQ_OK && from < it->len; turn++) {
        size_t most = it->cuts[turn % 2], len = it->len - from < most ? it->len - from : most;
        made.status = zq_parser_feed(&parser, it->bytes + from, len ? len : 1, &made.place);
        from += len ? len : 1;
        MUST(made.status == ZQ_OK || zq_parser_feed(&parser, it->bytes, 1, NULL) == ZQ_STOPPED);
    }
    if (made.status == ZQ_OK)
        made.status = zq_parser_finish(&parser, &made.page, &made.place);
    zq_free(&parser);
    read_page(&made);
    return made;
}

/* Two pages have the same errors. */
static void check_errors(seen *a, seen *b)
{
    zq_buffer name = ZQ_EMPTY, other = ZQ_EMPTY;
    for (uint64_t at = 0; at <= a->counts.errors; at++) {
        uint64_t place = 0, there = 0;
        zq_span text = { NULL, 0 }, same = { NULL, 0 };
        uint32_t status = zq_error(&a->page, at, &name, &place);
        MUST(status == zq_error(&b->page, at, &other, &there) && status == (at < a->counts.errors ? ZQ_OK : ZQ_BAD_INDEX));
        if (status == ZQ_OK) {
            MUST(zq_bytes(&name, &text) == ZQ_OK && zq_bytes(&other, &same) == ZQ_OK && is_same_span(text, same));
            MUST(place == there && place <= a->counts.code_points);
        }
    }
    zq_free(&name);
    zq_free(&other);
}

/* Two answers are the same, steps and errors included. The second is let go. */
static void check_same(seen *a, seen b)
{
    MUST(a->status == b.status && a->place == b.place);
    if (a->status == ZQ_OK) {
        MUST(memcmp(&a->counts, &b.counts, sizeof a->counts) == 0);
        MUST(a->texts.count == b.texts.count && memcmp(a->texts.ends, b.texts.ends, a->texts.count * sizeof *a->texts.ends) == 0);
        uint64_t size = a->texts.ends[a->texts.count - 1];
        MUST(is_same_span((zq_span){ a->texts.at, size }, (zq_span){ b.texts.at, size }));
        for (uint64_t node = 0; node < a->counts.nodes; node++) {
            const zq_row *x = &a->rows[node], *y = &b.rows[node];
            MUST(x->parent == y->parent && x->first_child == y->first_child && x->next == y->next && x->contents == y->contents);
            MUST(x->kind == y->kind && x->attrs == y->attrs);
        }
        check_errors(a, &b);
    }
    let_go(&b);
}

/* Within what it counts the page is the same; within one less it is refused, for that cause. */
static void check_limit(const task *it, seen *whole, int which)
{
    static const uint32_t causes[] = { ZQ_NODE_BUDGET, ZQ_HELD_BUDGET, ZQ_INPUT_TOO_LONG, ZQ_STEP_BUDGET };
    zq_options within = it->options;
    uint64_t *const limits[] = { &within.max_nodes, &within.max_held, &within.max_input, &within.max_steps };
    const uint64_t counts[] = { whole->counts.nodes, whole->counts.held, whole->counts.code_points, whole->counts.steps };
    *limits[which] = counts[which];
    check_same(whole, parsed(it, &within));
    if (counts[which] > 0) {
        *limits[which] = counts[which] - 1;
        seen refused = parsed(it, &within);
        MUST(refused.status == causes[which] && refused.place <= whole->counts.code_points);
        check_same(&refused, parsed_in_pieces(it, &within));
        let_go(&refused);
    }
}

/* Where foreign content is refused there is some; else to parse it changes nothing. */
static void check_foreign(const task *it, seen *whole)
{
    zq_options parsing = it->options;
    parsing.flags |= ZQ_FOREIGN;
    if (whole->status == ZQ_OK)
        check_same(whole, parsed(it, &parsing));
    else if (whole->status == ZQ_FOREIGN_SVG || whole->status == ZQ_FOREIGN_MATH) {
        seen made = parsed(it, &parsing);
        MUST(made.status == ZQ_OK && whole->place < made.counts.code_points);
        let_go(&made);
    }
}

static int takes(void *context, const uint8_t *bytes, size_t len) { return !is_same_span(*(zq_span *)context, (zq_span){ bytes, len }); }

/* The page is written alike by three calls, as a text that is parsed and written again. */
static void check_written(const task *it, seen *whole, int angles)
{
    zq_buffer written = ZQ_EMPTY, normal = ZQ_EMPTY;
    zq_span text = { NULL, 0 }, same = { NULL, 0 };
    uint64_t place;
    MUST(zq_serialise(&whole->page, angles, &written) == ZQ_OK && zq_bytes(&written, &text) == ZQ_OK && is_text(text));
    MUST(zq_serialise_to(&whole->page, angles, takes, &text) == ZQ_OK);
    if (!*it->context) {
        MUST(zq_normalise(it->entities, &it->options, it->bytes, it->len, angles, &normal, &place) == ZQ_OK);
        MUST(zq_bytes(&normal, &same) == ZQ_OK && is_same_span(text, same));
    }
    task again = *it;
    again.bytes = text.at, again.len = text.len;
    seen made = parsed(&again, &again.options);
    MUST(made.status == ZQ_OK || made.status == ZQ_FOREIGN_SVG || made.status == ZQ_FOREIGN_MATH);
    MUST(made.status != ZQ_OK || zq_serialise(&made.page, angles, &normal) == ZQ_OK);
    let_go(&made);
    zq_free(&written);
    zq_free(&normal);
}

/* What a token says goes together, and with the page. */
static void check_token(const seen *it, const zq_token *token)
{
    int is_tag = token->kind == ZQ_START_TAG || token->kind == ZQ_END_TAG, has_node = token->fate == ZQ_MADE || token->fate == ZQ_IN_TEXT;
    MUST(token->kind >= ZQ_START_TAG && token->kind <= ZQ_END_OF_FILE && token->fate >= ZQ_MADE && token->fate <= ZQ_ENDED);
    MUST(is_text(token->name) && (token->name.len > 0) == is_tag && (token->code_point == 0 || token->kind == ZQ_CHARACTER));
    MUST((token->fate == ZQ_DROPPED) == (token->cause != ZQ_NO_CAUSE) && token->cause <= ZQ_IN_COLUMN_GROUP);
    MUST((token->fate == ZQ_ENDED) == (token->kind == ZQ_END_TAG || token->kind == ZQ_END_OF_FILE));
    MUST(has_node ? token->node < it->counts.nodes : token->node == ZQ_NO_NODE);
    if (has_node) {
        uint32_t kind = it->rows[token->node].kind;
        MUST((token->fate == ZQ_IN_TEXT) == (kind == ZQ_TEXT) && (token->fate == ZQ_IN_TEXT) == (token->kind == ZQ_CHARACTER));
        MUST((token->kind == ZQ_START_TAG) == (kind == ZQ_ELEMENT) && (token->kind == ZQ_COMMENT_TOKEN) == (kind == ZQ_COMMENT));
    }
}

/* The page is the same with its ledger, which has each token, in order, the end of the input last, whatever parts it is read in; and is refused as it is. */
static void check_audit(const task *it, seen *whole, size_t part)
{
    seen made = { .page = ZQ_EMPTY, .held = ZQ_EMPTY };
    zq_ledger ledger = ZQ_EMPTY;
    zq_token tokens[256];
    uint64_t count = 0, end = 0, last = 0;
    made.status = *it->context ? zq_audit_fragment(it->entities, &it->options, it->context, strlen(it->context), it->bytes, it->len, &made.page, &ledger, &made.place)
                               : zq_audit(it->entities, &it->options, it->bytes, it->len, &made.page, &ledger, &made.place);
    read_page(&made);
    for (size_t got = 1; got > 0 && made.status == ZQ_OK; count += got) {
        got = zq_tokens(&ledger, count, tokens, part);
        for (size_t at = 0; at < got; at++) {
            check_token(whole, &tokens[at]);
            MUST(tokens[at].start >= end && tokens[at].end >= tokens[at].start && last != ZQ_END_OF_FILE);
            end = tokens[at].end, last = tokens[at].kind;
        }
    }
    MUST(made.status == ZQ_OK ? count == whole->counts.tokens && last == ZQ_END_OF_FILE && end <= whole->counts.code_points : zq_tokens(&ledger, 0, tokens, 1) == 0);
    check_same(whole, made);
    zq_free(&ledger);
}

/* A random edit of a page, by a number, and what it answers. */
static uint32_t edited(seen *it, uint32_t by)
{
    static const char *const names[] = { "a", "template", "script", "b", "\"", "svg", "A", "\xff" };
    uint64_t one = (by >> 8) % (it->counts.nodes + 1), other = (by >> 16) % (it->counts.nodes + 1), made;
    const char *name = names[(by >> 4) % 8];
    size_t len = strlen(name);
    switch (by % 8) {
    case 0: return zq_set_attr(&it->page, one, name, len, names[other % 7], 1);
    case 1: return zq_remove_attr(&it->page, one, name, len);
    case 2: return zq_remove(&it->page, one);
    case 3: return zq_unwrap(&it->page, one);
    case 4: return zq_insert_before(&it->page, one, other);
    case 5: return zq_make_element(&it->page, name, len, &made);
    case 6: return zq_make_text(&it->page, name, len, &made);
    default: break;
    }
    /* (below a text or a comment nothing else is expected here) */
    return one < it->counts.nodes && it->rows[one].kind > ZQ_ELEMENT ? ZQ_NOT_ELEMENT : zq_append(&it->page, one, other);
}

/* A page that is edited stays a tree from its root, whatever the edits; one that is refused changes nothing. */
static void check_edits(const task *it, uint32_t by)
{
    seen made = parsed(it, &it->options);
    for (int turn = 0; turn < 32; turn++) {
        zq_counts before = made.counts;
        by = by * 1664525u + 1013904223u;
        uint32_t status = edited(&made, by >> 3);
        MUST(status == ZQ_OK || status == ZQ_BAD_INDEX || (status >= ZQ_NOT_ELEMENT && status <= ZQ_BAD_TEXT));
        free(made.rows);
        look(&made);
        MUST(made.counts.nodes >= before.nodes && made.counts.nodes <= before.nodes + 2 && made.counts.errors == before.errors);
        MUST(status == ZQ_OK || (made.counts.nodes == before.nodes && made.counts.held == before.held));
    }
    let_go(&made);
}

int LLVMFuzzerTestOneInput(const uint8_t *data, size_t size)
{
    if (size < 4)
        return 0;
    int flags = data[0];
    task it = { NULL, ZQ_DEFAULTS, contexts[data[1] % (sizeof contexts / sizeof contexts[0])], data + 4, data + 2, size - 4 };
    it.entities = flags & TABLE ? &table : NULL;
    it.options.flags = (flags & FOREIGN ? ZQ_FOREIGN : 0) | (flags & IN_FORM ? ZQ_IN_FORM : 0) | (flags & QUIRKS ? ZQ_QUIRKS : 0);
    seen whole = parsed(&it, &it.options);
    check_same(&whole, parsed_in_pieces(&it, &it.options));
    check_audit(&it, &whole, 1 + data[2]);
    if (!(flags & FOREIGN))
        check_foreign(&it, &whole);
    if (whole.status == ZQ_OK && whole.counts.nodes <= MOST_NODES) {
        check_limit(&it, &whole, (flags & LIMIT) >> 4);
        check_written(&it, &whole, (flags & ANGLES) != 0);
        if (whole.counts.nodes <= MOST_NODES / 32)
            check_edits(&it, (uint32_t)size * 2654435761u + data[2] * 257u + data[3]);
    }
    let_go(&whole);
    return 0;
}

/* Reads the standard's table, if a file of it is named. */
static void read_table(const char *name)
{
    static uint8_t json[1 << 20];
    FILE *file = name != NULL ? fopen(name, "rb") : NULL;
    if (name == NULL)
        return;
    size_t len = file != NULL ? fread(json, 1, sizeof json, file) : 0;
    MUST(file != NULL && fclose(file) == 0 && zq_entities_read(json, len, &table) == ZQ_OK);
}

#ifdef FUZZED
int LLVMFuzzerInitialize(int *argc, char ***argv)
{
    (void)argc, (void)argv;
    read_table(getenv("FUZZ_ENTITIES"));
    return 0;
}
#else
/* Turns a row into the bytes that it stands for, in their own place, and tells how many they are. */
static size_t unescape(char *row)
{
    size_t len = 0;
    unsigned byte;
    for (const char *at = row; *at != '\0' && *at != '\n'; len++) {
        int is_hex = len < 4 || (at[0] == '\\' && at[1] == 'x');
        if (is_hex) {
            MUST(sscanf(at + (len < 4 ? 0 : 2), "%2x", &byte) == 1);
            at += len < 4 ? 2 : 4;
        } else {
            byte = (unsigned char)*at++;
        }
        at += len == 3 && *at == ' ';
        row[len] = (char)byte;
    }
    return len;
}

int main(int argc, char **argv)
{
    static char row[1 << 16];
    FILE *rows = argc > 1 ? fopen(argv[1], "r") : NULL;
    int count = 0;
    if (rows == NULL)
        return 2;
    read_table(argc > 2 ? argv[2] : NULL);
    while (fgets(row, sizeof row, rows) != NULL)
        if (row[0] != '#') {
            size_t len = unescape(row);
            /* (of their own memory, so that a sanitizer sees their end) */
            uint8_t *bytes = malloc(len);
            MUST(bytes != NULL);
            memcpy(bytes, row, len);
            LLVMFuzzerTestOneInput(bytes, len);
            free(bytes);
            count++;
        }
    fclose(rows);
    zq_free(&table);
    printf("%d rows\n", count);
    return count > 0 ? 0 : 1;
}
#endif
