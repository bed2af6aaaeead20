/* A test: refused PAGE [ENTITIES [STEP]]. It runs a page through the calls once for each call of malloc and realloc (or each STEP-th),
 * with that one refused, and once with it and all later ones. Each run has to answer ZQ_OUT_OF_MEMORY, or what a run with all memory
 * answers; and as many blocks are freed as were made. It needs glibc. */
#include "zilqumet.h"

#include <stdio.h>
#include <stdlib.h>
#include <string.h>

extern void *__libc_malloc(size_t);
extern void *__libc_realloc(void *, size_t);
extern void __libc_free(void *);

static unsigned long calls, first, last;
static long live;
static int counting;

static int refuses(void) { return counting && ++calls >= first && calls <= last; }

void *malloc(size_t n) {
    void *p = refuses() ? NULL : __libc_malloc(n);
    live += p != NULL;
    return p;
}

void *realloc(void *old, size_t n) {
    void *p = refuses() ? NULL : __libc_realloc(old, n);
    live += old == NULL && p != NULL;
    return p;
}

void free(void *p) {
    live -= p != NULL;
    __libc_free(p);
}

static uint8_t page_bytes[1 << 22], json[1 << 20], text[1 << 22];
static size_t page_len, json_len, text_len;
static int known;

/* Edits of a page, each of which takes memory, or may. */
static uint32_t edit(zq_page *page) {
    uint64_t root = zq_root(page), first = zq_first_child(page, root), element, text;
    uint32_t r = zq_make_element(page, "template", 8, &element);
    if (!r)
        r = zq_make_text(page, "a longer text than fits", 23, &text);
    if (!r)
        r = zq_set_attr(page, element, "id", 2, "a longer value than fits", 24);
    if (!r)
        r = zq_set_attr(page, element, "class", 5, "b", 1);
    if (!r)
        r = zq_remove_attr(page, element, "id", 2);
    if (!r)
        r = zq_append(page, element, text);
    if (!r)
        r = zq_insert_before(page, element, first);
    if (!r)
        r = zq_unwrap(page, element);
    if (!r)
        r = zq_remove(page, text);
    return r;
}

static uint32_t run(void) {
    zq_page page = ZQ_EMPTY, fragment = ZQ_EMPTY;
    zq_entities entities = ZQ_EMPTY;
    zq_buffer written = ZQ_EMPTY, normal = ZQ_EMPTY, name = ZQ_EMPTY;
    zq_parser parser = ZQ_EMPTY;
    zq_ledger ledger = ZQ_EMPTY;
    zq_token token;
    zq_options options = ZQ_DEFAULTS;
    zq_span a = { NULL, 0 }, b = { NULL, 0 };
    zq_texts texts;
    uint64_t at, place;
    size_t half = page_len / 2;
    uint32_t r = json_len ? zq_entities_read(json, json_len, &entities) : ZQ_OK;
    if (!r)
        r = zq_parse(&entities, &options, page_bytes, page_len, &page, &at);
    if (!r) {
        r = zq_error(&page, 0, &name, &place);
        if (r == ZQ_BAD_INDEX)
            r = ZQ_OK;
    }
    if (!r)
        r = zq_parser_new(&entities, &options, &parser);
    if (!r)
        r = zq_parser_feed(&parser, page_bytes, half, &at);
    if (!r)
        r = zq_parser_feed(&parser, page_bytes + half, page_len - half, &at);
    if (!r)
        r = zq_parser_finish(&parser, &page, &at);
    if (!r)
        r = zq_text_below(&page, zq_root(&page), &name);
    if (!r)
        r = zq_parser_new_fragment(&entities, &options, "div", 3, &parser);
    if (!r)
        r = zq_parser_feed(&parser, page_bytes, half, &at);
    if (!r)
        r = zq_parser_finish(&parser, &fragment, &at);
    if (!r)
        r = zq_parse_fragment(&entities, &options, "div", 3, page_bytes, page_len, &fragment, &at);
    if (!r)
        r = zq_all_texts(&page, &name, &texts);
    if (!r)
        r = zq_audit_fragment(&entities, &options, "div", 3, page_bytes, page_len, &fragment, &ledger, &at);
    if (!r)
        r = zq_audit(&entities, &options, page_bytes, page_len, &page, &ledger, &at);
    if (!r)
        r = zq_tokens(&ledger, 0, &token, 1) == 1 ? ZQ_OK : 97;
    if (!r)
        r = edit(&page);
    if (!r)
        r = zq_serialise(&page, 0, &written);
    if (!r)
        r = zq_normalise(&entities, &options, page_bytes, page_len, 0, &normal, &at);
    counting = 0;
    if (!r && (zq_bytes(&written, &a) || zq_bytes(&normal, &b)))
        r = 98;
    if (!r && !known) {
        known = 1;
        text_len = a.len;
        memcpy(text, a.at, a.len);
    }
    if (!r && (a.len != text_len || b.len != text_len || memcmp(a.at, text, text_len) || memcmp(b.at, text, text_len)))
        r = 99;
    zq_free(&page);
    zq_free(&fragment);
    zq_free(&entities);
    zq_free(&written);
    zq_free(&normal);
    zq_free(&name);
    zq_free(&parser);
    zq_free(&ledger);
    return r;
}

static size_t read_file(const char *name, uint8_t *bytes, size_t room) {
    FILE *file = fopen(name, "rb");
    size_t len = file ? fread(bytes, 1, room, file) : room;
    if (len == room) {
        fprintf(stderr, "refused: %s: cannot read it, or it is too long\n", name);
        exit(2);
    }
    fclose(file);
    return len;
}

int main(int argc, char **argv) {
    if (argc < 2)
        return 2;
    page_len = read_file(argv[1], page_bytes, sizeof page_bytes);
    json_len = argc > 2 ? read_file(argv[2], json, sizeof json) : 0;
    unsigned long step = argc > 3 ? strtoul(argv[3], NULL, 10) : 1;
    first = 1, last = 0, counting = 1;
    long before = live;
    uint32_t r = run();
    unsigned long all = calls, done = 0, refused = 0, bad = r != ZQ_OK || live != before || step == 0;
    printf("all memory: %s, %lu calls of the heap, %zu bytes\n", zq_strerror(r), all, text_len);
    for (int rest = 0; rest < 2 && !bad; rest++)
        for (unsigned long k = 1; k <= all; k += step) {
            calls = 0, first = k, last = rest ? ~0ul : k, counting = 1;
            before = live;
            r = run();
            done += r == ZQ_OK;
            refused += r == ZQ_OUT_OF_MEMORY;
            if (r > ZQ_OUT_OF_MEMORY || live != before) {
                bad++;
                printf("call %lu%s: %u, %ld blocks left\n", k, rest ? " and later" : "", (unsigned)r, live - before);
            }
        }
    printf("out of memory %lu, as before %lu, wrong %lu\n", refused, done, bad);
    return bad != 0;
}
