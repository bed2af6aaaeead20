/* A test of what zilqumet.h says of ownership, of lifetimes and of threads: behind each sentence of it, quoted, what shows it. sentences.py sees to it that none
 * is left out. It is run under valgrind too, which tells what is freed twice, not at all, or read afterwards, and by its tool helgrind, which tells
 * what two threads do at once. */
#include "zilqumet.h"

#include <pthread.h>
#include <stdio.h>
#include <string.h>

static int failed, passed;

static void check(int holds, const char *what, int line)
{
    passed += holds != 0;
    if (!holds) {
        failed++;
        fprintf(stderr, "owning.c:%d: %s\n", line, what);
    }
}

#define CHECK(holds) check((holds), #holds, __LINE__)

static const char json[] = "{\"&eacute;\": {\"codepoints\": [233], \"characters\": \"\\u00e9\"}}";

static int is(zq_span span, const char *text) { return span.len == strlen(text) && memcmp(span.at, text, span.len) == 0; }

/* Whether a page is written so. */
static int writes(zq_page *page, const char *text)
{
    zq_buffer buffer = ZQ_EMPTY;
    zq_span span;
    int holds = zq_serialise(page, 0, &buffer) == ZQ_OK && zq_bytes(&buffer, &span) == ZQ_OK && is(span, text);
    zq_free(&buffer);
    return holds;
}

static uint32_t parse(const char *text, zq_page *page) { return zq_parse_fragment(NULL, NULL, "div", 3, text, strlen(text), page, NULL); }

/* ONE HANDLE OF EACH KIND */

enum kind { EMPTY, PAGE, PARSER, TABLE, BUFFER, TEXTS, LEDGER, KINDS };

typedef struct handles {
    zq_page empty, page;
    zq_parser parser;
    zq_entities table;
    zq_buffer buffer, texts;
    zq_ledger ledger;
} handles;

static void *handle_of(handles *all, int kind)
{
    void *const each[KINDS] = { &all->empty, &all->page, &all->parser, &all->table, &all->buffer, &all->texts, &all->ledger };
    return each[kind];
}

/* Fills them, also where they are filled already. */
static void fill(handles *all)
{
    zq_texts texts;
    CHECK(zq_audit_fragment(NULL, NULL, "div", 3, "<p a=b>x<!--c-->", 16, &all->page, &all->ledger, NULL) == ZQ_OK);
    CHECK(zq_parser_new(NULL, NULL, &all->parser) == ZQ_OK && zq_parser_feed(&all->parser, "<p>y", 4, NULL) == ZQ_OK);
    CHECK(zq_entities_read(json, strlen(json), &all->table) == ZQ_OK);
    CHECK(zq_text_below(&all->page, 0, &all->buffer) == ZQ_OK && zq_all_texts(&all->page, &all->texts, &texts) == ZQ_OK);
}

/* Whether each is as it was filled. */
static void check_filled(handles *all)
{
    zq_span span;
    zq_token token;
    zq_page other = ZQ_EMPTY;
    CHECK(all->empty.held == NULL && writes(&all->page, "<p a=\"b\">x<!--c--></p>") && zq_bytes(&all->buffer, &span) == ZQ_OK && is(span, "x"));
    CHECK(zq_tokens(&all->ledger, 0, &token, 1) == 1 && is(token.name, "p"));
    CHECK(zq_parse(&all->table, NULL, "&eacute;", 8, &other, NULL) == ZQ_OK && writes(&other, "<html><head></head><body>\xc3\xa9</body></html>"));
    CHECK(zq_parser_feed(&all->parser, "", 0, NULL) == ZQ_OK && all->texts.held != NULL);
    zq_free(&other);
}

static void test_handles(void)
{
    /* "A handle begins as ZQ_EMPTY." */
    handles all = { ZQ_EMPTY, ZQ_EMPTY, ZQ_EMPTY, ZQ_EMPTY, ZQ_EMPTY, ZQ_EMPTY, ZQ_EMPTY };
    int kind;
    fill(&all);
    check_filled(&all);
    /* "A call that fills a handle frees what was in it first." (valgrind tells what is left) */
    fill(&all);
    CHECK(zq_parse(NULL, NULL, "z", 1, &all.page, NULL) == ZQ_OK && zq_normalise(NULL, NULL, "z", 1, 0, &all.buffer, NULL) == ZQ_OK);
    CHECK(zq_parser_new_fragment(NULL, NULL, "p", 1, &all.parser) == ZQ_OK && zq_serialise(&all.page, 0, &all.texts) == ZQ_OK);
    CHECK(zq_audit(NULL, NULL, "z", 1, &all.page, &all.ledger, NULL) == ZQ_OK && zq_entities_read(json, strlen(json), &all.table) == ZQ_OK);
    /* a handle may be filled with what is of another kind, too */
    CHECK(zq_serialise(&all.page, 0, (zq_buffer *)&all.parser) == ZQ_OK && zq_parse(NULL, NULL, "z", 1, (zq_page *)&all.buffer, NULL) == ZQ_OK);
    /* "zq_free frees what a handle holds, whatever that is, and leaves it empty." "Frees what a handle holds, and leaves it empty: zq_free(&page)." */
    fill(&all);
    for (kind = 0; kind < KINDS; kind++)
        zq_free(handle_of(&all, kind));
    for (kind = 0; kind < KINDS; kind++)
        CHECK(((zq_page *)handle_of(&all, kind))->held == NULL);
    /* "To free an empty handle does nothing." "Null is allowed." */
    for (kind = 0; kind < KINDS; kind++)
        zq_free(handle_of(&all, kind));
    zq_free(NULL);
    CHECK(all.page.held == NULL);
    /* "A handle is passed by its address, and is not copied: of two copies one would be freed behind the other's back." But it may be moved. */
    fill(&all);
    {
        handles moved = all;
        memset(&all, 0, sizeof all);
        check_filled(&moved);
        for (kind = 0; kind < KINDS; kind++)
            zq_free(handle_of(&moved, kind));
    }
}

static void test_pointers(void)
{
    handles all = { ZQ_EMPTY, ZQ_EMPTY, ZQ_EMPTY, ZQ_EMPTY, ZQ_EMPTY, ZQ_EMPTY, ZQ_EMPTY };
    zq_span name, value, bytes, again;
    zq_row rows[4];
    zq_texts texts;
    zq_token token;
    zq_buffer other = ZQ_EMPTY;
    uint64_t place;
    size_t len;
    fill(&all);
    /* "What zq_text, zq_rows, zq_all_texts, zq_tokens and zq_bytes hand out points into the handle." "It stays there, unchanged, until that handle is freed or
     * filled again, or, where it is a page, edited, and is only read." Meanwhile each call that reads is made. */
    CHECK(zq_text(&all.page, ZQ_NAME, 1, 0, &name) == ZQ_OK && zq_text(&all.page, ZQ_ATTR_VALUE, 1, 0, &value) == ZQ_OK);
    CHECK(zq_rows(&all.page, 0, rows, 4) == 4 && zq_all_texts(&all.page, &all.texts, &texts) == ZQ_OK);
    CHECK(zq_tokens(&all.ledger, 0, &token, 1) == 1 && zq_bytes(&all.buffer, &bytes) == ZQ_OK);
    CHECK(zq_serialise(&all.page, 0, &other) == ZQ_OK && zq_text_below(&all.page, 0, &other) == ZQ_OK && zq_error(&all.page, 0, &other, &place) == ZQ_BAD_INDEX);
    CHECK(zq_copy(&all.page, ZQ_NAME, 1, 0, NULL, 0, &len) == ZQ_OK && zq_link(&all.page, ZQ_NEXT, 1) == ZQ_NO_NODE && zq_parser_feed(&all.parser, "z", 1, NULL) == ZQ_OK);
    CHECK(zq_text(&all.page, ZQ_NAME, 1, 0, &again) == ZQ_OK && again.at == name.at && zq_bytes(&all.buffer, &again) == ZQ_OK && again.at == bytes.at);
    CHECK(is(name, "p") && is(value, "b") && is(rows[1].name, "p") && is(rows[2].text, "x") && is(rows[3].text, "c") && is(token.name, "p") && is(bytes, "x"));
    CHECK(texts.count == 10 && texts.ends[9] == 9 && memcmp(texts.at, "htmlpabxc", 9) == 0);
    /* another page's edit, and another handle's end, are none of theirs */
    zq_free(&all.parser), zq_free(&all.table), zq_free(&other);
    CHECK(zq_remove(&all.page, 2) == ZQ_OK);
    CHECK(texts.ends[9] == 9 && is(bytes, "x") && is(token.name, "p"));
    zq_free(&all.page);
    CHECK(memcmp(texts.at, "htmlpabxc", 9) == 0 && is(bytes, "x") && is(token.name, "p"));
    /* "zq_bytes does not read such a buffer." */
    CHECK(zq_bytes(&all.texts, &again) == ZQ_BAD_HANDLE && zq_bytes((zq_buffer *)&all.ledger, &again) == ZQ_BAD_HANDLE);
    zq_free(&all.buffer), zq_free(&all.texts), zq_free(&all.ledger);
    /* "It stays for good." (zq_version, zq_strerror) "Any number has an answer." */
    CHECK(zq_version() == zq_version() && zq_strerror(1) == zq_strerror(1) && zq_strerror(99) == zq_strerror(100));
}

/* ANSWERS */

/* What the calls that take a handle of one kind answer where they get one of another. */
static void check_wrong_page(handles *all, zq_page *page)
{
    zq_span span;
    zq_row row;
    zq_counts counts;
    zq_texts texts;
    zq_buffer out = ZQ_EMPTY;
    uint64_t place, node;
    size_t len;
    CHECK(zq_counts_of(page, &counts) == ZQ_BAD_HANDLE && zq_root(page) == ZQ_NO_NODE && zq_kind_of(page, 0) == ZQ_NO_KIND);
    CHECK(zq_link(page, ZQ_FIRST_CHILD, 0) == ZQ_NO_NODE && zq_attr_count(page, 0) == 0 && zq_text(page, ZQ_NAME, 0, 0, &span) == ZQ_BAD_HANDLE);
    CHECK(is(zq_name(page, 0), "") && zq_copy(page, ZQ_NAME, 0, 0, NULL, 0, &len) == ZQ_BAD_HANDLE && zq_rows(page, 0, &row, 1) == 0);
    CHECK(zq_all_texts(page, &out, &texts) == ZQ_BAD_HANDLE && zq_error(page, 0, &out, &place) == ZQ_BAD_HANDLE && zq_text_below(page, 0, &out) == ZQ_BAD_HANDLE);
    CHECK(zq_set_attr(page, 0, "a", 1, "", 0) == ZQ_BAD_HANDLE && zq_remove_attr(page, 0, "a", 1) == ZQ_BAD_HANDLE && zq_remove(page, 0) == ZQ_BAD_HANDLE);
    CHECK(zq_unwrap(page, 0) == ZQ_BAD_HANDLE && zq_append(page, 0, 1) == ZQ_BAD_HANDLE && zq_insert_before(page, 0, 1) == ZQ_BAD_HANDLE);
    CHECK(zq_make_element(page, "b", 1, &node) == ZQ_BAD_HANDLE && zq_make_text(page, "b", 1, &node) == ZQ_BAD_HANDLE);
    CHECK(zq_serialise(page, 0, &out) == ZQ_BAD_HANDLE && zq_serialise_to(page, 0, NULL, NULL) == ZQ_BAD_POINTER && out.held == NULL);
    check_filled(all);
}

static void test_answers(void)
{
    handles all = { ZQ_EMPTY, ZQ_EMPTY, ZQ_EMPTY, ZQ_EMPTY, ZQ_EMPTY, ZQ_EMPTY, ZQ_EMPTY };
    zq_page page = ZQ_EMPTY;
    zq_span span;
    zq_token token;
    int kind;
    fill(&all);
    /* "A null pointer, an empty handle, one that holds something else, and a node or an index out of range are such answers, and change nothing, but that a handle
     * which was to be filled may be empty." (null pointers and numbers: api.c, call by call) */
    for (kind = 0; kind < KINDS; kind++) {
        void *handle = handle_of(&all, kind);
        if (kind != PAGE)
            check_wrong_page(&all, handle);
        if (kind != PARSER) {
            CHECK(zq_parser_feed(handle, "x", 1, NULL) == ZQ_BAD_HANDLE && zq_parser_finish(handle, &page, NULL) == ZQ_BAD_HANDLE && page.held == NULL);
            check_filled(&all);
        }
        CHECK(kind == BUFFER || zq_bytes(handle, &span) == ZQ_BAD_HANDLE);
        CHECK(kind == LEDGER || zq_tokens(handle, 0, &token, 1) == 0);
        /* "pass a null pointer, or an empty handle, to the calls below." What holds no table is as one. */
        if (kind != TABLE)
            CHECK(zq_parse_fragment(handle, NULL, "p", 1, "&eacute;&lt;&nbsp;&quot;", 24, &page, NULL) == ZQ_OK && writes(&page, "&amp;eacute;&lt;&nbsp;\""));
        zq_free(&page);
        check_filled(&all);
    }
    CHECK(zq_parse_fragment(NULL, NULL, "p", 1, "&eacute;&amp;&gt;", 17, &page, NULL) == ZQ_OK && writes(&page, "&amp;eacute;&amp;&gt;"));
    /* "Wherever a call takes options, a null pointer stands for ZQ_DEFAULTS." */
    {
        zq_options options = ZQ_DEFAULTS;
        zq_counts one, other;
        CHECK(zq_parse(NULL, NULL, "<p>x", 4, &page, NULL) == ZQ_OK && zq_counts_of(&page, &one) == ZQ_OK);
        CHECK(zq_parse(NULL, &options, "<p>x", 4, &page, NULL) == ZQ_OK && zq_counts_of(&page, &other) == ZQ_OK && memcmp(&one, &other, sizeof one) == 0);
    }
    for (kind = 0; kind < KINDS; kind++)
        zq_free(handle_of(&all, kind));
    zq_free(&page);
}

static void test_refusals(void)
{
    zq_page page = ZQ_EMPTY;
    zq_ledger ledger = ZQ_EMPTY;
    zq_entities table = ZQ_EMPTY;
    zq_buffer buffer = ZQ_EMPTY;
    zq_options options = ZQ_DEFAULTS;
    uint64_t place = 7;
    /* "Answers ZQ_BAD_ENTITIES, and leaves the handle empty, where the bytes are no such table." */
    CHECK(zq_entities_read(json, strlen(json), &table) == ZQ_OK && zq_entities_read("[]", 2, &table) == ZQ_BAD_ENTITIES && table.held == NULL);
    /* "entities, options and place may be null." "The page is empty then." */
    CHECK(zq_parse(NULL, NULL, "x", 1, &page, NULL) == ZQ_OK && zq_parse(NULL, NULL, "x<svg>", 6, &page, NULL) == ZQ_FOREIGN_SVG && page.held == NULL);
    CHECK(parse("x", &page) == ZQ_OK && zq_parse(NULL, NULL, "x<svg>", 6, &page, &place) == ZQ_FOREIGN_SVG && place == 1 && page.held == NULL);
    CHECK(parse("x", &page) == ZQ_OK && zq_parse_fragment(NULL, NULL, "Q", 1, "x", 1, &page, &place) == ZQ_BAD_CONTEXT && place == 0 && page.held == NULL);
    options.max_nodes = 4;
    CHECK(parse("x", &page) == ZQ_OK && zq_parse(NULL, &options, "x", 1, &page, NULL) == ZQ_NODE_BUDGET && page.held == NULL);
    CHECK(zq_normalise(NULL, NULL, "x", 1, 0, &buffer, NULL) == ZQ_OK && zq_normalise(NULL, &options, "x", 1, 0, &buffer, &place) == ZQ_NODE_BUDGET && buffer.held == NULL);
    /* "Both are empty where the input is refused." */
    CHECK(zq_audit(NULL, NULL, "x", 1, &page, &ledger, NULL) == ZQ_OK && zq_audit(NULL, &options, "x", 1, &page, &ledger, &place) == ZQ_NODE_BUDGET && place == 0);
    CHECK(page.held == NULL && ledger.held == NULL);
    /* "An edit of the page leaves the ledger as it is: nodes keep their numbers." */
    {
        zq_token before[3], after[3];
        CHECK(zq_audit_fragment(NULL, NULL, "div", 3, "<b>x", 4, &page, &ledger, NULL) == ZQ_OK && zq_tokens(&ledger, 0, before, 3) == 3);
        CHECK(zq_unwrap(&page, 1) == ZQ_OK && writes(&page, "x") && zq_tokens(&ledger, 0, after, 3) == 3 && memcmp(before, after, sizeof before) == 0);
        CHECK(after[0].node == 1 && is(zq_name(&page, 1), "b"));
    }
    zq_free(&page), zq_free(&ledger);
    zq_free(&buffer);
}

static void test_parsers(void)
{
    zq_parser parser = ZQ_EMPTY;
    zq_page page = ZQ_EMPTY;
    zq_entities table = ZQ_EMPTY;
    char piece[16] = "&eacu";
    /* "entities and options may be null." "The parser shares the table: that handle may be freed, or filled again, while the parser goes on by the table as it
     * was." "zq_parser_feed takes len bytes at piece, which are not looked at afterwards, and parses what they decide: all but at most three bytes of a code
     * point that is not whole, and the tokens that more bytes may change." "place may be null, and is told as by zq_parse." */
    CHECK(zq_entities_read(json, strlen(json), &table) == ZQ_OK && zq_parser_new_fragment(&table, NULL, "p", 1, &parser) == ZQ_OK);
    CHECK(zq_parser_feed(&parser, piece, 5, NULL) == ZQ_OK);
    zq_free(&table), memset(piece, '<', sizeof piece);
    CHECK(zq_entities_read("{}", 2, &table) == ZQ_OK && zq_parser_feed(&parser, "te;", 3, NULL) == ZQ_OK);
    /* "zq_parser_finish ends the input: it fills page with the page of all bytes fed, the very one that zq_parse makes of them, or answers why not, and leaves the
     * parser empty whatever it answers but ZQ_BAD_POINTER or ZQ_BAD_HANDLE." */
    CHECK(zq_parser_finish(&parser, NULL, NULL) == ZQ_BAD_POINTER && zq_parser_finish(&parser, (zq_page *)&parser, NULL) == ZQ_BAD_HANDLE && parser.held != NULL);
    CHECK(zq_parser_finish(&parser, &page, NULL) == ZQ_OK && writes(&page, "\xc3\xa9") && parser.held == NULL);
    /* "from then on each call answers ZQ_STOPPED, and all that is left is to free." */
    CHECK(zq_parser_new(NULL, NULL, &parser) == ZQ_OK && zq_parser_feed(&parser, "<svg>", 5, NULL) == ZQ_FOREIGN_SVG);
    CHECK(zq_parser_feed(&parser, "x", 1, NULL) == ZQ_STOPPED && zq_parser_feed(&parser, NULL, 0, NULL) == ZQ_STOPPED);
    CHECK(zq_parser_finish(&parser, &page, NULL) == ZQ_STOPPED && page.held == NULL && parser.held == NULL);
    /* "zq_free ends a parser that is not finished." */
    CHECK(zq_parser_new(NULL, NULL, &parser) == ZQ_OK && zq_parser_feed(&parser, "<table><a b=c", 13, NULL) == ZQ_OK);
    zq_free(&parser);
    CHECK(parser.held == NULL);
    zq_free(&page), zq_free(&table);
}

static int took(void *context, const uint8_t *bytes, size_t len)
{
    *(int *)context += is((zq_span){ bytes, len }, "<p></p>");
    return 0;
}

static void test_edits(void)
{
    zq_page page = ZQ_EMPTY;
    uint64_t node;
    int calls = 0;
    /* "One that is refused changes nothing." (each refusal: api.c) */
    CHECK(parse("<p><b>x", &page) == ZQ_OK && zq_append(&page, 2, 1) == ZQ_CYCLE && zq_unwrap(&page, 3) == ZQ_NOT_ELEMENT && zq_set_attr(&page, 1, " ", 1, "", 0) == ZQ_BAD_NAME);
    CHECK(writes(&page, "<p><b>x</b></p>"));
    /* "Nodes keep their numbers: what is taken out stands alone, with all below it, and can be linked again; it is freed with the page." */
    CHECK(zq_remove(&page, 2) == ZQ_OK && writes(&page, "<p></p>") && is(zq_name(&page, 2), "b") && zq_first_child(&page, 2) == 3 && zq_parent(&page, 2) == ZQ_NO_NODE);
    CHECK(zq_append(&page, 0, 2) == ZQ_OK && writes(&page, "<p></p><b>x</b>") && zq_remove(&page, 2) == ZQ_OK);
    /* "zq_remove takes a node out, with all below it; one that has no parent stays as it is." */
    CHECK(zq_remove(&page, 2) == ZQ_OK && zq_remove(&page, 0) == ZQ_OK && zq_first_child(&page, 2) == 3 && writes(&page, "<p></p>"));
    CHECK(zq_make_text(&page, "a text that is never linked, and freed with the page", 52, &node) == ZQ_OK);
    /* "The function answers 0 where it took it, and the bytes are there until it returns." */
    CHECK(zq_serialise_to(&page, 0, took, &calls) == ZQ_OK && calls == 1);
    zq_free(&page);
}

/* THREADS */

enum { THREADS = 4, TURNS = 8 };

static pthread_mutex_t one_at_a_time = PTHREAD_MUTEX_INITIALIZER;
static zq_entities shared = ZQ_EMPTY;
static int right[THREADS];

/* "The library has no state of its own." "Threads that use handles of their own need nothing; that a parser shares its table with the handle that the table was
 * read into is no exception." "A handle is in one call at a time, reading included, and a page or a parser stays with the thread that made it." So the calls on
 * the handle of the table, which all threads use, have a lock; those on the parsers that share it have none. */
static void *work(void *which)
{
    int turn, *done = which;
    for (turn = 0; turn < TURNS; turn++) {
        zq_page page = ZQ_EMPTY;
        zq_parser parser = ZQ_EMPTY;
        uint32_t status;
        pthread_mutex_lock(&one_at_a_time);
        status = zq_parser_new_fragment(&shared, NULL, "p", 1, &parser);
        pthread_mutex_unlock(&one_at_a_time);
        if (status == ZQ_OK && zq_parser_feed(&parser, "<b>&eacute;", 11, NULL) == ZQ_OK && zq_parser_finish(&parser, &page, NULL) == ZQ_OK)
            *done += writes(&page, "<b>\xc3\xa9</b>");
        *done += parse("<table><tr><td>x", &page) == ZQ_OK && writes(&page, "<table><tbody><tr><td>x</td></tr></tbody></table>");
        pthread_mutex_lock(&one_at_a_time);
        if (turn % 2 != 0)
            zq_free(&shared);
        *done += zq_entities_read(json, strlen(json), &shared) == ZQ_OK;
        pthread_mutex_unlock(&one_at_a_time);
        zq_free(&page);
    }
    return NULL;
}

static void test_threads(void)
{
    pthread_t threads[THREADS];
    int i;
    CHECK(zq_entities_read(json, strlen(json), &shared) == ZQ_OK);
    for (i = 0; i < THREADS; i++)
        CHECK(pthread_create(&threads[i], NULL, work, &right[i]) == 0);
    for (i = 0; i < THREADS; i++)
        CHECK(pthread_join(threads[i], NULL) == 0 && right[i] == 3 * TURNS);
    zq_free(&shared);
}

/* "MEMORY comes from malloc, realloc and free." symbols.sh tells that the library asks the system for nothing else but the copying of bytes. "Where it is refused
 * the call answers ZQ_OUT_OF_MEMORY, and nothing leaks." refused.c refuses each call of the heap in turn. */
int main(void)
{
    test_handles();
    test_pointers();
    test_answers();
    test_refusals();
    test_parsers();
    test_edits();
    test_threads();
    printf("owning: %d passed, %d failed\n", passed, failed);
    return failed != 0;
}
