/* A test of each call: what it answers, and each sentence of the header on handles, pointers and answers. */
#include "zilqumet.h"

#include <stdio.h>
#include <string.h>

static int failed, passed;

static void check(int holds, const char *what, int line)
{
    passed += holds != 0;
    if (!holds) {
        failed++;
        fprintf(stderr, "api.c:%d: %s\n", line, what);
    }
}

#define CHECK(holds) check((holds), #holds, __LINE__)

static int is(zq_span span, const char *text) { return span.len == strlen(text) && memcmp(span.at, text, span.len) == 0; }

/* The text of a page. */
static int writes(zq_page *page, const char *text)
{
    zq_buffer buffer = ZQ_EMPTY;
    zq_span span;
    int holds = zq_serialise(page, 0, &buffer) == ZQ_OK && zq_bytes(&buffer, &span) == ZQ_OK && is(span, text);
    zq_free(&buffer);
    return holds;
}

static uint32_t parse(const char *text, zq_page *page, uint64_t *place) { return zq_parse(NULL, NULL, text, strlen(text), page, place); }

static void test_library(void)
{
    uint32_t status;
    CHECK(strcmp(zq_version(), ZQ_VERSION) == 0);
    for (status = 0; status <= ZQ_BAD_TEXT; status++)
        CHECK(strlen(zq_strerror(status)) > 0 && strcmp(zq_strerror(status), "unknown status") != 0);
    CHECK(strcmp(zq_strerror(23), "unknown status") == 0);
    CHECK(strcmp(zq_strerror(UINT32_MAX), "unknown status") == 0);
}

static void test_handles(void)
{
    zq_page page = ZQ_EMPTY;
    zq_buffer buffer = ZQ_EMPTY;
    zq_free(NULL);
    zq_free(&page);
    CHECK(page.held == NULL);
    CHECK(parse("<p>x", &page, NULL) == ZQ_OK && page.held != NULL);
    /* a call that fills a handle frees what was in it */
    CHECK(parse("<p>y", &page, NULL) == ZQ_OK && writes(&page, "<html><head></head><body><p>y</p></body></html>"));
    CHECK(zq_serialise(&page, 0, &buffer) == ZQ_OK && zq_serialise(&page, 0, &buffer) == ZQ_OK);
    /* a page may be moved, if it is not copied */
    {
        zq_page moved = page;
        page.held = NULL;
        CHECK(zq_root(&moved) == 0 && zq_root(&page) == ZQ_NO_NODE);
        zq_free(&moved);
        zq_free(&moved);
        CHECK(moved.held == NULL);
    }
    /* what is refused leaves the page empty */
    CHECK(parse("<p>z", &page, NULL) == ZQ_OK && parse("<svg>", &page, NULL) == ZQ_FOREIGN_SVG && page.held == NULL);
    zq_free(&buffer);
}

static void test_entities(void)
{
    zq_entities entities = ZQ_EMPTY;
    zq_page page = ZQ_EMPTY;
    const char *json = "{\"&eacute;\": {\"codepoints\": [233], \"characters\": \"\\u00e9\"}}";
    CHECK(zq_entities_read(json, strlen(json), &entities) == ZQ_OK);
    CHECK(zq_parse(&entities, NULL, "&eacute;", 8, &page, NULL) == ZQ_OK && writes(&page, "<html><head></head><body>\xc3\xa9</body></html>"));
    CHECK(parse("&eacute;&lt;", &page, NULL) == ZQ_OK && writes(&page, "<html><head></head><body>&amp;eacute;&lt;</body></html>"));
    CHECK(zq_entities_read("{", 1, &entities) == ZQ_BAD_ENTITIES && entities.held == NULL);
    CHECK(zq_entities_read("", 0, &entities) == ZQ_BAD_ENTITIES);
    CHECK(zq_entities_read(NULL, 1, &entities) == ZQ_BAD_POINTER && zq_entities_read("{}", 2, NULL) == ZQ_BAD_POINTER);
    /* an empty handle is the same as none */
    CHECK(zq_parse(&entities, NULL, "&lt;", 4, &page, NULL) == ZQ_OK && writes(&page, "<html><head></head><body>&lt;</body></html>"));
    zq_free(&page);
    zq_free(&entities);
}

static void test_parse(void)
{
    zq_page page = ZQ_EMPTY;
    zq_entities entities = ZQ_EMPTY;
    zq_options options = ZQ_DEFAULTS;
    uint64_t place = 7;
    CHECK(zq_parse(NULL, NULL, NULL, 0, &page, &place) == ZQ_OK && place == 0 && writes(&page, "<html><head></head><body></body></html>"));
    CHECK(zq_parse(NULL, NULL, "", 0, &page, NULL) == ZQ_OK);
    CHECK(parse("<p>x<svg>", &page, &place) == ZQ_FOREIGN_SVG && place == 4);
    CHECK(parse("\xef\xbb\xbf\r\n<math>", &page, &place) == ZQ_FOREIGN_MATH && place == 1);
    CHECK(parse("<p>\xff", &page, &place) == ZQ_OK && place == 0 && writes(&page, "<html><head></head><body><p>\xef\xbf\xbd</p></body></html>"));
    options.max_nodes = 3;
    CHECK(zq_parse(NULL, &options, "<p>", 3, &page, &place) == ZQ_NODE_BUDGET && place == 0);
    options.max_nodes = 5;
    CHECK(zq_parse(NULL, &options, "<p>", 3, &page, &place) == ZQ_OK);
    options.max_held = 3;
    CHECK(zq_parse(NULL, &options, "<p>", 3, &page, &place) == ZQ_HELD_BUDGET && place == 0);
    options.max_held = UINT64_MAX, options.max_input = 2;
    CHECK(zq_parse(NULL, &options, "<p>", 3, &page, &place) == ZQ_INPUT_TOO_LONG && place == 0);
    options.max_input = UINT64_MAX, options.max_steps = 1;
    CHECK(zq_parse(NULL, &options, "<p>", 3, &page, &place) == ZQ_STEP_BUDGET);
    options.max_steps = UINT64_MAX, options.flags = 8;
    CHECK(zq_parse(NULL, &options, "<p>", 3, &page, &place) == ZQ_BAD_FLAGS);
    options.max_nodes = UINT64_MAX, options.flags = ZQ_FOREIGN;
    CHECK(zq_parse(NULL, &options, "<svg viewbox=0><path/><p>x", 26, &page, &place) == ZQ_OK
          && writes(&page, "<html><head></head><body><svg viewBox=\"0\"><path></path></svg><p>x</p></body></html>"));
    CHECK(zq_parse(NULL, NULL, NULL, 1, &page, &place) == ZQ_BAD_POINTER && zq_parse(NULL, NULL, "", 0, NULL, &place) == ZQ_BAD_POINTER);
    CHECK(zq_parse(NULL, NULL, "", SIZE_MAX, &page, &place) == ZQ_BAD_POINTER);
    CHECK(zq_parse((zq_entities *)&page, NULL, "", 0, &page, &place) == ZQ_BAD_HANDLE);
    zq_free(&page);
    zq_free(&entities);
}

static void test_fragment(void)
{
    zq_page page = ZQ_EMPTY;
    zq_options options = ZQ_DEFAULTS;
    uint64_t place;
    CHECK(zq_parse_fragment(NULL, NULL, "tr", 2, "<td>x", 5, &page, &place) == ZQ_OK && writes(&page, "<td>x</td>"));
    CHECK(zq_parse_fragment(NULL, NULL, "div", 3, "<td>x", 5, &page, &place) == ZQ_OK && writes(&page, "x"));
    CHECK(zq_parse_fragment(NULL, NULL, "div", 3, "<form>x", 7, &page, &place) == ZQ_OK && writes(&page, "<form>x</form>"));
    options.flags = ZQ_IN_FORM;
    CHECK(zq_parse_fragment(NULL, &options, "div", 3, "<form>x", 7, &page, &place) == ZQ_OK && writes(&page, "x"));
    CHECK(zq_parse_fragment(NULL, NULL, "div", 3, "<p><table>", 10, &page, &place) == ZQ_OK && writes(&page, "<p></p><table></table>"));
    options.flags = ZQ_QUIRKS;
    CHECK(zq_parse_fragment(NULL, &options, "div", 3, "<p><table>", 10, &page, &place) == ZQ_OK && writes(&page, "<p><table></table></p>"));
    options.max_nodes = UINT64_MAX, options.flags = ZQ_FOREIGN;
    CHECK(zq_parse_fragment(NULL, &options, "svg path", 8, "<g/><p>x", 8, &page, &place) == ZQ_OK && writes(&page, "<g></g><p>x</p>"));
    CHECK(zq_parse_fragment(NULL, NULL, "svg path", 8, "x", 1, &page, &place) == ZQ_BAD_CONTEXT && page.held == NULL);
    CHECK(zq_parse_fragment(NULL, NULL, "svg", 3, "x", 1, &page, &place) == ZQ_BAD_CONTEXT && page.held == NULL);
    CHECK(zq_parse_fragment(NULL, NULL, "Q", 1, "x", 1, &page, &place) == ZQ_BAD_CONTEXT);
    CHECK(zq_parse_fragment(NULL, NULL, "", 0, "x", 1, &page, &place) == ZQ_BAD_CONTEXT);
    CHECK(zq_parse_fragment(NULL, NULL, "a\xff", 2, "x", 1, &page, &place) == ZQ_BAD_CONTEXT);
    CHECK(zq_parse_fragment(NULL, NULL, NULL, 1, "x", 1, &page, &place) == ZQ_BAD_POINTER);
    CHECK(zq_parse_fragment(NULL, NULL, "p", 1, NULL, 1, &page, &place) == ZQ_BAD_POINTER);
    zq_free(&page);
}

static void test_parser(void)
{
    zq_parser parser = ZQ_EMPTY;
    zq_page page = ZQ_EMPTY, other = ZQ_EMPTY;
    zq_options options = ZQ_DEFAULTS;
    const char *text = "<p>\xc3\xa9<p>";
    uint64_t place = 7;
    size_t i;
    CHECK(zq_parser_new(NULL, NULL, &parser) == ZQ_OK);
    for (i = 0; i < strlen(text); i++)
        CHECK(zq_parser_feed(&parser, text + i, 1, &place) == ZQ_OK && place == 0);
    CHECK(zq_parser_feed(&parser, NULL, 0, NULL) == ZQ_OK);
    CHECK(zq_parser_finish(&parser, &page, &place) == ZQ_OK && writes(&page, "<html><head></head><body><p>\xc3\xa9</p><p></p></body></html>"));
    CHECK(parser.held == NULL);
    CHECK(zq_parser_feed(&parser, "x", 1, &place) == ZQ_BAD_HANDLE);
    CHECK(zq_parser_finish(&parser, &page, &place) == ZQ_BAD_HANDLE);
    /* what a piece decides is refused with that piece, and then all is */
    CHECK(zq_parser_new(NULL, NULL, &parser) == ZQ_OK && zq_parser_feed(&parser, "<p>x<sv", 7, &place) == ZQ_OK);
    CHECK(zq_parser_feed(&parser, "g>", 2, &place) == ZQ_FOREIGN_SVG && place == 4);
    CHECK(zq_parser_feed(&parser, "x", 1, &place) == ZQ_STOPPED && place == 0);
    CHECK(zq_parser_finish(&parser, &page, &place) == ZQ_STOPPED && page.held == NULL && parser.held == NULL);
    options.max_nodes = 3;
    CHECK(zq_parser_new(NULL, &options, &parser) == ZQ_OK && zq_parser_feed(&parser, "<p>", 3, &place) == ZQ_NODE_BUDGET && place == 0);
    CHECK(zq_parser_new(NULL, &options, &parser) == ZQ_OK && zq_parser_finish(&parser, &page, &place) == ZQ_NODE_BUDGET && parser.held == NULL);
    options.max_nodes = 0;
    CHECK(zq_parser_new(NULL, &options, &parser) == ZQ_NODE_BUDGET && parser.held == NULL);
    options.max_nodes = UINT64_MAX, options.max_input = 3;
    CHECK(zq_parser_new(NULL, &options, &parser) == ZQ_OK && zq_parser_feed(&parser, "abc", 3, &place) == ZQ_OK);
    CHECK(zq_parser_feed(&parser, "d", 1, &place) == ZQ_INPUT_TOO_LONG);
    options.max_input = UINT64_MAX, options.flags = ZQ_FOREIGN;
    CHECK(zq_parser_new(NULL, &options, &parser) == ZQ_OK && zq_parser_feed(&parser, "<svg>", 5, &place) == ZQ_OK);
    CHECK(zq_parser_finish(&parser, &page, &place) == ZQ_OK && writes(&page, "<html><head></head><body><svg></svg></body></html>"));
    options.flags = 8;
    CHECK(zq_parser_new(NULL, &options, &parser) == ZQ_BAD_FLAGS);
    /* the page is the one of the whole, the errors with it */
    {
        zq_counts counts;
        CHECK(zq_parser_new(NULL, NULL, &parser) == ZQ_OK && zq_parser_feed(&parser, "<p a=b>", 7, NULL) == ZQ_OK && zq_parser_feed(&parser, "x", 1, NULL) == ZQ_OK);
        CHECK(zq_parser_finish(&parser, &page, NULL) == ZQ_OK && zq_counts_of(&page, &counts) == ZQ_OK);
        CHECK(counts.code_points == 8 && counts.nodes == 6 && counts.held == 16 && counts.tokens == 3 && counts.errors == 1);
    }
    /* a piece is not looked at afterwards */
    {
        char piece[3] = "<p>";
        CHECK(zq_parser_new(NULL, NULL, &parser) == ZQ_OK && zq_parser_feed(&parser, piece, 2, NULL) == ZQ_OK);
        memset(piece, 'x', sizeof piece);
        CHECK(zq_parser_feed(&parser, ">", 1, NULL) == ZQ_OK && zq_parser_finish(&parser, &page, NULL) == ZQ_OK);
        CHECK(writes(&page, "<html><head></head><body><p></p></body></html>"));
    }
    CHECK(zq_parser_new(NULL, NULL, &parser) == ZQ_OK);
    CHECK(zq_parser_finish(&parser, (zq_page *)&parser, &place) == ZQ_BAD_HANDLE);
    CHECK(zq_parser_finish(NULL, &page, &place) == ZQ_BAD_POINTER && zq_parser_finish(&parser, NULL, &place) == ZQ_BAD_POINTER);
    CHECK(zq_parser_new(NULL, NULL, NULL) == ZQ_BAD_POINTER && zq_parser_feed(NULL, "", 0, NULL) == ZQ_BAD_POINTER);
    CHECK(zq_parser_new((zq_entities *)&parser, NULL, &parser) == ZQ_BAD_HANDLE);
    CHECK(zq_parser_feed(&parser, NULL, 1, NULL) == ZQ_BAD_POINTER && parser.held != NULL);
    /* a page is no parser, and a parser that is not finished is freed */
    CHECK(parse("x", &page, NULL) == ZQ_OK && zq_parser_feed((zq_parser *)&page, "x", 1, NULL) == ZQ_BAD_HANDLE && zq_root(&page) == 0);
    CHECK(zq_parser_finish((zq_parser *)&page, &other, NULL) == ZQ_BAD_HANDLE && other.held == NULL && zq_root(&page) == 0);
    CHECK(zq_parser_feed(&parser, "<table><b>x", 11, NULL) == ZQ_OK);
    zq_free(&parser);
    CHECK(parser.held == NULL);
    zq_free(&page);
}

/* Feeds a fragment byte by byte, and says whether it is written so. */
static int pieces_write(const zq_options *options, const char *context, const char *text, const char *want)
{
    zq_parser parser = ZQ_EMPTY;
    zq_page page = ZQ_EMPTY;
    size_t i;
    int is_so;
    if (zq_parser_new_fragment(NULL, options, context, strlen(context), &parser) != ZQ_OK)
        return 0;
    for (i = 0; i < strlen(text); i++)
        if (zq_parser_feed(&parser, text + i, 1, NULL) != ZQ_OK)
            return 0;
    is_so = zq_parser_finish(&parser, &page, NULL) == ZQ_OK && writes(&page, want);
    zq_free(&page);
    return is_so;
}

static void test_parser_of_a_fragment(void)
{
    zq_parser parser = ZQ_EMPTY;
    zq_page page = ZQ_EMPTY;
    zq_options options = ZQ_DEFAULTS;
    CHECK(pieces_write(NULL, "tr", "<td>x", "<td>x</td>") && pieces_write(NULL, "div", "<td>x", "x") && pieces_write(NULL, "textarea", "<p>", "&lt;p&gt;"));
    options.flags = ZQ_IN_FORM;
    CHECK(pieces_write(&options, "div", "<form>x", "x") && pieces_write(NULL, "div", "<form>x", "<form>x</form>"));
    options.flags = ZQ_QUIRKS;
    CHECK(pieces_write(&options, "div", "<p><table>", "<p><table></table></p>") && pieces_write(NULL, "div", "<p><table>", "<p></p><table></table>"));
    options.flags = ZQ_FOREIGN;
    CHECK(pieces_write(&options, "svg path", "<g/><p>x", "<g></g><p>x</p>"));
    CHECK(zq_parser_new_fragment(NULL, NULL, "svg path", 8, &parser) == ZQ_BAD_CONTEXT && parser.held == NULL);
    CHECK(zq_parser_new_fragment(NULL, NULL, "Q", 1, &parser) == ZQ_BAD_CONTEXT && zq_parser_new_fragment(NULL, NULL, "", 0, &parser) == ZQ_BAD_CONTEXT);
    CHECK(zq_parser_new_fragment(NULL, NULL, "a\xff", 2, &parser) == ZQ_BAD_CONTEXT && zq_parser_new_fragment(NULL, NULL, NULL, 1, &parser) == ZQ_BAD_POINTER);
    CHECK(zq_parser_new_fragment(NULL, NULL, "p", 1, NULL) == ZQ_BAD_POINTER);
    CHECK(zq_parser_new_fragment((zq_entities *)&parser, NULL, "p", 1, &parser) == ZQ_BAD_HANDLE);
    options.flags = 0, options.max_held = 3;
    CHECK(zq_parser_new_fragment(NULL, &options, "p", 1, &parser) == ZQ_HELD_BUDGET && parser.held == NULL);
    options.max_held = UINT64_MAX, options.max_nodes = 2;
    CHECK(zq_parser_new_fragment(NULL, &options, "p", 1, &parser) == ZQ_OK && zq_parser_feed(&parser, "a<b>", 4, NULL) == ZQ_NODE_BUDGET);
    options.flags = 8;
    CHECK(zq_parser_new_fragment(NULL, &options, "p", 1, &parser) == ZQ_BAD_FLAGS && parser.held != NULL);
    /* a parser is filled again, and its old input is let go */
    CHECK(zq_parser_new_fragment(NULL, NULL, "p", 1, &parser) == ZQ_OK && zq_parser_finish(&parser, &page, NULL) == ZQ_OK && writes(&page, ""));
    zq_free(&page);
}

/* A parser goes on by its table, whatever becomes of the handle that the table was read into. */
static void test_shared_table(void)
{
    zq_entities entities = ZQ_EMPTY;
    zq_parser first = ZQ_EMPTY, second = ZQ_EMPTY;
    zq_page page = ZQ_EMPTY;
    const char *json = "{\"&eacute;\": {\"codepoints\": [233], \"characters\": \"\\u00e9\"}}";
    const char *other = "{\"&x;\": {\"codepoints\": [120], \"characters\": \"x\"}}";
    CHECK(zq_entities_read(json, strlen(json), &entities) == ZQ_OK);
    CHECK(zq_parser_new(&entities, NULL, &first) == ZQ_OK && zq_parser_new(&entities, NULL, &second) == ZQ_OK && entities.held != NULL);
    CHECK(zq_parser_feed(&first, "&eac", 4, NULL) == ZQ_OK && zq_parser_feed(&second, "&", 1, NULL) == ZQ_OK);
    zq_free(&entities);
    CHECK(zq_parser_feed(&first, "ute;", 4, NULL) == ZQ_OK && zq_parser_finish(&first, &page, NULL) == ZQ_OK);
    CHECK(writes(&page, "<html><head></head><body>\xc3\xa9</body></html>"));
    CHECK(zq_entities_read(other, strlen(other), &entities) == ZQ_OK);
    CHECK(zq_parser_feed(&second, "eacute;&x;", 10, NULL) == ZQ_OK && zq_parser_finish(&second, &page, NULL) == ZQ_OK);
    CHECK(writes(&page, "<html><head></head><body>\xc3\xa9&amp;x;</body></html>"));
    /* an empty handle is the same as none */
    zq_free(&entities);
    CHECK(zq_parser_new(&entities, NULL, &first) == ZQ_OK && zq_parser_feed(&first, "&lt;", 4, NULL) == ZQ_OK && zq_parser_finish(&first, &page, NULL) == ZQ_OK);
    CHECK(writes(&page, "<html><head></head><body>&lt;</body></html>"));
    zq_free(&page);
}

static void test_nodes(void)
{
    zq_page page = ZQ_EMPTY;
    uint64_t html, head, body, p, text, comment, template, contents;
    CHECK(parse("<!DOCTYPE html PUBLIC 'a' 'b'><p id=x class='y z'>One<!--c--><template><i>T</i></template>", &page, NULL) == ZQ_OK);
    CHECK(zq_kind_of(&page, zq_root(&page)) == ZQ_DOCUMENT && zq_parent(&page, zq_root(&page)) == ZQ_NO_NODE);
    {
        uint64_t doctype = zq_first_child(&page, zq_root(&page));
        zq_span span;
        CHECK(zq_kind_of(&page, doctype) == ZQ_DOCTYPE);
        CHECK(zq_text(&page, ZQ_DOCTYPE_NAME, doctype, 0, &span) == ZQ_OK && is(span, "html"));
        CHECK(zq_text(&page, ZQ_PUBLIC_ID, doctype, 0, &span) == ZQ_OK && is(span, "a"));
        CHECK(zq_text(&page, ZQ_SYSTEM_ID, doctype, 0, &span) == ZQ_OK && is(span, "b"));
        html = zq_next(&page, doctype);
        CHECK(zq_text(&page, ZQ_PUBLIC_ID, html, 0, &span) == ZQ_BAD_INDEX && zq_text(&page, 9, html, 0, &span) == ZQ_BAD_INDEX);
        CHECK(zq_text(&page, ZQ_NAME, 999, 0, &span) == ZQ_BAD_INDEX && zq_text(&page, ZQ_NAME, html, 0, NULL) == ZQ_BAD_POINTER);
    }
    head = zq_first_child(&page, html), body = zq_last_child(&page, html);
    CHECK(is(zq_name(&page, html), "html") && is(zq_name(&page, head), "head") && is(zq_name(&page, body), "body"));
    CHECK(zq_next(&page, head) == body && zq_previous(&page, body) == head && zq_previous(&page, head) == ZQ_NO_NODE && zq_next(&page, body) == ZQ_NO_NODE);
    p = zq_first_child(&page, body), text = zq_first_child(&page, p), comment = zq_next(&page, text), template = zq_next(&page, comment);
    CHECK(zq_kind_of(&page, p) == ZQ_ELEMENT && zq_attr_count(&page, p) == 2 && zq_attr_count(&page, text) == 0);
    CHECK(is(zq_attr_name(&page, p, 0), "id") && is(zq_attr_value(&page, p, 0), "x") && is(zq_attr_name(&page, p, 1), "class"));
    CHECK(is(zq_attr_value(&page, p, 1), "y z") && is(zq_attr_name(&page, p, 2), "") && is(zq_attr_value(&page, text, 0), ""));
    CHECK(zq_kind_of(&page, text) == ZQ_TEXT && is(zq_data(&page, text), "One") && is(zq_name(&page, text), ""));
    CHECK(zq_kind_of(&page, comment) == ZQ_COMMENT && is(zq_data(&page, comment), "c"));
    contents = zq_template_contents(&page, template);
    CHECK(zq_kind_of(&page, contents) == ZQ_CONTENTS && zq_link(&page, ZQ_HOST, contents) == template && zq_parent(&page, contents) == ZQ_NO_NODE);
    CHECK(zq_first_child(&page, template) == ZQ_NO_NODE && is(zq_name(&page, zq_first_child(&page, contents)), "i"));
    CHECK(zq_template_contents(&page, p) == ZQ_NO_NODE && zq_link(&page, 7, p) == ZQ_NO_NODE && zq_link(&page, ZQ_PARENT, 999) == ZQ_NO_NODE);
    CHECK(zq_kind_of(&page, 999) == ZQ_NO_KIND && zq_kind_of(&page, UINT64_MAX) == ZQ_NO_KIND && zq_attr_count(&page, 999) == 0);
    /* what was told stays while other calls read the page */
    {
        zq_span name = zq_name(&page, p), data = zq_data(&page, text);
        zq_buffer buffer = ZQ_EMPTY;
        CHECK(zq_serialise(&page, 0, &buffer) == ZQ_OK);
        zq_free(&buffer);
        CHECK(is(name, "p") && is(data, "One"));
    }
    zq_free(&page);
}

static void test_copy(void)
{
    zq_page page = ZQ_EMPTY;
    char out[4] = "....";
    size_t len = 9;
    uint64_t text;
    CHECK(zq_parse_fragment(NULL, NULL, "div", 3, "abc", 3, &page, NULL) == ZQ_OK);
    text = zq_first_child(&page, zq_root(&page));
    CHECK(zq_copy(&page, ZQ_DATA, text, 0, NULL, 0, &len) == ZQ_OK && len == 3);
    CHECK(zq_copy(&page, ZQ_DATA, text, 0, out, 2, &len) == ZQ_OK && len == 3 && memcmp(out, "....", 4) == 0);
    CHECK(zq_copy(&page, ZQ_DATA, text, 0, out, 4, &len) == ZQ_OK && len == 3 && memcmp(out, "abc.", 4) == 0);
    CHECK(zq_copy(&page, ZQ_DATA, text, 0, NULL, 4, &len) == ZQ_BAD_POINTER && zq_copy(&page, ZQ_DATA, text, 0, out, 4, NULL) == ZQ_BAD_POINTER);
    CHECK(zq_copy(&page, ZQ_ATTR_NAME, text, 0, out, 4, &len) == ZQ_BAD_INDEX && zq_copy(&page, ZQ_DATA, 999, 0, out, 4, &len) == ZQ_BAD_INDEX);
    CHECK(zq_copy(NULL, ZQ_DATA, text, 0, out, 4, &len) == ZQ_BAD_POINTER);
    zq_free(&page);
}

static void test_rows(void)
{
    zq_page page = ZQ_EMPTY;
    zq_row rows[8];
    zq_counts counts;
    size_t i;
    CHECK(parse("<p a=b>x", &page, NULL) == ZQ_OK && zq_counts_of(&page, &counts) == ZQ_OK);
    CHECK(counts.code_points == 8 && counts.nodes == 6 && counts.held == 16 && counts.steps > 0 && counts.tokens == 3 && counts.errors == 1);
    CHECK(zq_rows(&page, 0, rows, 8) == 6 && zq_rows(&page, 4, rows + 4, 8 - 4) == 2 && zq_rows(&page, 0, rows, 2) == 2 && zq_rows(&page, 6, rows, 8) == 0);
    for (i = 0; i < 6; i++) {
        CHECK(rows[i].kind == zq_kind_of(&page, i) && rows[i].parent == zq_parent(&page, i) && rows[i].first_child == zq_first_child(&page, i));
        CHECK(rows[i].next == zq_next(&page, i) && rows[i].contents == zq_template_contents(&page, i) && rows[i].attrs == zq_attr_count(&page, i));
        CHECK(rows[i].name.len == zq_name(&page, i).len && memcmp(rows[i].name.at, zq_name(&page, i).at, rows[i].name.len) == 0);
        CHECK(rows[i].text.len == zq_data(&page, i).len && memcmp(rows[i].text.at, zq_data(&page, i).at, rows[i].text.len) == 0);
    }
    CHECK(zq_rows(&page, 0, NULL, 8) == 0 && zq_rows(NULL, 0, rows, 8) == 0 && zq_rows(&page, UINT64_MAX, rows, 8) == 0);
    CHECK(zq_counts_of(&page, NULL) == ZQ_BAD_POINTER && zq_counts_of(NULL, &counts) == ZQ_BAD_POINTER);
    zq_free(&page);
    CHECK(zq_counts_of(&page, &counts) == ZQ_BAD_HANDLE && zq_rows(&page, 0, rows, 8) == 0);
}

static void test_texts(void)
{
    zq_page page = ZQ_EMPTY;
    zq_buffer buffer = ZQ_EMPTY;
    zq_texts texts;
    static const char *const want[] = { "", "", "html", "", "head", "", "body", "", "p", "", "a", "\xc3\xa9", "c", "", "", "x" };
    size_t i;
    uint64_t start = 0;
    CHECK(parse("<p a=\xc3\xa9 c>x", &page, NULL) == ZQ_OK && zq_all_texts(&page, &buffer, &texts) == ZQ_OK);
    CHECK(texts.count == sizeof want / sizeof want[0]);
    for (i = 0; i < texts.count && i < sizeof want / sizeof want[0]; i++) {
        zq_span span;
        span.at = texts.at + start, span.len = (size_t)(texts.ends[i] - start);
        CHECK(is(span, want[i]));
        start = texts.ends[i];
    }
    CHECK(zq_all_texts(NULL, &buffer, &texts) == ZQ_BAD_POINTER && zq_all_texts(&page, NULL, &texts) == ZQ_BAD_POINTER);
    CHECK(zq_all_texts(&page, &buffer, NULL) == ZQ_BAD_POINTER && zq_all_texts(&page, (zq_buffer *)&page, &texts) == ZQ_BAD_HANDLE);
    zq_free(&page);
    CHECK(zq_all_texts(&page, &buffer, &texts) == ZQ_BAD_HANDLE && buffer.held == NULL);
    zq_free(&buffer);
}

static void test_errors(void)
{
    zq_page page = ZQ_EMPTY;
    zq_buffer name = ZQ_EMPTY;
    zq_span span;
    uint64_t place;
    CHECK(parse("<!DOCTYPE html><p a a>", &page, NULL) == ZQ_OK);
    CHECK(zq_error(&page, 0, &name, &place) == ZQ_OK && place == 21 && zq_bytes(&name, &span) == ZQ_OK && is(span, "duplicate-attribute"));
    CHECK(zq_error(&page, 1, &name, &place) == ZQ_BAD_INDEX);
    CHECK(parse("x", &page, NULL) == ZQ_OK && zq_error(&page, 0, &name, &place) == ZQ_OK && place == 0);
    CHECK(zq_bytes(&name, &span) == ZQ_OK && is(span, "tree-construction"));
    CHECK(zq_error(NULL, 0, &name, &place) == ZQ_BAD_POINTER && zq_error(&page, 0, NULL, &place) == ZQ_BAD_POINTER);
    CHECK(zq_error(&page, 0, &name, NULL) == ZQ_BAD_POINTER && zq_error(&page, 0, (zq_buffer *)&page, &place) == ZQ_BAD_HANDLE);
    zq_free(&page);
    CHECK(zq_error(&page, 0, &name, &place) == ZQ_BAD_HANDLE);
    zq_free(&name);
}

static void test_positions(void)
{
    const char *text = "\xef\xbb\xbf\xc3\xa9x\r\ny\rz\n";
    static const uint64_t places[] = { 0, 1, 2, 3, 4, 5, 6, 7, 99, 1 };
    static const uint64_t want[][3] = { { 3, 1, 1 }, { 5, 1, 2 }, { 6, 1, 3 }, { 8, 2, 1 }, { 9, 2, 2 }, { 10, 3, 1 }, { 11, 3, 2 }, { 12, 4, 1 },
                                        { 12, 4, 1 }, { 5, 1, 2 } };
    zq_position at[10];
    size_t i;
    CHECK(zq_positions(text, strlen(text), places, 10, at) == ZQ_OK);
    for (i = 0; i < 10; i++)
        CHECK(at[i].offset == want[i][0] && at[i].line == want[i][1] && at[i].column == want[i][2]);
    CHECK(zq_positions("", 0, places, 1, at) == ZQ_OK && at[0].offset == 0 && at[0].line == 1 && at[0].column == 1);
    CHECK(zq_positions(NULL, 0, NULL, 0, NULL) == ZQ_OK && zq_positions(NULL, 1, places, 1, at) == ZQ_BAD_POINTER);
    CHECK(zq_positions("", 0, NULL, 1, at) == ZQ_BAD_POINTER && zq_positions("", 0, places, 1, NULL) == ZQ_BAD_POINTER);
    CHECK(zq_positions("", 0, places, SIZE_MAX, at) == ZQ_BAD_POINTER);
}

static void test_text_below(void)
{
    zq_page page = ZQ_EMPTY;
    zq_buffer buffer = ZQ_EMPTY;
    zq_span span;
    CHECK(parse("<p>One<!--c--> <b>two</b><template>T</template>", &page, NULL) == ZQ_OK);
    CHECK(zq_text_below(&page, zq_root(&page), &buffer) == ZQ_OK && zq_bytes(&buffer, &span) == ZQ_OK && is(span, "One twoT"));
    CHECK(zq_text_below(&page, 999, &buffer) == ZQ_BAD_INDEX && buffer.held == NULL);
    CHECK(zq_text_below(NULL, 0, &buffer) == ZQ_BAD_POINTER && zq_text_below(&page, 0, NULL) == ZQ_BAD_POINTER);
    CHECK(zq_text_below(&page, 0, (zq_buffer *)&page) == ZQ_BAD_HANDLE);
    zq_free(&page);
    CHECK(zq_text_below(&page, 0, &buffer) == ZQ_BAD_HANDLE);
    zq_free(&buffer);
}

/* Whether a token is this. */
static int told(const zq_token *token, uint64_t start, uint64_t end, uint32_t kind, const char *name, uint32_t code_point, uint32_t fate, uint64_t node, uint32_t cause)
{
    return token->start == start && token->end == end && token->kind == kind && is(token->name, name) && token->code_point == code_point && token->fate == fate
        && token->node == node && token->cause == cause;
}

/* How many tokens a ledger has. */
static size_t count_tokens(zq_ledger *ledger)
{
    static zq_token tokens[16];
    return zq_tokens(ledger, 0, tokens, 16);
}

static void test_ledger(void)
{
    zq_page page = ZQ_EMPTY;
    zq_ledger ledger = ZQ_EMPTY;
    zq_token tokens[12], part[3];
    zq_counts counts;
    const char *text = "<!DOCTYPE html> <p>\xc3\xa9<body b><!--c--><select><div></p>";
    uint64_t place = 7;
    size_t i;
    CHECK(zq_audit(NULL, NULL, text, strlen(text), &page, &ledger, &place) == ZQ_OK && place == 0);
    CHECK(zq_tokens(&ledger, 0, tokens, 12) == 10 && zq_counts_of(&page, &counts) == ZQ_OK && counts.tokens == 10);
    CHECK(told(&tokens[0], 0, 15, ZQ_DOCTYPE_TOKEN, "", 0, ZQ_MADE, 1, ZQ_NO_CAUSE));
    CHECK(told(&tokens[1], 15, 16, ZQ_CHARACTER, "", ' ', ZQ_DROPPED, ZQ_NO_NODE, ZQ_PROLOG_SPACE));
    CHECK(told(&tokens[2], 16, 19, ZQ_START_TAG, "p", 0, ZQ_MADE, 5, ZQ_NO_CAUSE));
    CHECK(told(&tokens[3], 19, 20, ZQ_CHARACTER, "", 0xE9, ZQ_IN_TEXT, 6, ZQ_NO_CAUSE));
    CHECK(told(&tokens[4], 20, 28, ZQ_START_TAG, "body", 0, ZQ_MERGED, ZQ_NO_NODE, ZQ_NO_CAUSE));
    CHECK(told(&tokens[5], 28, 36, ZQ_COMMENT_TOKEN, "", 0, ZQ_MADE, 7, ZQ_NO_CAUSE));
    CHECK(told(&tokens[6], 36, 44, ZQ_START_TAG, "select", 0, ZQ_MADE, 8, ZQ_NO_CAUSE));
    CHECK(told(&tokens[7], 44, 49, ZQ_START_TAG, "div", 0, ZQ_DROPPED, ZQ_NO_NODE, ZQ_IN_SELECT));
    CHECK(told(&tokens[8], 49, 53, ZQ_END_TAG, "p", 0, ZQ_ENDED, ZQ_NO_NODE, ZQ_NO_CAUSE));
    CHECK(told(&tokens[9], 53, 53, ZQ_END_OF_FILE, "", 0, ZQ_ENDED, ZQ_NO_NODE, ZQ_NO_CAUSE));
    /* its nodes are those of the page */
    CHECK(is(zq_name(&page, 5), "p") && is(zq_data(&page, 6), "\xc3\xa9") && is(zq_data(&page, 7), "c") && is(zq_name(&page, 8), "select"));
    /* in parts, and behind the end */
    for (i = 0; i < 10; i++) {
        CHECK(zq_tokens(&ledger, i, part, 3) == (10 - i < 3 ? 10 - i : 3));
        CHECK(part[0].start == tokens[i].start && part[0].node == tokens[i].node && part[0].name.at == tokens[i].name.at);
    }
    CHECK(zq_tokens(&ledger, 10, part, 3) == 0 && zq_tokens(&ledger, UINT64_MAX, part, 3) == 0 && zq_tokens(&ledger, 0, part, 0) == 0);
    CHECK(zq_tokens(NULL, 0, part, 3) == 0 && zq_tokens(&ledger, 0, NULL, 3) == 0 && zq_tokens((zq_ledger *)&page, 0, part, 3) == 0);
    /* an edit leaves the ledger as it is, and names stay until the ledger is freed, whatever becomes of the page */
    CHECK(zq_unwrap(&page, 5) == ZQ_OK && zq_tokens(&ledger, 2, part, 3) == 3 && part[0].node == 5);
    zq_free(&page);
    CHECK(is(tokens[2].name, "p") && is(tokens[7].name, "div") && zq_tokens(&ledger, 2, part, 3) == 3 && is(part[0].name, "p"));
    zq_free(&ledger);
    CHECK(ledger.held == NULL && zq_tokens(&ledger, 0, part, 3) == 0);
}

static void test_audit(void)
{
    zq_page page = ZQ_EMPTY;
    zq_ledger ledger = ZQ_EMPTY;
    zq_entities entities = ZQ_EMPTY;
    zq_options options = ZQ_DEFAULTS;
    zq_token token;
    const char *json = "{\"&eacute;\": {\"codepoints\": [233], \"characters\": \"\\u00e9\"}}";
    uint64_t place = 7;
    CHECK(zq_audit_fragment(NULL, NULL, "tr", 2, "<td>x", 5, &page, &ledger, &place) == ZQ_OK && writes(&page, "<td>x</td>") && count_tokens(&ledger) == 3);
    CHECK(zq_audit(NULL, NULL, NULL, 0, &page, &ledger, NULL) == ZQ_OK && writes(&page, "<html><head></head><body></body></html>") && count_tokens(&ledger) == 1);
    CHECK(zq_entities_read(json, strlen(json), &entities) == ZQ_OK);
    CHECK(zq_audit_fragment(&entities, NULL, "p", 1, "&eacute;", 8, &page, &ledger, NULL) == ZQ_OK && writes(&page, "\xc3\xa9"));
    CHECK(zq_tokens(&ledger, 0, &token, 1) == 1 && told(&token, 0, 8, ZQ_CHARACTER, "", 0xE9, ZQ_IN_TEXT, 1, ZQ_NO_CAUSE));
    CHECK(zq_audit(&entities, NULL, "&eacute;", 8, &page, &ledger, NULL) == ZQ_OK && writes(&page, "<html><head></head><body>\xc3\xa9</body></html>"));
    options.flags = ZQ_IN_FORM;
    CHECK(zq_audit_fragment(NULL, &options, "div", 3, "<form>x", 7, &page, &ledger, NULL) == ZQ_OK && writes(&page, "x"));
    options.flags = ZQ_QUIRKS;
    CHECK(zq_audit_fragment(NULL, &options, "div", 3, "<p><table>", 10, &page, &ledger, NULL) == ZQ_OK && writes(&page, "<p><table></table></p>"));
    /* what is refused leaves both empty */
    CHECK(zq_audit(NULL, NULL, "<p>x<svg>", 9, &page, &ledger, &place) == ZQ_FOREIGN_SVG && place == 4 && page.held == NULL && ledger.held == NULL);
    CHECK(zq_audit_fragment(NULL, NULL, "svg", 3, "x", 1, &page, &ledger, &place) == ZQ_BAD_CONTEXT && place == 0);
    CHECK(zq_audit_fragment(NULL, NULL, "\xff", 1, "x", 1, &page, &ledger, &place) == ZQ_BAD_CONTEXT);
    options.flags = ZQ_FOREIGN;
    CHECK(zq_audit(NULL, &options, "<svg>", 5, &page, &ledger, &place) == ZQ_OK && zq_tokens(&ledger, 0, &token, 1) == 1);
    CHECK(told(&token, 0, 5, ZQ_START_TAG, "svg", 0, ZQ_MADE, 4, ZQ_NO_CAUSE) && is(zq_name(&page, 4), "svg svg"));
    options.max_nodes = 3;
    CHECK(zq_audit(NULL, &options, "<p>", 3, &page, &ledger, &place) == ZQ_NODE_BUDGET && place == 0 && page.held == NULL && ledger.held == NULL);
    /* what is not called rightly changes nothing */
    CHECK(zq_audit(NULL, NULL, "<p>", 3, &page, &ledger, NULL) == ZQ_OK);
    options.flags = 8;
    CHECK(zq_audit(NULL, &options, "", 0, &page, &ledger, &place) == ZQ_BAD_FLAGS && zq_audit_fragment(NULL, &options, "p", 1, "", 0, &page, &ledger, &place) == ZQ_BAD_FLAGS);
    CHECK(zq_audit(NULL, NULL, NULL, 1, &page, &ledger, &place) == ZQ_BAD_POINTER && zq_audit(NULL, NULL, "", 0, NULL, &ledger, &place) == ZQ_BAD_POINTER);
    CHECK(zq_audit(NULL, NULL, "", 0, &page, NULL, &place) == ZQ_BAD_POINTER && zq_audit(NULL, NULL, "", SIZE_MAX, &page, &ledger, &place) == ZQ_BAD_POINTER);
    CHECK(zq_audit((zq_entities *)&page, NULL, "", 0, &page, &ledger, &place) == ZQ_BAD_HANDLE);
    CHECK(zq_audit((zq_entities *)&ledger, NULL, "", 0, &page, &ledger, &place) == ZQ_BAD_HANDLE);
    CHECK(zq_audit(NULL, NULL, "", 0, &page, (zq_ledger *)&page, &place) == ZQ_BAD_HANDLE);
    CHECK(zq_audit_fragment(NULL, NULL, NULL, 1, "", 0, &page, &ledger, &place) == ZQ_BAD_POINTER);
    CHECK(zq_audit_fragment(NULL, NULL, "p", 1, NULL, 1, &page, &ledger, &place) == ZQ_BAD_POINTER);
    CHECK(writes(&page, "<html><head></head><body><p></p></body></html>") && count_tokens(&ledger) == 2);
    zq_free(&page);
    zq_free(&entities);
    zq_free(&ledger);
}

/* The cause for which the first token of a ledger that is dropped is. */
static uint32_t first_cause(const char *text, size_t len, const char *context)
{
    zq_page page = ZQ_EMPTY;
    zq_ledger ledger = ZQ_EMPTY;
    zq_token tokens[16];
    size_t i, count;
    uint32_t cause = ZQ_NO_CAUSE;
    if (context != NULL)
        CHECK(zq_audit_fragment(NULL, NULL, context, strlen(context), text, len, &page, &ledger, NULL) == ZQ_OK);
    else
        CHECK(zq_audit(NULL, NULL, text, len, &page, &ledger, NULL) == ZQ_OK);
    count = zq_tokens(&ledger, 0, tokens, 16);
    for (i = 0; i < count && cause == ZQ_NO_CAUSE; i++)
        cause = tokens[i].cause;
    zq_free(&page);
    zq_free(&ledger);
    return cause;
}

static void test_causes(void)
{
    CHECK(first_cause(" ", 1, NULL) == ZQ_PROLOG_SPACE && first_cause("x\0", 2, NULL) == ZQ_NULL && first_cause("<pre>\n", 6, NULL) == ZQ_LEADING_NEWLINE);
    CHECK(first_cause("<select><p>", 11, NULL) == ZQ_IN_SELECT && first_cause("<frameset>x", 11, NULL) == ZQ_IN_FRAMESET);
    CHECK(first_cause("<tr>", 4, NULL) == ZQ_MISPLACED && first_cause("x", 1, "colgroup") == ZQ_IN_COLUMN_GROUP);
}

/* A fragment in a div, below whose root the text is. */
static void fragment(zq_page *page, const char *text) { CHECK(zq_parse_fragment(NULL, NULL, "div", 3, text, strlen(text), page, NULL) == ZQ_OK); }

static uint32_t set(zq_page *page, uint64_t node, const char *name, const char *value)
{
    return zq_set_attr(page, node, name, strlen(name), value, strlen(value));
}

static void test_attributes(void)
{
    zq_page page = ZQ_EMPTY;
    uint64_t p, text;
    fragment(&page, "<p a=b a\"='c'>x");
    p = zq_first_child(&page, zq_root(&page)), text = zq_first_child(&page, p);
    CHECK(set(&page, p, "a", "d<") == ZQ_OK && set(&page, p, "e", "") == ZQ_OK && writes(&page, "<p a=\"d<\" a\"=\"c\" e=\"\">x</p>"));
    CHECK(is(zq_attr_value(&page, p, 0), "d<") && zq_attr_count(&page, p) == 3);
    /* a name that the element has may be any; a new one is one of HTML */
    CHECK(set(&page, p, "a\"", "f") == ZQ_OK && set(&page, p, "A", "") == ZQ_BAD_NAME && set(&page, p, "", "") == ZQ_BAD_NAME && set(&page, p, "b c", "") == ZQ_BAD_NAME);
    CHECK(zq_remove_attr(&page, p, "a", 1) == ZQ_OK && zq_remove_attr(&page, p, "z", 1) == ZQ_OK && writes(&page, "<p a\"=\"f\" e=\"\">x</p>"));
    CHECK(set(&page, text, "a", "b") == ZQ_NOT_ELEMENT && zq_remove_attr(&page, text, "a", 1) == ZQ_NOT_ELEMENT);
    CHECK(set(&page, 999, "a", "b") == ZQ_BAD_INDEX && zq_remove_attr(&page, UINT64_MAX, "a", 1) == ZQ_BAD_INDEX);
    CHECK(set(&page, p, "a\xff", "b") == ZQ_BAD_TEXT && set(&page, p, "a", "\xed\xa0\x80") == ZQ_BAD_TEXT && zq_remove_attr(&page, p, "\xff", 1) == ZQ_BAD_TEXT);
    CHECK(zq_set_attr(NULL, p, "a", 1, "b", 1) == ZQ_BAD_POINTER && zq_set_attr(&page, p, NULL, 1, "b", 1) == ZQ_BAD_POINTER);
    CHECK(zq_set_attr(&page, p, "a", 1, NULL, 1) == ZQ_BAD_POINTER && zq_set_attr(&page, p, "a", SIZE_MAX, "", 0) == ZQ_BAD_POINTER);
    CHECK(zq_remove_attr(NULL, p, "a", 1) == ZQ_BAD_POINTER && zq_remove_attr(&page, p, NULL, 1) == ZQ_BAD_POINTER);
    /* what was refused changed nothing; a value may be null, if it is empty */
    CHECK(writes(&page, "<p a\"=\"f\" e=\"\">x</p>") && zq_set_attr(&page, p, "\xc3\xa9", 2, NULL, 0) == ZQ_OK);
    CHECK(writes(&page, "<p a\"=\"f\" e=\"\" \xc3\xa9=\"\">x</p>"));
    zq_free(&page);
    CHECK(set(&page, p, "a", "b") == ZQ_BAD_HANDLE && zq_remove_attr(&page, p, "a", 1) == ZQ_BAD_HANDLE && page.held == NULL);
}

static void test_removing(void)
{
    zq_page page = ZQ_EMPTY;
    zq_counts counts;
    uint64_t root, p, b, template, contents;
    fragment(&page, "<p>One<b>two<i>three</i></b>four</p><template>T<u>v</u></template>");
    root = zq_root(&page), p = zq_first_child(&page, root), b = zq_next(&page, zq_first_child(&page, p));
    template = zq_next(&page, p), contents = zq_template_contents(&page, template);
    CHECK(zq_unwrap(&page, b) == ZQ_OK && writes(&page, "<p>Onetwo<i>three</i>four</p><template>T<u>v</u></template>"));
    CHECK(zq_parent(&page, b) == ZQ_NO_NODE && zq_first_child(&page, b) == ZQ_NO_NODE && is(zq_name(&page, b), "b"));
    CHECK(zq_unwrap(&page, b) == ZQ_NO_PARENT && zq_unwrap(&page, root) == ZQ_NO_PARENT && zq_unwrap(&page, contents) == ZQ_NOT_ELEMENT);
    CHECK(zq_unwrap(&page, zq_first_child(&page, p)) == ZQ_NOT_ELEMENT && zq_unwrap(&page, 999) == ZQ_BAD_INDEX);
    /* what a template holds takes its place */
    CHECK(zq_unwrap(&page, template) == ZQ_OK && writes(&page, "<p>Onetwo<i>three</i>four</p>T<u>v</u>"));
    /* a node goes with all below it, keeps its number, and comes back */
    CHECK(zq_remove(&page, p) == ZQ_OK && writes(&page, "T<u>v</u>") && zq_parent(&page, p) == ZQ_NO_NODE && zq_first_child(&page, p) != ZQ_NO_NODE);
    CHECK(zq_remove(&page, p) == ZQ_OK && zq_append(&page, root, p) == ZQ_OK && writes(&page, "T<u>v</u><p>Onetwo<i>three</i>four</p>"));
    CHECK(zq_counts_of(&page, &counts) == ZQ_OK && counts.nodes == 13);
    CHECK(zq_remove(&page, root) == ZQ_OK && writes(&page, "T<u>v</u><p>Onetwo<i>three</i>four</p>"));
    CHECK(zq_remove(&page, 999) == ZQ_BAD_INDEX && zq_remove(&page, UINT64_MAX) == ZQ_BAD_INDEX);
    CHECK(zq_remove(NULL, p) == ZQ_BAD_POINTER && zq_unwrap(NULL, p) == ZQ_BAD_POINTER);
    zq_free(&page);
    CHECK(zq_remove(&page, p) == ZQ_BAD_HANDLE && zq_unwrap(&page, p) == ZQ_BAD_HANDLE);
}

static void test_linking(void)
{
    zq_page page = ZQ_EMPTY;
    uint64_t root, p, b, template, contents;
    fragment(&page, "<p>One<b>two</b></p><template>T</template>");
    root = zq_root(&page), p = zq_first_child(&page, root), b = zq_last_child(&page, p), template = zq_next(&page, p);
    contents = zq_template_contents(&page, template);
    CHECK(zq_insert_before(&page, b, p) == ZQ_OK && writes(&page, "<b>two</b><p>One</p><template>T</template>"));
    CHECK(zq_append(&page, b, p) == ZQ_OK && writes(&page, "<b>two<p>One</p></b><template>T</template>"));
    CHECK(zq_append(&page, p, b) == ZQ_CYCLE && zq_append(&page, p, p) == ZQ_CYCLE && zq_insert_before(&page, b, p) == ZQ_CYCLE);
    /* below a template is in its contents, and no template stands in what it holds */
    CHECK(zq_append(&page, template, b) == ZQ_OK && writes(&page, "<template>T<b>two<p>One</p></b></template>") && zq_parent(&page, b) == contents);
    CHECK(zq_append(&page, p, template) == ZQ_CYCLE && zq_append(&page, contents, template) == ZQ_CYCLE);
    /* the root stays the root, also where a node stands alone */
    CHECK(zq_remove(&page, b) == ZQ_OK && zq_append(&page, b, root) == ZQ_NOT_LINKABLE && zq_append(&page, b, contents) == ZQ_NOT_LINKABLE);
    CHECK(zq_insert_before(&page, root, p) == ZQ_NOT_LINKABLE && zq_insert_before(&page, contents, p) == ZQ_NOT_LINKABLE);
    CHECK(zq_insert_before(&page, b, root) == ZQ_NO_PARENT && zq_insert_before(&page, p, b) == ZQ_NO_PARENT);
    CHECK(zq_append(&page, 999, b) == ZQ_BAD_INDEX && zq_append(&page, b, 999) == ZQ_BAD_INDEX && zq_insert_before(&page, 999, b) == ZQ_BAD_INDEX);
    CHECK(zq_insert_before(&page, b, UINT64_MAX) == ZQ_BAD_INDEX && writes(&page, "<template>T</template>"));
    CHECK(zq_append(NULL, p, b) == ZQ_BAD_POINTER && zq_insert_before(NULL, b, p) == ZQ_BAD_POINTER);
    CHECK(parse("<p>x", &page, NULL) == ZQ_OK && zq_append(&page, 4, 0) == ZQ_NOT_LINKABLE && zq_append(&page, 0, 4) == ZQ_OK);
    CHECK(writes(&page, "<html><head></head><body></body></html><p>x</p>"));
    zq_free(&page);
    CHECK(zq_append(&page, p, b) == ZQ_BAD_HANDLE && zq_insert_before(&page, b, p) == ZQ_BAD_HANDLE);
}

static void test_making(void)
{
    zq_page page = ZQ_EMPTY;
    zq_options options = ZQ_DEFAULTS;
    zq_counts counts;
    uint64_t root, node = 7, text = 7;
    fragment(&page, "<p>x");
    root = zq_root(&page);
    CHECK(zq_make_element(&page, "b", 1, &node) == ZQ_OK && node == 3 && zq_kind_of(&page, node) == ZQ_ELEMENT && zq_parent(&page, node) == ZQ_NO_NODE);
    CHECK(zq_make_text(&page, "<\xc3\xa9", 3, &text) == ZQ_OK && text == 4 && is(zq_data(&page, text), "<\xc3\xa9"));
    CHECK(zq_append(&page, node, text) == ZQ_OK && zq_append(&page, root, node) == ZQ_OK && writes(&page, "<p>x</p><b>&lt;\xc3\xa9</b>"));
    CHECK(zq_make_element(&page, "template", 8, &node) == ZQ_OK && node == 5 && zq_template_contents(&page, node) == 6);
    CHECK(zq_make_text(&page, NULL, 0, &text) == ZQ_OK && text == 7 && is(zq_data(&page, text), ""));
    CHECK(zq_counts_of(&page, &counts) == ZQ_OK && counts.nodes == 8 && counts.errors == 0 && counts.code_points == 4);
    CHECK(zq_make_element(&page, "B", 1, &node) == ZQ_BAD_NAME && node == ZQ_NO_NODE);
    CHECK(zq_make_element(&page, "svg", 3, &node) == ZQ_BAD_NAME && zq_make_element(&page, "", 0, &node) == ZQ_BAD_NAME);
    CHECK(zq_make_element(&page, "a b", 3, &node) == ZQ_BAD_NAME && zq_make_element(&page, "b\xff", 2, &node) == ZQ_BAD_TEXT && node == ZQ_NO_NODE);
    CHECK(zq_make_text(&page, "\xff", 1, &text) == ZQ_BAD_TEXT && text == ZQ_NO_NODE);
    CHECK(zq_make_element(NULL, "b", 1, &node) == ZQ_BAD_POINTER && zq_make_element(&page, NULL, 1, &node) == ZQ_BAD_POINTER);
    CHECK(zq_make_element(&page, "b", 1, NULL) == ZQ_BAD_POINTER && zq_make_text(NULL, "b", 1, &text) == ZQ_BAD_POINTER);
    CHECK(zq_make_text(&page, NULL, 1, &text) == ZQ_BAD_POINTER && zq_make_text(&page, "b", 1, NULL) == ZQ_BAD_POINTER);
    /* a page keeps the limits that it was parsed within */
    options.max_nodes = 6;
    CHECK(zq_parse(NULL, &options, "<p>x", 4, &page, NULL) == ZQ_OK && zq_make_text(&page, "a", 1, &text) == ZQ_NODE_BUDGET && text == ZQ_NO_NODE);
    options.max_nodes = UINT64_MAX, options.max_held = 20;
    CHECK(zq_parse(NULL, &options, "<p>x", 4, &page, NULL) == ZQ_OK && zq_make_text(&page, "aaaaaaaaaa", 10, &text) == ZQ_HELD_BUDGET);
    CHECK(set(&page, 4, "a", "bbbbbbbbbb") == ZQ_HELD_BUDGET && set(&page, 4, "a", "b") == ZQ_OK);
    zq_free(&page);
    CHECK(zq_make_element(&page, "b", 1, &node) == ZQ_BAD_HANDLE && node == ZQ_NO_NODE && zq_make_text(&page, "b", 1, &text) == ZQ_BAD_HANDLE);
}

static int takes(void *context, const uint8_t *bytes, size_t len)
{
    *(int *)context += len == 39 && memcmp(bytes, "<html>", 6) == 0;
    return 0;
}

static int refuses(void *context, const uint8_t *bytes, size_t len)
{
    (void)context, (void)bytes, (void)len;
    return -1;
}

static void test_writing(void)
{
    zq_page page = ZQ_EMPTY;
    zq_buffer buffer = ZQ_EMPTY;
    zq_span span;
    uint64_t place;
    int calls = 0;
    CHECK(zq_parse_fragment(NULL, NULL, "div", 3, "<a b='<'>", 9, &page, &place) == ZQ_OK);
    CHECK(zq_serialise(&page, 0, &buffer) == ZQ_OK && zq_bytes(&buffer, &span) == ZQ_OK && is(span, "<a b=\"<\"></a>"));
    CHECK(zq_serialise(&page, -1, &buffer) == ZQ_OK && zq_bytes(&buffer, &span) == ZQ_OK && is(span, "<a b=\"&lt;\"></a>"));
    CHECK(zq_normalise(NULL, NULL, "", 0, 0, &buffer, &place) == ZQ_OK && zq_bytes(&buffer, &span) == ZQ_OK);
    CHECK(is(span, "<html><head></head><body></body></html>"));
    CHECK(zq_normalise(NULL, NULL, "<math>", 6, 0, &buffer, &place) == ZQ_FOREIGN_MATH && place == 0 && buffer.held == NULL);
    CHECK(zq_bytes(&buffer, &span) == ZQ_BAD_HANDLE && zq_bytes(NULL, &span) == ZQ_BAD_POINTER && zq_bytes(&buffer, NULL) == ZQ_BAD_POINTER);
    CHECK(zq_normalise(NULL, NULL, NULL, 1, 0, &buffer, &place) == ZQ_BAD_POINTER && zq_normalise(NULL, NULL, "", 0, 0, NULL, &place) == ZQ_BAD_POINTER);
    CHECK(zq_serialise(&page, 0, NULL) == ZQ_BAD_POINTER && zq_serialise(NULL, 0, &buffer) == ZQ_BAD_POINTER);
    CHECK(zq_serialise(&page, 0, (zq_buffer *)&page) == ZQ_BAD_HANDLE);
    CHECK(parse("", &page, NULL) == ZQ_OK && zq_serialise_to(&page, 0, takes, &calls) == ZQ_OK && calls == 1);
    CHECK(zq_serialise_to(&page, 0, refuses, NULL) == ZQ_WRITE && zq_serialise_to(&page, 0, NULL, NULL) == ZQ_BAD_POINTER);
    CHECK(zq_serialise_to(NULL, 0, takes, &calls) == ZQ_BAD_POINTER && calls == 1);
    zq_free(&page);
    CHECK(zq_serialise(&page, 0, &buffer) == ZQ_BAD_HANDLE && zq_root(&page) == ZQ_NO_NODE && zq_root(NULL) == ZQ_NO_NODE);
    CHECK(zq_kind_of(NULL, 0) == ZQ_NO_KIND && zq_link(NULL, 0, 0) == ZQ_NO_NODE && zq_attr_count(NULL, 0) == 0 && is(zq_name(NULL, 0), ""));
    zq_free(&buffer);
}

int main(void)
{
    test_library();
    test_handles();
    test_entities();
    test_parse();
    test_fragment();
    test_parser();
    test_parser_of_a_fragment();
    test_shared_table();
    test_nodes();
    test_copy();
    test_rows();
    test_texts();
    test_errors();
    test_positions();
    test_text_below();
    test_ledger();
    test_audit();
    test_causes();
    test_attributes();
    test_removing();
    test_linking();
    test_making();
    test_writing();
    printf("api: %d passed, %d failed\n", passed, failed);
    return failed != 0;
}
