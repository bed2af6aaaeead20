/* A tool of the tests: zqtree [-e ENTITIES] [-f CONTEXT] [-p PIECE] tree|normalise|counts|errors|audit FILE. With -p pieces of that length are parsed as they are
 * read, and of the file no more is kept. */
#include "zilqumet.h"

#include <stdio.h>
#include <stdlib.h>
#include <string.h>

static int read_all(const char *name, uint8_t **bytes, size_t *len) {
    FILE *file = strcmp(name, "-") == 0 ? stdin : fopen(name, "rb");
    size_t room = 1 << 16;
    *len = 0;
    *bytes = malloc(room);
    if (file == NULL || *bytes == NULL)
        return -1;
    for (;;) {
        size_t got = fread(*bytes + *len, 1, room - *len, file);
        if (got == 0)
            break;
        *len += got;
        if (*len == room) {
            uint8_t *more = realloc(*bytes, room *= 2);
            if (more == NULL)
                return -1;
            *bytes = more;
        }
    }
    int failed = ferror(file);
    if (file != stdin)
        fclose(file);
    return failed ? -1 : 0;
}

/* Parses a file, or a fragment, as it is read. */
static uint32_t parse_pieces(const char *name, size_t room, const char *context, zq_entities *entities, const zq_options *options, zq_page *page,
                             uint64_t *at) {
    FILE *file = strcmp(name, "-") == 0 ? stdin : fopen(name, "rb");
    uint8_t *piece = malloc(room);
    zq_parser parser = ZQ_EMPTY;
    uint32_t status = file == NULL || piece == NULL ? ZQ_READ : ZQ_OK;
    if (status == ZQ_OK)
        status = context != NULL ? zq_parser_new_fragment(entities, options, context, strlen(context), &parser) : zq_parser_new(entities, options, &parser);
    for (size_t got = 1; status == ZQ_OK && got > 0;) {
        got = fread(piece, 1, room, file);
        status = ferror(file) ? ZQ_READ : zq_parser_feed(&parser, piece, got, at);
    }
    if (status == ZQ_OK)
        status = zq_parser_finish(&parser, page, at);
    if (file != NULL && file != stdin)
        fclose(file);
    free(piece);
    zq_free(&parser);
    return status;
}

static void put(zq_span s) { fwrite(s.at, 1, s.len, stdout); }

static void indent(size_t depth) {
    fputs("| ", stdout);
    for (size_t i = 0; i < depth; i++)
        fputs("  ", stdout);
}

typedef struct attr { zq_span name, value; } attr;

/* The next code unit of UTF-16 in a text of UTF-8 that is well formed. */
static uint32_t unit(const uint8_t **at, uint32_t *low) {
    if (*low) {
        uint32_t u = *low;
        *low = 0;
        return u;
    }
    const uint8_t *p = *at;
    uint32_t c = *p < 0x80 ? *p : *p < 0xE0 ? *p & 31 : *p < 0xF0 ? *p & 15 : *p & 7;
    int n = *p < 0x80 ? 1 : *p < 0xE0 ? 2 : *p < 0xF0 ? 3 : 4;
    for (int i = 1; i < n; i++)
        c = c << 6 | (p[i] & 63);
    *at = p + n;
    if (c < 0x10000)
        return c;
    *low = 0xDC00 + ((c - 0x10000) & 0x3FF);
    return 0xD800 + ((c - 0x10000) >> 10);
}

static int by_name(const void *x, const void *y) {
    zq_span a = ((const attr *)x)->name, b = ((const attr *)y)->name;
    const uint8_t *p = a.at, *q = b.at, *pe = a.at + a.len, *qe = b.at + b.len;
    uint32_t pl = 0, ql = 0;
    for (;;) {
        int pm = p < pe || pl, qm = q < qe || ql;
        if (!pm || !qm)
            return pm - qm;
        uint32_t u = unit(&p, &pl), v = unit(&q, &ql);
        if (u != v)
            return u < v ? -1 : 1;
    }
}

static int print_node(zq_page *page, uint64_t node, size_t depth) {
    indent(depth);
    switch (zq_kind_of(page, node)) {
    case ZQ_ELEMENT: {
        uint64_t n = zq_attr_count(page, node);
        attr *attrs = n ? malloc(n * sizeof *attrs) : NULL;
        if (n && attrs == NULL)
            return -1;
        putchar('<'), put(zq_name(page, node)), puts(">");
        for (uint64_t i = 0; i < n; i++)
            attrs[i].name = zq_attr_name(page, node, i), attrs[i].value = zq_attr_value(page, node, i);
        if (n)
            qsort(attrs, n, sizeof *attrs, by_name);
        for (uint64_t i = 0; i < n; i++) {
            indent(depth + 1);
            put(attrs[i].name), fputs("=\"", stdout), put(attrs[i].value), puts("\"");
        }
        free(attrs);
        if (zq_template_contents(page, node) != ZQ_NO_NODE) {
            indent(depth + 1);
            puts("content");
        }
        break;
    }
    case ZQ_TEXT: putchar('"'), put(zq_data(page, node)), puts("\""); break;
    case ZQ_COMMENT: fputs("<!-- ", stdout), put(zq_data(page, node)), puts(" -->"); break;
    case ZQ_DOCTYPE: {
        zq_span name = { NULL, 0 }, public = { NULL, 0 }, system = { NULL, 0 };
        zq_text(page, ZQ_DOCTYPE_NAME, node, 0, &name), zq_text(page, ZQ_PUBLIC_ID, node, 0, &public);
        zq_text(page, ZQ_SYSTEM_ID, node, 0, &system);
        fputs("<!DOCTYPE ", stdout), put(name);
        if (public.len || system.len)
            fputs(" \"", stdout), put(public), fputs("\" \"", stdout), put(system), putchar('"');
        puts(">");
        break;
    }
    }
    return 0;
}

/* By the links alone: no recursion, whatever the depth. */
static int print_tree(zq_page *page) {
    uint64_t root = zq_root(page), node = zq_first_child(page, root);
    size_t depth = 0;
    while (node != ZQ_NO_NODE && node != root) {
        if (print_node(page, node, depth) != 0)
            return -1;
        uint64_t contents = zq_template_contents(page, node);
        uint64_t child = zq_first_child(page, contents != ZQ_NO_NODE ? contents : node);
        if (child != ZQ_NO_NODE) {
            depth += contents != ZQ_NO_NODE ? 2 : 1;
            node = child;
            continue;
        }
        while (node != root) {
            uint64_t next = zq_next(page, node);
            if (next != ZQ_NO_NODE) {
                node = next;
                break;
            }
            node = zq_parent(page, node);
            uint64_t host = zq_link(page, ZQ_HOST, node);
            if (node == root)
                break;
            depth -= host != ZQ_NO_NODE ? 2 : 1;
            if (host != ZQ_NO_NODE)
                node = host;
        }
    }
    return 0;
}

/* The tokens, a line each, as html_cmd's audit has them. */
static void print_tokens(zq_ledger *ledger) {
    static const char *const kinds[] = { "", "start ", "end ", "char U+", "comment", "doctype", "eof" };
    static const char *const fates[] = { "", " made ", " text ", " merged", " dropped ", " ended" };
    static const char *const causes[] = { "", "PrologSpace", "Null", "LeadingNewline", "InSelect", "InFrameset", "Misplaced", "InColumnGroup" };
    zq_token tokens[64];
    uint64_t from = 0;
    for (size_t got = 1; got > 0; from += got) {
        got = zq_tokens(ledger, from, tokens, 64);
        for (size_t i = 0; i < got; i++) {
            const zq_token *t = &tokens[i];
            printf("%llu %llu %s", (unsigned long long)t->start, (unsigned long long)t->end, kinds[t->kind]), put(t->name);
            if (t->kind == ZQ_CHARACTER)
                printf("%04lX", (unsigned long)t->code_point);
            fputs(fates[t->fate], stdout), fputs(causes[t->cause], stdout);
            if (t->node != ZQ_NO_NODE)
                printf("%llu", (unsigned long long)t->node);
            putchar('\n');
        }
    }
}

static int to_stdout(void *context, const uint8_t *bytes, size_t len) {
    (void)context;
    return fwrite(bytes, 1, len, stdout) == len ? 0 : -1;
}

static int refused(uint32_t status, uint64_t at) {
    int is_placed = status == ZQ_FOREIGN_SVG || status == ZQ_FOREIGN_MATH || (status >= ZQ_NODE_BUDGET && status <= ZQ_STEP_BUDGET);
    fprintf(stderr, "refused: %s", zq_strerror(status));
    fprintf(stderr, is_placed ? " at %llu\n" : "\n", (unsigned long long)at);
    return 1;
}

int main(int argc, char **argv) {
    zq_page page = ZQ_EMPTY;
    zq_entities entities = ZQ_EMPTY;
    zq_buffer buffer = ZQ_EMPTY;
    zq_ledger ledger = ZQ_EMPTY;
    zq_options options = ZQ_DEFAULTS;
    const char *context = NULL;
    size_t piece = 0, len = 0;
    uint8_t *bytes = NULL;
    uint64_t at = 0;
    uint32_t status;
    int i = 1, answer = 0;
    for (; i + 1 < argc && argv[i][0] == '-' && argv[i][1]; i += 2) {
        if (argv[i][1] == 'e') {
            if (read_all(argv[i + 1], &bytes, &len) != 0)
                return 3;
            status = zq_entities_read(bytes, len, &entities);
            free(bytes);
            if (status != ZQ_OK)
                return refused(status, 0);
        } else if (argv[i][1] == 'f') {
            context = argv[i + 1];
        } else if (argv[i][1] == 'p') {
            piece = strtoull(argv[i + 1], NULL, 10);
        } else {
            return 2;
        }
    }
    if (i + 2 != argc)
        return 2;
    bytes = NULL;
    if (piece == 0 && read_all(argv[i + 1], &bytes, &len) != 0)
        return 3;
    if (piece != 0)
        status = parse_pieces(argv[i + 1], piece, context, &entities, &options, &page, &at);
    else if (strcmp(argv[i], "audit") == 0)
        status = context != NULL ? zq_audit_fragment(&entities, &options, context, strlen(context), bytes, len, &page, &ledger, &at)
                                 : zq_audit(&entities, &options, bytes, len, &page, &ledger, &at);
    else if (context != NULL)
        status = zq_parse_fragment(&entities, &options, context, strlen(context), bytes, len, &page, &at);
    else
        status = zq_parse(&entities, &options, bytes, len, &page, &at);
    if (status == ZQ_READ) {
        answer = 3;
    } else if (status != ZQ_OK) {
        answer = refused(status, at);
    } else if (strcmp(argv[i], "tree") == 0) {
        answer = print_tree(&page) == 0 ? 0 : 3;
    } else if (strcmp(argv[i], "audit") == 0) {
        print_tokens(&ledger);
    } else if (strcmp(argv[i], "normalise") == 0) {
        status = zq_serialise_to(&page, 0, to_stdout, NULL);
        answer = status == ZQ_OK ? 0 : refused(status, 0);
    } else if (strcmp(argv[i], "counts") == 0) {
        zq_counts c;
        zq_counts_of(&page, &c);
        printf("n %llu\ntokens %llu\nnodes %llu\nheld %llu\nsteps %llu\n", (unsigned long long)c.code_points, (unsigned long long)c.tokens,
               (unsigned long long)c.nodes, (unsigned long long)c.held, (unsigned long long)c.steps);
    } else if (strcmp(argv[i], "errors") == 0) {
        uint64_t place;
        zq_span name;
        for (uint64_t k = 0; zq_error(&page, k, &buffer, &place) == ZQ_OK; k++)
            if (zq_bytes(&buffer, &name) == ZQ_OK)
                printf("%llu ", (unsigned long long)place), put(name), putchar('\n');
    } else {
        answer = 2;
    }
    free(bytes);
    zq_free(&buffer);
    zq_free(&ledger);
    zq_free(&page);
    zq_free(&entities);
    return fflush(stdout) == 0 ? answer : 3;
}
