/* Prints the elements and texts of a page on standard input, each below its parent. It goes by the links, so that no depth is too much for it. */
#include <stdio.h>
#include <zilqumet.h>

static void print(zq_page *page, uint64_t node, int depth)
{
    uint32_t kind = zq_kind_of(page, node);
    zq_span told = kind == ZQ_ELEMENT ? zq_name(page, node) : zq_data(page, node);
    if (kind == ZQ_ELEMENT || kind == ZQ_TEXT)
        printf(kind == ZQ_ELEMENT ? "%*s<%.*s>\n" : "%*s\"%.*s\"\n", 2 * depth, "", (int)told.len, (const char *)told.at);
}

int main(void)
{
    static char bytes[1 << 20];
    size_t len = fread(bytes, 1, sizeof bytes, stdin);
    zq_options options = ZQ_DEFAULTS;
    zq_page page = ZQ_EMPTY;
    uint64_t node, place;
    uint32_t status;
    int depth = 0;
    options.max_nodes = 100000;
    if ((status = zq_parse(NULL, &options, bytes, len, &page, &place)) != ZQ_OK) {
        fprintf(stderr, "tree: %s at %llu\n", zq_strerror(status), (unsigned long long)place);
        return 1;
    }
    for (node = zq_first_child(&page, zq_root(&page)); node != ZQ_NO_NODE;) {
        print(&page, node, depth);
        if (zq_first_child(&page, node) != ZQ_NO_NODE) {
            node = zq_first_child(&page, node), depth++;
            continue;
        }
        while (node != ZQ_NO_NODE && zq_next(&page, node) == ZQ_NO_NODE)
            node = zq_parent(&page, node), depth--;
        node = zq_next(&page, node);
    }
    zq_free(&page);
    return 0;
}
