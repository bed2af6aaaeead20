/* Writes of the page on standard input its text and a few elements, without attributes. What stands in a script, a style or their like goes. */
#include <stdio.h>
#include <string.h>
#include <zilqumet.h>

static int is_in(const char *names, zq_span name)
{
    char word[24];
    snprintf(word, sizeof word, " %.*s ", name.len < 20 ? (int)name.len : 0, (const char *)name.at);
    return name.len < 20 && strstr(names, word) != NULL;
}

static void write(zq_page *page, uint64_t node, int depth)
{
    zq_span name = zq_name(page, node), text = zq_kind_of(page, node) == ZQ_TEXT ? zq_data(page, node) : name;
    int is_kept = is_in(" p b i em strong ul ol li blockquote code pre ", name);
    uint64_t child = zq_first_child(page, node);
    size_t i;
    if (is_in(" script style template noscript iframe noembed noframes textarea title select xmp plaintext ", name) || depth > 500)
        return;
    if (is_kept)
        printf("<%.*s>", (int)name.len, (const char *)name.at);
    for (i = 0; i < text.len && zq_kind_of(page, node) == ZQ_TEXT; i++)
        printf(text.at[i] == '<' ? "&lt;" : text.at[i] == '>' ? "&gt;" : text.at[i] == '&' ? "&amp;" : "%c", text.at[i]);
    for (; child != ZQ_NO_NODE; child = zq_next(page, child))
        write(page, child, depth + 1);
    if (is_kept)
        printf("</%.*s>", (int)name.len, (const char *)name.at);
}

int main(void)
{
    static char bytes[1 << 20];
    zq_page page = ZQ_EMPTY;
    uint32_t status = zq_parse(NULL, NULL, bytes, fread(bytes, 1, sizeof bytes, stdin), &page, NULL);
    status == ZQ_OK ? write(&page, zq_root(&page), 0) : (void)fprintf(stderr, "sanitise: %s\n", zq_strerror(status));
    zq_free(&page);
    return status != ZQ_OK;
}
