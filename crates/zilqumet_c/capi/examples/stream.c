/* Parses a page from a socket as it comes (here one end of a pair, whose other end a child writes to), and prints it normalised. */
#include <stdio.h>
#include <sys/socket.h>
#include <unistd.h>
#include <zilqumet.h>

static int to_stdout(void *context, const uint8_t *bytes, size_t len)
{
    (void)context;
    return fwrite(bytes, 1, len, stdout) == len ? 0 : -1;
}

int main(void)
{
    int ends[2];
    char piece[7];
    ssize_t got;
    zq_options options = ZQ_DEFAULTS;
    zq_parser parser = ZQ_EMPTY;
    zq_page page = ZQ_EMPTY;
    uint32_t status;
    options.max_input = 1 << 20;
    if (socketpair(AF_UNIX, SOCK_STREAM, 0, ends) != 0)
        return 1;
    if (fork() == 0)
        return dprintf(ends[1], "<p>One<p>Tw%s", "o") < 0;
    close(ends[1]);
    status = zq_parser_new(NULL, &options, &parser);
    while (status == ZQ_OK && (got = read(ends[0], piece, sizeof piece)) > 0)
        status = zq_parser_feed(&parser, piece, (size_t)got, NULL);
    if (status == ZQ_OK)
        status = zq_parser_finish(&parser, &page, NULL);
    if (status == ZQ_OK)
        status = zq_serialise_to(&page, 0, to_stdout, NULL);
    if (status != ZQ_OK)
        fprintf(stderr, "stream: %s\n", zq_strerror(status));
    zq_free(&parser), zq_free(&page);
    return status != ZQ_OK;
}
