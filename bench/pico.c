/* picohttpparser, as it stands in Debian's libh2o: the head parser; for chunks its decoder, which writes in place and so works on a copy of the body.
 * It is told whether there are chunks: it looks for no Host, no length and no coding among the fields. */
#include <string.h>
#include <sys/types.h>

#include "bench.h"

/* The Debian package has no picohttpparser.h: its declarations, from the library's documentation. */
struct phr_header {
    const char *name;
    size_t name_len;
    const char *value;
    size_t value_len;
};

struct phr_chunked_decoder {
    size_t bytes_left_in_chunk;
    char consume_trailer;
    char _hex_count;
    char _state;
};

int phr_parse_request(const char *buf, size_t len, const char **method, size_t *method_len, const char **path, size_t *path_len,
                      int *minor_version, struct phr_header *headers, size_t *num_headers, size_t last_len);
ssize_t phr_decode_chunked(struct phr_chunked_decoder *decoder, char *buf, size_t *bufsz);

static struct phr_header headers[64];
static char copy[1 << 17] AT_PAGE;

void pico_read_head(const struct message *message, struct found *found)
{
    const char *method, *path;
    size_t method_len, path_len, count = 64;
    int minor_version;
    int head = phr_parse_request((const char *)message->octets, message->len, &method, &method_len, &path, &path_len, &minor_version, headers,
                                 &count, 0);
    found->taken = head > 0 ? (size_t)head : 0;
    found->fields = count;
    found->content = 0;
}

void pico_read_chunked(const struct message *message, struct found *found)
{
    pico_read_head(message, found);
    size_t size = message->len - found->taken;
    memcpy(copy, message->octets + found->taken, size);
    struct phr_chunked_decoder decoder = {.consume_trailer = 1};
    ssize_t left = phr_decode_chunked(&decoder, copy, &size);
    found->taken = left >= 0 ? message->len - (size_t)left : 0;
    found->content = size;
}

/* What the copy alone costs. */
void copy_body(const struct message *message, struct found *found)
{
    memcpy(copy, message->octets + message->head, message->len - message->head);
    __asm__ volatile("" : : "r"(copy) : "memory");
    found->taken = message->len;
    found->fields = 0;
    found->content = 0;
}
