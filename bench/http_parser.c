/* http_parser 2.9: one call on the whole message. Its callbacks store the ranges of the target, of each field's name and value and of each
 * piece of content, as ours does. It knows the method by itself. */
#include <http_parser.h>

#include "bench.h"

struct part {
    uint32_t start, len;
};

static struct store {
    const char *base;
    struct part target;
    size_t names, values, chunks;
    size_t content;
    struct part name[384], value[384], chunk[256];
    bool complete;
} store;

static struct part part_of(const struct store *s, const char *at, size_t length)
{
    return (struct part){(uint32_t)(at - s->base), (uint32_t)length};
}

static int on_url(http_parser *parser, const char *at, size_t length)
{
    struct store *s = parser->data;
    s->target = part_of(s, at, length);
    return 0;
}

static int on_name(http_parser *parser, const char *at, size_t length)
{
    struct store *s = parser->data;
    if (s->names == 384)
        return 1;
    s->name[s->names++] = part_of(s, at, length);
    return 0;
}

static int on_value(http_parser *parser, const char *at, size_t length)
{
    struct store *s = parser->data;
    if (s->values == 384)
        return 1;
    s->value[s->values++] = part_of(s, at, length);
    return 0;
}

static int on_body(http_parser *parser, const char *at, size_t length)
{
    struct store *s = parser->data;
    if (s->chunks == 256)
        return 1;
    s->chunk[s->chunks++] = part_of(s, at, length);
    s->content += length;
    return 0;
}

static int on_complete(http_parser *parser)
{
    struct store *s = parser->data;
    s->complete = true;
    return 0;
}

static const http_parser_settings settings = {
    .on_url = on_url,
    .on_header_field = on_name,
    .on_header_value = on_value,
    .on_body = on_body,
    .on_message_complete = on_complete,
};

void http_parser_read_request(const struct message *message, struct found *found)
{
    http_parser parser;
    http_parser_init(&parser, HTTP_REQUEST);
    parser.data = &store;
    store.base = (const char *)message->octets;
    store.names = store.values = store.chunks = store.content = 0;
    store.complete = false;
    size_t taken = http_parser_execute(&parser, &settings, store.base, message->len);
    found->taken = store.complete && parser.http_errno == HPE_OK && store.names == store.values ? taken : 0;
    found->fields = store.names;
    found->content = store.content;
}
