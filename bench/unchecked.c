/* Turning in plain C without a check of any kind: what it is given must be a message that document 01 accepts, Binary of known length with all three
 * sections and no padding. A message is taken apart into pointers and lengths, then written as "How we write" of document 01 says. */
#define _GNU_SOURCE /* rawmemchr */
#include <string.h>

#include "bench.h"

struct part {
    const uint8_t *at;
    size_t len;
};

struct section {
    size_t count;
    struct {
        struct part name, value;
    } fields[64];
};

struct parts {
    bool request;
    struct part method, scheme, authority, path; /* of a request */
    size_t informational_count;                  /* of a response */
    unsigned informational_status[4], status;
    struct section informational[4], header, trailer;
    size_t content; /* its octets; while an HTTP/1.1 head is read, those that its length line says */
    bool chunked;   /* an HTTP/1.1 head says so */
    size_t chunk_count;
    struct part chunks[256];
    uint8_t *names_end; /* names of HTTP/1.1 in lower case */
    uint8_t names[1 << 14];
};

static void begin(struct parts *parts, bool request)
{
    parts->request = request;
    parts->authority.len = parts->informational_count = parts->header.count = parts->trailer.count = parts->content = parts->chunk_count = 0;
    parts->chunked = false;
    parts->names_end = parts->names;
}

/* ------------------------------------------------------------------------------------------------ fields */

enum kind { TRAVELS, DROPPED, HOST, LENGTH, CODING };

static enum kind kind_of(struct part name)
{
#define IS(text) (memcmp(name.at, text, sizeof text - 1) == 0)
    switch (name.len) {
    case 2:
        return IS("te") ? DROPPED : TRAVELS;
    case 4:
        return IS("host") ? HOST : TRAVELS;
    case 7:
        return IS("upgrade") ? DROPPED : TRAVELS;
    case 10:
        return IS("connection") || IS("keep-alive") ? DROPPED : TRAVELS;
    case 14:
        return IS("content-length") ? LENGTH : TRAVELS;
    case 16:
        return IS("proxy-connection") ? DROPPED : TRAVELS;
    case 17:
        return IS("transfer-encoding") ? CODING : TRAVELS;
    default:
        return TRAVELS;
    }
#undef IS
}

static size_t decimal(struct part digits)
{
    size_t value = 0;
    for (size_t i = 0; i < digits.len; i++)
        value = value * 10 + (digits.at[i] - '0');
    return value;
}

static void take_field(struct parts *parts, struct section *section, struct part name, struct part value)
{
    enum kind kind = kind_of(name);
    if (kind == TRAVELS || (kind == HOST && !parts->request)) {
        section->fields[section->count].name = name;
        section->fields[section->count].value = value;
        section->count++;
    } else if (kind == HOST) {
        parts->authority = value;
    } else if (kind == LENGTH) {
        parts->content = decimal(value);
    } else if (kind == CODING) {
        parts->chunked = true;
    }
}

/* ------------------------------------------------------------------------------------------------ taking HTTP/1.1 apart */

/* The first place behind the octet. */
static const uint8_t *behind(const uint8_t *at, uint8_t octet)
{
    return (const uint8_t *)rawmemchr(at, octet) + 1;
}

static bool is_blank(uint8_t octet)
{
    return octet == ' ' || octet == '\t';
}

/* Field lines and the empty line behind them. */
static const uint8_t *take_lines(struct parts *parts, struct section *section, const uint8_t *at)
{
    section->count = 0;
    while (*at != '\r') {
        struct part name = {parts->names_end, 0};
        for (; *at != ':'; at++)
            *parts->names_end++ = *at + ((uint8_t)(*at - 'A') < 26 ? 'a' - 'A' : 0);
        name.len = (size_t)(parts->names_end - name.at);
        for (at++; is_blank(*at); at++)
            ;
        const uint8_t *next = behind(at, '\n'), *end = next - 2;
        while (end > at && is_blank(end[-1]))
            end--;
        take_field(parts, section, name, (struct part){at, (size_t)(end - at)});
        at = next;
    }
    return at + 2;
}

static const uint8_t *hexadecimal(const uint8_t *at, size_t *value)
{
    for (*value = 0;; at++) {
        uint8_t lower = *at | 0x20;
        if (*at >= '0' && *at <= '9')
            *value = *value * 16 + (*at - '0');
        else if (lower >= 'a' && lower <= 'f')
            *value = *value * 16 + (lower - 'a' + 10);
        else
            return at;
    }
}

static void take_content(struct parts *parts, const uint8_t *at)
{
    if (!parts->chunked) {
        parts->chunks[0] = (struct part){at, parts->content};
        parts->chunk_count = 1;
        return;
    }
    for (;;) {
        size_t size;
        at = hexadecimal(at, &size);
        at = behind(at, '\n');
        if (size == 0)
            break;
        parts->chunks[parts->chunk_count++] = (struct part){at, size};
        parts->content += size;
        at += size + 2;
    }
    take_lines(parts, &parts->trailer, at);
}

static void take_http1_request(struct parts *parts, const uint8_t *at)
{
    begin(parts, true);
    const uint8_t *target = behind(at, ' '), *version = behind(target, ' ');
    parts->method = (struct part){at, (size_t)(target - 1 - at)};
    parts->path = (struct part){target, (size_t)(version - 1 - target)};
    parts->scheme = (struct part){(const uint8_t *)"http", 4};
    take_content(parts, take_lines(parts, &parts->header, version + strlen("HTTP/1.1\r\n")));
}

static void take_http1_response(struct parts *parts, const uint8_t *at)
{
    begin(parts, false);
    for (;;) {
        unsigned status = (unsigned)decimal((struct part){at + strlen("HTTP/1.1 "), 3});
        at = behind(at, '\n');
        if (status >= 200) {
            parts->status = status;
            break;
        }
        parts->informational_status[parts->informational_count] = status;
        at = take_lines(parts, &parts->informational[parts->informational_count++], at);
    }
    take_content(parts, take_lines(parts, &parts->header, at));
}

/* ------------------------------------------------------------------------------------------------ taking Binary apart */

static const uint8_t *take_integer(const uint8_t *at, size_t *value)
{
    size_t more = ((size_t)1 << (*at >> 6)) - 1;
    for (*value = *at++ & 0x3f; more > 0; more--)
        *value = *value << 8 | *at++;
    return at;
}

static const uint8_t *take_part(const uint8_t *at, struct part *part)
{
    part->at = take_integer(at, &part->len);
    return part->at + part->len;
}

static const uint8_t *take_section(struct parts *parts, struct section *section, const uint8_t *at)
{
    struct part body, name, value;
    const uint8_t *end = take_part(at, &body);
    section->count = 0;
    for (at = body.at; at < end;) {
        at = take_part(take_part(at, &name), &value);
        take_field(parts, section, name, value);
    }
    return end;
}

static void take_binary(struct parts *parts, const uint8_t *at)
{
    begin(parts, *at++ == 0);
    if (parts->request) {
        struct part authority;
        at = take_part(take_part(take_part(take_part(at, &parts->method), &parts->scheme), &authority), &parts->path);
        at = take_section(parts, &parts->header, at);
        if (authority.len > 0)
            parts->authority = authority;
    } else {
        size_t status;
        for (at = take_integer(at, &status); status < 200; at = take_integer(at, &status)) {
            parts->informational_status[parts->informational_count] = (unsigned)status;
            at = take_section(parts, &parts->informational[parts->informational_count++], at);
        }
        parts->status = (unsigned)status;
        at = take_section(parts, &parts->header, at);
    }
    at = take_part(at, &parts->chunks[0]);
    parts->chunk_count = 1;
    parts->content = parts->chunks[0].len;
    take_section(parts, &parts->trailer, at);
}

/* ------------------------------------------------------------------------------------------------ writing */

static uint8_t *put(uint8_t *to, const void *from, size_t len)
{
    memcpy(to, from, len);
    return to + len;
}

static uint8_t *put_content(uint8_t *to, const struct parts *parts)
{
    for (size_t i = 0; i < parts->chunk_count; i++)
        to = put(to, parts->chunks[i].at, parts->chunks[i].len);
    return to;
}

/* ------------------------------------------------------------------------------------------------ writing Binary */

static size_t integer_size(size_t value)
{
    return value < 1 << 6 ? 1 : value < 1 << 14 ? 2 : 4;
}

static uint8_t *put_integer(uint8_t *to, size_t value)
{
    if (value < 1 << 6) {
        *to++ = (uint8_t)value;
    } else if (value < 1 << 14) {
        *to++ = (uint8_t)(0x40 | value >> 8);
        *to++ = (uint8_t)value;
    } else {
        *to++ = (uint8_t)(0x80 | value >> 24);
        *to++ = (uint8_t)(value >> 16);
        *to++ = (uint8_t)(value >> 8);
        *to++ = (uint8_t)value;
    }
    return to;
}

static uint8_t *put_part(uint8_t *to, struct part part)
{
    return put(put_integer(to, part.len), part.at, part.len);
}

static size_t part_size(struct part part)
{
    return integer_size(part.len) + part.len;
}

static uint8_t *put_section(uint8_t *to, const struct section *section)
{
    size_t size = 0;
    for (size_t i = 0; i < section->count; i++)
        size += part_size(section->fields[i].name) + part_size(section->fields[i].value);
    to = put_integer(to, size);
    for (size_t i = 0; i < section->count; i++)
        to = put_part(put_part(to, section->fields[i].name), section->fields[i].value);
    return to;
}

static size_t write_binary(const struct parts *parts, uint8_t *out)
{
    uint8_t *to = out;
    if (parts->request) {
        to = put_integer(to, 0);
        to = put_part(to, parts->method);
        to = put_part(to, parts->scheme);
        to = put_part(to, parts->authority);
        to = put_part(to, parts->path);
    } else {
        to = put_integer(to, 1);
        for (size_t i = 0; i < parts->informational_count; i++)
            to = put_section(put_integer(to, parts->informational_status[i]), &parts->informational[i]);
        to = put_integer(to, parts->status);
    }
    to = put_section(to, &parts->header);
    to = put_content(put_integer(to, parts->content), parts);
    to = put_section(to, &parts->trailer);
    return (size_t)(to - out);
}

/* ------------------------------------------------------------------------------------------------ writing HTTP/1.1 */

#define PUT(to, text) put(to, text, sizeof text - 1)

/* Lower case, no leading zeros. */
static uint8_t *put_number(uint8_t *to, size_t value, unsigned base)
{
    uint8_t digits[20], *first = digits + sizeof digits;
    do
        *--first = (uint8_t) "0123456789abcdef"[value % base];
    while ((value /= base) > 0);
    return put(to, first, (size_t)(digits + sizeof digits - first));
}

/* Field lines and the empty line behind them. */
static uint8_t *put_lines(uint8_t *to, const struct section *section)
{
    for (size_t i = 0; i < section->count; i++) {
        to = put(to, section->fields[i].name.at, section->fields[i].name.len);
        to = PUT(to, ": ");
        to = put(to, section->fields[i].value.at, section->fields[i].value.len);
        to = PUT(to, "\r\n");
    }
    return PUT(to, "\r\n");
}

static uint8_t *put_status_line(uint8_t *to, unsigned status)
{
    return PUT(put_number(PUT(to, "HTTP/1.1 "), status, 10), " \r\n");
}

static uint8_t *put_length_line(uint8_t *to, const struct parts *parts)
{
    if (parts->trailer.count > 0)
        return PUT(to, "transfer-encoding: chunked\r\n");
    if (parts->request ? parts->content == 0 : parts->status == 204 || parts->status == 304)
        return to;
    return PUT(put_number(PUT(to, "content-length: "), parts->content, 10), "\r\n");
}

static size_t write_http1(const struct parts *parts, uint8_t *out)
{
    uint8_t *to = out;
    if (parts->request) {
        to = put(to, parts->method.at, parts->method.len);
        to = PUT(to, " ");
        to = put(to, parts->path.at, parts->path.len);
        to = PUT(to, " HTTP/1.1\r\nhost: ");
        to = put(to, parts->authority.at, parts->authority.len);
        to = PUT(to, "\r\n");
    } else {
        for (size_t i = 0; i < parts->informational_count; i++)
            to = put_lines(put_status_line(to, parts->informational_status[i]), &parts->informational[i]);
        to = put_status_line(to, parts->status);
    }
    to = put_lines(put_length_line(to, parts), &parts->header);
    if (parts->trailer.count == 0) {
        to = put_content(to, parts);
    } else {
        if (parts->content > 0)
            to = PUT(put_content(PUT(put_number(to, parts->content, 16), "\r\n"), parts), "\r\n");
        to = put_lines(PUT(to, "0\r\n"), &parts->trailer);
    }
    return (size_t)(to - out);
}

/* ------------------------------------------------------------------------------------------------ the calls */

void unchecked_request_to_binary(const struct message *message, struct found *found)
{
    struct parts parts;
    take_http1_request(&parts, message->octets);
    found->written = write_binary(&parts, output);
}

void unchecked_response_to_binary(const struct message *message, struct found *found)
{
    struct parts parts;
    take_http1_response(&parts, message->octets);
    found->written = write_binary(&parts, output);
}

void unchecked_binary_to_binary(const struct message *message, struct found *found)
{
    struct parts parts;
    take_binary(&parts, message->octets);
    found->written = write_binary(&parts, output);
}

void unchecked_binary_to_http1(const struct message *message, struct found *found)
{
    struct parts parts;
    take_binary(&parts, message->octets);
    found->written = write_http1(&parts, output);
}
