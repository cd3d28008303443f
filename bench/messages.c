/* The messages. Another one: declare it in bench.h, make it here. */
#include <stdarg.h>
#include <stdio.h>
#include <stdlib.h>
#include <string.h>

#include "bench.h"

struct message small, fields30, connection30, by_length, in_chunks, example, example_binary, figure_10, figure_13;

uint8_t *room_for_message(void)
{
    uint8_t *pages = aligned_alloc(4096, 1 << 17);
    if (!pages)
        abort();
    return pages + 2048;
}

static void check_size(const char *what, size_t is, size_t wanted)
{
    if (is != wanted) {
        fprintf(stderr, "bench: %s is %zu, not %zu\n", what, is, wanted);
        exit(1);
    }
}

/* A message without octets, for `add` to fill. */
static struct message begin(size_t lines, size_t kept, size_t content)
{
    return (struct message){.octets = room_for_message(), .lines = lines, .kept = kept, .content = content};
}

static void add_octets(struct message *m, const void *octets, size_t len)
{
    memcpy((uint8_t *)m->octets + m->len, octets, len);
    m->len += len;
}

static void add(struct message *m, const char *format, ...)
{
    va_list arguments;
    va_start(arguments, format);
    m->len += (size_t)vsprintf((char *)m->octets + m->len, format, arguments);
    va_end(arguments);
}

static const char json[] = "{\"tag\":\"982000411223344\",\"reader\":17,\"at\":1700000000,\"kg\":61}";

/* The octets `first` to `first + len` of the JSON again and again. */
static void add_json(struct message *m, size_t first, size_t len)
{
    for (size_t i = first; i < first + len; i++)
        add_octets(m, &json[i % 61], 1);
}

/* 30 fields: Host, these lines, settings of the reader and the length; so many are kept. */
static struct message post_with_30(const char *lines, int settings, size_t kept)
{
    struct message m = begin(30, kept, 61);
    add(&m, "POST /scans/17 HTTP/1.1\r\nHost: gateway-4.flock.example\r\n%s", lines);
    for (int i = 1; i <= settings; i++)
        add(&m, "X-Reader-Setting-%02d: value %02d of twenty-eight, %s\r\n", i, i, i % 2 ? "as configured" : "as measured");
    add(&m, "Content-Length: 61\r\n\r\n");
    m.head = m.len;
    add_json(&m, 0, 61);
    return m;
}

static void make_posts(void)
{
    check_size("length of the JSON", strlen(json), 61);

    small = begin(5, 3, 61);
    add(&small, "POST /scans/17 HTTP/1.1\r\nHost: gateway-4.flock.example\r\nUser-Agent: tag-reader/2.3\r\n");
    add(&small, "Content-Type: application/json\r\nX-Tag-Batch: 00418-000012\r\nContent-Length: 61\r\n\r\n");
    small.head = small.len;
    add_json(&small, 0, 61);
    check_size("length of the scan post", small.len, 226);

    fields30 = post_with_30("", 28, 28);
    connection30 = post_with_30("X-Antenna: 3\r\nConnection: keep-alive, X-Antenna\r\n", 26, 26);

    by_length = begin(3, 1, 32768);
    add(&by_length, "POST /scans/17 HTTP/1.1\r\nHost: gateway-4.flock.example\r\nContent-Type: application/json\r\nContent-Length: 32768\r\n\r\n");
    by_length.head = by_length.len;
    add_json(&by_length, 0, 32768);

    in_chunks = begin(3, 1, 32768);
    in_chunks.chunked = true;
    add(&in_chunks, "POST /scans/17 HTTP/1.1\r\nHost: gateway-4.flock.example\r\nContent-Type: application/json\r\nTransfer-Encoding: chunked\r\n\r\n");
    in_chunks.head = in_chunks.len;
    for (size_t chunk = 0; chunk < 64; chunk++) {
        add(&in_chunks, "200\r\n");
        add_json(&in_chunks, chunk * 512, 512);
        add(&in_chunks, "\r\n");
    }
    add(&in_chunks, "0\r\n\r\n");
}

static void make_examples(void)
{
    example = begin(2, 0, 3);
    add(&example, "POST /s HTTP/1.1\r\nHost: a\r\nContent-Length: 3\r\n\r\n");
    example.head = example.len;
    add(&example, "abc");
    check_size("length of A", example.len, 51);

    static const char p5[] = "\0\4POST\4http\1a\2/s\0\3abc"; /* the string's end is the empty trailer section */
    example_binary = begin(0, 0, 3);
    example_binary.head = 18;
    add_octets(&example_binary, p5, sizeof p5);
    check_size("length of P5's Binary", example_binary.len, 22);

    figure_10 = begin(8, 7, 51);
    add(&figure_10, "HTTP/1.1 102 Processing\r\nRunning: \"sleep 15\"\r\n\r\n");
    add(&figure_10, "HTTP/1.1 103 Early Hints\r\nLink: </style.css>; rel=preload; as=style\r\nLink: </script.js>; rel=preload; as=script\r\n\r\n");
    add(&figure_10, "HTTP/1.1 200 OK\r\nDate: Mon, 27 Jul 2009 12:28:53 GMT\r\nServer: Apache\r\nLast-Modified: Wed, 22 Jul 2009 19:15:56 GMT\r\n");
    add(&figure_10, "ETag: \"34aa387-d-1568eb00\"\r\nAccept-Ranges: bytes\r\nContent-Length: 51\r\nVary: Accept-Encoding\r\nContent-Type: text/plain\r\n\r\n");
    figure_10.head = figure_10.len;
    add(&figure_10, "Hello World! My content includes a trailing CRLF.\r\n");
    check_size("content of Figure 10", figure_10.len - figure_10.head, 51);

    static const char trailed[] = "\1\x40\xc8\0\x1d"
                                  "This content contains CRLF.\r\n"
                                  "\x0d\7trailer\4text";
    figure_13 = begin(0, 0, 29);
    figure_13.head = 5;
    add_octets(&figure_13, trailed, sizeof trailed - 1);
    check_size("length of Figure 13", figure_13.len, 48);
}

void make_messages(void)
{
    make_posts();
    make_examples();
}
