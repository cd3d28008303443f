/* Turning: ours against plain C that checks nothing, copying the content and reading alone. bench/run builds and runs it.
 *
 * Another row: a line in `rows`; its Binary message, where it has one, in `make_binary_messages`.
 */
#define _GNU_SOURCE /* memmem */
#include <stdio.h>
#include <stdlib.h>
#include <string.h>

#include "bench.h"

/* ------------------------------------------------------------------------------------------------ the Binary messages */

static struct message small_binary, fields30_binary, long_binary, figure_10_binary;

/* The HTTP/1.1 message, which has no trailers, as the unchecked writer turns it; check_row holds ours to the same octets. */
static struct message turned(const struct message *from, call *turn)
{
    struct found found;
    turn(from, &found);
    uint8_t *octets = room_for_message();
    memcpy(octets, output, found.written);
    return (struct message){.octets = octets,
                            .len = found.written,
                            .head = found.written - 1 - from->content,
                            .lines = from->kept,
                            .kept = from->kept,
                            .content = from->content};
}

static void make_binary_messages(void)
{
    small_binary = turned(&small, unchecked_request_to_binary);
    fields30_binary = turned(&fields30, unchecked_request_to_binary);
    long_binary = turned(&by_length, unchecked_request_to_binary);
    figure_10_binary = turned(&figure_10, unchecked_response_to_binary);
}

/* ------------------------------------------------------------------------------------------------ the rows */

/* The content in one piece; that of the chunked message stands so in the other one. */
static const uint8_t *content_of(const struct message *message)
{
    return message->chunked ? by_length.octets + by_length.head : message->octets + message->head;
}

static void copy_content(const struct message *message, struct found *found)
{
    memcpy(output + message->put_at, content_of(message), message->content);
    __asm__ volatile("" : : "r"(output) : "memory");
    found->written = message->content;
}

enum { OURS, UNCHECKED, COPY, READING, COLUMNS };

static const struct column columns[COLUMNS] = {
    {"ours", "ospirnar_request_to_binary, _response_to_binary, _binary_to_binary, _binary_to_http1: judge the whole message, then write it"},
    {"unchecked C", "takes the message apart and writes the same octets, checks nothing: bench/unchecked.c"},
    {"memcpy", "the content alone, in one piece, to where the turning puts it"},
    {"reading", "ospirnar_read_request, _read_response or _read_binary on the same message: no octet is written"},
};

#define REQUEST_TO_BINARY {ours_request_to_binary, unchecked_request_to_binary, copy_content, ours_read_request}
#define RESPONSE_TO_BINARY {ours_response_to_binary, unchecked_response_to_binary, copy_content, ours_read_response}
#define BINARY_TO_BINARY {ours_binary_to_binary, unchecked_binary_to_binary, copy_content, ours_read_binary}
#define BINARY_TO_HTTP1 {ours_binary_to_http1, unchecked_binary_to_http1, copy_content, ours_read_binary}

static struct row rows[] = {
    {"to Binary: A of 01", &example, REQUEST_TO_BINARY, {0}, {0}},
    {"to Binary: scan post", &small, REQUEST_TO_BINARY, {[READING] = 2.0}, {0}},
    {"to Binary: post with 30 fields", &fields30, REQUEST_TO_BINARY, {0}, {0}},
    {"to Binary: 32 KB by length", &by_length, REQUEST_TO_BINARY, {[COPY] = 2.0}, {0}},
    {"to Binary: 32 KB in 64 chunks", &in_chunks, REQUEST_TO_BINARY, {[COPY] = 2.0}, {0}},
    {"to Binary: Figure 10, a response", &figure_10, RESPONSE_TO_BINARY, {0}, {0}},
    {"Binary anew: A of 01 (P5)", &example_binary, BINARY_TO_BINARY, {0}, {0}},
    {"Binary anew: Figure 13 (P6)", &figure_13, BINARY_TO_BINARY, {0}, {0}},
    {"Binary anew: scan post", &small_binary, BINARY_TO_BINARY, {0}, {0}},
    {"Binary anew: post with 30 fields", &fields30_binary, BINARY_TO_BINARY, {0}, {0}},
    {"Binary anew: 32 KB", &long_binary, BINARY_TO_BINARY, {0}, {0}},
    {"to HTTP/1.1: scan post", &small_binary, BINARY_TO_HTTP1, {[UNCHECKED] = 1.5}, {0}},
    {"to HTTP/1.1: 32 KB", &long_binary, BINARY_TO_HTTP1, {[UNCHECKED] = 1.5, [COPY] = 2.0}, {0}},
    {"to HTTP/1.1: Figure 10, a response", &figure_10_binary, BINARY_TO_HTTP1, {[UNCHECKED] = 1.5}, {0}},
};
enum { ROWS = sizeof rows / sizeof rows[0] };

/* ------------------------------------------------------------------------------------------------ checks, before any time is taken */

static void fail(const char *row, const char *what)
{
    fprintf(stderr, "bench: '%s': %s\n", row, what);
    exit(1);
}

/* What the call writes to cleared output, copied to `to`; its length. */
static size_t written_by(call *turn, const struct message *message, uint8_t *to)
{
    struct found found;
    memset(output, 0xaa, OUTPUT_ROOM);
    turn(message, &found);
    memcpy(to, output, OUTPUT_ROOM);
    return found.written;
}

static bool reads(call *read, const struct message *message)
{
    struct found found;
    read(message, &found);
    return found.taken == message->len && found.fields == message->kept && found.content == message->content;
}

/* Our reader of the form that the octets have. */
static call *reader_of(const uint8_t *octets)
{
    return octets[0] <= 3 ? ours_read_binary : memcmp(octets, "HTTP/", 5) == 0 ? ours_read_response : ours_read_request;
}

/* The message is read, both write the same, and what is written is read with the same fields and content; where the content was put. */
static size_t check_row(const struct row *row)
{
    static uint8_t ours[OUTPUT_ROOM], unchecked[OUTPUT_ROOM];
    if (!reads(row->calls[READING], row->message))
        fail(row->name, "not read as it is");
    size_t len = written_by(row->calls[OURS], row->message, ours);
    if (len == 0)
        fail(row->name, "ours refuses it");
    if (written_by(row->calls[UNCHECKED], row->message, unchecked) != len || memcmp(ours, unchecked, OUTPUT_ROOM) != 0)
        fail(row->name, "ours and unchecked C write different octets");
    struct message back = *row->message;
    back.octets = ours;
    back.len = len;
    if (!reads(reader_of(ours), &back))
        fail(row->name, "what is written is not read back");
    const uint8_t *put = memmem(ours, len, content_of(row->message), row->message->content);
    if (!put)
        fail(row->name, "the content is not written in one piece");
    return (size_t)(put - ours);
}

static void check_written(const char *name, call *turn, const struct message *message, const struct message *wanted)
{
    static uint8_t is[OUTPUT_ROOM];
    if (written_by(turn, message, is) != wanted->len || memcmp(is, wanted->octets, wanted->len) != 0)
        fail(name, "other octets than the paper has");
}

int main(int argc, char **argv)
{
    make_messages();
    make_binary_messages();
    static struct message messages[ROWS]; /* each row has its own, for it alone puts the content there */
    for (int r = 0; r < ROWS; r++) {
        messages[r] = *rows[r].message;
        messages[r].put_at = check_row(&rows[r]);
        rows[r].message = &messages[r];
    }
    check_written("P5", ours_request_to_binary, &example, &example_binary);
    check_written("P5 anew", ours_binary_to_binary, &example_binary, &example_binary);
    check_written("P6", ours_binary_to_binary, &figure_13, &figure_13);
    if (is_count(argc, argv)) {
        take_counts(columns, rows, ROWS);
        return 0;
    }
    take_times(rows, ROWS);
    print_table(columns, COLUMNS, rows, ROWS);
    return 0;
}
