/* What both programs share: the messages, the calls that are timed on them, the rows of a table, the clock and the table. */
#ifndef BENCH_H
#define BENCH_H

#include <stdbool.h>
#include <stddef.h>
#include <stdint.h>

/* ------------------------------------------------------------------------------------------------ messages.c */

struct message {
    const uint8_t *octets;
    size_t len;
    size_t head;    /* octets in front of the content; in HTTP/1.1 the head or heads, empty lines included */
    size_t lines;   /* field lines of the (final) head */
    size_t kept;    /* those of them that are kept (ours names only these) */
    size_t content; /* octets of content */
    bool chunked;
    size_t put_at; /* where a turning puts the content in its output; set by turn.c */
};

extern struct message small, fields30, connection30, by_length, in_chunks; /* HTTP/1.1 requests */
extern struct message example, example_binary;               /* input A of document 01, and the Binary that P5 gives for it */
extern struct message figure_10, figure_13;                  /* of document 001: an HTTP/1.1 response with two informational heads; Binary */

/* Some processors copy twenty times slower where source and destination stand at nearly the same place in their pages: all that is written begins at
 * a page's start, every message in the middle of one. */
#define AT_PAGE __attribute__((aligned(4096)))
uint8_t *room_for_message(void);

void make_messages(void);

/* ------------------------------------------------------------------------------------------------ the calls */

/* What a call found or wrote; each program holds it to what is known of the message before it takes any time. */
struct found {
    size_t taken;   /* octets taken by a reader */
    size_t fields;  /* fields stored by a reader */
    size_t content; /* octets of content found by a reader */
    size_t written; /* octets written by a turning */
};

typedef void call(const struct message *message, struct found *found);

/* All turnings write here. */
enum { OUTPUT_ROOM = 1 << 16 };
extern uint8_t output[OUTPUT_ROOM];

/* ours.c */
call ours_read_request, ours_read_response, ours_read_binary;
call ours_request_to_binary, ours_response_to_binary, ours_binary_to_binary, ours_binary_to_http1;

/* http_parser.c, pico.c */
call http_parser_read_request, pico_read_head, pico_read_chunked, copy_body;

/* unchecked.c */
call unchecked_request_to_binary, unchecked_response_to_binary, unchecked_binary_to_binary, unchecked_binary_to_http1;

/* ------------------------------------------------------------------------------------------------ clock.c, count.c, table.c */

enum { COLUMNS_MOST = 5, ROUNDS = 41 };

struct column {
    const char *name, *what;
};

struct row {
    const char *name;
    const struct message *message;
    call *calls[COLUMNS_MOST];  /* one for each column; 0 for one that cannot do it */
    double goals[COLUMNS_MOST]; /* most that the first column may take of this one's time; 0 for none */
    double ns[COLUMNS_MOST];    /* set by take_times */
};

/* Times every call of the rows. */
void take_times(struct row *rows, size_t row_count);

/* count.c: whether the program is to count, and a count of every call of the rows, for callgrind. */
bool is_count(int argc, char **argv);
void take_counts(const struct column *columns, const struct row *rows, size_t row_count);

/* Prints what the columns are, the times, and what the first column takes of each other one's. */
void print_table(const struct column *columns, size_t column_count, const struct row *rows, size_t row_count);

#endif
