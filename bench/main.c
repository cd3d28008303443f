/* Reading HTTP/1.1 requests: ours against http_parser and picohttpparser. bench/run builds and runs it.
 *
 * Another row: a line in `rows` with the readers that can do it (0 for one that cannot).
 * Another reader: declare it in bench.h, write it in a file of its own, add a column to `columns` and to each row.
 */
#include <stdio.h>
#include <stdlib.h>

#include "bench.h"

static const struct column columns[] = {
    {"ours", "ospirnar_read_request: judges the whole message, stores the ranges of all its parts; content is not walked"},
    {"http_parser", "http_parser_execute on the whole message; callbacks store the ranges of target, fields and content"},
    {"picohttpparser", "phr_parse_request: the head alone, stores its ranges, judges no Host, length or coding;\n"
                       "                for chunks phr_decode_chunked too, which moves the content, on a copy of the body (the copy counts)"},
};
enum { COLUMNS = sizeof columns / sizeof columns[0] };

static struct row rows[] = {
    {"scan post, 61 octets of JSON", &small, {ours_read_request, http_parser_read_request, pico_read_head}, {[1] = 0.7}, {0}},
    {"post with 30 fields", &fields30, {ours_read_request, http_parser_read_request, pico_read_head}, {[1] = 0.7}, {0}},
    {"30 fields, one named by Connection", &connection30, {ours_read_request, http_parser_read_request, pico_read_head}, {[1] = 0.7}, {0}},
    {"32 KB by length", &by_length, {ours_read_request, http_parser_read_request, pico_read_head}, {[1] = 1.0}, {0}},
    {"32 KB in 64 chunks", &in_chunks, {ours_read_request, http_parser_read_request, pico_read_chunked}, {[1] = 1.0}, {0}},
    {"(copying the chunked body alone)", &in_chunks, {0, 0, copy_body}, {0}, {0}},
};
enum { ROWS = sizeof rows / sizeof rows[0] };

/* Every reader takes the whole message and finds its fields and content, except that picohttpparser may take the head alone. */
static void check_row(const struct row *row)
{
    const struct message *m = row->message;
    for (int c = 0; c < COLUMNS; c++) {
        if (!row->calls[c] || row->calls[c] == copy_body)
            continue;
        struct found found;
        bool head_only = row->calls[c] == pico_read_head;
        row->calls[c](m, &found);
        if (found.taken != (head_only ? m->head : m->len) || found.fields != (c == 0 ? m->kept : m->lines) ||
            found.content != (head_only ? 0 : m->content)) {
            fprintf(stderr, "bench: %s on '%s': took %zu octets, %zu fields, %zu octets of content\n", columns[c].name, row->name, found.taken,
                    found.fields, found.content);
            exit(1);
        }
    }
}

int main(int argc, char **argv)
{
    make_messages();
    for (int r = 0; r < ROWS; r++)
        check_row(&rows[r]);
    if (is_count(argc, argv)) {
        take_counts(columns, rows, ROWS);
        return 0;
    }
    take_times(rows, ROWS);
    print_table(columns, COLUMNS, rows, ROWS);
    return 0;
}
