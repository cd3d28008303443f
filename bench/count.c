/* Counting instructions: each call once, under callgrind, which dumps a file for each with the row's and the column's name (bench/count reads them). Outside
 * valgrind nothing is counted. */
#include <stdio.h>
#include <string.h>

#include <valgrind/callgrind.h>

#include "bench.h"

bool is_count(int argc, char **argv)
{
    return argc == 2 && strcmp(argv[1], "count") == 0;
}

void take_counts(const struct column *columns, const struct row *rows, size_t row_count)
{
    struct found found;
    for (const struct row *row = rows; row < rows + row_count; row++)
        for (size_t c = 0; c < COLUMNS_MOST; c++) {
            if (!row->calls[c])
                continue;
            char name[128];
            snprintf(name, sizeof name, "%s|%s", row->name, columns[c].name);
            row->calls[c](row->message, &found); /* once before, so that the linker has bound what is called */
            CALLGRIND_ZERO_STATS;
            CALLGRIND_TOGGLE_COLLECT;
            row->calls[c](row->message, &found);
            CALLGRIND_TOGGLE_COLLECT;
            CALLGRIND_DUMP_STATS_AT(name);
        }
}
