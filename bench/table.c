/* The table. */
#include <stdio.h>
#include <string.h>

#include "bench.h"

static bool has_goals(const struct row *rows, size_t row_count, size_t column)
{
    for (size_t r = 0; r < row_count; r++)
        if (rows[r].goals[column] > 0)
            return true;
    return false;
}

void print_table(const struct column *columns, size_t column_count, const struct row *rows, size_t row_count)
{
    for (size_t c = 0; c < column_count; c++)
        printf("%-14s  %s\n", columns[c].name, columns[c].what);
    printf("\nns of a core a message, median of %d rounds that take turns, after a warm-up; lent space is not cleared between calls.\n", ROUNDS);
    printf("A goal is the most that the ratio in front of it may be; ! marks one that is missed.\n\n");

    bool goals[COLUMNS_MOST];
    int width[COLUMNS_MOST]; /* of the ratio to this column */
    printf("%-34s %6s", "message", "octets");
    for (size_t c = 0; c < column_count; c++)
        printf(" %14s", columns[c].name);
    for (size_t c = 1; c < column_count; c++) {
        goals[c] = has_goals(rows, row_count, c);
        width[c] = (int)(strlen(columns[0].name) + 1 + strlen(columns[c].name));
        printf("  %s/%s%s", columns[0].name, columns[c].name, goals[c] ? "   goal" : "");
    }
    printf("\n");

    for (const struct row *row = rows; row < rows + row_count; row++) {
        printf("%-34s %6zu", row->name, row->message->len);
        for (size_t c = 0; c < column_count; c++) {
            if (row->ns[c] > 0)
                printf(" %14.1f", row->ns[c]);
            else
                printf(" %14s", "-");
        }
        for (size_t c = 1; c < column_count; c++) {
            double ratio = row->ns[0] > 0 && row->ns[c] > 0 ? row->ns[0] / row->ns[c] : 0;
            if (ratio > 0)
                printf("  %*.2f", width[c], ratio);
            else
                printf("  %*s", width[c], "-");
            if (row->goals[c] > 0)
                printf("  %4.2f%c", row->goals[c], ratio > row->goals[c] ? '!' : ' ');
            else if (goals[c])
                printf("  %4s ", "-");
        }
        printf("\n");
    }
}
