/* Bundles: reading one of 256 scan posts against reading its messages alone and copying its octets, appending the last of them against reading, a sweep against reading and
 * moving, and a flock's answer beside a large bundle against one beside a small one. bench/run builds
 * and runs it. */
#include <stdio.h>
#include <stdlib.h>
#include <string.h>

#include "bench.h"
#include "ospirnar.h"

enum { ENTRIES = OSPIRNAR_ENTRIES_MOST, FLOCK = 5, HEAD = 4 };

static uint8_t octets[1 << 17], copy[1 << 17];
static uint32_t entries[ENTRIES * OSPIRNAR_ENTRY_NUMBERS], ranges[OSPIRNAR_RANGES_MOST];
static struct ospirnar_flock table[OSPIRNAR_FLOCKS], swept_table[OSPIRNAR_FLOCKS];
static struct ospirnar_flock half_table[OSPIRNAR_FLOCKS], one_table[OSPIRNAR_FLOCKS]; /* of `half`, of one entry */
static struct message whole, all_but_one, half, post; /* the bundle, the same without its last entry, the same with every other entry delivered, a scan post as Binary */
static uint8_t half_octets[1 << 17], swept[1 << 17];

static void read_bundle(const struct message *message, struct found *found)
{
    struct ospirnar_bundle_answer answer = ospirnar_read_bundle(message->octets, message->len, entries, ENTRIES * OSPIRNAR_ENTRY_NUMBERS);
    *found = (struct found){.taken = answer.number == 0 ? answer.place : 0, .fields = answer.count};
}

static void read_messages(const struct message *message, struct found *found)
{
    size_t at = 0, count = 0, place;
    for (; at < message->len; at += HEAD + post.len, count++)
        if (ospirnar_read_binary(message->octets + at + HEAD, post.len, 0, 0, ranges, OSPIRNAR_RANGES_MOST, &place) != 0)
            break;
    memcpy(copy, message->octets, message->len);
    __asm__ volatile("" : : "r"(copy) : "memory");
    *found = (struct found){.taken = at, .fields = count};
}

static void append(const struct message *message, struct found *found)
{
    struct ospirnar_append_answer answer = ospirnar_append(table, OSPIRNAR_FLOCKS, octets, sizeof octets, message->len, FLOCK, post.octets, post.len);
    *found = (struct found){.taken = answer.number == 0 ? message->len : 0, .fields = message->kept, .written = answer.used};
}

/* The bundle of which every other entry is delivered, anew, and swept. */
static void sweep(const struct message *message, struct found *found)
{
    memcpy(swept, message->octets, message->len);
    memcpy(swept_table, half_table, sizeof swept_table);
    struct ospirnar_table_answer answer = ospirnar_sweep(swept_table, OSPIRNAR_FLOCKS, swept, sizeof swept, message->len);
    *found = (struct found){.taken = answer.number == 0 && answer.used == message->len / 2 ? message->len : 0, .fields = message->kept, .written = answer.used};
}

/* The same bundle anew, read, and as many octets moved as the sweep moves. */
static void read_and_move(const struct message *message, struct found *found)
{
    memcpy(swept, message->octets, message->len);
    memcpy(swept_table, half_table, sizeof swept_table);
    read_bundle(&(struct message){.octets = swept, .len = message->len}, found);
    memmove(swept, swept + message->len / 2, message->len / 2);
    __asm__ volatile("" : : "r"(swept) : "memory");
}

static void totals_in(const struct ospirnar_flock *lent, const struct message *message, struct found *found)
{
    struct ospirnar_totals_answer answer = ospirnar_totals(lent, OSPIRNAR_FLOCKS, FLOCK);
    *found = (struct found){.taken = answer.number == 0 ? message->len : 0, .fields = message->kept, .written = answer.entries};
}

static void totals(const struct message *message, struct found *found)
{
    totals_in(half_table, message, found);
}

static void totals_of_one(const struct message *message, struct found *found)
{
    totals_in(one_table, message, found);
}

static const struct column columns[] = {
    {"ours", "ospirnar_read_bundle, ospirnar_append, ospirnar_sweep, ospirnar_totals"},
    {"messages", "ospirnar_read_binary on each message of the bundle, and a memcpy of all its octets"},
    {"reading", "ospirnar_read_bundle on the bundle that is appended to"},
    {"read, move", "the bundle copied anew as for the sweep, ospirnar_read_bundle, and a memmove of what the sweep moves"},
    {"one entry", "ospirnar_totals beside a bundle of one entry"},
};
enum { COLUMNS = sizeof columns / sizeof columns[0] };

static struct row rows[] = {
    {"bundle of 256 scan posts", &whole, {read_bundle, read_messages, 0}, {[1] = 2.0}, {0}},
    {"append the 256th", &all_but_one, {append, 0, read_bundle}, {[2] = 1.2}, {0}},
    {"sweep every other of 256", &half, {sweep, 0, 0, read_and_move, 0}, {[3] = 1.0}, {0}},
    {"a flock's answer beside 256", &half, {totals, 0, 0, 0, totals_of_one}, {[4] = 1.1}, {0}},
};
enum { ROWS = sizeof rows / sizeof rows[0] };

static void make_bundle(void)
{
    struct found found;
    ours_request_to_binary(&small, &found);
    uint8_t *binary = room_for_message();
    memcpy(binary, output, found.written);
    post = (struct message){.octets = binary, .len = found.written};
    size_t used = 0;
    for (int i = 0; i < ENTRIES; i++) {
        all_but_one = (struct message){.octets = octets, .len = used, .kept = (size_t)i};
        used = ospirnar_append(table, OSPIRNAR_FLOCKS, octets, sizeof octets, used, FLOCK, post.octets, post.len).used;
    }
    whole = (struct message){.octets = octets, .len = used, .kept = ENTRIES};
    memcpy(half_octets, octets, used);
    ospirnar_rebuild(half_table, OSPIRNAR_FLOCKS, half_octets, used);
    for (size_t i = 0; i < ENTRIES; i += 2)
        ospirnar_mark(half_table, OSPIRNAR_FLOCKS, half_octets, used, used, i);
    half = (struct message){.octets = half_octets, .len = used, .kept = ENTRIES};
    ospirnar_rebuild(one_table, OSPIRNAR_FLOCKS, octets, HEAD + post.len);
}

int main(int argc, char **argv)
{
    make_messages();
    make_bundle();
    for (int r = 0; r < ROWS; r++)
        for (int c = 0; c < COLUMNS; c++) {
            struct found found;
            if (!rows[r].calls[c])
                continue;
            rows[r].calls[c](rows[r].message, &found);
            if (found.taken != rows[r].message->len || found.fields != rows[r].message->kept) {
                fprintf(stderr, "bench: %s on '%s': took %zu octets, %zu entries\n", columns[c].name, rows[r].name, found.taken, found.fields);
                return 1;
            }
        }
    if (is_count(argc, argv)) {
        take_counts(columns, rows, ROWS);
        return 0;
    }
    take_times(rows, ROWS);
    print_table(columns, COLUMNS, rows, ROWS);
    return 0;
}
