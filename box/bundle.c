/* The C example of bundles: takes HTTP/1.1 requests off standard input under http, turns each into Binary HTTP and gathers them in one bundle, each as an entry of the
 * flock that its field `flock` names; then reads the bundle and gives each flock its list, as the service would hand it on, and its totals, read off the table that
 * the appends kept; then keeps what is whole of a transfer that
 * stopped one octet before the bundle's end.
 *
 *     target/box/bundle < file of requests
 *
 * A line for each entry, one for each flock, one for the transfer. Status 0; 1 where a request was refused, is not whole or names no flock; 2 where the input could not be
 * read, or a list or what is kept is not the bundle that it must be.
 */
#include <stdbool.h>
#include <stdint.h>
#include <stdio.h>

#include "ospirnar.h"

enum { STREAM_MOST = 1 << 20, BINARY_MOST = 65536, BUNDLE_MOST = 1 << 20, FLOCKS = 127, NUMBERS = OSPIRNAR_ENTRIES_MOST * OSPIRNAR_ENTRY_NUMBERS };

static uint8_t input[STREAM_MOST], binary[BINARY_MOST], bundle[BUNDLE_MOST], list[BUNDLE_MOST];
static uint32_t entries[NUMBERS];
static struct ospirnar_flock table[OSPIRNAR_FLOCKS];

static int stop(const char *what, uint32_t number, size_t place)
{
    printf("%s: %u at %zu\n", what, (unsigned)number, place);
    return 1;
}

/* The number in the field `flock` of the request, or 0. */
static uint32_t flock_of(const uint8_t *octets, size_t len)
{
    uint32_t number, flock = 0;
    size_t place, start, length;
    if (ospirnar_request_field(octets, len, 0, (const uint8_t *)"flock", 5, &number, &place, &start, &length) == 0)
        return 0;
    for (size_t i = 0; i < length && i < 4; i++)
        if (octets[start + i] >= '0' && octets[start + i] <= '9')
            flock = flock * 10 + (uint32_t)(octets[start + i] - '0');
    return flock;
}

/* Appends the requests to the bundle; its length, or 0 with what was printed. */
static bool gather(size_t len, size_t *used)
{
    size_t at = 0, place, taken;
    for (*used = 0; at < len; at += taken) {
        uint32_t number = ospirnar_request_to_binary(input + at, len - at, 0, binary, sizeof binary, &place, &taken);
        if (number != 0)
            return stop("refused", number, at + place), false;
        struct ospirnar_append_answer answer = ospirnar_append(table, OSPIRNAR_FLOCKS, bundle, sizeof bundle, *used, flock_of(input + at, len - at), binary, place);
        if (answer.number != 0)
            return stop("not appended", answer.number, answer.place), false;
        *used = answer.used;
    }
    return true;
}

int main(void)
{
    size_t len = fread(input, 1, sizeof input, stdin), used;
    if (ferror(stdin) || (len == sizeof input && getchar() != EOF)) {
        fprintf(stderr, "bundle: standard input cannot be read or passes %d octets\n", STREAM_MOST);
        return 2;
    }
    if (!gather(len, &used))
        return 1;
    struct ospirnar_bundle_answer whole = ospirnar_read_bundle(bundle, used, entries, NUMBERS);
    if (whole.number != 0 || whole.place != used)
        return 2;
    for (size_t i = 0; i < whole.count; i++) {
        const uint32_t *entry = entries + i * OSPIRNAR_ENTRY_NUMBERS;
        printf("entry %zu: flock %u, %s, %s, %u octets at %u\n", i, (unsigned)OSPIRNAR_FLOCK(entry[0]), OSPIRNAR_DELIVERED(entry[0]) ? "delivered" : "not delivered",
               OSPIRNAR_KIND(entry[0]) ? "response" : "request", (unsigned)entry[2], (unsigned)entry[1]);
    }
    for (uint32_t flock = 1; flock <= FLOCKS; flock++) {
        struct ospirnar_list_answer answer = ospirnar_flock_list(bundle, used, flock, list, sizeof list);
        struct ospirnar_bundle_answer own = ospirnar_read_bundle(list, answer.len, entries, NUMBERS);
        struct ospirnar_totals_answer totals = ospirnar_totals(table, OSPIRNAR_FLOCKS, flock);
        if (answer.number != 0 || own.number != 0 || totals.number != 0 || totals.entries != own.count || totals.bytes + 4 * own.count != answer.len)
            return 2;
        if (own.count != 0)
            printf("flock %u: %zu entries, %zu octets; totals: %u, %u octets of message, %u undelivered\n", (unsigned)flock, own.count, answer.len, (unsigned)totals.entries,
                   (unsigned)totals.bytes, (unsigned)totals.undelivered);
    }
    size_t came = used == 0 ? 0 : used - 1;
    struct ospirnar_salvage_answer kept = ospirnar_salvage(bundle, came, list, sizeof list);
    struct ospirnar_bundle_answer again = ospirnar_read_bundle(list, kept.kept, entries, NUMBERS);
    if (kept.number != 0 || kept.kept + kept.left != came || again.number != 0 || again.count != kept.entries)
        return 2;
    printf("of %zu octets that came: %zu entries, %zu octets kept, %zu left off, stopped by %u\n", came, kept.entries, kept.kept, kept.left, (unsigned)kept.stop);
    printf("%zu entries, %zu octets\n", whole.count, used);
    return 0;
}
