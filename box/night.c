/* The C example of a night: takes HTTP/1.1 requests off standard input under http and gathers them in a small memory, each as an entry of the flock that its field `flock` names. A request whose field
 * `delivered` is there tells that the service has taken the oldest undelivered entry of that flock: it is marked. Where there is no room, the delivered entries are swept out and the request is appended
 * behind what is left. At the end each flock's totals are asked, and the table is held against a rebuilt one.
 *
 *     target/box/night < file of requests
 *
 * A line for each request, each sweep and each flock. Status 0; 1 where a request was refused, is not whole, names no flock or does not fit; 2 where the input could not be read, or the table is not the bundle's.
 */
#include <stdbool.h>
#include <stdint.h>
#include <stdio.h>
#include <string.h>

#include "ospirnar.h"

enum { STREAM_MOST = 1 << 20, BINARY_MOST = 65536, MEMORY = 192, NUMBERS = OSPIRNAR_ENTRIES_MOST * OSPIRNAR_ENTRY_NUMBERS };

static uint8_t input[STREAM_MOST], binary[BINARY_MOST], memory[MEMORY];
static uint32_t entries[NUMBERS];
static struct ospirnar_flock table[OSPIRNAR_FLOCKS], again[OSPIRNAR_FLOCKS];

static int stop(const char *what, uint32_t number, size_t place)
{
    printf("%s: %u at %zu\n", what, (unsigned)number, place);
    return 1;
}

/* The number in a field of the request, or 0; whether there is such a field. */
static uint32_t field(const uint8_t *octets, size_t len, const char *name, bool *found)
{
    uint32_t number, value = 0;
    size_t place, start, length;
    *found = ospirnar_request_field(octets, len, 0, (const uint8_t *)name, strlen(name), &number, &place, &start, &length) == 1;
    for (size_t i = 0; *found && i < length && i < 4; i++)
        if (octets[start + i] >= '0' && octets[start + i] <= '9')
            value = value * 10 + (uint32_t)(octets[start + i] - '0');
    return value;
}

/* Marks the oldest undelivered entry of the flock; false where there is none. */
static bool deliver(size_t used, uint32_t flock)
{
    struct ospirnar_bundle_answer whole = ospirnar_read_bundle(memory, used, entries, NUMBERS);
    for (size_t i = 0; i < whole.count; i++) {
        uint32_t head = entries[i * OSPIRNAR_ENTRY_NUMBERS];
        if (OSPIRNAR_FLOCK(head) != flock || OSPIRNAR_DELIVERED(head))
            continue;
        struct ospirnar_table_answer answer = ospirnar_mark(table, OSPIRNAR_FLOCKS, memory, sizeof memory, used, i);
        printf("flock %u: entry %zu delivered (%u)\n", (unsigned)flock, i, (unsigned)answer.number);
        return answer.number == 0;
    }
    return false;
}

/* Appends, behind a sweep where there is no room; the used length afterwards. */
static struct ospirnar_append_answer keep(size_t used, uint32_t flock, size_t len)
{
    struct ospirnar_append_answer answer = ospirnar_append(table, OSPIRNAR_FLOCKS, memory, sizeof memory, used, flock, binary, len);
    if (answer.number != 13)
        return answer;
    struct ospirnar_table_answer swept = ospirnar_sweep(table, OSPIRNAR_FLOCKS, memory, sizeof memory, used);
    printf("no room: swept, %zu octets of %zu are left\n", swept.used, used);
    return ospirnar_append(table, OSPIRNAR_FLOCKS, memory, sizeof memory, swept.used, flock, binary, len);
}

int main(void)
{
    size_t len = fread(input, 1, sizeof input, stdin), at = 0, used = 0, place, taken;
    if (ferror(stdin) || (len == sizeof input && getchar() != EOF)) {
        fprintf(stderr, "night: standard input cannot be read or passes %d octets\n", STREAM_MOST);
        return 2;
    }
    for (; at < len; at += taken) {
        bool found;
        uint32_t number = ospirnar_request_to_binary(input + at, len - at, 0, binary, sizeof binary, &place, &taken);
        if (number != 0)
            return stop("refused", number, at + place);
        uint32_t flock = field(input + at, len - at, "flock", &found);
        field(input + at, len - at, "delivered", &found);
        if (found) {
            if (!deliver(used, flock))
                return stop("nothing to deliver for flock", flock, at);
            continue;
        }
        struct ospirnar_append_answer answer = keep(used, flock, place);
        if (answer.number != 0)
            return stop("not appended", answer.number, answer.place);
        used = answer.used;
        printf("flock %u: %zu octets, %zu used\n", (unsigned)flock, place, used);
    }
    for (uint32_t flock = 1; flock <= OSPIRNAR_FLOCKS; flock++) {
        struct ospirnar_totals_answer totals = ospirnar_totals(table, OSPIRNAR_FLOCKS, flock);
        if (totals.number != 0)
            return 2;
        if (totals.entries != 0)
            printf("flock %u: %u entries, %u octets of message, %u undelivered\n", (unsigned)flock, (unsigned)totals.entries, (unsigned)totals.bytes, (unsigned)totals.undelivered);
    }
    struct ospirnar_table_answer rebuilt = ospirnar_rebuild(again, OSPIRNAR_FLOCKS, memory, used);
    return rebuilt.number == 0 && memcmp(again, table, sizeof table) == 0 ? 0 : 2;
}
