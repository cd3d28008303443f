/* The C example, as the box's main program does: takes HTTP/1.1 requests off standard input under http, turns each into Binary HTTP for the radio hop and, on the
 * other side of it, back into HTTP/1.1 behind what was written before; then takes that stream off again.
 *
 *     target/box/box < file of requests
 *
 * A line for each message; then where the stream ends, or the number and place it stops with. Status 0 where every octet was taken, 1 where a
 * message was refused or is not whole, 2 where the input could not be read or the written stream is another.
 */
#include <stdbool.h>
#include <stdint.h>
#include <stdio.h>

#include "ospirnar.h"

enum { STREAM_MOST = 1 << 20, BINARY_MOST = 65536 };

static uint8_t input[STREAM_MOST], binary[BINARY_MOST], written[STREAM_MOST];
static uint32_t ranges[OSPIRNAR_RANGES_MOST];

static void print_part(const uint8_t *octets, const uint32_t *part)
{
    fwrite(octets + part[0], 1, part[1], stdout);
}

/* What a call that is not accepted answers: its number and its place, counted from `at` on. */
static int stop(const char *what, uint32_t number, size_t place, size_t at)
{
    printf("%s: %u at %zu\n", what, (unsigned)number, at + place);
    return 1;
}

/* Takes all requests off a stream that was written, a line for each: how many there are, and that nothing is left. */
static bool take_off(const uint8_t *octets, size_t len, size_t count)
{
    size_t at = 0, taken = 0, place;
    for (; at < len; at += place) {
        if (ospirnar_read_request(octets + at, len - at, 0, ranges, OSPIRNAR_RANGES_MOST, &place) != 0)
            return false;
        printf("%zu: ", ++taken);
        print_part(octets + at, ranges + 2);
        putchar(' ');
        print_part(octets + at, ranges + 6);
        printf(", %u fields, %u octets of content\n", (unsigned)ranges[10], (unsigned)ranges[12]);
    }
    return taken == count;
}

int main(void)
{
    size_t len = fread(input, 1, sizeof input, stdin), at = 0, out = 0, count = 0, taken, binary_len, http1_len, place;
    if (ferror(stdin) || (len == sizeof input && getchar() != EOF)) {
        fprintf(stderr, "box: standard input cannot be read or passes %d octets\n", STREAM_MOST);
        return 2;
    }
    while (at < len) {
        /* judged, turned and measured in one call: a box does not read a request before it turns it */
        uint32_t number = ospirnar_request_to_binary(input + at, len - at, 0, binary, sizeof binary, &binary_len, &taken);
        if (number != 0) /* 1 is no refusal: a box that reads from a connection would wait for more octets and call again */
            return stop(number == 1 ? "more octets are needed" : "refused", number, binary_len, at);
        number = ospirnar_binary_to_http1(binary, binary_len, 0, 0, 0, 0, written + out, sizeof written - out, &http1_len);
        if (number != 0)
            return stop("not turned back", number, http1_len, 0);
        printf("%zu: %zu octets, as Binary %zu, turned back %zu", ++count, taken, binary_len, http1_len);
        /* whether the sender means to close is no part of the meaning, so a turning does not say it: a box that holds the connection asks the record */
        if (ospirnar_read_request(input + at, taken, 0, ranges, OSPIRNAR_RANGES_MOST, &place) == 0 && ranges[19] != 0)
            printf("; the sender means to close");
        putchar('\n');
        at += taken; /* the next message begins behind this one */
        out += http1_len;
    }
    if (!take_off(written, out, count)) {
        printf("the written stream is not taken off as it was written\n");
        return 2;
    }
    printf("end at %zu; %zu requests taken off the %zu octets written\n", at, count, out);
    return 0;
}
