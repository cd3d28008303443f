/* The C example of replies: takes HTTP/1.1 responses off standard input, each the answer to a request whose method is known, turns each into Binary HTTP for
 * the radio hop and back. The first line of the input has the methods, one word each, as the box remembers them; behind its line feed the responses begin.
 * Standard input has ended, so the connection has closed: the content of a last response without a length ends there too.
 *
 *     target/box/reply < file of methods and responses
 *
 * A line for each response; then where the stream ends, or the number and place it stops with. Status 0 where every octet was taken, 1 where a response was refused or is not
 * whole, or no method is left for it, 2 where the input could not be read or a response that was turned back is another.
 */
#include <stdint.h>
#include <stdio.h>
#include <string.h>

#include "ospirnar.h"

enum { STREAM_MOST = 1 << 20, BINARY_MOST = 65536 };

static uint8_t input[STREAM_MOST], binary[BINARY_MOST], anew[BINARY_MOST], written[STREAM_MOST];
static uint32_t ranges[OSPIRNAR_RANGES_MOST];

/* The next method of the line, and whether it is HEAD; 0 where there is none. */
static size_t next_method(size_t *at, size_t end, uint32_t *head)
{
    while (*at < end && input[*at] == ' ')
        ++*at;
    size_t start = *at;
    while (*at < end && input[*at] != ' ')
        ++*at;
    *head = *at - start == 4 && memcmp(input + start, "HEAD", 4) == 0;
    return *at - start;
}

static int stop(const char *what, uint32_t number, size_t place)
{
    printf("%s: %u at %zu\n", what, (unsigned)number, place);
    return 1;
}

int main(void)
{
    size_t len = fread(input, 1, sizeof input, stdin), line = 0, method = 0, count = 0, binary_len, back_len, anew_len, place, taken;
    uint32_t head;
    if (ferror(stdin) || (len == sizeof input && getchar() != EOF)) {
        fprintf(stderr, "reply: standard input cannot be read or passes %d octets\n", STREAM_MOST);
        return 2;
    }
    while (line < len && input[line] != '\n')
        line++;
    for (size_t at = line < len ? line + 1 : len; at < len; at += taken) {
        if (next_method(&method, line, &head) == 0)
            return stop("no method is left", 0, at);
        uint32_t number = ospirnar_response_to_binary(input + at, len - at, head, 1, binary, sizeof binary, &binary_len, &taken);
        if (number != 0)
            return stop(number == 1 ? "more octets are needed" : "refused", number, at + binary_len);
        if (ospirnar_read_binary(binary, binary_len, head, 0, ranges, OSPIRNAR_RANGES_MOST, &place) != 0)
            return 2;
        printf("%zu: %u", ++count, (unsigned)ranges[8]);
        if (ranges[15] != 0)
            printf(", would have %llu octets", (unsigned long long)ranges[17] << 32 | ranges[16]);
        else
            printf(", %u octets of content", (unsigned)ranges[12]);
        /* back, told the same, and once more over the hop, where the connection is open: the same octets, since what is written says where it ends */
        if (ospirnar_binary_to_http1(binary, binary_len, 0, head, 0, 0, written, sizeof written, &back_len) != 0
            || ospirnar_response_to_binary(written, back_len, head, 0, anew, sizeof anew, &anew_len, &place) != 0
            || place != back_len || anew_len != binary_len || memcmp(anew, binary, binary_len) != 0)
            return 2;
        printf("; %zu octets, as Binary %zu, turned back %zu\n", taken, binary_len, back_len);
    }
    printf("end at %zu\n", len);
    return 0;
}
