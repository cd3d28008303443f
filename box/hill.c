/* The C example of hill readers: takes one Binary HTTP request, of RFC 9292 or of the draft of 2021, and turns it into HTTP/1.1 under http and anew into Binary. Of the
 * input the first line is the number of the edition, in decimal; behind its line feed the message begins, up to the end.
 *
 *     target/box/hill < file of a number and a message
 *
 * Says the method, how many integers are not in their shortest form if any, the value of `x-tag` or that there is none, and what is written: in HTTP/1.1, and as Binary, which is RFC 9292 in either edition. Status 0; 1 where the
 * message is refused, with the number and the place counted from the message's first octet; 2 where the input could not be read or what was written is not.
 */
#include <stdint.h>
#include <stdio.h>

#include "ospirnar.h"

enum { BINARY_MOST = 65536, TEXT_MOST = 1 << 20 };

static uint8_t input[BINARY_MOST + 16], anew[BINARY_MOST], text[TEXT_MOST];
static uint32_t ranges[OSPIRNAR_RANGES_MOST];

int main(void)
{
    size_t len = fread(input, 1, sizeof input, stdin), at = 0, place, start, length, text_len, anew_len;
    uint32_t edition = 0, number;
    if (ferror(stdin) || len == sizeof input)
        return 2;
    for (; at < len && input[at] >= '0' && input[at] <= '9'; at++)
        edition = edition * 10 + (input[at] - '0');
    if (at++ >= len)
        return 2;
    number = ospirnar_read_binary(input + at, len - at, 0, edition, ranges, OSPIRNAR_RANGES_MOST, &place);
    if (number != 0) {
        printf("refused: %u at %zu\n", (unsigned)number, place);
        return 1;
    }
    printf("%.*s, ", (int)ranges[3], (const char *)input + at + ranges[2]);
    if (ranges[18] != 0) /* a maker that pads its lengths */
        printf("%u long integers, ", (unsigned)ranges[18]);
    if (ospirnar_binary_field(input + at, len - at, 0, edition, (const uint8_t *)"x-tag", 5, &number, &place, &start, &length) == 1)
        printf("tag '%.*s'", (int)length, (const char *)input + at + start);
    else
        printf("no tag");
    if (ospirnar_binary_to_http1(input + at, len - at, 0, 0, 0, edition, text, sizeof text, &text_len) != 0
        || ospirnar_binary_to_binary(input + at, len - at, 0, edition, anew, sizeof anew, &anew_len) != 0
        || ospirnar_read_binary(anew, anew_len, 0, 0, ranges, OSPIRNAR_RANGES_MOST, &place) != 0)
        return 2;
    printf("; %zu octets, in HTTP/1.1 %zu, as Binary %zu\n", len - at, text_len, anew_len);
    return 0;
}
