/* Ours, through the C interface as any C program calls it, under http. Lent space is not cleared between calls. */
#include "bench.h"
#include "ospirnar.h"

uint8_t output[OUTPUT_ROOM] AT_PAGE;
static uint32_t ranges[OSPIRNAR_RANGES_MOST];

static void tell_read(uint32_t number, size_t place, struct found *found)
{
    found->taken = number == 0 ? place : 0;
    found->fields = ranges[10];
    found->content = ranges[12];
}

void ours_read_request(const struct message *message, struct found *found)
{
    size_t place;
    uint32_t number = ospirnar_read_request(message->octets, message->len, 0, ranges, OSPIRNAR_RANGES_MOST, &place);
    tell_read(number, place, found);
}

void ours_read_response(const struct message *message, struct found *found)
{
    size_t place;
    uint32_t number = ospirnar_read_response(message->octets, message->len, 0, 0, ranges, OSPIRNAR_RANGES_MOST, &place);
    tell_read(number, place, found);
}

void ours_read_binary(const struct message *message, struct found *found)
{
    size_t place;
    uint32_t number = ospirnar_read_binary(message->octets, message->len, 0, 0, ranges, OSPIRNAR_RANGES_MOST, &place);
    tell_read(number, place, found);
}

void ours_request_to_binary(const struct message *message, struct found *found)
{
    size_t place, taken;
    uint32_t number = ospirnar_request_to_binary(message->octets, message->len, 0, output, OUTPUT_ROOM, &place, &taken);
    found->written = number == 0 ? place : 0;
}

void ours_response_to_binary(const struct message *message, struct found *found)
{
    size_t place, taken;
    uint32_t number = ospirnar_response_to_binary(message->octets, message->len, 0, 0, output, OUTPUT_ROOM, &place, &taken);
    found->written = number == 0 ? place : 0;
}

void ours_binary_to_binary(const struct message *message, struct found *found)
{
    size_t place;
    uint32_t number = ospirnar_binary_to_binary(message->octets, message->len, 0, 0, output, OUTPUT_ROOM, &place);
    found->written = number == 0 ? place : 0;
}

void ours_binary_to_http1(const struct message *message, struct found *found)
{
    size_t place;
    uint32_t number = ospirnar_binary_to_http1(message->octets, message->len, 0, 0, 0, 0, output, OUTPUT_ROOM, &place);
    found->written = number == 0 ? place : 0;
}
