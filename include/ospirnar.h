/* Ospirnar: the HTTP message layer, proved in Rattle. Link with libcapi.a, for bundles with libbundle_capi.a too (compare/build library: both in target/staticlib).
 *
 * Slices. A slice is a pointer and a number of elements. The pointer is not null and is aligned for its element, also where the slice is empty
 * (any such pointer serves then). Nothing lent for writing overlaps anything else that is lent to the same call. The caller owns all that it lends; no
 * call keeps a pointer.
 *
 * Answers. A call, but for the field question, returns a number: 0 accepted, 1 more octets are needed, 2 and above a refusal (document 01, "Numbers a call answers with").
 * *place is always written: the message's length where it is accepted, the input's length for 1, the refusal's place otherwise. A refusal and a call
 * for more alter none of the other lent elements.
 *
 * Ranges. An accepted message is described by numbers in `ranges`; only those in use are written, all behind them stays as it was. Where they do not fit
 * the answer is 13 at 0. OSPIRNAR_RANGES_MOST elements are always enough. A part is its start in the input and its length; a field is the
 * part of its name and the part of its value. Only kept fields are named (document 01 names those that are dropped; so
 * are, in either form, the fields of a header section that a Connection line of the same section names, before it or behind it; no trailer is).
 *
 *   ranges[0]        0 request, 1 response
 *   ranges[1]        scheme of a request: 0 http, 1 https; 0 in a response
 *   ranges[2..4]     method       (start, length; 0 and 0 in a response)
 *   ranges[4..6]     authority
 *   ranges[6..8]     path: the target's own octets, see ranges[14]
 *   ranges[8]        status of a response; 0 in a request
 *   ranges[9]        informational heads: I
 *   ranges[10]       header fields of the (final) head: H
 *   ranges[11]       non-empty content chunks: C
 *   ranges[12]       octets of content
 *   ranges[13]       trailer fields: T
 *   ranges[14]       what is put before the octets of the path's part: 0 nothing, 1 "/", 2 "*"; the path is both
 *   ranges[15]       1 where a response states the length of content that it does not have: a final response to a HEAD, or 304; else 0
 *   ranges[16]       that length, its low 32 bits: it has at most 15 digits, which 32 bits do not hold
 *   ranges[17]       its high 32 bits
 *   ranges[18]       how many integers of a Binary message are not in their shortest form, framing and terminators included, padding left out; 0 in HTTP/1.1
 *   ranges[19]       1 where the sender means to close the connection (a Connection line of the final head has the member `close`, in any case of letters), else 0;
 *                    no part of the meaning: no writer writes it, and messages that mean the same may differ in it
 *   ranges[20..28]   status and number of fields of each informational head; 0 for those that are not there
 *   then             4 numbers for each field of the informational heads, in order,
 *                    4 numbers for each of the H header fields,
 *                    2 numbers for each of the C chunks,
 *                    4 numbers for each of the T trailer fields.
 */
#ifndef OSPIRNAR_H
#define OSPIRNAR_H

#include <stddef.h>
#include <stdint.h>

#ifdef __cplusplus
extern "C" {
#endif

#define OSPIRNAR_RANGES_MOST 2076

/* What a call is told. `scheme`: 0 http, 1 https; another number is 4 at 0, first. `head`: whether the message answers a HEAD, 0 no, any other number yes;
 * its final response then ends behind its head, whatever length that states. On a request `head` means nothing. `closed`: whether the connection has
 * closed, 0 no, any other number yes; the content of a final response that may have content and has neither length line then ends with the input. While the
 * connection is open such a response is 1, or 8 at the first octet of its content once there are more than 32,768. Whatever else a closed connection has cut
 * stays 1. `former`: a request with empty content and no trailers is written in HTTP/1.1 with `content-length: 0`, unless its method is GET or HEAD; told
 * `former`, 0 no, any other number yes, it goes without. `edition`, told to each call that reads a Binary message, last of what it is told: 0 RFC 9292, 1 the draft
 * of 2021 (draft-thomson-http-binary-message-00), in which a value can't be empty, nothing may follow the trailers and a message may also end before its final
 * header section; another number is 17 at 0, before all else. RFC 9292 is what is written, and what bundles hold. */

/* The first HTTP/1.1 request of a stream, under the scheme told. Its target is a path; `*`, where the method is OPTIONS; or http or https in any case of letters,
 * `://`, an authority, and then a path, a query or neither. That authority is the request's: Host stands once and is otherwise ignored. Where it has no path, `/`
 * is put before the query, or stands alone; where it has no query either and the method is OPTIONS, `*` does. ranges[14] says which; the part of the path is then the
 * query, or empty and at the target's end. A target is refused at the request line: 4 where it is none of these, 2 for its octets, 6 for its authority (empty and
 * above 255 octets too), 8 for its path, what is put before it counted, and last 14 for a scheme that is not the one told. We write a path or `*`. */
uint32_t ospirnar_read_request(const uint8_t *input, size_t input_len, uint32_t scheme, uint32_t *ranges, size_t ranges_len, size_t *place);

/* The first HTTP/1.1 response of a stream. */
uint32_t ospirnar_read_response(const uint8_t *input, size_t input_len, uint32_t head, uint32_t closed, uint32_t *ranges, size_t ranges_len, size_t *place);

/* One Binary HTTP message of the edition told: the whole input, zero padding included, so that an accepted message is as long as the input and there is no call for more.
 * Its path may be `*` where the method is OPTIONS; ranges[14] is 0. */
uint32_t ospirnar_read_binary(const uint8_t *input, size_t input_len, uint32_t head, uint32_t edition, uint32_t *ranges, size_t ranges_len, size_t *place);

/* Turning. The message is read by the reader of its form and written in the other, or anew, into `output`: 0 and *place the number of octets written, all behind
 * them as it was. Otherwise no octet of `output` is altered: the reader's refusal (1 with the input's length where more octets are needed), then, into HTTP/1.1, 14 at
 * 0 for a request of the other scheme, then 8 at 0 where what would be written is above a size of its form, then 13 at 0 where it is more than output_len.
 * Off a stream, *taken is how many octets of the input the message is, so that the next one begins behind them; 0 on any refusal. It is always written. */

/* The first HTTP/1.1 request of a stream, under the scheme told, as Binary HTTP. */
uint32_t ospirnar_request_to_binary(const uint8_t *input, size_t input_len, uint32_t scheme, uint8_t *output, size_t output_len, size_t *place,
                                    size_t *taken);

/* The first HTTP/1.1 response of a stream as Binary HTTP. */
uint32_t ospirnar_response_to_binary(const uint8_t *input, size_t input_len, uint32_t head, uint32_t closed, uint8_t *output, size_t output_len,
                                     size_t *place, size_t *taken);

/* A Binary message anew: known length, shortest integers, all sections, no padding. */
uint32_t ospirnar_binary_to_binary(const uint8_t *input, size_t input_len, uint32_t head, uint32_t edition, uint8_t *output, size_t output_len, size_t *place);

/* A Binary message, request or response, as HTTP/1.1 on a connection of the scheme told. Calls that each write behind
 * what the calls before them wrote make a stream, from which ospirnar_read_request under the same scheme takes the same requests in the same order. */
uint32_t ospirnar_binary_to_http1(const uint8_t *input, size_t input_len, uint32_t scheme, uint32_t head, uint32_t former, uint32_t edition, uint8_t *output,
                                  size_t output_len, size_t *place);

/* The listing of an HTTP/1.1 request stream under http, as the listing program prints it, into `output`; *place is its length. All behind it stays as
 * it was. 13 at 0 where it does not fit; nothing else is refused. */
uint32_t ospirnar_listing(const uint8_t *input, size_t input_len, uint8_t *output, size_t output_len, size_t *place);

/* The field question: the first kept header field of the message whose name is `name`, of the final head in a response. `name` is in lower case; the message's
 * names are compared in lower case, so that a `name` with a capital letter, and an empty one, find nothing.
 *
 * 1: its value is a part of the input, *start and *length say which (a length of 0 is an empty value that was found). 0: there is none, so the caller's default is
 * meant; *start and *length are 0. A slice can't be handed back to C: start and length stand for it, and the default stays with the caller.
 * *number and *place are those of the reader of that form: 0 and 0 for an accepted message, found or not; 1 and the input's length where more octets are needed, and the
 * number and place of a refusal, with the answer 0. All four are always written; nothing else is. */

/* To the first HTTP/1.1 request of a stream, under the scheme told. */
uint32_t ospirnar_request_field(const uint8_t *input, size_t input_len, uint32_t scheme, const uint8_t *name, size_t name_len, uint32_t *number, size_t *place,
                                size_t *start, size_t *length);

/* To the first HTTP/1.1 response of a stream. */
uint32_t ospirnar_response_field(const uint8_t *input, size_t input_len, uint32_t head, uint32_t closed, const uint8_t *name, size_t name_len,
                                 uint32_t *number, size_t *place, size_t *start, size_t *length);

/* To a Binary HTTP message: the whole input. */
uint32_t ospirnar_binary_field(const uint8_t *input, size_t input_len, uint32_t head, uint32_t edition, const uint8_t *name, size_t name_len, uint32_t *number,
                               size_t *place, size_t *start, size_t *length);

/* Bundles (document 02, items 1, 6, 11 and 12): entries one behind the other, at most 256, each a head of four octets and a Binary message as ospirnar_binary_to_binary writes it. The
 * head is a number of 32 bits, most significant octet first: 7 bits flock (1 to 127), 1 bit delivered, 2 bits kind (0 request, 1 response), 22 bits length of the
 * message. These calls answer by value. A call of them keeps 65,535 octets and some KB beside on the stack. */

#define OSPIRNAR_ENTRIES_MOST 256 /* entries of a bundle */
#define OSPIRNAR_ENTRY_NUMBERS 3  /* numbers that describe an entry: its head, and start and length of its message in the input */

/* The parts of a head. */
#define OSPIRNAR_FLOCK(head) ((uint32_t)(head) >> 25)
#define OSPIRNAR_DELIVERED(head) ((uint32_t)(head) >> 24 & 1)
#define OSPIRNAR_KIND(head) ((uint32_t)(head) >> 22 & 3)
#define OSPIRNAR_LENGTH(head) ((uint32_t)(head) & 0x3fffff)

/* number 0: `place` is the bundle's length, `count` the number of its entries. Otherwise a refusal: `place` is where it arose, `count` is 0. */
struct ospirnar_bundle_answer {
    uint32_t number;
    size_t place, count;
};

/* number 0: `place` is 0, `used` the length of the bundle afterwards, `long_forms` how many integers of the message were not in their shortest form. Otherwise a refusal: `place` is where it arose, `used` is as it was told. */
struct ospirnar_append_answer {
    uint32_t number;
    size_t place, used, long_forms;
};

/* The record of one flock in a table: its entries, the octets of their messages (heads not counted), and how many of them are undelivered. A table is OSPIRNAR_FLOCKS records, the first that of flock 1. Of an
 * empty bundle all are zero; ospirnar_rebuild makes that of any bundle. A call that is lent a table keeps it true if it was; on another table each of the three numbers wraps at 32 bits by itself. */
#define OSPIRNAR_FLOCKS 127
struct ospirnar_flock {
    uint32_t entries, bytes, undelivered;
};

/* number 0: `place` is 0, and the flock's record. Otherwise a refusal: `place` is 0 and all else is 0. */
struct ospirnar_totals_answer {
    uint32_t number;
    size_t place;
    uint32_t entries, bytes, undelivered;
};

/* number 0: `place` is 0, `used` the length of the bundle afterwards. Otherwise a refusal: `place` is where it arose, `used` is as it was told. */
struct ospirnar_table_answer {
    uint32_t number;
    size_t place, used;
};

/* number 0: `place` is 0, `len` the number of octets written. Otherwise a refusal: `place` is where it arose, `len` is 0. */
struct ospirnar_list_answer {
    uint32_t number;
    size_t place, len;
};

/* number 0: `place` is 0, `entries` and `kept` are the entries and octets kept, `left` the octets left off, `stop` the refusal that stopped it (0 where the whole input is a bundle).
 * Otherwise a refusal: `place` is where it arose, all else is 0. */
struct ospirnar_salvage_answer {
    uint32_t number;
    size_t place, entries, kept, left;
    uint32_t stop;
};

/* The bundle that the input is: three numbers for each entry, in order, into `entries`; all behind them stays. Refusals, all placed at the entry's first octet: 9 for a cut head; 8 for a
 * 257th entry; 15 for flock 0 or kind 2 or 3; 8 for a length above 65,535; 9 for a cut message; the message's own number; 15 for a kind other than the message's or a message that is
 * not as we write it. Then 13 at 0 where the numbers do not fit (OSPIRNAR_ENTRIES_MOST * OSPIRNAR_ENTRY_NUMBERS are always enough). A refusal alters nothing. */
struct ospirnar_bundle_answer ospirnar_read_bundle(const uint8_t *input, size_t input_len, uint32_t *entries, size_t entries_len);

/* A Binary message behind the bundle that the first `used` octets of the buffer are, as an undelivered entry of the flock: written anew, straight into the room behind its head; and one entry
 * more in the flock's record. Refusals: 16 at 0 for a table that has not 127 records, too many as too few; 13 at 0 for a used length past the buffer; the bundle's own; 8 at 0 for a 257th entry; 15 at
 * 0 for a flock outside 1 to 127; the message's own at its own place; 8 at 0 where it would be above 65,535 octets; 13 at 0 where there is no room. A refusal alters neither buffer nor table; an
 * acceptance no octet before `used` and none behind the new used length, and no other record. */
struct ospirnar_append_answer ospirnar_append(struct ospirnar_flock *table, size_t records, uint8_t *buffer, size_t buffer_len, size_t used, uint32_t flock,
                                              const uint8_t *message, size_t message_len);

/* One flock's totals, read off its one record. Refusals: 16 at 0 for a table that has not 127 records; 15 at 0 for a flock outside 1 to 127. */
struct ospirnar_totals_answer ospirnar_totals(const struct ospirnar_flock *table, size_t records, uint32_t flock);

/* The table of the bundle that the input is: all 127 records are written, whatever they held; `used` is the input's length. Refusals: 16 at 0 for a table that has not 127 records; the bundle's own. A refusal alters no
 * record. */
struct ospirnar_table_answer ospirnar_rebuild(struct ospirnar_flock *table, size_t records, const uint8_t *input, size_t input_len);

/* The entry of this number, counted from 0, of the bundle that the first `used` octets of the buffer are, is delivered from now on: one bit of its head is set, and its flock's record has one
 * undelivered entry less. An entry that is delivered already is accepted, and nothing changes. Refusals: 16 at 0 for a table that has not 127 records; 13 at 0 for a used length past the buffer; the
 * bundle's own; 18 at 0 for an entry number that is not there. A refusal alters neither buffer nor table. */
struct ospirnar_table_answer ospirnar_mark(struct ospirnar_flock *table, size_t records, uint8_t *buffer, size_t buffer_len, size_t used, size_t entry);

/* The delivered entries are swept out of the bundle that the first `used` octets of the buffer are: the others move forward, in order and with all their octets, and `used` is their end; every octet
 * from there on stays as it was before the call. What is taken off the table is the entries and octets of message of those that went, flock by flock. Refusals: 16 at 0 for a table that has not 127 records; 13 at 0
 * for a used length past the buffer; the bundle's own. A refusal alters neither buffer nor table. */
struct ospirnar_table_answer ospirnar_sweep(struct ospirnar_flock *table, size_t records, uint8_t *buffer, size_t buffer_len, size_t used);

/* The entries of one flock, heads and messages, delivered ones too, copied in order: itself a bundle. Refusals: the bundle's own; 15 at 0 for a flock outside 1 to 127; 13 at 0 where it does
 * not fit. A refusal alters nothing. */
struct ospirnar_list_answer ospirnar_flock_list(const uint8_t *input, size_t input_len, uint32_t flock, uint8_t *output, size_t output_len);

/* Of whatever octets, a transfer that stopped anywhere or was damaged: the longest front of whole entries that ospirnar_read_bundle accepts, copied; itself a bundle. `stop` is the number that
 * ospirnar_read_bundle gives for the whole input, and `kept` its place. The only refusal is 13 at 0 where what is kept does not fit; it alters nothing. */
struct ospirnar_salvage_answer ospirnar_salvage(const uint8_t *input, size_t input_len, uint8_t *output, size_t output_len);

/* The line that the salvage program prints for an input, `kept ENTRIES OCTETS left OCTETS stop NUMBER` and LF; above 65,536 octets `kept 0 0 left 65536 stop 8`. 13 at 0 where it does not fit (99
 * octets are always enough); nothing else is refused. */
struct ospirnar_list_answer ospirnar_salvage_line(const uint8_t *input, size_t input_len, uint8_t *output, size_t output_len);

#ifdef __cplusplus
}
#endif

#endif
