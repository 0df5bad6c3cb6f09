/* Bhirkulom for C: the functions of libbhirkulom.a, which lib/build makes, for x86-64 Linux.
 *
 * Any bytes of any length get an answer. No bytes lent are written, only the numbers lent to bhirkulom_headers, which must
 * not overlap the frame; no pointer is kept. A pointer must not be null, also where the length is 0, and the bytes behind it
 * must not change during the call. The functions keep nothing from call to call, so any thread may call them. The numbers are
 * those of document 01; a part that a frame doesn't have is all zeros. Proved are the answers of the functions; this header
 * only says again, for C, what crates/exports/src/handed.rt has, and bin/check-interface holds it to that.
 */
#ifndef BHIRKULOM_H
#define BHIRKULOM_H

#include <assert.h>
#include <stdbool.h>
#include <stddef.h>
#include <stdint.h>

#ifdef __cplusplus
extern "C" {
#endif

/* The version of this interface. A library of another one hands over other structs: compare it with bhirkulom_interface() once, before any other call. */
#define BHIRKULOM_INTERFACE 2

/* How a frame begins. Any other number gets BHIRKULOM_NO_SUCH_ENTRY. */
enum bhirkulom_entry {
    BHIRKULOM_ETHERNET = 1, /* a whole Ethernet II frame, without the frame check sequence */
    BHIRKULOM_IPV4 = 2,
    BHIRKULOM_IPV6 = 3
};

enum bhirkulom_status {
    BHIRKULOM_THERE = 0, /* the frame is accepted, or what was asked for is there */
    BHIRKULOM_NO_MORE = 1,
    BHIRKULOM_REFUSED = 2,
    BHIRKULOM_NO_SUCH_ENTRY = 3
};

/* What the number is that names the payload. */
enum bhirkulom_numbering {
    BHIRKULOM_ETHER_TYPE = 1,
    BHIRKULOM_IP_NUMBER = 2
};

/* The kinds of header, and the layers of a refusal: a kind, or one of the last three. No header has the kind 0. */
enum bhirkulom_kind {
    BHIRKULOM_KIND_ETHERNET2 = 1,
    BHIRKULOM_KIND_VLAN = 2,
    BHIRKULOM_KIND_IPV4 = 3,
    BHIRKULOM_KIND_IPV6 = 4,
    BHIRKULOM_KIND_HOP_BY_HOP = 5,
    BHIRKULOM_KIND_ROUTING = 6,
    BHIRKULOM_KIND_DESTINATION = 7,
    BHIRKULOM_KIND_FRAGMENT = 8,
    BHIRKULOM_KIND_AUTH = 9,
    BHIRKULOM_KIND_UDP = 10,
    BHIRKULOM_KIND_TCP = 11,
    BHIRKULOM_LAYER_IPV4_PACKET = 13,
    BHIRKULOM_LAYER_IPV6_PACKET = 14,
    BHIRKULOM_LAYER_UDP_PAYLOAD = 15
};

enum bhirkulom_source {
    BHIRKULOM_SOURCE_SLICE = 1,
    BHIRKULOM_SOURCE_IPV4 = 2,
    BHIRKULOM_SOURCE_IPV6 = 3,
    BHIRKULOM_SOURCE_UDP = 4
};

enum bhirkulom_stop {
    BHIRKULOM_STOP_ETHER_TYPE = 1,
    BHIRKULOM_STOP_TAGS_FULL = 2,
    BHIRKULOM_STOP_FRAGMENT = 3,
    BHIRKULOM_STOP_IP_NUMBER = 4,
    BHIRKULOM_STOP_TRANSPORT_READ = 5
};

enum bhirkulom_reason {
    BHIRKULOM_TOO_SHORT = 1,
    BHIRKULOM_IPV4_VERSION = 2,
    BHIRKULOM_SMALL_IHL = 3,
    BHIRKULOM_IPV6_VERSION = 4,
    BHIRKULOM_HOP_BY_HOP_NOT_AT_START = 5,
    BHIRKULOM_ZERO_AUTH_LENGTH = 6,
    BHIRKULOM_SMALL_DATA_OFFSET = 7,
    BHIRKULOM_OPTION_NO_LENGTH_BYTE = 8,
    BHIRKULOM_OPTION_LENGTH_NOT_SOUND = 9,
    BHIRKULOM_OPTION_WRONG_SIZE = 10
};

#define BHIRKULOM_TAG_LIMIT 3

/* Some bytes of the frame: their offset from its start, and how many. */
struct bhirkulom_span {
    size_t at, len;
};

struct bhirkulom_head {
    size_t kind, at, len;
};

/* A frame's refusal. values: required, have and source for number 1; the value for 2, 3, 4 and 7; else zeros. */
struct bhirkulom_row {
    size_t number, layer, offset, values[3];
};

/* An IP header, and its extensions as one range, empty at the header's end where there are none. */
struct bhirkulom_net {
    struct bhirkulom_head header;
    struct bhirkulom_span exts;
    bool fragmented;
};

/* count: how many of tags are held. number: names the payload; numbering: which number that is, an EtherType or an IP number, and 0
 * where the frame isn't accepted. */
struct bhirkulom_packet {
    size_t status;
    struct bhirkulom_head link;
    size_t count;
    struct bhirkulom_span tags[BHIRKULOM_TAG_LIMIT];
    struct bhirkulom_net net;
    struct bhirkulom_head transport;
    struct bhirkulom_span payload;
    size_t number, numbering, stop;
    struct bhirkulom_row refusal;
};

struct bhirkulom_header_reply {
    size_t status;
    struct bhirkulom_head header;
    struct bhirkulom_row refusal;
};

struct bhirkulom_count_reply {
    size_t status, count;
    struct bhirkulom_row refusal;
};

/* The refusal of an option: its number, and the option's offset. */
struct bhirkulom_option_row {
    size_t number, offset;
};

/* kind: the option's first byte; known: it is one of document 01's. */
struct bhirkulom_option_reply {
    size_t status, kind, at, len;
    struct bhirkulom_option_row refusal;
    bool known;
};

static_assert(sizeof(size_t) == 8, "x86-64 alone");
static_assert(sizeof(struct bhirkulom_packet) == 248, "layout");
static_assert(sizeof(struct bhirkulom_header_reply) == 80, "layout");
static_assert(sizeof(struct bhirkulom_count_reply) == 64, "layout");
static_assert(sizeof(struct bhirkulom_option_reply) == 56, "layout");

/* The version of the interface that the library was built with: BHIRKULOM_INTERFACE, if it is this header's. */
size_t bhirkulom_interface(void);

/* The whole reply to a frame: there, refused, or no such entry. */
struct bhirkulom_packet bhirkulom_slice(const uint8_t *frame, size_t len, size_t entry);

/* Header number k of a frame, from 0. A refused frame gives its refusal for every k. */
struct bhirkulom_header_reply bhirkulom_header(const uint8_t *frame, size_t len, size_t entry, size_t k);

/* How many headers a frame has: there, refused, or no such entry. */
struct bhirkulom_count_reply bhirkulom_count(const uint8_t *frame, size_t len, size_t entry);

/* The headers of a frame from number k on, three numbers each: kind, offset, length. As many are written to heads as its room has whole
 * threes for, and zeros to all the rest of it. Of a refused frame, and for a number that no entry has, zeros alone are written. What was in
 * heads before plays no part. The answer is that of bhirkulom_count. */
struct bhirkulom_count_reply bhirkulom_headers(const uint8_t *frame, size_t len, size_t entry, size_t k, size_t *heads, size_t room);

/* Option number k, from 0, of what follows byte 20 of a TCP header. */
struct bhirkulom_option_reply bhirkulom_option(const uint8_t *bytes, size_t len, size_t k);

/* The Internet checksum: a sum starts at 0; add slices to it; the answer goes into a header high byte first. A slice of
 * odd length is padded with one zero byte where it ends. The second answer turns 0 into 0xffff, for UDP. */
uint16_t bhirkulom_sum_add(uint16_t sum, const uint8_t *bytes, size_t len);
uint16_t bhirkulom_sum_answer(uint16_t sum);
uint16_t bhirkulom_sum_answer_no_zero(uint16_t sum);

#ifdef __cplusplus
}
#endif

#endif
