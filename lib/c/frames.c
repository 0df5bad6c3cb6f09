/* Sample frames of document 01 through the C header: says each check that fails, and how many passed. */
#include <bhirkulom.h>

#include <stdio.h>
#include <string.h>

static int passed, failed;

static void check(const char *what, bool holds) {
    if (holds) {
        passed++;
    } else {
        failed++;
        printf("failed: %s\n", what);
    }
}

static bool head_is(struct bhirkulom_head h, size_t kind, size_t at, size_t len) {
    return h.kind == kind && h.at == at && h.len == len;
}

/* So many numbers, all the same. */
static bool all_are(const size_t *numbers, size_t count, size_t number) {
    for (size_t i = 0; i < count; i++) {
        if (numbers[i] != number) {
            return false;
        }
    }
    return true;
}

/* The numbers lent for a list of headers, full before each call. */
#define LENT 16
static size_t heads[LENT];

static void fill_heads(void) {
    for (size_t i = 0; i < LENT; i++) {
        heads[i] = 7;
    }
}

/* F12: one tag, IPv4 of total length 32, UDP of length 12, zeros up to 60 bytes. */
static void f12(void) {
    uint8_t frame[60] = {0};
    frame[12] = 0x81, frame[16] = 0x08, frame[18] = 0x45, frame[21] = 32, frame[27] = 17, frame[43] = 12;
    uint8_t before[60];
    memcpy(before, frame, 60);
    struct bhirkulom_packet p = bhirkulom_slice(frame, 60, BHIRKULOM_ETHERNET);
    check("F12 accepted", p.status == BHIRKULOM_THERE && p.refusal.number == 0);
    check("F12 link", head_is(p.link, BHIRKULOM_KIND_ETHERNET2, 0, 14));
    check("F12 tags", p.count == 1 && p.tags[0].at == 14 && p.tags[0].len == 4 && p.tags[1].len == 0);
    check("F12 net", head_is(p.net.header, BHIRKULOM_KIND_IPV4, 18, 20) && !p.net.fragmented);
    check("F12 extensions", p.net.exts.at == 38 && p.net.exts.len == 0);
    check("F12 transport", head_is(p.transport, BHIRKULOM_KIND_UDP, 38, 8));
    check("F12 payload", p.payload.at == 46 && p.payload.len == 4);
    check("F12 stop", p.number == 17 && p.numbering == BHIRKULOM_IP_NUMBER && p.stop == BHIRKULOM_STOP_TRANSPORT_READ);
    struct bhirkulom_count_reply n = bhirkulom_count(frame, 60, BHIRKULOM_ETHERNET);
    check("F12 count", n.status == BHIRKULOM_THERE && n.count == 4);
    struct bhirkulom_header_reply h = bhirkulom_header(frame, 60, BHIRKULOM_ETHERNET, 2);
    check("F12 header 2", h.status == BHIRKULOM_THERE && head_is(h.header, BHIRKULOM_KIND_IPV4, 18, 20));
    h = bhirkulom_header(frame, 60, BHIRKULOM_ETHERNET, 4);
    check("F12 no header 4", h.status == BHIRKULOM_NO_MORE && head_is(h.header, 0, 0, 0));
    fill_heads();
    n = bhirkulom_headers(frame, 60, BHIRKULOM_ETHERNET, 1, heads, 8);
    check("F12 headers from 1", n.status == BHIRKULOM_THERE && n.count == 4);
    check("F12 listed header 1", heads[0] == BHIRKULOM_KIND_VLAN && heads[1] == 14 && heads[2] == 4);
    check("F12 listed header 2", heads[3] == BHIRKULOM_KIND_IPV4 && heads[4] == 18 && heads[5] == 20);
    check("F12 no room for header 3", all_are(heads + 6, 2, 0));
    check("F12 not lent", all_are(heads + 8, LENT - 8, 7));
    fill_heads();
    n = bhirkulom_headers(frame, 60, BHIRKULOM_ETHERNET, 0, heads, LENT);
    check("F12 listed header 3", n.count == 4 && heads[9] == BHIRKULOM_KIND_UDP && heads[10] == 38 && heads[11] == 8);
    check("F12 zeros behind header 3", all_are(heads + 12, LENT - 12, 0));
    fill_heads();
    n = bhirkulom_headers(frame, 60, BHIRKULOM_ETHERNET, 4, heads, LENT);
    check("F12 no headers from 4", n.count == 4 && all_are(heads, LENT, 0));
    check("F12 unwritten", memcmp(before, frame, 60) == 0);
}

/* Which number names the payload: an EtherType that isn't opened, a tag type met with three held, UDP's and TCP's IP number. */
static void numberings(void) {
    uint8_t frame[60] = {0};
    frame[12] = 0x08, frame[13] = 0x06;
    struct bhirkulom_packet p = bhirkulom_slice(frame, 60, BHIRKULOM_ETHERNET);
    check("ARP", p.status == BHIRKULOM_THERE && p.stop == BHIRKULOM_STOP_ETHER_TYPE);
    check("ARP's EtherType", p.number == 0x0806 && p.numbering == BHIRKULOM_ETHER_TYPE);
    uint8_t tags[26] = {0};
    tags[12] = tags[16] = tags[20] = tags[24] = 0x81;
    p = bhirkulom_slice(tags, 26, BHIRKULOM_ETHERNET);
    check("fourth tag", p.status == BHIRKULOM_THERE && p.stop == BHIRKULOM_STOP_TAGS_FULL);
    check("fourth tag's EtherType", p.number == 0x8100 && p.numbering == BHIRKULOM_ETHER_TYPE);
    uint8_t packet[40] = {0x45, 0, 0, 28, 0, 0, 0, 0, 64, 17};
    p = bhirkulom_slice(packet, 28, BHIRKULOM_IPV4);
    check("UDP's IP number", p.status == BHIRKULOM_THERE && p.number == 17 && p.numbering == BHIRKULOM_IP_NUMBER);
    packet[3] = 40, packet[9] = 6, packet[32] = 0x50;
    p = bhirkulom_slice(packet, 40, BHIRKULOM_IPV4);
    check("TCP's IP number", p.status == BHIRKULOM_THERE && p.number == 6 && p.numbering == BHIRKULOM_IP_NUMBER);
    packet[9] = 0;
    p = bhirkulom_slice(packet, 40, BHIRKULOM_IPV4);
    check("IP number 0", p.stop == BHIRKULOM_STOP_IP_NUMBER && p.number == 0 && p.numbering == BHIRKULOM_IP_NUMBER);
}

/* F1's first, and a frame whose first byte has version 5 and IHL 4. */
static void refused(void) {
    uint8_t frame[20] = {0x54};
    struct bhirkulom_packet p = bhirkulom_slice(frame, 13, BHIRKULOM_ETHERNET);
    struct bhirkulom_row r = p.refusal;
    check("F1 refused", p.status == BHIRKULOM_REFUSED && r.number == BHIRKULOM_TOO_SHORT && p.count == 0);
    check("F1 no number", p.number == 0 && p.numbering == 0 && p.stop == 0);
    check("F1 place", r.layer == BHIRKULOM_KIND_ETHERNET2 && r.offset == 0);
    check("F1 values", r.values[0] == 14 && r.values[1] == 13 && r.values[2] == BHIRKULOM_SOURCE_SLICE);
    r = bhirkulom_header(frame, 20, BHIRKULOM_IPV4, 7).refusal;
    check("version before IHL", r.number == BHIRKULOM_IPV4_VERSION && r.values[0] == 5 && r.values[1] == 0);
    struct bhirkulom_count_reply n = bhirkulom_count(frame, 20, BHIRKULOM_IPV6);
    check("IPv6 too short", n.status == BHIRKULOM_REFUSED && n.count == 0 && n.refusal.values[0] == 40);
    size_t none[1] = {77};
    n = bhirkulom_headers(frame, 13, BHIRKULOM_ETHERNET, 0, none, 0);
    check("F1 no headers", n.status == BHIRKULOM_REFUSED && n.count == 0 && n.refusal.number == BHIRKULOM_TOO_SHORT && none[0] == 77);
    p = bhirkulom_slice(frame, 0, BHIRKULOM_ETHERNET);
    check("no bytes", p.status == BHIRKULOM_REFUSED && p.refusal.values[1] == 0);
}

/* One tag and IPv4 of total length 32, of which 22 bytes are there: two headers stand before the one that is refused. */
static void refused_behind_headers(void) {
    uint8_t frame[40] = {0};
    frame[12] = 0x81, frame[16] = 0x08, frame[18] = 0x45, frame[21] = 32, frame[27] = 17;
    fill_heads();
    struct bhirkulom_count_reply n = bhirkulom_headers(frame, 40, BHIRKULOM_ETHERNET, 0, heads, LENT);
    check("cut packet refused", n.status == BHIRKULOM_REFUSED && n.count == 0 && n.refusal.layer == BHIRKULOM_LAYER_IPV4_PACKET);
    check("cut packet, zeros alone", all_are(heads, LENT, 0));
    fill_heads();
    bhirkulom_headers(frame, 40, BHIRKULOM_ETHERNET, 1, heads, 4);
    check("cut packet from 1, zeros alone", all_are(heads, 4, 0) && all_are(heads + 4, LENT - 4, 7));
    struct bhirkulom_packet p = bhirkulom_slice(frame, 40, BHIRKULOM_ETHERNET);
    check("cut packet, no number", p.status == BHIRKULOM_REFUSED && p.number == 0 && p.numbering == 0);
}

static void no_such_entry(void) {
    uint8_t frame[14] = {0};
    size_t numbers[] = {0, 4, SIZE_MAX};
    for (int i = 0; i < 3; i++) {
        struct bhirkulom_packet p = bhirkulom_slice(frame, 14, numbers[i]);
        check("no such entry, slice", p.status == BHIRKULOM_NO_SUCH_ENTRY && p.link.kind == 0 && p.stop == 0 && p.numbering == 0);
        struct bhirkulom_header_reply h = bhirkulom_header(frame, 14, numbers[i], 0);
        check("no such entry, header", h.status == BHIRKULOM_NO_SUCH_ENTRY && h.header.kind == 0);
        struct bhirkulom_count_reply n = bhirkulom_count(frame, 14, numbers[i]);
        check("no such entry, count", n.status == BHIRKULOM_NO_SUCH_ENTRY && n.count == 0);
        fill_heads();
        n = bhirkulom_headers(frame, 14, numbers[i], 0, heads, LENT);
        check("no such entry, headers", n.status == BHIRKULOM_NO_SUCH_ENTRY && n.count == 0 && all_are(heads, LENT, 0));
    }
}

static void options(void) {
    const uint8_t bytes[] = {2, 4, 5, 0xb4, 254, 2, 3};
    struct bhirkulom_option_reply o = bhirkulom_option(bytes, 7, 0);
    check("option 0", o.status == BHIRKULOM_THERE && o.kind == 2 && o.at == 0 && o.len == 4 && o.known);
    o = bhirkulom_option(bytes, 7, 1);
    check("option 1", o.status == BHIRKULOM_THERE && o.kind == 254 && o.at == 4 && o.len == 2 && !o.known);
    o = bhirkulom_option(bytes, 7, 9);
    check("option 9", o.status == BHIRKULOM_REFUSED && o.refusal.number == BHIRKULOM_OPTION_NO_LENGTH_BYTE && o.refusal.offset == 6);
    o = bhirkulom_option(bytes, 6, 2);
    check("no option 2", o.status == BHIRKULOM_NO_MORE && o.refusal.number == 0);
}

/* F10 and F11. */
static void sums(void) {
    const uint8_t rfc[] = {0x00, 0x01, 0xf2, 0x03, 0xf4, 0xf5, 0xf6, 0xf7}, ones[] = {0xff, 0xff}, two[] = {1, 2};
    check("F10", bhirkulom_sum_answer(bhirkulom_sum_add(0, rfc, 8)) == 0x220d);
    check("F10 nothing", bhirkulom_sum_answer(0) == 0xffff);
    check("F10 ones", bhirkulom_sum_answer(bhirkulom_sum_add(0, ones, 2)) == 0);
    check("F10 no zero", bhirkulom_sum_answer_no_zero(bhirkulom_sum_add(0, ones, 2)) == 0xffff);
    uint16_t apart = bhirkulom_sum_add(bhirkulom_sum_add(0, two, 1), two + 1, 1);
    check("F11 apart", bhirkulom_sum_answer(apart) == 0xfcff);
    check("F11 at once", bhirkulom_sum_answer(bhirkulom_sum_add(0, two, 2)) == 0xfefd);
}

int main(void) {
    check("the library is of this header's interface", bhirkulom_interface() == BHIRKULOM_INTERFACE);
    f12();
    numberings();
    refused();
    refused_behind_headers();
    no_such_entry();
    options();
    sums();
    printf("C header: %d passed, %d failed\n", passed, failed);
    return failed != 0;
}
