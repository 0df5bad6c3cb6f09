/* Prints the parts of the Ethernet frame in a file, or its refusal, in the words of the program slice_frame.
 *
 *     example FILE
 *
 * The status is 0 for an accepted frame, 1 for a refused one, 2 for trouble. */
#include <bhirkulom.h>

#include <stdio.h>

#define MOST_BYTES 65536

/* The names of kinds and layers, by number. */
static const char *const names[] = {
    [BHIRKULOM_KIND_ETHERNET2] = "ethernet2",
    [BHIRKULOM_KIND_VLAN] = "vlan",
    [BHIRKULOM_KIND_IPV4] = "ipv4",
    [BHIRKULOM_KIND_IPV6] = "ipv6",
    [BHIRKULOM_KIND_HOP_BY_HOP] = "hop-by-hop",
    [BHIRKULOM_KIND_ROUTING] = "routing",
    [BHIRKULOM_KIND_DESTINATION] = "destination",
    [BHIRKULOM_KIND_FRAGMENT] = "fragment",
    [BHIRKULOM_KIND_AUTH] = "auth",
    [BHIRKULOM_KIND_UDP] = "udp",
    [BHIRKULOM_KIND_TCP] = "tcp",
    [BHIRKULOM_LAYER_IPV4_PACKET] = "ipv4-packet",
    [BHIRKULOM_LAYER_IPV6_PACKET] = "ipv6-packet",
    [BHIRKULOM_LAYER_UDP_PAYLOAD] = "udp-payload",
};

static const char *const sources[] = {
    [BHIRKULOM_SOURCE_SLICE] = "slice",
    [BHIRKULOM_SOURCE_IPV4] = "ipv4",
    [BHIRKULOM_SOURCE_IPV6] = "ipv6",
    [BHIRKULOM_SOURCE_UDP] = "udp",
};

static void print_refusal(struct bhirkulom_row r) {
    printf("refused %zu %s %zu", r.number, names[r.layer], r.offset);
    switch (r.number) {
    case BHIRKULOM_TOO_SHORT:
        printf(" required %zu have %zu source %s", r.values[0], r.values[1], sources[r.values[2]]);
        break;
    case BHIRKULOM_IPV4_VERSION:
    case BHIRKULOM_SMALL_IHL:
    case BHIRKULOM_IPV6_VERSION:
    case BHIRKULOM_SMALL_DATA_OFFSET:
        printf(" %zu", r.values[0]);
        break;
    }
    printf("\n");
}

/* The headers, a few to a call: a chain may be as long as the frame. */
static void print_headers(const uint8_t *frame, size_t len) {
    size_t heads[3 * 16], count, k = 0;
    do {
        count = bhirkulom_headers(frame, len, BHIRKULOM_ETHERNET, k, heads, 3 * 16).count;
        for (size_t i = 0; i < 16 && k < count; i++, k++) {
            printf("%s %zu %zu\n", names[heads[3 * i]], heads[3 * i + 1], heads[3 * i + 2]);
        }
    } while (k < count);
}

int main(int argc, char **argv) {
    static uint8_t frame[MOST_BYTES + 1];
    if (bhirkulom_interface() != BHIRKULOM_INTERFACE) {
        fprintf(stderr, "example: the library is of interface %zu, and this program was compiled for %d\n", bhirkulom_interface(), BHIRKULOM_INTERFACE);
        return 2;
    }
    if (argc != 2) {
        fprintf(stderr, "example: which file?\n");
        return 2;
    }
    FILE *file = fopen(argv[1], "rb");
    if (file == NULL) {
        perror(argv[1]);
        return 2;
    }
    size_t len = fread(frame, 1, sizeof frame, file);
    if (ferror(file) || len > MOST_BYTES) {
        fprintf(stderr, "example: %s: not read, or longer than %d bytes\n", argv[1], MOST_BYTES);
        return 2;
    }
    fclose(file);
    struct bhirkulom_packet p = bhirkulom_slice(frame, len, BHIRKULOM_ETHERNET);
    if (p.status != BHIRKULOM_THERE) {
        print_refusal(p.refusal);
        return 1;
    }
    print_headers(frame, len);
    printf("payload %zu %zu\nstop %zu\n", p.payload.at, p.payload.len, p.stop);
    return 0;
}
