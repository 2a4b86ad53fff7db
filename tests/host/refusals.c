/* Every refusal that the host call can give, each by hand: the number, and that no byte of the area changes. */
#include "desk.h"

#include <string.h>

static struct making making;

/* P5 with one value altered: `width` bytes at `at`, most significant first. An answer below 100 says that the value
 * is still in its range. */
struct altered {
    const char *what;
    size_t at;
    size_t width;
    uint32_t value;
    uint32_t wanted;
};

static const struct altered altered_values[] = {
    {"kind 0 first", 0, 1, 0, 103},
    {"kind 8 first", 0, 1, 8, 103},
    {"kind 255 first", 0, 1, 255, 103},
    {"kind 8 among the ids", 8, 1, 8, 103},
    {"kind 128 among the routes", 92, 1, 128, 103},
    {"an id first", 0, 1, 2, 104},
    {"the end first", 0, 1, 6, 104},
    {"kind 7 first", 0, 1, 7, 104},
    {"kind 7 where an id is due", 8, 1, 7, 104},
    {"kind 7 where a distance is due", 20, 1, 7, 104},
    {"kind 7 before the first prefix", 62, 1, 7, 104},
    {"a second number of routers", 2, 1, 1, 104},
    {"a distance where an id is due", 8, 1, 3, 104},
    {"an id where a distance is due", 20, 1, 2, 104},
    {"a prefix where a distance is due", 55, 1, 4, 104},
    {"the end where a distance is due", 55, 1, 6, 104},
    {"a route before the first prefix", 62, 1, 5, 104},
    {"a distance after the last pair", 62, 1, 3, 104},
    {"a number of routers among the routes", 92, 1, 1, 104},
    {"no routers", 1, 1, 0, 105},
    {"65 routers", 1, 1, 65, 105},
    {"an id's index of n", 3, 1, 3, 105},
    {"router id 0", 4, 4, 0, 105},
    {"from n", 21, 1, 3, 105},
    {"to n", 22, 1, 3, 105},
    {"distance 16,777,215", 23, 4, 16777215, 3},
    {"distance 16,777,216", 23, 4, 16777216, 105},
    {"prefix 10.0.0.1/24", 63, 4, 0x0a000001, 105},
    {"prefix 198.51.100.0/22", 67, 1, 22, 3},
    {"prefix 198.51.100.0/21", 67, 1, 21, 105},
    {"prefix length 32", 67, 1, 32, 3},
    {"prefix length 33", 67, 1, 33, 105},
    {"a route's router n", 141, 1, 3, 105},
    {"AS 0", 70, 2, 0, 105},
    {"AS 1", 70, 2, 1, 0},
    {"AS 23455", 70, 2, 23455, 0},
    {"AS 23456", 70, 2, 23456, 105},
    {"AS 23457", 70, 2, 23457, 0},
    {"AS 65,534", 70, 2, 65534, 0},
    {"AS 65,535", 70, 2, 65535, 105},
    {"path length 0", 76, 2, 0, 105},
    {"path length 65,535", 76, 2, 65535, 0},
    {"origin 2", 78, 1, 2, 0},
    {"origin 3", 78, 1, 3, 105},
    {"MED mark 0 with MED 0", 79, 1, 0, 3},
    {"MED mark 2", 79, 1, 2, 105},
    {"MED mark 0 with MED 5", 103, 1, 0, 105},
    {"neighbour id 0", 84, 4, 0, 105},
    {"peer 0", 88, 4, 0, 105},
    {"id 1 where id 0 is due", 3, 1, 1, 106},
    {"an equal pair", 22, 1, 0, 106},
    {"pair 0 2 where 0 1 is due", 22, 1, 2, 106},
    {"a route with the peer before it", 112, 4, 0xc0000201, 106},
    {"a route of a router before the last one's", 141, 1, 0, 106},
    {"the id of router 0 again", 10, 4, 0x0a000001, 107},
    {"the id of router 1 again", 16, 4, 0x0a000002, 107},
    {"an end that says 14", 165, 4, 14, 109},
    {"an end that says 16", 165, 4, 16, 109},
    {"an end that says 15 and a high bit", 165, 4, 0x8000000f, 109},
};

static void alter(uint8_t *bytes, const struct altered *altered) {
    for (size_t place = 0; place < altered->width; place++) {
        bytes[altered->at + place] = (uint8_t)(altered->value >> (8 * (altered->width - 1 - place)));
    }
}

static void values(void) {
    for (size_t number = 0; number < sizeof altered_values / sizeof *altered_values; number++) {
        const struct altered *altered = &altered_values[number];
        uint8_t bytes[P5_LENGTH];
        memcpy(bytes, p5, P5_LENGTH);
        alter(bytes, altered);
        if (altered->wanted > 100) {
            refused(altered->what, bytes, P5_LENGTH, 0, 256, altered->wanted);
        } else {
            /* With another AS, or put out in steps 2 or 3, row 0 no longer contests row 3. */
            const uint16_t *rows = altered->wanted == 0 ? settled_rows : p5_rows;
            answered(altered->what, bytes, P5_LENGTH, 0, 256, altered->wanted, rows, 3);
        }
    }
}

/* P5's row 0 of kind 7: with too small an AS, with the last number, and with other fields out of their range. */
static void values_of_kind_7(void) {
    static const uint32_t no_ases[] = {0, 1, 23455, 23456, 23457, 65001, 65534, 65535, 4294967295u};
    static const struct altered fields[] = {
        {"kind 7: a router n", 69, 1, 3, 105},     {"kind 7: path length 0", 78, 2, 0, 105},
        {"kind 7: origin 3", 80, 1, 3, 105},       {"kind 7: MED mark 2", 81, 1, 2, 105},
        {"kind 7: neighbour id 0", 86, 4, 0, 105}, {"kind 7: peer 0", 90, 4, 0, 105},
        {"kind 7: the peer behind it", 90, 4, 0xc0000202, 106},
    };
    uint8_t bytes[LONG_P5_LENGTH];
    for (size_t number = 0; number < sizeof no_ases / sizeof *no_ases; number++) {
        make_long_p5(bytes, no_ases[number]);
        refused("kind 7 with what is no AS of four bytes", bytes, sizeof bytes, 0, 256, 105);
    }
    for (size_t number = 0; number < sizeof fields / sizeof *fields; number++) {
        make_long_p5(bytes, 65536);
        alter(bytes, &fields[number]);
        refused(fields[number].what, bytes, sizeof bytes, 0, 256, fields[number].wanted);
    }
}

static void cut_short(void) {
    refused("no bytes", p5, 0, 0, 256, 102);
    refused("no bytes and a null pointer", NULL, 0, 0, 256, 102);
    refused("the single byte 1", p5, 1, 0, 256, 102);
    refused("cut before the distances", p5, 20, 0, 256, 102);
    refused("cut within a route", p5, 100, 0, 256, 102);
    refused("cut before the end record", p5, 164, 0, 256, 102);
    refused("cut within the end record", p5, P5_LENGTH - 1, 0, 256, 102);
}

static void a_prefix_that_does_not_rise(void) {
    static const uint8_t lengths[] = {8, 7};
    for (size_t number = 0; number < sizeof lengths; number++) {
        make_network(&making, 2);
        make_prefix(&making, 0x0a000000, 8);
        make_prefix(&making, 0x0a000000, lengths[number]);
        make_end(&making);
        refused("a prefix that does not rise", making.bytes, making.length, 0, 256, 106);
    }
}

/* Each of 64 routers with the id of each before it, and with one that a bit tells from that, in each byte in turn. */
static void twins(void) {
    make_network(&making, 64);
    make_end(&making);
    for (size_t later = 1; later < 64; later++) {
        uint8_t own[4], *id = making.bytes + 4 + 6 * later;
        memcpy(own, id, sizeof own);
        for (size_t earlier = 0; earlier < later; earlier++) {
            memcpy(id, making.bytes + 4 + 6 * earlier, sizeof own);
            refused("the id of an earlier router", making.bytes, making.length, 0, 256, 107);
            id[(earlier + later) % sizeof own] ^= 0x80;
            refused("another id, and no prefix", making.bytes, making.length, 0, 256, 112);
        }
        memcpy(id, own, sizeof own);
    }
}

static void full_of_prefixes(void) {
    make_network(&making, 1);
    for (uint32_t prefix = 0; prefix < 65; prefix++) {
        make_prefix(&making, prefix << 24, 8);
    }
    refused("65 prefixes", making.bytes, making.length, 0, 256, 108);
    refused("the kind byte of a 65th prefix", making.bytes, making.length - 5, 0, 256, 108);
    refused("64 prefixes and no end", making.bytes, making.length - 6, 0, 256, 102);
}

/* Prefixes with this many routes each, all at one router. */
static void make_routes(uint32_t prefixes, uint32_t routes) {
    make_network(&making, 1);
    for (uint32_t prefix = 0; prefix < prefixes; prefix++) {
        make_prefix(&making, prefix << 24, 8);
        for (uint32_t route = 0; route < routes; route++) {
            make_route(&making, 0, 1, 100, 0, 1, route + 1);
        }
    }
}

/* Both kinds count together: 255 routes of kind 5, one of kind 7, and one more of either. */
static void full_of_routes_of_both_kinds(void) {
    static const uint32_t last_ases[] = {1, 65536};
    for (size_t number = 0; number < sizeof last_ases / sizeof *last_ases; number++) {
        make_routes(1, 255);
        make_route(&making, 0, 65536, 100, 0, 1, 256);
        size_t sound = making.length;
        make_route(&making, 0, last_ases[number], 100, 0, 1, 257);
        refused("257 routes of both kinds", making.bytes, making.length, 0, 256, 108);
        refused("the kind byte of the 257th", making.bytes, sound + 1, 0, 256, 108);
        refused("256 routes of both kinds and no end", making.bytes, sound, 0, 256, 102);
    }
    make_routes(4, 256);
    make_prefix(&making, 4u << 24, 8);
    make_route(&making, 0, 65536, 100, 0, 1, 1);
    refused("1,025 routes, the last of kind 7", making.bytes, making.length, 0, 256, 108);
}

static void full_of_routes(void) {
    make_routes(1, 257);
    refused("257 routes in a prefix", making.bytes, making.length, 0, 256, 108);
    refused("the kind byte of a 257th route", making.bytes, making.length - 23, 0, 256, 108);
    make_routes(4, 256);
    make_prefix(&making, 4u << 24, 8);
    make_route(&making, 0, 1, 100, 0, 1, 1);
    refused("1,025 routes", making.bytes, making.length, 0, 256, 108);
    refused("1,024 routes, a prefix and no end", making.bytes, making.length - 24, 0, 256, 102);
}

static void followed(void) {
    uint8_t bytes[P5_LENGTH + 1];
    memcpy(bytes, p5, P5_LENGTH);
    for (unsigned after = 0; after < 256; after++) {
        bytes[P5_LENGTH] = (uint8_t)after;
        refused("a byte after the end record", bytes, sizeof bytes, 0, 256, 110);
    }
}

static void no_such_prefix(void) {
    static const uint32_t numbers[] = {1, 64, 256, 65536, 0x80000000, UINT32_MAX};
    for (size_t number = 0; number < sizeof numbers / sizeof *numbers; number++) {
        refused("no such prefix", p5, P5_LENGTH, numbers[number], 256, 112);
    }
    make_network(&making, 2);
    make_end(&making);
    refused("no prefixes at all", making.bytes, making.length, 0, 256, 112);
}

static void short_areas(void) {
    uint32_t given = barrierose_forecast(p5, P5_LENGTH, 0, NULL, 0);
    check(given == 101, "no area and a null pointer");
    refused("an area of no bytes", p5, P5_LENGTH, 0, 0, 101);
    refused("an area of 12 bytes for three routers", p5, P5_LENGTH, 0, 12, 101);
    refused("an area of 255 bytes", p5, P5_LENGTH, 0, 255, 101);
}

/* ROOM, the reading order, NO PREFIX. */
static void the_first_fault_counts(void) {
    refused("a short area and no bytes", p5, 0, 9, 255, 101);
    refused("a short area and no such prefix", p5, P5_LENGTH, 9, 255, 101);
    refused("a cut snapshot and no such prefix", p5, P5_LENGTH - 1, 9, 256, 102);
    uint8_t bytes[P5_LENGTH + 1] = {0};
    memcpy(bytes, p5, P5_LENGTH);
    bytes[P5_LENGTH - 1] = 14;
    refused("a wrong count, a tail and no such prefix", bytes, sizeof bytes, 9, 256, 109);
    bytes[88] = bytes[89] = bytes[90] = bytes[91] = 0;
    refused("a bad route, a wrong count and a tail", bytes, sizeof bytes, 9, 256, 105);
}

static void the_header_has_these_numbers(void) {
    static const int named[] = {BARRIEROSE_ROOM,  BARRIEROSE_CUT,   BARRIEROSE_KIND, BARRIEROSE_PLACE,
                                BARRIEROSE_FIELD, BARRIEROSE_ORDER, BARRIEROSE_TWIN, BARRIEROSE_FULL,
                                BARRIEROSE_COUNT, BARRIEROSE_TAIL};
    for (int number = 0; number < 10; number++) {
        check(named[number] == 101 + number, "the header's numbers 101 to 110");
    }
    check(BARRIEROSE_NO_PREFIX == 112, "the header's number 112");
}

int main(void) {
    values();
    values_of_kind_7();
    cut_short();
    a_prefix_that_does_not_rise();
    twins();
    full_of_prefixes();
    full_of_routes();
    full_of_routes_of_both_kinds();
    followed();
    no_such_prefix();
    short_areas();
    the_first_fault_counts();
    the_header_has_these_numbers();
    return report();
}
