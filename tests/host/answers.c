/* What the host call answers to sound snapshots, and which bytes of the area it leaves alone. */
#include "desk.h"

static struct making making;

static void areas_of_256_bytes_and_more(void) {
    answered("P5 in 256 bytes", p5, P5_LENGTH, 0, 256, 3, p5_rows, 3);
    answered("P5 in 257 bytes", p5, P5_LENGTH, 0, 257, 3, p5_rows, 3);
    answered("P5 in 512 bytes", p5, P5_LENGTH, 0, 512, 3, p5_rows, 3);
}

static void no_routes(void) {
    static const uint16_t none[2 * 3] = {BARRIEROSE_NONE, BARRIEROSE_NONE, BARRIEROSE_NONE,
                                         BARRIEROSE_NONE, BARRIEROSE_NONE, BARRIEROSE_NONE};
    make_network(&making, 3);
    make_prefix(&making, 0, 0);
    make_end(&making);
    answered("P1: no routes", making.bytes, making.length, 0, 256, 0, none, 3);
}

static void one_router_one_route(void) {
    static const uint16_t own[2] = {0, 0};
    make_network(&making, 1);
    make_prefix(&making, 0, 0);
    make_route(&making, 0, 1, 100, 0, 1, 1);
    make_end(&making);
    answered("P2: one router, one route", making.bytes, making.length, 0, 256, 0, own, 1);
}

/* The second prefix has a better route in row 1, the third none at all. */
static void each_prefix_by_its_number(void) {
    static const uint16_t rows[3][2 * 2] = {
        {0, 0, 0, 0}, {1, 1, 1, 1}, {BARRIEROSE_NONE, BARRIEROSE_NONE, BARRIEROSE_NONE, BARRIEROSE_NONE}};
    make_network(&making, 2);
    make_prefix(&making, 0x0a000000, 8);
    make_route(&making, 0, 1, 100, 0, 1, 1);
    make_prefix(&making, 0x0a000000, 9);
    make_route(&making, 0, 1, 100, 0, 1, 1);
    make_route(&making, 1, 1, 110, 0, 1, 1);
    make_prefix(&making, 0x0b000000, 8);
    make_end(&making);
    for (uint32_t prefix = 0; prefix < 3; prefix++) {
        answered("three prefixes", making.bytes, making.length, prefix, 256, 0, rows[prefix], 2);
    }
    refused("a fourth of three prefixes", making.bytes, making.length, 3, 256, 112);
}

/* 256 routes at router 0, of which the last one is the best. */
static void the_last_row(void) {
    static const uint16_t last[2] = {255, 255};
    make_network(&making, 1);
    make_prefix(&making, 0, 0);
    for (uint32_t row = 0; row < 256; row++) {
        make_route(&making, 0, 1, row, 0, 1, row + 1);
    }
    make_end(&making);
    answered("row 255", making.bytes, making.length, 0, 256, 0, last, 1);
}

/* P5 with 61 routers more, all as far from router 0 as from router 1: they take that of the lower router id. */
static void open_at_all_routers(void) {
    uint16_t rows[2 * 64] = {1, 0, 3, 2};
    for (size_t router = 2; router < 64; router++) {
        rows[2 * router] = 1;
        rows[2 * router + 1] = 0;
    }
    make_network(&making, 64);
    make_prefix(&making, 0, 0);
    make_route(&making, 0, 65001, 100, 0, 2, 1);
    make_route(&making, 0, 65002, 100, 5, 1, 2);
    make_route(&making, 1, 65002, 100, 0, 2, 5);
    make_route(&making, 1, 65001, 100, 5, 1, 6);
    make_end(&making);
    answered("64 routers differ, in 256 bytes", making.bytes, making.length, 0, 256, 64, rows, 64);
    answered("64 routers differ, in 257 bytes", making.bytes, making.length, 0, 257, 64, rows, 64);
}

/* All of its routes are alike but for the peer, so that row 0 is held everywhere. */
static void the_longest(void) {
    static const uint16_t first[2 * 64] = {0};
    make_longest(&making);
    check(making.length == 55623 && BARRIEROSE_LONGEST == 55623, "the longest snapshot has 55,623 bytes");
    answered("first prefix of the longest", making.bytes, making.length, 0, 256, 0, first, 64);
    answered("last prefix of the longest", making.bytes, making.length, 63, 256, 0, first, 64);
    refused("no further prefix", making.bytes, making.length, 64, 256, 112);
    refused("the longest and a byte", making.bytes, making.length + 1, 0, 256, 110);
    refused("the longest and many bytes", making.bytes, sizeof making.bytes, 0, 256, 110);
    refused("the longest less a byte", making.bytes, making.length - 1, 0, 256, 102);
}

/* The AS of P5's row 0 stands in row 3 too, in kind 5. These are others, some with the same last or first bytes. */
static void ases_of_four_bytes(void) {
    static const uint32_t others[] = {65536, 65537, 65536 + 65001, 65536 + 65535, 65536 + 23456, 65001u << 16,
                                      16777216 + 65001, 4294901760u + 65001, 4294967294u};
    uint8_t bytes[LONG_P5_LENGTH];
    for (size_t number = 0; number < sizeof others / sizeof *others; number++) {
        make_long_p5(bytes, others[number]);
        answered("P5 with an AS of four bytes", bytes, sizeof bytes, 0, 256, 0, settled_rows, 3);
    }
}

/* P5 with these two ASes is open; taken for one, they would settle it. */
static void p5_between(const char *what, uint32_t one, uint32_t other) {
    static const uint16_t rows[2 * 2] = {1, 0, 3, 2};
    make_network(&making, 2);
    make_prefix(&making, 0, 0);
    make_route(&making, 0, one, 100, 0, 2, 1);
    make_route(&making, 0, other, 100, 5, 1, 2);
    make_route(&making, 1, other, 100, 0, 2, 5);
    make_route(&making, 1, one, 100, 5, 1, 6);
    make_end(&making);
    answered(what, making.bytes, making.length, 0, 256, 2, rows, 2);
}

static void both_kinds_in_one_prefix(void) {
    p5_between("P5 between ASes of four bytes", 65536, 65537);
    p5_between("P5 between ASes alike in their last bytes", 65536 + 7, 131072 + 7);
    p5_between("P5 between an AS of two bytes and one of four", 7, 65536 + 7);
    p5_between("P5 between an AS of four bytes and one of two", 4294967294u, 65534);
}

/* Two customers of MED 5 and 0 and of one AS or two: in one, the lower MED is held everywhere. */
static void customers(const char *what, uint32_t one, uint32_t other, const uint16_t *rows) {
    make_network(&making, 2);
    make_prefix(&making, 0, 0);
    make_route(&making, 0, one, 100, 5, 1, 1);
    make_route(&making, 1, other, 100, 0, 2, 2);
    make_end(&making);
    answered(what, making.bytes, making.length, 0, 256, 0, rows, 2);
}

static void meds_within_one_as(void) {
    static const uint16_t lower_med[2 * 2] = {1, 1, 1, 1}, each_its_own[2 * 2] = {0, 0, 1, 1};
    customers("one AS of four bytes", 65550, 65550, lower_med);
    customers("the last AS", 4294967294u, 4294967294u, lower_med);
    customers("two ASes of four bytes", 65550, 65551, each_its_own);
    customers("two alike in their last bytes", 65536 + 7, 131072 + 7, each_its_own);
    customers("a long one and a short one", 65536 + 7, 7, each_its_own);
}

int main(void) {
    areas_of_256_bytes_and_more();
    no_routes();
    one_router_one_route();
    each_prefix_by_its_number();
    the_last_row();
    open_at_all_routers();
    ases_of_four_bytes();
    both_kinds_in_one_prefix();
    meds_within_one_as();
    the_longest();
    return report();
}
