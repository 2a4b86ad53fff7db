/* Counting, asking and comparing, and snapshots and policies made by hand; desk.h says what each is for. */
#include "desk.h"

#include <stdio.h>
#include <string.h>

static unsigned passed, failed;

void check(bool right, const char *what) {
    if (right) {
        passed++;
    } else {
        failed++;
        printf("FAILED: %s\n", what);
    }
}

int report(void) {
    printf("%u passed, %u failed\n", passed, failed);
    return failed == 0 && passed > 0 ? 0 : 1;
}

uint8_t before(size_t place) {
    return (uint8_t)(31 * place + 17);
}

bool holds(const uint8_t *area, size_t area_len, const uint16_t *rows, size_t routers) {
    for (size_t place = 0; place < area_len; place++) {
        uint8_t wanted = before(place);
        if (place < 4 * routers) {
            uint16_t row = rows[place / 2];
            wanted = (uint8_t)(place % 2 == 0 ? row >> 8 : row);
        }
        if (area[place] != wanted) {
            return false;
        }
    }
    return true;
}

void answered(const char *what, const uint8_t *snapshot, size_t length, uint32_t prefix, size_t area_len,
              uint32_t wanted, const uint16_t *rows, size_t routers) {
    uint8_t area[512];
    for (size_t place = 0; place < sizeof area; place++) {
        area[place] = before(place);
    }
    uint32_t given = barrierose_forecast(snapshot, length, prefix, area, area_len);
    check(given == wanted, what);
    if (given != wanted) {
        printf("    %u in the place of %u\n", (unsigned)given, (unsigned)wanted);
    }
    check(holds(area, sizeof area, rows, routers), what);
}

void refused(const char *what, const uint8_t *snapshot, size_t length, uint32_t prefix, size_t area_len,
             uint32_t wanted) {
    answered(what, snapshot, length, prefix, area_len, wanted, NULL, 0);
}

/* What stands before P5's routes. */
#define P5_NETWORK \
    1, 3, \
    2, 0, 10, 0, 0, 1, \
    2, 1, 10, 0, 0, 2, \
    2, 2, 10, 0, 0, 3, \
    3, 0, 1, 0, 0, 0, 4, \
    3, 0, 2, 0, 0, 0, 5, \
    3, 1, 0, 0, 0, 0, 4, \
    3, 1, 2, 0, 0, 0, 9, \
    3, 2, 0, 0, 0, 0, 5, \
    3, 2, 1, 0, 0, 0, 9, \
    4, 198, 51, 100, 0, 24

const uint8_t p5[P5_LENGTH] = {
    P5_NETWORK,
    5, 0, 0xfd, 0xe9, 0, 0, 0, 100, 0, 2, 0, 1, 0, 0, 0, 0, 0, 0, 0, 2, 192, 0, 2, 1,
    5, 0, 0xfd, 0xea, 0, 0, 0, 100, 0, 2, 0, 1, 0, 0, 0, 5, 0, 0, 0, 1, 192, 0, 2, 2,
    5, 1, 0xfd, 0xea, 0, 0, 0, 100, 0, 2, 0, 1, 0, 0, 0, 0, 0, 0, 0, 2, 192, 0, 2, 5,
    5, 1, 0xfd, 0xe9, 0, 0, 0, 100, 0, 2, 0, 1, 0, 0, 0, 5, 0, 0, 0, 1, 192, 0, 2, 6,
    6, 0, 0, 0, 15,
};

const uint16_t p5_rows[2 * 3] = {1, 0, 3, 2, 1, 0};
const uint16_t settled_rows[2 * 3] = {1, 1, 3, 3, 1, 1};

void make_long_p5(uint8_t bytes[LONG_P5_LENGTH], uint32_t neighbour_as) {
    memcpy(bytes, p5, 70);
    bytes[68] = 7;
    for (size_t place = 0; place < 4; place++) {
        bytes[70 + place] = (uint8_t)(neighbour_as >> (8 * (3 - place)));
    }
    memcpy(bytes + 74, p5 + 72, P5_LENGTH - 72);
}

static void put(struct making *making, size_t width, uint32_t value) {
    for (size_t left = width; left > 0; left--) {
        making->bytes[making->length++] = (uint8_t)(value >> (8 * (left - 1)));
    }
}

static void put_kind(struct making *making, uint8_t kind) {
    put(making, 1, kind);
    making->records++;
}

void make_network(struct making *making, uint8_t routers) {
    making->length = 0;
    making->records = 0;
    put_kind(making, 1);
    put(making, 1, routers);
    for (uint8_t router = 0; router < routers; router++) {
        put_kind(making, 2);
        put(making, 1, router);
        put(making, 4, router + 1u);
    }
    for (uint8_t from = 0; from < routers; from++) {
        for (uint8_t to = 0; to < routers; to++) {
            if (from != to) {
                put_kind(making, 3);
                put(making, 1, from);
                put(making, 1, to);
                put(making, 4, 1);
            }
        }
    }
}

void make_prefix(struct making *making, uint32_t address, uint8_t length) {
    put_kind(making, 4);
    put(making, 4, address);
    put(making, 1, length);
}

void make_route(struct making *making, uint8_t router, uint32_t neighbour_as, uint32_t preference, uint32_t med,
                uint32_t neighbour_id, uint32_t peer) {
    bool is_long = neighbour_as > 65535;
    put_kind(making, is_long ? 7 : 5);
    put(making, 1, router);
    put(making, is_long ? 4 : 2, neighbour_as);
    put(making, 4, preference);
    put(making, 2, 2);
    put(making, 1, 0);
    put(making, 1, 1);
    put(making, 4, med);
    put(making, 4, neighbour_id);
    put(making, 4, peer);
}

void make_end(struct making *making) {
    uint32_t records = making->records;
    put_kind(making, 6);
    put(making, 4, records);
}

void make_longest(struct making *making) {
    make_network(making, 64);
    for (uint32_t prefix = 0; prefix < 64; prefix++) {
        make_prefix(making, prefix << 24, 8);
        for (uint32_t peer = 1; peer <= 16; peer++) {
            make_route(making, 0, 65536, 100, 0, 1, peer);
        }
    }
    make_end(making);
}

size_t longest_preference(const struct making *longest, size_t row) {
    size_t first_prefix = longest->length - 5 - 64 * (6 + 16 * 26);
    return first_prefix + 6 + 26 * row + 9;
}

bool begins(const uint8_t *out, size_t out_len, const uint8_t *wanted, size_t length) {
    for (size_t place = 0; place < out_len; place++) {
        if (out[place] != (place < length ? wanted[place] : before(place))) {
            return false;
        }
    }
    return true;
}

/* Applies a policy, with bytes behind the output that are watched too; a refusal wants nothing written. */
static void apply(const char *what, const uint8_t *snapshot, size_t length, const uint8_t *policy, size_t policy_len,
                  size_t out_len, uint32_t wanted_number, const uint8_t *wanted) {
    static uint8_t out[BARRIEROSE_LONGEST + 2000];
    for (size_t place = 0; place < sizeof out; place++) {
        out[place] = before(place);
    }
    uint32_t given = barrierose_policy(snapshot, length, policy, policy_len, out, out_len);
    check(given == wanted_number, what);
    if (given != wanted_number) {
        printf("    %u in the place of %u\n", (unsigned)given, (unsigned)wanted_number);
    }
    check(begins(out, sizeof out, wanted, wanted == NULL ? 0 : length), what);
}

void policy_refused(const char *what, const uint8_t *snapshot, size_t length, const uint8_t *policy, size_t policy_len,
                    size_t out_len, uint32_t wanted) {
    apply(what, snapshot, length, policy, policy_len, out_len, wanted, NULL);
}

void policy_applied(const char *what, const uint8_t *snapshot, size_t length, const uint8_t *policy, size_t policy_len,
                    size_t out_len, const uint8_t *wanted) {
    apply(what, snapshot, length, policy, policy_len, out_len, 0, wanted);
}

const uint8_t worked[WORKED_LENGTH] = {
    1, 0, 192, 0, 2, 2,
    5,
    2, 198, 51, 100, 0, 24, 0, 0, 0, 200,
    3, 0, 0, 0xfd, 0xe9, 0, 0, 0, 150,
    1, 1, 192, 0, 2, 5,
    4, 0, 0, 0, 90,
    6, 0, 0, 0, 6,
};

const uint8_t p5_rewritten[P5_LENGTH] = {
    P5_NETWORK,
    5, 0, 0xfd, 0xe9, 0, 0, 0, 100, 0, 2, 0, 1, 0, 0, 0, 0, 0, 0, 0, 2, 192, 0, 2, 1,
    5, 0, 0xfd, 0xea, 0, 0, 0, 200, 0, 2, 0, 1, 0, 0, 0, 0, 0, 0, 0, 1, 192, 0, 2, 2,
    5, 1, 0xfd, 0xea, 0, 0, 0, 90, 0, 2, 0, 1, 0, 0, 0, 0, 0, 0, 0, 2, 192, 0, 2, 5,
    5, 1, 0xfd, 0xe9, 0, 0, 0, 100, 0, 2, 0, 1, 0, 0, 0, 5, 0, 0, 0, 1, 192, 0, 2, 6,
    6, 0, 0, 0, 15,
};

const uint8_t no_sessions[NO_SESSIONS_LENGTH] = {6, 0, 0, 0, 0};

void make_policy(struct making *making) {
    making->length = 0;
    making->records = 0;
}

void make_session(struct making *making, uint8_t router, uint32_t peer) {
    put_kind(making, 1);
    put(making, 1, router);
    put(making, 4, peer);
}

void make_med_0(struct making *making) {
    put_kind(making, 5);
}

void make_prefix_clause(struct making *making, uint32_t address, uint8_t length, uint32_t preference) {
    put_kind(making, 2);
    put(making, 4, address);
    put(making, 1, length);
    put(making, 4, preference);
}

void make_as_clause(struct making *making, uint32_t neighbour_as, uint32_t preference) {
    put_kind(making, 3);
    put(making, 4, neighbour_as);
    put(making, 4, preference);
}

void make_clause(struct making *making, uint32_t preference) {
    put_kind(making, 4);
    put(making, 4, preference);
}

void make_longest_policy(struct making *making) {
    make_policy(making);
    for (uint32_t peer = 1; peer <= 64; peer++) {
        make_session(making, 0, peer);
        make_med_0(making);
        for (uint32_t number = 1; number <= 32; number++) {
            make_prefix_clause(making, 0, number == 31 ? 8 : 9, number == 31 ? peer : 999);
        }
    }
    make_end(making);
}
