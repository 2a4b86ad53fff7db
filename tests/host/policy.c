/* What the call that applies a policy answers, each by hand from document 02: the bytes rewritten, or the refusal. */
#include "desk.h"

#include <string.h>

static struct making making;

/* P5 in an output of its own length. */
static void on_p5_refused(const char *what, const uint8_t *policy, size_t policy_len, uint32_t wanted) {
    policy_refused(what, p5, P5_LENGTH, policy, policy_len, P5_LENGTH, wanted);
}

static void the_worked_sample(void) {
    policy_applied("the worked sample", p5, P5_LENGTH, worked, WORKED_LENGTH, P5_LENGTH, p5_rewritten);
    policy_applied("in a byte more", p5, P5_LENGTH, worked, WORKED_LENGTH, P5_LENGTH + 1, p5_rewritten);
    policy_applied("in far more", p5, P5_LENGTH, worked, WORKED_LENGTH, BARRIEROSE_LONGEST, p5_rewritten);
}

/* Preferences 1, 7, 4,294,967,295 and 2,147,483,748: none survives. */
static void without_sessions_every_route_gets_100(void) {
    uint8_t other[P5_LENGTH];
    memcpy(other, p5, P5_LENGTH);
    other[75] = 1;
    other[99] = 7;
    memset(other + 120, 255, 4);
    other[144] = 128;
    policy_applied("no sessions", other, P5_LENGTH, no_sessions, NO_SESSIONS_LENGTH, P5_LENGTH, p5);
}

/* One router with four routes: AS 7 direct, AS 7 by a path of 2, AS 8 direct, AS 7 direct without a MED. */
static void make_four(struct making *four) {
    make_network(four, 1);
    make_prefix(four, 0x0a000000, 8);
    for (uint32_t peer = 1; peer <= 4; peer++) {
        make_route(four, 0, peer == 3 ? 8 : 7, 100, peer == 4 ? 0 : 5, 1, peer);
    }
    make_end(four);
    for (size_t row = 0; row < 4; row++) {
        four->bytes[14 + 24 * row + 9] = row == 1 ? 2 : 1;
    }
    four->bytes[14 + 24 * 3 + 11] = 0;
}

/* Applies the policy being made to the four routes; wanted are their preferences, and which of them get MED 0. */
static void on_four(const char *what, const uint8_t preferences[4], const bool med_0[4]) {
    static struct making four, wanted;
    make_end(&making);
    make_four(&four);
    make_four(&wanted);
    for (size_t row = 0; row < 4; row++) {
        uint8_t *route = wanted.bytes + 14 + 24 * row;
        route[7] = preferences[row];
        if (med_0[row]) {
            route[11] = 1;
            route[15] = 0;
        }
    }
    policy_applied(what, four.bytes, four.length, making.bytes, making.length, four.length, wanted.bytes);
}

static void clauses_that_fit(void) {
    static const bool none[4] = {false}, first_and_last[4] = {true, false, false, true};
    make_policy(&making);
    for (uint32_t peer = 1; peer <= 4; peer++) {
        make_session(&making, 0, peer);
        make_as_clause(&making, 7, 150);
        make_clause(&making, 90);
    }
    on_four("direct paths from an AS, then all", (const uint8_t[4]){150, 90, 90, 150}, none);
    make_policy(&making);
    make_session(&making, 0, 1);
    make_med_0(&making);
    make_as_clause(&making, 65536 + 7, 1);
    make_prefix_clause(&making, 0x0a000000, 9, 2);
    make_session(&making, 0, 4);
    make_med_0(&making);
    make_prefix_clause(&making, 0x0a000000, 8, 200);
    make_as_clause(&making, 7, 150);
    on_four("MED 0, and the first clause that fits", (const uint8_t[4]){100, 100, 100, 200}, first_and_last);
    make_policy(&making);
    make_session(&making, 0, 5);
    make_clause(&making, 1);
    make_session(&making, 1, 1);
    make_med_0(&making);
    make_clause(&making, 2);
    make_session(&making, 255, 2);
    make_clause(&making, 3);
    on_four("other sessions", (const uint8_t[4]){100, 100, 100, 100}, none);
}

/* P5's row 0 as a direct path of kind 7. A clause for its AS fits it; those for ASes alike in some bytes do not. */
static void a_clause_for_an_as_of_four_bytes(void) {
    static const uint32_t others[] = {1, 65535, 65537, 131072 + 1, 16777216 + 65537};
    uint8_t bytes[LONG_P5_LENGTH], wanted[LONG_P5_LENGTH];
    make_long_p5(bytes, 65537);
    bytes[79] = 1;
    memcpy(wanted, bytes, sizeof wanted);
    for (size_t number = 0; number < sizeof others / sizeof *others; number++) {
        make_policy(&making);
        make_session(&making, 0, 0xc0000201);
        make_as_clause(&making, others[number], 150);
        make_end(&making);
        wanted[77] = others[number] == 65537 ? 150 : 100;
        policy_applied("a clause and an AS of four bytes", bytes, sizeof bytes, making.bytes, making.length,
                       sizeof bytes, wanted);
    }
}

/* Of the first prefix each route gets its peer as its preference; all others get 100, which they have. */
static void the_longest(void) {
    static struct making longest, wanted;
    make_longest(&longest);
    make_longest(&wanted);
    for (size_t row = 0; row < 16; row++) {
        wanted.bytes[longest_preference(&wanted, row)] = (uint8_t)(row + 1);
    }
    make_longest_policy(&making);
    check(making.length == LONGEST_POLICY, "the longest policy has 20,933 bytes");
    policy_applied("the longest of both", longest.bytes, longest.length, making.bytes, making.length, longest.length,
                   wanted.bytes);
    policy_refused("the longest policy and a byte", longest.bytes, longest.length, making.bytes, making.length + 1,
                   longest.length, 210);
    policy_refused("the longest snapshot and a byte", longest.bytes, longest.length + 1, making.bytes, making.length,
                   longest.length + 1, 110);
}

/* The worked sample with one value altered: `width` bytes at `at`, most significant first; 0: it still applies. */
static const struct altered {
    const char *what;
    size_t at;
    size_t width;
    uint32_t value;
    uint32_t wanted;
} altered_values[] = {
    {"kind 0 first", 0, 1, 0, 203},
    {"kind 7 first", 0, 1, 7, 203},
    {"kind 255 among the clauses", 17, 1, 255, 203},
    {"a clause first", 0, 1, 2, 204},
    {"MED 0 first", 0, 1, 5, 204},
    {"MED 0 after a clause", 17, 1, 5, 204},
    {"MED 0 at the end", 37, 1, 5, 204},
    {"peer 0", 2, 4, 0, 205},
    {"router 255 first", 1, 1, 255, 206},
    {"router 255 last", 27, 1, 255, 0},
    {"prefix 198.51.100.0/22", 12, 1, 22, 0},
    {"prefix 198.51.100.0/21", 12, 1, 21, 205},
    {"prefix length 32", 12, 1, 32, 0},
    {"prefix length 33", 12, 1, 33, 205},
    {"prefix 198.51.100.1/24", 11, 1, 1, 205},
    {"AS 0", 18, 4, 0, 205},
    {"AS 1", 18, 4, 1, 0},
    {"AS 23456", 18, 4, 23456, 0},
    {"AS 65,535", 18, 4, 65535, 0},
    {"AS 4,294,967,294", 18, 4, 4294967294u, 0},
    {"AS 4,294,967,295", 18, 4, 4294967295u, 205},
    {"preference 0", 22, 4, 0, 0},
    {"preference 4,294,967,295", 22, 4, 4294967295u, 0},
    {"the next session of router 0", 27, 1, 0, 0},
    {"a number too low", 38, 4, 5, 209},
    {"a number too high", 38, 4, 7, 209},
    {"a number wrong in its first byte", 38, 1, 1, 209},
};

static void altered_policies(void) {
    for (size_t number = 0; number < sizeof altered_values / sizeof *altered_values; number++) {
        const struct altered *altered = &altered_values[number];
        static uint8_t policy[WORKED_LENGTH], out[P5_LENGTH];
        memcpy(policy, worked, WORKED_LENGTH);
        for (size_t place = 0; place < altered->width; place++) {
            size_t shift = 8 * (altered->width - 1 - place);
            policy[altered->at + place] = (uint8_t)(altered->value >> shift);
        }
        if (altered->wanted != 0) {
            on_p5_refused(altered->what, policy, WORKED_LENGTH, altered->wanted);
        } else {
            check(barrierose_policy(p5, P5_LENGTH, policy, WORKED_LENGTH, out, P5_LENGTH) == 0, altered->what);
        }
    }
}

static void sessions_rise(void) {
    static const uint8_t twice[] = {1, 0, 0, 0, 0, 5, 1, 0, 0, 0, 0, 5, 6, 0, 0, 0, 2};
    static const uint8_t falling[] = {1, 0, 0, 0, 0, 5, 1, 0, 0, 0, 0, 4, 6, 0, 0, 0, 2};
    static const uint8_t falling_router[] = {1, 1, 0, 0, 0, 5, 1, 0, 0, 0, 0, 6, 6, 0, 0, 0, 2};
    on_p5_refused("a session twice", twice, sizeof twice, 206);
    on_p5_refused("a peer that falls", falling, sizeof falling, 206);
    on_p5_refused("a router that falls", falling_router, sizeof falling_router, 206);
}

/* What is made so far is sound with an end record, and changes nothing in P5; then it goes on from here. */
static void on_p5_sound_so_far(const char *what) {
    size_t length = making.length;
    uint32_t records = making.records;
    make_end(&making);
    policy_applied(what, p5, P5_LENGTH, making.bytes, making.length, P5_LENGTH, p5);
    making.length = length;
    making.records = records;
}

/* Peers 1 to 64 of router 0, which P5 does not have: all of its routes keep their 100. */
static void sessions_up_to_the_limit(void) {
    make_policy(&making);
    for (uint32_t peer = 1; peer <= 64; peer++) {
        make_session(&making, 0, peer);
    }
    on_p5_sound_so_far("64 sessions");
    size_t length = making.length;
    make_session(&making, 0, 65);
    on_p5_refused("a 65th session", making.bytes, making.length, 208);
    on_p5_refused("a 65th session, cut", making.bytes, length + 1, 208);
}

/* Kind 5 is no clause: 32 stand behind it. */
static void clauses_up_to_the_limit(void) {
    make_policy(&making);
    make_session(&making, 0, 1);
    make_med_0(&making);
    for (uint32_t number = 0; number < 32; number++) {
        make_clause(&making, 1);
    }
    on_p5_sound_so_far("32 clauses and MED 0");
    size_t length = making.length;
    make_as_clause(&making, 0, 1);
    on_p5_refused("a 33rd clause", making.bytes, making.length, 208);
    making.bytes[length] = 5;
    on_p5_refused("MED 0 behind 32 clauses", making.bytes, length + 1, 204);
}

static void cut_and_followed(void) {
    static const uint8_t followed[] = {6, 0, 0, 0, 0, 6};
    for (size_t length = 0; length < WORKED_LENGTH; length++) {
        on_p5_refused("the worked sample cut short", worked, length, 202);
    }
    on_p5_refused("an end record and a byte", followed, sizeof followed, 210);
    on_p5_refused("no policy at all", NULL, 0, 202);
}

/* ROOM before the snapshot, the snapshot before the policy. */
static void refusals_in_order(void) {
    static const uint8_t bad[P5_LENGTH] = {9}, bad_policy[] = {9};
    policy_refused("a short output", p5, P5_LENGTH, worked, WORKED_LENGTH, P5_LENGTH - 1, 101);
    policy_refused("no output", p5, P5_LENGTH, worked, WORKED_LENGTH, 0, 101);
    policy_refused("a short output, all bad", bad, P5_LENGTH, bad_policy, sizeof bad_policy, P5_LENGTH - 1, 101);
    policy_refused("both bad", bad, P5_LENGTH, bad_policy, sizeof bad_policy, P5_LENGTH, 103);
    policy_refused("a bad policy", p5, P5_LENGTH, bad_policy, sizeof bad_policy, P5_LENGTH, 203);
    policy_refused("nothing at all", NULL, 0, NULL, 0, 0, 102);
    policy_refused("a snapshot cut", p5, P5_LENGTH - 1, worked, WORKED_LENGTH, P5_LENGTH, 102);
}

int main(void) {
    the_worked_sample();
    without_sessions_every_route_gets_100();
    clauses_that_fit();
    a_clause_for_an_as_of_four_bytes();
    the_longest();
    altered_policies();
    sessions_rise();
    sessions_up_to_the_limit();
    clauses_up_to_the_limit();
    cut_and_followed();
    refusals_in_order();
    return report();
}
