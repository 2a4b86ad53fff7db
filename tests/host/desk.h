/* Shared by the tests of the host calls: counting, asking and comparing every byte, snapshots and policies by hand. */
#ifndef DESK_H
#define DESK_H

#include "barrierose.h"

#include <stdbool.h>

/* One check; it says so on standard output if it fails. */
void check(bool right, const char *what);

/* Prints 'N passed, M failed'; the value to return from main. */
int report(void);

/* What an area holds at this place before a call: bytes that differ, so that a moved one is seen too. */
uint8_t before(size_t place);

/* Asks in an area of area_len bytes and checks that the number is the one wanted and that no byte has changed. */
void refused(const char *what, const uint8_t *snapshot, size_t length, uint32_t prefix, size_t area_len,
             uint32_t wanted);

/* Asks and checks the number, the rows (early and late in turn for each router), and that all other bytes stay. */
void answered(const char *what, const uint8_t *snapshot, size_t length, uint32_t prefix, size_t area_len,
              uint32_t wanted, const uint16_t *rows, size_t routers);

/* Whether an area that held before(0), before(1) .. has these rows at its head and is otherwise as it was. */
bool holds(const uint8_t *area, size_t area_len, const uint16_t *rows, size_t routers);

/* Case P5 of document 01, and its rows as document 01 prints them. */
#define P5_LENGTH 169
extern const uint8_t p5[P5_LENGTH];
extern const uint16_t p5_rows[2 * 3];

/* P5 with its row 0 of kind 7, which has four bytes of AS, and the rows where that AS is not the one of row 3: row 0
 * no longer contests row 3, so router 1 holds row 3; that leaves row 1 in, which router 0 holds; and router 2 is nearer
 * to router 0. */
#define LONG_P5_LENGTH (P5_LENGTH + 2)
void make_long_p5(uint8_t bytes[LONG_P5_LENGTH], uint32_t neighbour_as);
extern const uint16_t settled_rows[2 * 3];

/* A snapshot on its way, with room for some bytes more than the longest has. */
struct making {
    uint8_t bytes[BARRIEROSE_LONGEST + 1000];
    size_t length;
    uint32_t records;
};

/* Begins with this many routers: ids 1, 2, 3 .. and all distances 1. */
void make_network(struct making *making, uint8_t routers);
void make_prefix(struct making *making, uint32_t address, uint8_t length);

/* Path 2, origin 0, MED present; of kind 7 where the AS needs four bytes. */
void make_route(struct making *making, uint8_t router, uint32_t neighbour_as, uint32_t preference, uint32_t med,
                uint32_t neighbour_id, uint32_t peer);

/* The end record, with the right number. */
void make_end(struct making *making);

/* The longest snapshot: 64 routers, 64 prefixes, 16 equal routes of kind 7 in each, all at router 0. */
void make_longest(struct making *making);

/* Where the preference of a row of its first prefix ends. */
size_t longest_preference(const struct making *longest, size_t row);

/* Applies a policy with an output of out_len bytes and checks that the number is the one wanted and no byte changed. */
void policy_refused(const char *what, const uint8_t *snapshot, size_t length, const uint8_t *policy, size_t policy_len,
                    size_t out_len, uint32_t wanted);

/* Applies a policy and checks the bytes it gives, as many as the snapshot has, and that all others stay. */
void policy_applied(const char *what, const uint8_t *snapshot, size_t length, const uint8_t *policy, size_t policy_len,
                    size_t out_len, const uint8_t *wanted);

/* Whether bytes that were before(0), before(1) .. have these at their head and are otherwise as they were. */
bool begins(const uint8_t *out, size_t out_len, const uint8_t *wanted, size_t length);

/* The worked sample: a policy for P5, and P5 rewritten by it. */
#define WORKED_LENGTH 42
extern const uint8_t worked[WORKED_LENGTH];
extern const uint8_t p5_rewritten[P5_LENGTH];

/* The policy that is the end record alone. */
#define NO_SESSIONS_LENGTH 5
extern const uint8_t no_sessions[NO_SESSIONS_LENGTH];

/* A policy on its way: begun, a session, its MED 0, its clauses; make_end ends it. */
void make_policy(struct making *making);
void make_session(struct making *making, uint8_t router, uint32_t peer);
void make_med_0(struct making *making);
void make_prefix_clause(struct making *making, uint32_t address, uint8_t length, uint32_t preference);
void make_as_clause(struct making *making, uint32_t neighbour_as, uint32_t preference);
void make_clause(struct making *making, uint32_t preference);

/* The longest policy: router 0's sessions with peers 1 to 64, MED 0 and 32 clauses in each, of which the last but one
 * gives 0.0.0.0/8 the preference of the session's peer and the others fit no prefix of the longest snapshot. */
#define LONGEST_POLICY 20933
void make_longest_policy(struct making *making);

#endif
