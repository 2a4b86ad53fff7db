/*
 * Barrierose for C programs: the forecast of one prefix of a snapshot, and what an import policy makes of a snapshot.
 *
 * Link with libhost.a; nothing else is needed beside the C library. The eight steps, what early and late mean, what the
 * fields of a snapshot are and what a policy does is described in docs/RULES.md, the bytes of a snapshot in
 * docs/SNAPSHOT.md, those of a policy in docs/POLICY.md; here stands what a caller has to know.
 */
#ifndef BARRIEROSE_H
#define BARRIEROSE_H

#include <stddef.h>
#include <stdint.h>

#ifdef __cplusplus
extern "C" {
#endif

/* The least length of an answer area, in bytes: four for each of up to 64 routers. */
#define BARRIEROSE_AREA 256

/* The row of a router that holds no route. */
#define BARRIEROSE_NONE 65535

/* A snapshot has at most BARRIEROSE_LONGEST bytes. One byte more decides: what follows it changes no answer. */
#define BARRIEROSE_LONGEST 55623

/* The same of a policy. */
#define BARRIEROSE_LONGEST_POLICY 20933

/* What a forecast returns when it is not refused: BARRIEROSE_SETTLED, or the number of routers that differ, to 64. */
#define BARRIEROSE_SETTLED 0

/* What applying a policy returns when it is not refused. */
#define BARRIEROSE_REWRITTEN 0

/*
 * What both calls return for want of room or for a bad snapshot: 100 plus the number of the refusal. If there are
 * several faults, the first one counts: ROOM before the snapshot is looked at, then the snapshot from its first byte
 * on, then NO PREFIX, or whatever is wrong with the policy. (111, TABLE, belongs to calls that are lent tables; these
 * are not and never return it.)
 */
enum {
    BARRIEROSE_ROOM = 101,     /* area_len is below BARRIEROSE_AREA, or out_len below snapshot_len */
    BARRIEROSE_CUT = 102,      /* the snapshot ends where a record is due, or within one; an empty one does */
    BARRIEROSE_KIND = 103,     /* a record is due, and its first byte is not a kind from 1 to 7 */
    BARRIEROSE_PLACE = 104,    /* a record of a known kind stands where that kind may not stand */
    BARRIEROSE_FIELD = 105,    /* a value is outside its range, as AS 23456 is, or names a router that does not exist */
    BARRIEROSE_ORDER = 106,    /* a router, pair, prefix or route is not the one due, or does not rise */
    BARRIEROSE_TWIN = 107,     /* two routers have the same id */
    BARRIEROSE_FULL = 108,     /* a 65th prefix, a prefix's 257th route, or a 1,025th route in all */
    BARRIEROSE_COUNT = 109,    /* the end record does not say how many records come before it */
    BARRIEROSE_TAIL = 110,     /* something follows the end record */
    BARRIEROSE_NO_PREFIX = 112 /* a forecast: the snapshot is sound and has no prefix with this number */
};

/* What applying a policy returns for a bad policy: 200 plus the number of the first fault from its first byte on. */
enum {
    BARRIEROSE_POLICY_CUT = 202,   /* the policy ends where a record is due, or within one; an empty one does */
    BARRIEROSE_POLICY_KIND = 203,  /* a record is due, and its first byte is not a kind from 1 to 6 */
    BARRIEROSE_POLICY_PLACE = 204, /* a clause or kind 5 before any session, or a kind 5 not right behind its session */
    BARRIEROSE_POLICY_FIELD = 205, /* a peer address, prefix or AS is outside its range */
    BARRIEROSE_POLICY_ORDER = 206, /* a session does not rise above the one before it */
    BARRIEROSE_POLICY_FULL = 208,  /* a 65th session, or a session's 33rd clause */
    BARRIEROSE_POLICY_COUNT = 209, /* the end record does not say how many records come before it */
    BARRIEROSE_POLICY_TAIL = 210   /* something follows the end record */
};

/*
 * Forecasts one prefix.
 *
 *   snapshot, snapshot_len   the bytes of a snapshot. They are only read. snapshot may be null if snapshot_len is 0
 *                            (the answer is then BARRIEROSE_CUT).
 *   prefix                   which prefix, counted from 0 in the order of the snapshot. Any number may be given.
 *   area, area_len           where the answer goes: at least BARRIEROSE_AREA bytes that do not overlap the snapshot.
 *                            area may be null if area_len is 0 (the answer is then BARRIEROSE_ROOM).
 *
 * Returns BARRIEROSE_SETTLED if all stable assignments agree, which is to say that there is one; the number of routers
 * whose early and late rows differ, 1 to 64, if the prefix is open; or one of the refusals above. So a number above
 * 100 is a refusal, and any other is an answer.
 *
 * With an answer, four bytes are written for each router r of the snapshot's n routers, most significant byte first:
 *
 *   area[4 * r], area[4 * r + 1]       the row that router r holds in the early assignment
 *   area[4 * r + 2], area[4 * r + 3]   the row that it holds in the late assignment
 *
 * A row is a route's place below its prefix, from 0, or BARRIEROSE_NONE. All bytes from area[4 * n] on stay as they
 * were. With a refusal every byte of the area stays as it was. A refusal comes without its place in the snapshot; the
 * program forecast, given the same bytes, prints it.
 *
 * The call takes no memory from the heap, keeps nothing from one call to the next and has no global state, so any
 * number of threads may call it at once, each with its own area. It always returns. Its working tables are on the
 * stack of the calling thread and take less than 32 KB of it (30,504 bytes measured on x86-64; 120 where reading
 * refuses the snapshot). In a program that binds the C library lazily, the dynamic linker takes about 3 KB more within
 * the first call.
 */
uint32_t barrierose_forecast(const uint8_t *snapshot, size_t snapshot_len, uint32_t prefix,
                             uint8_t *area, size_t area_len);

/*
 * Applies an import policy to a snapshot. What it gives is a snapshot again, for barrierose_forecast to answer what the
 * policy would do.
 *
 *   snapshot, snapshot_len   the bytes of a snapshot. They are only read. snapshot may be null if snapshot_len is 0
 *                            (the answer is then BARRIEROSE_CUT).
 *   policy, policy_len       the bytes of a policy. They are only read, and may overlap the snapshot. policy may be
 *                            null if policy_len is 0 (a sound snapshot's answer is then BARRIEROSE_POLICY_CUT).
 *   out, out_len             where the rewritten snapshot goes: at least snapshot_len bytes that overlap neither the
 *                            snapshot nor the policy. out may be null if out_len is 0.
 *
 * Returns BARRIEROSE_REWRITTEN; or BARRIEROSE_ROOM if out_len is below snapshot_len, whatever the snapshot is; or
 * another of the refusals from 102 to 110 if the snapshot is refused; or one from 202 to 210 if the policy is. So 0 is
 * an answer, and any other number is a refusal.
 *
 * With 0, the rewritten snapshot stands in out[0] to out[snapshot_len - 1]: it has as many bytes as the one given, and
 * of these only preferences, MED marks and MEDs may be others. A preference is that of the first clause that fits the
 * route, and 100 where none does: the preferences of the snapshot given do not survive. All bytes from
 * out[snapshot_len] on stay as they were. With a refusal every byte of out stays as it was. A refusal comes without
 * its place in the snapshot or the policy; the program apply_policy, given the same bytes, says it.
 *
 * The call takes no memory from the heap, keeps nothing from one call to the next and has no global state, so any
 * number of threads may call it at once, each with its own out. It always returns. Its working tables are on the stack
 * of the calling thread and take less than 60 KB of it (58,008 bytes measured on x86-64). In a program that binds the
 * C library lazily, the dynamic linker takes about 3 KB more within the first call.
 */
uint32_t barrierose_policy(const uint8_t *snapshot, size_t snapshot_len, const uint8_t *policy, size_t policy_len,
                           uint8_t *out, size_t out_len);

#ifdef __cplusplus
}
#endif

#endif
