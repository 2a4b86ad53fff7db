/*
 * The proved calls that tests and benchmarks make, and how they are asked for over a pipe where the machine itself is
 * not an x86-64 one: stand_in.c, linked by a program of this machine, hands each call to server.c, which is linked with
 * the proved libraries and runs under an emulator.
 */
#ifndef CALLS_H
#define CALLS_H

#include <stddef.h>
#include <stdint.h>

/* The fourteen tables in the order in which every call takes them, and those of another kind that a policy rewrites. */
#define TABLES 14
#define TABLE(kind, name) kind uint32_t *name, size_t name##_len
#define LENT_FOR(kind, policy)                                                                                         \
    TABLE(kind, ids), TABLE(kind, distances), TABLE(kind, address), TABLE(kind, bits), TABLE(kind, routes),            \
        TABLE(kind, router), TABLE(kind, asn), TABLE(policy, preference), TABLE(kind, path), TABLE(kind, origin),      \
        TABLE(policy, mark), TABLE(policy, med), TABLE(kind, nid), TABLE(kind, peer)
#define LENT(kind) LENT_FOR(kind, kind)

uint32_t barrierose_forecast(const uint8_t *snapshot, size_t snapshot_len, uint32_t prefix, uint8_t *area,
                             size_t area_len);
uint32_t barrierose_policy(const uint8_t *snapshot, size_t snapshot_len, const uint8_t *policy, size_t policy_len,
                           uint8_t *out, size_t out_len);
uint32_t measure_read(const uint8_t *input, size_t input_len, LENT());
size_t measure_write(uint32_t routers, uint32_t prefixes, uint32_t of_routes, LENT(const), uint8_t *out,
                     size_t out_len);
uint32_t measure_forecast(uint32_t routers, uint32_t prefixes, uint32_t of_routes, LENT(const), uint32_t prefix,
                          uint16_t *early, size_t early_len, uint16_t *late, size_t late_len);
uint32_t measure_policy(const uint8_t *policy, size_t policy_len, uint32_t routers, uint32_t prefixes,
                        uint32_t of_routes, LENT_FOR(const, ));

/* A call on the pipe: this, then the bytes of its areas. The answer is a uint64_t, then the bytes of all areas again. */
enum which { HOST, HOST_POLICY, READ, WRITE, FORECAST, POLICY };
#define NUMBERS 4
#define AREAS (TABLES + 3)
struct request {
    uint64_t which;
    uint64_t numbers[NUMBERS];
    uint64_t bytes[AREAS];
};

#endif
