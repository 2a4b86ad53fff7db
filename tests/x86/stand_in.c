/* The proved calls for programs of another machine than x86-64: each is handed to a server under the emulator. */
#include "calls.h"
#include <pthread.h>
#include <stdio.h>
#include <stdlib.h>
#include <string.h>
#include <unistd.h>

static pthread_mutex_t turn = PTHREAD_MUTEX_INITIALIZER;
static FILE *to, *from;

static void need(int good, const char *what) {
    if (!good) {
        fprintf(stderr, "the server of the proved calls: %s\n", what);
        abort();
    }
}

static void start(void) {
    int in[2], out[2];
    need(pipe(in) == 0 && pipe(out) == 0, "no pipe");
    if (fork() == 0) {
        dup2(in[0], 0);
        dup2(out[1], 1);
        close(in[1]);
        close(out[0]);
        execl(SERVER, SERVER, (char *)NULL);
        _exit(127);
    }
    close(in[0]);
    close(out[1]);
    to = fdopen(in[1], "w");
    from = fdopen(out[0], "r");
}

/* What comes back of an area: into it where it was lent to be altered, and else it must be as it was. */
static void back(void *area, size_t bytes, int altered) {
    char *now = malloc(bytes + 1);
    need(now != NULL && fread(now, 1, bytes, from) == bytes, "it ended");
    need(altered || bytes == 0 || memcmp(area, now, bytes) == 0, "an area that was only to be read is another");
    if (altered && bytes > 0) {
        memcpy(area, now, bytes);
    }
    free(now);
}

/* Asks for a call. The areas whose bits are set are lent to be altered. */
static uint64_t ask(const struct request *asked, void *const *area, unsigned altered) {
    uint64_t said;
    pthread_mutex_lock(&turn);
    if (to == NULL) {
        start();
    }
    fwrite(asked, sizeof *asked, 1, to);
    for (int k = 0; k < AREAS; k++) {
        fwrite(area[k], 1, asked->bytes[k], to);
    }
    fflush(to);
    need(fread(&said, sizeof said, 1, from) == 1, "it ended");
    for (int k = 0; k < AREAS; k++) {
        back(area[k], asked->bytes[k], (altered >> k & 1) == 1);
    }
    pthread_mutex_unlock(&turn);
    return said;
}

#define ALL                                                                                                            \
    (void *)ids, (void *)distances, (void *)address, (void *)bits, (void *)routes, (void *)router, (void *)asn,        \
        (void *)preference, (void *)path, (void *)origin, (void *)mark, (void *)med, (void *)nid, (void *)peer
#define BYTES                                                                                                          \
    4 * ids_len, 4 * distances_len, 4 * address_len, 4 * bits_len, 4 * routes_len, 4 * router_len, 4 * asn_len,        \
        4 * preference_len, 4 * path_len, 4 * origin_len, 4 * mark_len, 4 * med_len, 4 * nid_len, 4 * peer_len
#define NONE 0, 0, 0, 0, 0, 0, 0, 0, 0, 0, 0, 0, 0, 0

/* The bits of the tables, of those among them that a policy rewrites, and of the areas behind them. */
#define EVERY_TABLE ((1u << TABLES) - 1)
#define REWRITTEN (1u << 7 | 1u << 10 | 1u << 11)
#define FIRST (1u << TABLES)
#define SECOND (1u << (TABLES + 1))
#define THIRD (1u << (TABLES + 2))

uint32_t barrierose_forecast(const uint8_t *snapshot, size_t snapshot_len, uint32_t prefix, uint8_t *area,
                             size_t area_len) {
    struct request asked = {HOST, {prefix}, {NONE, snapshot_len, area_len, 0}};
    void *areas[AREAS] = {NONE, (void *)snapshot, area, NULL};
    return (uint32_t)ask(&asked, areas, SECOND);
}

uint32_t barrierose_policy(const uint8_t *snapshot, size_t snapshot_len, const uint8_t *policy, size_t policy_len,
                           uint8_t *out, size_t out_len) {
    struct request asked = {HOST_POLICY, {0}, {NONE, snapshot_len, policy_len, out_len}};
    void *areas[AREAS] = {NONE, (void *)snapshot, (void *)policy, out};
    return (uint32_t)ask(&asked, areas, THIRD);
}

uint32_t measure_read(const uint8_t *input, size_t input_len, LENT()) {
    struct request asked = {READ, {0}, {BYTES, input_len, 0, 0}};
    void *areas[AREAS] = {ALL, (void *)input, NULL, NULL};
    return (uint32_t)ask(&asked, areas, EVERY_TABLE);
}

size_t measure_write(uint32_t routers, uint32_t prefixes, uint32_t of_routes, LENT(const), uint8_t *out,
                     size_t out_len) {
    struct request asked = {WRITE, {routers, prefixes, of_routes}, {BYTES, out_len, 0, 0}};
    void *areas[AREAS] = {ALL, out, NULL, NULL};
    return ask(&asked, areas, FIRST);
}

uint32_t measure_forecast(uint32_t routers, uint32_t prefixes, uint32_t of_routes, LENT(const), uint32_t prefix,
                          uint16_t *early, size_t early_len, uint16_t *late, size_t late_len) {
    struct request asked = {FORECAST, {routers, prefixes, of_routes, prefix}, {BYTES, 2 * early_len, 2 * late_len, 0}};
    void *areas[AREAS] = {ALL, early, late, NULL};
    return (uint32_t)ask(&asked, areas, FIRST | SECOND);
}

uint32_t measure_policy(const uint8_t *policy, size_t policy_len, uint32_t routers, uint32_t prefixes,
                        uint32_t of_routes, LENT_FOR(const, )) {
    struct request asked = {POLICY, {routers, prefixes, of_routes}, {BYTES, policy_len, 0, 0}};
    void *areas[AREAS] = {ALL, (void *)policy, NULL, NULL};
    return (uint32_t)ask(&asked, areas, REWRITTEN);
}
