/* Makes the calls that come in on standard input, for x86-64. It ends with its input. */
#include "calls.h"
#include <stdio.h>
#include <stdlib.h>

/* The areas of a call. */
static void *area[AREAS];

#define T(k) area[k], asked->bytes[k] / 4
#define ALL T(0), T(1), T(2), T(3), T(4), T(5), T(6), T(7), T(8), T(9), T(10), T(11), T(12), T(13)

static uint64_t answer(const struct request *asked) {
    const uint64_t *n = asked->numbers, *bytes = asked->bytes;
    void *first = area[TABLES], *second = area[TABLES + 1], *third = area[TABLES + 2];
    switch (asked->which) {
    case HOST:
        return barrierose_forecast(first, bytes[TABLES], (uint32_t)n[0], second, bytes[TABLES + 1]);
    case HOST_POLICY:
        return barrierose_policy(first, bytes[TABLES], second, bytes[TABLES + 1], third, bytes[TABLES + 2]);
    case READ:
        return measure_read(first, bytes[TABLES], ALL);
    case WRITE:
        return measure_write((uint32_t)n[0], (uint32_t)n[1], (uint32_t)n[2], ALL, first, bytes[TABLES]);
    case FORECAST:
        return measure_forecast((uint32_t)n[0], (uint32_t)n[1], (uint32_t)n[2], ALL, (uint32_t)n[3], first,
                                bytes[TABLES] / 2, second, bytes[TABLES + 1] / 2);
    case POLICY:
        return measure_policy(first, bytes[TABLES], (uint32_t)n[0], (uint32_t)n[1], (uint32_t)n[2], ALL);
    default:
        exit(2);
    }
}

int main(void) {
    struct request asked;
    while (fread(&asked, sizeof asked, 1, stdin) == 1) {
        for (int k = 0; k < AREAS; k++) {
            area[k] = malloc(asked.bytes[k] + 1);
            if (area[k] == NULL || fread(area[k], 1, asked.bytes[k], stdin) != asked.bytes[k]) {
                return 2;
            }
        }
        uint64_t said = answer(&asked);
        fwrite(&said, sizeof said, 1, stdout);
        for (int k = 0; k < AREAS; k++) {
            fwrite(area[k], 1, asked.bytes[k], stdout);
            free(area[k]);
        }
        fflush(stdout);
    }
    return 0;
}
