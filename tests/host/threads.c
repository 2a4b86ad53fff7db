/* The host calls from several threads at once, each with its own snapshot and area and with answers known by hand. */
#include "desk.h"

#include <pthread.h>
#include <string.h>

#define THREADS 4
#define CALLS 3000

struct caller {
    uint8_t snapshot[P5_LENGTH];
    uint32_t wanted;
    const uint16_t *rows;
    size_t routers;
    const uint8_t *policy;
    size_t policy_len;
    uint32_t policy_wanted;
    const uint8_t *rewritten;
    unsigned wrong;
};

static void forecast(struct caller *caller) {
    uint8_t area[BARRIEROSE_AREA];
    for (size_t place = 0; place < sizeof area; place++) {
        area[place] = before(place);
    }
    uint32_t given = barrierose_forecast(caller->snapshot, P5_LENGTH, 0, area, sizeof area);
    if (given != caller->wanted || !holds(area, sizeof area, caller->rows, caller->routers)) {
        caller->wrong++;
    }
}

static void apply(struct caller *caller) {
    uint8_t out[P5_LENGTH + 7];
    for (size_t place = 0; place < sizeof out; place++) {
        out[place] = before(place);
    }
    uint32_t given =
        barrierose_policy(caller->snapshot, P5_LENGTH, caller->policy, caller->policy_len, out, sizeof out);
    size_t length = caller->rewritten == NULL ? 0 : P5_LENGTH;
    if (given != caller->policy_wanted || !begins(out, sizeof out, caller->rewritten, length)) {
        caller->wrong++;
    }
}

static void *calling(void *argument) {
    struct caller *caller = argument;
    for (int number = 0; number < CALLS; number++) {
        forecast(caller);
        apply(caller);
    }
    return NULL;
}

int main(void) {
    /* As P5; as P5; its row 0 with origin 2, which settles it; an end record that says 14. Their policies: the worked
     * sample; no sessions; the worked sample less a byte; and again the worked sample. */
    static struct caller callers[THREADS] = {
        {.wanted = 3, .rows = p5_rows, .routers = 3, .policy = worked, .policy_len = WORKED_LENGTH,
         .policy_wanted = 0, .rewritten = p5_rewritten},
        {.wanted = 3, .rows = p5_rows, .routers = 3, .policy = no_sessions, .policy_len = NO_SESSIONS_LENGTH,
         .policy_wanted = 0, .rewritten = p5},
        {.wanted = 0, .rows = settled_rows, .routers = 3, .policy = worked, .policy_len = WORKED_LENGTH - 1,
         .policy_wanted = 202},
        {.wanted = 109, .policy = worked, .policy_len = WORKED_LENGTH, .policy_wanted = 109},
    };
    for (int number = 0; number < THREADS; number++) {
        memcpy(callers[number].snapshot, p5, P5_LENGTH);
    }
    callers[2].snapshot[78] = 2;
    callers[3].snapshot[168] = 14;
    pthread_t threads[THREADS];
    for (int number = 0; number < THREADS; number++) {
        check(pthread_create(&threads[number], NULL, calling, &callers[number]) == 0, "a thread begins");
    }
    for (int number = 0; number < THREADS; number++) {
        check(pthread_join(threads[number], NULL) == 0, "a thread ends");
        check(callers[number].wrong == 0, "every answer as if the thread were alone");
    }
    return report();
}
