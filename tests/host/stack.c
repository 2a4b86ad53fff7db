/*
 * How much stack the host calls take: a thread's stack is painted, the call made on it, and the deepest byte that
 * lost its paint looked up. The arguments are files with snapshots, asked for each of their prefixes, and rewritten by
 * the longest policy.
 */
#define _DEFAULT_SOURCE
#include "desk.h"

#include <pthread.h>
#include <stdio.h>
#include <string.h>
#include <sys/mman.h>

/* The most stack that a forecast may take, that one may take which reading refuses, and that a policy may take, in
 * bytes. Within the second there is no room for a copy of the ids, which takes as much by itself. */
#define STACK_BOUND (32 * 1024)
#define READING_STACK_BOUND 256
#define POLICY_STACK_BOUND (60 * 1024)

#define STACK_SIZE (512 * 1024)
#define PAINT 0xa5

/* What the control takes at least, by which the measuring is itself measured. */
#define CONTROL 20000

static uint8_t *stack;
static uint8_t snapshot[BARRIEROSE_LONGEST + 1];
static size_t length;
static uint32_t prefix, given;
static uint8_t area[BARRIEROSE_AREA];
static struct making longest_policy;
static uint8_t out[BARRIEROSE_LONGEST + 1];

static void *nothing(void *unused) {
    return unused;
}

static void *control(void *unused) {
    volatile uint8_t room[CONTROL];
    for (size_t place = 0; place < CONTROL; place++) {
        room[place] = (uint8_t)place;
    }
    return room[CONTROL / 2] == 0 ? NULL : unused;
}

static void *call(void *unused) {
    given = barrierose_forecast(snapshot, length, prefix, area, sizeof area);
    return unused;
}

static void *call_cut(void *unused) {
    given = barrierose_forecast(snapshot, length - 1, 0, area, sizeof area);
    return unused;
}

static void *call_policy(void *unused) {
    given = barrierose_policy(snapshot, length, longest_policy.bytes, longest_policy.length, out, sizeof out);
    return unused;
}

/* The bytes of a fresh stack on which the function left its mark; 0 if there was no thread to run it. */
static size_t depth(void *(*function)(void *)) {
    memset(stack, PAINT, STACK_SIZE);
    pthread_attr_t attributes;
    pthread_t thread;
    pthread_attr_init(&attributes);
    bool run = pthread_attr_setstack(&attributes, stack, STACK_SIZE) == 0
               && pthread_create(&thread, &attributes, function, NULL) == 0 && pthread_join(thread, NULL) == 0;
    pthread_attr_destroy(&attributes);
    size_t deepest = 0;
    while (deepest < STACK_SIZE && stack[deepest] == PAINT) {
        deepest++;
    }
    return run ? STACK_SIZE - deepest : 0;
}

static bool load(const char *name) {
    FILE *file = fopen(name, "rb");
    if (file == NULL) {
        return false;
    }
    length = fread(snapshot, 1, sizeof snapshot, file);
    return fclose(file) == 0 && length > 0;
}

static size_t more(size_t one, size_t other) {
    return one > other ? one : other;
}

/* The most that any prefix of the loaded snapshot takes, and the refusal after the last one. */
static size_t deepest_of_all(const char *name) {
    size_t most = 0;
    prefix = 0;
    do {
        most = more(most, depth(call));
        prefix++;
    } while (given <= 64 && prefix <= 64);
    check(given == BARRIEROSE_NO_PREFIX && prefix > 1, name);
    return most;
}

/* What the loaded snapshot takes that is read to its end and refused for want of its last byte. */
static size_t deepest_of_reading(const char *name) {
    size_t most = depth(call_cut);
    check(given == BARRIEROSE_CUT, name);
    return most;
}

/* What the longest policy takes that is applied to the loaded snapshot, or is refused for want of its last byte. */
static size_t deepest_of_policy(const char *name) {
    make_longest_policy(&longest_policy);
    size_t most = depth(call_policy);
    check(given == 0, name);
    longest_policy.length--;
    most = more(most, depth(call_policy));
    check(given == 202, name);
    return most;
}

static void within(const char *what, size_t most, size_t own, size_t bound) {
    printf("%s takes %zu bytes of stack at most (a thread that does nothing: %zu)\n", what, most - own, own);
    check(most > own && most - own < bound, what);
}

int main(int count, char **names) {
    stack = mmap(NULL, STACK_SIZE, PROT_READ | PROT_WRITE, MAP_PRIVATE | MAP_ANONYMOUS, -1, 0);
    if (stack == MAP_FAILED) {
        check(false, "mmap");
        return report();
    }
    size_t own = depth(nothing), known = depth(control), most = 0, most_of_reading = 0, most_of_policy = 0;
    check(own > 0 && known >= own + CONTROL - 1024 && known <= own + CONTROL + 1024, "the measuring itself");
    for (int number = 1; number < count; number++) {
        check(load(names[number]), names[number]);
        most = more(most, deepest_of_all(names[number]));
        most_of_reading = more(most_of_reading, deepest_of_reading(names[number]));
        most_of_policy = more(most_of_policy, deepest_of_policy(names[number]));
    }
    within("a forecast", most, own, STACK_BOUND);
    within("a forecast that reading refuses", most_of_reading, own, READING_STACK_BOUND);
    within("a policy", most_of_policy, own, POLICY_STACK_BOUND);
    return report();
}
