/*
 * The host calls with all that they are lent at the very edge of memory that nobody may touch: one byte too far, before
 * or behind, and the program ends by a signal. Snapshot and policy may never be written, nor the rest on a refusal.
 */
#define _DEFAULT_SOURCE
#include "desk.h"

#include <signal.h>
#include <string.h>
#include <sys/mman.h>
#include <unistd.h>

/* Bytes with a page that nobody may touch on either side. */
struct fenced {
    uint8_t *first;
    size_t size;
};

static struct making making, making_policy;
static struct fenced snapshot_room, policy_room, area_room;

static bool fence(struct fenced *fenced, size_t least) {
    size_t page = (size_t)sysconf(_SC_PAGESIZE);
    fenced->size = (least + page - 1) / page * page;
    uint8_t *all = mmap(NULL, fenced->size + 2 * page, PROT_NONE, MAP_PRIVATE | MAP_ANONYMOUS, -1, 0);
    if (all == MAP_FAILED) {
        return false;
    }
    fenced->first = all + page;
    return mprotect(fenced->first, fenced->size, PROT_READ | PROT_WRITE) == 0;
}

static void allow(struct fenced *fenced, int access) {
    if (mprotect(fenced->first, fenced->size, access) != 0) {
        check(false, "mprotect");
    }
}

/* The place for so many bytes at the near or at the far edge. */
static uint8_t *at_edge(struct fenced *fenced, size_t length, bool far) {
    return far ? fenced->first + fenced->size - length : fenced->first;
}

struct asked {
    const char *what;
    const uint8_t *bytes;
    size_t length;
    size_t area_len;
    uint32_t wanted;
    const uint16_t *rows;
    size_t routers;
};

static void ask_at(const struct asked *asked, bool snapshot_far, bool area_far) {
    uint8_t *snapshot = at_edge(&snapshot_room, asked->length, snapshot_far);
    uint8_t *area = at_edge(&area_room, asked->area_len, area_far);
    memcpy(snapshot, asked->bytes, asked->length);
    for (size_t place = 0; place < asked->area_len; place++) {
        area[place] = before(place);
    }
    allow(&snapshot_room, PROT_READ);
    allow(&area_room, asked->wanted > 100 ? PROT_READ : PROT_READ | PROT_WRITE);
    uint32_t given = barrierose_forecast(snapshot, asked->length, 0, area, asked->area_len);
    check(given == asked->wanted, asked->what);
    check(holds(area, asked->area_len, asked->rows, asked->routers), asked->what);
    allow(&snapshot_room, PROT_READ | PROT_WRITE);
    allow(&area_room, PROT_READ | PROT_WRITE);
}

/* What is being asked, for the message if the program ends by a signal. */
static const char *volatile asking = "nothing";

static void ask_at_all_edges(struct asked asked) {
    asking = asked.what;
    for (int edges = 0; edges < 4; edges++) {
        ask_at(&asked, (edges & 1) != 0, (edges & 2) != 0);
    }
}

static void too_far(int number) {
    (void)number;
    static const char head[] = "FAILED: touched what was not lent, or wrote what must stay: ";
    ssize_t written = write(STDOUT_FILENO, head, sizeof head - 1);
    written += write(STDOUT_FILENO, asking, strlen(asking));
    written += write(STDOUT_FILENO, "\n", 1);
    _exit(written > 0 ? 1 : 2);
}

static void p5_in_areas_about_the_limit(void) {
    for (size_t area_len = 256; area_len <= 260; area_len++) {
        ask_at_all_edges((struct asked){"P5", p5, P5_LENGTH, area_len, 3, p5_rows, 3});
    }
    for (size_t area_len = 0; area_len < 256; area_len++) {
        ask_at_all_edges((struct asked){"P5 in a short area", p5, P5_LENGTH, area_len, 101, NULL, 0});
    }
}

static void p5_cut_everywhere(void) {
    for (size_t length = 0; length < P5_LENGTH; length++) {
        ask_at_all_edges((struct asked){"P5 cut short", p5, length, 256, 102, NULL, 0});
    }
}

static void kind_7_cut_everywhere(void) {
    uint8_t bytes[LONG_P5_LENGTH];
    make_long_p5(bytes, 65536);
    ask_at_all_edges((struct asked){"P5 with kind 7", bytes, LONG_P5_LENGTH, 256, 0, settled_rows, 3});
    for (size_t length = 68; length < LONG_P5_LENGTH; length++) {
        ask_at_all_edges((struct asked){"P5 with kind 7, cut short", bytes, length, 256, 102, NULL, 0});
    }
}

/* The last byte that is looked at decides that there is one too many. */
static void p5_followed(void) {
    uint8_t bytes[P5_LENGTH + 2] = {0};
    memcpy(bytes, p5, P5_LENGTH);
    ask_at_all_edges((struct asked){"P5 and a byte", bytes, P5_LENGTH + 1, 256, 110, NULL, 0});
    ask_at_all_edges((struct asked){"P5 and two bytes", bytes, P5_LENGTH + 2, 256, 110, NULL, 0});
}

static void the_longest(void) {
    static const uint16_t first[2 * 64] = {0};
    make_longest(&making);
    size_t length = making.length;
    ask_at_all_edges((struct asked){"the longest", making.bytes, length, 256, 0, first, 64});
    ask_at_all_edges((struct asked){"the longest less a byte", making.bytes, length - 1, 256, 102, NULL, 0});
    ask_at_all_edges((struct asked){"the longest and a byte", making.bytes, length + 1, 256, 110, NULL, 0});
    ask_at_all_edges((struct asked){"more than decides", making.bytes, length + 999, 256, 110, NULL, 0});
}

struct asked_policy {
    const char *what;
    const uint8_t *bytes;
    size_t length;
    const uint8_t *policy;
    size_t policy_len;
    size_t out_len;
    uint32_t wanted;
    const uint8_t *rewritten;
};

static void apply_at(const struct asked_policy *asked, bool snapshot_far, bool policy_far, bool out_far) {
    uint8_t *snapshot = at_edge(&snapshot_room, asked->length, snapshot_far);
    uint8_t *policy = at_edge(&policy_room, asked->policy_len, policy_far);
    uint8_t *out = at_edge(&area_room, asked->out_len, out_far);
    memcpy(snapshot, asked->bytes, asked->length);
    memcpy(policy, asked->policy, asked->policy_len);
    for (size_t place = 0; place < asked->out_len; place++) {
        out[place] = before(place);
    }
    allow(&snapshot_room, PROT_READ);
    allow(&policy_room, PROT_READ);
    allow(&area_room, asked->wanted > 100 ? PROT_READ : PROT_READ | PROT_WRITE);
    uint32_t given = barrierose_policy(snapshot, asked->length, policy, asked->policy_len, out, asked->out_len);
    check(given == asked->wanted, asked->what);
    check(begins(out, asked->out_len, asked->rewritten, asked->wanted > 100 ? 0 : asked->length), asked->what);
    allow(&snapshot_room, PROT_READ | PROT_WRITE);
    allow(&policy_room, PROT_READ | PROT_WRITE);
    allow(&area_room, PROT_READ | PROT_WRITE);
}

static void apply_at_all_edges(struct asked_policy asked) {
    asking = asked.what;
    for (int edges = 0; edges < 8; edges++) {
        apply_at(&asked, (edges & 1) != 0, (edges & 2) != 0, (edges & 4) != 0);
    }
}

static void policies_in_outputs_about_the_limit(void) {
    for (size_t out_len = P5_LENGTH; out_len <= P5_LENGTH + 4; out_len++) {
        apply_at_all_edges(
            (struct asked_policy){"a policy", p5, P5_LENGTH, worked, WORKED_LENGTH, out_len, 0, p5_rewritten});
    }
    for (size_t out_len = 0; out_len < P5_LENGTH; out_len++) {
        apply_at_all_edges((struct asked_policy){"a policy in a short output", p5, P5_LENGTH, worked, WORKED_LENGTH,
                                                 out_len, 101, NULL});
    }
}

static void policies_cut_everywhere(void) {
    for (size_t length = 0; length < WORKED_LENGTH; length++) {
        apply_at_all_edges(
            (struct asked_policy){"a policy cut short", p5, P5_LENGTH, worked, length, P5_LENGTH, 202, NULL});
    }
    for (size_t length = 0; length < P5_LENGTH; length++) {
        apply_at_all_edges((struct asked_policy){"a policy for P5 cut short", p5, length, worked, WORKED_LENGTH, length,
                                                 102, NULL});
    }
}

/* The longest of both: of the first prefix, 0.0.0.0/8, each route gets its peer as its preference. */
static void the_longest_policy(void) {
    static struct making rewritten;
    make_longest(&making);
    make_longest(&rewritten);
    make_longest_policy(&making_policy);
    for (size_t row = 0; row < 16; row++) {
        rewritten.bytes[longest_preference(&rewritten, row)] = (uint8_t)(row + 1);
    }
    size_t length = making.length, policy_len = making_policy.length;
    apply_at_all_edges((struct asked_policy){"the longest policy", making.bytes, length, making_policy.bytes,
                                             policy_len, length, 0, rewritten.bytes});
    apply_at_all_edges((struct asked_policy){"the longest policy and a byte", making.bytes, length, making_policy.bytes,
                                             policy_len + 1, length, 210, NULL});
    apply_at_all_edges((struct asked_policy){"the longest policy less a byte", making.bytes, length,
                                             making_policy.bytes, policy_len - 1, length, 202, NULL});
}

int main(void) {
    signal(SIGSEGV, too_far);
    signal(SIGBUS, too_far);
    if (!fence(&snapshot_room, sizeof making.bytes) || !fence(&policy_room, sizeof making_policy.bytes)
        || !fence(&area_room, sizeof making.bytes)) {
        check(false, "mmap");
        return report();
    }
    p5_in_areas_about_the_limit();
    p5_cut_everywhere();
    kind_7_cut_everywhere();
    p5_followed();
    the_longest();
    policies_in_outputs_about_the_limit();
    policies_cut_everywhere();
    the_longest_policy();
    return report();
}
