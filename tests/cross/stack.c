/* Stack and instructions of the library's functions at 2, 8 and 16 tasks, in two tables: the deepest byte of a painted stack that a call wrote, and the
 * instructions that a tracing parent counted one by one. The states have a chain through all tasks, and no call is refused. The caller's own frame is
 * counted out. Linux on x86-64; run by tests/cross/stack. */
#define _GNU_SOURCE
#include <signal.h>
#include <stdio.h>
#include <stdlib.h>
#include <string.h>
#include <sys/ptrace.h>
#include <sys/wait.h>
#include <ucontext.h>
#include <unistd.h>
#include "vesztamor.h"

enum { MOST_TASKS = 16, SIZES = 3, LINES = 24, ROOM = 256 * 1024, PAINT = 0xA5, TRACE = 4096, SECTION_TASKS = 6 };

struct step {
    uint16_t kind, number, resource;
    uint32_t ticks;
};

struct cost {
    size_t stack;
    long instructions;
};

static const unsigned sizes[SIZES] = {2, 8, 16};
static unsigned tasks, section_tasks;
static uint8_t table[VESZTAMOR_TABLE_BYTES(MOST_TASKS)], state[VESZTAMOR_STATE_BYTES], rows[VESZTAMOR_ROWS_BYTES(MOST_TASKS)];
static uint8_t trace[TRACE], text[VESZTAMOR_TEXT_BYTES(TRACE)], sections[VESZTAMOR_SECTIONS_BYTES(2 * SECTION_TASKS)], bound[VESZTAMOR_BOUND_BYTES];
static size_t trace_length;
static long trace_events;
static struct step step;
static uint64_t answer;

/* ---- The calls ---- */

static void call_nothing(void) { answer = 0; }
static void call_fresh(void) { answer = vesztamor_fresh(table, VESZTAMOR_TABLE_BYTES(tasks), state, sizeof state); }
static void call_is_sound(void) { answer = vesztamor_is_sound(state, sizeof state); }
static void call_executing(void) { answer = vesztamor_executing(state, sizeof state, 0); }
static void call_meter(void) { answer = vesztamor_meter(state, sizeof state, rows, VESZTAMOR_ROWS_BYTES(tasks)); }
static void call_step(void) { answer = vesztamor_step(state, sizeof state, step.kind, step.number, step.resource, step.ticks); }
static void call_replay(void) { answer = vesztamor_replay(trace, trace_length, text, VESZTAMOR_TEXT_BYTES(trace_length)); }
static void call_bound(void) { answer = vesztamor_bound(sections, VESZTAMOR_SECTIONS_BYTES(2 * section_tasks), 0, 1000000, bound, sizeof bound); }

/* ---- What one call takes ---- */

static uint8_t painted[ROOM];
static ucontext_t here, there;

static size_t deepest(void (*call)(void)) {
    memset(painted, PAINT, ROOM);
    getcontext(&there);
    there.uc_stack.ss_sp = painted;
    there.uc_stack.ss_size = ROOM;
    there.uc_link = &here;
    makecontext(&there, call, 0);
    swapcontext(&here, &there);
    size_t untouched = 0;
    while (untouched < ROOM && painted[untouched] == PAINT) untouched++;
    return ROOM - untouched;
}

static long instructions(void (*call)(void)) {
    fflush(stdout);
    pid_t child = fork();
    if (child == 0) {
        ptrace(PTRACE_TRACEME, 0, NULL, NULL);
        raise(SIGSTOP);
        call();
        raise(SIGSTOP);
        _exit(0);
    }
    int status;
    long count = 0;
    waitpid(child, &status, 0);
    do {
        ptrace(PTRACE_SINGLESTEP, child, NULL, NULL);
        waitpid(child, &status, 0);
        count++;
    } while (WIFSTOPPED(status) && WSTOPSIG(status) == SIGTRAP);
    kill(child, SIGKILL);
    waitpid(child, &status, 0);
    return count;
}

/* The state stays as it was: the next call is made on the same one. */
static struct cost cost_of(const char *name, void (*call)(void)) {
    uint8_t kept[VESZTAMOR_STATE_BYTES];
    memcpy(kept, state, sizeof state);
    struct cost cost = {.stack = deepest(call)};
    if (vesztamor_word_of(answer) == VESZTAMOR_REFUSED) {
        fprintf(stderr, "%s at %u tasks: refused %u\n", name, tasks, (unsigned)vesztamor_number_of(answer));
        exit(2);
    }
    cost.stack -= deepest(call_nothing);
    memcpy(state, kept, sizeof state);
    cost.instructions = instructions(call) - instructions(call_nothing);
    return cost;
}

/* ---- Scenes ---- */

static void put(uint8_t *at, uint32_t number, unsigned width) {
    for (unsigned i = 0; i < width; i++) at[i] = (uint8_t)(number >> 8 * i);
}

static void record(unsigned kind, const uint8_t *body, size_t length) {
    put(trace + trace_length, (uint32_t)(2 + length), 2);
    put(trace + trace_length + 2, kind, 2);
    memcpy(trace + trace_length + 4, body, length);
    trace_length += 4 + length;
}

/* an event of a scene, which goes into the trace too */
static void must(uint16_t kind, uint16_t number, uint16_t resource, uint32_t ticks) {
    uint8_t body[4];
    const int elapses = kind == VESZTAMOR_ELAPSE, locks = kind == VESZTAMOR_LOCK || kind == VESZTAMOR_UNLOCK;
    step = (struct step){kind, number, resource, ticks};
    call_step();
    if (vesztamor_word_of(answer) == VESZTAMOR_REFUSED) {
        fprintf(stderr, "event %u of %u refused %u\n", (unsigned)kind, (unsigned)number, (unsigned)vesztamor_number_of(answer));
        exit(2);
    }
    put(body, elapses ? ticks : number | (uint32_t)resource << 16, 4);
    record(kind, body, elapses || locks ? 4 : 2);
    trace_events++;
}

/* Every task holds the resource of its number, and each of the first so many waits for the next one's; no server runs. */
static void chained(unsigned links) {
    put(table, 8, 2);
    put(table + 2, tasks, 2);
    put(table + 4, tasks, 2);
    trace_length = 0;
    trace_events = 0;
    record(16, table, 6);
    for (unsigned t = 0; t < tasks; t++) {
        const uint8_t entry[10] = {10, 0, 0, 0, 100, 0, 0, 0, (uint8_t)((1u << tasks) - 1), (uint8_t)(((1u << tasks) - 1) >> 8)};
        memcpy(table + 6 + 10 * t, entry, sizeof entry);
        record(17, entry, sizeof entry);
    }
    call_fresh();
    for (uint16_t t = 0; t < tasks; t++) {
        must(VESZTAMOR_WAKE, t, 0, 0);
        must(VESZTAMOR_DISPATCH, t, 0, 0);
        must(VESZTAMOR_LOCK, t, t, 0);
        must(VESZTAMOR_PREEMPT, t, 0, 0);
    }
    for (uint16_t t = 0; t < links; t++) {
        must(VESZTAMOR_DISPATCH, t, 0, 0);
        must(VESZTAMOR_LOCK, t, (uint16_t)(t + 1), 0);
        must(VESZTAMOR_PREEMPT, t, 0, 0);
    }
}

/* ---- The table of calls, filled size by size ---- */

static const char *names[LINES];
static struct cost costs[LINES][SIZES];
static unsigned line, size;

static void measure(const char *name, void (*call)(void), long parts) {
    names[line] = name;
    costs[line][size] = cost_of(name, call);
    costs[line][size].instructions /= parts;
    line++;
}

static void event(const char *name, uint16_t kind, unsigned number, unsigned resource, uint32_t ticks) {
    step = (struct step){kind, (uint16_t)number, (uint16_t)resource, ticks};
    measure(name, call_step, 1);
}

static void events_on_servers(uint16_t last, uint16_t waiter) {
    chained(waiter + 1u);
    must(VESZTAMOR_DISPATCH, last, 0, 0);
    must(VESZTAMOR_SUSPEND, last, 0, 0);
    event("step: wake", VESZTAMOR_WAKE, last, 0, 0);

    chained(waiter + 1u);
    must(VESZTAMOR_DISPATCH, 0, 0, 0);
    event("step: suspend", VESZTAMOR_SUSPEND, last, 0, 0);

    chained(waiter + 1u);
    event("step: dispatch", VESZTAMOR_DISPATCH, 0, 0, 0);

    must(VESZTAMOR_DISPATCH, 0, 0, 0);
    must(VESZTAMOR_DISPATCH, 1, 0, 0);
    event("step: preempt", VESZTAMOR_PREEMPT, 0, 0, 0);
    event("step: elapse", VESZTAMOR_ELAPSE, 0, 0, 10);

    must(VESZTAMOR_ELAPSE, 0, 0, 10);
    must(VESZTAMOR_ELAPSE, 0, 0, 100);
    event("step: recharge", VESZTAMOR_RECHARGE, 0, 0, 0);
}

static void locks_and_unlocks(uint16_t last, uint16_t waiter) {
    chained(waiter);
    must(VESZTAMOR_DISPATCH, waiter, 0, 0);
    event("step: lock, owned", VESZTAMOR_LOCK, waiter, last, 0);

    chained(waiter);
    must(VESZTAMOR_DISPATCH, last, 0, 0);
    event("step: unlock, freed", VESZTAMOR_UNLOCK, last, last, 0);
    must(VESZTAMOR_UNLOCK, last, last, 0);
    event("step: lock, free", VESZTAMOR_LOCK, last, last, 0);

    chained(waiter + 1u);
    must(VESZTAMOR_DISPATCH, last, 0, 0);
    event("step: unlock, passed", VESZTAMOR_UNLOCK, last, last, 0);
}

static void calls_at(unsigned count) {
    const uint16_t last = (uint16_t)(count - 1), waiter = (uint16_t)(count - 2);
    tasks = count;
    line = 0;
    chained(waiter + 1u);
    must(VESZTAMOR_DISPATCH, 0, 0, 0);
    measure("fresh", call_fresh, 1);
    measure("is_sound", call_is_sound, 1);
    measure("executing", call_executing, 1);
    measure("meter", call_meter, 1);
    measure("replay, for each event", call_replay, trace_events);
    events_on_servers(last, waiter);
    locks_and_unlocks(last, waiter);
}

/* Each task has a section of length 10 on resource 0 and in it one of length 4 on resource 1: nearly all orders are tried. */
static void print_bound(unsigned count) {
    section_tasks = count;
    put(sections, count, 2);
    put(sections + 2, 2 * count, 2);
    for (unsigned t = 0; t < count; t++) {
        const uint8_t outer = (uint8_t)(2 * t), task = (uint8_t)t;
        const uint8_t pair[18] = {task, 0, 0, 0, 10, 0, 0, 0, 255, task, 0, 1, 0, 4, 0, 0, 0, outer};
        memcpy(sections + 4 + 18 * t, pair, sizeof pair);
    }
    const struct cost cost = cost_of("bound", call_bound);
    printf("| %u | %u | %zu | %ld |\n", count, (unsigned)vesztamor_four_bytes(bound + 8), cost.stack, cost.instructions);
}

int main(void) {
    for (size = 0; size < SIZES; size++) calls_at(sizes[size]);
    printf("| Call | Stack, bytes: 2 tasks | 8 | 16 | Instructions: 2 tasks | 8 | 16 |\n|---|---|---|---|---|---|---|\n");
    for (unsigned i = 0; i < line; i++) {
        printf("| %s |", names[i]);
        for (size = 0; size < SIZES; size++) printf(" %zu |", costs[i][size].stack);
        for (size = 0; size < SIZES; size++) printf(" %ld |", costs[i][size].instructions);
        printf("\n");
    }
    printf("\n| bound: tasks | Weighings | Stack, bytes | Instructions |\n|---|---|---|---|\n");
    print_bound(2);
    print_bound(4);
    print_bound(SECTION_TASKS);
    return 0;
}
