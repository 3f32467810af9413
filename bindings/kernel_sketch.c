/* A kernel's side of the layer, in one file: four cores, the tasks of examples/incident.txt, and a scheduler that takes the earliest deadline
 * first. Time is simulated. Each pass of the loop in `run` is one instant, as a kernel meets it: timers fire (wakes and recharges), cores are given
 * out, tasks make their system calls, and time goes on to the next instant at which something can happen.
 *
 * The layer holds who executes in which server and who pays for it; the kernel holds which server has which core, what each task does next, and the
 * dose record, which is made of meter rows. The incident was a dose meter that ran in two servers at once, each of which wrote the same ticks down:
 * here every tick is held to the clock, and one that is counted twice ends the program with status 1. `kernel_sketch twice` counts so on purpose.
 *
 * It assumes nothing of the library but its header; another layout, and an event that is refused, end it with status 2. */
#include <stdbool.h>
#include <stdio.h>
#include <stdlib.h>
#include <string.h>
#include "vesztamor.h"

enum { TASKS = 4, MOST_CORES = 4, KINDS = 9, NOBODY = -1 };
enum { DOSE, FADE, LABEL, SECOND_FADE };
enum { MAP };
static const uint32_t end_of_run = 120;

/* ---- What the tasks do ---- */

enum what { COMPUTE, LOCK, UNLOCK, SLEEP };

struct action {
    enum what what;
    uint32_t operand; /* ticks, or the resource */
};

struct task {
    const char *name;
    uint32_t quota, period;
    uint16_t declared;
    uint32_t first, every; /* when its first job comes, and how often one does */
    struct action job[6];
};

static const struct task task[TASKS] = {
    [DOSE] = {"dose", 3, 20, 1 << MAP, 0, 60, {{LOCK, MAP}, {COMPUTE, 7}, {UNLOCK, MAP}, {COMPUTE, 2}, {SLEEP, 0}}},
    [FADE] = {"fade", 10, 50, 1 << MAP, 0, 50, {{COMPUTE, 8}, {LOCK, MAP}, {COMPUTE, 2}, {UNLOCK, MAP}, {SLEEP, 0}}},
    [LABEL] = {"label", 12, 40, 1 << MAP, 2, 40, {{LOCK, MAP}, {COMPUTE, 2}, {UNLOCK, MAP}, {COMPUTE, 3}, {SLEEP, 0}}},
    [SECOND_FADE] = {"fade 2", 9, 60, 0, 0, 60, {{COMPUTE, 11}, {SLEEP, 0}}},
};

/* ---- What the kernel keeps ---- */

struct thread {
    unsigned next;    /* its next action */
    uint32_t left;    /* ticks left of what it computes */
    uint32_t release; /* when its next job comes */
    bool asleep;
};

/* what a server did while time went on */
struct turn {
    uint32_t word; /* executes or spins; ok for a server without a core */
    uint32_t task;
};

static uint8_t state[VESZTAMOR_STATE_BYTES];
static struct thread thread[TASKS];
static int core[MOST_CORES];
static unsigned cores, events[KINDS];
static uint32_t clock_now;
static uint64_t core_ticks;
/* the dose record: the ticks of exposure that each server paid for */
static uint64_t dose[TASKS];
static bool counts_twice;

static void stop(int status, const char *why) {
    printf("%s\n", why);
    exit(status);
}

/* ---- The layer under the kernel's lock ----
 * Whoever asks the layer and acts on what it says holds the lock over both. On one host thread the lock is a flag that shows where it is needed. */

static bool locked;

static void take_lock(void) {
    if (locked) stop(2, "the lock is taken twice");
    locked = true;
}

static void release_lock(void) { locked = false; }

static uint8_t *locked_state(void) {
    if (!locked) stop(2, "the state is used without the lock");
    return state;
}

/* fields that the layer has no function for, by their offsets (docs/STATE.md) */
static unsigned phase_of(unsigned server) { return locked_state()[10 + 29 * server]; }
static uint32_t budget_of(unsigned server) { return vesztamor_four_bytes(locked_state() + 10 + 29 * server + 1); }
static uint32_t deadline_of(unsigned server) { return vesztamor_four_bytes(locked_state() + 10 + 29 * server + 5); }
static uint32_t executed_by(unsigned t) { return vesztamor_four_bytes(locked_state() + 474 + 46 * t + 10); }

static struct turn turn_of(unsigned server) {
    const uint64_t answer = vesztamor_executing(locked_state(), sizeof state, (uint16_t)server);
    return (struct turn){vesztamor_word_of(answer), vesztamor_number_of(answer)};
}

static void meter(uint8_t *rows) {
    const uint64_t answer = vesztamor_meter(locked_state(), sizeof state, rows, VESZTAMOR_ROWS_BYTES(TASKS));
    if (vesztamor_word_of(answer) != VESZTAMOR_OK || vesztamor_number_of(answer) != TASKS) stop(2, "the rows are refused");
}

static void event(enum vesztamor_kind kind, unsigned number, unsigned resource, uint32_t ticks) {
    const uint64_t answer = vesztamor_step(locked_state(), sizeof state, (uint16_t)kind, (uint16_t)number, (uint16_t)resource, ticks);
    if (vesztamor_word_of(answer) == VESZTAMOR_REFUSED) {
        printf("event %u of %u is refused: %u\n", (unsigned)kind, number, (unsigned)vesztamor_number_of(answer));
        if (vesztamor_follows(answer)) printf("it waits for resource %u\n", (unsigned)vesztamor_further_of(answer));
        exit(2);
    }
    events[kind]++;
    /* an event can take servers off their cores: a preemption, a task that sleeps, a budget that ends, a lock that is waited for */
    for (unsigned c = 0; c < cores; c++)
        if (core[c] != NOBODY && phase_of((unsigned)core[c]) != VESZTAMOR_RUNNING) core[c] = NOBODY;
}

/* ---- Timers ---- */

static void timers(void) {
    take_lock();
    for (unsigned t = 0; t < TASKS; t++)
        if (thread[t].asleep && thread[t].release <= clock_now) {
            thread[t].asleep = false;
            event(VESZTAMOR_WAKE, t, 0, 0);
        }
    for (unsigned s = 0; s < TASKS; s++)
        if (phase_of(s) == VESZTAMOR_RECHARGING && deadline_of(s) <= clock_now) event(VESZTAMOR_RECHARGE, s, 0, 0);
    release_lock();
}

/* ---- The dispatcher ---- */

/* the Active server with the earliest deadline */
static int most_urgent(void) {
    int best = NOBODY;
    for (unsigned s = 0; s < TASKS; s++)
        if (phase_of(s) == VESZTAMOR_ACTIVE && (best == NOBODY || deadline_of(s) < deadline_of((unsigned)best))) best = (int)s;
    return best;
}

/* a core that has no server, else the one whose server has the latest deadline */
static unsigned best_core(void) {
    unsigned best = 0;
    for (unsigned c = 0; c < cores; c++) {
        if (core[c] == NOBODY) return c;
        if (deadline_of((unsigned)core[c]) > deadline_of((unsigned)core[best])) best = c;
    }
    return best;
}

static void reschedule(void) {
    take_lock();
    for (int s = most_urgent(); s != NOBODY; s = most_urgent()) {
        const unsigned c = best_core();
        if (core[c] != NOBODY) {
            if (deadline_of((unsigned)core[c]) <= deadline_of((unsigned)s)) break;
            event(VESZTAMOR_PREEMPT, (unsigned)core[c], 0, 0);
        }
        event(VESZTAMOR_DISPATCH, (unsigned)s, 0, 0);
        core[c] = s;
    }
    release_lock();
}

/* ---- System calls ---- */

static void next_action(unsigned t) {
    struct thread *self = &thread[t];
    const struct action action = task[t].job[self->next++];
    switch (action.what) {
    case COMPUTE:
        self->left = action.operand;
        break;
    case LOCK: /* where it has to wait, its next action comes when it executes again, and then it owns the resource */
        event(VESZTAMOR_LOCK, t, action.operand, 0);
        break;
    case UNLOCK:
        event(VESZTAMOR_UNLOCK, t, action.operand, 0);
        break;
    case SLEEP: /* until its next job, which may have come already */
        self->next = 0;
        self->release += task[t].every;
        self->asleep = self->release > clock_now;
        if (self->asleep) event(VESZTAMOR_SUSPEND, t, 0, 0);
        break;
    }
}

/* Each core's task, if its computing is done, does what comes next; whether any did. */
static bool system_calls(void) {
    bool any = false;
    take_lock();
    for (unsigned c = 0; c < cores; c++) {
        if (core[c] == NOBODY) continue;
        const struct turn turn = turn_of((unsigned)core[c]);
        if (turn.word != VESZTAMOR_EXECUTES || thread[turn.task].left > 0) continue;
        next_action(turn.task);
        any = true;
    }
    release_lock();
    return any;
}

/* ---- Time ---- */

static uint32_t least(uint32_t a, uint32_t b) { return a < b ? a : b; }

/* how many ticks pass before anything can happen */
static uint32_t quiet_ticks(void) {
    uint32_t ticks = end_of_run - clock_now;
    take_lock();
    for (unsigned c = 0; c < cores; c++) {
        if (core[c] == NOBODY) continue;
        const struct turn turn = turn_of((unsigned)core[c]);
        ticks = least(ticks, budget_of((unsigned)core[c]));
        if (turn.word == VESZTAMOR_EXECUTES) ticks = least(ticks, thread[turn.task].left);
    }
    for (unsigned t = 0; t < TASKS; t++) {
        if (thread[t].asleep) ticks = least(ticks, thread[t].release - clock_now);
        if (phase_of(t) == VESZTAMOR_RECHARGING) ticks = least(ticks, deadline_of(t) - clock_now);
    }
    release_lock();
    return ticks;
}

/* What a server did costs it just the ticks that passed, on one account; those of the dose meter go into the record, which is held to what the dose
 * meter executed. */
static void account(unsigned server, struct turn turn, struct vesztamor_row before, struct vesztamor_row after, uint32_t ticks) {
    const uint32_t worked = after.own - before.own + after.lent - before.lent, spun = after.spin - before.spin;
    const bool had_a_core = turn.word != VESZTAMOR_OK;
    if (worked + spun != (had_a_core ? ticks : 0)) stop(1, "a server is charged for other ticks than it had");
    if (had_a_core) core_ticks += ticks;
    if (!had_a_core || turn.task != DOSE) return;
    dose[server] += worked;
    if (counts_twice) dose[server] += spun;
}

static uint64_t dose_recorded(void) {
    uint64_t sum = 0;
    for (unsigned s = 0; s < TASKS; s++) sum += dose[s];
    return sum;
}

static void print_core(struct turn turn, unsigned server) {
    char text[32];
    if (turn.word == VESZTAMOR_SPINS)
        snprintf(text, sizeof text, "%s spins", task[server].name);
    else if (turn.task == server)
        snprintf(text, sizeof text, "%s", task[server].name);
    else
        snprintf(text, sizeof text, "%s for %s", task[server].name, task[turn.task].name);
    printf("  %-16s", text);
}

static void pass(uint32_t ticks) {
    uint8_t before[VESZTAMOR_ROWS_BYTES(TASKS)], after[VESZTAMOR_ROWS_BYTES(TASKS)];
    struct turn turn[TASKS];
    take_lock();
    meter(before);
    for (unsigned s = 0; s < TASKS; s++) turn[s] = turn_of(s);
    printf("%3u to %3u", (unsigned)clock_now, (unsigned)(clock_now + ticks));
    for (unsigned c = 0; c < cores; c++) {
        if (core[c] == NOBODY)
            printf("  %-16s", "-");
        else
            print_core(turn[core[c]], (unsigned)core[c]);
    }
    event(VESZTAMOR_ELAPSE, 0, 0, ticks);
    clock_now += ticks;
    meter(after);
    for (unsigned s = 0; s < TASKS; s++) {
        if (turn[s].word == VESZTAMOR_EXECUTES) thread[turn[s].task].left -= ticks;
        account(s, turn[s], vesztamor_row_of(before, s), vesztamor_row_of(after, s), ticks);
    }
    printf("  %u\n", (unsigned)dose_recorded());
    if (dose_recorded() > clock_now) stop(1, "more ticks of exposure than have passed: some tick is counted twice");
    if (dose_recorded() != executed_by(DOSE)) stop(1, "the dose record is not what the dose meter executed: some tick is counted twice");
    release_lock();
}

/* ---- A run ---- */

static void put(uint8_t *at, uint32_t number, unsigned width) {
    for (unsigned i = 0; i < width; i++) at[i] = (uint8_t)(number >> 8 * i);
}

static void boot(unsigned with_cores) {
    uint8_t table[VESZTAMOR_TABLE_BYTES(TASKS)];
    put(table, with_cores, 2);
    put(table + 2, TASKS, 2);
    put(table + 4, 1, 2);
    for (unsigned t = 0; t < TASKS; t++) {
        put(table + 6 + 10 * t, task[t].quota, 4);
        put(table + 10 + 10 * t, task[t].period, 4);
        put(table + 14 + 10 * t, task[t].declared, 2);
        thread[t] = (struct thread){.release = task[t].first, .asleep = true};
        dose[t] = 0;
    }
    if (vesztamor_word_of(vesztamor_fresh(table, sizeof table, state, sizeof state)) != VESZTAMOR_OK) stop(2, "the table is refused");
    cores = with_cores;
    for (unsigned c = 0; c < cores; c++) core[c] = NOBODY;
    memset(events, 0, sizeof events);
    clock_now = 0;
    core_ticks = 0;
}

/* Every tick that a core gave to a server stands on one account, and each task's ticks were paid for once. */
static void balance(void) {
    uint8_t rows[VESZTAMOR_ROWS_BYTES(TASKS)];
    uint64_t worked = 0, spun = 0, executed = 0;
    take_lock();
    meter(rows);
    printf("\n%-8s %5s %5s %5s %9s %14s\n", "", "own", "lent", "spin", "executed", "paid for dose");
    for (unsigned s = 0; s < TASKS; s++) {
        const struct vesztamor_row row = vesztamor_row_of(rows, s);
        printf("%-8s %5u %5u %5u %9u %14u\n", task[s].name, (unsigned)row.own, (unsigned)row.lent, (unsigned)row.spin, (unsigned)executed_by(s),
               (unsigned)dose[s]);
        worked += (uint64_t)row.own + row.lent;
        spun += row.spin;
        executed += executed_by(s);
    }
    printf("own and lent %u, executed %u; with spin %u, ticks of the cores %u\n", (unsigned)worked, (unsigned)executed, (unsigned)(worked + spun),
           (unsigned)core_ticks);
    printf("dose recorded %u, executed %u, clock %u\n", (unsigned)dose_recorded(), (unsigned)executed_by(DOSE), (unsigned)clock_now);
    printf("wake %u, suspend %u, dispatch %u, preempt %u, elapse %u, recharge %u, lock %u, unlock %u\n", events[VESZTAMOR_WAKE],
           events[VESZTAMOR_SUSPEND], events[VESZTAMOR_DISPATCH], events[VESZTAMOR_PREEMPT], events[VESZTAMOR_ELAPSE], events[VESZTAMOR_RECHARGE],
           events[VESZTAMOR_LOCK], events[VESZTAMOR_UNLOCK]);
    if (worked != executed || worked + spun != core_ticks) stop(1, "some tick is counted twice, or not at all");
    release_lock();
}

static void run(unsigned with_cores) {
    boot(with_cores);
    printf("%u cores\n%-10s", cores, "ticks");
    for (unsigned c = 0; c < cores; c++) printf("  core %-11u", c);
    printf("  dose\n");
    while (clock_now < end_of_run) {
        timers();
        do reschedule();
        while (system_calls());
        pass(quiet_ticks());
    }
    balance();
}

int main(int count, char **words) {
    counts_twice = count == 2 && strcmp(words[1], "twice") == 0;
    if (vesztamor_layout() != VESZTAMOR_LAYOUT) stop(2, "the library has another layout than this program");
    run(4);
    printf("\nThe same work where cores are short:\n\n");
    run(2);
    return 0;
}
