/* The library from C: a fresh state of two tasks that share one resource, a few events on it, and what each answers. The state lies in memory of the
 * caller; a kernel takes its one lock around each call. */
#include <stdio.h>
#include "vesztamor.h"

static const char *const words[] = {"ok", "executes", "spins", "granted", "waits", "passed", "freed", "refused"};

static void told(const char *what, uint64_t answer) {
    printf("%s: %s %u", what, words[vesztamor_word_of(answer)], (unsigned)vesztamor_number_of(answer));
    if (vesztamor_follows(answer)) printf(" %u", (unsigned)vesztamor_further_of(answer));
    printf("\n");
}

static void metered(const uint8_t *rows, size_t server) {
    static const char *const phases[] = {"idle", "active", "running", "recharging"};
    const struct vesztamor_row row = vesztamor_row_of(rows, server);
    printf("row %u: %s, budget %u, own %u, lent %u, spin %u\n", (unsigned)server, phases[row.phase], (unsigned)row.budget, (unsigned)row.own,
           (unsigned)row.lent, (unsigned)row.spin);
}

int main(void) {
    /* two processors, two tasks, one resource; each task: Q = 10, P = 100, and it declares resource 0 */
    static const uint8_t table[VESZTAMOR_TABLE_BYTES(2)] = {2, 0, 2, 0, 1, 0, 10, 0, 0, 0, 100, 0, 0, 0, 1, 0, 10, 0, 0, 0, 100, 0, 0, 0, 1, 0};
    static uint8_t state[VESZTAMOR_STATE_BYTES], rows[VESZTAMOR_ROWS_BYTES(2)];
    const size_t length = sizeof state;

    if (vesztamor_layout() != VESZTAMOR_LAYOUT) {
        printf("the library has layout %u, this program layout %u\n", (unsigned)vesztamor_layout(), (unsigned)VESZTAMOR_LAYOUT);
        return 2;
    }
    told("fresh", vesztamor_fresh(table, sizeof table, state, length));
    /* suspended, 61: it has to be woken first */
    told("lock 0 0", vesztamor_step(state, length, VESZTAMOR_LOCK, 0, 0, 0));
    told("wake 0", vesztamor_step(state, length, VESZTAMOR_WAKE, 0, 0, 0));
    told("wake 1", vesztamor_step(state, length, VESZTAMOR_WAKE, 1, 0, 0));
    /* served by no Running server, 63: one has to be dispatched first */
    told("lock 0 0", vesztamor_step(state, length, VESZTAMOR_LOCK, 0, 0, 0));
    told("dispatch 0", vesztamor_step(state, length, VESZTAMOR_DISPATCH, 0, 0, 0));
    told("lock 0 0", vesztamor_step(state, length, VESZTAMOR_LOCK, 0, 0, 0));
    told("dispatch 1", vesztamor_step(state, length, VESZTAMOR_DISPATCH, 1, 0, 0));
    told("lock 1 0", vesztamor_step(state, length, VESZTAMOR_LOCK, 1, 0, 0));
    /* waiting, 62, and for which resource: it owns that one when its turn has come, so there is nothing to ask again */
    told("lock 1 0", vesztamor_step(state, length, VESZTAMOR_LOCK, 1, 0, 0));
    told("elapse 3", vesztamor_step(state, length, VESZTAMOR_ELAPSE, 0, 0, 3));
    told("server 0", vesztamor_executing(state, length, 0));
    told("server 1", vesztamor_executing(state, length, 1));
    told("meter", vesztamor_meter(state, length, rows, sizeof rows));
    metered(rows, 0);
    metered(rows, 1);
    told("meter one row", vesztamor_meter(state, length, rows, VESZTAMOR_ROWS_BYTES(1)));
    told("unlock 0 0", vesztamor_step(state, length, VESZTAMOR_UNLOCK, 0, 0, 0));
    told("wake 0", vesztamor_step(state, length, VESZTAMOR_WAKE, 0, 0, 0));
    told("is_sound", vesztamor_is_sound(state, length));
    return 0;
}
