/* The functions of the static library, for C. What each one does, byte for byte, is the contract of its source in crates/vesztamor; the layouts of
 * states and tables are in docs/STATE.md.
 *
 * Memory that is lent is a pointer and a length, in bytes. A function reads and writes nothing else, keeps nothing between calls, and takes any
 * bytes and any numbers: there is nothing to ensure before a call but that the memory is there and that no two lent parts overlap. A pointer may
 * not be null, also where the length is 0.
 *
 * A state that several processors share is to be used under one lock of the kernel: take it around each call, and nothing in the library waits.
 *
 * An answer is one number: its word in bits 56 to 63, its number in bits 0 to 31, and in bits 32 to 55 what follows: 0 where nothing does, else one
 * more than the number that does. Only refused 62 has one, the resource that the task waits for. A refusal writes nothing.
 *
 * Before anything else compare vesztamor_layout() with VESZTAMOR_LAYOUT: a program that was built for another layout reads everything wrongly. */
#ifndef VESZTAMOR_H
#define VESZTAMOR_H

#include <stdbool.h>
#include <stddef.h>
#include <stdint.h>

#ifdef __cplusplus
extern "C" {
#endif

/* the layout that this header is for; it goes up whenever the bytes of a state, a table, a row or an answer change */
#define VESZTAMOR_LAYOUT 1
/* the bytes of a state */
#define VESZTAMOR_STATE_BYTES 1802
/* the bytes of a table of so many tasks, of a table of so many sections, and of a bound */
#define VESZTAMOR_TABLE_BYTES(tasks) (6 + 10 * (size_t)(tasks))
#define VESZTAMOR_SECTIONS_BYTES(sections) (4 + 9 * (size_t)(sections))
#define VESZTAMOR_BOUND_BYTES 12
/* the bytes of a meter row, and of so many */
#define VESZTAMOR_ROW_BYTES 17
#define VESZTAMOR_ROWS_BYTES(rows) (VESZTAMOR_ROW_BYTES * (size_t)(rows))
/* the bytes that a replay's text may need, for a trace of so many bytes */
#define VESZTAMOR_TEXT_BYTES(trace) (13 * (size_t)(trace) + 4000)

enum vesztamor_word {
    VESZTAMOR_OK = 0,
    VESZTAMOR_EXECUTES = 1,
    VESZTAMOR_SPINS = 2,
    VESZTAMOR_GRANTED = 3,
    VESZTAMOR_WAITS = 4,
    VESZTAMOR_PASSED = 5,
    VESZTAMOR_FREED = 6,
    VESZTAMOR_REFUSED = 7
};

/* the events' kinds, as in a trace */
enum vesztamor_kind {
    VESZTAMOR_WAKE = 1,
    VESZTAMOR_SUSPEND = 2,
    VESZTAMOR_DISPATCH = 3,
    VESZTAMOR_PREEMPT = 4,
    VESZTAMOR_ELAPSE = 5,
    VESZTAMOR_RECHARGE = 6,
    VESZTAMOR_LOCK = 7,
    VESZTAMOR_UNLOCK = 8
};

/* a server's phase, in a state and in a meter row */
enum vesztamor_phase {
    VESZTAMOR_IDLE = 0,
    VESZTAMOR_ACTIVE = 1,
    VESZTAMOR_RUNNING = 2,
    VESZTAMOR_RECHARGING = 3
};

/* Why a call is refused: the numbers of docs/REFUSALS.md, which says what to do; and 0, where memory lent for a result has the wrong length. */
enum vesztamor_refusal {
    VESZTAMOR_WRONG_LENGTH = 0,
    VESZTAMOR_UNSOUND = 1,
    VESZTAMOR_NO_SUCH_TASK = 2,
    VESZTAMOR_NO_SUCH_RESOURCE = 3,
    VESZTAMOR_UNDECLARED = 4,
    VESZTAMOR_NOT_SUSPENDED = 5,
    VESZTAMOR_NOT_ACTIVE = 7,
    VESZTAMOR_NO_PROCESSOR = 8,
    VESZTAMOR_NOT_RUNNING = 9,
    VESZTAMOR_TICKS_OUT_OF_RANGE = 10,
    VESZTAMOR_CLOCK_LIMIT = 11,
    VESZTAMOR_PAST_BUDGET = 12,
    VESZTAMOR_NOT_RECHARGING = 13,
    VESZTAMOR_BEFORE_DEADLINE = 14,
    VESZTAMOR_ALREADY_HELD = 15,
    VESZTAMOR_WOULD_DEADLOCK = 16,
    VESZTAMOR_NOT_OWNED = 17,
    VESZTAMOR_NOT_TOP = 18,
    VESZTAMOR_BAD_COUNTS = 19,
    VESZTAMOR_BAD_RESERVATION = 20,
    VESZTAMOR_BAD_DECLARATION = 21,
    VESZTAMOR_FEW_ROWS = 22,
    VESZTAMOR_CUT_SHORT = 30,
    VESZTAMOR_BAD_RECORD = 31,
    VESZTAMOR_OUT_OF_ORDER = 32,
    VESZTAMOR_TOO_LONG = 33,
    VESZTAMOR_BAD_SECTION_COUNTS = 40,
    VESZTAMOR_BAD_SECTION = 41,
    VESZTAMOR_RESOURCE_ORDER = 42,
    VESZTAMOR_CHILDREN_TOO_LONG = 43,
    VESZTAMOR_NO_SUCH_BOUND_TASK = 44,
    VESZTAMOR_BAD_ALLOWANCE = 45,
    VESZTAMOR_ALLOWANCE_SPENT = 46,
    VESZTAMOR_SUSPENDED = 61,
    VESZTAMOR_WAITING = 62,
    VESZTAMOR_NOT_SERVED = 63
};

static inline uint32_t vesztamor_word_of(uint64_t answer) { return (uint32_t)(answer >> 56); }
static inline uint32_t vesztamor_number_of(uint64_t answer) { return (uint32_t)answer; }

/* Whether a number follows, and that number: UINT32_MAX, which no answer has, where none does. */
static inline bool vesztamor_follows(uint64_t answer) { return (answer >> 32 & 0xffffff) != 0; }
static inline uint32_t vesztamor_further_of(uint64_t answer) { return (uint32_t)(answer >> 32 & 0xffffff) - 1; }

/* One server's meter row, out of its bytes. */
struct vesztamor_row {
    uint8_t phase;
    uint32_t budget, own, lent, spin;
};

static inline uint32_t vesztamor_four_bytes(const uint8_t *bytes) {
    return (uint32_t)bytes[0] | (uint32_t)bytes[1] << 8 | (uint32_t)bytes[2] << 16 | (uint32_t)bytes[3] << 24;
}

static inline struct vesztamor_row vesztamor_row_of(const uint8_t *rows, size_t server) {
    const uint8_t *bytes = rows + VESZTAMOR_ROWS_BYTES(server);
    struct vesztamor_row row;
    row.phase = bytes[0];
    row.budget = vesztamor_four_bytes(bytes + 1);
    row.own = vesztamor_four_bytes(bytes + 5);
    row.lent = vesztamor_four_bytes(bytes + 9);
    row.spin = vesztamor_four_bytes(bytes + 13);
    return row;
}

/* The layout that the library is built for, a plain number whatever the layout of answers is. */
uint64_t vesztamor_layout(void);

/* The fresh state of a table: ok 0. Refused 0: state has not VESZTAMOR_STATE_BYTES bytes; 19: counts, or the table's length; 20, 21. */
uint64_t vesztamor_fresh(const uint8_t *table, size_t table_length, uint8_t *state, size_t state_length);

/* Whether the bytes hold a sound state: ok 0, or refused 1. */
uint64_t vesztamor_is_sound(const uint8_t *state, size_t state_length);

/* One event. number is the task's or the server's, resource a lock's or an unlock's, ticks an elapse's; an event looks at its own operands alone.
 * Refused 1: no state, or none that is sound; 31: no such kind; else as docs/REFUSALS.md has it, and after 62 the resource that the task waits for.
 * Bytes past the counts stay. */
uint64_t vesztamor_step(uint8_t *state, size_t state_length, uint16_t kind, uint16_t number, uint16_t resource, uint32_t ticks);

/* What a server is doing: executes or spins, and the task; ok 0 where it is not Running or there is no such server. Refused 1: no state. */
uint64_t vesztamor_executing(const uint8_t *state, size_t state_length, uint16_t server);

/* Meter rows: row s receives server s's phase, budget, own, lent and spin, for each server in use; rows past these stay. ok and the number of rows
 * written. Refused 0: rows_length is no multiple of VESZTAMOR_ROW_BYTES; 1: no state, or none that is sound; 22: fewer rows than tasks. */
uint64_t vesztamor_meter(const uint8_t *state, size_t state_length, uint8_t *rows, size_t rows_length);

/* The interference bound of a task: ok 12, with the bound (8 bytes) and the weighings (4 bytes) in out. Refused 0: out has not
 * VESZTAMOR_BOUND_BYTES bytes; 40: counts, or the table's length; 41 to 46. */
uint64_t vesztamor_bound(const uint8_t *sections, size_t sections_length, uint16_t task, uint32_t allowance, uint8_t *out, size_t out_length);

/* The listing of a trace: ok and the length of its text, which is in out from its first byte on. Refused 0: out is shorter than
 * VESZTAMOR_TEXT_BYTES(trace_length). */
uint64_t vesztamor_replay(const uint8_t *trace, size_t trace_length, uint8_t *out, size_t out_length);

#ifdef __cplusplus
}
#endif

#endif
