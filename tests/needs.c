/* A tape's needs from C: the four numbers of small tapes, and each refusal. */
#include "expect.h"

static const uint8_t square_and_ring[] = {
    1, 1, 0, 1, 2, 0, 1, 3, 0, 1, 4, 0, 3, 1, 0, 2, 0, 3, 3, 0, 4, 0, 5, 1, 0, 3, 0, 5, 2, 0, 4, 0,
    7, 8, 2, 1, 0, 2, 0, 3, 0, 4, 0,
};
static const uint8_t put_take_put[] = {1, 1, 0, 2, 1, 0, 1, 2, 0};
static const uint8_t take_put[] = {2, 1, 0, 1, 1, 0};
static const uint8_t far_darts[] = {3, 255, 255, 0, 0, 8, 1, 1, 0, 0, 16};
static const uint8_t second_dart[] = {8, 1, 1, 0, 9, 0};
static const uint8_t empty_ring[] = {8, 0};
static const uint8_t unknown[] = {1, 1, 0, 9};
static const uint8_t torn[] = {1, 1, 0, 8, 1, 1, 0, 2};
static const uint8_t long_tape[LOTSKADI_MAX_TAPE + 1] = {0};

static const struct {
    const char *what;
    const uint8_t *tape;
    size_t bytes;
    struct lotskadi_needs expected;
} rows[] = {
    {"the square and its ring", square_and_ring, sizeof square_and_ring, {0, 4, 10, 4, 40}},
    {"put, take out, put", put_take_put, sizeof put_take_put, {0, 2, 3, 1, 12}},
    {"the running count goes below 0", take_put, sizeof take_put, {0, 1, 2, 0, 8}},
    {"past 4,096, and 0 is no dart", far_darts, sizeof far_darts, {0, 65535, 2, 0, 8}},
    {"a ring's second dart", second_dart, sizeof second_dart, {0, 9, 1, 0, 4}},
    {"a ring of no double-link", empty_ring, sizeof empty_ring, {0, 0, 1, 0, 0}},
    {"no tape", NULL, 0, {0, 0, 0, 0, 0}},
    {"an unknown command", unknown, sizeof unknown, {LOTSKADI_UNKNOWN_COMMAND, 0, 0, 0, 0}},
    {"a torn ring", torn, sizeof torn, {LOTSKADI_TORN_COMMAND, 0, 0, 0, 0}},
    {"a tape too long", long_tape, sizeof long_tape, {LOTSKADI_WRONG_SIZE, 0, 0, 0, 0}},
};

int main(void) {
    for (size_t i = 0; i < sizeof rows / sizeof rows[0]; i++) {
        expect_needs(rows[i].what, lotskadi_tape_needs(rows[i].tape, rows[i].bytes), rows[i].expected);
    }
    return outcome();
}
