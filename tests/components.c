/* Reports of single components from C: a square and a component of genus 1 on one table, a ring in the square, and each
 * refusal. */
#include "expect.h"

enum { CAPACITY = 9, WORDS = LOTSKADI_WORDS_PER_DART * CAPACITY };

static uint16_t table[WORDS];

/* Darts 1 to 4 are document 01's square; 5 to 7 have genus 1; 8 is a dart by itself, and 9 is absent. */
static const uint8_t build[] = {
    1, 1, 0, 1, 2, 0, 1, 3, 0, 1, 4, 0, 3, 1, 0, 2, 0, 3, 3, 0, 4, 0, 5, 1, 0, 3, 0, 5, 2, 0, 4, 0,
    1, 5, 0, 1, 6, 0, 1, 7, 0, 3, 5, 0, 6, 0, 3, 5, 0, 7, 0, 5, 5, 0, 6, 0, 5, 5, 0, 7, 0, 1, 8, 0,
};

struct row {
    const char *what;
    uint32_t dart;
    struct lotskadi_totals expected;
};

static const struct row before[] = {
    {"the square", 1, {0, 4, 2, 2, 2, 1, 2, 0, 1}},
    {"the square, by its last dart", 4, {0, 4, 2, 2, 2, 1, 2, 0, 1}},
    {"genus 1", 6, {0, 3, 1, 1, 1, 1, 0, 1, 1}},
    {"a dart by itself", 8, {0, 1, 1, 1, 1, 1, 2, 0, 0}},
};
static const struct lotskadi_totals plan_before = {0, 8, 4, 4, 4, 3, 4, 1, 2};

static const struct row after[] = {
    {"the side of the first darts", 1, {0, 2, 2, 1, 1, 1, 2, 0, 1}},
    {"the side of the second darts", 2, {0, 2, 2, 1, 1, 1, 2, 0, 1}},
    {"genus 1, beside a ring", 6, {0, 3, 1, 1, 1, 1, 0, 1, 1}},
    {"a dart by itself, beside a ring", 8, {0, 1, 1, 1, 1, 1, 2, 0, 0}},
};
static const struct lotskadi_totals plan_after = {0, 8, 6, 4, 4, 4, 6, 1, 3};

static void expect_components(const struct row *rows, size_t count) {
    for (size_t i = 0; i < count; i++) {
        expect_totals(rows[i].what, lotskadi_component_report(table, WORDS, rows[i].dart), rows[i].expected);
    }
}

static void refused(const char *what, size_t words, uint32_t dart, uint8_t number) {
    const struct lotskadi_totals expected = {number, 0, 0, 0, 0, 0, 0, 0, 0};
    expect_totals(what, lotskadi_component_report(table, words, dart), expected);
}

int main(void) {
    static const struct lotskadi_run whole = {0, 16};
    static const uint16_t ring[] = {1, 2, 3, 4};
    expect_run("the tape of the plan", lotskadi_play(table, WORDS, build, sizeof build), whole);
    expect_totals("the plan", lotskadi_report(table, WORDS), plan_before);
    expect_components(before, sizeof before / sizeof before[0]);
    expect_number("the ring", lotskadi_ring_cut(table, WORDS, ring, sizeof ring / sizeof ring[0]), LOTSKADI_OK);
    expect_totals("the plan after the ring", lotskadi_report(table, WORDS), plan_after);
    expect_components(after, sizeof after / sizeof after[0]);

    refused("dart 0", WORDS, 0, LOTSKADI_OFF_THE_TABLE);
    refused("a dart above the capacity", WORDS, CAPACITY + 1, LOTSKADI_OFF_THE_TABLE);
    refused("a dart that no word holds", WORDS, 65537, LOTSKADI_OFF_THE_TABLE);
    refused("an absent dart", WORDS, CAPACITY, LOTSKADI_NO_TAB);
    refused("a wrong size", WORDS - 1, 1, LOTSKADI_WRONG_SIZE);
    table[0] = CAPACITY;
    refused("a bent table", WORDS, 0, LOTSKADI_BENT_TABLE);
    return outcome();
}
