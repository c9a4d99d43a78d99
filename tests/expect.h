/* What the tests in C share: expectations that print what fails and count it, memory as calls are lent it, and document
 * 01's square. For C11 and for C++17. */
#ifndef EXPECT_H
#define EXPECT_H

#include <stdio.h>
#include <string.h>

#include "lotskadi.h"

/* EXPECTATIONS */

static int failures;

static inline void expect(const char *what, bool holds) {
    if (!holds) {
        failures++;
        printf("FAILED: %s\n", what);
    }
}

static inline void expect_number(const char *what, uint32_t number, uint32_t expected) {
    if (number != expected) {
        failures++;
        printf("FAILED: %s: %lu, not %lu\n", what, (unsigned long)number, (unsigned long)expected);
    }
}

static inline void print_totals(const char *before, struct lotskadi_totals t) {
    printf("  %s %u: %lu %lu %lu %lu %lu %ld %lu %lu\n", before, (unsigned)t.number, (unsigned long)t.darts,
           (unsigned long)t.edges, (unsigned long)t.vertices, (unsigned long)t.faces, (unsigned long)t.components,
           (long)t.characteristic, (unsigned long)t.genus, (unsigned long)t.lifts);
}

static inline void expect_totals(const char *what, struct lotskadi_totals t, struct lotskadi_totals expected) {
    bool same = t.number == expected.number && t.darts == expected.darts && t.edges == expected.edges &&
                t.vertices == expected.vertices && t.faces == expected.faces && t.components == expected.components &&
                t.characteristic == expected.characteristic && t.genus == expected.genus && t.lifts == expected.lifts;
    expect(what, same);
    if (!same) {
        print_totals("is ", t);
        print_totals("not", expected);
    }
}

static inline void expect_answer(const char *what, struct lotskadi_answer a, struct lotskadi_answer expected) {
    expect_number(what, a.number, expected.number);
    expect_number(what, a.yes, expected.yes);
    expect_number(what, a.count, expected.count);
}

static inline void expect_run(const char *what, struct lotskadi_run run, struct lotskadi_run expected) {
    expect_number(what, run.number, expected.number);
    expect_number(what, run.accepted, expected.accepted);
}

static inline void expect_needs(const char *what, struct lotskadi_needs needs, struct lotskadi_needs expected) {
    expect_number(what, needs.number, expected.number);
    expect_number(what, needs.capacity, expected.capacity);
    expect_number(what, needs.commands, expected.commands);
    expect_number(what, needs.peak, expected.peak);
    expect_number(what, needs.words, expected.words);
}

static inline void expect_head(const char *what, struct lotskadi_head head, struct lotskadi_head expected) {
    for (size_t i = 0; i < LOTSKADI_CHECKPOINTS; i++) {
        expect_number(what, head.checkpoints[i], expected.checkpoints[i]);
    }
    expect_number(what, head.length, expected.length);
}

static inline void expect_journaled(const char *what, struct lotskadi_journaled journaled, uint8_t number,
                                    struct lotskadi_head head) {
    expect_number(what, journaled.number, number);
    expect_head(what, journaled.head, head);
}

static inline void expect_journaled_run(const char *what, struct lotskadi_journaled_run run,
                                        struct lotskadi_run expected, struct lotskadi_head head) {
    expect_number(what, run.number, expected.number);
    expect_number(what, run.accepted, expected.accepted);
    expect_head(what, run.head, head);
}

static inline void expect_undone(const char *what, struct lotskadi_undone undone, uint8_t number, uint32_t count,
                                 struct lotskadi_head head) {
    expect_number(what, undone.number, number);
    expect_number(what, undone.undone, count);
    expect_head(what, undone.head, head);
}

/* What the program returns. */
static inline int outcome(void) {
    printf("%s\n", failures == 0 ? "all as expected" : "failed");
    return failures != 0;
}

/* LENT MEMORY has a margin on both sides. All of it that is not filled holds one byte, so that a write shows. */

enum { MARGIN = 16, FILLER = 0xEE, FILLER_WORD = 0xEEEE };

struct lent_words {
    uint16_t all[MARGIN + LOTSKADI_MAX_WORDS + LOTSKADI_WORDS_PER_DART + MARGIN];
};

struct lent_bytes {
    uint8_t all[MARGIN + LOTSKADI_MAX_TAPE + 1 + MARGIN];
};

/* Where the memory that a call is lent begins, with these words at the start. */
static inline uint16_t *lend_words(struct lent_words *lent, const uint16_t *words, size_t count) {
    memset(lent->all, FILLER, sizeof lent->all);
    if (count > 0) {
        memcpy(lent->all + MARGIN, words, count * sizeof words[0]);
    }
    return lent->all + MARGIN;
}

static inline uint8_t *lend_bytes(struct lent_bytes *lent, const uint8_t *bytes, size_t count) {
    memset(lent->all, FILLER, sizeof lent->all);
    if (count > 0) {
        memcpy(lent->all + MARGIN, bytes, count);
    }
    return lent->all + MARGIN;
}

static inline void report_difference(const char *what, const char *unit, size_t at, unsigned is, unsigned expected) {
    failures++;
    printf("FAILED: %s: %s %ld is %u, not %u\n", what, unit, (long)at - MARGIN, is, expected);
}

/* These words at the start, and nothing else has changed. Prints the first word that differs. */
static inline void expect_words(const char *what, const struct lent_words *lent, const uint16_t *words, size_t count) {
    for (size_t i = 0; i < sizeof lent->all / sizeof lent->all[0]; i++) {
        bool filled = MARGIN <= i && i < MARGIN + count;
        uint16_t expected = filled ? words[i - MARGIN] : (uint16_t)FILLER_WORD;
        if (lent->all[i] != expected) {
            report_difference(what, "word", i, lent->all[i], expected);
            return;
        }
    }
}

static inline void expect_bytes(const char *what, const struct lent_bytes *lent, const uint8_t *bytes, size_t count) {
    for (size_t i = 0; i < sizeof lent->all; i++) {
        bool filled = MARGIN <= i && i < MARGIN + count;
        uint8_t expected = filled ? bytes[i - MARGIN] : (uint8_t)FILLER;
        if (lent->all[i] != expected) {
            report_difference(what, "byte", i, lent->all[i], expected);
            return;
        }
    }
}

/* HEADS of a journal */

static inline struct lotskadi_head head_of(uint32_t length) {
    struct lotskadi_head head = lotskadi_empty_head();
    head.length = length;
    return head;
}

static inline struct lotskadi_head with_checkpoint(struct lotskadi_head head, int checkpoint, uint32_t length) {
    head.checkpoints[checkpoint] = length;
    return head;
}

/* THE SCREEN'S BUFFER */

enum { SCREEN_NUMBERS = 10 };

static inline uint32_t number_at(const uint8_t *out, size_t i) {
    const uint8_t *four = out + sizeof(uint32_t) * i;
    return four[0] | (uint32_t)four[1] << 8 | (uint32_t)four[2] << 16 | (uint32_t)four[3] << 24;
}

static inline void expect_numbers(const char *what, const uint8_t *out, const uint32_t expected[SCREEN_NUMBERS]) {
    for (size_t i = 0; i < SCREEN_NUMBERS; i++) {
        expect_number(what, number_at(out, i), expected[i]);
    }
}

/* DOCUMENT 01'S SQUARE: darts 1 to 4, edges 1 2 and 3 4, vertices 1 3 and 2 4, faces 1 4 and 2 3. */

static const uint8_t square_tape[] = {
    1, 1, 0, 1, 2, 0, 1, 3, 0, 1, 4, 0, 3, 1, 0, 2, 0, 3, 3, 0, 4, 0, 5, 1, 0, 3, 0, 5, 2, 0, 4, 0,
};

#endif
