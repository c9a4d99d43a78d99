/* A planning screen in a few lines: it builds a tape for a square of four darts and a ring that parts it, asks what the
 * tape needs, has the kernel play it, prints the report, asks how far two darts are apart round a vertex, and names the
 * refusal where there is one. What it prints is for the yard, in document 01's words; the header has both.
 *
 *     (cd crates/c_calls && rt lib)
 *     cc -Iinclude examples/planner.c crates/c_calls/out/libc_calls.a -o target/planner
 *     target/planner
 */
#include <inttypes.h>
#include <stdio.h>

#include "lotskadi.h"

struct tape {
    uint8_t bytes[256];
    size_t length;
};

static void write_byte(struct tape *tape, uint8_t byte) {
    if (tape->length < sizeof tape->bytes) {
        tape->bytes[tape->length++] = byte;
    }
}

static void write_dart(struct tape *tape, uint16_t dart) {
    write_byte(tape, (uint8_t)(dart & 0xFF));
    write_byte(tape, (uint8_t)(dart >> 8));
}

static void write_put(struct tape *tape, uint16_t dart) {
    write_byte(tape, 1);
    write_dart(tape, dart);
}

static void write_pair(struct tape *tape, uint8_t command, uint16_t a, uint16_t b) {
    write_byte(tape, command);
    write_dart(tape, a);
    write_dart(tape, b);
}

static const char *refusal(uint32_t number) {
    return number == LOTSKADI_OK ? "none" : lotskadi_refusal_word(number);
}

static uint32_t number_at(const uint8_t *out, size_t i) {
    const uint8_t *four = out + sizeof(uint32_t) * i;
    return four[0] | (uint32_t)four[1] << 8 | (uint32_t)four[2] << 16 | (uint32_t)four[3] << 24;
}

static void show_needs(const struct tape *tape) {
    struct lotskadi_needs needs = lotskadi_tape_needs(tape->bytes, tape->length);
    printf("%" PRIu32 " commands: a table for %" PRIu32 " tabs, ", needs.commands, needs.capacity);
    printf("%" PRIu32 " of them at once, %" PRIu32 " words changed\n", needs.peak, needs.words);
}

static int show(const struct tape *tape) {
    static const char *const names[] = {
        "tabs", "ties", "cells", "gaps", "pieces", "characteristic", "handles", "lifts",
    };
    static uint8_t out[LOTSKADI_SCREEN_ROOM];
    uint8_t refused = lotskadi_screen(tape->bytes, tape->length, out, sizeof out);
    if (refused != LOTSKADI_OK) {
        printf("the call is refused: %s\n", refusal(refused));
        return 1;
    }
    printf("commands accepted: %" PRIu32 ", refusal: %s\n", number_at(out, 1), refusal(number_at(out, 0)));
    for (size_t i = 0; i < sizeof names / sizeof names[0]; i++) {
        printf("  %-14s %" PRId32 "\n", names[i], (int32_t)number_at(out, 2 + i));
    }
    return 0;
}

/* On the plan that the tape leaves. */
static void show_distance(const struct tape *tape, uint32_t a, uint32_t b) {
    uint16_t table[4 * LOTSKADI_WORDS_PER_DART] = {0};
    const size_t words = sizeof table / sizeof table[0];
    lotskadi_play(table, words, tape->bytes, tape->length);
    struct lotskadi_answer same = lotskadi_same_vertex(table, words, a, b);
    if (same.yes) {
        printf("from tab %" PRIu32 " to tab %" PRIu32 " round their cell: %" PRIu32 "\n", a, b, same.count);
    } else {
        printf("tabs %" PRIu32 " and %" PRIu32 " are in different cells\n", a, b);
    }
}

int main(void) {
    struct tape tape = {.length = 0};
    for (uint16_t dart = 1; dart <= 4; dart++) {
        write_put(&tape, dart);
    }
    write_pair(&tape, 3, 1, 2);
    write_pair(&tape, 3, 3, 4);
    write_pair(&tape, 5, 1, 3);
    write_pair(&tape, 5, 2, 4);
    write_byte(&tape, 8);
    write_byte(&tape, 2);
    write_dart(&tape, 1);
    write_dart(&tape, 2);
    write_dart(&tape, 3);
    write_dart(&tape, 4);
    show_needs(&tape);
    if (show(&tape) != 0) {
        return 1;
    }
    show_distance(&tape, 1, 2);
    show_distance(&tape, 1, 3);
    /* darts 1 and 3 share a vertex: joining them again is refused */
    write_pair(&tape, 5, 1, 3);
    return show(&tape);
}
