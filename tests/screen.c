/* The screen's call from C: the square's tape, a refused command, a dart by itself, and both refusals of the call
 * itself. */
#include "expect.h"

static struct lent_bytes lent;
static uint8_t *out;

static uint8_t screen(const uint8_t *tape, size_t bytes, size_t room) {
    out = lend_bytes(&lent, NULL, 0);
    return lotskadi_screen(tape, bytes, out, room);
}

/* The numbers, then this tape, and no other byte. */
static void expect_screen(const char *what, const uint32_t numbers[SCREEN_NUMBERS], const uint8_t *tape, size_t bytes) {
    static uint8_t expected[LOTSKADI_SCREEN_ROOM];
    expect_numbers(what, out, numbers);
    memcpy(expected, out, LOTSKADI_SCREEN_HEAD);
    memcpy(expected + LOTSKADI_SCREEN_HEAD, tape, bytes);
    expect_bytes(what, &lent, expected, LOTSKADI_SCREEN_HEAD + bytes);
}

static void played(void) {
    static const uint32_t of_square[SCREEN_NUMBERS] = {0, 8, 4, 2, 2, 2, 1, 2, 0, 1};
    uint8_t number = screen(square_tape, sizeof square_tape, LOTSKADI_SCREEN_ROOM + 1);
    expect_number("the square is played", number, LOTSKADI_OK);
    expect_screen("the square", of_square, square_tape, sizeof square_tape);

    /* two components, and one lift: a magnet can't hold dart 3 by itself */
    static const uint8_t edge_and_dart[] = {1, 1, 0, 1, 2, 0, 1, 3, 0, 3, 1, 0, 2, 0};
    static const uint32_t of_edge_and_dart[SCREEN_NUMBERS] = {0, 4, 3, 2, 3, 2, 2, 4, 0, 1};
    number = screen(edge_and_dart, sizeof edge_and_dart, LOTSKADI_SCREEN_ROOM);
    expect_number("an edge and a dart by itself are played", number, LOTSKADI_OK);
    expect_screen("a dart by itself is no lift", of_edge_and_dart, edge_and_dart, sizeof edge_and_dart);

    static const uint32_t of_nothing[SCREEN_NUMBERS] = {0};
    expect_number("an empty tape is played", screen(NULL, 0, LOTSKADI_SCREEN_ROOM), LOTSKADI_OK);
    expect_screen("the empty plan is all zeros", of_nothing, square_tape, 0);
}

/* Genus 2, so the characteristic is -2; the last command, a join of a dart with itself, is refused. */
static void stopped(void) {
    static const uint8_t tape[] = {
        1, 1, 0, 1, 2, 0, 1, 3, 0, 1, 4, 0, 1, 5, 0,
        3, 1, 0, 2, 0, 3, 1, 0, 3, 0, 3, 1, 0, 4, 0, 3, 1, 0, 5, 0,
        5, 1, 0, 2, 0, 5, 1, 0, 3, 0, 5, 1, 0, 4, 0, 5, 1, 0, 5, 0,
        3, 1, 0, 1, 0,
    };
    static const uint32_t numbers[SCREEN_NUMBERS] = {LOTSKADI_TOGETHER, 13, 5, 1, 1, 1, 1, (uint32_t)-2, 2, 1};
    expect_number("a refused command is no refusal", screen(tape, sizeof tape, LOTSKADI_SCREEN_ROOM), LOTSKADI_OK);
    expect_screen("what was accepted before a refused command", numbers, tape, sizeof tape - 5);
}

static void refused(void) {
    static uint8_t long_tape[LOTSKADI_MAX_TAPE + 1];
    memset(long_tape, 7, sizeof long_tape);
    expect_number("a long tape comes before a short room", screen(long_tape, sizeof long_tape, 0), LOTSKADI_WRONG_SIZE);
    expect_bytes("no byte after a wrong size", &lent, NULL, 0);
    uint8_t number = screen(square_tape, sizeof square_tape, LOTSKADI_SCREEN_ROOM - 1);
    expect_number("a short room", number, LOTSKADI_SHORT_ROOM);
    expect_bytes("no byte after a short room", &lent, NULL, 0);
    number = screen(long_tape, LOTSKADI_MAX_TAPE, LOTSKADI_SCREEN_ROOM);
    expect_number("65,536 reports are a tape", number, LOTSKADI_OK);
    expect_number("and all are accepted", number_at(out, 1), LOTSKADI_MAX_TAPE);
}

int main(void) {
    played();
    stopped();
    refused();
    return outcome();
}
