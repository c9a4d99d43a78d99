/* A journal from C, call after call, each given the head last returned: checkpoints are set, moved and dropped, and a
 * return to one that stands leaves every word of the table as it was when it was set. Then what ends that promise, and
 * a journal that is full. */
#include "expect.h"

enum {
    CAPACITY = 8,
    WORDS = LOTSKADI_WORDS_PER_DART * CAPACITY,
    ENTRIES = 16,
    ROOM = LOTSKADI_WORDS_PER_ENTRY * ENTRIES + 2 /* two words are not used */
};

static struct lent_words table, journal;
static uint16_t *words, *entries;
static struct lotskadi_head head;

/* The words of the table when each checkpoint was set. */
static uint16_t copies[LOTSKADI_CHECKPOINTS][WORDS];

/* CALLS, each with the head that the last one returned */

static void start(void) {
    static const uint16_t empty[WORDS] = {0};
    words = lend_words(&table, empty, WORDS);
    entries = lend_words(&journal, NULL, 0);
    head = lotskadi_empty_head();
}

static void took(const char *what, struct lotskadi_journaled answer, uint8_t expected) {
    expect_number(what, answer.number, expected);
    if (expected != LOTSKADI_OK) {
        expect_head(what, answer.head, head);
    }
    head = answer.head;
}

static void put(uint32_t dart) {
    took("put", lotskadi_journal_put(words, WORDS, entries, ROOM, head, dart), LOTSKADI_OK);
}

static void edge_join(uint32_t a, uint32_t b) {
    took("edge join", lotskadi_journal_edge_join(words, WORDS, entries, ROOM, head, a, b), LOTSKADI_OK);
}

static void vertex_join(uint32_t a, uint32_t b) {
    took("vertex join", lotskadi_journal_vertex_join(words, WORDS, entries, ROOM, head, a, b), LOTSKADI_OK);
}

static void play_square(void) {
    struct lotskadi_journaled_run run =
        lotskadi_journal_play(words, WORDS, entries, ROOM, head, square_tape, sizeof square_tape);
    expect_number("the square's tape", run.number, LOTSKADI_OK);
    expect_number("its commands", run.accepted, 8);
    head = run.head;
}

static void cut_ring(uint8_t expected) {
    static const uint16_t ring[] = {1, 2, 3, 4};
    took("ring", lotskadi_journal_ring_cut(words, WORDS, entries, ROOM, head, ring, sizeof ring / sizeof ring[0]),
         expected);
}

static void set(uint32_t checkpoint) {
    took("setting a checkpoint", lotskadi_set_checkpoint(entries, ROOM, head, checkpoint), LOTSKADI_OK);
    expect_number("a checkpoint is the length", head.checkpoints[checkpoint], head.length);
    memcpy(copies[checkpoint], words, sizeof copies[checkpoint]);
}

static void go_back(const char *what, uint32_t checkpoint, uint8_t expected, uint32_t undone) {
    struct lotskadi_undone answer = lotskadi_go_back(words, WORDS, entries, ROOM, head, checkpoint);
    expect_number(what, answer.number, expected);
    expect_number(what, answer.undone, undone);
    expect_number(what, answer.head.length, head.length - undone);
    head = answer.head;
}

/* The promise. */
static void returned(const char *what, uint32_t checkpoint, uint32_t undone) {
    go_back(what, checkpoint, LOTSKADI_OK, undone);
    expect_words(what, &table, copies[checkpoint], WORDS);
}

/* SEQUENCES */

/* The square, a ring in it, darts beside it: back and forth. */
static void returns(void) {
    start();
    set(0);
    play_square();
    set(1);
    set(2);
    cut_ring(LOTSKADI_OK);
    put(8);
    set(3);
    returned("over the ring", 1, 3);
    expect_number("a checkpoint past the length is dropped", head.checkpoints[3], LOTSKADI_UNSET);
    expect_number("one at the length stays", head.checkpoints[2], 8);
    returned("nothing to undo", 2, 0);
    go_back("a dropped checkpoint", 3, LOTSKADI_NO_MARK, 0);

    put(5);
    put(6);
    edge_join(5, 6);
    set(1);
    edge_join(1, 5);
    vertex_join(5, 2);
    took("edge cut", lotskadi_journal_edge_cut(words, WORDS, entries, ROOM, head, 6, 2), LOTSKADI_OK);
    took("vertex cut", lotskadi_journal_vertex_cut(words, WORDS, entries, ROOM, head, 4, 5), LOTSKADI_OK);
    took("a refused put makes no entry", lotskadi_journal_put(words, WORDS, entries, ROOM, head, 5),
         LOTSKADI_TAB_TAKEN);
    returned("a checkpoint that was moved", 1, 4);
    took("take out", lotskadi_journal_take_out(words, WORDS, entries, ROOM, head, 7), LOTSKADI_NO_TAB);
    returned("to the square", 2, 3);
    returned("to the empty table", 0, 8);
    expect_number("an empty journal", head.length, 0);
}

/* The entries stay where they were, so a caller can look at them; only those below the length count. */
static void entries_stay(void) {
    static const uint16_t after[] = {1, 1, 0, 1, 2, 0, 3, 1, 2};
    start();
    put(1);
    set(0);
    put(2);
    edge_join(1, 2);
    returned("back to a dart", 0, 2);
    expect_words("entries that were undone", &journal, after, sizeof after / sizeof after[0]);
    put(3);
    static const uint16_t overwritten[] = {1, 1, 0, 1, 3, 0, 3, 1, 2};
    expect_words("the next entry", &journal, overwritten, sizeof overwritten / sizeof overwritten[0]);
}

/* A spoilt entry stops the way back. What was undone before it stays undone, and the head says so. */
static void spoilt_entry(void) {
    start();
    set(0);
    put(1);
    put(2);
    set(1);
    edge_join(1, 2);
    put(3);
    entries[LOTSKADI_WORDS_PER_ENTRY * 2] = 7;
    go_back("stopped at a spoilt entry", 0, LOTSKADI_UNDO_UNFIT, 1);
    expect_number("length after a stop", head.length, 3);
    expect_number("a checkpoint below the stop stays", head.checkpoints[1], 2);
    go_back("stopped there again", 0, LOTSKADI_UNDO_UNFIT, 0);
    entries[LOTSKADI_WORDS_PER_ENTRY * 2] = 3;
    returned("repaired", 1, 1);
}

/* A command that makes no entry ends the promise: an undo does not fit, or the plan is another. */
static void foreign_command(void) {
    start();
    put(1);
    set(0);
    put(2);
    expect_number("a join without an entry", lotskadi_edge_join(words, WORDS, 1, 2), LOTSKADI_OK);
    go_back("dart 2 is held", 0, LOTSKADI_UNDO_UNFIT, 0);
    expect_number("cut again", lotskadi_edge_cut(words, WORDS, 1, 2), LOTSKADI_OK);
    expect_number("a put without an entry", lotskadi_put(words, WORDS, 3), LOTSKADI_OK);
    go_back("accepted, with dart 3 left over", 0, LOTSKADI_OK, 1);
    expect("another plan", memcmp(words, copies[0], sizeof copies[0]) != 0);
}

/* Sixteen entries fit: eight of the square, four puts and three joins, and then one more but no ring of two. */
static void full_journal(void) {
    start();
    set(15);
    play_square();
    for (uint32_t dart = 5; dart <= CAPACITY; dart++) {
        put(dart);
    }
    edge_join(5, 6);
    edge_join(7, 8);
    vertex_join(5, 7);
    cut_ring(LOTSKADI_JOURNAL_FULL);
    vertex_join(6, 8);
    expect_number("sixteen entries", head.length, ENTRIES);
    took("one more", lotskadi_journal_edge_cut(words, WORDS, entries, ROOM, head, 1, 2), LOTSKADI_JOURNAL_FULL);
    took("refused before the journal is full",
         lotskadi_journal_edge_cut(words, WORDS, entries, ROOM, head, 1, 1), LOTSKADI_SAME_TAB);
    set(14);
    returned("nothing to undo in a full journal", 14, 0);
    returned("over a full journal", 15, ENTRIES);
}

int main(void) {
    returns();
    entries_stay();
    spoilt_entry();
    foreign_command();
    full_journal();
    return outcome();
}
