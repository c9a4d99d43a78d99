/* A drawing desk that tries a ring and takes it back: it draws a square of four darts with journaled calls, sets a
 * checkpoint, cuts a ring, prints the report, and goes back to the checkpoint. What it prints is for the yard, in the
 * words of documents 01 and 02, where a checkpoint is a mark; the header has both.
 *
 *     (cd crates/c_calls && rt lib)
 *     cc -Iinclude examples/journal.c crates/c_calls/out/libc_calls.a -o target/journal-example
 *     target/journal-example
 */
#include <inttypes.h>
#include <stdio.h>
#include <string.h>

#include "lotskadi.h"

enum { CAPACITY = 4, WORDS = LOTSKADI_WORDS_PER_DART * CAPACITY, ROOM = 10 * LOTSKADI_WORDS_PER_ENTRY, DRAWN = 0 };

/* A plan with its journal. The head is kept beside the words, and each call returns the next one. */
struct desk {
    uint16_t table[WORDS];
    uint16_t journal[ROOM];
    struct lotskadi_head head;
};

/* Keeps the head that a call has returned, and says what became of the call. */
static bool keep(struct desk *desk, const char *what, struct lotskadi_journaled answer) {
    desk->head = answer.head;
    printf("%s: %s\n", what, lotskadi_refusal_word(answer.number));
    return answer.number == LOTSKADI_OK;
}

static bool put(struct desk *desk, uint32_t dart) {
    return keep(desk, "put", lotskadi_journal_put(desk->table, WORDS, desk->journal, ROOM, desk->head, dart));
}

static bool edge_join(struct desk *desk, uint32_t a, uint32_t b) {
    return keep(desk, "tie join",
                lotskadi_journal_edge_join(desk->table, WORDS, desk->journal, ROOM, desk->head, a, b));
}

static bool vertex_join(struct desk *desk, uint32_t a, uint32_t b) {
    return keep(desk, "cell join",
                lotskadi_journal_vertex_join(desk->table, WORDS, desk->journal, ROOM, desk->head, a, b));
}

static bool cut_ring(struct desk *desk) {
    static const uint16_t ring[] = {1, 2, 3, 4};
    return keep(desk, "ring",
                lotskadi_journal_ring_cut(desk->table, WORDS, desk->journal, ROOM, desk->head, ring,
                                          sizeof ring / sizeof ring[0]));
}

static bool set_checkpoint(struct desk *desk) {
    return keep(desk, "mark set", lotskadi_set_checkpoint(desk->journal, ROOM, desk->head, DRAWN));
}

static bool draw_square(struct desk *desk) {
    for (uint32_t dart = 1; dart <= CAPACITY; dart++) {
        if (!put(desk, dart)) {
            return false;
        }
    }
    return edge_join(desk, 1, 2) && edge_join(desk, 3, 4) && vertex_join(desk, 1, 3) && vertex_join(desk, 2, 4);
}

static void show(const struct desk *desk) {
    struct lotskadi_totals totals = lotskadi_report(desk->table, WORDS);
    printf("  changes in the journal %" PRIu32 "; tabs %" PRIu32, desk->head.length, totals.darts);
    printf(", ties %" PRIu32 ", cells %" PRIu32, totals.edges, totals.vertices);
    printf(", gaps %" PRIu32 ", pieces %" PRIu32 "\n", totals.faces, totals.components);
}

static bool go_back(struct desk *desk) {
    struct lotskadi_undone undone =
        lotskadi_go_back(desk->table, WORDS, desk->journal, ROOM, desk->head, DRAWN);
    desk->head = undone.head;
    printf("back to the mark: %s, changes undone %" PRIu32 "\n", lotskadi_refusal_word(undone.number), undone.undone);
    return undone.number == LOTSKADI_OK;
}

int main(void) {
    static struct desk desk;
    uint16_t drawn[WORDS];
    desk.head = lotskadi_empty_head();
    if (!draw_square(&desk) || !set_checkpoint(&desk)) {
        return 1;
    }
    memcpy(drawn, desk.table, sizeof drawn);
    show(&desk);
    if (!cut_ring(&desk)) {
        return 1;
    }
    show(&desk);
    /* the journal has room for ten changes, and the ring was two: it is full */
    edge_join(&desk, 1, 2);
    if (!go_back(&desk)) {
        return 1;
    }
    show(&desk);
    bool same = memcmp(drawn, desk.table, sizeof drawn) == 0;
    printf("every word of the table is as it was: %s\n", same ? "yes" : "no");
    return !same;
}
