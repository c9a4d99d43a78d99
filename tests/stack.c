/* How much stack each call takes. Every call runs on a thread of its own, whose stack holds one byte everywhere. What
 * lies below the caller's frame and holds another byte afterwards was taken by the call, and by the C library's memset
 * for it. The table is full, ring and tape are as long as they may be, a journal has room for all their changes, and
 * each call is accepted. The program fails where a call takes more than LOTSKADI_CALL_STACK bytes. */
#define _POSIX_C_SOURCE 200809L

#include <pthread.h>
#include <stdio.h>
#include <string.h>

#include "lotskadi.h"

enum {
    STACK_BYTES = 1 << 20,
    CLEAN = 0xA5, /* the byte of a stack that nobody has used */
    CAPACITY = LOTSKADI_MAX_CAPACITY,
    WORDS = LOTSKADI_MAX_WORDS,
    TAPE_LINKS = 255,                /* double-links that a ring on a tape may have */
    ENTRIES = LOTSKADI_MAX_TAPE / 3, /* entries for every change that a tape may make */
    ROOM = LOTSKADI_WORDS_PER_ENTRY * ENTRIES,
    EDGE = 0,  /* place of the edge successor among a dart's words */
    VERTEX = 2 /* place of the vertex successor */
};

static uint16_t table[WORDS];
static uint16_t ring[LOTSKADI_MAX_RING];
static uint16_t out_words[CAPACITY];
static uint16_t journal[ROOM];
static struct lotskadi_head head;
static uint8_t tape[LOTSKADI_MAX_TAPE];
static uint8_t out[LOTSKADI_SCREEN_ROOM];

/* PLANS */

static void follow(int dart, int place, int successor) {
    table[LOTSKADI_WORDS_PER_DART * (dart - 1) + place] = (uint16_t)successor;
    table[LOTSKADI_WORDS_PER_DART * (successor - 1) + place + 1] = (uint16_t)dart;
}

static void alone(int darts) {
    memset(table, 0, sizeof table);
    for (int dart = 1; dart <= darts; dart++) {
        follow(dart, EDGE, dart);
        follow(dart, VERTEX, dart);
    }
}

/* Two vertices with edges of two darts between them: one has the darts first, first + 2, .., the other the darts after
 * each, in the opposite order. So each face has two darts, and the component is planar. */
static void bundle(int first, int edges) {
    int end = first + 2 * edges;
    for (int dart = first; dart < end; dart += 2) {
        int next = dart + 2 < end ? dart + 2 : first;
        follow(dart, EDGE, dart + 1);
        follow(dart + 1, EDGE, dart);
        follow(dart, VERTEX, next);
        follow(next + 1, VERTEX, dart + 1);
    }
}

/* The ring through all edges of a bundle that starts at dart 1. */
static void bundle_ring(int edges) {
    for (int i = 0; i < edges; i++) {
        int dart = i == 0 ? 1 : 2 * (edges - i) + 1;
        ring[2 * i] = (uint16_t)dart;
        ring[2 * i + 1] = (uint16_t)(dart + 1);
    }
}

static void full(void) {
    bundle(1, CAPACITY / 2);
    bundle_ring(CAPACITY / 2);
}

/* The tape of a full table, with the longest ring that a tape holds, and reports up to the end. */
static void longest_tape(void) {
    bundle(1, TAPE_LINKS);
    bundle(2 * TAPE_LINKS + 1, CAPACITY / 2 - TAPE_LINKS);
    bundle_ring(TAPE_LINKS);
    memset(tape, 7, sizeof tape);
    uint8_t *end = tape + lotskadi_write_tape(table, WORDS, tape, sizeof tape).count;
    *end++ = 8;
    *end++ = TAPE_LINKS;
    for (size_t i = 0; i < 2 * TAPE_LINKS; i++) {
        *end++ = (uint8_t)(ring[i] & 0xFF);
        *end++ = (uint8_t)(ring[i] >> 8);
    }
}

static void all_but_one(void) {
    alone(CAPACITY - 1);
}

static void all_alone(void) {
    alone(CAPACITY);
}

static void empty_and_tape(void) {
    longest_tape();
    memset(table, 0, sizeof table);
}

/* An empty journal, whose checkpoint 0 is set. */
static void empty_journal(void) {
    head = lotskadi_empty_head();
    head.checkpoints[0] = 0;
}

static void all_but_one_journaled(void) {
    all_but_one();
    empty_journal();
}

static void all_alone_journaled(void) {
    all_alone();
    empty_journal();
}

static void full_journaled(void) {
    full();
    empty_journal();
}

static void tape_journaled(void) {
    empty_and_tape();
    empty_journal();
}

/* What a journaled run has left, to be gone back over. */
static void after_tape(void) {
    tape_journaled();
    head = lotskadi_journal_play(table, WORDS, journal, ROOM, head, tape, sizeof tape).head;
}

/* CALLS: whether each is accepted */

static bool nothing(void) { return true; }
static bool put(void) { return lotskadi_put(table, WORDS, CAPACITY) == 0; }
static bool take_out(void) { return lotskadi_take_out(table, WORDS, CAPACITY) == 0; }
static bool edge_join(void) { return lotskadi_edge_join(table, WORDS, 1, CAPACITY) == 0; }
static bool vertex_join(void) { return lotskadi_vertex_join(table, WORDS, 1, CAPACITY) == 0; }
static bool edge_cut(void) { return lotskadi_edge_cut(table, WORDS, 1, 2) == 0; }
static bool vertex_cut(void) { return lotskadi_vertex_cut(table, WORDS, 1, CAPACITY - 1) == 0; }
static bool ring_cut(void) { return lotskadi_ring_cut(table, WORDS, ring, LOTSKADI_MAX_RING) == 0; }
static bool report(void) { return lotskadi_report(table, WORDS).number == 0; }
static bool component_report(void) { return lotskadi_component_report(table, WORDS, 1).number == 0; }
static bool same_edge(void) { return lotskadi_same_edge(table, WORDS, 1, 2).yes; }
static bool same_vertex(void) { return lotskadi_same_vertex(table, WORDS, 1, CAPACITY - 1).yes; }
static bool same_face(void) { return lotskadi_same_face(table, WORDS, 1, 4).yes; }
static bool same_component(void) { return lotskadi_same_component(table, WORDS, 1, CAPACITY).yes; }
static bool edge_round(void) { return lotskadi_edge_round(table, WORDS, 1, out_words, CAPACITY).number == 0; }
static bool vertex_round(void) { return lotskadi_vertex_round(table, WORDS, 1, out_words, CAPACITY).number == 0; }
static bool face_round(void) { return lotskadi_face_round(table, WORDS, 1, out_words, CAPACITY).number == 0; }
static bool component_marks(void) { return lotskadi_component_marks(table, WORDS, out_words, CAPACITY).number == 0; }
static bool play(void) { return lotskadi_play(table, WORDS, tape, sizeof tape).number == 0; }
static bool tape_needs(void) { return lotskadi_tape_needs(tape, sizeof tape).number == 0; }
static bool write_tape(void) { return lotskadi_write_tape(table, WORDS, out, sizeof out).number == 0; }
static bool screen(void) { return lotskadi_screen(tape, sizeof tape, out, sizeof out) == 0 && out[0] == 0; }

static bool journal_put(void) {
    return lotskadi_journal_put(table, WORDS, journal, ROOM, head, CAPACITY).number == 0;
}
static bool journal_take_out(void) {
    return lotskadi_journal_take_out(table, WORDS, journal, ROOM, head, CAPACITY).number == 0;
}
static bool journal_edge_join(void) {
    return lotskadi_journal_edge_join(table, WORDS, journal, ROOM, head, 1, CAPACITY).number == 0;
}
static bool journal_vertex_join(void) {
    return lotskadi_journal_vertex_join(table, WORDS, journal, ROOM, head, 1, CAPACITY).number == 0;
}
static bool journal_edge_cut(void) {
    return lotskadi_journal_edge_cut(table, WORDS, journal, ROOM, head, 1, 2).number == 0;
}
static bool journal_vertex_cut(void) {
    return lotskadi_journal_vertex_cut(table, WORDS, journal, ROOM, head, 1, CAPACITY - 1).number == 0;
}
static bool journal_ring_cut(void) {
    return lotskadi_journal_ring_cut(table, WORDS, journal, ROOM, head, ring, LOTSKADI_MAX_RING).number == 0;
}
static bool journal_play(void) {
    return lotskadi_journal_play(table, WORDS, journal, ROOM, head, tape, sizeof tape).number == 0;
}
static bool set_checkpoint(void) { return lotskadi_set_checkpoint(journal, ROOM, head, 15).number == 0; }
static bool go_back(void) {
    return head.length > 0 && lotskadi_go_back(table, WORDS, journal, ROOM, head, 0).number == 0;
}

struct row {
    const char *name;
    void (*prepare)(void);
    bool (*call)(void);
};

static const struct row rows[] = {
    {"no call", full, nothing},
    {"put", all_but_one, put},
    {"take_out", all_alone, take_out},
    {"edge_join", all_alone, edge_join},
    {"vertex_join", all_alone, vertex_join},
    {"edge_cut", full, edge_cut},
    {"vertex_cut", full, vertex_cut},
    {"ring_cut", full, ring_cut},
    {"report", full, report},
    {"component_report", full, component_report},
    {"same_edge", full, same_edge},
    {"same_vertex", full, same_vertex},
    {"same_face", full, same_face},
    {"same_component", full, same_component},
    {"edge_round", full, edge_round},
    {"vertex_round", full, vertex_round},
    {"face_round", full, face_round},
    {"component_marks", full, component_marks},
    {"play", empty_and_tape, play},
    {"tape_needs", longest_tape, tape_needs},
    {"write_tape", full, write_tape},
    {"screen", longest_tape, screen},
    {"journal_put", all_but_one_journaled, journal_put},
    {"journal_take_out", all_alone_journaled, journal_take_out},
    {"journal_edge_join", all_alone_journaled, journal_edge_join},
    {"journal_vertex_join", all_alone_journaled, journal_vertex_join},
    {"journal_edge_cut", full_journaled, journal_edge_cut},
    {"journal_vertex_cut", full_journaled, journal_vertex_cut},
    {"journal_ring_cut", full_journaled, journal_ring_cut},
    {"journal_play", tape_journaled, journal_play},
    {"set_checkpoint", after_tape, set_checkpoint},
    {"go_back", after_tape, go_back},
};

/* MEASURING */

static _Alignas(4096) uint8_t stack[STACK_BYTES];

struct measured {
    bool (*call)(void);
    bool accepted;
    size_t bytes;
};

static void *on_thread(void *argument) {
    struct measured *measured = argument;
    const volatile uint8_t here = 0;
    measured->accepted = measured->call();
    const uint8_t *lowest = stack;
    while (*lowest == CLEAN) {
        lowest++;
    }
    measured->bytes = (size_t)((const uint8_t *)&here - lowest);
    return NULL;
}

static bool on_clean_stack(struct measured *measured) {
    pthread_attr_t attributes;
    pthread_t thread;
    memset(stack, CLEAN, sizeof stack);
    return pthread_attr_init(&attributes) == 0 && pthread_attr_setstack(&attributes, stack, sizeof stack) == 0 &&
           pthread_create(&thread, &attributes, on_thread, measured) == 0 && pthread_join(thread, NULL) == 0 &&
           pthread_attr_destroy(&attributes) == 0;
}

int main(void) {
    struct measured greatest = {nothing, true, 0};
    const char *name = rows[0].name;
    for (size_t i = 0; i < sizeof rows / sizeof rows[0]; i++) {
        struct measured measured = {rows[i].call, false, 0};
        rows[i].prepare();
        if (!on_clean_stack(&measured) || !measured.accepted) {
            printf("FAILED: %s is not measured\n", rows[i].name);
            return 1;
        }
        printf("%-19s %6zu\n", rows[i].name, measured.bytes);
        if (measured.bytes > greatest.bytes) {
            greatest = measured;
            name = rows[i].name;
        }
    }
    printf("the most: %s, %zu bytes of %d\n", name, greatest.bytes, LOTSKADI_CALL_STACK);
    return greatest.bytes > LOTSKADI_CALL_STACK;
}
