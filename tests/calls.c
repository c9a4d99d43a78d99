/* Every function of the header: what it returns, and every lent word or byte afterwards. Each call is accepted at least
 * once, and each refusal met; a table of capacity 0, empty lists and an empty journal are lent as NULL. For C11 and for
 * C++17. */
#include <assert.h>

#include "expect.h"

/* LAYOUT of what calls return */

#define HAS_SIZE(type, bytes) static_assert(sizeof(struct type) == (bytes), "the size of " #type)
#define HAS_FIELD(type, field, bytes, at) \
    static_assert(sizeof(((struct type *)0)->field) == (bytes) && offsetof(struct type, field) == (at), \
                  "the place of " #field " in " #type)

HAS_SIZE(lotskadi_totals, 36);
HAS_FIELD(lotskadi_totals, number, 1, 0);
HAS_FIELD(lotskadi_totals, darts, 4, 4);
HAS_FIELD(lotskadi_totals, edges, 4, 8);
HAS_FIELD(lotskadi_totals, vertices, 4, 12);
HAS_FIELD(lotskadi_totals, faces, 4, 16);
HAS_FIELD(lotskadi_totals, components, 4, 20);
HAS_FIELD(lotskadi_totals, characteristic, 4, 24);
HAS_FIELD(lotskadi_totals, genus, 4, 28);
HAS_FIELD(lotskadi_totals, lifts, 4, 32);

HAS_SIZE(lotskadi_answer, 8);
HAS_FIELD(lotskadi_answer, number, 1, 0);
HAS_FIELD(lotskadi_answer, yes, 1, 1);
HAS_FIELD(lotskadi_answer, count, 4, 4);

HAS_SIZE(lotskadi_run, 8);
HAS_FIELD(lotskadi_run, number, 1, 0);
HAS_FIELD(lotskadi_run, accepted, 4, 4);

HAS_SIZE(lotskadi_needs, 20);
HAS_FIELD(lotskadi_needs, number, 1, 0);
HAS_FIELD(lotskadi_needs, capacity, 4, 4);
HAS_FIELD(lotskadi_needs, commands, 4, 8);
HAS_FIELD(lotskadi_needs, peak, 4, 12);
HAS_FIELD(lotskadi_needs, words, 4, 16);

HAS_SIZE(lotskadi_head, 68);
HAS_FIELD(lotskadi_head, checkpoints, 64, 0);
HAS_FIELD(lotskadi_head, length, 4, 64);

HAS_SIZE(lotskadi_journaled, 72);
HAS_FIELD(lotskadi_journaled, number, 1, 0);
HAS_FIELD(lotskadi_journaled, head, 68, 4);

HAS_SIZE(lotskadi_journaled_run, 76);
HAS_FIELD(lotskadi_journaled_run, number, 1, 0);
HAS_FIELD(lotskadi_journaled_run, accepted, 4, 4);
HAS_FIELD(lotskadi_journaled_run, head, 68, 8);

HAS_SIZE(lotskadi_undone, 76);
HAS_FIELD(lotskadi_undone, number, 1, 0);
HAS_FIELD(lotskadi_undone, undone, 4, 4);
HAS_FIELD(lotskadi_undone, head, 68, 8);

static_assert(LOTSKADI_MAX_WORDS == 16384, "the words of the largest table");
static_assert(LOTSKADI_SCREEN_ROOM == 53278, "the least buffer of the screen's call");
static_assert(LOTSKADI_UNSET == UINT32_MAX, "an unset checkpoint");

/* PLANS: the words of each dart in a row */

enum { CAPACITY = 5, WORDS = LOTSKADI_WORDS_PER_DART * CAPACITY };

static const uint16_t empty[WORDS] = {0};
static const uint16_t one_dart[WORDS] = {1, 1, 1, 1};
static const uint16_t square[WORDS] = {2, 2, 3, 3, 1, 1, 4, 4, 4, 4, 1, 1, 3, 3, 2, 2};
static const uint16_t square_and_dart[WORDS] = {2, 2, 3, 3, 1, 1, 4, 4, 4, 4, 1, 1, 3, 3, 2, 2, 5, 5, 5, 5};
/* the square after the ring 1 2 3 4 */
static const uint16_t parted[WORDS] = {1, 1, 3, 3, 2, 2, 4, 4, 3, 3, 1, 1, 4, 4, 2, 2};
/* the square after edge join 1 3, with the edge 1 2 3 4; and after vertex join 1 2, with the vertex 1 3 2 4 */
static const uint16_t one_edge[WORDS] = {2, 4, 3, 3, 3, 1, 4, 4, 4, 2, 1, 1, 1, 3, 2, 2};
static const uint16_t one_vertex[WORDS] = {2, 2, 3, 4, 1, 1, 4, 3, 4, 4, 2, 1, 3, 3, 1, 2};
/* edges 1 2 3, 4 and 5; vertices 1 4 5 and 2 3; faces 1 2 5 4 and 3 */
static const uint16_t three_rounds[WORDS] = {2, 3, 4, 5, 3, 1, 3, 3, 1, 2, 2, 2, 4, 4, 5, 1, 5, 5, 1, 4};
/* the edge and the vertex 1 2 3 4 5, which are of genus 2 */
static const uint16_t genus_2[WORDS] = {2, 5, 2, 5, 3, 1, 3, 1, 4, 2, 4, 2, 5, 3, 5, 3, 1, 4, 1, 4};
/* the edge successor of 1 is 2, whose edge predecessor is 2 */
static const uint16_t bent[WORDS] = {2, 1, 1, 1, 2, 2, 2, 2};
static const uint16_t large[LOTSKADI_MAX_WORDS + LOTSKADI_WORDS_PER_DART] = {0};

static const uint16_t square_ring[] = {1, 2, 3, 4};

enum { RING_WORDS = sizeof square_ring / sizeof square_ring[0], TAPE_BYTES = sizeof square_tape };

/* WHAT IS LENT, and how often each number was returned */

static struct lent_words table, ring, round_out, journal;
static struct lent_bytes tape, tape_out;
static int met[LOTSKADI_NO_MARK + 1];

static void note(uint8_t number) {
    if (number <= LOTSKADI_NO_MARK) {
        met[number]++;
    }
}

static void expect_refusal(const char *what, uint8_t number, uint8_t expected) {
    expect_number(what, number, expected);
    note(number);
}

/* EVERY CALL ON A TABLE, by one function: the call, the dart numbers that it takes, and the number that it returns.
 * A ring is the square's, a tape too, and buffers have room for any answer. */

enum call {
    PUT,
    TAKE_OUT,
    EDGE_JOIN,
    VERTEX_JOIN,
    EDGE_CUT,
    VERTEX_CUT,
    RING_CUT,
    REPORT,
    COMPONENT_REPORT,
    SAME_EDGE,
    SAME_VERTEX,
    SAME_FACE,
    SAME_COMPONENT,
    EDGE_ROUND,
    VERTEX_ROUND,
    FACE_ROUND,
    COMPONENT_MARKS,
    PLAY,
    WRITE_TAPE,
    JOURNAL_PUT,
    JOURNAL_TAKE_OUT,
    JOURNAL_EDGE_JOIN,
    JOURNAL_VERTEX_JOIN,
    JOURNAL_EDGE_CUT,
    JOURNAL_VERTEX_CUT,
    JOURNAL_RING_CUT,
    JOURNAL_PLAY,
    GO_BACK
};

static const struct {
    const char *name;
    int darts;
} calls[] = {
    {"put", 1},
    {"take_out", 1},
    {"edge_join", 2},
    {"vertex_join", 2},
    {"edge_cut", 2},
    {"vertex_cut", 2},
    {"ring_cut", 0},
    {"report", 0},
    {"component_report", 1},
    {"same_edge", 2},
    {"same_vertex", 2},
    {"same_face", 2},
    {"same_component", 2},
    {"edge_round", 1},
    {"vertex_round", 1},
    {"face_round", 1},
    {"component_marks", 0},
    {"play", 0},
    {"write_tape", 0},
    {"journal_put", 1},
    {"journal_take_out", 1},
    {"journal_edge_join", 2},
    {"journal_vertex_join", 2},
    {"journal_edge_cut", 2},
    {"journal_vertex_cut", 2},
    {"journal_ring_cut", 0},
    {"journal_play", 0},
    {"go_back", 0},
};

enum { CALLS = sizeof calls / sizeof calls[0] };
static_assert(CALLS == GO_BACK + 1, "a name for each call");

/* The journal that these calls are lent has room for JOURNAL_ENTRIES, and the head that they are given is `given`. */
enum { JOURNAL_ENTRIES = 20, JOURNAL_WORDS = LOTSKADI_WORDS_PER_ENTRY * JOURNAL_ENTRIES };

static struct lotskadi_head given;

static uint8_t of_totals(struct lotskadi_totals totals) {
    const struct lotskadi_totals refused = {totals.number, 0, 0, 0, 0, 0, 0, 0, 0};
    if (totals.number != 0) {
        expect_totals("a refused report is zero", totals, refused);
    }
    return totals.number;
}

static uint8_t of_answer(struct lotskadi_answer answer) {
    const struct lotskadi_answer refused = {answer.number, false, 0};
    if (answer.number != 0) {
        expect_answer("a refused answer is zero", answer, refused);
    }
    return answer.number;
}

static uint8_t of_run(struct lotskadi_run run) {
    const struct lotskadi_run refused = {run.number, 0};
    if (run.number != 0) {
        expect_run("a run that is refused at once is zero", run, refused);
    }
    return run.number;
}

static uint8_t of_journaled(struct lotskadi_journaled journaled) {
    if (journaled.number != 0) {
        expect_head("a refused change returns the head as it came", journaled.head, given);
    }
    return journaled.number;
}

static uint8_t of_journaled_run(struct lotskadi_journaled_run run) {
    const struct lotskadi_run refused = {run.number, 0};
    if (run.number != 0) {
        expect_journaled_run("a journaled run that is refused at once", run, refused, given);
    }
    return run.number;
}

static uint8_t of_undone(struct lotskadi_undone undone) {
    if (undone.number != 0) {
        expect_undone("a refused return undoes nothing", undone, undone.number, 0, given);
    }
    return undone.number;
}

static uint8_t called(enum call call, uint16_t *words, size_t count, uint32_t a, uint32_t b) {
    const uint16_t *links = lend_words(&ring, square_ring, RING_WORDS);
    const uint8_t *commands = lend_bytes(&tape, square_tape, TAPE_BYTES);
    uint16_t *darts = lend_words(&round_out, NULL, 0);
    uint8_t *written = lend_bytes(&tape_out, NULL, 0);
    uint16_t *entries = lend_words(&journal, NULL, 0);
    const size_t room = JOURNAL_WORDS;
    switch (call) {
    case PUT: return lotskadi_put(words, count, a);
    case TAKE_OUT: return lotskadi_take_out(words, count, a);
    case EDGE_JOIN: return lotskadi_edge_join(words, count, a, b);
    case VERTEX_JOIN: return lotskadi_vertex_join(words, count, a, b);
    case EDGE_CUT: return lotskadi_edge_cut(words, count, a, b);
    case VERTEX_CUT: return lotskadi_vertex_cut(words, count, a, b);
    case RING_CUT: return lotskadi_ring_cut(words, count, links, RING_WORDS);
    case REPORT: return of_totals(lotskadi_report(words, count));
    case COMPONENT_REPORT: return of_totals(lotskadi_component_report(words, count, a));
    case SAME_EDGE: return of_answer(lotskadi_same_edge(words, count, a, b));
    case SAME_VERTEX: return of_answer(lotskadi_same_vertex(words, count, a, b));
    case SAME_FACE: return of_answer(lotskadi_same_face(words, count, a, b));
    case SAME_COMPONENT: return of_answer(lotskadi_same_component(words, count, a, b));
    case EDGE_ROUND: return of_answer(lotskadi_edge_round(words, count, a, darts, LOTSKADI_MAX_CAPACITY));
    case VERTEX_ROUND: return of_answer(lotskadi_vertex_round(words, count, a, darts, LOTSKADI_MAX_CAPACITY));
    case FACE_ROUND: return of_answer(lotskadi_face_round(words, count, a, darts, LOTSKADI_MAX_CAPACITY));
    case COMPONENT_MARKS: return of_answer(lotskadi_component_marks(words, count, darts, LOTSKADI_MAX_CAPACITY));
    case PLAY: return of_run(lotskadi_play(words, count, commands, TAPE_BYTES));
    case WRITE_TAPE: return of_answer(lotskadi_write_tape(words, count, written, LOTSKADI_TAPE_ROOM));
    case JOURNAL_PUT: return of_journaled(lotskadi_journal_put(words, count, entries, room, given, a));
    case JOURNAL_TAKE_OUT: return of_journaled(lotskadi_journal_take_out(words, count, entries, room, given, a));
    case JOURNAL_EDGE_JOIN: return of_journaled(lotskadi_journal_edge_join(words, count, entries, room, given, a, b));
    case JOURNAL_VERTEX_JOIN:
        return of_journaled(lotskadi_journal_vertex_join(words, count, entries, room, given, a, b));
    case JOURNAL_EDGE_CUT: return of_journaled(lotskadi_journal_edge_cut(words, count, entries, room, given, a, b));
    case JOURNAL_VERTEX_CUT: return of_journaled(lotskadi_journal_vertex_cut(words, count, entries, room, given, a, b));
    case JOURNAL_RING_CUT:
        return of_journaled(lotskadi_journal_ring_cut(words, count, entries, room, given, links, RING_WORDS));
    case JOURNAL_PLAY:
        return of_journaled_run(lotskadi_journal_play(words, count, entries, room, given, commands, TAPE_BYTES));
    case GO_BACK: return of_undone(lotskadi_go_back(words, count, entries, room, given, 0));
    }
    return UINT8_MAX;
}

/* What a call only reads is as it was. */
static void expect_lists(const char *what) {
    expect_words(what, &ring, square_ring, RING_WORDS);
    expect_bytes(what, &tape, square_tape, TAPE_BYTES);
}

/* A call that is refused changes nothing that it is lent. */
static void refused(const char *what, enum call call, const uint16_t *plan, size_t words, uint32_t a, uint32_t b,
                    uint8_t expected) {
    char name[80];
    snprintf(name, sizeof name, "%s: %s", calls[call].name, what);
    expect_refusal(name, called(call, lend_words(&table, plan, words), words, a, b), expected);
    expect_words(name, &table, plan, words);
    expect_words(name, &round_out, NULL, 0);
    expect_bytes(name, &tape_out, NULL, 0);
    expect_words(name, &journal, NULL, 0);
    expect_lists(name);
}

/* REFUSALS THAT ALL CALLS ON A TABLE HAVE */

static void refused_by_the_table(enum call call) {
    refused("3 words", call, square, 3, 1, 2, LOTSKADI_WRONG_SIZE);
    refused("a word less", call, square, WORDS - 1, 1, 2, LOTSKADI_WRONG_SIZE);
    refused("more than 16,384 words", call, large, sizeof large / sizeof large[0], 1, 2, LOTSKADI_WRONG_SIZE);
    refused("a bent table", call, bent, WORDS, 1, 2, LOTSKADI_BENT_TABLE);
}

/* Numbers that no table of this capacity has. In 16 bits 65,537 would be dart 1. */
static void refused_by_a_number(enum call call) {
    static const uint32_t off[] = {0, CAPACITY + 1, 65535, 65536, 65537, 4294967295};
    for (size_t i = 0; i < sizeof off / sizeof off[0]; i++) {
        if (calls[call].darts >= 1) {
            refused("the first number", call, square, WORDS, off[i], 2, LOTSKADI_OFF_THE_TABLE);
        }
        if (calls[call].darts == 2) {
            refused("the second number", call, square, WORDS, 1, off[i], LOTSKADI_OFF_THE_TABLE);
        }
    }
}

static void refused_by_absence(enum call call) {
    if (calls[call].darts >= 1 && call != PUT && call != JOURNAL_PUT) {
        refused("the first dart is absent", call, square, WORDS, CAPACITY, 1, LOTSKADI_NO_TAB);
    }
    if (calls[call].darts == 2) {
        refused("the second dart is absent", call, square, WORDS, 1, CAPACITY, LOTSKADI_NO_TAB);
    }
}

/* Capacity 0 is a plan without darts: questions about all of it are answered, and every dart is off the table. */
static void on_no_table(enum call call) {
    bool whole = call == REPORT || call == COMPONENT_MARKS || call == WRITE_TAPE || call == GO_BACK;
    expect_refusal(calls[call].name, called(call, NULL, 0, 1, 2), whole ? LOTSKADI_OK : LOTSKADI_OFF_THE_TABLE);
    expect_words(calls[call].name, &round_out, NULL, 0);
    expect_bytes(calls[call].name, &tape_out, NULL, 0);
    expect_words(calls[call].name, &journal, NULL, 0);
    expect_lists(calls[call].name);
}

/* The head fits, and checkpoint 0 is set, so that going back is accepted. */
static void refusals_of_all(void) {
    given = with_checkpoint(lotskadi_empty_head(), 0, 0);
    for (int i = 0; i < CALLS; i++) {
        enum call call = (enum call)i;
        refused_by_the_table(call);
        refused_by_a_number(call);
        refused_by_absence(call);
        on_no_table(call);
    }
}

/* CHANGES */

static const struct {
    const char *what;
    enum call call;
    const uint16_t *before;
    uint32_t a, b;
    const uint16_t *after;
} changes[] = {
    {"put 1", PUT, empty, 1, 0, one_dart},
    {"put 5", PUT, square, 5, 0, square_and_dart},
    {"take out 1", TAKE_OUT, one_dart, 1, 0, empty},
    {"take out 5", TAKE_OUT, square_and_dart, 5, 0, square},
    {"edge join 1 3", EDGE_JOIN, square, 1, 3, one_edge},
    {"edge cut 1 3", EDGE_CUT, one_edge, 1, 3, square},
    {"vertex join 1 2", VERTEX_JOIN, square, 1, 2, one_vertex},
    {"vertex cut 1 2", VERTEX_CUT, one_vertex, 1, 2, square},
    {"ring cut 1 2 3 4", RING_CUT, square, 0, 0, parted},
};

static void changes_made(void) {
    for (size_t i = 0; i < sizeof changes / sizeof changes[0]; i++) {
        uint16_t *words = lend_words(&table, changes[i].before, WORDS);
        expect_refusal(changes[i].what, called(changes[i].call, words, WORDS, changes[i].a, changes[i].b), LOTSKADI_OK);
        expect_words(changes[i].what, &table, changes[i].after, WORDS);
        expect_lists(changes[i].what);
    }
}

static void changes_refused(void) {
    refused("a present dart", PUT, square, WORDS, 1, 0, LOTSKADI_TAB_TAKEN);
    refused("a dart of an edge", TAKE_OUT, square, WORDS, 1, 0, LOTSKADI_TAB_HELD);
    refused("one edge", EDGE_JOIN, square, WORDS, 1, 2, LOTSKADI_TOGETHER);
    refused("one dart", EDGE_JOIN, square, WORDS, 1, 1, LOTSKADI_TOGETHER);
    refused("one vertex", VERTEX_JOIN, square, WORDS, 1, 3, LOTSKADI_TOGETHER);
    refused("two edges", EDGE_CUT, square, WORDS, 1, 3, LOTSKADI_APART);
    refused("two vertices", VERTEX_CUT, square, WORDS, 1, 2, LOTSKADI_APART);
    refused("one dart", EDGE_CUT, square, WORDS, 1, 1, LOTSKADI_SAME_TAB);
    refused("one dart", VERTEX_CUT, square, WORDS, 2, 2, LOTSKADI_SAME_TAB);
}

static void largest_table(void) {
    static uint16_t last_dart[LOTSKADI_MAX_WORDS];
    for (int i = 1; i <= LOTSKADI_WORDS_PER_DART; i++) {
        last_dart[LOTSKADI_MAX_WORDS - i] = LOTSKADI_MAX_CAPACITY;
    }
    uint16_t *words = lend_words(&table, large, LOTSKADI_MAX_WORDS);
    expect_refusal("put 4,096", lotskadi_put(words, LOTSKADI_MAX_WORDS, LOTSKADI_MAX_CAPACITY), LOTSKADI_OK);
    expect_words("put 4,096", &table, last_dart, LOTSKADI_MAX_WORDS);
    refused("4,097", PUT, large, LOTSKADI_MAX_WORDS, LOTSKADI_MAX_CAPACITY + 1, 0, LOTSKADI_OFF_THE_TABLE);
}

/* RINGS */

static void ring_refused(const char *what, const uint16_t *links, size_t words, uint8_t expected) {
    uint16_t *plan = lend_words(&table, square, WORDS);
    const uint16_t *lent = lend_words(&ring, links, words);
    expect_refusal(what, lotskadi_ring_cut(plan, WORDS, words == 0 ? NULL : lent, words), expected);
    expect_words(what, &table, square, WORDS);
    expect_words(what, &ring, links, words);
}

static const struct {
    const char *what;
    uint16_t links[4];
    size_t words;
    uint8_t refusal;
} rings[] = {
    {"an empty ring", {0}, 0, LOTSKADI_NO_LIST},
    {"a ring with half a double-link", {1, 2, 3}, 3, LOTSKADI_NO_LIST},
    {"dart 0 in a ring", {1, 0}, 2, LOTSKADI_OFF_THE_TABLE},
    {"a ring's dart above the capacity", {CAPACITY + 1, 2}, 2, LOTSKADI_OFF_THE_TABLE},
    {"the greatest word in a ring", {1, 65535}, 2, LOTSKADI_OFF_THE_TABLE},
    {"an absent dart in a ring", {1, CAPACITY}, 2, LOTSKADI_NO_TAB},
    {"a double-link over two edges", {1, 3}, 2, LOTSKADI_APART},
    {"a double-link of one dart", {1, 1}, 2, LOTSKADI_SAME_TAB},
    {"one edge twice", {1, 2, 1, 2}, 4, LOTSKADI_TIE_TWICE},
    {"one face twice", {1, 2, 4, 3}, 4, LOTSKADI_GAP_TWICE},
    {"a path that does not close", {1, 2}, 2, LOTSKADI_PATH_BROKEN},
};

static void rings_refused(void) {
    static uint16_t long_ring[LOTSKADI_MAX_RING + 2];
    for (size_t i = 0; i < sizeof rings / sizeof rings[0]; i++) {
        ring_refused(rings[i].what, rings[i].links, rings[i].words, rings[i].refusal);
    }
    for (size_t i = 0; i < LOTSKADI_MAX_RING + 2; i++) {
        long_ring[i] = (uint16_t)(1 + i % 2);
    }
    ring_refused("4,096 words of a ring are judged", long_ring, LOTSKADI_MAX_RING, LOTSKADI_TIE_TWICE);
    ring_refused("more words of a ring are no list", long_ring, LOTSKADI_MAX_RING + 2, LOTSKADI_NO_LIST);
}

/* REPORTS: of the whole plan, and of the component of one dart */

static const struct {
    const char *what;
    const uint16_t *plan;
    struct lotskadi_totals expected;
} reports[] = {
    {"report of an empty table", empty, {0, 0, 0, 0, 0, 0, 0, 0, 0}},
    {"report of the square", square, {0, 4, 2, 2, 2, 1, 2, 0, 1}},
    {"report of the square and a dart", square_and_dart, {0, 5, 3, 3, 3, 2, 4, 0, 1}},
    {"report of the square, parted", parted, {0, 4, 4, 2, 2, 2, 4, 0, 2}},
    {"report of genus 1", one_edge, {0, 4, 1, 2, 1, 1, 0, 1, 1}},
    {"report of genus 2", genus_2, {0, 5, 1, 1, 1, 1, -2, 2, 1}},
};

static const struct {
    const char *what;
    uint32_t dart;
    struct lotskadi_totals expected;
} component_reports[] = {
    {"report of the square's component", 4, {0, 4, 2, 2, 2, 1, 2, 0, 1}},
    {"report of a dart by itself", 5, {0, 1, 1, 1, 1, 1, 2, 0, 0}},
};

static void reports_of_plans(void) {
    const struct lotskadi_totals zeros = {0, 0, 0, 0, 0, 0, 0, 0, 0};
    for (size_t i = 0; i < sizeof reports / sizeof reports[0]; i++) {
        const uint16_t *words = lend_words(&table, reports[i].plan, WORDS);
        expect_totals(reports[i].what, lotskadi_report(words, WORDS), reports[i].expected);
        expect_words(reports[i].what, &table, reports[i].plan, WORDS);
    }
    expect_totals("report of capacity 0", lotskadi_report(NULL, 0), zeros);
}

static void reports_of_components(void) {
    for (size_t i = 0; i < sizeof component_reports / sizeof component_reports[0]; i++) {
        const char *what = component_reports[i].what;
        const uint16_t *words = lend_words(&table, square_and_dart, WORDS);
        uint32_t dart = component_reports[i].dart;
        expect_totals(what, lotskadi_component_report(words, WORDS, dart), component_reports[i].expected);
        expect_words(what, &table, square_and_dart, WORDS);
    }
}

/* SHARED PARTS, and how far round */

static const struct {
    const char *what;
    struct lotskadi_answer (*same)(const uint16_t *table, size_t table_words, uint32_t a, uint32_t b);
    const uint16_t *plan;
    uint32_t a, b;
    struct lotskadi_answer expected;
} shared[] = {
    {"one edge", lotskadi_same_edge, square_and_dart, 1, 2, {0, true, 1}},
    {"two edges", lotskadi_same_edge, square_and_dart, 1, 3, {0, false, 0}},
    {"one vertex", lotskadi_same_vertex, square_and_dart, 1, 3, {0, true, 1}},
    {"two vertices", lotskadi_same_vertex, square_and_dart, 1, 2, {0, false, 0}},
    {"one face", lotskadi_same_face, square_and_dart, 1, 4, {0, true, 0}},
    {"two faces", lotskadi_same_face, square_and_dart, 1, 2, {0, false, 0}},
    {"one component", lotskadi_same_component, square_and_dart, 1, 4, {0, true, 0}},
    {"two components", lotskadi_same_component, square_and_dart, 1, 5, {0, false, 0}},
    {"an edge of its own", lotskadi_same_edge, square_and_dart, 5, 5, {0, true, 0}},
    {"the dart itself", lotskadi_same_vertex, three_rounds, 4, 4, {0, true, 0}},
    {"two steps round an edge", lotskadi_same_edge, three_rounds, 1, 3, {0, true, 2}},
    {"one step, the other way", lotskadi_same_edge, three_rounds, 3, 1, {0, true, 1}},
    {"two steps round a vertex", lotskadi_same_vertex, three_rounds, 4, 1, {0, true, 2}},
    {"one step round a vertex", lotskadi_same_vertex, three_rounds, 1, 4, {0, true, 1}},
    {"three steps round a face", lotskadi_same_face, three_rounds, 1, 4, {0, true, 0}},
};

static void parts_shared(void) {
    for (size_t i = 0; i < sizeof shared / sizeof shared[0]; i++) {
        const uint16_t *words = lend_words(&table, shared[i].plan, WORDS);
        expect_answer(shared[i].what, shared[i].same(words, WORDS, shared[i].a, shared[i].b), shared[i].expected);
        expect_words(shared[i].what, &table, shared[i].plan, WORDS);
    }
}

/* ROUNDS, in a plan where edge, vertex and face of dart 1 differ */

typedef struct lotskadi_answer round_call(const uint16_t *table, size_t table_words, uint32_t dart, uint16_t *out,
                                          size_t out_words);

static const struct {
    const char *what;
    round_call *round;
    uint32_t dart;
    uint32_t count;
    uint16_t darts[CAPACITY];
} rounds[] = {
    {"edge round of 1", lotskadi_edge_round, 1, 3, {1, 2, 3}},
    {"edge round of 3", lotskadi_edge_round, 3, 3, {3, 1, 2}},
    {"edge round of 5", lotskadi_edge_round, 5, 1, {5}},
    {"vertex round of 1", lotskadi_vertex_round, 1, 3, {1, 4, 5}},
    {"vertex round of 5", lotskadi_vertex_round, 5, 3, {5, 1, 4}},
    {"face round of 1", lotskadi_face_round, 1, 4, {1, 2, 5, 4}},
    {"face round of 5", lotskadi_face_round, 5, 4, {5, 4, 1, 2}},
};

/* A round into so much room: written where it fits, and no word otherwise. */
static void round_into(size_t row, size_t room) {
    uint32_t count = room < rounds[row].count ? 0 : rounds[row].count;
    const struct lotskadi_answer expected = {(uint8_t)(count == 0 ? LOTSKADI_SHORT_ROOM : LOTSKADI_OK), false, count};
    const uint16_t *words = lend_words(&table, three_rounds, WORDS);
    uint16_t *out = lend_words(&round_out, NULL, 0);
    struct lotskadi_answer answer =
        rounds[row].round(words, WORDS, rounds[row].dart, room == 0 ? NULL : out, room);
    expect_answer(rounds[row].what, answer, expected);
    expect_words(rounds[row].what, &round_out, rounds[row].darts, count);
    expect_words(rounds[row].what, &table, three_rounds, WORDS);
    note(answer.number);
}

static void rounds_written(void) {
    for (size_t i = 0; i < sizeof rounds / sizeof rounds[0]; i++) {
        round_into(i, 0);
        round_into(i, rounds[i].count - 1);
        round_into(i, rounds[i].count);
        round_into(i, rounds[i].count + 1);
    }
}

/* MARKS */

static void marks_into(size_t room, struct lotskadi_answer expected) {
    static const uint16_t marks[CAPACITY] = {1, 2, 1, 2, 0};
    const uint16_t *words = lend_words(&table, parted, WORDS);
    uint16_t *out = lend_words(&round_out, NULL, 0);
    expect_answer("marks", lotskadi_component_marks(words, WORDS, room == 0 ? NULL : out, room), expected);
    expect_words("marks", &round_out, marks, expected.count);
    expect_words("the plan of marks", &table, parted, WORDS);
}

static void marks_written(void) {
    static const struct lotskadi_answer written = {0, false, CAPACITY};
    static const struct lotskadi_answer short_room = {LOTSKADI_SHORT_ROOM, false, 0};
    static const struct lotskadi_answer none = {0, false, 0};
    marks_into(CAPACITY + 1, written);
    marks_into(CAPACITY, written);
    marks_into(CAPACITY - 1, short_room);
    marks_into(0, short_room);
    expect_answer("marks of capacity 0", lotskadi_component_marks(NULL, 0, NULL, 0), none);
}

/* TAPES */

/* the square's tape, and then each other command; 4 cuts what 3 joins, 6 what 5 joins, and 2 takes out what 1 puts */
static const uint8_t all_commands[] = {
    1, 1, 0, 1, 2, 0, 1, 3, 0, 1, 4, 0, 3, 1, 0, 2, 0, 3, 3, 0, 4, 0, 5, 1, 0, 3, 0, 5, 2, 0, 4, 0,
    4, 1, 0, 2, 0, 3, 1, 0, 2, 0, 6, 1, 0, 3, 0, 5, 1, 0, 3, 0, 1, 5, 0, 2, 5, 0, 7,
    8, 2, 1, 0, 2, 0, 3, 0, 4, 0,
};
static const uint8_t joined_twice[] = {
    1, 1, 0, 1, 2, 0, 1, 3, 0, 1, 4, 0, 3, 1, 0, 2, 0, 3, 3, 0, 4, 0, 5, 1, 0, 3, 0, 5, 2, 0, 4, 0,
    3, 1, 0, 2, 0,
};
static const uint8_t off_the_table[] = {1, 1, 0, 1, CAPACITY + 1, 0};
static const uint8_t no_double_link[] = {1, 1, 0, 8, 0};
static const uint8_t unknown_command[] = {1, 1, 0, 9};
static const uint8_t torn_command[] = {1, 1, 0, 8, 1, 1, 0, 2};
static uint8_t long_tape[LOTSKADI_MAX_TAPE + 1];

/* A tape, its run on an empty table, the table afterwards, and what the tape needs. */
static const struct {
    const char *what;
    const uint8_t *tape;
    size_t bytes;
    struct lotskadi_run run;
    const uint16_t *after;
    struct lotskadi_needs needs;
} tapes[] = {
    {"no tape", NULL, 0, {0, 0}, empty, {0, 0, 0, 0, 0}},
    {"the square", square_tape, sizeof square_tape, {0, 8}, square, {0, 4, 8, 4, 32}},
    {"all commands", all_commands, sizeof all_commands, {0, 16}, parted, {0, 5, 16, 5, 64}},
    {"a tape of reports", long_tape, LOTSKADI_MAX_TAPE, {0, LOTSKADI_MAX_TAPE}, empty, {0, 0, LOTSKADI_MAX_TAPE, 0, 0}},
    {"a join of one edge", joined_twice, sizeof joined_twice, {LOTSKADI_TOGETHER, 8}, square, {0, 4, 9, 4, 36}},
    {"a put above the capacity", off_the_table, sizeof off_the_table, {LOTSKADI_OFF_THE_TABLE, 1}, one_dart,
     {0, CAPACITY + 1, 2, 2, 8}},
    {"a ring of no double-link", no_double_link, sizeof no_double_link, {LOTSKADI_NO_LIST, 1}, one_dart,
     {0, 1, 2, 1, 4}},
    {"an unknown command", unknown_command, sizeof unknown_command, {LOTSKADI_UNKNOWN_COMMAND, 1}, one_dart,
     {LOTSKADI_UNKNOWN_COMMAND, 0, 0, 0, 0}},
    {"a torn command", torn_command, sizeof torn_command, {LOTSKADI_TORN_COMMAND, 1}, one_dart,
     {LOTSKADI_TORN_COMMAND, 0, 0, 0, 0}},
    {"a tape too long", long_tape, sizeof long_tape, {LOTSKADI_WRONG_SIZE, 0}, empty,
     {LOTSKADI_WRONG_SIZE, 0, 0, 0, 0}},
};

static void tapes_played(void) {
    memset(long_tape, 7, sizeof long_tape);
    for (size_t i = 0; i < sizeof tapes / sizeof tapes[0]; i++) {
        uint16_t *words = lend_words(&table, empty, WORDS);
        const uint8_t *lent = lend_bytes(&tape, tapes[i].tape, tapes[i].bytes);
        const uint8_t *bytes = tapes[i].tape == NULL ? NULL : lent;
        struct lotskadi_run run = lotskadi_play(words, WORDS, bytes, tapes[i].bytes);
        expect_run(tapes[i].what, run, tapes[i].run);
        expect_words(tapes[i].what, &table, tapes[i].after, WORDS);
        expect_needs(tapes[i].what, lotskadi_tape_needs(bytes, tapes[i].bytes), tapes[i].needs);
        expect_bytes(tapes[i].what, &tape, tapes[i].tape, tapes[i].bytes);
        note(run.number);
    }
    const struct lotskadi_run nothing = {0, 0};
    expect_run("no tape on capacity 0", lotskadi_play(NULL, 0, NULL, 0), nothing);
}

static void tape_into(size_t room, struct lotskadi_answer expected) {
    const uint16_t *words = lend_words(&table, square, WORDS);
    uint8_t *out = lend_bytes(&tape_out, NULL, 0);
    expect_answer("the square's tape", lotskadi_write_tape(words, WORDS, room == 0 ? NULL : out, room), expected);
    expect_bytes("the square's tape", &tape_out, square_tape, expected.count);
    expect_words("the plan of the tape", &table, square, WORDS);
}

static void tapes_written(void) {
    static const struct lotskadi_answer written = {0, false, TAPE_BYTES};
    static const struct lotskadi_answer short_room = {LOTSKADI_SHORT_ROOM, false, 0};
    static const struct lotskadi_answer none = {0, false, 0};
    tape_into(LOTSKADI_TAPE_ROOM, written);
    tape_into(TAPE_BYTES, written);
    tape_into(TAPE_BYTES - 1, short_room);
    tape_into(0, short_room);
    expect_answer("the tape of an empty table", lotskadi_write_tape(empty, WORDS, NULL, 0), none);
    expect_answer("the tape of capacity 0", lotskadi_write_tape(NULL, 0, NULL, 0), none);
}

/* THE SCREEN'S CALL; tests/screen.c has more of it */

/* Lends a tape and a buffer, and expects a number; where it is a refusal, nothing has changed. */
static uint8_t *screened(const char *what, const uint8_t *bytes, size_t count, size_t room, uint8_t expected) {
    const uint8_t *lent = lend_bytes(&tape, bytes, count);
    uint8_t *out = lend_bytes(&tape_out, NULL, 0);
    uint8_t number = lotskadi_screen(bytes == NULL ? NULL : lent, count, room == 0 ? NULL : out, room);
    expect_refusal(what, number, expected);
    expect_bytes(what, &tape, bytes, count);
    if (expected != LOTSKADI_OK) {
        expect_bytes(what, &tape_out, NULL, 0);
    }
    return out;
}

static void screens(void) {
    static const uint32_t numbers[SCREEN_NUMBERS] = {0, 16, 4, 4, 2, 2, 2, 4, 0, 2};
    static const uint8_t rewritten[] = {1, 1, 0, 1, 2, 0, 1, 3, 0, 1, 4, 0, 5, 1, 0, 3, 0, 5, 2, 0, 4, 0};
    static uint8_t expected[LOTSKADI_SCREEN_HEAD + sizeof rewritten];
    const uint8_t *out = screened("a tape on the screen", all_commands, sizeof all_commands, LOTSKADI_SCREEN_ROOM, 0);
    expect_numbers("numbers on the screen", out, numbers);
    memcpy(expected, out, LOTSKADI_SCREEN_HEAD);
    memcpy(expected + LOTSKADI_SCREEN_HEAD, rewritten, sizeof rewritten);
    expect_bytes("a rewritten tape", &tape_out, expected, sizeof expected);

    screened("no tape on the screen", NULL, 0, LOTSKADI_SCREEN_ROOM, LOTSKADI_OK);
    memset(expected, 0, LOTSKADI_SCREEN_HEAD);
    expect_bytes("zeros on the screen", &tape_out, expected, LOTSKADI_SCREEN_HEAD);

    screened("a long tape on the screen", long_tape, sizeof long_tape, LOTSKADI_SCREEN_ROOM, LOTSKADI_WRONG_SIZE);
    screened("little room", square_tape, TAPE_BYTES, LOTSKADI_SCREEN_ROOM - 1, LOTSKADI_SHORT_ROOM);
    screened("no room", NULL, 0, 0, LOTSKADI_SHORT_ROOM);
}

/* JOURNALS; tests/journal.c has a sequence of them */

enum { FIRST_JOURNALED = JOURNAL_PUT, LAST_JOURNALED = GO_BACK };

/* The changes above once more, each behind an entry of no meaning: what is written is the entry, and no other word. */
static const struct {
    const char *what;
    enum call call;
    const uint16_t *before;
    uint32_t a, b;
    const uint16_t *after;
    uint32_t length;
    uint16_t entries[9];
} journaled_changes[] = {
    {"journaled put 5", JOURNAL_PUT, square, 5, 0, square_and_dart, 1, {1, 5, 0}},
    {"journaled take out 5", JOURNAL_TAKE_OUT, square_and_dart, 5, 0, square, 1, {2, 5, 0}},
    {"journaled edge join 1 3", JOURNAL_EDGE_JOIN, square, 1, 3, one_edge, 1, {3, 1, 3}},
    {"journaled edge cut 1 3", JOURNAL_EDGE_CUT, one_edge, 1, 3, square, 1, {4, 1, 3}},
    {"journaled vertex join 1 2", JOURNAL_VERTEX_JOIN, square, 1, 2, one_vertex, 1, {5, 1, 2}},
    {"journaled vertex cut 1 2", JOURNAL_VERTEX_CUT, one_vertex, 1, 2, square, 1, {6, 1, 2}},
    {"journaled ring cut 1 2 3 4", JOURNAL_RING_CUT, square, 0, 0, parted, 2, {4, 1, 2, 4, 3, 4}},
};

/* A journaled change, given this head, on a journal of so many words that hold FILLER_WORD. */
static struct lotskadi_journaled journaled(enum call call, const uint16_t *plan, uint32_t a, uint32_t b,
                                           struct lotskadi_head head, size_t room) {
    uint16_t *words = lend_words(&table, plan, WORDS);
    const uint16_t *links = lend_words(&ring, square_ring, RING_WORDS);
    uint16_t *entries = lend_words(&journal, NULL, 0);
    uint16_t *lent = room == 0 ? NULL : entries;
    struct lotskadi_journaled none = {UINT8_MAX, head};
    switch (call) {
    case JOURNAL_PUT: return lotskadi_journal_put(words, WORDS, lent, room, head, a);
    case JOURNAL_TAKE_OUT: return lotskadi_journal_take_out(words, WORDS, lent, room, head, a);
    case JOURNAL_EDGE_JOIN: return lotskadi_journal_edge_join(words, WORDS, lent, room, head, a, b);
    case JOURNAL_VERTEX_JOIN: return lotskadi_journal_vertex_join(words, WORDS, lent, room, head, a, b);
    case JOURNAL_EDGE_CUT: return lotskadi_journal_edge_cut(words, WORDS, lent, room, head, a, b);
    case JOURNAL_VERTEX_CUT: return lotskadi_journal_vertex_cut(words, WORDS, lent, room, head, a, b);
    case JOURNAL_RING_CUT: return lotskadi_journal_ring_cut(words, WORDS, lent, room, head, links, RING_WORDS);
    default: return none;
    }
}

/* One row, behind so many entries, with room for as many words. */
static void change_journaled(size_t row, uint32_t length, size_t room) {
    const char *what = journaled_changes[row].what;
    size_t start = LOTSKADI_WORDS_PER_ENTRY * length;
    size_t end = start + LOTSKADI_WORDS_PER_ENTRY * journaled_changes[row].length;
    bool fits = end <= room;
    struct lotskadi_head head = with_checkpoint(head_of(length), 3, length);
    struct lotskadi_head next = head;
    uint16_t expected[JOURNAL_WORDS];
    memset(expected, FILLER, sizeof expected);
    if (fits) {
        next.length += journaled_changes[row].length;
        memcpy(expected + start, journaled_changes[row].entries, (end - start) * sizeof expected[0]);
    }
    struct lotskadi_journaled answer = journaled(journaled_changes[row].call, journaled_changes[row].before,
                                                 journaled_changes[row].a, journaled_changes[row].b, head, room);
    expect_journaled(what, answer, fits ? LOTSKADI_OK : LOTSKADI_JOURNAL_FULL, next);
    expect_words(what, &table, fits ? journaled_changes[row].after : journaled_changes[row].before, WORDS);
    expect_words(what, &journal, expected, JOURNAL_WORDS);
    expect_words(what, &ring, square_ring, RING_WORDS);
    note(answer.number);
}

static void changes_journaled(void) {
    for (size_t i = 0; i < sizeof journaled_changes / sizeof journaled_changes[0]; i++) {
        for (size_t room = 0; room <= JOURNAL_WORDS; room++) {
            change_journaled(i, 0, room);
        }
        for (size_t room = 6; room <= 15; room++) {
            change_journaled(i, 2, room);
        }
    }
}

/* Heads that do not fit a journal of JOURNAL_WORDS. */
static void heads_refused(void) {
    const struct lotskadi_head unfit[] = {
        head_of(JOURNAL_ENTRIES + 1),
        head_of(1431655766), /* three times this is 2 in 32 bits */
        head_of(LOTSKADI_UNSET - 1),
        head_of(LOTSKADI_UNSET),
        with_checkpoint(head_of(2), 0, 3),
        with_checkpoint(head_of(2), 15, 3),
        with_checkpoint(head_of(2), 7, LOTSKADI_UNSET - 1),
    };
    for (size_t i = 0; i < sizeof unfit / sizeof unfit[0]; i++) {
        given = unfit[i];
        for (int call = FIRST_JOURNALED; call <= LAST_JOURNALED; call++) {
            refused("a head that does not fit", (enum call)call, square, WORDS, 1, 2, LOTSKADI_UNDO_UNFIT);
            refused("a head and dart 0", (enum call)call, square, WORDS, 0, 0, LOTSKADI_UNDO_UNFIT);
            refused("a head and a bent table", (enum call)call, bent, WORDS, 1, 2, LOTSKADI_BENT_TABLE);
            refused("a head and a word less", (enum call)call, square, WORDS - 1, 1, 2, LOTSKADI_WRONG_SIZE);
        }
        const uint16_t *entries = lend_words(&journal, NULL, 0);
        expect_journaled("setting a checkpoint: a head that does not fit",
                         lotskadi_set_checkpoint(entries, JOURNAL_WORDS, given, 16), LOTSKADI_UNDO_UNFIT, given);
        expect_words("setting a checkpoint", &journal, NULL, 0);
    }
}

/* A change's own refusal comes before a full journal. */
static void refused_before_full(void) {
    static const struct {
        enum call call;
        uint32_t a, b;
        uint8_t expected;
    } rows[] = {
        {JOURNAL_PUT, 1, 0, LOTSKADI_TAB_TAKEN},
        {JOURNAL_TAKE_OUT, 1, 0, LOTSKADI_TAB_HELD},
        {JOURNAL_EDGE_JOIN, 1, 2, LOTSKADI_TOGETHER},
        {JOURNAL_VERTEX_JOIN, 1, 3, LOTSKADI_TOGETHER},
        {JOURNAL_EDGE_CUT, 1, 3, LOTSKADI_APART},
        {JOURNAL_VERTEX_CUT, 1, 1, LOTSKADI_SAME_TAB},
    };
    for (size_t i = 0; i < sizeof rows / sizeof rows[0]; i++) {
        struct lotskadi_journaled answer =
            journaled(rows[i].call, square, rows[i].a, rows[i].b, lotskadi_empty_head(), 0);
        expect_journaled("a refusal before a full journal", answer, rows[i].expected, lotskadi_empty_head());
        expect_words("a refusal before a full journal", &table, square, WORDS);
    }
}

static void rings_refused_by_journal(void) {
    for (size_t i = 0; i < sizeof rings / sizeof rings[0]; i++) {
        uint16_t *words = lend_words(&table, square, WORDS);
        const uint16_t *links = lend_words(&ring, rings[i].links, rings[i].words);
        const uint16_t *lent = rings[i].words == 0 ? NULL : links;
        struct lotskadi_head head = lotskadi_empty_head();
        expect_journaled(rings[i].what, lotskadi_journal_ring_cut(words, WORDS, NULL, 0, head, lent, rings[i].words),
                         rings[i].refusal, head);
        expect_words(rings[i].what, &table, square, WORDS);
        expect_words(rings[i].what, &ring, rings[i].links, rings[i].words);
    }
}

/* How many of the entries of a tape are made before it stops, by the row of `tapes`. */
static const uint16_t square_entries[] = {1, 1, 0, 1, 2, 0, 1, 3, 0, 1, 4, 0, 3, 1, 2, 3, 3, 4, 5, 1, 3, 5, 2, 4};
static const uint16_t all_entries[] = {
    1, 1, 0, 1, 2, 0, 1, 3, 0, 1, 4, 0, 3, 1, 2, 3, 3, 4, 5, 1, 3, 5, 2, 4,
    4, 1, 2, 3, 1, 2, 6, 1, 3, 5, 1, 3, 1, 5, 0, 2, 5, 0, 4, 1, 2, 4, 3, 4,
};
static const uint32_t entries_of_tapes[] = {0, 8, 16, 0, 8, 1, 1, 1, 1, 0};
static_assert(sizeof entries_of_tapes / sizeof entries_of_tapes[0] == sizeof tapes / sizeof tapes[0], "a number each");

static void tapes_journaled(void) {
    for (size_t i = 0; i < sizeof tapes / sizeof tapes[0]; i++) {
        uint16_t *words = lend_words(&table, empty, WORDS);
        uint16_t *entries = lend_words(&journal, NULL, 0);
        const uint8_t *lent = lend_bytes(&tape, tapes[i].tape, tapes[i].bytes);
        const uint8_t *bytes = tapes[i].tape == NULL ? NULL : lent;
        struct lotskadi_journaled_run run = lotskadi_journal_play(words, WORDS, entries, JOURNAL_WORDS,
                                                                  lotskadi_empty_head(), bytes, tapes[i].bytes);
        expect_journaled_run(tapes[i].what, run, tapes[i].run, head_of(entries_of_tapes[i]));
        expect_words(tapes[i].what, &table, tapes[i].after, WORDS);
        expect_words(tapes[i].what, &journal, all_entries, LOTSKADI_WORDS_PER_ENTRY * entries_of_tapes[i]);
        expect_bytes(tapes[i].what, &tape, tapes[i].tape, tapes[i].bytes);
    }
    const struct lotskadi_run nothing = {0, 0};
    expect_journaled_run("no tape, no table, no journal",
                         lotskadi_journal_play(NULL, 0, NULL, 0, lotskadi_empty_head(), NULL, 0), nothing, head_of(0));
}

/* A tape's ring of two double-links, and room for one of them: the run stops there. */
static void tape_fills_journal(void) {
    enum { ENTRIES = 15 };
    const struct lotskadi_run full = {LOTSKADI_JOURNAL_FULL, 15};
    uint16_t *words = lend_words(&table, empty, WORDS);
    uint16_t *entries = lend_words(&journal, NULL, 0);
    const uint8_t *bytes = lend_bytes(&tape, all_commands, sizeof all_commands);
    struct lotskadi_journaled_run run =
        lotskadi_journal_play(words, WORDS, entries, LOTSKADI_WORDS_PER_ENTRY * ENTRIES, lotskadi_empty_head(), bytes,
                              sizeof all_commands);
    expect_journaled_run("a ring that does not fit", run, full, head_of(ENTRIES - 1));
    expect_words("a ring that does not fit", &table, square, WORDS);
    expect_words("a ring that does not fit", &journal, all_entries, LOTSKADI_WORDS_PER_ENTRY * (ENTRIES - 1));
}

/* CHECKPOINTS */

static void checkpoints_set(void) {
    const uint16_t *entries = lend_words(&journal, square_entries, JOURNAL_WORDS / 3);
    struct lotskadi_head head = with_checkpoint(head_of(6), 4, 2);
    for (uint32_t checkpoint = 0; checkpoint < LOTSKADI_CHECKPOINTS; checkpoint++) {
        expect_journaled("setting a checkpoint, or moving it",
                         lotskadi_set_checkpoint(entries, JOURNAL_WORDS, head, checkpoint), LOTSKADI_OK,
                         with_checkpoint(head, (int)checkpoint, 6));
    }
    static const uint32_t above[] = {16, 17, 65536, UINT32_MAX};
    for (size_t i = 0; i < sizeof above / sizeof above[0]; i++) {
        struct lotskadi_journaled answer = lotskadi_set_checkpoint(entries, JOURNAL_WORDS, head, above[i]);
        expect_journaled("a checkpoint above 15", answer, LOTSKADI_NO_MARK, head);
        note(answer.number);
    }
    expect_words("checkpoints", &journal, square_entries, JOURNAL_WORDS / 3);
    head = lotskadi_empty_head();
    expect_journaled("a checkpoint of no journal", lotskadi_set_checkpoint(NULL, 0, head, 15), LOTSKADI_OK,
                     with_checkpoint(head, 15, 0));
}

/* Going back from the square, whose entries these are, with one word of them replaced; what is left of the length. */
static void gone_back(const char *what, size_t place, uint16_t word, uint32_t checkpoint, uint8_t number,
                      uint32_t undone) {
    enum { LENGTH = 8, WORDS_USED = LOTSKADI_WORDS_PER_ENTRY * LENGTH };
    uint16_t spoilt[WORDS_USED];
    memcpy(spoilt, square_entries, sizeof spoilt);
    spoilt[place] = word;
    struct lotskadi_head head = head_of(LENGTH), expected;
    for (int i = 0; i <= LENGTH; i++) {
        head.checkpoints[i] = (uint32_t)i;
    }
    expected = head;
    expected.length -= undone;
    for (uint32_t i = expected.length + 1; i <= LENGTH; i++) {
        expected.checkpoints[i] = LOTSKADI_UNSET;
    }
    uint16_t *words = lend_words(&table, square, WORDS);
    const uint16_t *entries = lend_words(&journal, spoilt, WORDS_USED);
    struct lotskadi_undone answer = lotskadi_go_back(words, WORDS, entries, WORDS_USED, head, checkpoint);
    expect_undone(what, answer, number, undone, expected);
    expect_words(what, &journal, spoilt, WORDS_USED);
    note(answer.number);
    /* the commands up to there make the same table */
    uint16_t plan[WORDS] = {0};
    lotskadi_play(plan, WORDS, square_tape, (size_t)(expected.length < 4 ? 3 * expected.length
                                                                         : 12 + 5 * (expected.length - 4)));
    expect_words(what, &table, plan, WORDS);
}

static void checkpoints_gone_back_to(void) {
    for (uint32_t checkpoint = 0; checkpoint <= 8; checkpoint++) {
        gone_back("going back", 0, 1, checkpoint, LOTSKADI_OK, 8 - checkpoint);
    }
    gone_back("an unset checkpoint", 0, 1, 9, LOTSKADI_NO_MARK, 0);
    gone_back("checkpoint 16", 0, 1, 16, LOTSKADI_NO_MARK, 0);
    gone_back("checkpoint 4,294,967,295", 0, 1, UINT32_MAX, LOTSKADI_NO_MARK, 0);
    gone_back("an unset checkpoint before an undo", 21, 0, 9, LOTSKADI_NO_MARK, 0);
    gone_back("byte 0", 12, 0, 0, LOTSKADI_UNDO_UNFIT, 3);
    gone_back("byte 7", 12, 7, 0, LOTSKADI_UNDO_UNFIT, 3);
    gone_back("a word of which a byte is 3", 12, 256 + 3, 0, LOTSKADI_UNDO_UNFIT, 3);
    gone_back("a word of which a byte is 1", 9, 256 + 1, 0, LOTSKADI_UNDO_UNFIT, 4);
    gone_back("an operand that put lacks", 11, 1, 0, LOTSKADI_UNDO_UNFIT, 4);
    gone_back("an operand off the table", 13, 0, 0, LOTSKADI_UNDO_UNFIT, 3);
    gone_back("an operand that is absent", 23, CAPACITY, 0, LOTSKADI_UNDO_UNFIT, 0);
    gone_back("a cut of two vertices", 23, 3, 0, LOTSKADI_UNDO_UNFIT, 0);
    gone_back("a spoilt entry below the checkpoint", 12, 0, 5, LOTSKADI_OK, 3);
    struct lotskadi_head head = with_checkpoint(lotskadi_empty_head(), 0, 0);
    expect_undone("no table and no journal", lotskadi_go_back(NULL, 0, NULL, 0, head, 0), LOTSKADI_OK, 0, head);
}

/* WORDS */

static const struct {
    uint32_t number;
    const char *word;
} words_of_refusals[] = {
    {LOTSKADI_OK, "accepted"},
    {LOTSKADI_WRONG_SIZE, "wrong size"},
    {LOTSKADI_BENT_TABLE, "bent table"},
    {LOTSKADI_OFF_THE_TABLE, "off the table"},
    {LOTSKADI_NO_TAB, "no tab"},
    {LOTSKADI_TAB_TAKEN, "tab taken"},
    {LOTSKADI_TAB_HELD, "tab held"},
    {LOTSKADI_TOGETHER, "together"},
    {LOTSKADI_APART, "apart"},
    {LOTSKADI_SAME_TAB, "same tab"},
    {LOTSKADI_NO_LIST, "no list"},
    {LOTSKADI_TIE_TWICE, "tie twice"},
    {LOTSKADI_GAP_TWICE, "gap twice"},
    {LOTSKADI_PATH_BROKEN, "path broken"},
    {LOTSKADI_SHORT_ROOM, "short room"},
    {LOTSKADI_UNKNOWN_COMMAND, "unknown command"},
    {LOTSKADI_TORN_COMMAND, "torn command"},
    {LOTSKADI_UNDO_UNFIT, "undo doesn't fit"},
    {LOTSKADI_JOURNAL_FULL, "journal full"},
    {LOTSKADI_NO_MARK, "no mark"},
    {LOTSKADI_NO_MARK + 1, "unknown refusal"},
    {UINT8_MAX, "unknown refusal"},
    {UINT32_MAX, "unknown refusal"},
};

static void refusals_in_words(void) {
    for (size_t i = 0; i < sizeof words_of_refusals / sizeof words_of_refusals[0]; i++) {
        const char *word = lotskadi_refusal_word(words_of_refusals[i].number);
        expect(words_of_refusals[i].word, strcmp(word, words_of_refusals[i].word) == 0);
    }
}

static void every_refusal_met(void) {
    for (uint32_t number = 0; number <= LOTSKADI_NO_MARK; number++) {
        if (met[number] == 0) {
            failures++;
            printf("FAILED: refusal %u, %s, was never met\n", (unsigned)number, lotskadi_refusal_word(number));
        }
    }
}

int main(void) {
    refusals_in_words();
    refusals_of_all();
    changes_made();
    changes_refused();
    largest_table();
    rings_refused();
    reports_of_plans();
    reports_of_components();
    parts_shared();
    rounds_written();
    marks_written();
    tapes_played();
    tapes_written();
    screens();
    changes_journaled();
    heads_refused();
    refused_before_full();
    rings_refused_by_journal();
    tapes_journaled();
    tape_fills_journal();
    checkpoints_set();
    checkpoints_gone_back_to();
    every_refusal_met();
    return outcome();
}
