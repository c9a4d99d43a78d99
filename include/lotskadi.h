/* Lotskadi: the kernel's calls for C. Link with the static library that `rt lib` writes in `crates/c_calls`.
 *
 * This header has the words of the code, which are document 002's. Commands of a tape and refusals keep the names of
 * documents 01 and 02, so that they can be looked up there. The words that differ:
 *
 *   documents 01 and 02    this header
 *   tab                    dart
 *   tie                    edge
 *   cell                   vertex
 *   gap                    face
 *   piece                  component
 *   handles                genus
 *   flat                   planar
 *   crossing               double-link
 *   follower               successor
 *   mark of a journal      checkpoint
 *   record of a journal    entry
 *
 * A table has LOTSKADI_WORDS_PER_DART words for each dart: edge successor, edge predecessor, vertex successor, vertex
 * predecessor; dart x has words 4(x - 1) to 4(x - 1) + 3. Zeros are an empty table. The capacity of a table is how many
 * darts it has words for. Whatever words a table has, each call answers: it is refused with LOTSKADI_BENT_TABLE if they
 * are no plan.
 *
 * Every call returns 0, or one refusal, and then no lent memory has changed, the head of a journal comes back as it
 * came, and all else that the call returns is zero. Three calls keep what was done before a refusal stopped them, and
 * say how much it was: lotskadi_play and lotskadi_journal_play keep the commands, lotskadi_go_back the undos. Where
 * several refusals fit, wrong size comes first, then bent table, then a head that does not fit, then for a tape's
 * command unknown and torn, then for a ring no list, and then the lowest number; an undo that does not fit comes last.
 * Dart numbers are 32 bits wide, so that a number which no word holds is off the table.
 *
 * What is proved of a call holds for pointers as C may lend them: each pointer is valid for its length and aligned,
 * memory that is written overlaps no other memory of the call, and no other thread touches either meanwhile. Lengths
 * count words or bytes, as the name says. An empty list or journal is any pointer, NULL too, with length 0.
 *
 * The stack that a call takes is measured, not proved: LOTSKADI_CALL_STACK bytes suffice. On x86-64, with a full table
 * and the longest ring and tape, lotskadi_screen takes the most, 49,447 bytes, since its table lies there too;
 * lotskadi_report takes 16,615, and every other call takes less. */
#ifndef LOTSKADI_H
#define LOTSKADI_H

#include <stdbool.h>
#include <stddef.h>
#include <stdint.h>

#ifdef __cplusplus
extern "C" {
#endif

/* Refusals, by the words of documents 01 and 02. 0 is no refusal. */
enum lotskadi_refusal {
    LOTSKADI_OK = 0,
    LOTSKADI_WRONG_SIZE = 1,       /* table words not a multiple of 4 or above 16,384; tape above 65,536 bytes */
    LOTSKADI_BENT_TABLE = 2,       /* the table is not sound */
    LOTSKADI_OFF_THE_TABLE = 3,    /* a dart number 0 or above the capacity */
    LOTSKADI_NO_TAB = 4,           /* an absent dart where a present one is needed */
    LOTSKADI_TAB_TAKEN = 5,        /* put of a present dart */
    LOTSKADI_TAB_HELD = 6,         /* take out of a dart with a successor other than itself */
    LOTSKADI_TOGETHER = 7,         /* join within one edge or vertex */
    LOTSKADI_APART = 8,            /* cut or double-link over two edges or vertices */
    LOTSKADI_SAME_TAB = 9,         /* cut or double-link of a dart with itself */
    LOTSKADI_NO_LIST = 10,         /* ring list empty, odd, or above 4,096 words */
    LOTSKADI_TIE_TWICE = 11,       /* two double-links of one edge */
    LOTSKADI_GAP_TWICE = 12,       /* two first darts in one face */
    LOTSKADI_PATH_BROKEN = 13,     /* a second dart outside the next face */
    LOTSKADI_SHORT_ROOM = 14,      /* a buffer to be filled is shorter than its answer */
    LOTSKADI_UNKNOWN_COMMAND = 15, /* a byte not in the command table */
    LOTSKADI_TORN_COMMAND = 16,    /* the tape ends inside a command */
    LOTSKADI_UNDO_UNFIT = 17,      /* a head that does not fit its journal; an entry that cannot be undone */
    LOTSKADI_JOURNAL_FULL = 18,    /* no room for the entries of a change */
    LOTSKADI_NO_MARK = 19          /* a checkpoint number above 15; going back to an unset checkpoint */
};

/* Limits, in darts, words and bytes. */
enum {
    LOTSKADI_WORDS_PER_DART = 4,
    LOTSKADI_MAX_CAPACITY = 4096, /* darts that a table may have words for */
    LOTSKADI_MAX_RING = 4096,     /* words that the list of a ring may have */
    LOTSKADI_MAX_TAPE = 65536,    /* bytes that a tape may have */
    LOTSKADI_TAPE_ROOM = 53238,   /* bytes that every plan's tape fits */
    LOTSKADI_SCREEN_HEAD = 40,    /* bytes before the tape that the screen's call rewrites */
    LOTSKADI_CALL_STACK = 65536,  /* bytes of stack that suffice for a call: measured, not proved */
    LOTSKADI_CHECKPOINTS = 16,    /* checkpoints that a head has */
    LOTSKADI_WORDS_PER_ENTRY = 3, /* words that an entry of a journal has */

    /* words that a table may have */
    LOTSKADI_MAX_WORDS = LOTSKADI_WORDS_PER_DART * LOTSKADI_MAX_CAPACITY,
    /* bytes that the buffer of the screen's call has at least */
    LOTSKADI_SCREEN_ROOM = LOTSKADI_SCREEN_HEAD + LOTSKADI_TAPE_ROOM
};

/* An unset checkpoint. A length is less than this, and so is a checkpoint that is set. */
#define LOTSKADI_UNSET UINT32_C(4294967295)

/* The documents' word for a refusal; "accepted" for 0, and "unknown refusal" for a number that is none. */
static inline const char *lotskadi_refusal_word(uint32_t number) {
    static const char *const words[] = {
        "accepted",     "wrong size",  "bent table", "off the table",   "no tab",       "tab taken",
        "tab held",     "together",    "apart",      "same tab",        "no list",      "tie twice",
        "gap twice",    "path broken", "short room", "unknown command", "torn command", "undo doesn't fit",
        "journal full", "no mark",
    };
    return number < sizeof words / sizeof words[0] ? words[number] : "unknown refusal";
}

/* What a report returns. */
struct lotskadi_totals {
    uint8_t number; /* the refusal, or 0 */
    uint32_t darts;
    uint32_t edges;
    uint32_t vertices;
    uint32_t faces;
    uint32_t components;
    int32_t characteristic; /* vertices + edges + faces - darts */
    uint32_t genus;         /* components - characteristic / 2; 0 of a planar plan */
    uint32_t lifts;         /* magnet lifts to come: the components of at least two darts */
};

/* What a question returns. */
struct lotskadi_answer {
    uint8_t number; /* the refusal, or 0 */
    bool yes;       /* of lotskadi_same_..; else false */
    uint32_t count; /* how many words or bytes were written; of lotskadi_same_.. see there */
};

/* What a run returns. */
struct lotskadi_run {
    uint8_t number;    /* the refusal that stopped it, or 0 */
    uint32_t accepted; /* how many commands were accepted */
};

/* What a tape needs. */
struct lotskadi_needs {
    uint8_t number;    /* the refusal, or 0 */
    uint32_t capacity; /* the greatest dart number that a command names: a table of less capacity is too small */
    uint32_t commands; /* how many commands the tape has */
    uint32_t peak;     /* the highest of puts less take-outs over all beginnings of the tape, at least 0 */
    uint32_t words;    /* four for each put, take out, join, cut and double-link */
};

/* The head of a journal, which the caller keeps and hands over with it. Its fields are explained at JOURNALS. */
struct lotskadi_head {
    uint32_t checkpoints[LOTSKADI_CHECKPOINTS]; /* the length when each was set, or LOTSKADI_UNSET */
    uint32_t length;                            /* how many entries the journal has */
};

/* What a journaled change returns, and the setting of a checkpoint. */
struct lotskadi_journaled {
    uint8_t number;            /* the refusal, or 0 */
    struct lotskadi_head head; /* the head to hand over next */
};

/* What a journaled run returns. */
struct lotskadi_journaled_run {
    uint8_t number;    /* the refusal that stopped it, or 0 */
    uint32_t accepted; /* how many commands were accepted */
    struct lotskadi_head head;
};

/* What going back returns. */
struct lotskadi_undone {
    uint8_t number;  /* the refusal that stopped it, or 0 */
    uint32_t undone; /* how many entries were undone */
    struct lotskadi_head head;
};

/* COMMANDS return the refusal, or 0. They write the table without an entry in a journal: see lotskadi_go_back. */

/* A dart appears, an edge and a vertex by itself. Refusals: 1 2 3 5. */
uint8_t lotskadi_put(uint16_t *table, size_t table_words, uint32_t dart);

/* A dart that is an edge and a vertex by itself disappears. Refusals: 1 2 3 4 6. */
uint8_t lotskadi_take_out(uint16_t *table, size_t table_words, uint32_t dart);

/* The edges or the vertices of a and b become one. Refusals: 1 2 3 4 7. */
uint8_t lotskadi_edge_join(uint16_t *table, size_t table_words, uint32_t a, uint32_t b);
uint8_t lotskadi_vertex_join(uint16_t *table, size_t table_words, uint32_t a, uint32_t b);

/* The edge or the vertex of a and b becomes two, one with a and one with b. Refusals: 1 2 3 4 8 9. */
uint8_t lotskadi_edge_cut(uint16_t *table, size_t table_words, uint32_t a, uint32_t b);
uint8_t lotskadi_vertex_cut(uint16_t *table, size_t table_words, uint32_t a, uint32_t b);

/* Cuts the edge of each double-link of a ring: first and second dart of each double-link in turn, at most
 * LOTSKADI_MAX_RING words. If the ring's component is planar, which lotskadi_component_report of any of its darts tells
 * by genus 0, it comes apart in two planar components, one with all first darts and one with all second darts, and
 * every other component keeps its darts and its report. Refusals: 1 2 10 3 4 8 9 11 12 13, each over the whole list
 * before the next. */
uint8_t lotskadi_ring_cut(uint16_t *table, size_t table_words, const uint16_t *ring, size_t ring_words);

/* QUESTIONS read the table. */

/* The eight numbers. Refusals: 1 2. */
struct lotskadi_totals lotskadi_report(const uint16_t *table, size_t table_words);

/* The eight numbers of the component of one dart, as if it were the whole plan: components is 1, lifts is 1 if it has
 * at least two darts and 0 if it has one, and vertices + edges + faces + 2 * genus is 2 + darts. Over all components
 * each number adds up to lotskadi_report's. Refusals: 1 2 3 4. */
struct lotskadi_totals lotskadi_component_report(const uint16_t *table, size_t table_words, uint32_t dart);

/* Whether a and b share an edge, a vertex, a face or a component. In one edge or vertex the count is how far b is from
 * a: the fewest steps, each to the successor. It is less than the darts of that edge or vertex, and 0 if a and b are
 * one dart. Otherwise the count is 0: where they share none, and for a face and a component. Where the question is not
 * refused, a join of the two is accepted exactly if yes is false, and a cut exactly if the count is not 0.
 * Refusals: 1 2 3 4. */
struct lotskadi_answer lotskadi_same_edge(const uint16_t *table, size_t table_words, uint32_t a, uint32_t b);
struct lotskadi_answer lotskadi_same_vertex(const uint16_t *table, size_t table_words, uint32_t a, uint32_t b);
struct lotskadi_answer lotskadi_same_face(const uint16_t *table, size_t table_words, uint32_t a, uint32_t b);
struct lotskadi_answer lotskadi_same_component(const uint16_t *table, size_t table_words, uint32_t a, uint32_t b);

/* The edge, vertex or face of a dart into out, in walking order, that dart first; words after it are unchanged. A plan
 * of n darts has none longer than n, so LOTSKADI_MAX_CAPACITY words are room for any. Refusals: 1 2 3 4 14. */
struct lotskadi_answer lotskadi_edge_round(const uint16_t *table, size_t table_words, uint32_t dart, uint16_t *out,
                                           size_t out_words);
struct lotskadi_answer lotskadi_vertex_round(const uint16_t *table, size_t table_words, uint32_t dart, uint16_t *out,
                                             size_t out_words);
struct lotskadi_answer lotskadi_face_round(const uint16_t *table, size_t table_words, uint32_t dart, uint16_t *out,
                                           size_t out_words);

/* For each dart number up to the capacity the smallest dart of its component, 0 if absent; the count is the capacity.
 * Words after them are unchanged. Refusals: 1 2 14. */
struct lotskadi_answer lotskadi_component_marks(const uint16_t *table, size_t table_words, uint16_t *out,
                                                size_t out_words);

/* TAPES: commands in a row, each a byte and then dart numbers of two bytes, low byte first. By document 01's names:
 *   1 put x, 2 take out x, 3 tie join a b, 4 tie cut a b, 5 cell join a b, 6 cell cut a b, 7 report,
 *   8 ring cut: a byte for the number of double-links, and then first and second dart of each.
 * A tie is an edge and a cell a vertex. */

/* Plays a tape up to the first command that is refused; what was accepted before it stays. Like a command it makes no
 * entry in a journal. Refusals: 1 2, then of a command 15 16 10 3 to 9 11 12 13. */
struct lotskadi_run lotskadi_play(uint16_t *table, size_t table_words, const uint8_t *tape, size_t tape_bytes);

/* What a tape needs, without playing it. No operand is judged: the capacity may be above LOTSKADI_MAX_CAPACITY. If a
 * run from an empty table accepts every command, the capacity is at most that table's, commands is what lotskadi_play
 * returns as accepted, peak is the most darts that are present at any moment, and words is how many table words change,
 * counted command by command and double-link by double-link. Refusals: 1, or the first 15 or 16. */
struct lotskadi_needs lotskadi_tape_needs(const uint8_t *tape, size_t tape_bytes);

/* The plan's tape into out: darts rising, then edges, then vertices. Played on an empty table of the same size it
 * builds the plan again, and no other plan of that size has it. Bytes after it are unchanged. Refusals: 1 2 14. */
struct lotskadi_answer lotskadi_write_tape(const uint16_t *table, size_t table_words, uint8_t *out, size_t out_bytes);

/* Plays a tape on an empty table of LOTSKADI_MAX_CAPACITY, which the kernel has for this call alone, and writes into
 * out:
 *
 *   bytes   0 to  3   the refusal that stopped the run, or 0
 *           4 to  7   how many commands were accepted
 *           8 to 11   darts
 *          12 to 15   edges
 *          16 to 19   vertices
 *          20 to 23   faces
 *          24 to 27   components
 *          28 to 31   characteristic, in two's complement
 *          32 to 35   genus
 *          36 to 39   lifts: the components of at least two darts
 *          40 on      the plan's tape, rewritten: darts rising, then edges, then vertices. It has 3 bytes for each dart
 *                     and 5 for each dart that is not the smallest of its edge, and of its vertex:
 *                     13 * darts - 5 * edges - 5 * vertices bytes
 *
 * Each number has its low byte first. After a refused command, report and tape are those of the accepted ones. Bytes
 * after the tape are unchanged.
 *
 * Returns 0; or LOTSKADI_WRONG_SIZE for a tape above LOTSKADI_MAX_TAPE bytes, else LOTSKADI_SHORT_ROOM for a buffer
 * below LOTSKADI_SCREEN_ROOM bytes, before anything is played, and then no byte of out has changed. */
uint8_t lotskadi_screen(const uint8_t *tape, size_t tape_bytes, uint8_t *out, size_t out_bytes);

/* JOURNALS keep accepted changes, so that they can be undone.
 *
 * A journal is lent words, and what they hold at first does not matter. Entry k, counted from 0, has words 3k to
 * 3k + 2: the byte of its command on a tape, from 1 to 6, the first dart, and the second dart or 0. A ring of n
 * double-links is n entries of edge cuts, 4 a b; a report makes none. Words past the last multiple of 3 are not used.
 *
 * The head is a value, and each call returns the next one. Its length counts the entries, and the words of further
 * entries have no meaning. Each of the checkpoints 0 to 15 is the length at which it was set, or LOTSKADI_UNSET. An
 * empty journal has the head that lotskadi_empty_head returns. A head fits its journal if 3 * length is at most
 * journal_words, length is below LOTSKADI_UNSET, and no set checkpoint is above length; else it is refused with
 * LOTSKADI_UNDO_UNFIT. */

/* The head of an empty journal: length 0, and every checkpoint is unset. */
static inline struct lotskadi_head lotskadi_empty_head(void) {
    struct lotskadi_head head;
    for (int i = 0; i < LOTSKADI_CHECKPOINTS; i++) {
        head.checkpoints[i] = LOTSKADI_UNSET;
    }
    head.length = 0;
    return head;
}

/* The commands once more, with an entry for each change. LOTSKADI_JOURNAL_FULL means that the words of the journal have
 * no room for the entries, or that the length would reach LOTSKADI_UNSET; then the table has not changed either.
 * Refusals: those of the command, with 17 directly after 2, and 18 last. */
struct lotskadi_journaled lotskadi_journal_put(uint16_t *table, size_t table_words, uint16_t *journal,
                                               size_t journal_words, struct lotskadi_head head, uint32_t dart);
struct lotskadi_journaled lotskadi_journal_take_out(uint16_t *table, size_t table_words, uint16_t *journal,
                                                    size_t journal_words, struct lotskadi_head head, uint32_t dart);
struct lotskadi_journaled lotskadi_journal_edge_join(uint16_t *table, size_t table_words, uint16_t *journal,
                                                     size_t journal_words, struct lotskadi_head head, uint32_t a,
                                                     uint32_t b);
struct lotskadi_journaled lotskadi_journal_vertex_join(uint16_t *table, size_t table_words, uint16_t *journal,
                                                       size_t journal_words, struct lotskadi_head head, uint32_t a,
                                                       uint32_t b);
struct lotskadi_journaled lotskadi_journal_edge_cut(uint16_t *table, size_t table_words, uint16_t *journal,
                                                    size_t journal_words, struct lotskadi_head head, uint32_t a,
                                                    uint32_t b);
struct lotskadi_journaled lotskadi_journal_vertex_cut(uint16_t *table, size_t table_words, uint16_t *journal,
                                                      size_t journal_words, struct lotskadi_head head, uint32_t a,
                                                      uint32_t b);

/* A ring, with an entry for each double-link: either all of them fit, or nothing changes. Refusals: 1 2 17 10 3 4 8 9
 * 11 12 13 18. */
struct lotskadi_journaled lotskadi_journal_ring_cut(uint16_t *table, size_t table_words, uint16_t *journal,
                                                    size_t journal_words, struct lotskadi_head head,
                                                    const uint16_t *ring, size_t ring_words);

/* Plays a tape with an entry for each change, up to the first command that is refused. What was accepted before it
 * stays in table, journal and head. Refusals: 1 2 17, then of a command 15 16 10 3 to 9 11 12 13 18. */
struct lotskadi_journaled_run lotskadi_journal_play(uint16_t *table, size_t table_words, uint16_t *journal,
                                                    size_t journal_words, struct lotskadi_head head,
                                                    const uint8_t *tape, size_t tape_bytes);

/* Sets a checkpoint, 0 to 15, at the length of the journal. Setting it again moves it. Refusals: 17 19. */
struct lotskadi_journaled lotskadi_set_checkpoint(const uint16_t *journal, size_t journal_words,
                                                  struct lotskadi_head head, uint32_t checkpoint);

/* Undoes the entries after a checkpoint, the latest first, each by the opposite change of the same darts: put and take
 * out, join and cut. The journal's words stay. The length decreases by the undos done, and checkpoints above the new
 * length become unset; those equal to it stay.
 *
 * If only calls of this section have written table and journal since the checkpoint was set, each given the head last
 * returned, and the checkpoint was neither moved nor dropped, then going back is accepted and every word of the table
 * is as it was when the checkpoint was set. This no longer holds once another call or the caller writes one of them:
 * a command, lotskadi_ring_cut and lotskadi_play change the table and make no entry.
 *
 * An entry is no change if its first word is not from 1 to 6, or if it is 1 or 2 and the third word is not 0. At such
 * an entry, and at one whose opposite change the table refuses, going back stops with LOTSKADI_UNDO_UNFIT; it keeps the
 * undos done, and length and checkpoints match them. Refusals: 1 2 17 for the head, 19, and then 17 for an undo. */
struct lotskadi_undone lotskadi_go_back(uint16_t *table, size_t table_words, const uint16_t *journal,
                                        size_t journal_words, struct lotskadi_head head, uint32_t checkpoint);

#ifdef __cplusplus
}
#endif

#endif
