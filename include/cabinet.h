/* The prefix map for C: six calls over memory that the caller lends.
 *
 * Link target/staticlib/libcabinet.a, which `tools/prove cabinet` proves and builds for x86-64. Each function is proved to
 * hand on exactly what the map (crates/map) answers, for every key, length, state and content of the slices; docs/PROMISES.md
 * says what is proved of the map. What C has to see to is what a Rust slice sees to: each pointer leads to as many words as the
 * length beside it says and is not null, no two of the four areas overlap, and nobody else touches them during the call.
 */
#ifndef CABINET_H
#define CABINET_H

#include <stddef.h>
#include <stdint.h>

#ifdef __cplusplus
extern "C" {
#endif

/* The number of an answer. Refused (1 to 5): no state and no lent word changed. */
#define CABINET_DONE 0u        /* started, added, removed, found */
#define CABINET_TOO_LONG 1u    /* the length is above 32 */
#define CABINET_NOTHING 2u     /* nothing covers the query, or the rule is not stored */
#define CABINET_WRONG_SLICE 3u /* a slice is not exactly as long as it must be, or a pool's size is outside 1 to CABINET_POOL_MAX */
#define CABINET_NO_ROOM 4u     /* a pool cannot supply a block that the edit needs */
#define CABINET_BROKEN 5u      /* broken memory: the lent words or the state are not what the calls left */
#define CABINET_REPLACED 8u    /* the prefix was stored: its value is replaced */

/* The limits, and the words of one node. */
#define CABINET_POOL_MAX 65536u
#define CABINET_TIERS 7
#define CABINET_NODE_WORDS 4u

/* Lengths in words of the four lent slices, for n nodes and d cells. All are constants where n and d are. */
#define CABINET_NODES_LEN(n) (CABINET_NODE_WORDS * (size_t)(n))
#define CABINET_CELLS_LEN(d) ((size_t)(d))
#define CABINET_SECTIONS_LEN(size, last) \
    ((size_t)(size) + (size_t)(size) / 2u + (size_t)(size) / 4u + (size_t)(size) / 8u + (size_t)(size) / 16u + \
     (size_t)(size) / 24u + (size_t)(size) / (last))
#define CABINET_NODE_FREE_LEN(n) CABINET_SECTIONS_LEN(n, 32u)
#define CABINET_CELL_FREE_LEN(d) CABINET_SECTIONS_LEN(d, 31u)

/* The small state beside the pools: sizes, issued marks, free counts by tier, and the rule count. Keep the one that the last
 * edit gave and hand it to the next call; don't write its fields. An all-zero state is refused with CABINET_WRONG_SLICE. */
typedef struct {
    uint32_t node_size;
    uint32_t node_mark;
    uint32_t node_free[CABINET_TIERS];
    uint32_t cell_size;
    uint32_t cell_mark;
    uint32_t cell_free[CABINET_TIERS];
    uint32_t rules;
} CabinetState;

/* An answer. What a number does not give is 0. */
typedef struct {
    uint32_t number;
    uint32_t len;   /* of the rule that was added, replaced, removed or found */
    uint32_t nodes; /* a lookup's nodes on its path, 1 to 7, also with CABINET_NOTHING; 0 for an edit */
    uint32_t key;   /* of that rule, its bits past the length zero */
    uint32_t value; /* found or removed, or the one that was replaced; 0 where a rule was added */
} CabinetAnswer;

/* What an edit gives: the state for the next call, which is the state handed in where it is refused, and the answer. */
typedef struct {
    CabinetState state;
    CabinetAnswer answer;
} CabinetEdit;

/* Starts an empty map over n nodes and d cells. Lent, with exact lengths: nodes CABINET_NODES_LEN(n), cells
 * CABINET_CELLS_LEN(d), node_free CABINET_NODE_FREE_LEN(n), cell_free CABINET_CELL_FREE_LEN(d); every word of them is written.
 * CABINET_DONE, or CABINET_WRONG_SLICE with an all-zero state and no word written. */
CabinetEdit cabinet_fresh(uint32_t *nodes, size_t nodes_len, uint32_t *cells, size_t cells_len, uint32_t *node_free,
                          size_t node_free_len, uint32_t *cell_free, size_t cell_free_len, uint32_t n, uint32_t d);

/* Stores a value under the first len bits of key, or replaces the one stored there. Lent: the four slices of the fresh start,
 * whole. CABINET_DONE with value 0, or CABINET_REPLACED with the old value; refused, the state comes back as it was and no word
 * is written. */
CabinetEdit cabinet_insert(CabinetState state, uint32_t *nodes, size_t nodes_len, uint32_t *cells, size_t cells_len,
                           uint32_t *node_free, size_t node_free_len, uint32_t *cell_free, size_t cell_free_len, uint32_t key,
                           uint32_t len, uint32_t value);

/* Removes the rule of the first len bits of key. Lent: the four slices, whole. CABINET_DONE with the removed value, or
 * CABINET_NOTHING where it is not stored; refused, the state comes back as it was and no word is written. A removal may need a
 * smaller block for what stays behind, so CABINET_NO_ROOM is possible here too. */
CabinetEdit cabinet_remove(CabinetState state, uint32_t *nodes, size_t nodes_len, uint32_t *cells, size_t cells_len,
                           uint32_t *node_free, size_t node_free_len, uint32_t *cell_free, size_t cell_free_len, uint32_t key,
                           uint32_t len);

/* The rule of exactly these len bits. Lent, for reading alone: nodes and cells, whole. CABINET_DONE with the rule, or
 * CABINET_NOTHING; the free lists are not needed. */
CabinetAnswer cabinet_exact(CabinetState state, const uint32_t *nodes, size_t nodes_len, const uint32_t *cells,
                            size_t cells_len, uint32_t key, uint32_t len);

/* The longest rule that covers the first len bits of key; lent and answered as for cabinet_exact. */
CabinetAnswer cabinet_longest(CabinetState state, const uint32_t *nodes, size_t nodes_len, const uint32_t *cells,
                              size_t cells_len, uint32_t key, uint32_t len);

/* The shortest rule that covers them; lent and answered as for cabinet_exact. */
CabinetAnswer cabinet_shortest(CabinetState state, const uint32_t *nodes, size_t nodes_len, const uint32_t *cells,
                               size_t cells_len, uint32_t key, uint32_t len);

#ifdef __cplusplus
}
#endif

#endif
