/* Readings of document 01 on both sides of their mark, and the inputs that decide its open readings (docs/DECISIONS.md),
   each run through the exported functions on pools just large enough and one too small. */
#include "cabinet.h"

#include <stdio.h>
#include <string.h>

#define MOST 4096

static uint32_t nodes[MOST], cells[MOST], node_free[MOST], cell_free[MOST];
static uint32_t node_count, cell_count;
static CabinetState state;
static int failed, run;

static void start(uint32_t n, uint32_t d) {
    node_count = n, cell_count = d;
    state = cabinet_fresh(nodes, CABINET_NODES_LEN(n), cells, CABINET_CELLS_LEN(d), node_free, CABINET_NODE_FREE_LEN(n), cell_free, CABINET_CELL_FREE_LEN(d), n, d).state;
}

static uint32_t insert(uint32_t key, uint32_t len) {
    CabinetEdit e = cabinet_insert(state, nodes, CABINET_NODES_LEN(node_count), cells, CABINET_CELLS_LEN(cell_count), node_free, CABINET_NODE_FREE_LEN(node_count), cell_free, CABINET_CELL_FREE_LEN(cell_count), key, len, 1);
    state = e.state;
    return e.answer.number;
}

static uint32_t remove_rule(uint32_t key, uint32_t len) {
    CabinetEdit e = cabinet_remove(state, nodes, CABINET_NODES_LEN(node_count), cells, CABINET_CELLS_LEN(cell_count), node_free, CABINET_NODE_FREE_LEN(node_count), cell_free, CABINET_CELL_FREE_LEN(cell_count), key, len);
    state = e.state;
    return e.answer.number;
}

static CabinetAnswer exact(uint32_t key, uint32_t len) {
    return cabinet_exact(state, nodes, CABINET_NODES_LEN(node_count), cells, CABINET_CELLS_LEN(cell_count), key, len);
}

static CabinetAnswer longest(uint32_t key, uint32_t len) {
    return cabinet_longest(state, nodes, CABINET_NODES_LEN(node_count), cells, CABINET_CELLS_LEN(cell_count), key, len);
}

static void expect(const char *what, uint32_t got, uint32_t wanted) {
    run++;
    if (got != wanted) {
        failed++;
        fprintf(stderr, "readings: %s: got %u, expected %u\n", what, got, wanted);
    }
}

/* Word w of node i. */
static uint32_t *word(uint32_t i, uint32_t w) { return &nodes[4 * i + w]; }
enum { DATA_BITMAP, CHILD_BITMAP, CHILDREN_IDX, DATA_IDX };

int main(void) {
    start(7, 1), expect("a first /32 in 7 nodes", insert(0x0a000113, 32), 0);
    start(6, 1), expect("a first /32 in 6 nodes", insert(0x0a000113, 32), 4);
    start(13, 2), insert(0, 32), expect("80000000/32 after 0/32 in 13 nodes", insert(0x80000000, 32), 0);
    expect("and removed again, the singles below serving the shrink", remove_rule(0x80000000, 32), 0);
    start(12, 2), insert(0, 32), expect("80000000/32 after 0/32 in 12 nodes", insert(0x80000000, 32), 4);
    start(7, 3), insert(0x0a000112, 32), expect("a second /32 under the same 30 bits in 3 cells", insert(0x0a000113, 32), 0);
    start(7, 2), insert(0x0a000112, 32), expect("a second /32 under the same 30 bits in 2 cells", insert(0x0a000113, 32), 4);
    start(7, 1), expect("length 32", insert(0, 32), 0), expect("length 33", insert(0, 33), 1);
    expect("length 33 of a lookup", longest(0, 33).number, 1);

    start(8, 2), insert(0, 0), insert(0, 32);
    expect("longest of 0/31 with 0/0 and 0/32", longest(0, 31).len, 0), expect("its count", longest(0, 31).nodes, 7);
    start(4, 4), insert(0, 5), insert(0x08000000, 5), insert(0, 10);
    expect("a removal with no node room", remove_rule(0x08000000, 5), 4);
    start(2, 7), insert(0, 0), insert(0, 1), insert(0, 2), insert(0, 5), insert(0, 6);
    expect("a removal with no cell room", remove_rule(0, 1), 4);

    start(2, 4), insert(0, 5), *word(0, CHILDREN_IDX) = 2;
    expect("room before the old block", insert(0x08000000, 5), 4);
    start(2, 4), insert(0, 5), state.node_free[0] = 2;
    expect("a full section is met after the take", insert(0x08000000, 5), 4);
    start(8, 4), insert(0, 5), state.node_free[0] = 1, node_free[0] = 2;
    expect("the issued mark is the mark as found", insert(0x08000000, 15), 5);
    start(2, 4), state.node_mark = 2, state.node_free[0] = 1, node_free[0] = 7;
    expect("room step by step", insert(0, 10), 5);
    start(16, 4), insert(0, 5), insert(0x08000000, 5), insert(0x10000000, 5), state.node_mark = 7;
    expect("a block is its whole spacing", exact(0x10000000, 5).number, 5);
    start(4, 4), insert(0, 5), *word(0, DATA_IDX) = 0;
    expect("bitmaps are tested at every node", exact(0, 5).number, 5);
    start(4, 4), insert(0, 0), insert(0, 5), *word(0, CHILDREN_IDX) = 9;
    expect("the last node's child block isn't read", exact(0, 0).number, 0);
    start(4, 1), insert(0, 0), state.rules = 0;
    expect("a removal at rule count 0", remove_rule(0, 0), 5);
    start(4, 3), insert(0, 0), state.rules = 3;
    expect("an insert at rule count D is taken", insert(0, 1), 0), expect("and the next call meets it", exact(0, 0).number, 5);
    start(4, 1), state.node_mark = 0, expect("node mark 0", exact(0, 0).number, 5);
    start(4, 1), insert(0, 0), *word(0, DATA_IDX) = UINT32_MAX - 1;
    expect("no sum wraps", exact(0, 0).number, 5);

    printf("readings: %d run, %d wrong\n", run, failed);
    return failed != 0;
}
