/* A held cell in a released batch, from C: rule 1 releases 0A000100/27, rule 2 holds its cell 0A000113/32. The cell's own rule
 * wins, its neighbour gets the batch's. Then the marks of the refusals. Exit status 0 only if every answer is the right one. */
#include <stdio.h>
#include <stdlib.h>
#include <string.h>

#include "cabinet.h"

enum { NODES = 64, CELLS = 64 };
enum { BATCH = 0x0A000100, HELD = 0x0A000113, NEIGHBOUR = 0x0A000112, ELSEWHERE = 0x0B000000 };
enum { RELEASED = 1, ON_HOLD = 2, CHECKED = 3 };

/* All the memory of a map: the four lent slices. */
typedef struct {
    uint32_t nodes[CABINET_NODES_LEN(NODES)];
    uint32_t cells[CABINET_CELLS_LEN(CELLS)];
    uint32_t node_free[CABINET_NODE_FREE_LEN(NODES)];
    uint32_t cell_free[CABINET_CELL_FREE_LEN(CELLS)];
} Memory;

static Memory memory;
static CabinetState state;
static int wrong = 0;

#define LENGTH(a) (sizeof(a) / sizeof((a)[0]))
#define WHOLE                                                                                                        \
    memory.nodes, LENGTH(memory.nodes), memory.cells, LENGTH(memory.cells), memory.node_free, LENGTH(memory.node_free), \
        memory.cell_free, LENGTH(memory.cell_free)
#define TO_READ memory.nodes, LENGTH(memory.nodes), memory.cells, LENGTH(memory.cells)

static const char *word_of(uint32_t number) {
    switch (number) {
    case CABINET_DONE: return "done";
    case CABINET_TOO_LONG: return "length above 32";
    case CABINET_NOTHING: return "nothing";
    case CABINET_WRONG_SLICE: return "wrong slice";
    case CABINET_NO_ROOM: return "no room";
    case CABINET_BROKEN: return "broken memory";
    case CABINET_REPLACED: return "replaced";
    default: return "no such number";
    }
}

/* Prints an answer, and beside it what it should have been where it is another. */
static void expect(const char *call, CabinetAnswer a, CabinetAnswer want) {
    int right = memcmp(&a, &want, sizeof a) == 0;
    printf("%-34s %-15s %08lX/%lu, value %lu, %lu nodes%s\n", call, word_of(a.number), (unsigned long)a.key,
           (unsigned long)a.len, (unsigned long)a.value, (unsigned long)a.nodes, right ? "" : "  <- WRONG");
    if (!right) {
        printf("%-34s %-15s %08lX/%lu, value %lu, %lu nodes\n", "  wanted", word_of(want.number), (unsigned long)want.key,
               (unsigned long)want.len, (unsigned long)want.value, (unsigned long)want.nodes);
        wrong = 1;
    }
}

/* The same for an edit, whose state is kept for the next call. */
static void expect_edit(const char *call, CabinetEdit e, CabinetAnswer want) {
    state = e.state;
    expect(call, e.answer, want);
}

/* A refused edit leaves the state and every lent word. */
static void expect_refused(const char *call, CabinetEdit e, const Memory *before, CabinetAnswer want) {
    expect(call, e.answer, want);
    if (memcmp(&e.state, &state, sizeof state) != 0 || memcmp(&memory, before, sizeof memory) != 0) {
        printf("  WRONG: the refused call changed the state or the memory\n");
        wrong = 1;
    }
}

/* number, length, nodes, key, value */
static CabinetAnswer answer(uint32_t number, uint32_t len, uint32_t nodes, uint32_t key, uint32_t value) {
    CabinetAnswer a = {number, len, nodes, key, value};
    return a;
}

int main(void) {
    static Memory before;
    const CabinetAnswer nothing = {CABINET_NOTHING, 0, 0, 0, 0};

    expect_edit("fresh start", cabinet_fresh(WHOLE, NODES, CELLS), answer(CABINET_DONE, 0, 0, 0, 0));
    expect("longest 0A000113/32", cabinet_longest(state, TO_READ, HELD, 32), answer(CABINET_NOTHING, 0, 1, 0, 0));

    puts("Rule 1 releases the batch 0A000100/27, rule 2 holds its cell 0A000113/32.");
    expect_edit("insert 0A000113/27, value 1", cabinet_insert(state, WHOLE, HELD, 27, RELEASED), answer(CABINET_DONE, 27, 0, BATCH, 0));
    expect_edit("insert 0A000113/32, value 2", cabinet_insert(state, WHOLE, HELD, 32, ON_HOLD), answer(CABINET_DONE, 32, 0, HELD, 0));
    expect("longest 0A000113/32", cabinet_longest(state, TO_READ, HELD, 32), answer(CABINET_DONE, 32, 7, HELD, ON_HOLD));
    expect("longest 0A000112/32", cabinet_longest(state, TO_READ, NEIGHBOUR, 32), answer(CABINET_DONE, 27, 7, BATCH, RELEASED));
    expect("shortest 0A000113/32", cabinet_shortest(state, TO_READ, HELD, 32), answer(CABINET_DONE, 27, 6, BATCH, RELEASED));
    expect("exact 0A000113/32", cabinet_exact(state, TO_READ, HELD, 32), answer(CABINET_DONE, 32, 7, HELD, ON_HOLD));
    expect("exact 0A000112/32", cabinet_exact(state, TO_READ, NEIGHBOUR, 32), answer(CABINET_NOTHING, 0, 7, 0, 0));
    expect("longest 0B000000/32", cabinet_longest(state, TO_READ, ELSEWHERE, 32), answer(CABINET_NOTHING, 0, 2, 0, 0));
    expect_edit("insert 0A000113/32, value 3", cabinet_insert(state, WHOLE, HELD, 32, CHECKED), answer(CABINET_REPLACED, 32, 0, HELD, ON_HOLD));

    puts("Refused calls change nothing.");
    before = memory;
    expect_refused("insert 0A000113/33", cabinet_insert(state, WHOLE, HELD, 33, 9), &before, answer(CABINET_TOO_LONG, 0, 0, 0, 0));
    expect_refused("remove 0A000112/32", cabinet_remove(state, WHOLE, NEIGHBOUR, 32), &before, nothing);
    expect_refused("insert, one cell lent too few",
                   cabinet_insert(state, memory.nodes, LENGTH(memory.nodes), memory.cells, LENGTH(memory.cells) - 1, memory.node_free,
                                  LENGTH(memory.node_free), memory.cell_free, LENGTH(memory.cell_free), HELD, 32, 9),
                   &before, answer(CABINET_WRONG_SLICE, 0, 0, 0, 0));

    puts("The hold is lifted, then the batch's rule goes too.");
    expect_edit("remove 0A000113/32", cabinet_remove(state, WHOLE, HELD, 32), answer(CABINET_DONE, 32, 0, HELD, CHECKED));
    expect("longest 0A000113/32", cabinet_longest(state, TO_READ, HELD, 32), answer(CABINET_DONE, 27, 6, BATCH, RELEASED));
    expect_edit("remove 0A000100/27", cabinet_remove(state, WHOLE, BATCH, 27), answer(CABINET_DONE, 27, 0, BATCH, RELEASED));
    expect("longest 0A000113/32", cabinet_longest(state, TO_READ, HELD, 32), answer(CABINET_NOTHING, 0, 1, 0, 0));

    puts("A first /32 needs 7 nodes: 6 give no room.");
    expect_edit("fresh start, 6 nodes",
                cabinet_fresh(memory.nodes, CABINET_NODES_LEN(6), memory.cells, LENGTH(memory.cells), memory.node_free,
                              CABINET_NODE_FREE_LEN(6), memory.cell_free, LENGTH(memory.cell_free), 6, CELLS),
                answer(CABINET_DONE, 0, 0, 0, 0));
    before = memory;
    expect_refused("insert 0A000113/32, value 2",
                   cabinet_insert(state, memory.nodes, CABINET_NODES_LEN(6), memory.cells, LENGTH(memory.cells), memory.node_free,
                                  CABINET_NODE_FREE_LEN(6), memory.cell_free, LENGTH(memory.cell_free), HELD, 32, ON_HOLD),
                   &before, answer(CABINET_NO_ROOM, 0, 0, 0, 0));

    puts("A refused start hands back a state that every later call meets with 3.");
    memset(&state, 0, sizeof state);
    expect_refused("fresh start, 0 nodes", cabinet_fresh(WHOLE, 0, CELLS), &before, answer(CABINET_WRONG_SLICE, 0, 0, 0, 0));
    expect("longest 0A000113/32", cabinet_longest(state, TO_READ, HELD, 32), answer(CABINET_WRONG_SLICE, 0, 0, 0, 0));

    puts(wrong ? "cabinet: some answers are WRONG, see above" : "cabinet: every answer is right");
    return wrong ? EXIT_FAILURE : EXIT_SUCCESS;
}
