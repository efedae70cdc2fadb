/* Plays bench records on the map as exported to C, from a fresh start, with pools of any size (the bench program's are fixed).
   Usage: play NODES CELLS < records > answers, twelve bytes each (document 01, "Bench records"). A bad record or a short tail is the bench
   program's to answer: here it ends the run with status 2. */
#include "cabinet.h"

#include <stdio.h>
#include <stdlib.h>

#define RECORD 12
enum { INSERT = 1, REMOVE, EXACT, LONGEST, SHORTEST };

static uint32_t number(const unsigned char *b) {
    return (uint32_t)b[0] << 24 | (uint32_t)b[1] << 16 | (uint32_t)b[2] << 8 | b[3];
}

static void put_number(unsigned char *b, uint32_t n) {
    b[0] = (unsigned char)(n >> 24), b[1] = (unsigned char)(n >> 16), b[2] = (unsigned char)(n >> 8), b[3] = (unsigned char)n;
}

static int stop(const char *why) {
    fprintf(stderr, "play: %s\n", why);
    return 2;
}

int main(int argc, char **argv) {
    if (argc != 3) return stop("usage: play NODES CELLS < records > answers");
    unsigned long n = strtoul(argv[1], NULL, 10), d = strtoul(argv[2], NULL, 10);
    if (n < 1 || n > CABINET_POOL_MAX || d < 1 || d > CABINET_POOL_MAX) return stop("a pool has 1 to 65536 nodes or cells");
    size_t nodes_len = CABINET_NODES_LEN(n), cells_len = CABINET_CELLS_LEN(d);
    size_t node_free_len = CABINET_NODE_FREE_LEN(n), cell_free_len = CABINET_CELL_FREE_LEN(d);
    uint32_t *nodes = malloc(sizeof *nodes * nodes_len), *cells = malloc(sizeof *cells * cells_len);
    uint32_t *node_free = malloc(sizeof *node_free * node_free_len), *cell_free = malloc(sizeof *cell_free * cell_free_len);
    if (!nodes || !cells || !node_free || !cell_free) return stop("no memory for the pools");
    CabinetEdit e = cabinet_fresh(nodes, nodes_len, cells, cells_len, node_free, node_free_len, cell_free, cell_free_len, (uint32_t)n, (uint32_t)d);
    if (e.answer.number != CABINET_DONE) return stop("the fresh start is refused");

    unsigned char r[RECORD];
    size_t got;
    while ((got = fread(r, 1, RECORD, stdin)) == RECORD) {
        uint32_t len = r[1], key = number(r + 4), value = number(r + 8);
        if (r[0] < INSERT || r[0] > SHORTEST || r[2] || r[3] || (r[0] != INSERT && value)) return stop("a bad record");
        CabinetAnswer a;
        switch (r[0]) {
        case INSERT:
            e = cabinet_insert(e.state, nodes, nodes_len, cells, cells_len, node_free, node_free_len, cell_free, cell_free_len, key, len, value);
            a = e.answer;
            break;
        case REMOVE:
            e = cabinet_remove(e.state, nodes, nodes_len, cells, cells_len, node_free, node_free_len, cell_free, cell_free_len, key, len);
            a = e.answer;
            break;
        case EXACT: a = cabinet_exact(e.state, nodes, nodes_len, cells, cells_len, key, len); break;
        case LONGEST: a = cabinet_longest(e.state, nodes, nodes_len, cells, cells_len, key, len); break;
        default: a = cabinet_shortest(e.state, nodes, nodes_len, cells, cells_len, key, len); break;
        }
        unsigned char out[RECORD] = {(unsigned char)a.number, (unsigned char)a.len, (unsigned char)a.nodes, 0};
        put_number(out + 4, a.key), put_number(out + 8, a.value);
        if (fwrite(out, 1, RECORD, stdout) != RECORD) return stop("can't write an answer");
    }
    if (got) return stop("a record cut short");
    return fflush(stdout) ? stop("can't write an answer") : 0;
}
