/* Calls on damaged memory, from a file of cases, through the exported functions: number and values always, state and
   memory afterwards where a case says memory=1; a refusal must change no word, whatever the case says.
   Usage: broken_memory FILE */
#include "cabinet.h"

#include <inttypes.h>
#include <stdio.h>
#include <stdlib.h>
#include <string.h>

#define MOST 70000

struct image {
    CabinetState state;
    uint32_t *words[4]; /* nodes, cells, node free list, cell free list */
    size_t count[4];
};

static char *line;
static size_t room;
static unsigned long number_of_line;

static void bad(const char *what) {
    fprintf(stderr, "broken_memory: line %lu: %s\n", number_of_line, what);
    exit(2);
}

/* The next line that isn't empty; 0 at the end. */
static int next(FILE *f) {
    ssize_t n;
    while ((n = getline(&line, &room, f)) > 0) {
        number_of_line++;
        line[strcspn(line, "\n")] = 0;
        if (line[0]) return 1;
    }
    return 0;
}

/* Numbers behind a word, in a base; how many. */
static size_t numbers(const char *word, int base, uint32_t *to, size_t most) {
    size_t n = 0;
    char *at = line + strlen(word);
    if (strncmp(line, word, strlen(word))) bad(word);
    for (;;) {
        char *end;
        unsigned long long v = strtoull(at, &end, base);
        if (end == at) break;
        if (n == most) bad("too many numbers");
        to[n++] = (uint32_t)v;
        at = end;
    }
    return n;
}

static void read_image(FILE *f, struct image *i) {
    static const char *const names[4] = {"nodes", "cells", "nlist", "clist"};
    uint32_t two[2];
    if (!next(f) || numbers("sizes", 10, two, 2) != 2) bad("sizes");
    i->state.node_size = two[0], i->state.cell_size = two[1];
    if (!next(f) || numbers("marks", 10, two, 2) != 2) bad("marks");
    i->state.node_mark = two[0], i->state.cell_mark = two[1];
    if (!next(f) || numbers("rules", 10, &i->state.rules, 1) != 1) bad("rules");
    if (!next(f) || numbers("nfree", 16, i->state.node_free, 7) != 7) bad("nfree");
    if (!next(f) || numbers("cfree", 16, i->state.cell_free, 7) != 7) bad("cfree");
    for (int k = 0; k < 4; k++) {
        if (!next(f)) bad("the file ends in an image");
        i->count[k] = numbers(names[k], 16, i->words[k], MOST);
    }
}

static struct image empty(void) {
    struct image i = {0};
    for (int k = 0; k < 4; k++)
        if (!(i.words[k] = calloc(MOST, sizeof(uint32_t)))) bad("no memory");
    return i;
}

static int same(const struct image *a, const struct image *b) {
    if (memcmp(&a->state, &b->state, sizeof a->state)) return 0;
    for (int k = 0; k < 4; k++)
        if (a->count[k] != b->count[k] || memcmp(a->words[k], b->words[k], a->count[k] * sizeof(uint32_t))) return 0;
    return 1;
}

static void copy(struct image *to, const struct image *from) {
    to->state = from->state;
    for (int k = 0; k < 4; k++) {
        to->count[k] = from->count[k];
        memcpy(to->words[k], from->words[k], from->count[k] * sizeof(uint32_t));
    }
}

static CabinetAnswer play(struct image *i, const uint32_t call[5]) {
    uint32_t *const *w = i->words;
    const size_t *n = i->count;
    CabinetEdit e;
    switch (call[0]) {
    case 1: e = cabinet_insert(i->state, w[0], n[0], w[1], n[1], w[2], n[2], w[3], n[3], call[2], call[1], call[3]); break;
    case 2: e = cabinet_remove(i->state, w[0], n[0], w[1], n[1], w[2], n[2], w[3], n[3], call[2], call[1]); break;
    case 3: return cabinet_exact(i->state, w[0], n[0], w[1], n[1], call[2], call[1]);
    case 4: return cabinet_longest(i->state, w[0], n[0], w[1], n[1], call[2], call[1]);
    case 5: return cabinet_shortest(i->state, w[0], n[0], w[1], n[1], call[2], call[1]);
    default: bad("no such operation"); exit(2);
    }
    i->state = e.state;
    return e.answer;
}

int main(int argc, char **argv) {
    struct image before = empty(), after = empty(), run = empty();
    unsigned long cases = 0, compared = 0;
    FILE *f;
    if (argc != 2 || !(f = fopen(argv[1], "r"))) {
        fprintf(stderr, "broken_memory: name a readable file of cases: broken_memory FILE\n");
        return 2;
    }
    while (next(f)) {
        uint32_t call[5], said[6], operation, length, rest[3];
        int whole;
        unsigned long id;
        if (sscanf(line, "case %lu", &id) != 1) bad("a case is expected");
        if (!next(f) || strcmp(line, "before")) bad("before is expected");
        read_image(f, &before);
        /* operation and length are decimal, key, value and ticket hexadecimal */
        if (!next(f) || sscanf(line, "call %" SCNu32 " %" SCNu32 " %" SCNx32 " %" SCNx32 " %" SCNx32, &operation, &length, rest, rest + 1, rest + 2) != 5) bad("a call is expected");
        call[0] = operation, call[1] = length, call[2] = rest[0], call[3] = rest[1], call[4] = rest[2];
        if (!next(f) || sscanf(line, "answer %" SCNu32 " %" SCNu32 " %" SCNu32 " %" SCNx32 " %" SCNx32 " %" SCNx32, said, said + 1, said + 2, said + 3, said + 4, said + 5) != 6) bad("an answer is expected");
        if (!next(f) || sscanf(line, "memory=%d", &whole) != 1) bad("memory=0 or memory=1 is expected");
        if (!next(f) || strncmp(line, "after", 5)) bad("after is expected");
        if (!strcmp(line, "after same")) copy(&after, &before);
        else read_image(f, &after);

        copy(&run, &before);
        CabinetAnswer a = play(&run, call);
        if (a.number != said[0] || a.len != said[1] || a.nodes != said[2] || a.key != said[3] || a.value != said[4]) {
            fprintf(stderr, "broken_memory: case %lu: got %u %u %u %08x %08x, expected %u %u %u %08x %08x\n", id, a.number, a.len, a.nodes, a.key, a.value, said[0], said[1], said[2], said[3], said[4]);
            return 1;
        }
        if (whole && !same(&run, &after)) {
            fprintf(stderr, "broken_memory: case %lu: state or memory afterwards differs\n", id);
            return 1;
        }
        if (a.number != CABINET_DONE && a.number != CABINET_REPLACED && !same(&run, &before)) {
            fprintf(stderr, "broken_memory: case %lu: a refusal changed state or memory\n", id);
            return 1;
        }
        cases++;
        compared += (unsigned long)whole;
    }
    printf("broken_memory: %lu cases, memory compared in %lu\n", cases, compared);
    return cases ? 0 : 2;
}
