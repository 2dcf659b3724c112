/*
 * Prints the least-cost table of a plan file: a line for each pair of stations, in row order, with from, to, the least cost
 * and the predecessor, or "far" and "-" where there is none. A refused file gives one line, "refused", the number of the
 * refusal and its facts, and status 1.
 *
 * In this folder, after bindings/build:
 *
 *     cc -std=c99 -o /tmp/example example.c ../lib/libfirnolvag.a
 *     /tmp/example ../../examples/campus.cpl
 */
#include <inttypes.h>
#include <stdio.h>

#include "firnolvag.h"

#define FACTS 5
#define CELLS (FIRNOLVAG_MOST_STATIONS * FIRNOLVAG_MOST_STATIONS)

/* One byte more than the longest plan file, so that a longer file is seen to be too long. */
#define MOST_BYTES (10 + 12 * FIRNOLVAG_MOST_LINKS + 1)

/* Static memory begins as zeros: what a call is lent has to be initialized, also where the call only writes it. */
static uint8_t file[MOST_BYTES];
static uint64_t costs[CELLS];
static uint16_t predecessors[CELLS];
static uint64_t facts[FACTS];

static int print_refusal(uint8_t answer)
{
    int named = answer == FIRNOLVAG_RECORD ? 3 : 0;
    printf("refused %d", (int)answer);
    for (int fact = 0; fact < named; fact++)
        printf(" %" PRIu64, facts[fact]);
    printf("\n");
    return 1;
}

static void print_pair(size_t from, size_t to, uint64_t cost, uint16_t predecessor)
{
    printf("%zu %zu ", from, to);
    if (cost == FIRNOLVAG_FAR)
        printf("far ");
    else
        printf("%" PRIu64 " ", cost);
    if (predecessor == FIRNOLVAG_NONE)
        printf("-\n");
    else
        printf("%d\n", (int)predecessor);
}

int main(int count, char **words)
{
    FILE *input = count == 2 ? fopen(words[1], "rb") : NULL;
    if (input == NULL) {
        fprintf(stderr, "usage: example FILE, a plan file that can be read\n");
        return 2;
    }
    size_t length = fread(file, 1, MOST_BYTES, input);
    fclose(input);

    uint8_t answer = firnolvag_table(file, length, costs, CELLS, predecessors, CELLS, facts, FACTS);
    if (answer != FIRNOLVAG_ACCEPTED)
        return print_refusal(answer);
    size_t stations = (size_t)facts[0];
    for (size_t from = 0; from < stations; from++)
        for (size_t to = 0; to < stations; to++)
            print_pair(from, to, costs[from * stations + to], predecessors[from * stations + to]);
    return 0;
}
