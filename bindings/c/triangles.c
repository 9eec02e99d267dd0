/* Loads a graph of four vertices, lists its triangles with the work of each operator, draws a plan for them, adds
 * an edge, and shows three refusals. */
#include <inttypes.h>
#include <stddef.h>
#include <stdio.h>

#include "rizhavaan.h"

/* Four vertices without label or day; edges of label 1: 0->1, 0->2, 1->2, 1->3, 2->3. */
static const uint8_t graph[] = {
    0x00, 0x04, 0x00, 0x00, 0x50, 0x00, 0x00, 0x00, 0x00, 0x00, 0x00, 0x00, 0x00, 0x00, 0x00, 0x00,
    0x00, 0x00, 0x00, 0x00, 0x00, 0x00, 0x00, 0x10, 0x00, 0x10, 0x00, 0x00, 0x10, 0x00, 0x20, 0x00,
    0x10, 0x10, 0x00, 0x20, 0x00, 0x10, 0x10, 0x00, 0x30, 0x00, 0x20, 0x10, 0x00, 0x30,
};

/* The triangle 0->1, 0->2, 1->2, of items of any label and day, without pairs; scan edge 0, extend by vertex 2. */
static const uint8_t query[] = {
    0x31, 0x80, 0x00, 0x00, 0x00, 0x7f, 0xff, 0x80, 0x00, 0x00, 0x00, 0x7f, 0xff, 0x80, 0x00, 0x00,
    0x00, 0x7f, 0xff, 0x82, 0x02, 0x10, 0x09, 0x40, 0x20,
};
static const uint8_t plan[] = {0x10, 0x05, 0x00};

/* One change: the edge 0->3 of label 1 is added. */
static const uint8_t changes[] = {0x00, 0x00, 0x18, 0x00, 0x00, 0x08, 0x00, 0x18};

/* The words of the graph's store, and of the changed one's. */
#define WORDS RIZHAVAAN_STORE_WORDS(4, 5)
#define CHANGED_WORDS RIZHAVAAN_STORE_WORDS(4, 6)

static uint32_t store[WORDS], changed[CHANGED_WORDS], scratch[64], list[12];
static struct rizhavaan_record records[2];

/* The layout that the library was compiled with. */
_Static_assert(sizeof(struct rizhavaan_record) == 16 && _Alignof(struct rizhavaan_record) == 8,
               "a record is two numbers of 8 bytes");
_Static_assert(offsetof(struct rizhavaan_record, rows) == 0 && offsetof(struct rizhavaan_record, cost) == 8,
               "the rows come first");

/* The number in so many bits of a file from a bit on, most significant first; the bit is moved past them. */
static unsigned field(const uint8_t *file, unsigned *bit, unsigned width)
{
    unsigned number = 0;
    for (; width > 0; width--, ++*bit)
        number = number << 1 | (file[*bit / 8] >> (7 - *bit % 8) & 1u);
    return number;
}

/* The operators of an accepted plan in words. */
static void print_plan(const uint8_t *file)
{
    unsigned bit = 0, operators = field(file, &bit, 5);
    for (unsigned i = 0; i < operators; i++) {
        const unsigned kind = field(file, &bit, 2);
        printf("%s", i == 0 ? " " : ", ");
        if (kind == 0)
            printf("scan edge %u", field(file, &bit, 5));
        else if (kind == 1)
            printf("extend vertex %u", field(file, &bit, 3));
        else
            printf("join");
    }
    printf("\n");
}

static void print_rows(uint64_t rows)
{
    for (uint64_t i = 0; i < rows; i++)
        printf("%" PRIu32 " %" PRIu32 " %" PRIu32 "\n", list[3 * i], list[3 * i + 1], list[3 * i + 2]);
}

int main(void)
{
    uint64_t vertices, edges, operators, rows, cost, build, probe;
    uint32_t refusal = rizhavaan_load(graph, sizeof graph, store, WORDS, &vertices, &edges);
    if (refusal == 0 && (vertices != RIZHAVAAN_FILE_VERTICES(graph) || edges != RIZHAVAAN_FILE_EDGES(graph))) {
        printf("the file's counts differ from those that were loaded\n");
        return 1;
    }
    if (refusal == 0)
        refusal = rizhavaan_check_plan(query, sizeof query, plan, sizeof plan, &operators);
    if (refusal == 0)
        refusal = rizhavaan_run(store, WORDS, query, sizeof query, plan, sizeof plan, true, scratch, 6, list, 6,
                                records, 2, &rows, &cost, &build, &probe);
    if (refusal != 0) {
        printf("refused %" PRIu32 "\n", refusal);
        return 1;
    }
    printf("graph %" PRIu64 " %" PRIu64 " plan %" PRIu64 "\n", vertices, edges, operators);
    printf("matches %" PRIu64 " cost %" PRIu64 " build %" PRIu64 " probe %" PRIu64 "\n", rows, cost, build, probe);
    print_rows(rows);
    for (uint64_t i = 0; i < operators; i++)
        printf("operator %" PRIu64 ": rows %" PRIu64 " cost %" PRIu64 "\n", i, records[i].rows, records[i].cost);

    refusal = rizhavaan_run(store, WORDS, query, sizeof query, plan, sizeof plan, true, scratch, 5, list, 6,
                            records, 2, &rows, &cost, &build, &probe);
    printf("with 5 words of scratch: %s, rows %" PRIu64 "\n",
           refusal == RIZHAVAAN_SCRATCH_SMALL ? "refused 20" : "accepted", rows);
    refusal = rizhavaan_run(store, WORDS, query, sizeof query, plan, sizeof plan, true, scratch, 5, list, 6,
                            records, 1, &rows, &cost, &build, &probe);
    printf("with 1 record: %s, rows %" PRIu64 "\n",
           refusal == RIZHAVAAN_RECORDS_SHORT ? "refused 22" : "accepted", rows);

    uint8_t drawn[RIZHAVAAN_MAX_DRAWN_BYTES];
    uint64_t bytes;
    refusal = rizhavaan_draw_plan(store, WORDS, query, sizeof query, drawn, sizeof drawn, &bytes);
    printf("drawn: refusal %" PRIu32 ", %" PRIu64 " bytes:", refusal, bytes);
    if (refusal == 0)
        print_plan(drawn);
    refusal = rizhavaan_find(store, WORDS, query, sizeof query, drawn, sizeof drawn, true, scratch, 64, list, 12,
                             records, 2, &bytes, &rows, &cost, &build, &probe);
    printf("found: refusal %" PRIu32 ", %" PRIu64 " bytes, matches %" PRIu64 " cost %" PRIu64 "\n", refusal, bytes, rows, cost);
    print_rows(rows);

    refusal = rizhavaan_apply_changes(store, WORDS, changes, sizeof changes, changed, CHANGED_WORDS,
                                      &vertices, &edges);
    printf("changed: refusal %" PRIu32 ", graph %" PRIu64 " %" PRIu64 "\n", refusal, vertices, edges);
    refusal = rizhavaan_run(changed, CHANGED_WORDS, query, sizeof query, plan, sizeof plan, true, scratch, 64, list, 12,
                            records, 2, &rows, &cost, &build, &probe);
    printf("changed: refusal %" PRIu32 ", matches %" PRIu64 " cost %" PRIu64 "\n", refusal, rows, cost);
    print_rows(rows);
    refusal = rizhavaan_apply_changes(changed, CHANGED_WORDS, changes, sizeof changes, store, WORDS,
                                      &vertices, &edges);
    printf("changed again: %s\n", refusal == RIZHAVAAN_CHANGES_EDGE ? "refused 28" : "accepted");
    return 0;
}
