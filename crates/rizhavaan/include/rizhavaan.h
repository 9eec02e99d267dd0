/* Subgraph matching: load a packed graph or change a loaded one, check or draw a plan or list all orderings, run it or draw
 * and run in one call, print its rows.
 * Link librizhavaan.a.
 *
 * Every function returns 0, or the number of a refusal (below). After a refusal every number that a pointer
 * takes is 0. No input is a fault: any bytes and words, and any lengths, are answered. What is proved of each
 * function is its contract in crates/rizhavaan/src/lib.rt; what the caller owes, and no proof can see, is what
 * its pointers are:
 *
 *  - a pointer with a length points to that many bytes, words or records, which may be read, and written where
 *    it is not const;
 *  - no pointer is null, also where the length is 0, and each is aligned as its type asks;
 *  - what is written (store, drawn plan, scratch, list, records, words, page, the single numbers) overlaps nothing
 *    else that is passed;
 *  - a bool is true or false.
 *
 * Nothing is kept between calls, and no function allocates, waits or prints: calls on different buffers may run
 * at once, and any number of runs may share one store. Of the C library only memcpy, memmove and memset are used.
 *
 * The files are packed bit by bit, most significant first, and zero bits fill the last byte:
 *
 *   graph    N (16 bits), M (20), N vertices of label (16), inspection day (16, days since 1 January 2000, 0 for
 *            none), M edges of source (16), label (8, 1 to 255), target (16), strictly ascending by source, then
 *            label, then target; 5 + 4 N + 5 M bytes;
 *   query    n (4 bits, 2 to 8), m (5, 1 to 24), n vertices of label (16, 0 fits all), first day (16), last day
 *            (16), both inclusive, m edges of from (3), to (3), label (8, 0 is any label), strictly ascending by
 *            from, then to, then label, a pair count (4 bits), pairs of two vertices (3 each), the first of which
 *            is to have the lower number, strictly ascending by the first, then the second;
 *   plan     operator count (5 bits), then operators of a kind (2 bits): 0 scan of a query edge's index (5),
 *            1 extend by a query vertex (3), 2 join;
 *   changes  a count (20 bits), then for each a bit (1 adds an edge, 0 takes it away) and the edge of source (16),
 *            label (8), target (16), strictly ascending by edge as in a graph.
 */
#ifndef RIZHAVAAN_H
#define RIZHAVAAN_H

#include <stdbool.h>
#include <stddef.h>
#include <stdint.h>

#ifdef __cplusplus
extern "C" {
#endif

/* N and M of a graph file of 5 bytes or more, by its first 36 bits, so that a store for it can be made before it
 * is loaded. Its bytes are not checked: rizhavaan_load does that. */
#define RIZHAVAAN_FILE_VERTICES(file) ((uint32_t)(file)[0] << 8 | (uint32_t)(file)[1])
#define RIZHAVAAN_FILE_EDGES(file) \
    ((uint32_t)(file)[2] << 12 | (uint32_t)(file)[3] << 4 | (uint32_t)(file)[4] >> 4)

/* The words that the store of a graph of N vertices and M edges takes; a longer one serves as well. */
#define RIZHAVAAN_STORE_WORDS(vertices, edges) (UINT64_C(4) * (vertices) + UINT64_C(2) * (edges) + 4)

/* As many records serve every plan. */
#define RIZHAVAAN_MAX_OPERATORS 31

/* As many bytes serve every plan that is drawn. */
#define RIZHAVAAN_MAX_DRAWN_BYTES 6

/* Patterns of more vertices have no list of orderings; and as many words serve every list. */
#define RIZHAVAAN_MAX_ORDERING_VERTICES 5
#define RIZHAVAAN_MAX_ORDERING_WORDS 864

/* A scratch or a match list of more words counts as one of this many, and the rest of it is untouched. */
#define RIZHAVAAN_MAX_WORDS 1073741824

/* The bytes of a page: 60 lines of 80 columns, each with a line feed. */
#define RIZHAVAAN_PAGE_BYTES 4860

enum rizhavaan_refusal {
    RIZHAVAAN_ACCEPTED = 0,
    RIZHAVAAN_GRAPH_SHORT = 1,     /* the graph file is shorter than 5 bytes or than its own size */
    RIZHAVAAN_GRAPH_LONG = 2,      /* it is longer than its own size, or a fill bit is set */
    RIZHAVAAN_GRAPH_EDGE = 3,      /* an edge has a vertex outside 0 to N - 1, or label 0 */
    RIZHAVAAN_GRAPH_ORDER = 4,     /* the edges do not ascend strictly */
    RIZHAVAAN_STORE_SMALL = 5,     /* the store is shorter than 4 N + 2 M + 4 words */
    RIZHAVAAN_QUERY_SHORT = 6,     /* the query file is shorter than 2 bytes or than its own size */
    RIZHAVAAN_QUERY_LONG = 7,      /* it is longer than its own size, or a fill bit is set */
    RIZHAVAAN_QUERY_LIMITS = 8,    /* it has not 2 to 8 vertices and 1 to 24 edges */
    RIZHAVAAN_QUERY_EDGE = 9,      /* an edge has a vertex not below n, or equal ends */
    RIZHAVAAN_QUERY_ORDER = 10,    /* the edges do not ascend strictly */
    RIZHAVAAN_QUERY_APART = 11,    /* the query is not connected */
    RIZHAVAAN_PLAN_SHORT = 12,     /* the plan file's bits run out */
    RIZHAVAAN_PLAN_LONG = 13,      /* it has a further byte, or a fill bit is set */
    RIZHAVAAN_PLAN_OPERATOR = 14,  /* no operator, kind 3, or an edge or vertex that the query lacks */
    RIZHAVAAN_PLAN_PILE = 15,      /* too few results for an operator, or more than one at the end */
    RIZHAVAAN_PLAN_EXTEND = 16,    /* an extend by a covered vertex, or with no edge to the covered ones */
    RIZHAVAAN_PLAN_JOIN = 17,      /* a join of sides that share no vertex, or of which one has none of its own, or
                                      between which a query edge runs that lies in neither */
    RIZHAVAAN_PLAN_UNCOVERED = 18, /* the plan leaves a query vertex uncovered */
    RIZHAVAAN_STORE_DAMAGED = 19,  /* no accepted graph file loads to this store */
    RIZHAVAAN_SCRATCH_SMALL = 20,  /* the run needs more scratch */
    RIZHAVAAN_LIST_SMALL = 21,     /* the rows do not fit the match list */
    RIZHAVAAN_RECORDS_SHORT = 22,  /* the list of records is shorter than the plan's operators */
    /* 23 was given where a drawn plan had no next vertex. A query that is read is connected and always has one,
       so no operation gives 23, and the number is not used again. */
    RIZHAVAAN_PLAN_BYTES = 24,     /* the drawn plan's bytes do not fit */
    RIZHAVAAN_QUERY_DAYS = 25,     /* a vertex has a first day above its last: after 6 to 8, before 9 */
    RIZHAVAAN_QUERY_PAIR = 26,     /* a pair has equal vertices or one not below n, or the pairs do not ascend
                                      strictly: after 9 and 10, before 11 */
    RIZHAVAAN_CHANGES_FILE = 27,   /* the change file is shorter or longer than its own size, a fill bit is set, an
                                      edge has a vertex outside 0 to N - 1 or label 0, or the edges do not ascend
                                      strictly */
    RIZHAVAAN_CHANGES_EDGE = 28,   /* an edge is added that is there, or one is taken away that is not */
    RIZHAVAAN_CHANGES_MANY = 29,   /* the edited graph has more than 1,048,575 edges */
    RIZHAVAAN_RUN_NUMBERS = 30,    /* a number that the run would give or record is above 18,446,744,073,709,551,615:
                                      after 20, before 21 */
    RIZHAVAAN_ORDERINGS_LARGE = 31, /* the query has more than 5 vertices: after its own refusals, before 19 */
    RIZHAVAAN_ORDERINGS_WORDS = 32, /* the words are too few for all orderings: after 19, before 20 */
    RIZHAVAAN_SHEET_ROWS = 33,     /* n is not 2 to 8, there are more than 536,870,912 rows, the list is too short for
                                      its rows, or one of their words is above 65,535, on whatever page */
    RIZHAVAAN_SHEET_PAGE = 34,     /* the page is not 1 to the page count */
    RIZHAVAAN_SHEET_BYTES = 35     /* the bytes are fewer than a page's */
};

/* What a run records of one operator: the rows of its result, and its cost. Scans and joins cost 0. */
struct rizhavaan_record {
    uint64_t rows;
    uint64_t cost;
};

/* Loads a graph file into a store of RIZHAVAAN_STORE_WORDS(N, M) words or more, and gives N and M. Refusals 1 to 5.
 * Refused, the store is untouched; loaded, the words past the used ones are. */
uint32_t rizhavaan_load(const uint8_t *file, size_t file_len,
                        uint32_t *store, size_t store_len,
                        uint64_t *vertices, uint64_t *edges);

/* Writes the store of an edited graph from an old store and a change file, as by loading a file of that graph, and
 * gives its N and M. The old store is only read; its first two words are its N and M. The new one needs
 * RIZHAVAAN_STORE_WORDS(N, M) words, of the new M: the old M and one more for each change are always enough.
 * Refusals 19 of the old store, then 27, 28 and 29, each over the whole file before the next, then 5. Refused, the
 * new store is untouched; written, the words past the used ones are. */
uint32_t rizhavaan_apply_changes(const uint32_t *old, size_t old_len,
                                 const uint8_t *changes, size_t changes_len,
                                 uint32_t *store, size_t store_len,
                                 uint64_t *vertices, uint64_t *edges);

/* Checks a plan against a query, and gives the plan's number of operators. Refusals 6 to 18, 25 and 26. */
uint32_t rizhavaan_check_plan(const uint8_t *query, size_t query_len,
                              const uint8_t *plan, size_t plan_len,
                              uint64_t *operators);

/* Draws a plan for a query over a store, of one scan and n - 2 extends, and gives its length in bytes: at most
 * RIZHAVAAN_MAX_DRAWN_BYTES. Refusals 6 to 11, 19 and 24 to 26.
 *
 * The scan is of the query edge whose label has the fewest edges in the store (label 0 has them all), then the
 * lowest index; each extend is by the uncovered vertex with the most query edges to the covered ones, then the
 * lowest number. The first bytes of `plan` are then a plan file that rizhavaan_check_plan accepts. Refused, the
 * bytes are untouched; drawn, those past the plan are. */
uint32_t rizhavaan_draw_plan(const uint32_t *store, size_t store_len,
                             const uint8_t *query, size_t query_len,
                             uint8_t *plan, size_t plan_len,
                             uint64_t *bytes);

/* Bounds a plan over a store without a run, and gives what no run of it passes: the words of its list and of its
 * scratch, its cost, and the rows of any of its operators. Refusals 6 to 19, 25 and 26: those of the plan, then 19.
 *
 * A scan is bounded by the edges of its label (label 0 has them all); an extend by the operand's rows times the least,
 * over its query edges, of the longest portion that any vertex has for the edge's label and direction, from the
 * covered end; a join by the product. An extend's longest set is bounded by that least, its cost by the operand's
 * rows times the sum of those longest portions; the need follows by the sums of rizhavaan_run. A number too large for
 * 64 bits is given as 18446744073709551615. Where all four lie below RIZHAVAAN_MAX_WORDS and list and scratch reach
 * theirs, a run is never refused by 20, 21 or 30, whatever the cache. */
uint32_t rizhavaan_bounds(const uint32_t *store, size_t store_len,
                          const uint8_t *query, size_t query_len,
                          const uint8_t *plan, size_t plan_len,
                          uint64_t *list_words, uint64_t *scratch_words,
                          uint64_t *cost, uint64_t *largest);
/* Lists every accepted plan of one scan and extends of a query of at most RIZHAVAAN_MAX_ORDERING_VERTICES vertices, each
 * with its cost with the cache on, and gives their number. Refusals 6 to 11, 25, 26, 31, 19 and 32, then 20 or 30 of the
 * first ordering that rizhavaan_run, with the cache on and a list long enough, would refuse in this scratch.
 *
 * An entry is n + 1 words: the scan's index, the n - 2 extended vertices in turn, the cost's high word, its low word. The
 * entries ascend by these numbers; the plan that rizhavaan_draw_plan draws is among them. RIZHAVAAN_MAX_ORDERING_WORDS
 * words are always enough. Rows are counted and not listed, and each ordering is run once. Refused, the words are
 * untouched; listed, those past the last entry are. The scratch is zero afterwards, as by a run. */
uint32_t rizhavaan_orderings(const uint32_t *store, size_t store_len,
                             const uint8_t *query, size_t query_len,
                             uint32_t *scratch, size_t scratch_len,
                             uint32_t *words, size_t words_len,
                             uint64_t *plans);

/* Counts what a run of a plan over a store would give, without a match list or records: the number of rows, the cost,
 * the sums of build rows and probe rows, and the need, which 20 is told by. Refusals 6 to 20, 25, 26 and 30: those of
 * the plan, then 19, 20 and 30.
 *
 * Where it is accepted, a run with the same cache whose scratch has `need` words or more, whose list has n words a row,
 * of RIZHAVAAN_MAX_WORDS at most, and which has a record for each operator is accepted with the same four numbers, and
 * one with a shorter scratch is refused with 20. So a list can be made that fits. The rows are found once. The scratch
 * is as in rizhavaan_run: zero afterwards, whatever the answer. */
uint32_t rizhavaan_count(const uint32_t *store, size_t store_len,
                         const uint8_t *query, size_t query_len,
                         const uint8_t *plan, size_t plan_len,
                         bool cache,
                         uint32_t *scratch, size_t scratch_len,
                         uint64_t *rows, uint64_t *cost, uint64_t *build, uint64_t *probe,
                         uint64_t *need);

/* Runs a plan over a store, and gives the number of rows, the cost, and the sums of build rows and probe rows over
 * all joins. Refusals 6 to 22, 25, 26 and 30: those of the plan, then 22, 19, 20, 30 and 21.
 *
 * A row is n words, the data vertices of query vertices 0 to n - 1, no two the same, and of each pair the first
 * below the second; the rows are the matches of the query, each once, from the list's first word on. Pairs that
 * contradict each other have none. Refused, the list is untouched; accepted, its words past the last row are. The
 * scratch is zero afterwards, whatever the answer. Scratch or list longer than RIZHAVAAN_MAX_WORDS counts as that
 * long, and the rest is untouched. The first records are those of the plan's operators, in its order; their costs
 * add up to the cost, and the last one's rows are the rows. Refused, the records are untouched; accepted, those
 * past the last operator are. With the cache on, an extend reuses the vertices found for the row just before where
 * it may: the rows are the same, and the cost is no higher.
 *
 * Rows are streamed through the plan: the scratch holds no rows but those of a join's build side, so that what a run
 * needs does not grow with what it lists. The need is that of the last operator, with the cache on or off:
 *
 *  - of a scan 2;
 *  - of an extend its operand's need, its own row's width, and the longest set of vertices that it found for a row by
 *    edges, label and day, those that equal a vertex of the row or break a pair among them;
 *  - of a join of b build rows of width w the larger of two sums: the build side's need and b w; or b w, b, the least
 *    power of two not below b, the probe side's need and its own row's width.
 *
 * The list is written when the run is known to fit: where the rows are many and the scratch is short, they are found
 * twice, to be counted and to be written. They are found once where the scratch has, besides the build sides, the
 * words of the rows and N words for each operator after the last scan; the answer is the same. A call uses less than
 * 1 MB of stack. */
uint32_t rizhavaan_run(const uint32_t *store, size_t store_len,
                       const uint8_t *query, size_t query_len,
                       const uint8_t *plan, size_t plan_len,
                       bool cache,
                       uint32_t *scratch, size_t scratch_len,
                       uint32_t *list, size_t list_len,
                       struct rizhavaan_record *records, size_t records_len,
                       uint64_t *rows, uint64_t *cost, uint64_t *build, uint64_t *probe);

/* Draws a plan for a query over a store and runs it: rizhavaan_draw_plan and then rizhavaan_run on what it drew, with one
 * check of the store and not two, which is most of the time of a pattern that has few rows. Gives the plan's length in
 * bytes, at most RIZHAVAAN_MAX_DRAWN_BYTES, and the numbers of the run. Refusals 6 to 11, 19 to 22, 24 to 26 and 30: those
 * of rizhavaan_draw_plan, then 22, 20, 30 and 21.
 *
 * Plan, scratch, list and records are left as by the two calls: where the run is refused, the first bytes of `plan` are the
 * drawn plan all the same, though its length is given as 0. It has 5 n + 2 bits, and rizhavaan_count or rizhavaan_run takes
 * it as it stands. */
uint32_t rizhavaan_find(const uint32_t *store, size_t store_len,
                        const uint8_t *query, size_t query_len,
                        uint8_t *plan, size_t plan_len,
                        bool cache,
                        uint32_t *scratch, size_t scratch_len,
                        uint32_t *list, size_t list_len,
                        struct rizhavaan_record *records, size_t records_len,
                        uint64_t *bytes,
                        uint64_t *rows, uint64_t *cost, uint64_t *build, uint64_t *probe);

/* Fills one page of the rows of a list, n words a row, as text, and gives the page count. Refusals 33 to 35, in
 * this order.
 *
 * A page is RIZHAVAAN_PAGE_BYTES bytes: 60 lines of 80 columns, each with a line feed. The first line holds the page
 * number, 1 being the first, and the page count; each of the others the numbers of a row, 59 rows a page in list
 * order, or nothing where the rows are at their end. Numbers are decimal, right-aligned in 8 columns each, from the
 * line's first column on; all else is blank. The count is the rows divided by 59, rounded up, and at least 1: no rows
 * give one page. A list longer than RIZHAVAAN_MAX_WORDS counts as that long. All words of the rows are looked at in
 * every call, the words past them are not read. Refused, the bytes are untouched; filled, those past the page are. */
uint32_t rizhavaan_page(const uint32_t *list, size_t list_len,
                        uint64_t n, uint64_t rows, uint64_t page,
                        uint8_t *bytes, size_t bytes_len,
                        uint64_t *pages);

#ifdef __cplusplus
}
#endif

#endif
