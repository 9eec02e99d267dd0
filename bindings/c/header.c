/* The header's macros in use. It is compiled as C99 and as C++17, with every warning an error. */
#include "rizhavaan.h"

/* A store for four vertices and five edges, buffers that serve every plan, and a page. */
uint32_t store[RIZHAVAAN_STORE_WORDS(4, 5)];
uint8_t plan[RIZHAVAAN_MAX_DRAWN_BYTES];
struct rizhavaan_record records[RIZHAVAAN_MAX_OPERATORS];
uint8_t page[RIZHAVAAN_PAGE_BYTES];

/* The words that the store of a graph file needs, told before it is loaded; none of a file that is refused. */
size_t store_words(const uint8_t *file, size_t bytes);

size_t store_words(const uint8_t *file, size_t bytes)
{
    return bytes < 5 ? 0 : RIZHAVAAN_STORE_WORDS(RIZHAVAAN_FILE_VERTICES(file), RIZHAVAAN_FILE_EDGES(file));
}

/* The words of a scratch or a match list that count. */
size_t counted(size_t words);

size_t counted(size_t words)
{
    return words < RIZHAVAAN_MAX_WORDS ? words : RIZHAVAAN_MAX_WORDS;
}
