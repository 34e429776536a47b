/* Resolves a name and refiles a file: graph A of docs/FORMAT.md, where node 2 refers to symbol 7 and node 4 defines it. */
#include <inttypes.h>
#include <stdio.h>
#include "pozhdaghi.h"

enum { REFERENCE = 2, FILE_0 = 0, SLOTS = 8 };

static const uint8_t GRAPH_A[] = {
    1, 0, 0, 0, 72, 0, 1, 0, 6, 0, 3,                         /* version, length, files, nodes, edges */
    1, 1, 1, 2, 8, 4, 0, 0, 0, 0, 0, 7, 1, 4, 3, 0, 0, 1,     /* root, jump; 2: a reference; 3: a scope */
    8, 5, 0, 0, 0, 0, 0, 7, 1, 8, 5, 0, 0, 0, 0, 0, 8, 1,     /* 4 and 5: definitions of 7 and 8 */
    9, 1, 0, 2, 0, 3, 0, 0, 0, 0, 9, 1, 0, 3, 0, 4, 0, 0, 0, 0, /* edges 0 and 1 */
    9, 1, 0, 3, 0, 5, 0, 0, 0, 1,                             /* edge 2 */
};

static const uint8_t VISIBLE[] = {1};
static const uint64_t ASKED[POZHDAGHI_ASKED] = {0};
static uint32_t work[SLOTS * POZHDAGHI_SLOT_WORDS], result[SLOTS * POZHDAGHI_SLOT_WORDS];
static uint32_t words[POZHDAGHI_DATABASE_HEAD + SLOTS * POZHDAGHI_RECORD_WORDS];
static uint64_t answer[POZHDAGHI_ANSWER];

#define LENT(area) (area), sizeof(area) / sizeof *(area)

static int told(const char *call)
{
    printf("%s: %s, %" PRIu64 "\n", call, pozhdaghi_refusal_name(answer[0]), answer[1]);
    return answer[0] == POZHDAGHI_DONE;
}

int main(void)
{
    pozhdaghi_fresh(LENT(GRAPH_A), LENT(words), LENT(answer));
    told("fresh");
    pozhdaghi_replace_file(LENT(GRAPH_A), FILE_0, LENT(ASKED), LENT(work), LENT(words), LENT(answer));
    told("file 0 replaced, expanded");
    pozhdaghi_stitched(LENT(GRAPH_A), LENT(VISIBLE), LENT(words), REFERENCE, LENT(ASKED), LENT(work), LENT(result), LENT(answer));
    if (told("stitched, paths"))
        printf("%" PRIu32 " edges: %" PRIu32 " %" PRIu32 "\n", result[0], result[1], result[2]);
    return answer[0] != POZHDAGHI_DONE;
}
