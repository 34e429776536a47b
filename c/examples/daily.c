/* The day of a service on the bond of docs/GUIDE.md: its image is checked and filed, names are resolved, the terms are amended and refiled, the database fills
 * and is compacted, and the waiting figure says what to lend. Every answer is printed, every refusal by its name. */
#include <inttypes.h>
#include <stdio.h>
#include "pozhdaghi.h"

enum {
    TERMS = 0,
    DESK = 1,
    COUPON = 7,
    CALL = 9,
    NEW_COUPON = 11,
    /* Room for two days of the bond's seven partial paths; more than enough to begin with; room for the old and the new paths of the desk, not of the terms. */
    RECORDS = 14,
    AMPLE = 16,
    TIGHT_RECORDS = 10
};

/* The bond as it comes in: docs/GUIDE.md has the graph. */
static const uint8_t BOND[] = {
    0x01, 0, 0, 0, 0xb1, 0, 2, 0, 11, 0, 9,                               /* version, length; files, nodes, edges */
    1, 1, 1, 2,                                                           /* 0 root, 1 jump */
    8, 5, 0, 0, 0, 0, 0, 1, 1, 4, 3, 0, 0, 0,                             /* 2 pop ACME31, a definition; 3 scope */
    8, 5, 0, 0, 0, 0, 0, 2, 1, 8, 5, 0, 0, 0, 0, 0, 3, 1,                 /* 4 pop coupon; 5 pop sinking: definitions */
    8, 5, 0, 0, 0, 0, 0, 4, 1,                                            /* 6 pop call, a definition */
    8, 4, 0, 1, 0, 0, 0, 2, 1, 8, 4, 0, 1, 0, 0, 0, 3, 1,                 /* 7 push coupon; 8 push sinking: references */
    8, 4, 0, 1, 0, 0, 0, 4, 1, 8, 4, 0, 1, 0, 0, 0, 1, 0,                 /* 9 push call, a reference; 10 push ACME31 */
    9, 1, 0, 0, 0, 2, 0, 0, 0, 0, 9, 1, 0, 2, 0, 3, 0, 0, 0, 0,           /* edges 0, 1 */
    9, 1, 0, 3, 0, 4, 0, 0, 0, 0, 9, 1, 0, 3, 0, 5, 0, 0, 0, 0,           /* edges 2, 3 */
    9, 1, 0, 3, 0, 6, 0, 0, 0, 0, 9, 1, 0, 7, 0, 10, 0, 0, 0, 0,          /* edges 4, 5 */
    9, 1, 0, 8, 0, 10, 0, 0, 0, 0, 9, 1, 0, 9, 0, 10, 0, 0, 0, 0,         /* edges 6, 7 */
    9, 1, 0, 10, 0, 0, 0, 0, 0, 0,                                        /* edge 8 */
};

/* The bond with its terms amended: the call is given up, so node 6 and edge 4 are removed; a new coupon, node 11 over edge 9, goes before the old one. Every
 * number of before means what it meant. */
static const uint8_t AMENDED[] = {
    0x01, 0, 0, 0, 0xb5, 0, 2, 0, 12, 0, 10,                              /* version, length; files, nodes, edges */
    1, 1, 1, 2,                                                           /* 0 root, 1 jump */
    8, 5, 0, 0, 0, 0, 0, 1, 1, 4, 3, 0, 0, 0,                             /* 2 pop ACME31, a definition; 3 scope */
    8, 5, 0, 0, 0, 0, 0, 2, 1, 8, 5, 0, 0, 0, 0, 0, 3, 1,                 /* 4 pop coupon; 5 pop sinking: definitions */
    1, 0,                                                                 /* 6 removed */
    8, 4, 0, 1, 0, 0, 0, 2, 1, 8, 4, 0, 1, 0, 0, 0, 3, 1,                 /* 7 push coupon; 8 push sinking: references */
    8, 4, 0, 1, 0, 0, 0, 4, 1, 8, 4, 0, 1, 0, 0, 0, 1, 0,                 /* 9 push call, a reference; 10 push ACME31 */
    8, 5, 0, 0, 0, 0, 0, 2, 1,                                            /* 11 pop coupon, a definition */
    9, 1, 0, 0, 0, 2, 0, 0, 0, 0, 9, 1, 0, 2, 0, 3, 0, 0, 0, 0,           /* edges 0, 1 */
    9, 1, 0, 3, 0, 4, 0, 0, 0, 0, 9, 1, 0, 3, 0, 5, 0, 0, 0, 0,           /* edges 2, 3 */
    1, 0, 9, 1, 0, 7, 0, 10, 0, 0, 0, 0,                                  /* edge 4 removed; edge 5 */
    9, 1, 0, 8, 0, 10, 0, 0, 0, 0, 9, 1, 0, 9, 0, 10, 0, 0, 0, 0,         /* edges 6, 7 */
    9, 1, 0, 10, 0, 0, 0, 0, 0, 0, 9, 1, 0, 3, 0, 11, 0, 0, 0, 1,         /* edges 8, 9 */
};

/* The day's image, with its length. */
struct image {
    const uint8_t *bytes;
    size_t size;
};

static const struct image MORNING = {BOND, sizeof BOND};
static const struct image EVENING = {AMENDED, sizeof AMENDED};

#define LENT(area) (area), sizeof(area) / sizeof *(area)
#define WORDS_FOR(records) (POZHDAGHI_DATABASE_HEAD + (records) * POZHDAGHI_RECORD_WORDS)

static const uint8_t EVERY_FILE[] = {1, 1};
static const uint64_t NO_LIMITS[POZHDAGHI_ASKED] = {0};
static uint32_t work[AMPLE * POZHDAGHI_SLOT_WORDS], result[AMPLE * POZHDAGHI_SLOT_WORDS];
static uint32_t words[WORDS_FOR(RECORDS)];
static uint32_t list[RECORDS * POZHDAGHI_PAIR_WORDS];
static uint64_t answer[POZHDAGHI_ANSWER];

/* A call and its whole answer: the refusal by name and what to do about it, or so many numbers. Answers whether it was not refused. */
static int told(const char *call, int numbers)
{
    printf("%s: ", call);
    if (answer[0] != POZHDAGHI_DONE) {
        printf("%" PRIu64 " %s (%" PRIu64 "), %s\n", answer[0], pozhdaghi_refusal_name(answer[0]), answer[1], pozhdaghi_refusal_text(answer[0]));
        return 0;
    }
    for (int i = 0; i < numbers; i++)
        printf("%s%" PRIu64, i ? ", " : "", answer[i]);
    printf("\n");
    return 1;
}

/* The paths in the result slots, each with the node where it ends, which a replay tells. */
static void show_paths(struct image image, uint32_t reference)
{
    static uint32_t path[POZHDAGHI_PATH_WORDS];
    for (const uint32_t *slot = result; slot < result + sizeof result / sizeof *result && *slot; slot += POZHDAGHI_SLOT_WORDS) {
        printf("  over %" PRIu32 " edges, the last of them %" PRIu32, slot[0], slot[slot[0]]);
        pozhdaghi_replay(image.bytes, image.size, reference, slot + 1, slot[0], LENT(path), LENT(answer));
        printf(", to node %" PRIu32 "\n", path[0]);
    }
}

/* A name resolved in so many waiting slots; answers the waiting figure, which is what to lend the next time. */
static size_t resolve(struct image image, uint32_t reference, size_t slots)
{
    pozhdaghi_stitched(image.bytes, image.size, LENT(EVERY_FILE), LENT(words), reference, LENT(NO_LIMITS), work, slots * POZHDAGHI_SLOT_WORDS, LENT(result),
                       LENT(answer));
    printf("%zu slots, ", slots);
    if (!told("stitched", POZHDAGHI_FOUND_WAITED + 1))
        return 0;
    size_t waited = (size_t)answer[POZHDAGHI_FOUND_WAITED];
    show_paths(image, reference);
    return waited;
}

/* A file's partial paths computed anew, in the first so many words. */
static int replace(struct image image, uint32_t file, size_t room)
{
    pozhdaghi_replace_file(image.bytes, image.size, file, LENT(NO_LIMITS), LENT(work), words, room, LENT(answer));
    printf("file %" PRIu32 ", %" PRIu32 " used, ", file, words[0]);
    return told("replace_file", 1 + POZHDAGHI_REPLACED_WAITED);
}

/* The dead records dropped. Whoever keeps numbers of partial paths puts the new ones in the place of the old ones. */
static void compact(size_t room)
{
    pozhdaghi_compact(words, room, LENT(list), LENT(answer));
    uint64_t live = answer[1];
    told("compact", 2);
    printf("  old and new numbers:");
    for (uint64_t i = 0; i < live; i++)
        printf(" %" PRIu32 "-%" PRIu32, list[POZHDAGHI_PAIR_WORDS * i], list[POZHDAGHI_PAIR_WORDS * i + 1]);
    printf("\n");
}

/* What a service does each day: a full database is compacted and the replacement made again. */
static int refile(struct image image, uint32_t file, size_t room)
{
    if (replace(image, file, room))
        return 1;
    if (answer[0] != POZHDAGHI_REFUSED_FULL)
        return 0;
    compact(room);
    return replace(image, file, room);
}

static void file_all(struct image image, size_t room)
{
    pozhdaghi_fresh(image.bytes, image.size, words, room, LENT(answer));
    told("fresh", 1);
    refile(image, TERMS, room);
    refile(image, DESK, room);
}

static void morning(size_t room)
{
    pozhdaghi_check(MORNING.bytes, MORNING.size, LENT(answer));
    told("check", 4);
    file_all(MORNING, room);
    size_t waited = resolve(MORNING, COUPON, AMPLE);
    resolve(MORNING, COUPON, waited);
    resolve(MORNING, COUPON, waited - 1);
    resolve(MORNING, CALL, waited);
}

/* Until the amended file is replaced, the database does not belong to the image. Here that is noticed, as an edge is gone; nothing else would tell. */
static void amendment(size_t room)
{
    resolve(EVENING, COUPON, AMPLE);
    refile(EVENING, TERMS, room);
    refile(EVENING, DESK, room);
    size_t waited = resolve(EVENING, COUPON, AMPLE);
    resolve(EVENING, COUPON, waited);
    resolve(EVENING, CALL, waited);
    pozhdaghi_find_name(EVENING.bytes, EVENING.size, LENT(EVERY_FILE), NEW_COUPON, LENT(NO_LIMITS), LENT(work), LENT(result), LENT(answer));
    told("find_name of the new coupon", 3);
}

static void next_days(size_t room)
{
    for (int day = 2; day <= 3; day++) {
        printf("day %d\n", day);
        refile(EVENING, TERMS, room);
        refile(EVENING, DESK, room);
        resolve(EVENING, COUPON, AMPLE);
    }
}

int main(void)
{
    const size_t room = sizeof words / sizeof *words;
    printf("day 1, the bond comes in\n");
    morning(room);
    printf("its terms are amended\n");
    amendment(room);
    next_days(room);
    printf("where old and new records of a file do not fit together\n");
    file_all(EVENING, WORDS_FOR(TIGHT_RECORDS));
    refile(EVENING, DESK, WORDS_FOR(TIGHT_RECORDS));
    refile(EVENING, TERMS, WORDS_FOR(TIGHT_RECORDS));
    return 0;
}
