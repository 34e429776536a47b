/* Every refusal arrives by its name through the calls for C, with its values, and leaves its areas as docs/FORMAT.md says. Each area is lent up against a page
 * that may not be touched. */
#include "areas.h"
#include "images.h"
#include "pozhdaghi.h"

enum { SLOTS = 16, HIGHEST = 64 };

static struct image image;
static uint64_t *answer;
static uint32_t *work, *result, *words;
static const uint8_t *visible;
static const uint64_t *asked;
static size_t work_len, result_len, words_len;
static const uint64_t NO_LIMITS[POZHDAGHI_ASKED] = {0};
static uint8_t every_file[POZHDAGHI_MOST_FILES];
static int seen[HIGHEST], failures;

#define IMAGE lend_copy(image.bytes, image.size), image.size
#define VISIBLE visible, sizeof every_file
#define ASKED asked, POZHDAGHI_ASKED
#define WORK work, work_len
#define RESULT result, result_len
#define WORDS words, words_len
#define ANSWER answer, POZHDAGHI_ANSWER
#define NO_WORDS (uint32_t *)lend(0), 0
#define NO_ROWS (const uint8_t *)lend(0), 0
#define NO_NUMBERS (uint64_t *)lend(0), 0

/* Areas for one call: so many slots and records, and rubbish in all of them. */
static void lend_areas(size_t waiting, size_t results, size_t records)
{
    take_back();
    work_len = waiting * POZHDAGHI_SLOT_WORDS + 5;
    result_len = results * POZHDAGHI_SLOT_WORDS + 5;
    words_len = POZHDAGHI_DATABASE_HEAD + records * POZHDAGHI_RECORD_WORDS;
    work = (uint32_t *)lend(work_len * sizeof *work);
    result = (uint32_t *)lend(result_len * sizeof *result);
    words = (uint32_t *)lend(words_len * sizeof *words);
    answer = (uint64_t *)lend(POZHDAGHI_ANSWER * sizeof *answer);
    asked = (const uint64_t *)lend_copy(NO_LIMITS, sizeof NO_LIMITS);
    visible = lend_copy(every_file, sizeof every_file);
}

static void fail(const char *what, const char *why)
{
    failures++;
    printf("%s: %s; answered %u %s %u %u\n", what, why, (unsigned)answer[0], pozhdaghi_refusal_name(answer[0]), (unsigned)answer[1], (unsigned)answer[2]);
}

/* The last call was refused by this name with these values, and nothing stands behind them. */
static void expect(const char *what, const char *name, uint64_t first, uint64_t second)
{
    if (strcmp(pozhdaghi_refusal_name(answer[0]), name) || answer[1] != first || answer[2] != second)
        fail(what, name);
    for (int i = 3; i < POZHDAGHI_ANSWER; i++)
        if (answer[i])
            fail(what, "a number behind the values");
    if (answer[0] < HIGHEST)
        seen[answer[0]] = 1;
}

static void expect_done(const char *what)
{
    if (answer[0] != POZHDAGHI_DONE)
        fail(what, "Done");
}

static void expect_zero(const char *what, const void *area, size_t bytes)
{
    const uint8_t *byte = (const uint8_t *)area;
    for (size_t i = 0; i < bytes; i++)
        if (byte[i]) {
            fail(what, "an area that is not zero");
            return;
        }
}

static void expect_areas_zero(const char *what)
{
    expect_zero(what, work, work_len * sizeof *work);
    expect_zero(what, result, result_len * sizeof *result);
}

/* A database of graph A in fresh areas. */
static void file_a(size_t records)
{
    graph_a(&image);
    lend_areas(SLOTS, SLOTS, records);
    pozhdaghi_fresh(IMAGE, WORDS, ANSWER);
    expect_done("fresh");
    pozhdaghi_replace_file(IMAGE, 0, ASKED, WORK, WORDS, ANSWER);
    expect_done("replace_file");
}

/* Words of a database without records, of so many nodes and files. */
static void empty_database(uint32_t nodes, uint32_t files)
{
    memset(words, 0, words_len * sizeof *words);
    words[1] = nodes;
    words[2] = files;
}

/* The partial path with a number, of file 0, over one edge. */
static void put_record(uint32_t number, uint32_t start, uint32_t end, uint32_t edge)
{
    uint32_t *record = words + POZHDAGHI_DATABASE_HEAD + number * POZHDAGHI_RECORD_WORDS;
    record[0] = 1;
    record[1] = start;
    record[2] = end;
    record[3] = 1;
    record[4] = edge;
    words[0] = number + 1;
}

/* Graph A with one byte changed, by calls that take an image first. */
static void damaged(size_t place, uint8_t byte, const char *name, uint64_t offset)
{
    graph_a(&image);
    image.bytes[place] = byte;
    lend_areas(SLOTS, SLOTS, 4);
    pozhdaghi_check(IMAGE, ANSWER);
    expect("check", name, offset, 0);
    pozhdaghi_direct(IMAGE, VISIBLE, 2, ASKED, WORK, RESULT, ANSWER);
    expect("direct", name, offset, 0);
    expect_areas_zero("direct");
    pozhdaghi_linear(IMAGE, VISIBLE, 2, ASKED, RESULT, ANSWER);
    expect("linear", name, offset, 0);
    pozhdaghi_find_name(IMAGE, VISIBLE, 4, ASKED, WORK, RESULT, ANSWER);
    expect("find_name", name, offset, 0);
    pozhdaghi_tally(IMAGE, VISIBLE, 2, WORK, ANSWER);
    expect("tally", name, offset, 0);
    expect_zero("tally", work, work_len * sizeof *work);
    pozhdaghi_resolve_flow(IMAGE, VISIBLE, NO_ROWS, NO_ROWS, 0, 0, ASKED, WORK, RESULT, ANSWER);
    expect("resolve_flow", name, offset, 0);
    expect_areas_zero("resolve_flow");
    pozhdaghi_fresh(IMAGE, WORDS, ANSWER);
    expect("fresh", name, offset, 0);
    pozhdaghi_replace_aliases(IMAGE, ASKED, WORK, WORDS, ANSWER);
    expect("replace_aliases", name, offset, 0);
}

static void images(void)
{
    damaged(0, 3, "Version", 0);
    damaged(0, 2, "Length", 0);
    damaged(4, 73, "Length", 0);
    damaged(15, 9, "Length", 0);
    damaged(5, 1, "Counts", 0);
    damaged(8, 1, "Counts", 0);
    damaged(12, 3, "Record", 11);
    damaged(23, 2, "Record", 15);
    damaged(52, 9, "Reference", 47);
    damaged(50, 1, "Reference", 47);
    lend_areas(0, 0, 0);
    pozhdaghi_check(lend(0), 0, ANSWER);
    expect("no byte", "Length", 0, 0);
}

static void rewrites(void)
{
    graph_a(&image);
    lend_areas(0, 0, 0);
    uint8_t *area = lend(88);
    pozhdaghi_widen(IMAGE, area, 88, ANSWER);
    expect("a byte short", "NoResultSlot", 0, 0);
    expect_zero("a byte short", area, 88);
    pozhdaghi_narrow(IMAGE, area, 88, ANSWER);
    expect("narrow again", "Version", 0, 0);
    begin(&image, WIDE, 1);
    add_symbol(&image, POZHDAGHI_NODE_POP, 0, UINT64_C(1) << 32, 0, 1);
    pozhdaghi_narrow(IMAGE, area, 88, ANSWER);
    expect("narrow", "WideSymbol", 15, 0);
    expect_zero("narrow", area, 88);
}

/* The nodes and edges of a replayed list, and of every other call that takes a node. */
static void nodes_and_edges(void)
{
    static const uint32_t UNKNOWN[] = {9}, APART[] = {1}, FIRST[] = {0}, OTHER[] = {0, 2};
    graph_a(&image);
    lend_areas(SLOTS, SLOTS, 4);
    pozhdaghi_replay(IMAGE, 6, FIRST, 1, RESULT, ANSWER);
    expect("replay", "UnknownNode", 6, 0);
    expect_zero("replay", result, result_len * sizeof *result);
    pozhdaghi_direct_recorded(IMAGE, VISIBLE, 3, ASKED, WORK, RESULT, ANSWER);
    expect("direct_recorded", "NotReference", 3, 0);
    pozhdaghi_direct(IMAGE, lend(0), 0, 2, ASKED, WORK, RESULT, ANSWER);
    expect("direct of a hidden node", "UnknownNode", 2, 0);
    pozhdaghi_is_complete(IMAGE, 2, UNKNOWN, 1, ANSWER);
    expect("is_complete", "UnknownEdge", 9, 0);
    pozhdaghi_shadows(IMAGE, 2, FIRST, 1, 2, APART, 1, ANSWER);
    expect("shadows", "IncorrectSource", 2, 3);
    pozhdaghi_replay(IMAGE, 2, OTHER, 2, RESULT, ANSWER);
    expect("replay", "IncorrectPoppedSymbol", 5, 0);
    pozhdaghi_find_name(IMAGE, VISIBLE, 3, ASKED, WORK, RESULT, ANSWER);
    expect("find_name", "NotDefinition", 3, 0);
    expect_areas_zero("find_name");
    pozhdaghi_replace_file(IMAGE, 1, ASKED, WORK, WORDS, ANSWER);
    expect("replace_file on rubbish", "Malformed", 0, 0);
    empty_database(6, 1);
    pozhdaghi_replace_file(IMAGE, 1, ASKED, WORK, WORDS, ANSWER);
    expect("replace_file", "UnknownFile", 1, 0);
}

/* What stands in graph A, and what does not. */
static void readers(void)
{
    graph_a(&image);
    lend_areas(0, 1, 0);
    pozhdaghi_references(IMAGE, VISIBLE, RESULT, ANSWER);
    expect("references", "Done", 1, 0);
    if (result[0] != 2 || result[1])
        fail("references", "node 2 alone");
    pozhdaghi_references(IMAGE, VISIBLE, NO_WORDS, ANSWER);
    expect("references", "NoResultSlot", 0, 0);
    pozhdaghi_node(IMAGE, VISIBLE, 6, ANSWER);
    expect("node", "UnknownNode", 6, 0);
    pozhdaghi_node(IMAGE, VISIBLE, 4, ANSWER);
    if (answer[POZHDAGHI_FIELD_KIND] != POZHDAGHI_NODE_POP || answer[POZHDAGHI_FIELD_SYMBOL] != 7 || answer[POZHDAGHI_FIELD_FLAG] != 1)
        fail("node", "a definition of 7");
    pozhdaghi_edge(IMAGE, VISIBLE, 3, ANSWER);
    expect("edge", "UnknownEdge", 3, 0);
    pozhdaghi_edge(IMAGE, VISIBLE, 2, ANSWER);
    if (answer[1] != 3 || answer[2] != 5 || answer[3] != 1)
        fail("edge", "from 3 to 5 with precedence 1");
    pozhdaghi_outgoing(IMAGE, VISIBLE, 6, RESULT, ANSWER);
    expect("outgoing", "UnknownNode", 6, 0);
    expect_zero("outgoing", result, result_len * sizeof *result);
    pozhdaghi_outgoing(IMAGE, VISIBLE, 3, result, 1, ANSWER);
    expect("outgoing", "NoResultSlot", 0, 0);
    pozhdaghi_outgoing(IMAGE, VISIBLE, 3, RESULT, ANSWER);
    expect("outgoing", "Done", 2, 0);
}

/* A scoped reference, 2; a scope, 3; a scoped definition of its symbol, 4; a definition of it without scopes, 5; a plain reference, 6. */
static void stacks(void)
{
    static const uint32_t TO_PLAIN[] = {0}, TO_SCOPED[] = {1}, TWICE[] = {2, 3}, JUMP[] = {4};
    begin(&image, NARROW, 1);
    add_symbol(&image, POZHDAGHI_NODE_PUSH_SCOPED, 0, 7, 3, 1);
    add_scope(&image, 0, 1);
    add_symbol(&image, POZHDAGHI_NODE_POP_SCOPED, 0, 7, 0, 1);
    add_symbol(&image, POZHDAGHI_NODE_POP, 0, 7, 0, 1);
    add_symbol(&image, POZHDAGHI_NODE_PUSH, 0, 7, 0, 1);
    add_edge(&image, 2, 5, 0);
    add_edge(&image, 6, 4, 0);
    add_edge(&image, 6, 5, 0);
    add_edge(&image, 5, 5, 0);
    add_edge(&image, 6, 1, 0);
    lend_areas(0, 4, 0);
    pozhdaghi_replay(IMAGE, 2, TO_PLAIN, 1, RESULT, ANSWER);
    expect("a pop on scopes", "UnexpectedAttachedScopes", 5, 0);
    pozhdaghi_replay(IMAGE, 6, TO_SCOPED, 1, RESULT, ANSWER);
    expect("a scoped pop on none", "MissingAttachedScopes", 4, 0);
    pozhdaghi_replay(IMAGE, 6, TWICE, 2, RESULT, ANSWER);
    expect("a second pop", "EmptySymbolStack", 5, 0);
    pozhdaghi_replay(IMAGE, 6, JUMP, 1, RESULT, ANSWER);
    expect("a jump", "EmptyScopeStack", 1, 0);
    expect_zero("a jump", result, result_len * sizeof *result);
}

/* Two edges to go on; a 64th edge; too few slots of each kind. */
static void searches(void)
{
    begin(&image, NARROW, 1);
    add_symbol(&image, POZHDAGHI_NODE_PUSH, 0, 7, 0, 1);
    add_symbol(&image, POZHDAGHI_NODE_POP, 0, 7, 0, 1);
    add_edge(&image, 2, 3, 0);
    add_edge(&image, 2, 3, 0);
    lend_areas(SLOTS, 1, 0);
    pozhdaghi_linear(IMAGE, VISIBLE, 2, ASKED, RESULT, ANSWER);
    expect("linear", "MultipleEdges", 2, 0);
    pozhdaghi_direct(IMAGE, VISIBLE, 2, ASKED, WORK, RESULT, ANSWER);
    expect("direct", "NoResultSlot", 0, 0);
    expect_areas_zero("direct");
    lend_areas(1, SLOTS, 0);
    pozhdaghi_direct(IMAGE, VISIBLE, 2, ASKED, WORK, RESULT, ANSWER);
    expect("direct", "NoWaitingSlot", 0, 0);
    expect_areas_zero("direct");
    lend_areas(1, 0, 0);
    pozhdaghi_tally(IMAGE, VISIBLE, 2, WORK, ANSWER);
    expect("tally", "NoWaitingSlot", 0, 0);
    expect_zero("tally", work, work_len * sizeof *work);
    chain(&image, POZHDAGHI_MOST_EDGES + 1);
    lend_areas(SLOTS, SLOTS, 0);
    pozhdaghi_linear_recorded(IMAGE, VISIBLE, 2, ASKED, RESULT, ANSWER);
    expect("linear_recorded", "TooLong", 0, 0);
    pozhdaghi_direct(IMAGE, VISIBLE, 2, ASKED, WORK, RESULT, ANSWER);
    expect("direct", "TooLong", 0, 0);
    expect_areas_zero("direct");
    pozhdaghi_tally(IMAGE, VISIBLE, 2, WORK, ANSWER);
    expect("tally", "TooLong", 0, 0);
}

/* The refusals of a directory in their order, on the last image; the row's reference goes on to the search. */
static void directory(void)
{
    static const uint8_t ROWS[] = "US0378331005\0\1\0\1\0\3" "US0378331005\0\1\0\1\0\2";
    enum { ROW = POZHDAGHI_ROW_BYTES, ISIN = POZHDAGHI_ISIN_BYTES };
    lend_areas(SLOTS, SLOTS, 0);
    const uint8_t *rows = lend_copy(ROWS, 2 * ROW), *isin = lend_copy(ROWS, ISIN), *other = lend_copy("US0378331006", ISIN);
    pozhdaghi_resolve_flow(IMAGE, VISIBLE, rows, 2 * ROW, other, ISIN, 1, 1, ASKED, WORK, RESULT, ANSWER);
    expect("resolve_flow", "MalformedIsin", 0, 0);
    expect_areas_zero("resolve_flow");
    pozhdaghi_resolve_flow(IMAGE, VISIBLE, rows, 2 * ROW, isin, ISIN, 1, 2, ASKED, WORK, RESULT, ANSWER);
    expect("resolve_flow", "Disordered", 0, 0);
    pozhdaghi_resolve_flow(IMAGE, VISIBLE, rows, ROW + 1, isin, ISIN, 1, 1, ASKED, WORK, RESULT, ANSWER);
    expect("resolve_flow", "Disordered", 0, 0);
    pozhdaghi_resolve_flow(IMAGE, VISIBLE, rows, ROW, isin, ISIN, 1, 2, ASKED, WORK, RESULT, ANSWER);
    expect("resolve_flow", "UnknownKey", 0, 0);
    expect_areas_zero("resolve_flow");
    pozhdaghi_resolve_flow(IMAGE, VISIBLE, rows, ROW, isin, ISIN, 1, 1, ASKED, WORK, RESULT, ANSWER);
    expect("resolve_flow", "NotReference", 3, 0);
    pozhdaghi_resolve_flow(IMAGE, VISIBLE, rows + ROW, ROW, isin, ISIN, 1, 1, ASKED, WORK, RESULT, ANSWER);
    expect("resolve_flow", "TooLong", 0, 0);
    expect_areas_zero("resolve_flow");
}

static void databases(void)
{
    file_a(5);
    uint32_t before[POZHDAGHI_DATABASE_HEAD + 5 * POZHDAGHI_RECORD_WORDS];
    memcpy(before, words, sizeof before);
    pozhdaghi_replace_file(IMAGE, 0, ASKED, WORK, WORDS, ANSWER);
    expect("replace_file", "Full", 0, 0);
    if (memcmp(before, words, sizeof before))
        fail("replace_file", "the words as they were");
    uint32_t *list = (uint32_t *)lend(9 * sizeof *list);
    pozhdaghi_compact(WORDS, list, 9, ANSWER);
    expect("compact", "NoResultSlot", 0, 0);
    expect_zero("compact", list, 9 * sizeof *list);
    empty_database(7, 1);
    pozhdaghi_stitched(IMAGE, VISIBLE, WORDS, 2, ASKED, WORK, RESULT, ANSWER);
    expect("stitched", "Outgrown", 0, 0);
    empty_database(6, 1);
    put_record(0, 2, 3, 9);
    pozhdaghi_stitched_recorded(IMAGE, VISIBLE, WORDS, 2, ASKED, WORK, RESULT, ANSWER);
    expect("stitched_recorded", "UnknownEdge", 9, 0);
    expect_areas_zero("stitched_recorded");
    pozhdaghi_fresh(IMAGE, words, 2, ANSWER);
    expect("fresh", "Malformed", 0, 0);
    words[0] = 6;
    pozhdaghi_compact(WORDS, list, 9, ANSWER);
    expect("compact", "Malformed", 0, 0);
    pozhdaghi_lookup(WORDS, 0, ANSWER);
    expect("lookup", "Done", 0, 0);
}

static void conversions(void)
{
    enum { OLD = POZHDAGHI_DATABASE_HEAD + POZHDAGHI_FORMER_RECORD_WORDS };
    uint32_t old[OLD] = {1, 6, 1, 1, 2, 3, POZHDAGHI_MOST_EDGES + 1};
    lend_areas(0, 0, 1);
    pozhdaghi_convert((const uint32_t *)lend_copy(old, sizeof old), OLD, WORDS, ANSWER);
    expect("convert", "TooLongToConvert", 0, 0);
    expect_zero("convert", words, words_len * sizeof *words);
    pozhdaghi_convert((const uint32_t *)lend_copy(old, sizeof old), OLD, words, words_len - 1, ANSWER);
    expect("convert", "Full", 0, 0);
    old[3] = 3;
    pozhdaghi_convert((const uint32_t *)lend_copy(old, sizeof old), OLD, WORDS, ANSWER);
    expect("convert", "Malformed", 0, 0);
}

/* The one refusal of a window; its words stay. */
static void window(void)
{
    lend_areas(0, 0, 0);
    uint32_t *costs = (uint32_t *)lend(POZHDAGHI_WINDOW_WORDS * sizeof *costs);
    pozhdaghi_window_begin(costs, POZHDAGHI_WINDOW_WORDS);
    pozhdaghi_window_enter(costs, POZHDAGHI_WINDOW_WORDS, POZHDAGHI_MOST_EXPANSIONS + 1, ANSWER);
    expect("window_enter", "TooGreat", 0, 0);
    expect_zero("window_enter", costs, POZHDAGHI_WINDOW_WORDS * sizeof *costs);
    pozhdaghi_window_enter(costs, POZHDAGHI_WINDOW_WORDS, POZHDAGHI_MOST_EXPANSIONS, ANSWER);
    expect_done("window_enter");
}

/* A row of double edges, and two beside it, ask for one expansion more than there may be: service/tests/expansions.rs. */
static void expansions(void)
{
    enum { ROW = 23, BESIDE = 2, FIRST = 2, LAST = FIRST + ROW };
    static const uint64_t DEPTH_FIRST[] = {POZHDAGHI_DEPTH_FIRST};
    begin(&image, NARROW, 1);
    add_symbol(&image, POZHDAGHI_NODE_PUSH, 0, 7, 0, 1);
    for (int i = 0; i < ROW + BESIDE; i++)
        add_scope(&image, 0, 0);
    for (uint32_t i = 0; i < 2 * ROW; i++)
        add_edge(&image, FIRST + i / 2, FIRST + i / 2 + 1, 0);
    for (uint32_t i = 0; i < BESIDE; i++)
        add_edge(&image, FIRST, LAST + 1 + i, 0);
    lend_areas(32, 1, 0);
    pozhdaghi_direct(IMAGE, VISIBLE, 2, DEPTH_FIRST, 1, WORK, RESULT, ANSWER);
    expect("direct", "TooManyExpansions", 0, 0);
    expect_areas_zero("direct");
}

/* Areas of no element at all: their pointers lead to pages that may not be touched. */
static void nothing_lent(void)
{
    graph_a(&image);
    lend_areas(0, 0, 0);
    pozhdaghi_direct(IMAGE, VISIBLE, 2, NO_NUMBERS, NO_WORDS, NO_WORDS, ANSWER);
    expect("direct", "NoWaitingSlot", 0, 0);
    pozhdaghi_linear(IMAGE, VISIBLE, 2, NO_NUMBERS, NO_WORDS, ANSWER);
    expect("linear", "NoResultSlot", 0, 0);
    pozhdaghi_replay(IMAGE, 2, NO_WORDS, NO_WORDS, ANSWER);
    expect_done("replay");
    pozhdaghi_stitched(IMAGE, VISIBLE, NO_WORDS, 2, NO_NUMBERS, NO_WORDS, NO_WORDS, ANSWER);
    expect("stitched", "Malformed", 0, 0);
    pozhdaghi_compact(NO_WORDS, NO_WORDS, ANSWER);
    expect("compact", "Malformed", 0, 0);
    pozhdaghi_convert(NO_WORDS, NO_WORDS, ANSWER);
    expect("convert", "Malformed", 0, 0);
    pozhdaghi_widen(IMAGE, lend(0), 0, ANSWER);
    expect("widen", "NoResultSlot", 0, 0);
    pozhdaghi_check(IMAGE, NO_NUMBERS);
}

static void every_refusal(void)
{
    images();
    rewrites();
    nodes_and_edges();
    readers();
    stacks();
    searches();
    directory();
    databases();
    conversions();
    window();
    nothing_lent();
}

/* Each refusal that has a name was met, but the one that no accepted image gives. */
static void expect_all(void)
{
    seen[POZHDAGHI_REFUSED_UNKNOWN_ATTACHED_SCOPE] = 1;
    for (uint64_t number = 0; number < HIGHEST; number++) {
        const int has_name = strcmp(pozhdaghi_refusal_name(number), "unknown") != 0;
        if (has_name != seen[number] || !*pozhdaghi_refusal_text(number)) {
            failures++;
            printf("%u %s was %smet\n", (unsigned)number, pozhdaghi_refusal_name(number), seen[number] ? "" : "not ");
        }
    }
    if (strcmp(pozhdaghi_refusal_name(UINT64_MAX), "unknown") || !*pozhdaghi_refusal_text(UINT64_MAX))
        failures++;
}

int main(void)
{
    memset(every_file, 1, sizeof every_file);
    every_refusal();
    areas_side = IN_FRONT;
    every_refusal();
    expansions();
    expect_all();
    printf("refusals: %s\n", failures ? "not as they are written" : "each by its name");
    return failures != 0;
}
