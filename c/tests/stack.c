/* The stack that each call takes, on small images and on the largest, is at most what docs/FORMAT.md says; and each call ends on a thread that has just that and
 * a page for the thread itself. A thread's stack is painted before the call, and what is no longer painted was used. `stack figures` prints what was measured.
 * Link it with -z now: to bind memcpy or memset at their first call takes stack of its own. */
#include "areas.h"
#include "images.h"
#include <pthread.h>

enum { KB = 1024, PAINT = 0x5a, AMPLE = 1024 * KB, SLOTS = 80, RECORDS = 512, FEW = 128, FILES = 2, HIDDEN = 1 };

static struct image images[8];
static const struct image *image;
static const uint32_t reference = 2;
static uint32_t definition;
static uint64_t asked[POZHDAGHI_ASKED];
static uint8_t visible[POZHDAGHI_MOST_FILES], area[POZHDAGHI_LONGEST_IMAGE];
static uint32_t edges[POZHDAGHI_MOST_EDGES], edges_len;
static uint32_t work[SLOTS * POZHDAGHI_SLOT_WORDS], result[SLOTS * POZHDAGHI_SLOT_WORDS], path[POZHDAGHI_PATH_WORDS];
static uint32_t words[POZHDAGHI_DATABASE_HEAD + RECORDS * POZHDAGHI_RECORD_WORDS], list[RECORDS * POZHDAGHI_PAIR_WORDS];
static uint32_t old[POZHDAGHI_DATABASE_HEAD + RECORDS * POZHDAGHI_FORMER_RECORD_WORDS], renewed[sizeof words / sizeof *words];
static uint32_t costs[POZHDAGHI_WINDOW_WORDS];
static uint64_t answer[POZHDAGHI_ANSWER], numbers[POZHDAGHI_TALLY];

#define LENT(area) (area), sizeof(area) / sizeof *(area)
#define IMAGE image->bytes, image->size

static void check(void) { pozhdaghi_check(IMAGE, LENT(answer)); }
static void widen(void) { pozhdaghi_widen(IMAGE, LENT(area), LENT(answer)); }
static void narrow(void) { pozhdaghi_narrow(IMAGE, LENT(area), LENT(answer)); }
static void replay(void) { pozhdaghi_replay(IMAGE, reference, edges, edges_len, LENT(path), LENT(answer)); }
static void is_complete(void) { pozhdaghi_is_complete(IMAGE, reference, edges, edges_len, LENT(answer)); }
static void shadows(void) { pozhdaghi_shadows(IMAGE, reference, edges, edges_len, reference, edges, edges_len, LENT(answer)); }
static void direct(void) { pozhdaghi_direct(IMAGE, LENT(visible), reference, LENT(asked), LENT(work), LENT(result), LENT(answer)); }
static void direct_recorded(void) { pozhdaghi_direct_recorded(IMAGE, LENT(visible), reference, LENT(asked), LENT(work), LENT(result), LENT(answer)); }
static void linear(void) { pozhdaghi_linear(IMAGE, LENT(visible), reference, LENT(asked), LENT(result), LENT(answer)); }
static void linear_recorded(void) { pozhdaghi_linear_recorded(IMAGE, LENT(visible), reference, LENT(asked), LENT(result), LENT(answer)); }
static void find_name(void) { pozhdaghi_find_name(IMAGE, LENT(visible), definition, LENT(asked), LENT(work), LENT(result), LENT(answer)); }
static void tally(void)
{
    pozhdaghi_tally(IMAGE, LENT(visible), reference, LENT(work), LENT(numbers));
    answer[0] = numbers[0];
}
static void resolve_flow(void)
{
    static const uint8_t ROW[] = "US0378331005\0\1\0\1\0\2";
    pozhdaghi_resolve_flow(IMAGE, LENT(visible), ROW, POZHDAGHI_ROW_BYTES, ROW, POZHDAGHI_ISIN_BYTES, 1, 1, LENT(asked), LENT(work), LENT(result), LENT(answer));
}
static void fresh(void) { pozhdaghi_fresh(IMAGE, LENT(words), LENT(answer)); }
static void replace_file(void) { pozhdaghi_replace_file(IMAGE, 0, LENT(asked), LENT(work), LENT(words), LENT(answer)); }
static void replace_aliases(void) { pozhdaghi_replace_aliases(IMAGE, LENT(asked), LENT(work), LENT(words), LENT(answer)); }
static void stitched(void) { pozhdaghi_stitched(IMAGE, LENT(visible), LENT(words), reference, LENT(asked), LENT(work), LENT(result), LENT(answer)); }
static void stitched_recorded(void)
{
    pozhdaghi_stitched_recorded(IMAGE, LENT(visible), LENT(words), reference, LENT(asked), LENT(work), LENT(result), LENT(answer));
}
static void references(void) { pozhdaghi_references(IMAGE, LENT(visible), LENT(result), LENT(answer)); }
static void node(void) { pozhdaghi_node(IMAGE, LENT(visible), reference, LENT(answer)); }
static void edge(void) { pozhdaghi_edge(IMAGE, LENT(visible), 0, LENT(answer)); }
static void outgoing(void) { pozhdaghi_outgoing(IMAGE, LENT(visible), reference, LENT(result), LENT(answer)); }
static void lookup(void) { pozhdaghi_lookup(LENT(words), 0, LENT(answer)); }
static void compact(void) { pozhdaghi_compact(LENT(words), LENT(list), LENT(answer)); }
static void convert(void) { pozhdaghi_convert(LENT(old), LENT(renewed), LENT(answer)); }

static void window_begin(void)
{
    pozhdaghi_window_begin(LENT(costs));
    answer[0] = POZHDAGHI_DONE;
}
static void window_enter(void) { pozhdaghi_window_enter(LENT(costs), 7, LENT(answer)); }
static void window_report(void) { pozhdaghi_window_report(LENT(costs), LENT(answer)); }

/* Each call with the stack that docs/FORMAT.md gives: on an image of at most FEW nodes and edges, and on any; what was measured on either, and how often it was
 * not refused. What is documented is what was measured with some 256 bytes for the caller's own arguments, up to whole KB. */
static struct call {
    const char *name;
    void (*make)(void);
    size_t documented[2];
    size_t measured[2];
    unsigned unrefused;
} calls[] = {
    {"check", check, {177 * KB, 177 * KB}, {0, 0}, 0},
    {"fresh", fresh, {177 * KB, 177 * KB}, {0, 0}, 0},
    {"replace_file", replace_file, {8 * KB, 179 * KB}, {0, 0}, 0},
    {"replace_aliases", replace_aliases, {8 * KB, 179 * KB}, {0, 0}, 0},
    {"stitched", stitched, {226 * KB, 226 * KB}, {0, 0}, 0},
    {"stitched_recorded", stitched_recorded, {226 * KB, 226 * KB}, {0, 0}, 0},
    {"direct", direct, {199 * KB, 199 * KB}, {0, 0}, 0},
    {"direct_recorded", direct_recorded, {199 * KB, 199 * KB}, {0, 0}, 0},
    {"linear", linear, {26 * KB, 196 * KB}, {0, 0}, 0},
    {"linear_recorded", linear_recorded, {26 * KB, 196 * KB}, {0, 0}, 0},
    {"find_name", find_name, {186 * KB, 186 * KB}, {0, 0}, 0},
    {"tally", tally, {183 * KB, 183 * KB}, {0, 0}, 0},
    {"resolve_flow", resolve_flow, {199 * KB, 199 * KB}, {0, 0}, 0},
    {"replay", replay, {195 * KB, 195 * KB}, {0, 0}, 0},
    {"is_complete", is_complete, {195 * KB, 195 * KB}, {0, 0}, 0},
    {"shadows", shadows, {192 * KB, 192 * KB}, {0, 0}, 0},
    {"widen", widen, {183 * KB, 183 * KB}, {0, 0}, 0},
    {"narrow", narrow, {183 * KB, 183 * KB}, {0, 0}, 0},
    {"references", references, {177 * KB, 177 * KB}, {0, 0}, 0},
    {"node", node, {177 * KB, 177 * KB}, {0, 0}, 0},
    {"edge", edge, {183 * KB, 183 * KB}, {0, 0}, 0},
    {"outgoing", outgoing, {183 * KB, 183 * KB}, {0, 0}, 0},
    {"lookup", lookup, {1 * KB, 1 * KB}, {0, 0}, 0},
    {"convert", convert, {1 * KB, 1 * KB}, {0, 0}, 0},
    {"compact", compact, {1 * KB, 1 * KB}, {0, 0}, 0},
    {"window_begin", window_begin, {1 * KB, 1 * KB}, {0, 0}, 0},
    {"window_enter", window_enter, {1 * KB, 1 * KB}, {0, 0}, 0},
    {"window_report", window_report, {1 * KB, 1 * KB}, {0, 0}, 0},
};

enum { CALLS = sizeof calls / sizeof *calls };

static uint8_t *called_from;

/* The call, from a known place of the stack. */
static void *run(void *call)
{
    called_from = (uint8_t *)__builtin_frame_address(0);
    ((struct call *)call)->make();
    return NULL;
}

static void run_on(uint8_t *stack, size_t bytes, struct call *call)
{
    pthread_t thread;
    pthread_attr_t kind;
    int failed = pthread_attr_init(&kind) || pthread_attr_setstack(&kind, stack, bytes) || pthread_create(&thread, &kind, run, call);
    if (failed || pthread_join(thread, NULL)) {
        printf("%s: no thread with %zu bytes\n", call->name, bytes);
        exit(2);
    }
    pthread_attr_destroy(&kind);
}

/* How far below its caller a call wrote. */
static size_t measure(struct call *call)
{
    static uint8_t *stack;
    if (!stack)
        stack = lend(AMPLE);
    memset(stack, PAINT, AMPLE);
    run_on(stack, AMPLE, call);
    const uint8_t *lowest = stack;
    while (*lowest == PAINT)
        lowest++;
    return (size_t)(called_from - lowest);
}

/* On a stack of just what is documented, up to whole pages, and one page for the thread itself. Below it is a page that may not be touched. */
static void run_tight(struct call *call, size_t bytes)
{
    const size_t page = (size_t)sysconf(_SC_PAGESIZE), least = (size_t)sysconf(_SC_THREAD_STACK_MIN);
    size_t size = (bytes + page - 1) / page * page + page;
    size = size < least ? least : size;
    const size_t lent = areas_count;
    areas_side = IN_FRONT;
    run_on(lend(size), size, call);
    areas_side = BEHIND;
    areas_count = lent;
    munmap(areas_lent[lent].base, areas_lent[lent].size);
}

static void try_call(struct call *call, int is_tight)
{
    const int is_large = image->nodes > FEW || image->edges > FEW;
    if (is_tight) {
        run_tight(call, call->documented[is_large]);
        return;
    }
    const size_t bytes = measure(call);
    if (bytes > call->measured[is_large])
        call->measured[is_large] = bytes;
    call->unrefused += answer[0] == POZHDAGHI_DONE || call->make == lookup || call->make == window_report;
}

/* Every call in the order of the table, in which the database is made before it is read. */
static void try_calls(int is_tight)
{
    for (int i = 0; i < CALLS; i++)
        try_call(&calls[i], is_tight);
}

static void row_of_edges(uint32_t first, uint32_t length)
{
    edges_len = length;
    for (uint32_t i = 0; i < length; i++)
        edges[i] = first + i;
}

/* The old words of before order 6, with every record used. */
static void fill_old(void)
{
    old[0] = RECORDS;
    old[1] = POZHDAGHI_MOST_NODES;
    old[2] = 1;
    for (uint32_t i = 0; i < RECORDS; i++) {
        uint32_t *record = old + POZHDAGHI_DATABASE_HEAD + i * POZHDAGHI_FORMER_RECORD_WORDS;
        record[0] = record[1] = record[2] = 1;
        record[3] = POZHDAGHI_MOST_EDGES;
    }
}

/* The longest path: so many scopes in a row behind reference 2, a definition at its end. */
static void longest_path(struct image *to, int version)
{
    begin(to, version, FILES);
    add_symbol(to, POZHDAGHI_NODE_PUSH, 0, 7, 0, 1);
    for (int i = 1; i < POZHDAGHI_MOST_EDGES; i++)
        add_scope(to, 0, 0);
    add_symbol(to, POZHDAGHI_NODE_POP, 0, 7, 0, 1);
}

static void longest_row(struct image *to)
{
    for (uint32_t i = 0; i < POZHDAGHI_MOST_EDGES; i++)
        add_edge(to, 2 + i, 3 + i, 0);
}

/* Reference 2 and definition 3 with so many edges between them. */
static void fan(struct image *to, uint32_t paths)
{
    begin(to, NARROW, FILES);
    add_symbol(to, POZHDAGHI_NODE_PUSH, 0, 7, 0, 1);
    add_symbol(to, POZHDAGHI_NODE_POP, 0, 7, 0, 1);
    for (uint32_t i = 0; i < paths; i++)
        add_edge(to, 2, 3, i);
}

/* The longest path in a graph that has as many nodes and edges as there may be and, in version 2, as many bytes: 1,792 nodes with symbols, 249 scopes and 5 that
 * drop scopes. The further edges hang together with nothing. */
static void largest(struct image *to, int version)
{
    enum { SYMBOLS = 1792, DROPS = 5 };
    longest_path(to, version);
    const uint32_t apart = to->nodes;
    for (int i = 2; i < SYMBOLS; i++)
        add_symbol(to, POZHDAGHI_NODE_POP, 0, 9, 0, 0);
    for (int i = 0; i < DROPS; i++)
        add_drop(to, 0);
    while (to->nodes < POZHDAGHI_MOST_NODES)
        add_scope(to, 0, 0);
    longest_row(to);
    while (to->edges < POZHDAGHI_MOST_GRAPH_EDGES)
        add_edge(to, apart, apart + 1, 0);
}

/* A scoped reference that jumps, over an edge from root to jump and one from root to root, to a definition behind its scope. */
static void jumps(struct image *to)
{
    begin(to, NARROW, FILES);
    add_symbol(to, POZHDAGHI_NODE_PUSH_SCOPED, 0, 7, 3, 1);
    add_scope(to, 0, 1);
    add_symbol(to, POZHDAGHI_NODE_POP_SCOPED, 0, 7, 0, 0);
    add_symbol(to, POZHDAGHI_NODE_PUSH, 0, 8, 0, 0);
    add_symbol(to, POZHDAGHI_NODE_POP, 0, 8, 0, 1);
    add_edge(to, 2, 4, 0);
    add_edge(to, 4, 5, 0);
    add_edge(to, 5, 0, 0);
    add_edge(to, 0, 1, 0);
    add_edge(to, 0, 0, 0);
    add_edge(to, 3, 6, 0);
}

/* Every image, with a definition and a list of edges to replay. */
static void every_image(int is_tight)
{
    static const struct {
        uint32_t definition, edges;
    } ASK[] = {{0, 0}, {4, 2}, {3, 1}, {65, 63}, {6, 4}, {65, 63}, {65, 63}, {65, 63}};
    for (size_t i = 0; i < sizeof ASK / sizeof *ASK; i++) {
        image = &images[i];
        definition = ASK[i].definition;
        row_of_edges(0, ASK[i].edges);
        try_calls(is_tight);
        row_of_edges(1, ASK[i].edges);
        try_calls(is_tight);
    }
}

/* With every file shown and with one hidden, in both orders. */
static void every_way(int is_tight)
{
    visible[HIDDEN] = 1;
    asked[POZHDAGHI_ASKED_ORDER] = POZHDAGHI_BREADTH_FIRST;
    every_image(is_tight);
    visible[HIDDEN] = 0;
    asked[POZHDAGHI_ASKED_ORDER] = POZHDAGHI_DEPTH_FIRST;
    every_image(is_tight);
}

static void draw_images(void)
{
    begin(&images[0], NARROW, 0);
    graph_a(&images[1]);
    fan(&images[2], 60);
    longest_path(&images[3], NARROW);
    longest_row(&images[3]);
    jumps(&images[4]);
    longest_path(&images[5], WIDE);
    longest_row(&images[5]);
    largest(&images[6], NARROW);
    largest(&images[7], WIDE);
}

/* Whether a call took more than is documented, or was never tried unrefused. */
static int is_wrong(const struct call *call)
{
    const int is_more = call->measured[0] > call->documented[0] || call->measured[1] > call->documented[1];
    if (is_more)
        printf("%s takes %zu and %zu bytes, documented are %zu and %zu\n", call->name, call->measured[0], call->measured[1], call->documented[0],
               call->documented[1]);
    if (!call->unrefused)
        printf("%s was always refused\n", call->name);
    return is_more || !call->unrefused;
}

static int judge(int with_figures)
{
    int wrong = 0;
    for (int i = 0; i < CALLS; i++) {
        if (with_figures)
            printf("%-20s %8zu %8zu, %u times unrefused\n", calls[i].name, calls[i].measured[0], calls[i].measured[1], calls[i].unrefused);
        wrong += is_wrong(&calls[i]);
    }
    return wrong;
}

int main(int count, char **arguments)
{
    memset(visible, 1, sizeof visible);
    fill_old();
    draw_images();
    every_way(0);
    int wrong = judge(count > 1 && !strcmp(arguments[1], "figures"));
    if (images[7].size != POZHDAGHI_LONGEST_IMAGE) {
        printf("the largest image has %zu bytes\n", images[7].size);
        wrong++;
    }
    if (!wrong)
        every_way(1);
    printf("stack: %s\n", wrong ? "more than is documented" : "no more than is documented, and enough");
    return wrong != 0;
}
