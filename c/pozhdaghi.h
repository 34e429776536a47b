/* Resolution of cash-flow names: the calls of libpozhdaghi.a for C11 and C++17.
 *
 * docs/FORMAT.md has every byte, word and refusal, docs/GUIDE.md one bond filed, resolved and refiled. The archive is for x86-64. It keeps no state, allocates
 * nothing and calls nothing but memcpy and memset.
 *
 * What holds of every call:
 *
 * - An area is a pointer and a length. A length counts elements, not bytes. Where it is 0 the pointer is not followed; it may be any but NULL.
 * - Areas are lent for the call alone. One that a call writes, marked POZHDAGHI_RESTRICT, must overlap no other area of that call. Areas that are only read may
 *   overlap each other.
 * - No call returns a value. The answer is written into `answer`: 0 and values, or the number of a refusal and its values; zeros behind. POZHDAGHI_ANSWER
 *   numbers hold every answer but that of `tally`; of fewer, those that fit are written.
 * - What `work`, `result`, `list`, `path`, `area` and `answer` held before has no influence. After the call every element of them is fixed. `work` is zero
 *   then, refused or not. After a refusal `result`, `list`, `path`, `area` and the new words of a conversion are zero, and `words` are not altered.
 * - A call takes up to 226 KB of the caller's stack as measured; docs/FORMAT.md has a table. Give a thread 512 KB. Calls on different areas may run on any
 *   threads at once. While a call writes an area, no other call may read or write it.
 *
 * "Image refusals" below are 1 to 5, in the order that docs/FORMAT.md gives; they come before all others.
 */
#ifndef POZHDAGHI_H
#define POZHDAGHI_H

#include <stddef.h>
#include <stdint.h>

/* C++ has no `restrict`; where its compiler has none of its own, the rule on overlap holds all the same. */
#if !defined(__cplusplus)
#define POZHDAGHI_RESTRICT restrict
#elif defined(__GNUC__) || defined(_MSC_VER)
#define POZHDAGHI_RESTRICT __restrict
#else
#define POZHDAGHI_RESTRICT
#endif

#ifdef __cplusplus
extern "C" {
#endif

/* Sizes. */

/* How many edges a path may have. */
#define POZHDAGHI_MOST_EDGES 63

/* Words of a waiting slot and of a result slot: the edge count and the edges. */
#define POZHDAGHI_SLOT_WORDS (1 + POZHDAGHI_MOST_EDGES)

/* Words in front of a database's records; words of a record: owner, start, end, edge count and edges; the most records that are used. */
#define POZHDAGHI_DATABASE_HEAD 3
#define POZHDAGHI_RECORD_WORDS (4 + POZHDAGHI_MOST_EDGES)
#define POZHDAGHI_MOST_RECORDS 4096

/* Words of the list of `compact` for each live record: its old and its new number. */
#define POZHDAGHI_PAIR_WORDS 2

/* Words of a record when a path might have 127 edges: what `convert` reads. */
#define POZHDAGHI_FORMER_RECORD_WORDS 131

/* The first word of a record of the alias set. A file's is its number + 1; a dead record's is 0. */
#define POZHDAGHI_ALIASES 65535

/* Bytes of the longest image; any rewritten image fits into as many. */
#define POZHDAGHI_LONGEST_IMAGE 65536

/* What a graph has at most. */
#define POZHDAGHI_MOST_FILES 256
#define POZHDAGHI_MOST_NODES 2048
#define POZHDAGHI_MOST_GRAPH_EDGES 4096

/* How many expansions a search or a replacement may make. */
#define POZHDAGHI_MOST_EXPANSIONS 16777216

/* Bytes of an ISIN, and of a row of a directory: the ISIN, then the tranche, the leg and the reference node, each of 16 bits, big-endian. */
#define POZHDAGHI_ISIN_BYTES 12
#define POZHDAGHI_ROW_BYTES (POZHDAGHI_ISIN_BYTES + 6)

/* How many of the last searches a window is over; its words: the place of the next entry, and the entries. */
#define POZHDAGHI_WINDOW_ENTRIES 1024
#define POZHDAGHI_WINDOW_WORDS (1 + POZHDAGHI_WINDOW_ENTRIES)

/* Words that any replayed path fits into. */
#define POZHDAGHI_PATH_WORDS 4672

/* Numbers of the longest answer but that of `tally`, and numbers that are asked. */
#define POZHDAGHI_ANSWER 12
#define POZHDAGHI_ASKED 7

/* How many lengths a path may have, none among them, and the numbers of the answer of `tally`: 0 and one for each length. */
#define POZHDAGHI_LENGTHS (1 + POZHDAGHI_MOST_EDGES)
#define POZHDAGHI_TALLY (1 + POZHDAGHI_LENGTHS)

/* What is asked: where each number stands in `asked`. Missing ones at the end count as 0, further ones are not read; seven zeros are breadth-first without
 * limits. A limit is set where its first number is not 0; the number behind it is then its value. */
enum pozhdaghi_asked {
    POZHDAGHI_ASKED_ORDER = 0,
    POZHDAGHI_ASKED_LENGTH_LIMITED = 1,
    POZHDAGHI_ASKED_LENGTH = 2,
    POZHDAGHI_ASKED_PATHS_LIMITED = 3,
    POZHDAGHI_ASKED_PATHS = 4,
    POZHDAGHI_ASKED_COMPLETE_LIMITED = 5,
    POZHDAGHI_ASKED_COMPLETE = 6
};

/* The order in which waiting paths are taken. */
enum pozhdaghi_order {
    POZHDAGHI_BREADTH_FIRST = 0,
    POZHDAGHI_DEPTH_FIRST = 1
};

/* What a search answers: where each number stands in `answer`. A flag is 1 where its limit turned something away. The waiting figure is the greatest number of
 * paths that waited together: with as many slots the same call gives the same answer, with one fewer it is 31. */
enum pozhdaghi_found {
    POZHDAGHI_FOUND_PATHS = 1,
    POZHDAGHI_FOUND_EXPANDED = 2,
    POZHDAGHI_FOUND_COMPLETE = 3,
    POZHDAGHI_FOUND_REJECTED = 4,
    POZHDAGHI_FOUND_CYCLES = 5,
    POZHDAGHI_FOUND_LENGTH_FLAG = 6,
    POZHDAGHI_FOUND_PATHS_FLAG = 7,
    POZHDAGHI_FOUND_COMPLETE_FLAG = 8,
    POZHDAGHI_FOUND_WAITED = 9
};

/* What `pozhdaghi_resolve_flow` answers behind these: how many definitions the returned paths end at, and the one, or 0. */
enum pozhdaghi_flow {
    POZHDAGHI_FLOW_DEFINITIONS = 10,
    POZHDAGHI_FLOW_DEFINITION = 11
};
enum pozhdaghi_definitions {
    POZHDAGHI_DEFINITIONS_NONE = 0,
    POZHDAGHI_DEFINITIONS_ONE = 1,
    POZHDAGHI_DEFINITIONS_SEVERAL = 2
};

/* What a replacement answers, likewise. */
enum pozhdaghi_replaced {
    POZHDAGHI_REPLACED_EXPANDED = 1,
    POZHDAGHI_REPLACED_FOUND = 2,
    POZHDAGHI_REPLACED_CYCLES = 3,
    POZHDAGHI_REPLACED_LENGTH_FLAG = 4,
    POZHDAGHI_REPLACED_PATHS_FLAG = 5,
    POZHDAGHI_REPLACED_WAITED = 6
};

/* What `pozhdaghi_node` answers, likewise. The flag says that a scope is exported, a push a reference, a pop a definition. */
enum pozhdaghi_node_fields {
    POZHDAGHI_FIELD_KIND = 1,
    POZHDAGHI_FIELD_FILE = 2,
    POZHDAGHI_FIELD_SYMBOL = 3,
    POZHDAGHI_FIELD_SCOPE = 4,
    POZHDAGHI_FIELD_FLAG = 5
};

/* Kinds of node records in an image. */
enum pozhdaghi_node_kind {
    POZHDAGHI_NODE_REMOVED = 0,
    POZHDAGHI_NODE_ROOT = 1,
    POZHDAGHI_NODE_JUMP_TO_SCOPE = 2,
    POZHDAGHI_NODE_SCOPE = 3,
    POZHDAGHI_NODE_PUSH = 4,
    POZHDAGHI_NODE_POP = 5,
    POZHDAGHI_NODE_PUSH_SCOPED = 6,
    POZHDAGHI_NODE_POP_SCOPED = 7,
    POZHDAGHI_NODE_DROP_SCOPES = 8
};

/* Kinds of edge records. */
enum pozhdaghi_edge_kind {
    POZHDAGHI_EDGE_REMOVED = 0,
    POZHDAGHI_EDGE_LIVE = 1
};

/* The first number of an answer. Behind each refusal: the values that follow it. */
enum pozhdaghi_refusal {
    POZHDAGHI_DONE = 0,
    POZHDAGHI_REFUSED_VERSION = 1,
    POZHDAGHI_REFUSED_LENGTH = 2,
    POZHDAGHI_REFUSED_COUNTS = 3,
    POZHDAGHI_REFUSED_RECORD = 4,                      /* the offset of the record in the image */
    POZHDAGHI_REFUSED_REFERENCE = 5,                   /* the offset of the record in the image */
    POZHDAGHI_REFUSED_UNKNOWN_NODE = 10,               /* the node */
    POZHDAGHI_REFUSED_NOT_REFERENCE = 11,              /* the node */
    POZHDAGHI_REFUSED_UNKNOWN_EDGE = 12,               /* the edge */
    POZHDAGHI_REFUSED_INCORRECT_SOURCE = 13,           /* the path's end, the edge's source */
    POZHDAGHI_REFUSED_EMPTY_SYMBOL_STACK = 14,         /* the node */
    POZHDAGHI_REFUSED_INCORRECT_POPPED_SYMBOL = 15,    /* the node */
    POZHDAGHI_REFUSED_UNEXPECTED_ATTACHED_SCOPES = 16, /* the node */
    POZHDAGHI_REFUSED_MISSING_ATTACHED_SCOPES = 17,    /* the node */
    POZHDAGHI_REFUSED_EMPTY_SCOPE_STACK = 18,          /* the node */
    POZHDAGHI_REFUSED_UNKNOWN_ATTACHED_SCOPE = 19,     /* the node; no accepted image has it */
    POZHDAGHI_REFUSED_MULTIPLE_EDGES = 20,             /* the node */
    POZHDAGHI_REFUSED_UNKNOWN_FILE = 21,               /* the file */
    POZHDAGHI_REFUSED_TOO_LONG = 30,
    POZHDAGHI_REFUSED_NO_WAITING_SLOT = 31,
    POZHDAGHI_REFUSED_NO_RESULT_SLOT = 32,             /* also a rewrite's area, and the list of `compact`, that are too short */
    POZHDAGHI_REFUSED_FULL = 33,
    POZHDAGHI_REFUSED_OUTGROWN = 34,
    POZHDAGHI_REFUSED_MALFORMED = 35,
    POZHDAGHI_REFUSED_TOO_MANY_EXPANSIONS = 36,
    POZHDAGHI_REFUSED_NOT_DEFINITION = 37,             /* the node */
    POZHDAGHI_REFUSED_WIDE_SYMBOL = 38,                /* the offset of the record in the given image */
    POZHDAGHI_REFUSED_TOO_LONG_TO_CONVERT = 39,
    POZHDAGHI_REFUSED_TOO_GREAT = 40,
    POZHDAGHI_REFUSED_MALFORMED_ISIN = 41,
    POZHDAGHI_REFUSED_DISORDERED = 42,
    POZHDAGHI_REFUSED_UNKNOWN_KEY = 43
};

/* The name of an answer's first number, as docs/FORMAT.md has it, and a line on what a caller does about it. Both take every number and never return NULL: one
 * that is no refusal is "unknown", and 0 is "Done". The strings are constant and need not be freed. */
const char *pozhdaghi_refusal_name(uint64_t number);
const char *pozhdaghi_refusal_text(uint64_t number);

/* Images. */

/* Checks an image. Answers 0, files, nodes, edges. Refuses: image refusals. */
void pozhdaghi_check(const uint8_t *image, size_t image_len, uint64_t *POZHDAGHI_RESTRICT answer, size_t answer_len);

/* Rewrites an image of version 1 in version 2, with symbols of eight bytes. Answers 0 and how many bytes the rewritten image has. `area` holds it then, zeros
 * behind. Refuses: image refusals, where version 2 is 1; 2 where the result would have more than POZHDAGHI_LONGEST_IMAGE bytes; 32 where `area` is too short. */
void pozhdaghi_widen(const uint8_t *image, size_t image_len, uint8_t *POZHDAGHI_RESTRICT area, size_t area_len, uint64_t *POZHDAGHI_RESTRICT answer,
                     size_t answer_len);

/* Rewrites an image of version 2 in version 1, likewise; each undoes the other byte for byte. Refuses: image refusals, where version 1 is 1; 38 and the offset
 * of the first record whose symbol does not fit 32 bits; 32. */
void pozhdaghi_narrow(const uint8_t *image, size_t image_len, uint8_t *POZHDAGHI_RESTRICT area, size_t area_len, uint64_t *POZHDAGHI_RESTRICT answer,
                      size_t answer_len);

/* What stands in an image, as far as files are visible: a node or an edge of a hidden file is as one that is not there. */

/* The references of the visible files. Answers 0 and how many they are. The first words of `result` are their numbers, ascending, zeros behind. Refuses: image refusals;
 * 32 where `result` has fewer words than there are references. */
void pozhdaghi_references(const uint8_t *image, size_t image_len, const uint8_t *visible, size_t visible_len, uint32_t *POZHDAGHI_RESTRICT result,
                          size_t result_len, uint64_t *POZHDAGHI_RESTRICT answer, size_t answer_len);

/* A node. Answers 0 and the five numbers of enum pozhdaghi_node_fields, each 0 where the kind has none. Refuses: image refusals; 10 and the node where it is
 * unknown, removed or hidden. */
void pozhdaghi_node(const uint8_t *image, size_t image_len, const uint8_t *visible, size_t visible_len, uint32_t node, uint64_t *POZHDAGHI_RESTRICT answer,
                    size_t answer_len);

/* An edge. Answers 0, source, target, precedence; the precedence is 32 bits in two's complement, as in an image: (int32_t)(uint32_t)answer[3]. Refuses: image refusals; 12 and
 * the edge where it is unknown, removed or hidden. */
void pozhdaghi_edge(const uint8_t *image, size_t image_len, const uint8_t *visible, size_t visible_len, uint32_t edge, uint64_t *POZHDAGHI_RESTRICT answer,
                    size_t answer_len);

/* The outgoing edges of a node, in the order in which searches try them. Answers 0 and how many they are. The first words of `result` are their numbers, zeros
 * behind. Refuses: image refusals; 10 and the node; 32 where `result` has fewer words than there are edges. */
void pozhdaghi_outgoing(const uint8_t *image, size_t image_len, const uint8_t *visible, size_t visible_len, uint32_t node,
                        uint32_t *POZHDAGHI_RESTRICT result, size_t result_len, uint64_t *POZHDAGHI_RESTRICT answer, size_t answer_len);

/* Paths. They take no set of visible files, so they show records of any file. */

/* Follows `edges` from a reference. Answers 0. `path` holds the end, the steps, the symbol stack and the scope stack (docs/FORMAT.md, "Path words"), as many
 * words as fit, zeros behind; POZHDAGHI_PATH_WORDS hold any path. Refuses: image refusals; 10, 11 for the reference; then for each edge 30, 12, 13, 14 to 18. */
void pozhdaghi_replay(const uint8_t *image, size_t image_len, uint32_t reference, const uint32_t *edges, size_t edges_len, uint32_t *POZHDAGHI_RESTRICT path,
                      size_t path_len, uint64_t *POZHDAGHI_RESTRICT answer, size_t answer_len);

/* Whether the path ends at a definition with both stacks empty. Answers 0, then 1 for yes or 0 for no. Refuses as `replay`. */
void pozhdaghi_is_complete(const uint8_t *image, size_t image_len, uint32_t reference, const uint32_t *edges, size_t edges_len,
                           uint64_t *POZHDAGHI_RESTRICT answer, size_t answer_len);

/* Whether the left path shadows the right one: up to some step their sources are the same, and there left has the greater precedence. Answers 0, then 1 or 0.
 * Refuses as `replay`, the left path before the right one. */
void pozhdaghi_shadows(const uint8_t *image, size_t image_len, uint32_t left, const uint32_t *left_edges, size_t left_edges_len, uint32_t right,
                       const uint32_t *right_edges, size_t right_edges_len, uint64_t *POZHDAGHI_RESTRICT answer, size_t answer_len);

/* Searches.
 *
 * `visible` is the set of files that a search may show: file f is visible where byte f is there and is not 0. Bytes from the number of files on change nothing;
 * a set of POZHDAGHI_MOST_FILES bytes of 1 shows every file, an empty one none. What belongs to a hidden file is passed over as if it were removed, and is not
 * counted; a node of a hidden file is 10, whatever its kind. Edges without a file and the alias set are visible to all.
 *
 * Each but `find_name` and `tally` answers 0 and the nine numbers of enum pozhdaghi_found. `result` has a path in each of its first slots of
 * POZHDAGHI_SLOT_WORDS words: the edge count, then the edges, zeros behind. The plain call returns the recorded paths that no other recorded path shadows, the _recorded call all of them. */

/* From a reference over the edges of the graph. Refuses: image refusals; 10, 11; 31 where `work` has too few slots; 36; 30; 32 where `result` has too few. */
void pozhdaghi_direct(const uint8_t *image, size_t image_len, const uint8_t *visible, size_t visible_len, uint32_t reference, const uint64_t *asked,
                      size_t asked_len, uint32_t *POZHDAGHI_RESTRICT work, size_t work_len, uint32_t *POZHDAGHI_RESTRICT result, size_t result_len,
                      uint64_t *POZHDAGHI_RESTRICT answer, size_t answer_len);
void pozhdaghi_direct_recorded(const uint8_t *image, size_t image_len, const uint8_t *visible, size_t visible_len, uint32_t reference, const uint64_t *asked,
                               size_t asked_len, uint32_t *POZHDAGHI_RESTRICT work, size_t work_len, uint32_t *POZHDAGHI_RESTRICT result, size_t result_len,
                               uint64_t *POZHDAGHI_RESTRICT answer, size_t answer_len);

/* The same where each node has one edge that can be appended; no order is read and nothing waits. Refuses: image refusals; 10, 11; 36; 30; 20 and the node
 * where a second edge can be appended; 32. */
void pozhdaghi_linear(const uint8_t *image, size_t image_len, const uint8_t *visible, size_t visible_len, uint32_t reference, const uint64_t *asked,
                      size_t asked_len, uint32_t *POZHDAGHI_RESTRICT result, size_t result_len, uint64_t *POZHDAGHI_RESTRICT answer, size_t answer_len);
void pozhdaghi_linear_recorded(const uint8_t *image, size_t image_len, const uint8_t *visible, size_t visible_len, uint32_t reference, const uint64_t *asked,
                               size_t asked_len, uint32_t *POZHDAGHI_RESTRICT result, size_t result_len, uint64_t *POZHDAGHI_RESTRICT answer,
                               size_t answer_len);

/* A name for a definition: the first reference, by number, from which a recorded path ends at `node`. Answers 0, 1 and the reference, whose path is in the first
 * slot of `result`; or 0, 0 where there is none. Of `asked` only the limit on length is read. Refuses: image refusals; 10; 37 where the node is no definition;
 * then as `direct` for each reference in turn. */
void pozhdaghi_find_name(const uint8_t *image, size_t image_len, const uint8_t *visible, size_t visible_len, uint32_t node, const uint64_t *asked,
                         size_t asked_len, uint32_t *POZHDAGHI_RESTRICT work, size_t work_len, uint32_t *POZHDAGHI_RESTRICT result, size_t result_len,
                         uint64_t *POZHDAGHI_RESTRICT answer, size_t answer_len);

/* How far a name fans out: for each length from 0 to 63, how many lists of so many distinct edges lead from a reference to a definition with both stacks empty.
 * Answers 0 and POZHDAGHI_LENGTHS numbers; that of length k is answer[1 + k], and that of length 0 is 0. No path is kept and there is no limit. The sum is the
 * complete count of `direct` without limits, in either order. Refuses as `direct` does depth-first and without limits, but never 32. */
void pozhdaghi_tally(const uint8_t *image, size_t image_len, const uint8_t *visible, size_t visible_len, uint32_t reference, uint32_t *POZHDAGHI_RESTRICT work,
                     size_t work_len, uint64_t *POZHDAGHI_RESTRICT answer, size_t answer_len);

/* A cash flow of a directory: `rows` are of POZHDAGHI_ROW_BYTES bytes, without a header, each key (ISIN, tranche, leg) above the one before. Searches as `direct`
 * does from the reference of the row that has the key. Answers what `direct` answers, then an enum pozhdaghi_definitions at answer[POZHDAGHI_FLOW_DEFINITIONS] and
 * the one definition, or 0, behind it. Every row is looked at. Refuses: image refusals; 41 where the ISIN is none, 42 where rows do not ascend or bytes are left
 * over, 43 where no row has the key; then as `direct`. */
void pozhdaghi_resolve_flow(const uint8_t *image, size_t image_len, const uint8_t *visible, size_t visible_len, const uint8_t *rows, size_t rows_len,
                            const uint8_t *isin, size_t isin_len, uint32_t tranche, uint32_t leg, const uint64_t *asked, size_t asked_len,
                            uint32_t *POZHDAGHI_RESTRICT work, size_t work_len, uint32_t *POZHDAGHI_RESTRICT result, size_t result_len,
                            uint64_t *POZHDAGHI_RESTRICT answer, size_t answer_len);

/* From a reference over the partial paths in `words`, which are only read. The database must be filed on this image: a file that has changed since and was not
 * replaced gives wrong paths, and nothing tells so (docs/GUIDE.md, "Numbers must stay"). Refuses: image refusals; 35, 34; then as `direct`, and 12 and the edge
 * where a partial path has an edge that is unknown or hidden. */
void pozhdaghi_stitched(const uint8_t *image, size_t image_len, const uint8_t *visible, size_t visible_len, const uint32_t *words, size_t words_len,
                        uint32_t reference, const uint64_t *asked, size_t asked_len, uint32_t *POZHDAGHI_RESTRICT work, size_t work_len,
                        uint32_t *POZHDAGHI_RESTRICT result, size_t result_len, uint64_t *POZHDAGHI_RESTRICT answer, size_t answer_len);
void pozhdaghi_stitched_recorded(const uint8_t *image, size_t image_len, const uint8_t *visible, size_t visible_len, const uint32_t *words, size_t words_len,
                                 uint32_t reference, const uint64_t *asked, size_t asked_len, uint32_t *POZHDAGHI_RESTRICT work, size_t work_len,
                                 uint32_t *POZHDAGHI_RESTRICT result, size_t result_len, uint64_t *POZHDAGHI_RESTRICT answer, size_t answer_len);

/* The database. Lend POZHDAGHI_DATABASE_HEAD words and POZHDAGHI_RECORD_WORDS for each record. A refused call alters none of `words`. */

/* Makes a fresh database of the words: no record, the image's nodes and files, zeros. Answers 0. Refuses: image refusals; 35 for under 3 words. */
void pozhdaghi_fresh(const uint8_t *image, size_t image_len, uint32_t *POZHDAGHI_RESTRICT words, size_t words_len, uint64_t *POZHDAGHI_RESTRICT answer,
                     size_t answer_len);

/* Computes the partial paths of a file anew: its old records die, the new ones are written behind the used ones. Answers 0 and the six numbers of enum
 * pozhdaghi_replaced. No limit on complete paths is read. Refuses: image refusals; 35, 34; 21 and the file; 31; 36; 30; last 33, at which `compact` and this
 * call again. */
void pozhdaghi_replace_file(const uint8_t *image, size_t image_len, uint32_t file, const uint64_t *asked, size_t asked_len, uint32_t *POZHDAGHI_RESTRICT work,
                            size_t work_len, uint32_t *POZHDAGHI_RESTRICT words, size_t words_len, uint64_t *POZHDAGHI_RESTRICT answer, size_t answer_len);

/* The same for the alias set: the partial paths over edges from root to root and from root to jump, which belong to no file. There is no 21. */
void pozhdaghi_replace_aliases(const uint8_t *image, size_t image_len, const uint64_t *asked, size_t asked_len, uint32_t *POZHDAGHI_RESTRICT work,
                               size_t work_len, uint32_t *POZHDAGHI_RESTRICT words, size_t words_len, uint64_t *POZHDAGHI_RESTRICT answer, size_t answer_len);

/* The edges of a partial path. Answers where they begin in `words` and how many they are; 0, 0 where the number is dead or not used, or the words are no
 * database. There is no refusal, so the first number is no refusal's. */
void pozhdaghi_lookup(const uint32_t *words, size_t words_len, uint32_t number, uint64_t *POZHDAGHI_RESTRICT answer, size_t answer_len);

/* Moves the live records down in their order and drops the dead ones. Answers 0 and how many are live. `list` holds the old and the new number of each,
 * ascending, zeros behind. Stitched searches answer the same before and after; numbers that were kept lapse. Refuses: 35; 32 where `list` has under
 * POZHDAGHI_PAIR_WORDS words for each live record. */
void pozhdaghi_compact(uint32_t *POZHDAGHI_RESTRICT words, size_t words_len, uint32_t *POZHDAGHI_RESTRICT list, size_t list_len,
                       uint64_t *POZHDAGHI_RESTRICT answer, size_t answer_len);

/* Writes a database of before, with records of POZHDAGHI_FORMER_RECORD_WORDS, as one of now; each live path keeps its number. Answers 0. Nothing in the words
 * tells the two apart: convert each once. Refuses: 35 for the old words; 33 where the new ones have too few records; 39 where a live path has more than
 * POZHDAGHI_MOST_EDGES edges. (The library calls the second area `new`, which is no name in C++.) */
void pozhdaghi_convert(const uint32_t *old, size_t old_len, uint32_t *POZHDAGHI_RESTRICT new_words, size_t new_words_len, uint64_t *POZHDAGHI_RESTRICT answer,
                       size_t answer_len);

/* The window over the expanded counts of the last POZHDAGHI_WINDOW_ENTRIES searches. Lend POZHDAGHI_WINDOW_WORDS words: words behind them are neither read nor
 * written, and of k + 1 words, where these are fewer, the window is over the last k entries. Any words are a window, so there is no 35. It runs without end. */

/* Begins a window, empty. There is no answer. */
void pozhdaghi_window_begin(uint32_t *POZHDAGHI_RESTRICT words, size_t words_len);

/* Enters a count, such as answer[POZHDAGHI_FOUND_EXPANDED] of a search, in the place of the oldest. Answers 0. Refuses: 40 above POZHDAGHI_MOST_EXPANSIONS, with
 * no word altered. */
void pozhdaghi_window_enter(uint32_t *POZHDAGHI_RESTRICT words, size_t words_len, uint64_t count, uint64_t *POZHDAGHI_RESTRICT answer, size_t answer_len);

/* Answers the sum of the entries and the greatest of them; 0, 0 where none was entered. There is no refusal, so the first number is no refusal's. */
void pozhdaghi_window_report(const uint32_t *words, size_t words_len, uint64_t *POZHDAGHI_RESTRICT answer, size_t answer_len);

#ifdef __cplusplus
}
#endif

#endif
