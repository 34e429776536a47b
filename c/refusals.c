/* Names and advice for the first number of an answer: docs/FORMAT.md, "Refusals". */
#include "pozhdaghi.h"

struct refusal {
    uint64_t number;
    const char *name;
    const char *text;
};

static const char NO_PATH[] = "the list is no path; take whole returned paths, in their order";

static const struct refusal REFUSALS[] = {
    {POZHDAGHI_DONE, "Done", "not refused"},
    {POZHDAGHI_REFUSED_VERSION, "Version", "write version 1 or 2; at a rewrite the image is in the wanted version already"},
    {POZHDAGHI_REFUSED_LENGTH, "Length", "the image is cut, miscounted or too long: mend its writer or the transport; it cannot be widened if it has no room"},
    {POZHDAGHI_REFUSED_COUNTS, "Counts", "split the graph: 256 files, 2,048 nodes, 4,096 edges at most"},
    {POZHDAGHI_REFUSED_RECORD, "Record", "a record has a wrong kind, flag or file: mend the writer at that offset"},
    {POZHDAGHI_REFUSED_REFERENCE, "Reference", "an edge or a scoped push names a node that it may not: mend the writer at that offset"},
    {POZHDAGHI_REFUSED_UNKNOWN_NODE, "UnknownNode", "no live, visible node has this number: take it from the image that is lent"},
    {POZHDAGHI_REFUSED_NOT_REFERENCE, "NotReference", "search from references"},
    {POZHDAGHI_REFUSED_UNKNOWN_EDGE, "UnknownEdge", "no live, visible edge has this number; at a stitched search replace every file"},
    {POZHDAGHI_REFUSED_INCORRECT_SOURCE, "IncorrectSource", "the edge does not begin where the path ends; take whole returned paths, in their order"},
    {POZHDAGHI_REFUSED_EMPTY_SYMBOL_STACK, "EmptySymbolStack", NO_PATH},
    {POZHDAGHI_REFUSED_INCORRECT_POPPED_SYMBOL, "IncorrectPoppedSymbol", NO_PATH},
    {POZHDAGHI_REFUSED_UNEXPECTED_ATTACHED_SCOPES, "UnexpectedAttachedScopes", NO_PATH},
    {POZHDAGHI_REFUSED_MISSING_ATTACHED_SCOPES, "MissingAttachedScopes", NO_PATH},
    {POZHDAGHI_REFUSED_EMPTY_SCOPE_STACK, "EmptyScopeStack", NO_PATH},
    {POZHDAGHI_REFUSED_UNKNOWN_ATTACHED_SCOPE, "UnknownAttachedScope", "no accepted image has it"},
    {POZHDAGHI_REFUSED_MULTIPLE_EDGES, "MultipleEdges", "the node has a second edge to go on: search directly"},
    {POZHDAGHI_REFUSED_UNKNOWN_FILE, "UnknownFile", "the image has no file of this number: take it from the image that is lent"},
    {POZHDAGHI_REFUSED_TOO_LONG, "TooLong", "a path needs a 64th edge: set a limit on length, or shorten the graph"},
    {POZHDAGHI_REFUSED_NO_WAITING_SLOT, "NoWaitingSlot", "lend more work slots and call again; the waiting figure says how many"},
    {POZHDAGHI_REFUSED_NO_RESULT_SLOT, "NoResultSlot", "lend more result slots, more bytes for a rewrite or a longer list, and call again"},
    {POZHDAGHI_REFUSED_FULL, "Full", "compact and replace again; directly after a compaction, and at a conversion, lend more words"},
    {POZHDAGHI_REFUSED_OUTGROWN, "Outgrown", "the image has fewer nodes or files than the database: make it fresh and replace every file"},
    {POZHDAGHI_REFUSED_MALFORMED, "Malformed", "the words are no database: lend the whole area, convert an old one, or make it fresh"},
    {POZHDAGHI_REFUSED_TOO_MANY_EXPANSIONS, "TooManyExpansions", "set limits, or look for the fan-out in the graph"},
    {POZHDAGHI_REFUSED_NOT_DEFINITION, "NotDefinition", "ask for the name of a definition"},
    {POZHDAGHI_REFUSED_WIDE_SYMBOL, "WideSymbol", "a symbol does not fit 32 bits: stay with version 2"},
    {POZHDAGHI_REFUSED_TOO_LONG_TO_CONVERT, "TooLongToConvert", "a live path has over 63 edges: make the database fresh and replace every file"},
    {POZHDAGHI_REFUSED_TOO_GREAT, "TooGreat", "no search expands over 16,777,216 paths: enter the expanded count that a search told"},
    {POZHDAGHI_REFUSED_MALFORMED_ISIN, "MalformedIsin", "an ISIN is two capitals, nine capitals or digits and its check digit: mend the key"},
    {POZHDAGHI_REFUSED_DISORDERED, "Disordered", "write rows of 18 bytes, each key above the one before, and nothing behind them"},
    {POZHDAGHI_REFUSED_UNKNOWN_KEY, "UnknownKey", "no row has this ISIN, tranche and leg: refile the directory or mend the key"},
};

static const struct refusal UNKNOWN = {0, "unknown", "no refusal has this number"};

static const struct refusal *find(uint64_t number)
{
    for (size_t i = 0; i < sizeof REFUSALS / sizeof *REFUSALS; i++)
        if (REFUSALS[i].number == number)
            return &REFUSALS[i];
    return &UNKNOWN;
}

const char *pozhdaghi_refusal_name(uint64_t number)
{
    return find(number)->name;
}

const char *pozhdaghi_refusal_text(uint64_t number)
{
    return find(number)->text;
}
