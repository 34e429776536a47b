/* The window over the last searches through the calls for C, up against pages that may not be touched: a million entries against a plain queue; words that no
 * window wrote and areas of other lengths against docs/FORMAT.md, "Window". */
#include "areas.h"
#include "pozhdaghi.h"

enum { ENTRIES = POZHDAGHI_WINDOW_ENTRIES, WORDS = POZHDAGHI_WINDOW_WORDS, CALLS = 1000000, LONGEST = WORDS + 40 };

static uint64_t *answer;
static uint32_t *words;
static size_t words_len;
static uint64_t state = 10;
static int failures;

static void fail(const char *what)
{
    if (failures++ < 10)
        printf("%s: words %zu, answered %llu %llu\n", what, words_len, (unsigned long long)answer[0], (unsigned long long)answer[1]);
}

static void lend_words(size_t length)
{
    take_back();
    words_len = length;
    words = (uint32_t *)lend(length * sizeof *words);
    answer = (uint64_t *)lend(POZHDAGHI_ANSWER * sizeof *answer);
}

static uint64_t draw(void)
{
    state = state * UINT64_C(6364136223846793005) + UINT64_C(1442695040888963407);
    return state >> 20;
}

static void expect_answer(const char *what, uint64_t first, uint64_t second)
{
    if (answer[0] != first || answer[1] != second)
        fail(what);
    for (int i = 2; i < POZHDAGHI_ANSWER; i++)
        if (answer[i])
            fail("a number behind the answer");
}

/* A queue of all that was entered, of which the last ones count; sum and greatest counted out at every 97th call and round the ends of the window. */
static void as_a_queue(void)
{
    static uint32_t entered[CALLS];
    size_t count = 0;
    lend_words(WORDS);
    pozhdaghi_window_begin(words, words_len);
    for (size_t made = 0; made <= CALLS; made++) {
        if (made < 2 * WORDS || made % 97 == 0) {
            uint64_t sum = 0, greatest = 0;
            for (size_t i = count < ENTRIES ? 0 : count - ENTRIES; i < count; i++) {
                sum += entered[i];
                greatest = entered[i] > greatest ? entered[i] : greatest;
            }
            pozhdaghi_window_report(words, words_len, answer, POZHDAGHI_ANSWER);
            expect_answer("report", sum, greatest);
        }
        if (made == CALLS)
            return;
        const uint64_t next = (draw() & 0x1ffffff) >> (made / 700 % 25);
        const int is_entry = next <= POZHDAGHI_MOST_EXPANSIONS;
        if (is_entry)
            entered[count++] = (uint32_t)next;
        pozhdaghi_window_enter(words, words_len, next, answer, POZHDAGHI_ANSWER);
        expect_answer("enter", is_entry ? POZHDAGHI_DONE : POZHDAGHI_REFUSED_TOO_GREAT, 0);
    }
}

/* How many entries the words have room for. */
static size_t room(void)
{
    const size_t behind = words_len ? words_len - 1 : 0, most = ENTRIES;
    return behind < most ? behind : most;
}

static void expect_report(void)
{
    uint64_t sum = 0, greatest = 0;
    for (size_t i = 1; i <= room(); i++) {
        sum += words[i];
        greatest = words[i] > greatest ? words[i] : greatest;
    }
    pozhdaghi_window_report(words, words_len, answer, POZHDAGHI_ANSWER);
    expect_answer("report of any words", sum, greatest);
}

static void expect_words(const char *what, const uint32_t *wanted)
{
    if (words_len && memcmp(words, wanted, words_len * sizeof *words))
        fail(what);
}

/* An entry in any words: the first one says the place, and 0 stands for one that is none. */
static void enter_in_any(uint64_t count)
{
    uint32_t wanted[LONGEST] = {0};
    if (words_len)
        memcpy(wanted, words, words_len * sizeof *words);
    const int is_entry = count <= POZHDAGHI_MOST_EXPANSIONS;
    if (is_entry && words_len) {
        const size_t place = wanted[0] < room() ? wanted[0] : 0;
        if (room())
            wanted[1 + place] = (uint32_t)count;
        wanted[0] = place + 1 < room() ? (uint32_t)place + 1 : 0;
    }
    pozhdaghi_window_enter(words, words_len, count, answer, POZHDAGHI_ANSWER);
    expect_answer("enter in any words", is_entry ? POZHDAGHI_DONE : POZHDAGHI_REFUSED_TOO_GREAT, 0);
    expect_words("an entry's words", wanted);
}

static void draw_words(void)
{
    for (size_t i = 0; i < words_len; i++)
        words[i] = draw() % 3 ? (uint32_t)draw() : (uint32_t)draw() % 64;
    if (words_len)
        words[0] = draw() % 2 ? (uint32_t)draw() : (uint32_t)(draw() % (ENTRIES + 3));
}

/* Whatever the words held, after as many entries as there is room for the report is of these alone. */
static void overwritten(void)
{
    uint64_t sum = 0, greatest = 0;
    draw_words();
    for (size_t i = 0; i < room(); i++) {
        const uint64_t count = draw() % POZHDAGHI_MOST_EXPANSIONS;
        sum += count;
        greatest = count > greatest ? count : greatest;
        pozhdaghi_window_enter(words, words_len, count, answer, POZHDAGHI_ANSWER);
    }
    pozhdaghi_window_report(words, words_len, answer, POZHDAGHI_ANSWER);
    expect_answer("words that were overwritten", sum, greatest);
}

static void any_words(size_t length)
{
    static const uint64_t COUNTS[] = {0, 5, POZHDAGHI_MOST_EXPANSIONS, POZHDAGHI_MOST_EXPANSIONS + 1, UINT64_MAX};
    uint32_t begun[LONGEST] = {0};
    lend_words(length);
    for (int drawn = 0; drawn < 20; drawn++) {
        draw_words();
        expect_report();
        for (size_t i = 0; i < sizeof COUNTS / sizeof *COUNTS; i++)
            enter_in_any(COUNTS[i]);
        expect_report();
    }
    overwritten();
    for (size_t i = WORDS; i < length; i++)
        begun[i] = words[i];
    pozhdaghi_window_begin(words, words_len);
    expect_words("a begun window", begun);
    expect_report();
    pozhdaghi_window_enter(words, words_len, 7, (uint64_t *)lend(0), 0);
    pozhdaghi_window_report(words, words_len, answer, 1);
    if (answer[0] != (room() ? 7 : 0))
        fail("an answer of one number");
}

/* Every word at its greatest, and more than one window of them: only 1,024 are summed. */
static void greatest_words(void)
{
    lend_words(LONGEST);
    memset(words, 0xff, LONGEST * sizeof *words);
    pozhdaghi_window_report(words, words_len, answer, POZHDAGHI_ANSWER);
    expect_answer("the greatest words", UINT64_C(4398046510080), UINT32_MAX);
}

static void every_area(void)
{
    for (size_t length = 0; length < 12; length++)
        any_words(length);
    for (size_t length = WORDS - 5; length <= LONGEST; length++)
        any_words(length);
    greatest_words();
    as_a_queue();
}

int main(void)
{
    every_area();
    areas_side = IN_FRONT;
    every_area();
    printf("window: %s\n", failures ? "not as it is written" : "a million entries as a queue has them, and any words");
    return failures != 0;
}
