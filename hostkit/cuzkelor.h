/* Cuzkelor for C and C++: direct-mapped snoopy caches with their bus cycles, the price of rival schedules, the best
 * schedule for a short list of requests, and lists of requests drawn from a seed.
 *
 * Link libhost.a, which `tools/build.sh host` writes for x86-64 Linux. It needs the C library's memory functions (today
 * memset alone) and no other library, allocates nothing, prints nothing and keeps no state. hostkit/c/example.c is a
 * whole program with its command. Here are first the numbers, then what the archive exports, then the same over
 * structs.
 *
 * What a host owes at each call:
 * - Each pointer is valid for its length, not NULL also at length 0, and aligned for its element type. A list of
 *   requests or entries is an array of uint32_t.
 * - Nothing that the callee may write (tables, masks, values, account, a list to be generated, a schedule to be found,
 *   out-parameters) overlaps anything else that it is passed.
 * - Threads: there is no global state, so calls on different buffers may go on at once. Calls that share a buffer may
 *   not, unless all of them only read it.
 * Whatever the numbers are, the call is safe and ends.
 *
 * What a host gets: the number of the first condition met, in the order given at each function, or 0 if none is; a
 * look and the version give other numbers. Each out-parameter is written, whatever is returned. Places count from 0.
 *
 * The Rust crate beside this file reads its numbers and functions here, when it is built. */
#ifndef CUZKELOR_H
#define CUZKELOR_H

#include <stddef.h>
#include <stdint.h>

#ifdef __cplusplus
extern "C" {
#endif

/* ---- Numbers ---- */

/* The version of what the archive exports and of what it means. */
#define CUZKELOR_VERSION 6

/* Why something is refused: name, number, what is refused, the condition in words.
 *
 * CALL: the call as a whole. No table, no mask, no value, no list and no account that a run adds to has changed; places
 * and taken are 0.
 * PLACE: a request, an entry or a line, or the end of a schedule. The answer says which one, and each function what it
 * leaves then. */
#define CUZKELOR_REFUSALS(X)                                                                                           \
    X(CUZKELOR_SETUP_OUT_OF_RANGE, 1, CALL, "a size of the setup is out of range")                                     \
    X(CUZKELOR_WRONG_LENGTH, 2, CALL, "a buffer's length is not the one that the setup or the list requires")          \
    X(CUZKELOR_NO_SUCH_PROCESSOR, 3, PLACE, "no such processor")                                                       \
    X(CUZKELOR_NO_SUCH_VARIABLE, 4, PLACE, "no such variable")                                                         \
    X(CUZKELOR_TOO_MANY, 5, CALL, "over 1,000,000 requests to the pricer or generator, or 4,000,000 entries")          \
    X(CUZKELOR_MALFORMED_LINE, 6, PLACE, "malformed trace line")                                                       \
    X(CUZKELOR_UNKNOWN_LABEL, 7, PLACE, "a trace label is a digit above 2 other than 4")                               \
    X(CUZKELOR_NO_SUCH_BLOCK, 8, PLACE, "no such block")                                                               \
    X(CUZKELOR_BROADCAST_WITHOUT_WRITE, 9, PLACE, "a read or a clear is completed by broadcast")                       \
    X(CUZKELOR_PRICE_OUT_OF_RANGE, 10, CALL, "the fetch price or the write-back price is out of range")                \
    X(CUZKELOR_SEED_ZERO, 11, CALL, "the seed of a generated list is 0")                                               \
    X(CUZKELOR_NOT_SEARCHABLE, 12, CALL, "a search on other than 2 processors, over 4 blocks or for over 24 requests") \
    X(CUZKELOR_UNSOUND_TABLES, 20, CALL, "the tables are not sound")                                                   \
    X(CUZKELOR_IMPOSSIBLE_ACCOUNT, 21, CALL, "the account has more cycles than its requests allow")                    \
    X(CUZKELOR_ACCOUNT_FULL, 22, PLACE, "the account is already at 1,000,000 requests or more")                        \
    X(CUZKELOR_LINE_IN_USE, 23, PLACE, "a fetch into a line that is not empty")                                        \
    X(CUZKELOR_BLOCK_NOT_HELD, 24, PLACE, "a drop or a write-back of a block that is not held")                        \
    X(CUZKELOR_DROP_OF_MARKED, 25, PLACE, "a drop of a marked block")                                                  \
    X(CUZKELOR_NO_REQUEST_LEFT, 26, PLACE, "a completion with no request left")                                        \
    X(CUZKELOR_COMPLETION_NOT_HELD, 27, PLACE, "a completion of a request whose block is not held")                    \
    X(CUZKELOR_REQUESTS_LEFT, 28, PLACE, "the schedule ends with requests left")                                       \
    X(CUZKELOR_CACHE_NOT_EMPTY, 29, PLACE, "a clear is completed while that cache holds a block")

#define CUZKELOR_ENUMERATOR(name, number, refused, text) name = number,
enum cuzkelor_refusal { CUZKELOR_REFUSALS(CUZKELOR_ENUMERATOR) CUZKELOR_NO_REFUSAL = 0 };
#undef CUZKELOR_ENUMERATOR

/* The second of a request's four numbers. Any other number reads. */
enum cuzkelor_operation {
    CUZKELOR_READ = 0,
    CUZKELOR_WRITE = 1,
    CUZKELOR_CLEAR = 2
};

/* The first of an entry's three numbers. Any other number completes by broadcast. */
enum cuzkelor_kind {
    CUZKELOR_FETCH = 0,
    CUZKELOR_WRITE_BACK = 1,
    CUZKELOR_DROP = 2,
    CUZKELOR_COMPLETE = 3,
    CUZKELOR_COMPLETE_BY_BROADCAST = 4
};

/* How many numbers a request and an entry are in a list. */
enum cuzkelor_record {
    CUZKELOR_REQUEST_NUMBERS = 4,
    CUZKELOR_ENTRY_NUMBERS = 3
};

/* The most that each number of a setup may be; the least is 1. The most of the write-back price is the fetch price. */
enum cuzkelor_most {
    CUZKELOR_MOST_PROCESSORS = 8,
    CUZKELOR_MOST_LINES = 64,
    CUZKELOR_MOST_BLOCK_WORDS = 16,
    CUZKELOR_MOST_BLOCK_COUNT = 256,
    CUZKELOR_MOST_FETCH_PRICE = 32
};

/* The most requests of a list that is generated or that a schedule is priced for. */
enum cuzkelor_limit {
    CUZKELOR_MOST_REQUESTS = 1000000
};

/* The search for the best schedule: the positions that there can be, which is also the length of its list of entries;
 * groups of 36 of them; the most requests; and the steps that always suffice. */
enum cuzkelor_search_limit {
    CUZKELOR_POSITION_COUNT = 32400,
    CUZKELOR_GROUP_COUNT = 900,
    CUZKELOR_BEST_REQUESTS = 24,
    CUZKELOR_ENOUGH_STEPS = 583200
};

/* The setup of every trace. */
enum cuzkelor_trace {
    CUZKELOR_TRACE_PROCESSORS = 4,
    CUZKELOR_TRACE_LINES = 8,
    CUZKELOR_TRACE_BLOCK_WORDS = 4,
    CUZKELOR_TRACE_BLOCK_COUNT = 64,
    CUZKELOR_TRACE_FETCH_PRICE = 4,
    CUZKELOR_TRACE_WRITE_BACK_PRICE = 4
};

/* Lengths as constants, for arrays. Block numbers, counters and marks (of a rival: block numbers, held and marks) have
 * one number for each line of each cache, words a block for each, and memory one number for each variable. Masks have
 * one byte for each block. */
#define CUZKELOR_SLOT_COUNT(processors, lines) ((size_t)(processors) * (size_t)(lines))
#define CUZKELOR_WORD_COUNT(processors, lines, block_words)                                                            \
    (CUZKELOR_SLOT_COUNT(processors, lines) * (size_t)(block_words))
#define CUZKELOR_VARIABLE_COUNT(block_words, block_count) ((size_t)(block_words) * (size_t)(block_count))
#define CUZKELOR_MASK_COUNT(block_count) ((size_t)(block_count))

/* ---- What the archive exports ----
 *
 * A setup is six numbers: four sizes, which are processors, lines in each cache, words in a block and blocks, and two
 * prices, which may be anything in their ranges whatever the sizes are. 1 meets a size out of range, 10 a price. A
 * fetch costs fetch_price cycles, a write-back write_back_price and an update 1, in a run and in a rival's schedule
 * alike.
 *
 * The tables go processor by processor and line by line: a block's line in a processor's cache is slot processor x
 * lines + block mod lines, and its words begin at slot x block_words. Counter 0 means an empty line; a fetch and a
 * write by its processor set a line's counter to fetch_price. Variable v is word v of memory; it lies in block
 * v / block_words, rounded down.
 *
 * Tables are sound, as start and run leave them, if every counter is at most fetch_price; the block number, mark and
 * words of an empty line are 0; a held block is below block_count and in its line; marks are 0 or 1; a marked block has
 * counter fetch_price and one holder; an unmarked copy equals memory; and every mask is true.
 *
 * The masks say who holds each block, so that a run need not ask every cache: bit i of byte b, 1 << i, is set exactly
 * if processor i holds block b, and no bit at or above processors is set. They are lent to start and run alone, which
 * leave them true. A host keeps them with its tables and need not read them. Tables that versions 1 to 5 or a trace
 * left have none: before a run, set bit i of byte b exactly if cuzkelor_look_length of processor i and block b is not
 * 0, as cuzkelor_fill_masks does. */

/* The version of this archive: CUZKELOR_VERSION of the header that belongs to it. */
uint32_t cuzkelor_version(void);

/* Fills all tables and masks with 0. Checks 1, 10, 2; a refusal changes none of them. */
uint32_t cuzkelor_start(uint32_t processors, uint32_t lines, uint32_t block_words, uint32_t block_count,
                        uint32_t fetch_price, uint32_t write_back_price, uint32_t *blocks, size_t blocks_length,
                        uint32_t *counters, size_t counters_length, uint32_t *marks, size_t marks_length,
                        uint32_t *words, size_t words_length, uint32_t *memory, size_t memory_length, uint8_t *masks,
                        size_t masks_length);

/* Where in words the copy of a block in a processor's cache begins. 0 if 1, 10, 2 (of these three tables), 3 or 8 would
 * apply, or if the line's counter is 0 or it names another block; but 0 is also where the first copy begins, so ask for
 * the length. Soundness plays no part. */
size_t cuzkelor_look_offset(uint32_t processors, uint32_t lines, uint32_t block_words, uint32_t block_count,
                            uint32_t fetch_price, uint32_t write_back_price, const uint32_t *blocks,
                            size_t blocks_length, const uint32_t *counters, size_t counters_length,
                            const uint32_t *words, size_t words_length, uint32_t processor, uint32_t block);

/* How many words that copy has: block_words, or 0 if one of the same conditions is met. */
size_t cuzkelor_look_length(uint32_t processors, uint32_t lines, uint32_t block_words, uint32_t block_count,
                            uint32_t fetch_price, uint32_t write_back_price, const uint32_t *blocks,
                            size_t blocks_length, const uint32_t *counters, size_t counters_length,
                            const uint32_t *words, size_t words_length, uint32_t processor, uint32_t block);

/* Serves requests in turn, to the first refused one, and adds to the account: 1 to its requests for each one taken, and
 * the cycles of each kind. A request is four numbers: processor, operation, variable, value (of a read the value plays
 * no part, of a clear neither it nor the variable). values has one word for each request, which gets the value supplied
 * or written, for a clear 0.
 *
 * A write to a block that other caches hold too lowers the smallest of their counters by 1, of equal ones the lowest
 * processor's, and at 0 that line becomes empty.
 *
 * A clear empties its processor's cache, so that the card can be swapped: from line 0 up, marked blocks are written
 * back and every line becomes empty. No other cache changes.
 *
 * In versions 1 to 3 a write lowered the lowest other holder's counter, whatever the counters; in versions 1 to 4
 * operation 2 read; in versions 1 to 5 there were no masks. Tables and accounts that they left may be lent on, with
 * masks made for them.
 *
 * Checks 1, 10, 2, 20, 21, then for each request 3, 4 (not of a clear), 22. 2 also meets a list that is no whole number
 * of requests, and values of another length than the list. 20 also meets a false mask. 21: fetch cycles over
 * fetch_price x requests, write-back cycles over write_back_price x lines x requests, since a clear can write back
 * every line, or update cycles over requests; no product overflows.
 *
 * No refusal: taken is the number of requests, place is 0. By 1, 10, 2, 20 or 21: taken and place are 0, nothing lent
 * changes. By 3, 4 or 22: taken and place are both the refused request's place; tables, masks and account are as the
 * requests before it left them, and values from that place on are untouched. */
uint32_t cuzkelor_run(uint32_t processors, uint32_t lines, uint32_t block_words, uint32_t block_count,
                      uint32_t fetch_price, uint32_t write_back_price, uint32_t *blocks, size_t blocks_length,
                      uint32_t *counters, size_t counters_length, uint32_t *marks, size_t marks_length,
                      uint32_t *words, size_t words_length, uint32_t *memory, size_t memory_length, uint8_t *masks,
                      size_t masks_length, uint32_t *account_requests, uint32_t *account_fetch,
                      uint32_t *account_write_back, uint32_t *account_update, const uint32_t *requests,
                      size_t requests_length, uint32_t *values, size_t values_length, size_t *taken, size_t *place);

/* Plays a rival's schedule for a list of requests, from empty caches; what the tables hold before plays no part. An
 * entry is three numbers: kind, processor, block; of a completion the last two play no part.
 *
 * Checks 1, 10, 2, 5; at each fetch 3, 8, 23; at each write-back 3, 8, 24; at each drop 3, 8, 24, 25; at each
 * completion 26, then of the request 3, 4 (not of a clear), 9, and 29 of a clear, 27 of any other; at the end 28. 2
 * also meets a list that is no whole number of entries or of requests. 5 meets over 1,000,000 requests or 4,000,000
 * entries.
 *
 * No refusal: place is 0, the tables show the rival's last copies, with empty lines all 0, and cost is the schedule's
 * cycles, the sum of its entries' costs: fetch_price for a fetch, write_back_price for a write-back, 0 for a drop and
 * for a completed read or clear, 1 for a write completed by broadcast, and for a write completed otherwise 0 where its
 * block has one holder, else 1. By 1, 10, 2 or 5: place and cost are 0, no table changes. By any other: place is the
 * entry's (28: the number of entries), cost is 0, and the tables are all 0.
 *
 * What a cost says of runs, the first of them on started tables, if the schedule is not refused for the requests that
 * they took, all in one list: the cycles that they added to the account are together at most twice the cost. Their
 * fetch cycles are at most the cost less write_back_price for each write-back in the schedule, and so are their update
 * and write-back cycles together. */
uint32_t cuzkelor_price(uint32_t processors, uint32_t lines, uint32_t block_words, uint32_t block_count,
                        uint32_t fetch_price, uint32_t write_back_price, uint32_t *blocks, size_t blocks_length,
                        uint32_t *held, size_t held_length, uint32_t *marks, size_t marks_length,
                        const uint32_t *entries, size_t entries_length, const uint32_t *requests,
                        size_t requests_length, size_t *place, uint32_t *cost);

/* Searches for the cheapest schedule for a short list of requests, in so many steps at most. The best one that it found
 * comes to the front of schedule, three numbers an entry; from empty caches cuzkelor_price accepts it at cost. schedule
 * has 3 x 32,400 numbers, of which those behind the found one stay. distances, order and predecessors have 32,400
 * numbers each, lowest has 900; what they hold before plays no part, and what they hold after is free.
 *
 * A step tries one entry from one position: the copies, the marks and the number of requests completed. With 0 steps
 * the schedule is what the engine itself does: the block in the way is written back if it is marked, then dropped (by a
 * clear each block, from line 0 up); the block is fetched; the request is completed, not by broadcast; and a copy whose
 * counter falls to 0 is dropped. More steps never give a dearer one. least is 1 only if no legal schedule is cheaper,
 * else 0; steps_used is below steps only where least is 1; and with 583,200 steps or more it always is.
 *
 * excess is the cost less half of what a run from started tables spends, that half rounded up. It is no cut difference,
 * since no legal schedule costs less than that half.
 *
 * Checks 1, 10, 12, 2, then for each request 3, 4 (not of a clear). 12 meets other than 2 processors, over 4 blocks and
 * over 24 requests. 2 meets a table or a schedule of another length, and a list that is no whole number of requests.
 *
 * No refusal: place is 0, length is the number of entries. By 1, 10, 12 or 2: place is 0. By 3 or 4: place is the
 * request's. By any, length, cost, steps_used, least and excess are 0, and no buffer changes. */
uint32_t cuzkelor_best(uint32_t processors, uint32_t lines, uint32_t block_words, uint32_t block_count,
                       uint32_t fetch_price, uint32_t write_back_price, const uint32_t *requests,
                       size_t requests_length, uint32_t *distances, size_t distances_length, uint32_t *order,
                       size_t order_length, uint32_t *predecessors, size_t predecessors_length, uint32_t *lowest,
                       size_t lowest_length, uint32_t *schedule, size_t schedule_length, uint32_t steps, size_t *place,
                       size_t *length, uint32_t *cost, uint32_t *steps_used, uint32_t *least, uint32_t *excess);

/* Fills a list with the requests of a seed, as many as it has room for, four numbers each: processor, operation,
 * variable, value (of a read it is 0). They are drawn by Marsaglia's xorshift in 32 bits: the draw after x is got by
 * x ^= x << 13, x ^= x >> 17, x ^= x << 5. The seed itself is no draw, and each request uses three draws: the first mod
 * processors is its processor, the second mod block_words x block_count its variable, and the third makes it a read if
 * even, else a write of that draw.
 *
 * So the list depends on processors, block_words x block_count, the seed and its length alone, and a longer list begins
 * with the shorter one. Started tables and a fresh account take it to the end.
 *
 * Checks 1, 10, 2, 11, 5; a refusal leaves the list untouched. 2 meets only a list that is no whole number of requests,
 * 5 one of over 1,000,000 requests. */
uint32_t cuzkelor_generate(uint32_t processors, uint32_t lines, uint32_t block_words, uint32_t block_count,
                           uint32_t fetch_price, uint32_t write_back_price, uint32_t seed, uint32_t *requests,
                           size_t requests_length);

/* Counts a whole din trace, with 4 processors, 8 lines, 4 words in a block, 64 blocks and both prices 4. It starts the
 * tables itself, and the account is written, not added to. A line is a label of one digit, blanks or tabs, an address
 * of 1 to 8 hexadecimal digits, and its end, or a blank, tab or carriage return and ignored text; it has at most 80
 * bytes without its newline, which the last line may lack. Labels 0 and 2 read, 1 writes the line's number, from 1, and
 * 4 clears. The address's top byte is the processor, its low 24 bits divided by 4, rounded down, the variable; of a
 * clear they play no part. What a clear does and who pays for a write is said at cuzkelor_run: the counts of a trace
 * may differ from those of versions 1 to 3.
 *
 * Checks 2, then for each line 6, 7, 3, 4 (not of a clear), 22, and stops at the first refused one.
 *
 * No refusal: line is 0. By 2: line and account are 0, no table changes. By any other: line is the refused line's
 * number, from 1; tables and account are as the lines before it left them. */
uint32_t cuzkelor_count_trace(const uint8_t *bytes, size_t bytes_length, uint32_t *blocks, size_t blocks_length,
                              uint32_t *counters, size_t counters_length, uint32_t *marks, size_t marks_length,
                              uint32_t *words, size_t words_length, uint32_t *memory, size_t memory_length,
                              uint32_t *account_requests, uint32_t *account_fetch, uint32_t *account_write_back,
                              uint32_t *account_update, uint32_t *line);

/* ---- The same over structs ---- */

typedef struct {
    uint32_t processors, lines, block_words, block_count, fetch_price, write_back_price;
} cuzkelor_setup;

/* Variable numbers and block numbers cannot be taken for one another. */
typedef struct {
    uint32_t number;
} cuzkelor_variable;

typedef struct {
    uint32_t number;
} cuzkelor_block;

/* Lent numbers and bytes. */
typedef struct {
    uint32_t *at;
    size_t length;
} cuzkelor_numbers;

typedef struct {
    uint8_t *at;
    size_t length;
} cuzkelor_bytes;

/* An array, not a pointer, as the initializer of either: cuzkelor_numbers words = CUZKELOR_LENT(array); */
#define CUZKELOR_LENT(array) {(array), sizeof(array) / sizeof((array)[0])}

/* Only cuzkelor_start_tables, cuzkelor_run_requests and cuzkelor_fill_masks use masks. For looks and traces it may be
 * {NULL, 0}. */
typedef struct {
    cuzkelor_numbers blocks, counters, marks, words, memory;
    cuzkelor_bytes masks;
} cuzkelor_tables;

typedef struct {
    cuzkelor_numbers blocks, held, marks;
} cuzkelor_rival;

/* The tables of a search: CUZKELOR_POSITION_COUNT numbers each, lowest CUZKELOR_GROUP_COUNT. */
typedef struct {
    cuzkelor_numbers distances, order, predecessors, lowest;
} cuzkelor_search;

/* Requests taken, and the cycles of each kind. A fresh one is all 0. */
typedef struct {
    uint32_t requests, fetch, write_back, update;
} cuzkelor_account;

/* A request's four numbers and an entry's three, in the order in which the archive reads them. */
typedef struct {
    uint32_t processor, operation;
    cuzkelor_variable variable;
    uint32_t value;
} cuzkelor_request;

typedef struct {
    uint32_t kind, processor;
    cuzkelor_block block;
} cuzkelor_entry;

#if defined(__cplusplus) && __cplusplus >= 201103L
#define CUZKELOR_ASSERT(name, condition) static_assert(condition, #name)
#elif defined(__STDC_VERSION__) && __STDC_VERSION__ >= 201112L
#define CUZKELOR_ASSERT(name, condition) _Static_assert(condition, #name)
#else
#define CUZKELOR_ASSERT(name, condition) typedef char cuzkelor_##name[(condition) ? 1 : -1]
#endif
#define CUZKELOR_ASSERT_NUMBER(record, member, place)                                                                  \
    CUZKELOR_ASSERT(record##_##member##_is_number_##place,                                                             \
                    offsetof(cuzkelor_##record, member) == (place) * sizeof(uint32_t))

CUZKELOR_ASSERT(request_has_no_padding, sizeof(cuzkelor_request) == CUZKELOR_REQUEST_NUMBERS * sizeof(uint32_t));
CUZKELOR_ASSERT_NUMBER(request, processor, 0);
CUZKELOR_ASSERT_NUMBER(request, operation, 1);
CUZKELOR_ASSERT_NUMBER(request, variable, 2);
CUZKELOR_ASSERT_NUMBER(request, value, 3);
CUZKELOR_ASSERT(entry_has_no_padding, sizeof(cuzkelor_entry) == CUZKELOR_ENTRY_NUMBERS * sizeof(uint32_t));
CUZKELOR_ASSERT_NUMBER(entry, kind, 0);
CUZKELOR_ASSERT_NUMBER(entry, processor, 1);
CUZKELOR_ASSERT_NUMBER(entry, block, 2);

#undef CUZKELOR_ASSERT_NUMBER
#undef CUZKELOR_ASSERT

typedef struct {
    size_t taken;
    uint32_t refusal;
    size_t place;
} cuzkelor_run_answer;

typedef struct {
    uint32_t refusal;
    size_t place;
    uint32_t cost;
} cuzkelor_price_answer;

/* least is 0 or 1. */
typedef struct {
    uint32_t refusal;
    size_t place, length;
    uint32_t cost, steps, least, excess;
} cuzkelor_best_answer;

typedef struct {
    cuzkelor_account account;
    uint32_t refusal, line;
} cuzkelor_report;

/* The words of a look: a part of the lent words, of length 0 where nothing is held. */
typedef struct {
    const uint32_t *at;
    size_t length;
} cuzkelor_part;

/* Whether the archive belongs to this header. To be asked once, before anything else. */
static inline int cuzkelor_version_matches(void) { return cuzkelor_version() == CUZKELOR_VERSION; }

/* The condition in words. */
static inline const char *cuzkelor_refusal_text(uint32_t refusal) {
#define CUZKELOR_TEXT(name, number, refused, text)                                                                     \
    case number: return text;
    switch (refusal) {
        CUZKELOR_REFUSALS(CUZKELOR_TEXT)
    case CUZKELOR_NO_REFUSAL: return "no refusal";
    default: return "no such refusal number";
    }
#undef CUZKELOR_TEXT
}

/* Whether the call as a whole is refused, so that nothing lent has changed. */
static inline int cuzkelor_refuses_call(uint32_t refusal) {
    enum { CUZKELOR_REFUSED_CALL = 1, CUZKELOR_REFUSED_PLACE = 0 };
#define CUZKELOR_REFUSED(name, number, refused, text)                                                                  \
    case number: return CUZKELOR_REFUSED_##refused;
    switch (refusal) {
        CUZKELOR_REFUSALS(CUZKELOR_REFUSED)
    default: return 0;
    }
#undef CUZKELOR_REFUSED
}

static inline cuzkelor_setup cuzkelor_trace_setup(void) {
    cuzkelor_setup setup = {CUZKELOR_TRACE_PROCESSORS,  CUZKELOR_TRACE_LINES,       CUZKELOR_TRACE_BLOCK_WORDS,
                            CUZKELOR_TRACE_BLOCK_COUNT, CUZKELOR_TRACE_FETCH_PRICE, CUZKELOR_TRACE_WRITE_BACK_PRICE};
    return setup;
}

/* The lengths that a setup in range requires: of block numbers, counters, marks and held; of words; of memory; of
 * masks. */
static inline size_t cuzkelor_slot_count(cuzkelor_setup setup) {
    return CUZKELOR_SLOT_COUNT(setup.processors, setup.lines);
}

static inline size_t cuzkelor_word_count(cuzkelor_setup setup) {
    return CUZKELOR_WORD_COUNT(setup.processors, setup.lines, setup.block_words);
}

static inline size_t cuzkelor_variable_count(cuzkelor_setup setup) {
    return CUZKELOR_VARIABLE_COUNT(setup.block_words, setup.block_count);
}

static inline size_t cuzkelor_mask_count(cuzkelor_setup setup) { return CUZKELOR_MASK_COUNT(setup.block_count); }

/* Whether 1 does not meet a setup. */
static inline int cuzkelor_sizes_in_range(cuzkelor_setup setup) {
    return 1 <= setup.processors && setup.processors <= CUZKELOR_MOST_PROCESSORS && 1 <= setup.lines &&
           setup.lines <= CUZKELOR_MOST_LINES && 1 <= setup.block_words &&
           setup.block_words <= CUZKELOR_MOST_BLOCK_WORDS && 1 <= setup.block_count &&
           setup.block_count <= CUZKELOR_MOST_BLOCK_COUNT;
}

/* Whether 10 does not meet a setup. */
static inline int cuzkelor_prices_in_range(cuzkelor_setup setup) {
    return 1 <= setup.fetch_price && setup.fetch_price <= CUZKELOR_MOST_FETCH_PRICE && 1 <= setup.write_back_price &&
           setup.write_back_price <= setup.fetch_price;
}

/* Whether neither of them meets a setup. */
static inline int cuzkelor_setup_in_range(cuzkelor_setup setup) {
    return cuzkelor_sizes_in_range(setup) && cuzkelor_prices_in_range(setup);
}

static inline cuzkelor_variable cuzkelor_make_variable(uint32_t number) {
    cuzkelor_variable variable = {number};
    return variable;
}

static inline cuzkelor_block cuzkelor_make_block(uint32_t number) {
    cuzkelor_block block = {number};
    return block;
}

/* The block in which a variable lies, of a setup in range. */
static inline cuzkelor_block cuzkelor_block_of(cuzkelor_setup setup, cuzkelor_variable variable) {
    return cuzkelor_make_block(variable.number / setup.block_words);
}

static inline cuzkelor_request cuzkelor_read(uint32_t processor, cuzkelor_variable variable) {
    cuzkelor_request request = {processor, CUZKELOR_READ, variable, 0};
    return request;
}

static inline cuzkelor_request cuzkelor_write(uint32_t processor, cuzkelor_variable variable, uint32_t value) {
    cuzkelor_request request = {processor, CUZKELOR_WRITE, variable, value};
    return request;
}

static inline cuzkelor_request cuzkelor_clear(uint32_t processor) {
    cuzkelor_request request = {processor, CUZKELOR_CLEAR, {0}, 0};
    return request;
}

static inline cuzkelor_entry cuzkelor_fetch(uint32_t processor, cuzkelor_block block) {
    cuzkelor_entry entry = {CUZKELOR_FETCH, processor, block};
    return entry;
}

static inline cuzkelor_entry cuzkelor_write_back(uint32_t processor, cuzkelor_block block) {
    cuzkelor_entry entry = {CUZKELOR_WRITE_BACK, processor, block};
    return entry;
}

static inline cuzkelor_entry cuzkelor_drop(uint32_t processor, cuzkelor_block block) {
    cuzkelor_entry entry = {CUZKELOR_DROP, processor, block};
    return entry;
}

static inline cuzkelor_entry cuzkelor_complete(void) {
    cuzkelor_entry entry = {CUZKELOR_COMPLETE, 0, {0}};
    return entry;
}

static inline cuzkelor_entry cuzkelor_complete_by_broadcast(void) {
    cuzkelor_entry entry = {CUZKELOR_COMPLETE_BY_BROADCAST, 0, {0}};
    return entry;
}

/* The arguments that a struct is. */
#define CUZKELOR_SETUP(setup)                                                                                          \
    (setup).processors, (setup).lines, (setup).block_words, (setup).block_count, (setup).fetch_price,                  \
        (setup).write_back_price
#define CUZKELOR_NUMBERS(numbers) (numbers).at, (numbers).length
#define CUZKELOR_TABLES(tables)                                                                                        \
    CUZKELOR_NUMBERS((tables)->blocks), CUZKELOR_NUMBERS((tables)->counters), CUZKELOR_NUMBERS((tables)->marks),       \
        CUZKELOR_NUMBERS((tables)->words), CUZKELOR_NUMBERS((tables)->memory)
#define CUZKELOR_MASKS(tables) (tables)->masks.at, (tables)->masks.length
#define CUZKELOR_ACCOUNT(account)                                                                                      \
    &(account)->requests, &(account)->fetch, &(account)->write_back, &(account)->update
#define CUZKELOR_REQUESTS(requests, count) (const uint32_t *)(const void *)(requests), CUZKELOR_REQUEST_NUMBERS *(count)
#define CUZKELOR_LENT_REQUESTS(requests, count) (uint32_t *)(void *)(requests), CUZKELOR_REQUEST_NUMBERS *(count)
#define CUZKELOR_ENTRIES(entries, count) (const uint32_t *)(const void *)(entries), CUZKELOR_ENTRY_NUMBERS *(count)
#define CUZKELOR_LENT_ENTRIES(entries, count) (uint32_t *)(void *)(entries), CUZKELOR_ENTRY_NUMBERS *(count)

static inline uint32_t cuzkelor_start_tables(cuzkelor_setup setup, const cuzkelor_tables *tables) {
    return cuzkelor_start(CUZKELOR_SETUP(setup), CUZKELOR_TABLES(tables), CUZKELOR_MASKS(tables));
}

static inline cuzkelor_part cuzkelor_look(cuzkelor_setup setup, const cuzkelor_tables *tables, uint32_t processor,
                                          cuzkelor_block block) {
    cuzkelor_part part;
    part.at = tables->words.at + cuzkelor_look_offset(CUZKELOR_SETUP(setup), CUZKELOR_NUMBERS(tables->blocks),
                                                      CUZKELOR_NUMBERS(tables->counters),
                                                      CUZKELOR_NUMBERS(tables->words), processor, block.number);
    part.length = cuzkelor_look_length(CUZKELOR_SETUP(setup), CUZKELOR_NUMBERS(tables->blocks),
                                       CUZKELOR_NUMBERS(tables->counters), CUZKELOR_NUMBERS(tables->words), processor,
                                       block.number);
    return part;
}

/* Makes the masks true, whatever they are: for tables that an earlier version or a trace left, or that the host itself
 * changed. It writes every byte of masks and nothing else. */
static inline void cuzkelor_fill_masks(cuzkelor_setup setup, const cuzkelor_tables *tables) {
    for (size_t block = 0; block < tables->masks.length; block++) {
        uint32_t mask = 0;
        for (uint32_t processor = 0; processor < CUZKELOR_MOST_PROCESSORS; processor++) {
            cuzkelor_part part = cuzkelor_look(setup, tables, processor, cuzkelor_make_block((uint32_t)block));
            if (part.length != 0) mask |= (uint32_t)1 << processor;
        }
        tables->masks.at[block] = (uint8_t)mask;
    }
}

/* count requests, and value_count words for their values: 2 wants as many. */
static inline cuzkelor_run_answer cuzkelor_run_requests(cuzkelor_setup setup, const cuzkelor_tables *tables,
                                                        cuzkelor_account *account, const cuzkelor_request *requests,
                                                        size_t count, uint32_t *values, size_t value_count) {
    cuzkelor_run_answer answer;
    answer.refusal = cuzkelor_run(CUZKELOR_SETUP(setup), CUZKELOR_TABLES(tables), CUZKELOR_MASKS(tables),
                                  CUZKELOR_ACCOUNT(account), CUZKELOR_REQUESTS(requests, count), values, value_count,
                                  &answer.taken, &answer.place);
    return answer;
}

static inline cuzkelor_price_answer cuzkelor_price_schedule(cuzkelor_setup setup, const cuzkelor_rival *rival,
                                                            const cuzkelor_entry *entries, size_t entry_count,
                                                            const cuzkelor_request *requests,
                                                            size_t request_count) {
    cuzkelor_price_answer answer;
    answer.refusal = cuzkelor_price(CUZKELOR_SETUP(setup), CUZKELOR_NUMBERS(rival->blocks),
                                    CUZKELOR_NUMBERS(rival->held), CUZKELOR_NUMBERS(rival->marks),
                                    CUZKELOR_ENTRIES(entries, entry_count),
                                    CUZKELOR_REQUESTS(requests, request_count), &answer.place, &answer.cost);
    return answer;
}

/* The schedule comes to the front of entries, of which there are entry_count: 2 wants CUZKELOR_POSITION_COUNT. */
static inline cuzkelor_best_answer cuzkelor_best_schedule(cuzkelor_setup setup, const cuzkelor_search *search,
                                                          const cuzkelor_request *requests, size_t request_count,
                                                          uint32_t steps, cuzkelor_entry *entries,
                                                          size_t entry_count) {
    cuzkelor_best_answer answer;
    answer.refusal = cuzkelor_best(CUZKELOR_SETUP(setup), CUZKELOR_REQUESTS(requests, request_count),
                                   CUZKELOR_NUMBERS(search->distances), CUZKELOR_NUMBERS(search->order),
                                   CUZKELOR_NUMBERS(search->predecessors), CUZKELOR_NUMBERS(search->lowest),
                                   CUZKELOR_LENT_ENTRIES(entries, entry_count), steps, &answer.place, &answer.length,
                                   &answer.cost, &answer.steps, &answer.least, &answer.excess);
    return answer;
}

/* count requests, as cuzkelor_generate draws them: checks 1, 10, 11, 5, since 2 cannot meet a list of structs. */
static inline uint32_t cuzkelor_generate_requests(cuzkelor_setup setup, uint32_t seed, cuzkelor_request *requests,
                                                  size_t count) {
    return cuzkelor_generate(CUZKELOR_SETUP(setup), seed, CUZKELOR_LENT_REQUESTS(requests, count));
}

/* Tables of the trace's setup, whose masks stay as they are: before a run goes on from the tables, cuzkelor_fill_masks
 * makes them true. The account is that of the lines before a refused one. */
static inline cuzkelor_report cuzkelor_count_din(const cuzkelor_tables *tables, const char *bytes, size_t length) {
    cuzkelor_report report;
    report.refusal = cuzkelor_count_trace((const uint8_t *)bytes, length, CUZKELOR_TABLES(tables),
                                          CUZKELOR_ACCOUNT(&report.account), &report.line);
    return report;
}

#undef CUZKELOR_SETUP
#undef CUZKELOR_NUMBERS
#undef CUZKELOR_TABLES
#undef CUZKELOR_MASKS
#undef CUZKELOR_ACCOUNT
#undef CUZKELOR_REQUESTS
#undef CUZKELOR_LENT_REQUESTS
#undef CUZKELOR_ENTRIES
#undef CUZKELOR_LENT_ENTRIES

#ifdef __cplusplus
}
#endif

#endif
