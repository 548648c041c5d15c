/* How far the engine is from the best: reads a din trace of at most 24 lines on two processors, and prints what the
 * engine spends on it, and the best schedule that was found, entry by entry.
 *
 * In the project's folder, after `tools/build.sh host`:
 *
 *     gcc -std=c99 -O2 -I hostkit -o target/best hostkit/c/best.c target/staticlib/libhost.a
 *     target/best 2 2 4 4 3 < hostkit/c/best.din
 *
 * The arguments are lines in each cache, words in a block, blocks (at most 4), the fetch price, the write-back price
 * and, if it should not search to the end, how many steps it may take. */
#include "cuzkelor.h"
#include <inttypes.h>
#include <stdio.h>
#include <stdlib.h>
#include <string.h>

enum { PROCESSORS = 2, MOST_BLOCKS = 4, MOST_SLOTS = CUZKELOR_SLOT_COUNT(PROCESSORS, CUZKELOR_MOST_LINES) };

static cuzkelor_setup setup;

/* One request more than a search takes, so that a longer trace is refused by 12. */
static cuzkelor_request requests[CUZKELOR_BEST_REQUESTS + 1];
static size_t request_count;

/* The tables of the engine, of any setup that can be searched, and those of the search. */
static uint32_t blocks[MOST_SLOTS], counters[MOST_SLOTS], marks[MOST_SLOTS];
static uint32_t words[MOST_SLOTS * CUZKELOR_MOST_BLOCK_WORDS], memory[MOST_BLOCKS * CUZKELOR_MOST_BLOCK_WORDS];
static uint8_t masks[MOST_BLOCKS];
static uint32_t distances[CUZKELOR_POSITION_COUNT], order[CUZKELOR_POSITION_COUNT];
static uint32_t predecessors[CUZKELOR_POSITION_COUNT], lowest[CUZKELOR_GROUP_COUNT];
static cuzkelor_entry entries[CUZKELOR_POSITION_COUNT];

static void fail(const char *why) {
    fprintf(stderr, "%s\n", why);
    exit(1);
}

static uint32_t number(const char *text) {
    char *end;
    unsigned long value = strtoul(text, &end, 10);
    if (end == text || *end != '\0' || value > UINT32_MAX) fail("no number among the arguments");
    return (uint32_t)value;
}

static void read_setup(char *arguments[]) {
    setup.processors = PROCESSORS;
    setup.lines = number(arguments[0]);
    setup.block_words = number(arguments[1]);
    setup.block_count = number(arguments[2]);
    setup.fetch_price = number(arguments[3]);
    setup.write_back_price = number(arguments[4]);
}

/* A line is a label and a hexadecimal address: its top byte is the processor, and each 4 bytes of the rest are one
 * variable. */
static cuzkelor_request request_of(const char *line, uint32_t value) {
    char label[2], digits[9], end = '\n';
    if (sscanf(line, "%1[0-9]%*[ \t]%8[0-9a-fA-F]%c", label, digits, &end) < 2 || strchr(" \t\r\n", end) == NULL) {
        fail("a malformed trace line");
    }
    uint32_t address = (uint32_t)strtoul(digits, NULL, 16), processor = address >> 24;
    cuzkelor_variable variable = cuzkelor_make_variable((address & 0xffffff) / 4);
    if (strchr("0124", label[0]) == NULL) fail("a trace label is a digit above 2 other than 4");
    if (label[0] == '1') return cuzkelor_write(processor, variable, value);
    if (label[0] == '4') return cuzkelor_clear(processor);
    return cuzkelor_read(processor, variable);
}

static void read_trace(void) {
    char line[82];
    while (request_count <= CUZKELOR_BEST_REQUESTS && fgets(line, sizeof line, stdin) != NULL) {
        if (strlen(line) == sizeof line - 1 && line[sizeof line - 2] != '\n') fail("a malformed trace line");
        requests[request_count] = request_of(line, (uint32_t)request_count + 1);
        request_count++;
    }
}

static cuzkelor_best_answer search(uint32_t steps) {
    cuzkelor_search tables = {CUZKELOR_LENT(distances), CUZKELOR_LENT(order), CUZKELOR_LENT(predecessors),
                              CUZKELOR_LENT(lowest)};
    cuzkelor_best_answer answer =
        cuzkelor_best_schedule(setup, &tables, requests, request_count, steps, entries, CUZKELOR_POSITION_COUNT);
    if (answer.refusal == CUZKELOR_NO_REFUSAL) return answer;
    fprintf(stderr, "refused by %" PRIu32 ": %s", answer.refusal, cuzkelor_refusal_text(answer.refusal));
    if (!cuzkelor_refuses_call(answer.refusal)) fprintf(stderr, " (line %zu)", answer.place + 1);
    fprintf(stderr, "\n");
    exit(1);
}

/* What the engine spends, on a setup and requests that the search took. */
static uint32_t engine_cycles(void) {
    uint32_t values[CUZKELOR_BEST_REQUESTS];
    cuzkelor_account account = {0, 0, 0, 0};
    cuzkelor_tables tables = {{blocks, cuzkelor_slot_count(setup)},     {counters, cuzkelor_slot_count(setup)},
                              {marks, cuzkelor_slot_count(setup)},      {words, cuzkelor_word_count(setup)},
                              {memory, cuzkelor_variable_count(setup)}, {masks, cuzkelor_mask_count(setup)}};
    if (cuzkelor_start_tables(setup, &tables) != CUZKELOR_NO_REFUSAL) fail("the tables do not start");
    cuzkelor_run_answer answer =
        cuzkelor_run_requests(setup, &tables, &account, requests, request_count, values, request_count);
    if (answer.refusal != CUZKELOR_NO_REFUSAL) fail("the engine does not take the requests");
    return account.fetch + account.write_back + account.update;
}

static void print_request(size_t place) {
    const cuzkelor_request *request = &requests[place];
    printf("request %zu of processor %" PRIu32 " is completed", place + 1, request->processor);
    if (request->operation == CUZKELOR_CLEAR) {
        printf(": a clear");
        return;
    }
    printf(": a %s of variable %" PRIu32, request->operation == CUZKELOR_WRITE ? "write" : "read",
           request->variable.number);
    printf(" in block %" PRIu32, cuzkelor_block_of(setup, request->variable).number);
}

static void print_schedule(size_t length) {
    static const char *const actions[] = {"fetches", "writes back", "drops"};
    size_t served = 0;
    for (size_t k = 0; k < length; k++) {
        const cuzkelor_entry *entry = &entries[k];
        if (entry->kind < CUZKELOR_COMPLETE) {
            printf("    processor %" PRIu32 " %s block %" PRIu32 "\n", entry->processor, actions[entry->kind],
                   entry->block.number);
            continue;
        }
        print_request(served++);
        printf("%s\n", entry->kind == CUZKELOR_COMPLETE ? "" : ", by broadcast");
    }
}

int main(int count, char *arguments[]) {
    if (count != 6 && count != 7) fail("arguments: L p M f g [STEPS], and a trace on standard input");
    if (!cuzkelor_version_matches()) fail("cuzkelor.h and libhost.a are of different versions");
    read_setup(arguments + 1);
    read_trace();
    cuzkelor_best_answer best = search(count == 7 ? number(arguments[6]) : CUZKELOR_ENOUGH_STEPS);
    printf("the engine: %" PRIu32 " cycles\n", engine_cycles());
    printf("the best schedule found in %" PRIu32 " steps: %" PRIu32 " cycles, %s\n", best.steps, best.cost,
           best.least ? "and no legal schedule is cheaper" : "which may not be least");
    printf("above half the engine's cycles, rounded up: %" PRIu32 "\n", best.excess);
    print_schedule(best.length);
    return 0;
}
