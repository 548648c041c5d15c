/* A board of four processors: requests and what they cost, a look into a cache, a rival's schedule and its price. The
 * bus is a pipelined one, which charges the address cycle: a fetch of four words costs 5 cycles, a write-back 4.
 *
 * In the project's folder, after `tools/build.sh host`:
 *
 *     gcc -std=c99 -O2 -I hostkit -o target/example hostkit/c/example.c target/staticlib/libhost.a
 *
 * The archive is the only library to be named. */
#include "cuzkelor.h"
#include <inttypes.h>
#include <stdio.h>

enum { PROCESSORS = 4, LINES = 8, BLOCK_WORDS = 4, BLOCK_COUNT = 64, FETCH_PRICE = 5, WRITE_BACK_PRICE = 4 };

/* Nothing is allocated: the tables and masks are arrays of the lengths that the setup requires. */
static const cuzkelor_setup setup = {PROCESSORS, LINES, BLOCK_WORDS, BLOCK_COUNT, FETCH_PRICE, WRITE_BACK_PRICE};
static uint32_t blocks[CUZKELOR_SLOT_COUNT(PROCESSORS, LINES)];
static uint32_t counters[CUZKELOR_SLOT_COUNT(PROCESSORS, LINES)];
static uint32_t marks[CUZKELOR_SLOT_COUNT(PROCESSORS, LINES)];
static uint32_t words[CUZKELOR_WORD_COUNT(PROCESSORS, LINES, BLOCK_WORDS)];
static uint32_t memory[CUZKELOR_VARIABLE_COUNT(BLOCK_WORDS, BLOCK_COUNT)];
static uint8_t masks[CUZKELOR_MASK_COUNT(BLOCK_COUNT)];
static const cuzkelor_tables tables = {CUZKELOR_LENT(blocks), CUZKELOR_LENT(counters), CUZKELOR_LENT(marks),
                                       CUZKELOR_LENT(words),  CUZKELOR_LENT(memory),   CUZKELOR_LENT(masks)};

static void report(uint32_t refusal, size_t place) {
    if (refusal == CUZKELOR_NO_REFUSAL) return;
    printf("refused by %" PRIu32 ": %s", refusal, cuzkelor_refusal_text(refusal));
    if (!cuzkelor_refuses_call(refusal)) printf(" (place %zu)", place);
    printf("\n");
}

static void run(cuzkelor_account *account, const cuzkelor_request requests[], size_t count) {
    uint32_t values[8];
    cuzkelor_run_answer answer = cuzkelor_run_requests(setup, &tables, account, requests, count, values, count);
    for (size_t k = 0; k < answer.taken; k++) printf("request %zu: value %" PRIu32 "\n", k, values[k]);
    report(answer.refusal, answer.place);
    printf("fetch %" PRIu32 ", write-back %" PRIu32 ", update %" PRIu32 "\n", account->fetch, account->write_back,
           account->update);
}

static void look(uint32_t processor, cuzkelor_block block) {
    cuzkelor_part part = cuzkelor_look(setup, &tables, processor, block);
    printf("processor %" PRIu32 ", block %" PRIu32 ":", processor, block.number);
    for (size_t k = 0; k < part.length; k++) printf(" %" PRIu32, part.at[k]);
    printf("%s\n", part.length == 0 ? " not held" : "");
}

static void price(const cuzkelor_entry entries[], size_t entry_count, const cuzkelor_request requests[],
                  size_t count) {
    static uint32_t rival_blocks[CUZKELOR_SLOT_COUNT(PROCESSORS, LINES)];
    static uint32_t rival_held[CUZKELOR_SLOT_COUNT(PROCESSORS, LINES)];
    static uint32_t rival_marks[CUZKELOR_SLOT_COUNT(PROCESSORS, LINES)];
    cuzkelor_rival rival = {CUZKELOR_LENT(rival_blocks), CUZKELOR_LENT(rival_held), CUZKELOR_LENT(rival_marks)};
    cuzkelor_price_answer answer = cuzkelor_price_schedule(setup, &rival, entries, entry_count, requests, count);
    report(answer.refusal, answer.place);
    if (answer.refusal == CUZKELOR_NO_REFUSAL) printf("a rival's schedule: %" PRIu32 " cycles\n", answer.cost);
}

int main(void) {
    cuzkelor_account account = {0, 0, 0, 0};
    cuzkelor_variable flag = cuzkelor_make_variable(3), missing = cuzkelor_make_variable(BLOCK_WORDS * BLOCK_COUNT);
    cuzkelor_variable other = cuzkelor_make_variable(3 + BLOCK_WORDS * LINES); /* its block has the flag's line */
    cuzkelor_block block = cuzkelor_block_of(setup, flag), other_block = cuzkelor_block_of(setup, other);
    cuzkelor_request requests[] = {cuzkelor_write(0, other, 6), cuzkelor_write(0, flag, 7), cuzkelor_read(1, flag),
                                   cuzkelor_write(0, flag, 8), cuzkelor_read(2, missing)};
    cuzkelor_entry entries[] = {cuzkelor_fetch(0, other_block), cuzkelor_complete_by_broadcast(),
                                cuzkelor_drop(0, other_block),  cuzkelor_fetch(0, block),
                                cuzkelor_complete(),            cuzkelor_fetch(1, block),
                                cuzkelor_complete(),            cuzkelor_complete()};
    if (!cuzkelor_version_matches()) {
        puts("cuzkelor.h and libhost.a are of different versions");
        return 1;
    }
    report(cuzkelor_start_tables(setup, &tables), 0);
    run(&account, requests, 5);
    look(1, block);
    look(2, block);
    price(entries, 8, requests, 4);
    price(entries, 7, requests, 4);
    return 0;
}
