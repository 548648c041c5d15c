/* Plays the document's sessions, also at other prices, clears, its printed trace, a look, schedules, searches and
 * generated lists through the archive from C or C++, with the masks of holders after each request, and tests the
 * header's numbers, words, lengths and ranges. */
#include "../cuzkelor.h"
#include <stdbool.h>
#include <stdio.h>
#include <stdlib.h>
#include <string.h>

enum { N = 4, L = 8, P = 4, M = 64, SLOTS = CUZKELOR_SLOT_COUNT(N, L), GARBAGE = 0x5555 };

static const cuzkelor_setup SETUP = {N, L, P, M, P, P};
static const cuzkelor_setup ONE_WORD = {N, L, 1, M, 1, 1};
static const cuzkelor_setup ONE_CACHE = {1, CUZKELOR_MOST_LINES, 1, CUZKELOR_MOST_LINES, 32, 32};
/* The pipelined bus of document 003, which charges the address cycle of a fetch. */
static const cuzkelor_setup PIPELINED = {N, L, P, M, 5, 4};
static const cuzkelor_setup NINE_PROCESSORS = {9, L, P, M, P, P};
static const cuzkelor_setup DEAR_WRITE_BACK = {N, L, P, M, P, P + 1};
static const cuzkelor_setup NINE_AND_DEAR = {9, L, P, M, P, P + 1};

/* Tables, masks and account of one host, with room for any setup up to SETUP's, and for ONE_CACHE. */
struct host {
    cuzkelor_setup setup;
    uint32_t blocks[CUZKELOR_MOST_LINES], counters[CUZKELOR_MOST_LINES], marks[CUZKELOR_MOST_LINES];
    uint32_t words[CUZKELOR_WORD_COUNT(N, L, P)];
    uint32_t memory[CUZKELOR_VARIABLE_COUNT(P, M)];
    uint8_t masks[CUZKELOR_MASK_COUNT(M)];
    cuzkelor_account account;
};

struct cycles {
    uint32_t fetch, write_back, update;
};

static void check(bool holds, const char *what) {
    if (holds) return;
    printf("failed: %s\n", what);
    exit(1);
}

static void passed(const char *name) { printf("%s: passed\n", name); }

static cuzkelor_numbers lent(uint32_t *at, size_t length) {
    cuzkelor_numbers numbers = {at, length};
    return numbers;
}

static cuzkelor_bytes lent_bytes(uint8_t *at, size_t length) {
    cuzkelor_bytes bytes = {at, length};
    return bytes;
}

static cuzkelor_tables tables_of(struct host *h) {
    size_t slots = cuzkelor_slot_count(h->setup);
    cuzkelor_tables tables = {lent(h->blocks, slots),
                              lent(h->counters, slots),
                              lent(h->marks, slots),
                              lent(h->words, cuzkelor_word_count(h->setup)),
                              lent(h->memory, cuzkelor_variable_count(h->setup)),
                              lent_bytes(h->masks, cuzkelor_mask_count(h->setup))};
    return tables;
}

/* Whether each mask has the bits of the block's holders, and no other one. */
static bool masks_true(const struct host *h) {
    for (uint32_t block = 0; block < h->setup.block_count; block++) {
        uint32_t mask = 0;
        for (uint32_t i = 0; i < h->setup.processors; i++) {
            uint32_t slot = i * h->setup.lines + block % h->setup.lines;
            if (h->counters[slot] > 0 && h->blocks[slot] == block) mask += (uint32_t)1 << i;
        }
        if (h->masks[block] != mask) return false;
    }
    return true;
}

static struct host fresh(cuzkelor_setup setup) {
    struct host h;
    memset(&h, 0x77, sizeof h);
    h.setup = setup;
    memset(&h.account, 0, sizeof h.account);
    cuzkelor_tables tables = tables_of(&h);
    check(cuzkelor_start_tables(setup, &tables) == CUZKELOR_NO_REFUSAL, "starting");
    check(masks_true(&h), "the masks of started tables");
    return h;
}

static cuzkelor_run_answer try_one(struct host *h, cuzkelor_request request, uint32_t *value) {
    cuzkelor_tables tables = tables_of(h);
    return cuzkelor_run_requests(h->setup, &tables, &h->account, &request, 1, value, 1);
}

/* One request that is taken, supplies or writes this value, and is charged these cycles. */
static void one(struct host *h, cuzkelor_request request, uint32_t value, struct cycles cycles) {
    cuzkelor_account before = h->account;
    uint32_t got = GARBAGE;
    cuzkelor_run_answer answer = try_one(h, request, &got);
    check(answer.refusal == 0 && answer.taken == 1 && answer.place == 0, "the answer");
    check(got == value, "the value");
    check(h->account.requests == before.requests + 1, "requests taken");
    check(h->account.fetch == before.fetch + cycles.fetch, "fetch cycles");
    check(h->account.write_back == before.write_back + cycles.write_back, "write-back cycles");
    check(h->account.update == before.update + cycles.update, "update cycles");
    check(masks_true(h), "the masks");
}

static void reads(struct host *h, uint32_t i, uint32_t variable, uint32_t value, struct cycles cycles) {
    one(h, cuzkelor_read(i, cuzkelor_make_variable(variable)), value, cycles);
}

static void writes(struct host *h, uint32_t i, uint32_t variable, uint32_t value, struct cycles cycles) {
    one(h, cuzkelor_write(i, cuzkelor_make_variable(variable), value), value, cycles);
}

static void clears(struct host *h, uint32_t i, uint32_t write_backs) {
    struct cycles cycles = {0, write_backs * h->setup.write_back_price, 0};
    one(h, cuzkelor_clear(i), 0, cycles);
}

static const struct cycles NOTHING = {0, 0, 0}, FETCH = {P, 0, 0}, UPDATE = {0, 0, 1};

/* Counter and mark of line 0 in a processor's cache. */
static bool line_0(const struct host *h, uint32_t i, uint32_t counter, uint32_t mark) {
    return h->counters[i * L] == counter && h->marks[i * L] == mark;
}

static struct host after_s1(void) {
    struct host h = fresh(SETUP);
    reads(&h, 0, 0, 0, FETCH);
    return h;
}

static struct host after_s3(void) {
    struct host h = after_s1();
    writes(&h, 0, 0, 7, NOTHING);
    return h;
}

static struct host after_s4(void) {
    struct host h = after_s3();
    reads(&h, 1, 0, 7, FETCH);
    return h;
}

static struct host after_s5(void) {
    struct host h = after_s4();
    for (uint32_t k = 1; k <= 4; k++) {
        check(line_0(&h, 1, 5 - k, 0), "the payer's counter");
        writes(&h, 0, k % 4, k, UPDATE);
    }
    return h;
}

static void s1(void) {
    struct host h = after_s1();
    check(line_0(&h, 0, 4, 0), "counter 4");
}

static void s2(void) {
    struct host h = after_s1(), before = h;
    reads(&h, 0, 0, 0, NOTHING);
    h.account = before.account;
    check(memcmp(&h, &before, sizeof h) == 0, "tables unchanged");
}

static void s3(void) {
    struct host h = after_s3();
    check(line_0(&h, 0, 4, 1) && h.memory[0] == 0, "marked, memory as it was");
}

static void s4(void) {
    struct host h = after_s4();
    check(line_0(&h, 0, 4, 0) && line_0(&h, 1, 4, 0), "both counters 4, no mark");
    check(h.memory[0] == 7, "memory holds 7");
}

static void s5(void) {
    struct host h = after_s5();
    check(line_0(&h, 1, 0, 0) && h.words[L * P] == 0, "the fourth empties 1's line");
}

static void s6(void) {
    struct host h = after_s5();
    writes(&h, 0, 0, 9, NOTHING);
    check(line_0(&h, 0, 4, 1), "marked");
}

static void s7(void) {
    struct host h = after_s3();
    struct cycles both = {P, P, 0};
    reads(&h, 0, 32, 0, both);
    check(h.memory[0] == 7 && h.blocks[0] == 8, "written back, block 8 in its place");
}

static void s8(void) {
    struct host h = after_s1();
    reads(&h, 0, 32, 0, FETCH);
}

static void s9(void) {
    struct host h = fresh(SETUP);
    for (uint32_t i = 0; i < 3; i++) reads(&h, i, 0, 0, FETCH);
    writes(&h, 1, 0, 5, UPDATE);
    check(line_0(&h, 0, 3, 0) && line_0(&h, 1, 4, 0) && line_0(&h, 2, 4, 0), "0 pays");
}

/* Beside S9: counters 4 and 2. */
static void weakest_pays(void) {
    struct host h = fresh(SETUP);
    reads(&h, 0, 0, 0, FETCH);
    reads(&h, 2, 0, 0, FETCH);
    writes(&h, 0, 0, 5, UPDATE);
    writes(&h, 0, 0, 6, UPDATE);
    reads(&h, 1, 0, 6, FETCH);
    check(line_0(&h, 0, 4, 0) && line_0(&h, 2, 2, 0), "counters 4 and 2");
    writes(&h, 1, 0, 7, UPDATE);
    check(line_0(&h, 0, 4, 0) && line_0(&h, 1, 4, 0) && line_0(&h, 2, 1, 0), "2 pays");
}

/* Copies of block 0 in every cache, with counters that no run from fresh tables leaves: i writes. */
static void pays(const uint32_t before[N], uint32_t i, const uint32_t after[N]) {
    struct host h = fresh(SETUP);
    for (uint32_t j = 0; j < N; j++) h.counters[j * L] = before[j];
    h.masks[0] = (1 << N) - 1;
    writes(&h, i, 0, 5, UPDATE);
    for (uint32_t j = 0; j < N; j++) check(line_0(&h, j, after[j], 0), "the payer on other tables");
}

static void payers(void) {
    static const uint32_t equal[N] = {4, 2, 2, 3}, lowest[N] = {4, 1, 2, 4};
    static const uint32_t falling[N] = {3, 4, 2, 1}, highest[N] = {3, 4, 2, 0};
    static const uint32_t own[N] = {1, 3, 2, 3}, another[N] = {4, 3, 1, 3};
    pays(equal, 3, lowest);
    pays(falling, 1, highest);
    pays(own, 0, another);
}

static void s10(void) {
    struct host h = fresh(ONE_WORD);
    struct cycles fetch = {1, 0, 0};
    reads(&h, 0, 0, 0, fetch);
    reads(&h, 1, 0, 0, fetch);
    writes(&h, 0, 0, 5, UPDATE);
    check(line_0(&h, 0, 1, 0) && line_0(&h, 1, 0, 0), "the other line empties");
}

static void s11(void) {
    struct host h = after_s3(), before = h;
    cuzkelor_tables tables = tables_of(&h);
    cuzkelor_request none;
    uint32_t value;
    cuzkelor_run_answer answer = cuzkelor_run_requests(SETUP, &tables, &h.account, &none, 0, &value, 0);
    check(answer.refusal == 0 && answer.taken == 0 && answer.place == 0, "0 taken");
    check(memcmp(&h, &before, sizeof h) == 0, "nothing changes");
}

static void s12(void) {
    struct host h = fresh(SETUP), before;
    cuzkelor_account nearly = {999999, 4 * 999999, 4 * 999999, 999999};
    uint32_t value = GARBAGE;
    h.account = nearly;
    reads(&h, 0, 0, 0, FETCH);
    before = h;
    cuzkelor_run_answer answer = try_one(&h, cuzkelor_read(0, cuzkelor_make_variable(0)), &value);
    check(answer.refusal == CUZKELOR_ACCOUNT_FULL && answer.taken == 0 && answer.place == 0, "22");
    check(value == GARBAGE && memcmp(&h, &before, sizeof h) == 0, "nothing changes");
}

/* S3 to S7, with a counter that is full at the fetch price, whatever the words in a block are. */
static void sessions_at(cuzkelor_setup setup) {
    struct host h = fresh(setup);
    struct cycles fetch = {setup.fetch_price, 0, 0}, both = {setup.fetch_price, setup.write_back_price, 0};
    writes(&h, 0, 0, 7, fetch);
    check(line_0(&h, 0, setup.fetch_price, 1), "marked, counter full");
    reads(&h, 1, 0, 7, fetch);
    for (uint32_t left = setup.fetch_price; left > 0; left--) {
        check(line_0(&h, 1, left, 0), "the payer's counter");
        writes(&h, 0, 0, left, UPDATE);
    }
    check(line_0(&h, 1, 0, 0), "the last update empties 1's line");
    writes(&h, 0, 0, 9, NOTHING);
    reads(&h, 0, 32, 0, both);
    check(h.memory[0] == 9, "written back");
}

static void prices(void) {
    cuzkelor_setup below = {N, L, P, M, 2, 1}, least = {N, L, P, M, 1, 1}, most = {N, L, P, M, 32, 32};
    sessions_at(PIPELINED);
    sessions_at(below);
    sessions_at(least);
    sessions_at(most);
}

/* Marked blocks in lines 0 and 3, and an unmarked one in line 7 that another cache has too. */
static void clear_of_three_blocks(void) {
    struct host h = fresh(SETUP), after;
    writes(&h, 1, 0, 7, FETCH);
    writes(&h, 1, 13, 8, FETCH);
    writes(&h, 1, 31, 6, FETCH);
    reads(&h, 2, 31, 6, FETCH);
    writes(&h, 2, 40, 9, FETCH);
    after = h;
    memset(after.blocks + L, 0, L * sizeof after.blocks[0]);
    memset(after.counters + L, 0, L * sizeof after.counters[0]);
    memset(after.marks + L, 0, L * sizeof after.marks[0]);
    memset(after.words + L * P, 0, L * P * sizeof after.words[0]);
    after.memory[0] = 7;
    after.memory[13] = 8;
    after.masks[0] = after.masks[3] = 0;
    after.masks[7] = 1 << 2;
    clears(&h, 1, 2);
    after.account = h.account;
    check(memcmp(&h, &after, sizeof h) == 0, "1's lines are empty, memory has the marked words");
    clears(&h, 1, 0);
    after.account = h.account;
    check(memcmp(&h, &after, sizeof h) == 0, "an empty cache stays empty");
}

/* The last other holder is cleared, so that the next write is alone; its value outlives a clear. */
static void clear_of_a_shared_block(void) {
    struct host h = fresh(SETUP);
    reads(&h, 0, 0, 0, FETCH);
    reads(&h, 1, 0, 0, FETCH);
    clears(&h, 0, 0);
    check(line_0(&h, 0, 0, 0) && line_0(&h, 1, 4, 0), "only 0's copy is gone");
    writes(&h, 1, 0, 5, NOTHING);
    check(line_0(&h, 1, 4, 1), "marked");
    clears(&h, 1, 1);
    reads(&h, 0, 0, 5, FETCH);
}

static void refused_clears(void) {
    struct host h = after_s3(), before;
    uint32_t value = GARBAGE;
    h.account.requests = CUZKELOR_MOST_REQUESTS;
    before = h;
    check(try_one(&h, cuzkelor_clear(N), &value).refusal == CUZKELOR_NO_SUCH_PROCESSOR, "3 comes before 22");
    check(try_one(&h, cuzkelor_clear(0), &value).refusal == CUZKELOR_ACCOUNT_FULL, "22");
    check(value == GARBAGE && memcmp(&h, &before, sizeof h) == 0, "nothing changes");
}

/* Any operation number but 1 and 2 reads; what a clear does not need plays no part. */
static void operation_numbers(void) {
    static const uint32_t reading[] = {0, 3, 4, UINT32_MAX};
    struct host h = fresh(SETUP);
    struct cycles write_back = {0, P, 0};
    writes(&h, 0, 5, 9, FETCH);
    for (size_t k = 0; k < sizeof reading / sizeof reading[0]; k++) {
        cuzkelor_request request = {0, reading[k], {5}, 6};
        one(&h, request, 9, NOTHING);
    }
    cuzkelor_request request = {0, CUZKELOR_CLEAR, {UINT32_MAX}, 6};
    one(&h, request, 0, write_back);
}

/* Every line is marked, at the highest price, and the account is on the limit of 21, with one request to go. */
static void most_write_back_cycles(void) {
    struct host h = fresh(ONE_CACHE);
    struct cycles fetch = {32, 0, 0};
    cuzkelor_account nearly = {999999, 0, 2048 * 999999, 0};
    uint32_t value;
    for (uint32_t variable = 0; variable < CUZKELOR_MOST_LINES; variable++) {
        writes(&h, 0, variable, variable + 1, fetch);
    }
    h.account = nearly;
    clears(&h, 0, CUZKELOR_MOST_LINES);
    check(h.account.write_back == 2048000000, "2,048,000,000 write-back cycles");
    for (uint32_t variable = 0; variable < CUZKELOR_MOST_LINES; variable++) {
        check(h.memory[variable] == variable + 1 && h.counters[variable] == 0, "written back and empty");
    }
    check(try_one(&h, cuzkelor_clear(0), &value).refusal == CUZKELOR_ACCOUNT_FULL, "then 22");
}

static bool possible(uint32_t requests, struct cycles cycles) {
    struct host h = fresh(PIPELINED);
    cuzkelor_account account = {requests, cycles.fetch, cycles.write_back, cycles.update};
    cuzkelor_tables tables = tables_of(&h);
    cuzkelor_request none;
    uint32_t value;
    uint32_t refusal = cuzkelor_run_requests(PIPELINED, &tables, &account, &none, 0, &value, 0).refusal;
    check(refusal == CUZKELOR_NO_REFUSAL || refusal == CUZKELOR_IMPOSSIBLE_ACCOUNT, "21 or nothing");
    return refusal == CUZKELOR_NO_REFUSAL;
}

static void account_limits(void) {
    static const uint32_t counts[] = {0, 1, 999999, UINT32_MAX / (4 * L)};
    for (size_t k = 0; k < sizeof counts / sizeof counts[0]; k++) {
        uint32_t requests = counts[k];
        struct cycles most = {5 * requests, 4 * L * requests, requests}, fetch = most, write_back = most, update = most;
        fetch.fetch++;
        write_back.write_back++;
        update.update++;
        check(possible(requests, most) && !possible(requests, fetch), "5 fetch cycles a request");
        check(!possible(requests, write_back) && !possible(requests, update), "4 write-back cycles a line, 1 update");
    }
    struct cycles any = {UINT32_MAX, UINT32_MAX, UINT32_MAX}, write_back = {0, UINT32_MAX, 0};
    check(possible(UINT32_MAX, any), "products over 32 bits");
    check(possible(UINT32_MAX / (4 * L) + 1, write_back), "one that is 0 in 32 bits");
}

static void limits(void) {
    struct host h = fresh(SETUP);
    uint32_t value;
    reads(&h, 0, 255, 0, FETCH);
    cuzkelor_run_answer answer = try_one(&h, cuzkelor_read(0, cuzkelor_make_variable(256)), &value);
    check(answer.refusal == CUZKELOR_NO_SUCH_VARIABLE, "variable 256");
    cuzkelor_tables tables = tables_of(&h);
    struct host before = h;
    check(cuzkelor_start_tables(NINE_PROCESSORS, &tables) == CUZKELOR_SETUP_OUT_OF_RANGE, "nine processors");
    check(cuzkelor_start_tables(DEAR_WRITE_BACK, &tables) == CUZKELOR_PRICE_OUT_OF_RANGE, "a dear write-back");
    check(cuzkelor_start_tables(NINE_AND_DEAR, &tables) == CUZKELOR_SETUP_OUT_OF_RANGE, "1 comes before 10");
    tables.marks.length--;
    check(cuzkelor_start_tables(SETUP, &tables) == CUZKELOR_WRONG_LENGTH, "marks too short");
    check(cuzkelor_start_tables(DEAR_WRITE_BACK, &tables) == CUZKELOR_PRICE_OUT_OF_RANGE, "10 comes before 2");
    check(memcmp(&h, &before, sizeof h) == 0, "no table changes");
}

static void printed_trace(void) {
    static const char trace[] = "0 00000000\n0 01000000\n1 00000000\n1 4\n";
    struct host h = fresh(cuzkelor_trace_setup());
    cuzkelor_tables tables = tables_of(&h);
    check(memcmp(&h.setup, &SETUP, sizeof SETUP) == 0, "the setup of every trace");
    cuzkelor_report report = cuzkelor_count_din(&tables, trace, sizeof trace - 1);
    cuzkelor_account account = {4, 8, 0, 2};
    check(report.refusal == 0 && report.line == 0, "ended 0 0");
    check(memcmp(&report.account, &account, sizeof account) == 0, "the account");
    report = cuzkelor_count_din(&tables, "0 0\n3 0\n", 8);
    check(report.refusal == CUZKELOR_UNKNOWN_LABEL && report.line == 2, "label 3");
    tables.memory.length--;
    report = cuzkelor_count_din(&tables, "x", 1);
    check(report.refusal == CUZKELOR_WRONG_LENGTH && report.line == 0, "memory too short");
}

/* Processor 2 has two marked blocks and an unmarked one, and is cleared by an address whose other bits are set. */
static void traced_clears(void) {
    static const char trace[] = "1 02000000\n1 02000010\n0 01000010\n1 02000020\n4 02ffffff\n0 02000000\n";
    struct host h = fresh(cuzkelor_trace_setup());
    cuzkelor_tables tables = tables_of(&h);
    cuzkelor_report report = cuzkelor_count_din(&tables, trace, sizeof trace - 1);
    cuzkelor_account account = {6, 20, 8, 0};
    check(report.refusal == 0 && memcmp(&report.account, &account, sizeof account) == 0, "the account");
    check(line_0(&h, 2, 4, 0) && h.counters[2 * L + 1] == 0 && h.memory[8] == 4, "cleared, then read");
    report = cuzkelor_count_din(&tables, "4 04000000", 10);
    check(report.refusal == CUZKELOR_NO_SUCH_PROCESSOR && report.line == 1, "processor 4");
    report = cuzkelor_count_din(&tables, "5 00000000", 10);
    check(report.refusal == CUZKELOR_UNKNOWN_LABEL && report.line == 1, "label 5");
}

static void a_look(void) {
    struct host h = after_s3();
    cuzkelor_tables tables = tables_of(&h);
    reads(&h, 2, 45, 0, FETCH);
    cuzkelor_block block = cuzkelor_block_of(SETUP, cuzkelor_make_variable(45));
    cuzkelor_part part = cuzkelor_look(SETUP, &tables, 2, block);
    check(block.number == 11 && part.length == P, "block 11 is held by 2");
    check(part.at == h.words + (2 * L + 3) * P, "in line 3");
    check(cuzkelor_look(SETUP, &tables, 1, block).length == 0, "not by 1");
    part = cuzkelor_look(SETUP, &tables, 0, cuzkelor_make_block(0));
    check(part.length == P && part.at[0] == 7, "block 0 shows the word written");
    check(cuzkelor_look(PIPELINED, &tables, 2, block).length == P, "at other prices too");
    check(cuzkelor_look(DEAR_WRITE_BACK, &tables, 2, block).length == 0, "but not at prices out of range");
}

static void a_schedule(void) {
    uint32_t blocks[SLOTS], held[SLOTS], marks[SLOTS];
    cuzkelor_rival rival = {CUZKELOR_LENT(blocks), CUZKELOR_LENT(held), CUZKELOR_LENT(marks)};
    cuzkelor_block zero = cuzkelor_make_block(0), nine = cuzkelor_make_block(9);
    cuzkelor_variable v = cuzkelor_make_variable(0);
    cuzkelor_request requests[] = {cuzkelor_read(0, v), cuzkelor_write(1, v, 5), cuzkelor_write(1, v, 6)};
    cuzkelor_entry entries[] = {cuzkelor_fetch(0, zero),          cuzkelor_complete(),     cuzkelor_fetch(1, zero),
                                cuzkelor_complete_by_broadcast(), cuzkelor_drop(0, zero),  cuzkelor_complete(),
                                cuzkelor_fetch(2, nine),          cuzkelor_drop(1, zero)};
    memset(blocks, 0x77, sizeof blocks);
    memset(held, 0x77, sizeof held);
    memset(marks, 0x77, sizeof marks);
    cuzkelor_price_answer answer = cuzkelor_price_schedule(PIPELINED, &rival, entries, 7, requests, 3);
    check(answer.refusal == 0 && answer.place == 0 && answer.cost == 5 + 0 + 5 + 1 + 0 + 0 + 5, "the cost");
    check(held[0] == 0 && held[L] == 1 && marks[L] == 1, "1 holds block 0, marked");
    check(held[2 * L + 1] == 1 && blocks[2 * L + 1] == 9 && marks[2 * L + 1] == 0, "2 holds block 9");
    answer = cuzkelor_price_schedule(PIPELINED, &rival, entries, 8, requests, 3);
    check(answer.refusal == CUZKELOR_DROP_OF_MARKED && answer.place == 7 && answer.cost == 0, "25 at 7");
    check(held[L] == 0 && blocks[2 * L + 1] == 0, "tables all 0");
    entries[7] = cuzkelor_write_back(1, zero);
    answer = cuzkelor_price_schedule(PIPELINED, &rival, entries, 8, requests, 3);
    check(answer.refusal == 0 && answer.cost == 16 + 4 && marks[L] == 0, "written back");
}

/* The answer where one cache holds a block and then a clear is completed. */
static cuzkelor_price_answer priced_clear(uint32_t holder, uint32_t block, cuzkelor_entry completion, uint32_t i) {
    uint32_t blocks[SLOTS], held[SLOTS], marks[SLOTS];
    cuzkelor_rival rival = {CUZKELOR_LENT(blocks), CUZKELOR_LENT(held), CUZKELOR_LENT(marks)};
    cuzkelor_entry entries[] = {cuzkelor_fetch(holder, cuzkelor_make_block(block)), completion};
    cuzkelor_request request = cuzkelor_clear(i);
    cuzkelor_price_answer answer = cuzkelor_price_schedule(PIPELINED, &rival, entries, 2, &request, 1);
    check((held[holder * L + block] == 1) == (answer.refusal == 0), "tables all 0 if refused");
    check(answer.place == (answer.refusal == 0 ? 0 : 1) && answer.cost == (answer.refusal == 0 ? 5 : 0), "the cost");
    return answer;
}

static void schedules_with_clears(void) {
    cuzkelor_entry broadcast = cuzkelor_complete_by_broadcast();
    for (uint32_t line = 0; line < L; line++) {
        for (uint32_t i = 0; i < N; i++) {
            uint32_t refusal = i == 1 ? CUZKELOR_CACHE_NOT_EMPTY : CUZKELOR_NO_REFUSAL;
            check(priced_clear(1, line, cuzkelor_complete(), i).refusal == refusal, "29 of the cache with the block");
            check(priced_clear(1, line, broadcast, i).refusal == CUZKELOR_BROADCAST_WITHOUT_WRITE, "9 of any");
        }
        check(priced_clear(1, line, broadcast, N).refusal == CUZKELOR_NO_SUCH_PROCESSOR, "3 comes before 9");
    }
    uint32_t blocks[SLOTS], held[SLOTS], marks[SLOTS];
    cuzkelor_rival rival = {CUZKELOR_LENT(blocks), CUZKELOR_LENT(held), CUZKELOR_LENT(marks)};
    cuzkelor_block zero = cuzkelor_make_block(0);
    cuzkelor_request requests[] = {cuzkelor_write(1, cuzkelor_make_variable(0), 5), cuzkelor_clear(1)};
    cuzkelor_entry entries[] = {cuzkelor_fetch(1, zero), cuzkelor_complete(), cuzkelor_write_back(1, zero),
                                cuzkelor_drop(1, zero), cuzkelor_complete()};
    cuzkelor_price_answer answer = cuzkelor_price_schedule(PIPELINED, &rival, entries, 5, requests, 2);
    check(answer.refusal == 0 && answer.cost == 5 + 0 + 4 + 0 + 0, "written back, dropped, cleared");
    requests[1] = cuzkelor_clear(0);
    entries[2] = cuzkelor_complete();
    answer = cuzkelor_price_schedule(PIPELINED, &rival, entries, 3, requests, 2);
    check(answer.refusal == 0 && answer.cost == 5 && marks[L] == 1, "another cache's mark stays");
}

/* What the archive writes in a run and a price over lists of so many numbers; the out-parameters hold garbage before.
 * A list whose length is no whole number of records is refused by 2, after 1 and 10. By a refusal nothing changes. */
static uint32_t run_numbers(struct host *h, cuzkelor_setup setup, size_t length, size_t value_count) {
    uint32_t numbers[12] = {0}, values[3] = {GARBAGE, GARBAGE, GARBAGE};
    size_t taken = GARBAGE, place = GARBAGE;
    struct host before = *h;
    uint32_t refusal = cuzkelor_run(setup.processors, setup.lines, setup.block_words, setup.block_count,
                                    setup.fetch_price, setup.write_back_price, h->blocks, SLOTS, h->counters, SLOTS,
                                    h->marks, SLOTS, h->words, SLOTS * P, h->memory, M * P, h->masks, M,
                                    &h->account.requests, &h->account.fetch, &h->account.write_back,
                                    &h->account.update, numbers, length, values, value_count, &taken, &place);
    if (refusal == 0) return 0;
    check(taken == 0 && place == 0 && values[0] == GARBAGE, "nothing taken");
    check(memcmp(h, &before, sizeof before) == 0, "nothing changes");
    return refusal;
}

static uint32_t price_numbers(cuzkelor_setup setup, size_t entries_length, size_t requests_length) {
    uint32_t entries[6] = {CUZKELOR_FETCH, 0, 0, CUZKELOR_COMPLETE, 0, 0}, requests[8] = {0}, cost = GARBAGE;
    uint32_t tables[3][SLOTS];
    size_t place = GARBAGE;
    memset(tables, 0x77, sizeof tables);
    uint32_t refusal = cuzkelor_price(setup.processors, setup.lines, setup.block_words, setup.block_count,
                                      setup.fetch_price, setup.write_back_price, tables[0], SLOTS, tables[1], SLOTS,
                                      tables[2], SLOTS, entries, entries_length, requests, requests_length, &place,
                                      &cost);
    if (refusal == 0) return 0;
    check(place == 0 && cost == 0, "no place and no cost");
    check(tables[0][0] == 0x77777777 && tables[1][0] == 0x77777777 && tables[2][0] == 0x77777777, "tables unchanged");
    return refusal;
}

static void whole_lists(void) {
    struct host h = fresh(SETUP);
    for (size_t length = 0; length <= 12; length++) {
        uint32_t refusal = length % CUZKELOR_REQUEST_NUMBERS == 0 ? 0 : CUZKELOR_WRONG_LENGTH;
        check(run_numbers(&h, SETUP, length, length / 4) == refusal, "a list of requests");
        check(run_numbers(&h, SETUP, length, (length + 3) / 4) == refusal, "a list with a value for its rest");
        check(run_numbers(&h, NINE_AND_DEAR, length, length / 4) == CUZKELOR_SETUP_OUT_OF_RANGE, "1 comes first");
        check(run_numbers(&h, DEAR_WRITE_BACK, length, length / 4) == CUZKELOR_PRICE_OUT_OF_RANGE, "then 10");
    }
    for (size_t rest = 1; rest < 4; rest++) {
        check(price_numbers(SETUP, 6, 4 + rest) == CUZKELOR_WRONG_LENGTH, "the requests of a schedule");
        check(price_numbers(NINE_AND_DEAR, 6, 4 + rest) == CUZKELOR_SETUP_OUT_OF_RANGE, "1 comes first");
        check(price_numbers(DEAR_WRITE_BACK, 6, 4 + rest) == CUZKELOR_PRICE_OUT_OF_RANGE, "then 10");
    }
    check(price_numbers(SETUP, 6, 4) == CUZKELOR_NO_REFUSAL, "whole lists");
    check(price_numbers(SETUP, 5, 4) == CUZKELOR_WRONG_LENGTH, "a schedule less one number");
    check(price_numbers(SETUP, 4, 4) == CUZKELOR_WRONG_LENGTH, "a schedule less two numbers");
    check(price_numbers(NINE_PROCESSORS, 6, 4) == CUZKELOR_SETUP_OUT_OF_RANGE, "nine processors");
    check(price_numbers(DEAR_WRITE_BACK, 6, 4) == CUZKELOR_PRICE_OUT_OF_RANGE, "a dear write-back");
}

/* What changes the masks, one after the other. Blocks 0 and 8 have line 0. */
static void masks_by_hand(void) {
    struct host h = fresh(SETUP);
    reads(&h, 0, 0, 0, FETCH);
    check(h.masks[0] == 1, "a miss");
    reads(&h, 3, 0, 0, FETCH);
    reads(&h, 2, 0, 0, FETCH);
    check(h.masks[0] == 1 + 4 + 8, "three holders");
    reads(&h, 3, 32, 0, FETCH);
    check(h.masks[0] == 1 + 4 && h.masks[8] == 8, "an eviction");
    for (uint32_t k = 1; k <= 4; k++) {
        writes(&h, 2, 0, k, UPDATE);
        check(h.masks[0] == (k < 4 ? 1 + 4 : 4), "broadcasts, of which the last empties the payer's line");
    }
    writes(&h, 2, 0, 9, NOTHING);
    check(h.masks[0] == 4, "a write alone");
    clears(&h, 2, 1);
    check(h.masks[0] == 0 && h.masks[8] == 8, "a clear");
}

/* The refusal of a run of one write by a processor, where so many masks are lent: those of the host, cut or with
 * further ones of 0. By 1, 10, 2, 20 and 21 nothing changes. */
static uint32_t run_with_masks(struct host *h, cuzkelor_setup setup, size_t mask_count, uint32_t processor) {
    uint8_t masks[2 * M] = {0}, masks_before[2 * M];
    uint32_t value = GARBAGE;
    memcpy(masks, h->masks, M);
    memcpy(masks_before, masks, sizeof masks);
    struct host before = *h;
    cuzkelor_tables tables = tables_of(h);
    tables.masks = lent_bytes(masks, mask_count);
    cuzkelor_request request = cuzkelor_write(processor, cuzkelor_make_variable(4), 5);
    cuzkelor_run_answer answer = cuzkelor_run_requests(setup, &tables, &h->account, &request, 1, &value, 1);
    if (cuzkelor_refuses_call(answer.refusal)) {
        check(answer.taken == 0 && answer.place == 0 && value == GARBAGE, "nothing taken");
        check(memcmp(h, &before, sizeof before) == 0, "nothing changes");
        check(memcmp(masks, masks_before, sizeof masks) == 0, "no mask changes");
    }
    return answer.refusal;
}

/* Block 0 is held by 0 and 1, the last block by 3, and most blocks by none. */
static struct host some_holders(void) {
    struct host h = after_s4();
    reads(&h, 3, P * M - 1, 0, FETCH);
    check(h.masks[0] == 1 + 2 && h.masks[1] == 0 && h.masks[M - 1] == 8, "some holders");
    return h;
}

/* The requests before a refused one count: 0 evicts block 0, and 2 fetches it. */
static void masks_of_a_stopped_run(void) {
    struct host h = some_holders();
    cuzkelor_tables tables = tables_of(&h);
    uint32_t values[4];
    cuzkelor_variable zero = cuzkelor_make_variable(0), missing = cuzkelor_make_variable(P * M);
    cuzkelor_request requests[] = {cuzkelor_read(0, cuzkelor_make_variable(32)), cuzkelor_read(2, zero),
                                   cuzkelor_read(3, missing), cuzkelor_read(3, zero)};
    cuzkelor_run_answer answer = cuzkelor_run_requests(SETUP, &tables, &h.account, requests, 4, values, 4);
    check(answer.refusal == CUZKELOR_NO_SUCH_VARIABLE && answer.place == 2, "stopped by 4");
    check(masks_true(&h) && h.masks[0] == 2 + 4 && h.masks[8] == 1, "the masks");
}

/* Each bit of each mask turned over: it is missing, or of a processor without the block, or of none. */
static void false_masks(void) {
    struct host h = some_holders();
    for (uint32_t bit = 0; bit < 8 * M; bit++) {
        uint8_t *mask = &h.masks[bit / 8], is_true = *mask;
        *mask = (uint8_t)(is_true ^ 1u << bit % 8);
        check(run_with_masks(&h, SETUP, M, 0) == CUZKELOR_UNSOUND_TABLES, "a false mask");
        *mask = is_true;
    }
    h.masks[1] = h.masks[0];
    h.masks[0] = 0;
    check(run_with_masks(&h, SETUP, M, 0) == CUZKELOR_UNSOUND_TABLES, "the mask of another block");
    check(run_numbers(&h, SETUP, 0, 0) == CUZKELOR_UNSOUND_TABLES, "of no requests too");
    h.masks[0] = h.masks[1];
    h.masks[1] = 0;
    check(run_with_masks(&h, SETUP, M, 0) == CUZKELOR_NO_REFUSAL, "true masks");
}

static void mask_lengths(void) {
    struct host h = some_holders(), before = h;
    cuzkelor_tables tables = tables_of(&h);
    for (size_t count = 0; count <= 2 * M; count++) {
        if (count == M) continue;
        uint8_t masks[2 * M], masks_before[2 * M];
        memset(masks, 0x77, sizeof masks);
        memset(masks_before, 0x77, sizeof masks);
        tables.masks = lent_bytes(masks, count);
        check(run_with_masks(&h, SETUP, count, 0) == CUZKELOR_WRONG_LENGTH, "a run");
        check(cuzkelor_start_tables(SETUP, &tables) == CUZKELOR_WRONG_LENGTH, "starting");
        check(cuzkelor_start_tables(DEAR_WRITE_BACK, &tables) == CUZKELOR_PRICE_OUT_OF_RANGE, "after 10");
        check(cuzkelor_start_tables(NINE_AND_DEAR, &tables) == CUZKELOR_SETUP_OUT_OF_RANGE, "after 1");
        check(memcmp(masks, masks_before, sizeof masks) == 0, "no mask changes");
        check(memcmp(&h, &before, sizeof h) == 0, "no table changes");
    }
}

/* In the order of the checks, with everything met that comes later. */
static void masks_in_order(void) {
    struct host h = some_holders();
    cuzkelor_account impossible = {0, 1, 0, 0};
    h.account = impossible;
    h.masks[M - 1] = 0;
    check(run_with_masks(&h, NINE_AND_DEAR, M - 1, N) == CUZKELOR_SETUP_OUT_OF_RANGE, "1 comes first");
    check(run_with_masks(&h, DEAR_WRITE_BACK, M - 1, N) == CUZKELOR_PRICE_OUT_OF_RANGE, "then 10");
    check(run_with_masks(&h, SETUP, M - 1, N) == CUZKELOR_WRONG_LENGTH, "then 2");
    check(run_with_masks(&h, SETUP, M, N) == CUZKELOR_UNSOUND_TABLES, "then 20");
    h.masks[M - 1] = 8;
    h.counters[0] = P + 1;
    check(run_with_masks(&h, SETUP, M + 1, N) == CUZKELOR_WRONG_LENGTH, "2 comes before 20 of the tables");
    check(run_with_masks(&h, SETUP, M, N) == CUZKELOR_UNSOUND_TABLES, "which true masks do not help");
    h.counters[0] = P;
    check(run_with_masks(&h, SETUP, M, N) == CUZKELOR_IMPOSSIBLE_ACCOUNT, "then 21");
    memset(&h.account, 0, sizeof h.account);
    check(run_with_masks(&h, SETUP, M, N) == CUZKELOR_NO_SUCH_PROCESSOR, "then 3");
}

/* Looks and traces are lent no masks. Before a run goes on from what a trace left, its masks are made. */
static void masks_of_a_trace(void) {
    static const char trace[] = "0 00000000\n0 01000000\n1 03000004\n0 02000300\n";
    const size_t length = sizeof trace - 1;
    struct host h = fresh(cuzkelor_trace_setup()), before;
    cuzkelor_tables tables = tables_of(&h), without = tables;
    without.masks = lent_bytes(NULL, 0);
    check(cuzkelor_count_din(&without, trace, length).refusal == CUZKELOR_NO_REFUSAL, "counted without masks");
    check(cuzkelor_look(SETUP, &without, 1, cuzkelor_make_block(0)).length == P, "a look without masks");
    memset(h.masks, 0x77, sizeof h.masks);
    before = h;
    check(cuzkelor_count_din(&tables, trace, length).refusal == CUZKELOR_NO_REFUSAL, "counted with masks");
    check(memcmp(&h, &before, sizeof h) == 0, "which stay");
    check(run_with_masks(&h, SETUP, M, 0) == CUZKELOR_UNSOUND_TABLES, "the masks are false");
    cuzkelor_fill_masks(SETUP, &tables);
    memcpy(before.masks, h.masks, sizeof h.masks);
    check(memcmp(&h, &before, sizeof h) == 0 && masks_true(&h), "only the masks are made anew");
    check(h.masks[0] == 1 + 2 + 8 && h.masks[48] == 4, "of the trace's copies");
    reads(&h, 2, 0, 0, FETCH);
}

/* Marsaglia's seed, and the first requests that it gives on SETUP. */
static const uint32_t KNOWN_SEED = 2463534242;
enum { KNOWN = 6 };

static void known_requests(cuzkelor_request requests[KNOWN]) {
    requests[0] = cuzkelor_read(3, cuzkelor_make_variable(122));
    requests[1] = cuzkelor_read(2, cuzkelor_make_variable(225));
    requests[2] = cuzkelor_write(2, cuzkelor_make_variable(61), 746858951);
    requests[3] = cuzkelor_write(1, cuzkelor_make_variable(109), 3149294349);
    requests[4] = cuzkelor_read(2, cuzkelor_make_variable(120));
    requests[5] = cuzkelor_read(0, cuzkelor_make_variable(5));
}

/* Two requests more than the longest list; what is not yet generated is bytes of 0x77. */
static cuzkelor_request list[CUZKELOR_MOST_REQUESTS + 2];

static void untouch(void) { memset(list, 0x77, sizeof list); }

static bool untouched_from(size_t place) {
    const unsigned char *bytes = (const unsigned char *)(const void *)list;
    for (size_t k = place * sizeof list[0]; k < sizeof list; k++) {
        if (bytes[k] != 0x77) return false;
    }
    return true;
}

static void a_generated_list(void) {
    cuzkelor_request known[KNOWN];
    known_requests(known);
    for (size_t count = 0; count <= KNOWN; count++) {
        untouch();
        check(cuzkelor_generate_requests(SETUP, KNOWN_SEED, list, count) == CUZKELOR_NO_REFUSAL, "no refusal");
        check(memcmp(list, known, count * sizeof list[0]) == 0, "the known list, or its beginning");
        check(untouched_from(count), "nothing past its end");
    }
}

static void generated_lists_that_depend_on_little(void) {
    cuzkelor_setup alike = {N, 1, 2 * P, M / 2, 32, 1};
    cuzkelor_setup more_processors = {N + 1, L, P, M, P, P}, fewer_blocks = {N, L, P, M - 1, P, P};
    cuzkelor_request known[KNOWN];
    known_requests(known);
    check(cuzkelor_generate_requests(alike, KNOWN_SEED, list, KNOWN) == CUZKELOR_NO_REFUSAL, "another setup");
    check(memcmp(list, known, sizeof known) == 0, "of as many processors and variables");
    cuzkelor_generate_requests(more_processors, KNOWN_SEED, list, KNOWN);
    check(memcmp(list, known, sizeof known) != 0, "of more processors");
    cuzkelor_generate_requests(fewer_blocks, KNOWN_SEED, list, KNOWN);
    check(memcmp(list, known, sizeof known) != 0, "of fewer variables");
    cuzkelor_generate_requests(SETUP, KNOWN_SEED + 1, list, KNOWN);
    check(memcmp(list, known, sizeof known) != 0, "another seed");
}

/* The refusal of a list of so many numbers, which leaves it untouched. */
static uint32_t refused_list(cuzkelor_setup setup, uint32_t seed, size_t length) {
    untouch();
    uint32_t refusal = cuzkelor_generate(setup.processors, setup.lines, setup.block_words, setup.block_count,
                                         setup.fetch_price, setup.write_back_price, seed,
                                         (uint32_t *)(void *)list, length);
    check(refusal != CUZKELOR_NO_REFUSAL && untouched_from(0), "refused and untouched");
    if (length % CUZKELOR_REQUEST_NUMBERS == 0) {
        size_t count = length / CUZKELOR_REQUEST_NUMBERS;
        check(cuzkelor_generate_requests(setup, seed, list, count) == refusal, "the same over structs");
        check(untouched_from(0), "untouched over structs");
    }
    return refusal;
}

/* In the order of the checks, with everything met that comes later. */
static void refused_generated_lists(void) {
    const size_t whole = CUZKELOR_REQUEST_NUMBERS * ((size_t)CUZKELOR_MOST_REQUESTS + 1);
    for (size_t rest = 1; rest < CUZKELOR_REQUEST_NUMBERS; rest++) {
        check(refused_list(NINE_AND_DEAR, 0, whole + rest) == CUZKELOR_SETUP_OUT_OF_RANGE, "1 comes first");
        check(refused_list(DEAR_WRITE_BACK, 0, whole + rest) == CUZKELOR_PRICE_OUT_OF_RANGE, "then 10");
        check(refused_list(SETUP, 0, whole + rest) == CUZKELOR_WRONG_LENGTH, "then 2, before 11 and 5");
        check(refused_list(SETUP, KNOWN_SEED, whole + rest) == CUZKELOR_WRONG_LENGTH, "2 comes before 5");
        check(refused_list(SETUP, KNOWN_SEED, rest) == CUZKELOR_WRONG_LENGTH, "2 of a short list");
    }
    check(refused_list(NINE_AND_DEAR, 0, whole) == CUZKELOR_SETUP_OUT_OF_RANGE, "1 comes before 10, 11 and 5");
    check(refused_list(DEAR_WRITE_BACK, 0, whole) == CUZKELOR_PRICE_OUT_OF_RANGE, "10 comes before 11 and 5");
    check(refused_list(SETUP, 0, whole) == CUZKELOR_SEED_ZERO, "11 comes before 5");
    check(refused_list(SETUP, KNOWN_SEED, whole) == CUZKELOR_TOO_MANY, "5 comes last");
    check(refused_list(SETUP, 0, 0) == CUZKELOR_SEED_ZERO, "11 of an empty list");
}

/* It is taken to the end, and fills the account. */
static void the_longest_generated_list(void) {
    static uint32_t values[CUZKELOR_MOST_REQUESTS];
    struct host h = fresh(SETUP);
    cuzkelor_tables tables = tables_of(&h);
    const size_t count = CUZKELOR_MOST_REQUESTS;
    untouch();
    check(cuzkelor_generate_requests(SETUP, KNOWN_SEED, list, count) == CUZKELOR_NO_REFUSAL, "1,000,000 requests");
    check(!untouched_from(count - 1) && untouched_from(count), "all of them, and nothing past their end");
    for (size_t k = 0; k < count; k++) {
        check(list[k].operation == CUZKELOR_READ || list[k].operation == CUZKELOR_WRITE, "none of them clears");
    }
    cuzkelor_run_answer answer = cuzkelor_run_requests(SETUP, &tables, &h.account, list, count, values, count);
    check(answer.refusal == CUZKELOR_NO_REFUSAL && answer.taken == count, "taken to the end");
    check(h.account.requests == count, "the account is full");
    check(masks_true(&h), "the masks");
}

/* The buffers of a search, and one entry more than it writes to; all of them begin as bytes of 0x77. */
struct searching {
    uint32_t distances[CUZKELOR_POSITION_COUNT], order[CUZKELOR_POSITION_COUNT];
    uint32_t predecessors[CUZKELOR_POSITION_COUNT], lowest[CUZKELOR_GROUP_COUNT];
    cuzkelor_entry entries[CUZKELOR_POSITION_COUNT + 1];
};

static struct searching searching, searching_before;

static cuzkelor_search fresh_search(void) {
    cuzkelor_search search = {CUZKELOR_LENT(searching.distances), CUZKELOR_LENT(searching.order),
                              CUZKELOR_LENT(searching.predecessors), CUZKELOR_LENT(searching.lowest)};
    memset(&searching, 0x77, sizeof searching);
    memset(&searching_before, 0x77, sizeof searching_before);
    return search;
}

/* Two processors with two lines, and four blocks of two words: blocks 0 and 2 have line 0. */
static const cuzkelor_setup PAIR = {2, 2, 2, 4, 4, 3};

static cuzkelor_best_answer best_of(const cuzkelor_request *requests, size_t count, uint32_t steps) {
    cuzkelor_search search = fresh_search();
    cuzkelor_best_answer answer =
        cuzkelor_best_schedule(PAIR, &search, requests, count, steps, searching.entries, CUZKELOR_POSITION_COUNT);
    check(answer.refusal == CUZKELOR_NO_REFUSAL && answer.place == 0, "no refusal");
    size_t rest = (CUZKELOR_POSITION_COUNT + 1 - answer.length) * sizeof searching.entries[0];
    check(memcmp(searching.entries + answer.length, searching_before.entries, rest) == 0, "the other entries stay");
    return answer;
}

/* The found schedule, priced. */
static uint32_t price_of_found(size_t length, const cuzkelor_request *requests, size_t count) {
    uint32_t blocks[4], held[4], marks[4];
    cuzkelor_rival rival = {CUZKELOR_LENT(blocks), CUZKELOR_LENT(held), CUZKELOR_LENT(marks)};
    cuzkelor_price_answer answer = cuzkelor_price_schedule(PAIR, &rival, searching.entries, length, requests, count);
    check(answer.refusal == CUZKELOR_NO_REFUSAL, "a legal schedule");
    return answer.cost;
}

/* The engine: fetch by 0, fetch by 1, four updates, of which the last empties 1's line; then 0 makes room, at a
 * write-back and a fetch; and a clear of an empty cache. Cheaper: 1 drops its copy before the writes. */
static void the_best_schedule(void) {
    cuzkelor_variable zero = cuzkelor_make_variable(0), four = cuzkelor_make_variable(4);
    cuzkelor_block block = cuzkelor_make_block(0), other = cuzkelor_make_block(2);
    cuzkelor_request requests[] = {cuzkelor_read(0, zero),     cuzkelor_read(1, zero),     cuzkelor_write(0, zero, 1),
                                   cuzkelor_write(0, zero, 2), cuzkelor_write(0, zero, 3), cuzkelor_write(0, zero, 4),
                                   cuzkelor_write(0, zero, 5), cuzkelor_read(0, four),     cuzkelor_clear(1)};
    cuzkelor_entry own[] = {cuzkelor_fetch(0, block), cuzkelor_complete(),           cuzkelor_fetch(1, block),
                            cuzkelor_complete(),      cuzkelor_complete(),           cuzkelor_complete(),
                            cuzkelor_complete(),      cuzkelor_complete(),           cuzkelor_drop(1, block),
                            cuzkelor_complete(),      cuzkelor_write_back(0, block), cuzkelor_drop(0, block),
                            cuzkelor_fetch(0, other), cuzkelor_complete(),           cuzkelor_complete()};
    const size_t count = sizeof requests / sizeof requests[0], own_count = sizeof own / sizeof own[0];
    cuzkelor_best_answer at_once = best_of(requests, count, 0);
    check(at_once.length == own_count && memcmp(searching.entries, own, sizeof own) == 0, "the engine's own actions");
    check(at_once.cost == 4 + 4 + 4 + 3 + 4 && at_once.excess == 19 - 10, "its cycles");
    check(at_once.steps == 0 && at_once.least == 0, "not called least");
    cuzkelor_best_answer found = best_of(requests, count, CUZKELOR_ENOUGH_STEPS);
    check(found.cost == 4 + 4 + 0 + 3 + 4 && found.least == 1 && found.excess == 15 - 10, "the least cost");
    check(price_of_found(found.length, requests, count) == found.cost, "at which it is accepted");
    uint32_t cost = at_once.cost;
    for (uint32_t steps = 0; steps <= found.steps; steps++) {
        cuzkelor_best_answer answer = best_of(requests, count, steps);
        check(answer.cost <= cost && answer.steps == steps, "more steps are never dearer");
        check(answer.least == (steps == found.steps ? 1u : 0u), "least with as many steps as it used");
        check(price_of_found(answer.length, requests, count) == answer.cost, "at which it is accepted too");
        cost = answer.cost;
    }
    check(best_of(requests, 0, CUZKELOR_ENOUGH_STEPS).length == 0 && best_of(requests, 0, 0).cost == 0, "no request");
}

/* The refusal of a search, which changes no buffer. */
static uint32_t refused_search(cuzkelor_setup setup, const cuzkelor_search *search, const cuzkelor_request *requests,
                               size_t count, size_t entry_count, size_t place) {
    cuzkelor_best_answer answer =
        cuzkelor_best_schedule(setup, search, requests, count, CUZKELOR_ENOUGH_STEPS, searching.entries, entry_count);
    check(answer.place == place && answer.length == 0 && answer.cost == 0, "no schedule");
    check(answer.steps == 0 && answer.least == 0 && answer.excess == 0, "no step");
    check(memcmp(&searching, &searching_before, sizeof searching) == 0, "no buffer changes");
    return answer.refusal;
}

/* In the order of the checks, with everything met that comes later. */
static void refused_searches(void) {
    const size_t most = CUZKELOR_BEST_REQUESTS, all = CUZKELOR_POSITION_COUNT;
    cuzkelor_setup out_of_range = {9, 2, 2, 5, 3, 4}, dear = {1, 2, 2, 5, 3, 4}, one = {1, 2, 2, 4, 4, 3};
    cuzkelor_setup three = {3, 2, 2, 4, 4, 3}, five_blocks = {2, 2, 2, 5, 4, 3};
    cuzkelor_request requests[CUZKELOR_BEST_REQUESTS + 1];
    for (size_t k = 0; k <= most; k++) requests[k] = cuzkelor_read(1, cuzkelor_make_variable(7));
    requests[most - 1] = cuzkelor_read(1, cuzkelor_make_variable(8));
    cuzkelor_search whole = fresh_search(), cut = whole;
    cut.lowest.length--;
    check(refused_search(out_of_range, &cut, requests, most + 1, all, 0) == CUZKELOR_SETUP_OUT_OF_RANGE, "1");
    check(refused_search(dear, &cut, requests, most + 1, all, 0) == CUZKELOR_PRICE_OUT_OF_RANGE, "then 10");
    check(refused_search(PAIR, &cut, requests, most + 1, all, 0) == CUZKELOR_NOT_SEARCHABLE, "then 12 of 25 requests");
    check(refused_search(one, &cut, requests, most, all, 0) == CUZKELOR_NOT_SEARCHABLE, "of 1 processor");
    check(refused_search(three, &cut, requests, most, all, 0) == CUZKELOR_NOT_SEARCHABLE, "of 3 processors");
    check(refused_search(five_blocks, &cut, requests, most, all, 0) == CUZKELOR_NOT_SEARCHABLE, "of 5 blocks");
    check(refused_search(PAIR, &cut, requests, most, all, 0) == CUZKELOR_WRONG_LENGTH, "then 2 of lowest");
    cuzkelor_numbers *tables[] = {&whole.distances, &whole.order, &whole.predecessors};
    for (size_t k = 0; k < sizeof tables / sizeof tables[0]; k++) {
        tables[k]->length--;
        check(refused_search(PAIR, &whole, requests, most, all, 0) == CUZKELOR_WRONG_LENGTH, "of another table");
        tables[k]->length++;
    }
    check(refused_search(PAIR, &whole, requests, most, all - 1, 0) == CUZKELOR_WRONG_LENGTH, "of a shorter list");
    check(refused_search(PAIR, &whole, requests, most, all + 1, 0) == CUZKELOR_WRONG_LENGTH, "of a longer list");
    check(refused_search(PAIR, &whole, requests, most, all, most - 1) == CUZKELOR_NO_SUCH_VARIABLE, "then 4");
    requests[5] = cuzkelor_clear(2);
    check(refused_search(PAIR, &whole, requests, most, all, 5) == CUZKELOR_NO_SUCH_PROCESSOR, "3 of the first refused");
}

/* The refusal of a search in 0 steps for so many numbers, all 0, with a rest behind the schedule's. The out-parameters
 * hold garbage before. Processor 0 reads variable 0 again and again, at one fetch. */
static uint32_t search_numbers(const cuzkelor_search *search, size_t length, size_t rest) {
    static const uint32_t requests[4 * CUZKELOR_BEST_REQUESTS + 4] = {0};
    const size_t schedule_length = CUZKELOR_ENTRY_NUMBERS * (size_t)CUZKELOR_POSITION_COUNT + rest;
    size_t place = GARBAGE, found = GARBAGE;
    uint32_t cost = GARBAGE, used = GARBAGE, least = GARBAGE, excess = GARBAGE;
    uint32_t refusal = cuzkelor_best(PAIR.processors, PAIR.lines, PAIR.block_words, PAIR.block_count, PAIR.fetch_price,
                                     PAIR.write_back_price, requests, length, search->distances.at,
                                     search->distances.length, search->order.at, search->order.length,
                                     search->predecessors.at, search->predecessors.length, search->lowest.at,
                                     search->lowest.length, (uint32_t *)(void *)searching.entries, schedule_length, 0,
                                     &place, &found, &cost, &used, &least, &excess);
    bool fetched = refusal == CUZKELOR_NO_REFUSAL && length > 0;
    check(place == 0 && used == 0 && least == 0, "no place, and no step");
    check(found == (fetched ? length / 4 + 1 : 0), "a fetch, and the completions");
    check(cost == (fetched ? 4u : 0u) && excess == cost / 2, "their cost");
    return refusal;
}

static void whole_lists_of_searches(void) {
    const size_t most = CUZKELOR_REQUEST_NUMBERS * CUZKELOR_BEST_REQUESTS;
    cuzkelor_search search = fresh_search();
    for (size_t length = 0; length < most + 4; length++) {
        uint32_t refusal = length % CUZKELOR_REQUEST_NUMBERS == 0 ? 0 : CUZKELOR_WRONG_LENGTH;
        check(search_numbers(&search, length, 0) == refusal, "a list of requests");
        check(search_numbers(&search, length, 1) == CUZKELOR_WRONG_LENGTH, "a schedule with a number more");
        check(search_numbers(&search, length, 2) == CUZKELOR_WRONG_LENGTH, "a schedule with two numbers more");
    }
    check(search_numbers(&search, most + 4, 1) == CUZKELOR_NOT_SEARCHABLE, "12 comes before 2");
}

/* A trace that is refused at once writes its out-parameters too. */
static void a_trace_refused_at_once(void) {
    struct host h = fresh(SETUP);
    uint32_t line = GARBAGE;
    memset(&h.account, 0x77, sizeof h.account);
    uint32_t refusal = cuzkelor_count_trace((const uint8_t *)"", 0, h.blocks, 0, h.counters, 0, h.marks, 0, h.words, 0,
                                            h.memory, 0, &h.account.requests, &h.account.fetch,
                                            &h.account.write_back, &h.account.update, &line);
    check(refusal == 2 && line == 0, "a trace refused at once");
    check(h.account.requests + h.account.fetch + h.account.write_back + h.account.update == 0, "its account");
}

static void version(void) {
    check(cuzkelor_version() == 6 && CUZKELOR_VERSION == 6, "version 6");
    check(cuzkelor_version_matches(), "the archive belongs to the header");
}

/* The document's numbers, and those by which nothing changes. */
static bool is_refusal(uint32_t number) { return (1 <= number && number <= 12) || (20 <= number && number <= 29); }

static bool of_call(uint32_t number) {
    return number == 1 || number == 2 || number == 5 || (10 <= number && number <= 12) || number == 20 || number == 21;
}

static void texts(void) {
    const char *unknown = cuzkelor_refusal_text(UINT32_MAX);
    for (uint32_t number = 1; number < 100; number++) {
        check((strcmp(cuzkelor_refusal_text(number), unknown) != 0) == is_refusal(number), "a text for each number");
        check((cuzkelor_refuses_call(number) != 0) == of_call(number), "what is refused");
    }
    check(strcmp(cuzkelor_refusal_text(0), "no refusal") == 0 && !cuzkelor_refuses_call(0), "0");
    check(strcmp(cuzkelor_refusal_text(CUZKELOR_DROP_OF_MARKED), "a drop of a marked block") == 0, "25");
    check(CUZKELOR_SETUP_OUT_OF_RANGE == 1 && CUZKELOR_PRICE_OUT_OF_RANGE == 10, "names of 1 and 10");
    check(CUZKELOR_TOO_MANY == 5 && CUZKELOR_SEED_ZERO == 11, "names of 5 and 11");
    check(CUZKELOR_NOT_SEARCHABLE == 12, "name of 12");
    check(CUZKELOR_BROADCAST_WITHOUT_WRITE == 9 && CUZKELOR_CACHE_NOT_EMPTY == 29, "names of 9 and 29");
    check(CUZKELOR_UNSOUND_TABLES == 20 && CUZKELOR_REQUESTS_LEFT == 28, "names of 20 and 28");
}

static void lengths(void) {
    cuzkelor_setup most = {CUZKELOR_MOST_PROCESSORS,  CUZKELOR_MOST_LINES,       CUZKELOR_MOST_BLOCK_WORDS,
                           CUZKELOR_MOST_BLOCK_COUNT, CUZKELOR_MOST_FETCH_PRICE, CUZKELOR_MOST_FETCH_PRICE};
    check(cuzkelor_slot_count(SETUP) == 32 && cuzkelor_word_count(SETUP) == 128, "slots and words");
    check(cuzkelor_variable_count(SETUP) == 256 && cuzkelor_mask_count(SETUP) == 64, "variables and masks");
    check(cuzkelor_slot_count(most) == 512 && cuzkelor_word_count(most) == 8192, "the most slots and words");
    check(cuzkelor_variable_count(most) == 4096 && cuzkelor_mask_count(most) == 256, "the most variables and masks");
    check(cuzkelor_setup_in_range(most), "in range");
}

/* The header's ranges are those of the archive. */
static void ranges(void) {
    static const uint32_t numbers[] = {0, 1, 4, 5, 8, 9, 16, 17, 32, 33, 64, 65, 256, 257, UINT32_MAX};
    uint32_t nothing[1];
    uint8_t no_mask[1];
    cuzkelor_numbers none = {nothing, 0};
    cuzkelor_tables tables = {none, none, none, none, none, lent_bytes(no_mask, 0)};
    for (size_t k = 0; k < 6 * sizeof numbers / sizeof numbers[0]; k++) {
        uint32_t places[6] = {1, 1, 1, 1, 5, 4};
        places[k % 6] = numbers[k / 6];
        cuzkelor_setup setup = {places[0], places[1], places[2], places[3], places[4], places[5]};
        uint32_t refusal = cuzkelor_start_tables(setup, &tables);
        check(cuzkelor_sizes_in_range(setup) == (refusal != CUZKELOR_SETUP_OUT_OF_RANGE), "1");
        check(cuzkelor_prices_in_range(setup) == (refusal != CUZKELOR_PRICE_OUT_OF_RANGE), "10");
        check(cuzkelor_setup_in_range(setup) == (refusal == CUZKELOR_WRONG_LENGTH), "in range");
    }
}

int main(void) {
    static const struct {
        const char *name;
        void (*play)(void);
    } cases[] = {{"S1", s1},
                 {"S2", s2},
                 {"S3", s3},
                 {"S4", s4},
                 {"S5", s5},
                 {"S6", s6},
                 {"S7", s7},
                 {"S8", s8},
                 {"S9", s9},
                 {"beside S9", weakest_pays},
                 {"payers", payers},
                 {"S10", s10},
                 {"S11", s11},
                 {"S12", s12},
                 {"prices", prices},
                 {"a clear of three blocks", clear_of_three_blocks},
                 {"a clear of a shared block", clear_of_a_shared_block},
                 {"refused clears", refused_clears},
                 {"operation numbers", operation_numbers},
                 {"the most write-back cycles", most_write_back_cycles},
                 {"account limits", account_limits},
                 {"limits", limits},
                 {"printed trace", printed_trace},
                 {"traced clears", traced_clears},
                 {"a look", a_look},
                 {"a schedule", a_schedule},
                 {"schedules with clears", schedules_with_clears},
                 {"whole lists", whole_lists},
                 {"masks by hand", masks_by_hand},
                 {"masks of a stopped run", masks_of_a_stopped_run},
                 {"false masks", false_masks},
                 {"mask lengths", mask_lengths},
                 {"masks in order", masks_in_order},
                 {"masks of a trace", masks_of_a_trace},
                 {"a generated list", a_generated_list},
                 {"generated lists that depend on little", generated_lists_that_depend_on_little},
                 {"refused generated lists", refused_generated_lists},
                 {"the longest generated list", the_longest_generated_list},
                 {"the best schedule", the_best_schedule},
                 {"refused searches", refused_searches},
                 {"whole lists of searches", whole_lists_of_searches},
                 {"a trace refused at once", a_trace_refused_at_once},
                 {"version", version},
                 {"texts", texts},
                 {"lengths", lengths},
                 {"ranges", ranges}};
    for (size_t k = 0; k < sizeof cases / sizeof cases[0]; k++) {
        cases[k].play();
        passed(cases[k].name);
    }
    printf("all passed\n");
    return 0;
}
