/* A control program for the recipe in README.md: its argument is the processor that it plays. Each turn takes an order
 * from the shared words, adds to that processor's own total and says how far it has come. The total has a block of its
 * own, of four words; the orders and the marks of progress are shared. */
#include <stdlib.h>

enum { PROCESSORS = 4, ORDERS = 32, BLOCK_WORDS = 4 };

/* The words that buscount is to see: at most 256 of 4 bytes. */
volatile unsigned shared[256];

int main(int count, char **words) {
    unsigned processor = count > 1 ? (unsigned)atoi(words[1]) % PROCESSORS : 0;
    volatile unsigned *orders = shared, *progress = shared + ORDERS, *totals = progress + BLOCK_WORDS;
    for (unsigned turn = 0; turn < ORDERS; turn++) {
        totals[processor * BLOCK_WORDS] += orders[turn] + turn;
        progress[processor] = turn + 1;
    }
    return 0;
}
