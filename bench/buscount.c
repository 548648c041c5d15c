/* The trace program in plain C, with no proof: the yardstick of bench/run.sh. */
#include <stdint.h>
#include <stdio.h>
#include <string.h>

enum { N = 4, L = 8, P = 4, M = 64, FETCH_PRICE = 4, WRITE_BACK_PRICE = 4, WIDTH = 80, LIMIT = 1000000 };

static uint32_t block[N][L], counter[N][L], mark[N][L], words[N][L][P], memory[M][P];
static uint32_t requests, fetch_cycles, write_back_cycles, update_cycles;

static int holds(int i, uint32_t b) { return block[i][b % L] == b && counter[i][b % L] != 0; }

static void empty(int i, uint32_t l) {
    block[i][l] = counter[i][l] = mark[i][l] = 0;
    memset(words[i][l], 0, sizeof words[i][l]);
}

static void write_back(int i, uint32_t l) {
    memcpy(memory[block[i][l]], words[i][l], sizeof words[i][l]);
    mark[i][l] = 0;
}

static void write_back_marked(int i, uint32_t l) {
    if (!mark[i][l]) return;
    write_back(i, l);
    write_back_cycles += WRITE_BACK_PRICE;
}

static void obtain(int i, uint32_t b) {
    uint32_t l = b % L;
    if (holds(i, b)) return;
    write_back_marked(i, l);
    for (int j = 0; j < N; j++)
        if (j != i && holds(j, b) && mark[j][l]) write_back(j, l);
    block[i][l] = b;
    counter[i][l] = FETCH_PRICE;
    mark[i][l] = 0;
    memcpy(words[i][l], memory[b], sizeof words[i][l]);
    fetch_cycles += FETCH_PRICE;
}

static void put(int i, uint32_t b, uint32_t o, uint32_t x) {
    uint32_t l = b % L;
    int payer = N;
    for (int j = 0; j < N; j++)
        if (j != i && holds(j, b) && (payer == N || counter[j][l] < counter[payer][l])) payer = j;
    counter[i][l] = FETCH_PRICE;
    if (payer == N) {
        words[i][l][o] = x;
        mark[i][l] = 1;
        return;
    }
    for (int j = 0; j < N; j++)
        if (holds(j, b)) words[j][l][o] = x;
    memory[b][o] = x;
    update_cycles++;
    if (--counter[payer][l] == 0) empty(payer, l);
}

static void clear(int i) {
    for (uint32_t l = 0; l < L; l++) {
        write_back_marked(i, l);
        empty(i, l);
    }
}

static int hex(int c) {
    if (c >= '0' && c <= '9') return c - '0';
    if (c >= 'A' && c <= 'F') return c - 'A' + 10;
    if (c >= 'a' && c <= 'f') return c - 'a' + 10;
    return 16;
}

/* Apart from reads and writes, since a clear names no variable. */
static int take_clear(uint32_t i) {
    if (i >= N) return 3;
    if (requests >= LIMIT) return 22;
    clear(i);
    requests++;
    return 0;
}

/* One line without its newline; the refusal number, 0 for none. */
static int take(const unsigned char *s, int n, uint32_t number) {
    int at = 1, digits = 0;
    uint32_t address = 0;
    if (n < 1 || n > WIDTH || s[0] < '0' || s[0] > '9') return 6;
    while (at < n && (s[at] == ' ' || s[at] == '\t')) at++;
    if (at == 1) return 6;
    while (at < n && hex(s[at]) < 16) {
        if (++digits > 8) return 6;
        address = address * 16 + hex(s[at++]);
    }
    if (digits == 0) return 6;
    if (at < n && s[at] != ' ' && s[at] != '\t' && s[at] != '\r') return 6;
    if (s[0] > '2') return s[0] == '4' ? take_clear(address >> 24) : 7;
    uint32_t i = address >> 24, v = (address & 0xffffff) / 4;
    if (i >= N) return 3;
    if (v >= M * P) return 4;
    if (requests >= LIMIT) return 22;
    obtain(i, v / P);
    if (s[0] == '1') put(i, v / P, v % P, number);
    requests++;
    return 0;
}

int main(void) {
    static unsigned char buffer[65536], line[WIDTH + 1];
    int width = 0, refusal = 0;
    uint32_t number = 1;
    size_t got;
    while (!refusal && (got = fread(buffer, 1, sizeof buffer, stdin)) > 0)
        for (size_t k = 0; k < got && !refusal; k++) {
            if (buffer[k] == '\n') {
                refusal = take(line, width, number);
                width = 0;
                if (!refusal) number++;
            } else if (width <= WIDTH)
                line[width++] = buffer[k];
        }
    if (!refusal && width > 0) refusal = take(line, width, number);
    printf("requests %u\nfetch %u\nwrite-back %u\nupdate %u\ntotal %u\nended %d %u\n", requests, fetch_cycles,
           write_back_cycles, update_cycles, fetch_cycles + write_back_cycles + update_cycles, refusal,
           refusal ? number : 0);
    return 0;
}
