/* The same listing in C, twice: with the facet estimate by its definition, each monomial at each point (naive), and with folds and an in-place transform
   (folded). Usage: walk naive|folded M R RADIUS SEED ERRORS WORDS. It prints the words listed, the prefixes entered, a checksum and the nanoseconds. */
#include <stdint.h>
#include <stdio.h>
#include <stdlib.h>
#include <string.h>
#include <time.h>

static int m, r, n, k, admitted[256];
static int8_t weights[256];

static uint32_t step(uint32_t s) { return s * 1664525u + 1013904223u; }

static void transform(uint8_t *table, int v) {
    for (int half = 1; half < 1 << v; half *= 2)
        for (int base = 0; base < 1 << v; base += 2 * half)
            for (int x = 0; x < half; x++) table[base + half + x] ^= table[base + x];
}

static void word_of(const uint8_t *message, uint8_t *word) {
    memset(word, 0, (size_t)n);
    for (int i = 0; i < k; i++) word[admitted[i]] = message[i];
    transform(word, m);
}

/* The cells of a word, and errors in them, drawn by a generator that starts from this number. */
static void make_cells(uint32_t seed, int errors) {
    uint8_t message[256], word[256];
    uint32_t s = seed;
    for (int i = 0; i < k; i++) {
        s = step(s);
        message[i] = s >> 16 & 1;
    }
    word_of(message, word);
    for (int i = 0; i < errors; i++) {
        s = step(s);
        word[(s >> 16) % (uint32_t)n] ^= 1;
    }
    for (int p = 0; p < n; p++) weights[p] = word[p] ? -1 : 1;
}

static uint32_t cost_naive(const uint8_t *message) {
    uint32_t sum = 0;
    for (int p = 0; p < n; p++) {
        int bit = 0;
        for (int i = 0; i < k; i++) bit ^= message[i] & ((admitted[i] & p) == admitted[i]);
        if (weights[p] > 0 ? bit : !bit) sum += (uint32_t)abs(weights[p]);
    }
    return sum;
}

static uint32_t cost_folded(const uint8_t *message) {
    uint8_t word[256];
    uint32_t sum = 0;
    word_of(message, word);
    for (int p = 0; p < n; p++)
        if (weights[p] > 0 ? word[p] : !word[p]) sum += (uint32_t)abs(weights[p]);
    return sum;
}

/* How many low digits a prefix of j bytes leaves open. */
static int open_digits(int j) {
    for (int d = 0; d < m; d++) {
        int upper = 0;
        while (upper < k && admitted[upper] >= 1 << d) upper++;
        if (upper <= j) return d;
    }
    return m;
}

static uint32_t facet_naive(const uint8_t *prefix, int j) {
    int d = open_digits(j), sums[256] = {0};
    uint32_t sizes = 0, folded = 0;
    for (int p = 0; p < n; p++) {
        int q = 0;
        for (int i = 0; i < k && admitted[i] >= 1 << d; i++) q ^= prefix[i] & ((admitted[i] & p) == admitted[i]);
        sums[p & ((1 << d) - 1)] += q ? -weights[p] : weights[p];
        sizes += (uint32_t)abs(weights[p]);
    }
    for (int a = 0; a < 1 << d; a++) folded += (uint32_t)abs(sums[a]);
    return (sizes - folded) / 2;
}

static uint32_t facet_folded(const uint8_t *prefix, int j) {
    int16_t sums[256];
    uint8_t table[128];
    uint32_t sizes = 0, folded = 0;
    int read = 0, d = m;
    for (int p = 0; p < n; p++) {
        sums[p] = weights[p];
        sizes += (uint32_t)abs(weights[p]);
    }
    for (; d > 0; d--) {
        int half = 1 << (d - 1), next = read;
        int whole = read;
        while (whole < k && admitted[whole] >= half) whole++;
        if (whole > j) break;
        memset(table, 0, (size_t)half);
        for (; next < whole; next++) table[admitted[next] - half] = prefix[next];
        transform(table, d - 1);
        for (int a = 0; a < half; a++) sums[a] = (int16_t)(table[a] ? sums[a] - sums[half + a] : sums[a] + sums[half + a]);
        read = whole;
    }
    for (int a = 0; a < 1 << d; a++) folded += (uint32_t)abs(sums[a]);
    return (sizes - folded) / 2;
}

/* Turns the last 0 of the first depth bits to 1; the length up to it, or 0. */
static int turn(uint8_t *message, int depth) {
    while (depth > 0) {
        if (message[depth - 1] == 0) {
            message[depth - 1] = 1;
            return depth;
        }
        depth--;
    }
    return 0;
}

static int next(uint8_t *message, int begun, uint32_t radius, int naive, uint64_t *count) {
    int depth = 0, given = 0;
    if (begun && (given = turn(message, k)) == 0) return 0;
    for (;;) {
        ++*count;
        if (depth == k) {
            if ((naive ? cost_naive(message) : cost_folded(message)) <= radius) return 1;
        } else if ((naive ? facet_naive(message, depth) : facet_folded(message, depth)) <= radius) {
            if (depth >= given) message[depth] = 0;
            depth++;
            continue;
        }
        if ((depth = turn(message, depth)) == 0) return 0;
        given = 0;
    }
}

int main(int argc, char **argv) {
    if (argc != 8) return 2;
    int naive = strcmp(argv[1], "naive") == 0;
    m = atoi(argv[2]);
    r = atoi(argv[3]);
    uint32_t radius = (uint32_t)atoi(argv[4]);
    n = 1 << m;
    for (int s = n - 1; s >= 0; s--)
        if (__builtin_popcount((unsigned)s) <= r) admitted[k++] = s;
    make_cells((uint32_t)atoi(argv[5]), atoi(argv[6]));
    uint64_t limit = strtoull(argv[7], NULL, 10), words = 0, count = 0;
    uint32_t sum = 0;
    uint8_t message[256];
    struct timespec from, to;
    clock_gettime(CLOCK_MONOTONIC, &from);
    while (words < limit && next(message, words > 0, radius, naive, &count)) {
        for (int i = 0; i < k; i++) sum = sum * 31 + message[i];
        words++;
    }
    clock_gettime(CLOCK_MONOTONIC, &to);
    uint64_t ns = (uint64_t)(to.tv_sec - from.tv_sec) * 1000000000u + (uint64_t)(to.tv_nsec - from.tv_nsec);
    printf("%llu %llu %u %llu\n", (unsigned long long)words, (unsigned long long)count, sum, (unsigned long long)ns);
    return 0;
}
