#include "plain.h"
#include <string.h>

static uint32_t times(uint32_t x, uint32_t y) { return x * y % PLAIN_Q; }
static uint32_t plus(uint32_t x, uint32_t y) { return (x + y) % PLAIN_Q; }
static uint32_t minus(uint32_t x, uint32_t y) { return (x + PLAIN_Q - y) % PLAIN_Q; }

void plain_make(struct plain *code, int n, int checks, int first) {
    memset(code, 0, sizeof *code);
    code->n = n, code->checks = checks, code->first = first;
    for (uint32_t i = 0, x = 1; i < PLAIN_TURN; i++, x = times(3, x)) {
        code->power[i] = x;
        code->logarithm[x] = i;
    }
    uint32_t *g = code->generator;
    g[0] = 1;
    for (int j = 0; j < checks; j++) {
        uint32_t root = code->power[(first + j) % PLAIN_TURN];
        for (int i = j + 1; i > 0; i--) g[i] = minus(g[i - 1], times(root, g[i]));
        g[0] = minus(0, times(root, g[0]));
    }
}

/* The value at a^t of the first `size` coefficients. */
static uint32_t value(const struct plain *code, const uint32_t *row, int size, int t) {
    uint32_t total = 0;
    int e = 0;
    for (int i = 0; i < size; i++) {
        total = plus(total, times(row[i], code->power[e]));
        e += t;
        if (e >= PLAIN_TURN) e -= PLAIN_TURN;
    }
    return total;
}

int plain_check_sums(const struct plain *code, const uint32_t *word, uint32_t *sums) {
    uint32_t any = 0;
    for (int j = 0; j < code->checks; j++) any |= sums[j] = value(code, word, code->n, (code->first + j) % PLAIN_TURN);
    return any == 0;
}

void plain_encode(const struct plain *code, uint32_t *word) {
    int r = code->checks;
    const uint32_t *g = code->generator;
    memset(word, 0, r * sizeof *word);
    for (int i = code->n - 1; i >= r; i--) {
        uint32_t c = minus(word[i], word[r - 1]);
        for (int k = r - 1; k > 0; k--) word[k] = plus(word[k - 1], times(c, g[k]));
        word[0] = times(c, g[0]);
    }
}

static uint32_t reciprocal(const struct plain *code, uint32_t x) {
    return code->power[(PLAIN_TURN - code->logarithm[x]) % PLAIN_TURN];
}

/* The locator of the marked positions and of the errors, by Berlekamp and Massey; its degree. */
static int locator_of(const struct plain *code, const uint32_t *sums, const int *marked, int marks, uint32_t *locator) {
    int r = code->checks, size = marks;
    uint32_t before[PLAIN_MOST + 1] = {0}, next[PLAIN_MOST + 1];
    memset(locator, 0, (r + 1) * sizeof *locator);
    locator[0] = 1;
    for (int k = 0; k < marks; k++)
        for (int i = k + 1; i > 0; i--) locator[i] = minus(locator[i], times(code->power[marked[k]], locator[i - 1]));
    memcpy(before, locator, (r + 1) * sizeof *before);
    for (int k = marks; k < r; k++) {
        uint32_t discrepancy = 0;
        for (int i = 0; i <= size; i++) discrepancy = plus(discrepancy, times(locator[i], sums[k - i]));
        memmove(before + 1, before, r * sizeof *before);
        before[0] = 0;
        if (discrepancy == 0) continue;
        for (int i = 0; i <= r; i++) next[i] = minus(locator[i], times(discrepancy, before[i]));
        if (2 * size <= k + marks) {
            uint32_t inverse = reciprocal(code, discrepancy);
            for (int i = 0; i <= r; i++) before[i] = times(inverse, locator[i]);
            size = k + 1 + marks - size;
        }
        memcpy(locator, next, (r + 1) * sizeof *locator);
    }
    int degree = r;
    while (locator[degree] == 0) degree--;
    return degree;
}

int plain_decode(const struct plain *code, uint32_t *word, const int *marked, int marks) {
    int found = 0;
    uint32_t sums[PLAIN_MOST], locator[PLAIN_MOST + 1], evaluator[PLAIN_MOST];
    int places[PLAIN_MOST];
    if (plain_check_sums(code, word, sums)) return 0;
    int degree = locator_of(code, sums, marked, marks, locator);
    for (int i = 0; i < code->n; i++)
        if (value(code, locator, degree + 1, (PLAIN_TURN - i) % PLAIN_TURN) == 0) {
            if (found == degree) return -1;
            places[found++] = i;
        }
    if (found != degree) return -1;
    for (int k = 0; k < degree; k++) {
        uint32_t total = 0;
        for (int i = 0; i <= k; i++) total = plus(total, times(locator[i], sums[k - i]));
        evaluator[k] = total;
    }
    for (int k = 0; k < found; k++) {
        int t = (PLAIN_TURN - places[k]) % PLAIN_TURN;
        uint32_t slope = 0;
        for (int i = 1; i <= degree; i += 1) slope = plus(slope, times(times(i % PLAIN_Q, locator[i]), code->power[(long)t * (i - 1) % PLAIN_TURN]));
        if (slope == 0) return -1;
        /* minus w(1/x) x^(1 - first) / slope(1/x), for x = a to the place */
        uint32_t shift = code->power[(long)places[k] * (PLAIN_TURN + 1 - code->first) % PLAIN_TURN];
        uint32_t amount = minus(0, times(times(value(code, evaluator, degree, t), shift), reciprocal(code, slope)));
        word[places[k]] = minus(word[places[k]], amount);
    }
    return found;
}
