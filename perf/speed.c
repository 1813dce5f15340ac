/* Measures the library side by side with libfec (reels) and with plain C loops (labels). See README.md. */
#include "../include/softballbay.h"
#include "plain.h"
#include <fec.h>
#include <stdio.h>
#include <stdlib.h>
#include <string.h>
#include <time.h>

enum { MOST = 928, POOL = 1024, BATCH = 16, LABELS = 32, PASSES = 5 };

/* The code and the words of the measurement at hand. `whole` are codewords, `hurt` what a call is given.
 * A round takes the next `batch` words of the pool, so that a branch predictor does not meet the same words again soon. */
static struct {
    int n, checks, first, marks, pool, batch, from;
    uint32_t whole[POOL][MOST], hurt[POOL][MOST];
    uint8_t map[POOL][(MOST + 7) / 8];
    int marked[POOL][MOST];
    uint32_t work[BATCH][MOST];
    /* libfec's: bytes, the highest position first, and its list of marked positions, which it overwrites */
    unsigned char bytes[BATCH][255];
    int list[BATCH][255];
    void *rs;
    struct plain plain;
    uint32_t failed;
} now;

static uint32_t state = 2463534242u;

static uint32_t next(uint32_t bound) {
    state ^= state << 13;
    state ^= state >> 17;
    state ^= state << 5;
    return (state >> 4) % bound;
}

/* The time that this process ran: other processes count only by what they do to the caches. */
static double seconds(void) {
    struct timespec t;
    clock_gettime(CLOCK_PROCESS_CPUTIME_ID, &t);
    return t.tv_sec + 1e-9 * t.tv_nsec;
}

static void stop(const char *why) {
    fprintf(stderr, "perf: %s (n = %d, checks = %d)\n", why, now.n, now.checks);
    exit(1);
}

/* One side of a comparison: `reset` and `check` stand outside the timed part. */
struct side {
    void (*reset)(void), (*work)(void), (*check)(void);
};

/* The library: the same calls for both fields, by name. */
static uint32_t (*our_encode)(uint32_t, uint32_t, uint32_t, uint32_t *, size_t);
static uint32_t (*our_test)(uint32_t, uint32_t, uint32_t, const uint32_t *, size_t, uint32_t *, size_t);
static uint32_t (*our_correct)(uint32_t, uint32_t, uint32_t, uint32_t *, size_t, const uint8_t *, size_t);

static void our_reset(void) {
    for (int k = 0; k < now.batch; k++) memcpy(now.work[k], now.hurt[now.from + k], sizeof now.work[k]);
    now.failed = 0;
}

static void our_encoding(void) {
    for (int k = 0; k < now.batch; k++) now.failed |= our_encode(now.n, now.checks, now.first, now.work[k], now.n);
}

static void our_testing(void) {
    uint32_t root[2];
    for (int k = 0; k < now.batch; k++) {
        now.failed |= our_test(now.n, now.checks, now.first, now.work[k], now.n, root, 2);
        now.failed |= root[0];
    }
}

static void our_correcting(void) {
    for (int k = 0; k < now.batch; k++)
        now.failed |= our_correct(now.n, now.checks, now.first, now.work[k], now.n, now.map[now.from + k], (now.n + 7) / 8);
}

static void our_check(void) {
    if (now.failed) stop("a call of the library was refused");
    for (int k = 0; k < now.batch; k++)
        if (memcmp(now.work[k], now.whole[now.from + k], now.n * sizeof **now.work)) stop("the library left another word");
}

/* libfec. */
static void fec_reset(void) {
    for (int k = 0; k < now.batch; k++) {
        for (int i = 0; i < now.n; i++) now.bytes[k][now.n - 1 - i] = now.hurt[now.from + k][i];
        for (int i = 0; i < now.marks; i++) now.list[k][i] = now.n - 1 - now.marked[now.from + k][i];
    }
    now.failed = 0;
}

static void fec_encoding(void) {
    for (int k = 0; k < now.batch; k++) encode_rs_char(now.rs, now.bytes[k], now.bytes[k] + now.n - now.checks);
}

static void fec_decoding(void) {
    for (int k = 0; k < now.batch; k++) now.failed |= decode_rs_char(now.rs, now.bytes[k], now.list[k], now.marks) < 0;
}

static void fec_check(void) {
    if (now.failed) stop("libfec found nothing");
    for (int k = 0; k < now.batch; k++)
        for (int i = 0; i < now.n; i++)
            if (now.bytes[k][now.n - 1 - i] != now.whole[now.from + k][i]) stop("libfec left another word");
}

/* The plain loops. */
static void plain_encoding(void) {
    for (int k = 0; k < now.batch; k++) plain_encode(&now.plain, now.work[k]);
}

static void plain_testing(void) {
    uint32_t sums[PLAIN_MOST];
    for (int k = 0; k < now.batch; k++) now.failed |= !plain_check_sums(&now.plain, now.work[k], sums);
}

static void plain_decoding(void) {
    for (int k = 0; k < now.batch; k++) now.failed |= plain_decode(&now.plain, now.work[k], now.marked[now.from + k], now.marks) < 0;
}

/* Damages each word in `errors` places, and in `marks` more that are marked. */
static void damage(int errors, int marks, uint32_t q) {
    now.marks = marks;
    memset(now.map, 0, sizeof now.map);
    for (int k = 0; k < now.pool; k++) {
        char taken[MOST] = {0};
        memcpy(now.hurt[k], now.whole[k], sizeof now.hurt[k]);
        for (int c = 0; c < errors + marks; c++) {
            int i;
            do i = next(now.n);
            while (taken[i]);
            taken[i] = 1;
            now.hurt[k][i] = (now.hurt[k][i] + 1 + next(q - 1)) % q;
            if (c < marks) {
                now.marked[k][c] = i;
                now.map[k][i / 8] |= 1 << i % 8;
            }
        }
    }
}

/* What one side takes, in microseconds a word: the least of all rounds, and how far the least of a pass lies above it. */
struct time {
    double least, noise;
};

static double round_of(struct side side) {
    side.reset();
    double start = seconds();
    side.work();
    double end = seconds();
    side.check();
    return (end - start) * 1e6 / now.batch;
}

static void compare(const char *what, struct side ours, struct side theirs, double budget) {
    struct side sides[2] = {ours, theirs};
    struct time time[2];
    double passes[2][PASSES];
    for (int p = 0; p < PASSES; p++) {
        passes[0][p] = passes[1][p] = 1e9;
        double until = seconds() + budget / PASSES;
        int rounds = 0;
        while (rounds < 5 || seconds() < until) {
            for (int s = 0; s < 2; s++) {
                double t = round_of(sides[s]);
                if (t < passes[s][p]) passes[s][p] = t;
            }
            now.from = (now.from + now.batch) % now.pool;
            rounds++;
        }
    }
    for (int s = 0; s < 2; s++) {
        double least = 1e9, most = 0;
        for (int p = 0; p < PASSES; p++) {
            if (passes[s][p] < least) least = passes[s][p];
            if (passes[s][p] > most) most = passes[s][p];
        }
        time[s] = (struct time){least, 100 * (most / least - 1)};
    }
    printf("  %-28s %9.2f %9.2f %7.2f     %3.0f%% %3.0f%%\n", what, time[0].least, time[1].least, time[0].least / time[1].least, time[0].noise, time[1].noise);
    fflush(stdout);
}

/* Random codewords of the code; those of the library, which every check then compares with what the other side makes. */
static void words(int n, int checks, int first, int pool, int batch, uint32_t q) {
    now.n = n, now.checks = checks, now.first = first, now.pool = pool, now.batch = batch, now.from = 0;
    for (int k = 0; k < pool; k++) {
        for (int i = 0; i < n; i++) now.whole[k][i] = next(q);
        if (our_encode(n, checks, first, now.whole[k], n)) stop("a word was not encoded");
    }
}

/* Message symbols stay and the checks are wiped. */
static void wipe_checks(void) {
    memcpy(now.hurt, now.whole, sizeof now.hurt);
    for (int k = 0; k < now.pool; k++) memset(now.hurt[k], 0, now.checks * sizeof **now.hurt);
}

static void compare_all(struct side encoding[2], struct side testing[2], struct side decoding[2], uint32_t q, double budget) {
    int limit = now.checks / 2;
    damage(0, 0, q);
    compare("test, clean word", testing[0], testing[1], budget);
    compare("correct, clean word", decoding[0], decoding[1], budget);
    damage((limit + 1) / 2, 0, q);
    compare("correct, half load", decoding[0], decoding[1], budget);
    damage(limit, 0, q);
    compare("correct, full load", decoding[0], decoding[1], budget);
    damage(0, now.checks, q);
    compare("correct, erasures only", decoding[0], decoding[1], budget);
    wipe_checks();
    compare("encode", encoding[0], encoding[1], budget);
}

static const struct side OUR_ENCODE = {our_reset, our_encoding, our_check}, OUR_TEST = {our_reset, our_testing, our_check},
                         OUR_CORRECT = {our_reset, our_correcting, our_check};

static void reel(int n, int checks, int first, double budget) {
    our_encode = softballbay_reel_encode, our_test = softballbay_reel_test, our_correct = softballbay_reel_correct;
    words(n, checks, first, POOL, BATCH, 256);
    now.rs = init_rs_char(8, 285, first, 1, checks, 255 - n);
    printf("reel, %d positions, %d checks, first root %d; against libfec\n", n, checks, first);
    struct side encoding[2] = {OUR_ENCODE, {fec_reset, fec_encoding, fec_check}};
    struct side testing[2] = {OUR_TEST, {fec_reset, fec_decoding, fec_check}};
    struct side decoding[2] = {OUR_CORRECT, {fec_reset, fec_decoding, fec_check}};
    compare_all(encoding, testing, decoding, 256, budget);
    free_rs_char(now.rs);
}

static void label(int n, int checks, int first, double budget) {
    our_encode = softballbay_label_encode, our_test = softballbay_label_test, our_correct = softballbay_label_correct;
    words(n, checks, first, LABELS, 1, 929);
    plain_make(&now.plain, n, checks, first);
    printf("label, %d positions, %d checks, first root %d; against plain loops\n", n, checks, first);
    struct side encoding[2] = {OUR_ENCODE, {our_reset, plain_encoding, our_check}};
    struct side testing[2] = {OUR_TEST, {our_reset, plain_testing, our_check}};
    struct side decoding[2] = {OUR_CORRECT, {our_reset, plain_decoding, our_check}};
    compare_all(encoding, testing, decoding, 929, budget);
}

int main(int count, char **given) {
    double budget = count > 1 ? atof(given[1]) : 1;
    printf("  %-28s %9s %9s %7s     %s\n", "microseconds a word", "ours", "theirs", "ratio", "noise of both");
    reel(255, 32, 1, budget);
    reel(208, 16, 0, budget);
    reel(182, 10, 0, budget);
    label(928, 512, 1, budget);
    return 0;
}
