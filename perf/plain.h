/* A Reed-Solomon codec over the whole numbers modulo 929, as plain loops that reduce after every product and sum.
 * It is what the library is measured against for labels, where no common library has the field.
 * The methods are the usual ones: check sums root by root, a shift register over a generator that is made once, and
 * Berlekamp-Massey from the erasure locator, a search over all positions, and Forney's amounts. */
#ifndef PLAIN_H
#define PLAIN_H
#include <stdint.h>

enum { PLAIN_Q = 929, PLAIN_TURN = 928, PLAIN_MOST = 512 };

struct plain {
    int n, checks, first;
    uint32_t power[PLAIN_TURN];
    uint32_t logarithm[PLAIN_Q];
    uint32_t generator[PLAIN_MOST + 1];
};

void plain_make(struct plain *code, int n, int checks, int first);

/* Writes the check sums; 1 where all are 0. */
int plain_check_sums(const struct plain *code, const uint32_t *word, uint32_t *sums);

void plain_encode(const struct plain *code, uint32_t *word);

/* Restores the word in place; the number of positions changed, or -1. */
int plain_decode(const struct plain *code, uint32_t *word, const int *marked, int marks);
#endif
