/* Softballbay for C: words of Reed-Solomon codes, encoded, tested and corrected in place.
 *
 * Build the library with `rt lib` in crates/capi, and link crates/capi/out/libcapi.a. It needs nothing else: it allocates
 * nothing, keeps no state, and may be called from any number of threads at once.
 *
 * A code is n positions, of which the first `checks` are check symbols and the rest the message, and a first root:
 * a word w is a codeword if for each j below `checks` the sum of w[i] * a^(i * (first + j)) is 0.
 * There are three fields, and each has the same three calls:
 *
 *   label    the whole numbers modulo 929, a = 3 (drive-case labels, PDF417): n up to 928
 *   reel     GF(256), polynomial 285, a = 2: n up to 255
 *   control  GF(16), polynomial 19, a = 2: n up to 15
 *
 * Every call takes any numbers, lengths and contents. It answers a status, SOFTBALLBAY_OK or why it was refused, the
 * topmost of the list below where several hold; a call that is refused has changed nothing. What an accepted call leaves
 * is proved: crates/capi/specs/Outcomes.antt states it.
 *
 * The caller owes only what C always asks: a pointer that is not null and points to as many elements as its length says
 * (also where the length is 0), and buffers that do not overlap. */
#ifndef SOFTBALLBAY_H
#define SOFTBALLBAY_H

#include <stddef.h>
#include <stdint.h>

#ifdef __cplusplus
extern "C" {
#endif

enum softballbay_status {
    SOFTBALLBAY_OK = 0,
    SOFTBALLBAY_POSITIONS = 1,     /* n is below 2 or above 928 */
    SOFTBALLBAY_CHECKS = 2,        /* checks is 0, not below n, or above 512 */
    SOFTBALLBAY_PAST_TURN = 3,     /* the field has no code of so many positions */
    SOFTBALLBAY_FIRST_ROOT = 4,    /* the first root is not below 928 (label), 255 (reel) or 15 (control) */
    SOFTBALLBAY_COUNT = 7,         /* the word has not n symbols */
    SOFTBALLBAY_MAP = 8,           /* the map is not n bits, rounded up to bytes, with zeros after the last */
    SOFTBALLBAY_SYMBOL = 10,       /* a symbol is 929 (label), 256 (reel), 16 (control) or more */
    SOFTBALLBAY_OUT_OF_REACH = 12, /* no codeword is in reach */
    SOFTBALLBAY_BUFFER = 13        /* the buffer has not two places */
};

/* Encode: replaces word[0] to word[checks - 1], so that the word is the one codeword with its message. */
uint32_t softballbay_label_encode(uint32_t n, uint32_t checks, uint32_t first, uint32_t *word, size_t word_len);
uint32_t softballbay_reel_encode(uint32_t n, uint32_t checks, uint32_t first, uint32_t *word, size_t word_len);
uint32_t softballbay_control_encode(uint32_t n, uint32_t checks, uint32_t first, uint32_t *word, size_t word_len);

/* Test: failing[0] and failing[1] become 1 and the lowest j whose check sum is not 0, or 0 and 0 for a codeword.
 * Further places of `failing` stay as they are. */
uint32_t softballbay_label_test(uint32_t n, uint32_t checks, uint32_t first, const uint32_t *word, size_t word_len,
                                uint32_t *failing, size_t failing_len);
uint32_t softballbay_reel_test(uint32_t n, uint32_t checks, uint32_t first, const uint32_t *word, size_t word_len,
                               uint32_t *failing, size_t failing_len);
uint32_t softballbay_control_test(uint32_t n, uint32_t checks, uint32_t first, const uint32_t *word, size_t word_len,
                                  uint32_t *failing, size_t failing_len);

/* Correct: makes the word the codeword in reach. The map marks the positions whose symbols are not relied on: position i
 * is bit i % 8 (1 << i % 8) of byte i / 8. A codeword is in reach if twice the number of unmarked positions where it
 * differs from the word, plus the number of marked positions, is at most `checks`; there is at most one. */
uint32_t softballbay_label_correct(uint32_t n, uint32_t checks, uint32_t first, uint32_t *word, size_t word_len,
                                   const uint8_t *map, size_t map_len);
uint32_t softballbay_reel_correct(uint32_t n, uint32_t checks, uint32_t first, uint32_t *word, size_t word_len,
                                  const uint8_t *map, size_t map_len);
uint32_t softballbay_control_correct(uint32_t n, uint32_t checks, uint32_t first, uint32_t *word, size_t word_len,
                                     const uint8_t *map, size_t map_len);

#ifdef __cplusplus
}
#endif
#endif
