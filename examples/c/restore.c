/* Restores a damaged label: nine symbols modulo 929, the four checks first.
 * From the repository's root, after `(cd crates/capi && rt lib)`:
 *
 *   mkdir -p target && cc -Iinclude examples/c/restore.c crates/capi/out/libcapi.a -o target/restore && target/restore
 */
#include "softballbay.h"
#include <stdio.h>

enum { POSITIONS = 9, CHECKS = 4, FIRST_ROOT = 1 };

static void print_word(const char *what, const uint32_t *word) {
    printf("%-10s", what);
    for (int i = 0; i < POSITIONS; i++) printf(" %3u", word[i]);
    printf("\n");
}

int main(void) {
    uint32_t word[POSITIONS] = {0, 0, 0, 0, 239, 121, 178, 453, 5};
    uint8_t map[(POSITIONS + 7) / 8] = {0};
    uint32_t failing[2];

    uint32_t status = softballbay_label_encode(POSITIONS, CHECKS, FIRST_ROOT, word, POSITIONS);
    if (status != SOFTBALLBAY_OK) return 1;
    print_word("encoded", word);

    word[1] = 7;       /* a symbol that was misread */
    word[6] = 0;       /* a symbol that could not be read: */
    map[6 / 8] |= 1 << 6 % 8; /* its position is marked */
    print_word("received", word);

    status = softballbay_label_test(POSITIONS, CHECKS, FIRST_ROOT, word, POSITIONS, failing, 2);
    if (status != SOFTBALLBAY_OK) return 1;
    if (failing[0]) printf("check sum %u is the first that fails\n", failing[1]);

    status = softballbay_label_correct(POSITIONS, CHECKS, FIRST_ROOT, word, POSITIONS, map, sizeof map);
    if (status == SOFTBALLBAY_OUT_OF_REACH) {
        printf("no codeword is in reach\n");
        return 1;
    }
    if (status != SOFTBALLBAY_OK) return 1;
    print_word("restored", word);
    return 0;
}
