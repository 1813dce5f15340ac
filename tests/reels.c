/* Words of Reed-Solomon codes over GF(256), polynomial 285, written by libfec: one line each,
 * "V 256 R b w_0 .. w_(n-1)", the lowest position first. Build: cc reels.c -lfec */
#include <fec.h>
#include <stdio.h>

static unsigned state = 2463534242u;

static unsigned next(void) {
    state ^= state << 13;
    state ^= state >> 17;
    state ^= state << 5;
    return state;
}

int main(void) {
    static const int codes[][3] = {/* n, R, first root */
        {255, 32, 0}, {255, 32, 1}, {255, 32, 112}, {255, 16, 1}, {208, 16, 0}, {182, 10, 0}, {204, 16, 0},
        {120, 7, 5},  {60, 1, 0},   {33, 32, 200},  {10, 4, 254}, {255, 128, 1}, {100, 51, 17}, {4, 3, 0}};
    for (size_t k = 0; k < sizeof codes / sizeof *codes; k++)
        for (int turn = 0; turn < 4; turn++) {
            int n = codes[k][0], checks = codes[k][1], first = codes[k][2];
            void *rs = init_rs_char(8, 285, first, 1, checks, 255 - n);
            unsigned char word[255];
            for (int i = 0; i < n - checks; i++) word[i] = turn == 0 ? (i == n - checks - 1) : next() >> 8;
            encode_rs_char(rs, word, word + n - checks);
            printf("V 256 %d %d", checks, first);
            for (int i = n - 1; i >= 0; i--) printf(" %d", word[i]);
            printf("\n");
            free_rs_char(rs);
        }
    return 0;
}
