/* Words: bits, carryless products and their remainders, against the definitions by bits. */
#include "togasipe.h"

#include "by_bits.h"
#include "check.h"

enum { OUT = 4096, WORDS = 600 };

static void bits(void)
{
    unsigned k, i;
    begin("words: bits of all bytes in the other order");
    for (k = 0; k < 256; k++) {
        uint8_t reversed = togasipe_reverse_bits_8((uint8_t)k);
        for (i = 0; i < 8; i++) {
            expect_at(k, reversed >> (7 - i) & 1, k >> i & 1);
        }
    }
    begin("words: bits of words in the other order");
    for (k = 0; k < WORDS; k++) {
        uint64_t x = word_number(k), reversed = togasipe_reverse_bits_64(x);
        for (i = 0; i < 64; i++) {
            expect_at(x, reversed >> (63 - i) & 1, x >> i & 1);
        }
    }
    begin("words: bits gathered");
    for (k = 0; k < WORDS; k++) {
        uint64_t x = word_number(k), gathered = togasipe_compact_even(x);
        for (i = 0; i < 64; i++) {
            expect_at(x, gathered >> i & 1, i < 32 ? x >> (2 * i) & 1 : 0);
        }
    }
    begin("words: bits spread over two words");
    for (k = 0; k < WORDS; k++) {
        uint64_t x = word_number(k), spread[2] = {0, 0};
        for (i = 0; i < 64; i++) {
            spread[i / 32] |= (x >> i & 1) << (2 * (i % 32));
        }
        fresh();
        expect_written(OUT, spread, sizeof spread);
        togasipe_spread_bits_64(x, words_at(OUT));
        expect_memory();
    }
    begin("words: integer products modulo 2^64");
    for (k = 0; k < WORDS; k++) {
        uint64_t x = word_number(k), y = word_number((k * 7) % WORDS);
        expect_at(x, togasipe_wrapping_mul_64(x, y), x * y);
    }
}

static void products(void)
{
    unsigned k;
    begin("words: carryless products, whole and by halves");
    for (k = 0; k < WORDS; k++) {
        uint64_t x = word_number(k), y = word_number((k * 7) % WORDS), product[2];
        carryless_by_bits(x, y, product);
        expect_at(x, togasipe_bmul64(x, y), product[0]);
        expect_at(x, togasipe_bmul64_high(x, y), product[1]);
        fresh();
        expect_written(OUT, product, sizeof product);
        togasipe_clmul_64x64(x, y, words_at(OUT));
        expect_memory();
    }
}

static void remainders(void)
{
    unsigned k, i;
    begin("words: remainders of two words");
    for (k = 0; k < WORDS; k++) {
        uint64_t p[4] = {0, 0, 0, 0}, remainder[2];
        p[0] = word_number((k * 7) % WORDS);
        p[1] = word_number(k);
        remainder_by_bits(p, 64, 0x1b, remainder);
        expect_at(k, togasipe_reduce_64(p[0], p[1]), remainder[0]);
    }
    begin("words: remainders of four words");
    for (k = 0; k < WORDS; k++) {
        uint64_t p[4], remainder[2];
        for (i = 0; i < 4; i++) {
            p[i] = k < 256 ? (i == k / 64 ? UINT64_C(1) << (k % 64) : 0) : word_number(k);
        }
        remainder_by_bits(p, 128, 0x87, remainder);
        fresh();
        expect_written(OUT, remainder, sizeof remainder);
        togasipe_reduce_128(p[0], p[1], p[2], p[3], words_at(OUT));
        expect_memory();
    }
}

void word_cases(void)
{
    bits();
    products();
    remainders();
}
