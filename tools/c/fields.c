/* The fields of 64 and of 128 bits, and their sums of products. */
#include "togasipe.h"

#include "by_bits.h"
#include "check.h"

enum { FIRST = 64, SECOND = 20000, OUT = 60000, WORDS = 300, LIST = 300 };

static void at_64_bits(void)
{
    unsigned k;
    begin("64 bits: sums and products");
    for (k = 0; k < WORDS; k++) {
        uint64_t a = word_number(k), b = word_number((k * 7) % WORDS);
        expect_at(a, togasipe_add_64(a, b), a ^ b);
        expect_at(a, togasipe_poly_mul_64(a, b), product_64_by_bits(a, b));
    }
    begin("64 bits: squares and square roots");
    for (k = 0; k < WORDS; k++) {
        uint64_t a = word_number(k), root = togasipe_poly_sqrt_64(a);
        expect_at(a, togasipe_poly_square_64(a), product_64_by_bits(a, a));
        expect_at(a, product_64_by_bits(root, root), a);
    }
    begin("64 bits: the inverse of 0, or zero");
    expect(togasipe_poly_inverse_64(0), 0);
    begin("64 bits: inverses");
    for (k = 1; k < WORDS; k++) {
        uint64_t a = word_number(k), inverse = togasipe_poly_inverse_64(a);
        expect_at(a, product_64_by_bits(a, inverse), 1);
        fresh();
        expect_written(OUT, &inverse, 8);
        expect_at(a, togasipe_try_inverse_64(a, words_at(OUT)), TOGASIPE_OK);
        expect_memory();
    }
    begin("64 bits: quotients");
    for (k = 1; k < WORDS; k++) {
        uint64_t b = word_number(k), quotient = word_number((k * 7) % WORDS), a = product_64_by_bits(quotient, b);
        fresh();
        expect_written(OUT, &quotient, 8);
        expect_at(b, togasipe_div_64(a, b, words_at(OUT)), TOGASIPE_OK);
        expect_memory();
    }
}

static void at_128_bits(void)
{
    unsigned k, i;
    begin("128 bits: sums, products and squares");
    for (k = 0; k < WORDS; k++) {
        uint64_t a[2], b[2], sum[2], product[2], square[2];
        for (i = 0; i < 2; i++) {
            a[i] = k < 128 ? (i == k / 64 ? UINT64_C(1) << (k % 64) : 0) : word_number(k);
            b[i] = word_number((5 * k + i) % WORDS);
            sum[i] = a[i] ^ b[i];
        }
        product_128_by_bits(a, b, product);
        product_128_by_bits(a, a, square);
        fresh();
        expect_written(OUT, sum, sizeof sum);
        togasipe_add_128(a[0], a[1], b[0], b[1], words_at(OUT));
        expect_memory();
        expect_written(OUT, product, sizeof product);
        togasipe_poly_mul_128(a[0], a[1], b[0], b[1], words_at(OUT));
        expect_memory();
        expect_written(OUT, square, sizeof square);
        togasipe_poly_square_128(a[0], a[1], words_at(OUT));
        expect_memory();
    }
}

/* Lends two lists of any words. */
static void lend_lists(uint64_t *a, uint64_t *b, size_t count)
{
    size_t i;
    for (i = 0; i < count; i++) {
        a[i] = next_random();
        b[i] = next_random();
    }
    fresh();
    lend(FIRST, a, 8 * count);
    lend(SECOND, b, 8 * count);
}

static void sums_of_products(void)
{
    static uint64_t a[LIST], b[LIST];
    size_t count, i;
    begin("64 bits: sums of products of 0 to 300 words");
    for (count = 0; count <= LIST; count += count < 20 ? 1 : 40) {
        uint64_t sum = 0;
        lend_lists(a, b, count);
        for (i = 0; i < count; i++) {
            sum ^= product_64_by_bits(a[i], b[i]);
        }
        expect_written(OUT, &sum, 8);
        expect_at(count, togasipe_poly_dot_64(words_at(FIRST), count, words_at(SECOND), count, words_at(OUT)), TOGASIPE_OK);
        expect_memory();
    }
    begin("128 bits: sums of products of 0 to 150 elements");
    for (count = 0; count <= LIST; count += count < 20 ? 2 : 40) {
        uint64_t sum[2] = {0, 0}, product[2];
        lend_lists(a, b, count);
        for (i = 0; i < count; i += 2) {
            product_128_by_bits(a + i, b + i, product);
            sum[0] ^= product[0];
            sum[1] ^= product[1];
        }
        expect_written(OUT, sum, sizeof sum);
        expect_at(count, togasipe_poly_dot_128(words_at(FIRST), count, words_at(SECOND), count, words_at(OUT)), TOGASIPE_OK);
        expect_memory();
    }
}

static void one_list(void)
{
    static const uint64_t a[4] = {3, 5, 7, 9};
    uint64_t sum = 7, wide[2] = {7, 7};
    begin("sums of products: one list lent twice");
    expect(togasipe_poly_dot_64(a, 4, a, 4, &sum), TOGASIPE_OK);
    expect(sum, 0x05 ^ 0x11 ^ 0x15 ^ 0x41);
    expect(togasipe_poly_dot_128(a, 4, a, 4, wide), TOGASIPE_OK);
    expect(wide[0], 0x05 ^ 0x15 ^ togasipe_bmul64(0x87, 0x11 ^ 0x41));
    expect(wide[1], 0);
    begin("sums of products: no words at no address");
    expect(togasipe_poly_dot_64(NULL, 0, NULL, 0, &sum), TOGASIPE_OK);
    expect(sum, 0);
    wide[0] = 7;
    wide[1] = 7;
    expect(togasipe_poly_dot_128(NULL, 0, NULL, 0, wide), TOGASIPE_OK);
    expect(wide[0], 0);
    expect(wide[1], 0);
}

void field_cases(void)
{
    at_64_bits();
    at_128_bits();
    sums_of_products();
    one_list();
}
