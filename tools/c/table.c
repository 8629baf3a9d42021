/* Document 01's table of cases, in its order, and FIPS 197's worked products and substitution. */
#include "togasipe.h"

#include "check.h"

static void byte_rows(void)
{
    uint8_t out;
    begin("byte 57 times 83");
    expect(togasipe_rijndael_mul(0x57, 0x83), 0xc1);
    begin("byte 57 times 13");
    expect(togasipe_rijndael_mul(0x57, 0x13), 0xfe);
    begin("byte 80 times 80");
    expect(togasipe_rijndael_mul(0x80, 0x80), 0x9a);
    begin("inverse of byte 53");
    out = 0;
    expect(togasipe_rijndael_try_inverse(0x53, &out), TOGASIPE_OK);
    expect(out, 0xca);
    expect(togasipe_rijndael_invert_or_zero(0x53), 0xca);
    begin("inverse of byte 02");
    out = 0;
    expect(togasipe_rijndael_try_inverse(0x02, &out), TOGASIPE_OK);
    expect(out, 0x8d);
    expect(togasipe_rijndael_invert_or_zero(0x02), 0x8d);
}

static void map_rows(void)
{
    static const uint8_t squaring[8] = {0x01, 0x04, 0x10, 0x40, 0x1b, 0x6c, 0xab, 0x9a};
    static const uint8_t scaling[8] = {0x02, 0x04, 0x08, 0x10, 0x20, 0x40, 0x80, 0x1b};
    uint8_t out[8] = {0, 0, 0, 0, 0, 0, 0, 0};
    begin("squaring: its eight images");
    togasipe_matrix_images(togasipe_frobenius_map(1), out);
    expect_bytes(out, squaring, 8);
    begin("scaling by 02: its images");
    togasipe_matrix_images(togasipe_rijndael_scaling_matrix(0x02), out);
    expect_bytes(out, scaling, 8);
}

static void tower_rows(void)
{
    begin("tower 02 times itself");
    expect(togasipe_tower_mul(0x02, 0x02), 0x03);
    begin("tower 04 times itself");
    expect(togasipe_tower_mul(0x04, 0x04), 0x09);
    begin("tower 10 times itself");
    expect(togasipe_tower_mul(0x10, 0x10), 0x41);
    begin("tower 02 as a Rijndael byte");
    expect(togasipe_tower_to_rijndael(0x02), 0xbc);
}

static void wide_rows(void)
{
    static const uint64_t top = UINT64_C(0x8000000000000000);
    uint64_t out[2] = {0, 0};
    begin("64 bits: 8000000000000000 times 2");
    expect(togasipe_poly_mul_64(top, 2), 0x1b);
    begin("64 bits: 8000000000000000 squared");
    expect(togasipe_poly_square_64(top), UINT64_C(0xc00000000000005a));
    expect(togasipe_poly_mul_64(top, top), UINT64_C(0xc00000000000005a));
    begin("64 bits: square root of 2");
    expect(togasipe_poly_sqrt_64(2), UINT64_C(0xffffffff0000000a));
    begin("128 bits: (low 0, high 1) squared");
    togasipe_poly_square_128(0, 1, out);
    expect(out[0], 0x87);
    expect(out[1], 0);
    togasipe_poly_mul_128(0, 1, 0, 1, out);
    expect(out[0], 0x87);
    expect(out[1], 0);
    begin("128 bits: (low 0, high 8000000000000000) squared");
    togasipe_poly_square_128(0, top, out);
    expect(out[0], 0x1067);
    expect(out[1], UINT64_C(0xc000000000000000));
    togasipe_poly_mul_128(0, top, 0, top, out);
    expect(out[0], 0x1067);
    expect(out[1], UINT64_C(0xc000000000000000));
    begin("all-ones word, carryless, by itself");
    togasipe_clmul_64x64(UINT64_MAX, UINT64_MAX, out);
    expect(out[0], UINT64_C(0x5555555555555555));
    expect(out[1], UINT64_C(0x5555555555555555));
    expect(togasipe_bmul64(UINT64_MAX, UINT64_MAX), UINT64_C(0x5555555555555555));
    expect(togasipe_bmul64_high(UINT64_MAX, UINT64_MAX), UINT64_C(0x5555555555555555));
}

static void last_rows(void)
{
    static const uint8_t one[8] = {0x01, 0, 0, 0, 0, 0, 0, 0};
    static const uint64_t words_1[1] = {1}, words_10[2] = {1, 0}, words_01[2] = {0, 1};
    static const uint64_t many[TOGASIPE_FINGERPRINT_LIMIT + 1] = {0};
    uint64_t print = 7;
    uint8_t node = 7;
    begin("coefficients 01 00 00 00 00 00 00 00");
    expect(togasipe_linearized_to_matrix(one), TOGASIPE_MATRIX_IDENTITY);
    begin("fingerprint at 2 of (1)");
    expect(togasipe_fingerprint(words_1, 1, 2, &print), TOGASIPE_OK);
    expect(print, 2);
    begin("fingerprint at 2 of (1, 0)");
    expect(togasipe_fingerprint(words_10, 2, 2, &print), TOGASIPE_OK);
    expect(print, 4);
    begin("fingerprint at 2 of (0, 1)");
    expect(togasipe_fingerprint(words_01, 2, 2, &print), TOGASIPE_OK);
    expect(print, 2);
    begin("node ff");
    expect(togasipe_rijndael_interpolation_node(0xff, &node), TOGASIPE_OK);
    expect(node, 0xff);
    begin("node 100");
    node = 7;
    expect(togasipe_rijndael_interpolation_node(0x100, &node), TOGASIPE_BAD_INDEX);
    expect(node, 7);
    begin("4,096 words");
    expect(togasipe_fingerprint(many, 4096, 2, &print), TOGASIPE_OK);
    expect(print, 0);
    begin("4,097 words");
    print = 7;
    expect(togasipe_fingerprint(many, 4097, 2, &print), TOGASIPE_TOO_MANY_WORDS);
    expect(print, 7);
}

/* FIPS 197: products with 57, and the substitution, which is a fixed map of the inverse plus 63. */
static void fips_197(void)
{
    static const uint8_t by_57[6][2] = {{0x02, 0xae}, {0x04, 0x47}, {0x08, 0x8e}, {0x10, 0x07}, {0x13, 0xfe}, {0x83, 0xc1}};
    static const uint8_t images[8] = {0x1f, 0x3e, 0x7c, 0xf8, 0xf1, 0xe3, 0xc7, 0x8f};
    static const uint8_t coefficients[8] = {0x05, 0x09, 0xf9, 0x25, 0xf4, 0x01, 0xb5, 0x8f};
    static const uint8_t row_0[16] = {0x63, 0x7c, 0x77, 0x7b, 0xf2, 0x6b, 0x6f, 0xc5,
                                      0x30, 0x01, 0x67, 0x2b, 0xfe, 0xd7, 0xab, 0x76};
    uint64_t map = togasipe_matrix_from_images(images);
    uint8_t out[8] = {0, 0, 0, 0, 0, 0, 0, 0};
    unsigned i;
    begin("FIPS 197: 57 plus 83");
    expect(togasipe_rijndael_add(0x57, 0x83), 0xd4);
    begin("FIPS 197: products with 57");
    for (i = 0; i < 6; i++) {
        expect_at(by_57[i][0], togasipe_rijndael_mul(0x57, by_57[i][0]), by_57[i][1]);
    }
    begin("FIPS 197: the substitution of 00 to 0f, and of 53");
    for (i = 0; i < 16; i++) {
        expect_at(i, togasipe_matrix_apply(map, togasipe_rijndael_invert_or_zero((uint8_t)i)) ^ 0x63u, row_0[i]);
    }
    expect_at(0x53, togasipe_matrix_apply(map, togasipe_rijndael_invert_or_zero(0x53)) ^ 0x63u, 0xed);
    begin("the substitution's map as coefficients");
    togasipe_linearized_from_images(images, out);
    expect_bytes(out, coefficients, 8);
    togasipe_linearized_from_matrix(map, out);
    expect_bytes(out, coefficients, 8);
}

void table_cases(void)
{
    byte_rows();
    map_rows();
    tower_rows();
    wide_rows();
    last_rows();
    fips_197();
}
