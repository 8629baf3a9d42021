/* Sweeps over lists of every length to 80 and one long one, with every byte before, in and behind the list. */
#include "togasipe.h"

#include "by_bits.h"
#include "check.h"

enum { DST = 1001, SRC = 60003, LONG = 50000 };

/* The lengths: 0 to 80, then the long one. */
static size_t length_number(size_t k)
{
    return k <= 80 ? k : LONG;
}

static uint8_t before[LONG], by[LONG], changed[LONG];

/* Lends two lists of any bytes, of which the first starts with a zero in every third list. */
static void lend_lists(size_t count)
{
    size_t i;
    for (i = 0; i < count; i++) {
        before[i] = (uint8_t)next_random();
        by[i] = (uint8_t)next_random();
    }
    before[0] = count % 3 == 0 ? 0 : before[0];
    fresh();
    lend(DST, before, count);
    lend(SRC, by, count);
}

static void products(void)
{
    size_t k, i;
    begin("sweeps: products of two lists, of 0 to 80 bytes and of 50,000");
    for (k = 0; k <= 81; k++) {
        size_t count = length_number(k);
        lend_lists(count);
        for (i = 0; i < count; i++) {
            changed[i] = product_8_by_bits(before[i], by[i]);
        }
        expect_written(DST, changed, count);
        expect_at(count, togasipe_mul_slice(bytes_at(DST), count, bytes_at(SRC), count), TOGASIPE_OK);
        expect_memory();
    }
}

static void inverses(void)
{
    static uint8_t inverse[256];
    size_t k, i;
    unsigned a, b;
    for (a = 1; a < 256; a++) {
        for (b = 1; product_8_by_bits((uint8_t)a, (uint8_t)b) != 1; b++) {
        }
        inverse[a] = (uint8_t)b;
    }
    begin("sweeps: inverses of a list, of 0 to 80 bytes and of 50,000");
    for (k = 0; k <= 81; k++) {
        size_t count = length_number(k);
        lend_lists(count);
        for (i = 0; i < count; i++) {
            changed[i] = inverse[before[i]];
        }
        expect_written(DST, changed, count);
        togasipe_invert_slice(bytes_at(DST), count);
        expect_memory();
    }
}

static void images(void)
{
    size_t k, i;
    begin("sweeps: images of a list, of 0 to 80 bytes and of 50,000");
    for (k = 0; k <= 81; k++) {
        size_t count = length_number(k);
        uint64_t map = next_random();
        lend_lists(count);
        for (i = 0; i < count; i++) {
            changed[i] = image_by_bits(map, before[i]);
        }
        expect_written(DST, changed, count);
        togasipe_apply_slice(map, bytes_at(DST), count);
        expect_memory();
    }
}

static void empty(void)
{
    begin("sweeps: no bytes at no address");
    expect(togasipe_mul_slice(NULL, 0, NULL, 0), TOGASIPE_OK);
    togasipe_invert_slice(NULL, 0);
    togasipe_apply_slice(TOGASIPE_MATRIX_IDENTITY, NULL, 0);
}

void sweep_cases(void)
{
    products();
    inverses();
    images();
    empty();
}
