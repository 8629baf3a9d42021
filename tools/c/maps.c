/* Byte maps: each of the six conversions, with every byte around what is written, and the maps with a name. */
#include "togasipe.h"

#include <string.h>

#include "by_bits.h"
#include "check.h"

/* Where eight bytes are lent and where eight are written, side by side with bytes that must stay. */
enum { IN = 1003, OUT = 2005, MAPS = 64 };

/* Map number k of a few: the two constants, all ones, single bits, then any. */
static uint64_t map_number(unsigned k)
{
    static const uint64_t first[4] = {TOGASIPE_MATRIX_ZERO, TOGASIPE_MATRIX_IDENTITY, UINT64_MAX, UINT64_C(0x8040201008040201)};
    return k < 4 ? first[k] : k < 12 ? UINT64_C(1) << (9 * (k - 4)) : next_random();
}

static void images_by_bits(uint64_t quadword, uint8_t out[8])
{
    unsigned b;
    for (b = 0; b < 8; b++) {
        out[b] = image_by_bits(quadword, (uint8_t)(1u << b));
    }
}

static void quadwords_and_images(void)
{
    unsigned k, v;
    begin("maps: images of all bytes");
    for (k = 0; k < MAPS; k++) {
        uint64_t map = map_number(k);
        for (v = 0; v < 256; v++) {
            expect_at(v, togasipe_matrix_apply(map, (uint8_t)v), image_by_bits(map, (uint8_t)v));
        }
    }
    begin("maps: ZERO sends every byte to 0, IDENTITY every byte to itself");
    for (v = 0; v < 256; v++) {
        expect_at(v, togasipe_matrix_apply(TOGASIPE_MATRIX_ZERO, (uint8_t)v), 0);
        expect_at(v, togasipe_matrix_apply(TOGASIPE_MATRIX_IDENTITY, (uint8_t)v), v);
    }
    begin("maps: from the quadword to images, and back");
    for (k = 0; k < MAPS; k++) {
        uint64_t map = map_number(k);
        uint8_t images[8];
        images_by_bits(map, images);
        fresh();
        expect_written(OUT, images, 8);
        togasipe_matrix_images(map, bytes_at(OUT));
        expect_memory();
        expect_at(k, togasipe_matrix_from_images(bytes_at(OUT)), map);
        expect_memory();
    }
}

static void coefficients(void)
{
    unsigned k, v;
    begin("maps: from the quadword to coefficients, and back");
    for (k = 0; k < MAPS; k++) {
        uint64_t map = map_number(k);
        uint8_t found[8];
        fresh();
        togasipe_linearized_from_matrix(map, bytes_at(OUT));
        memcpy(found, bytes_at(OUT), 8);
        expect_written(OUT, found, 8);
        for (v = 0; v < 256; v++) {
            expect_at(v, linearized_by_bits(found, (uint8_t)v), image_by_bits(map, (uint8_t)v));
        }
        expect_at(k, togasipe_linearized_to_matrix(bytes_at(OUT)), map);
        expect_memory();
    }
    begin("maps: from images to coefficients, and back");
    for (k = 0; k < MAPS; k++) {
        uint64_t map = map_number(k);
        uint8_t images[8], found[8];
        images_by_bits(map, images);
        fresh();
        lend(IN, images, 8);
        togasipe_linearized_from_images(bytes_at(IN), bytes_at(OUT));
        memcpy(found, bytes_at(OUT), 8);
        expect_written(OUT, found, 8);
        for (v = 0; v < 256; v++) {
            expect_at(v, linearized_by_bits(found, (uint8_t)v), image_by_bits(map, (uint8_t)v));
        }
        expect_memory();
        fresh();
        lend(IN, found, 8);
        expect_written(OUT, images, 8);
        togasipe_linearized_to_images(bytes_at(IN), bytes_at(OUT));
        expect_memory();
    }
    begin("maps: values of polynomials at all bytes");
    for (k = 0; k < MAPS; k++) {
        uint64_t eight = map_number(k);
        fresh();
        lend(IN, &eight, 8);
        for (v = 0; v < 256; v++) {
            expect_at(v, togasipe_linearized_eval(bytes_at(IN), (uint8_t)v), linearized_by_bits(bytes_at(IN), (uint8_t)v));
        }
        expect_memory();
    }
}

static void composition(void)
{
    unsigned k, v;
    begin("maps: composing applies the second argument first");
    for (k = 0; k < MAPS; k++) {
        uint64_t second = map_number(k), first = next_random();
        uint64_t both = togasipe_matrix_compose(second, first);
        for (v = 0; v < 256; v++) {
            expect_at(v, image_by_bits(both, (uint8_t)v), image_by_bits(second, image_by_bits(first, (uint8_t)v)));
        }
    }
}

static void named_maps(void)
{
    unsigned a, k, v;
    begin("maps: scaling by every byte");
    for (a = 0; a < 256; a++) {
        uint64_t map = togasipe_rijndael_scaling_matrix((uint8_t)a);
        for (v = 0; v < 256; v++) {
            expect_at(a << 8 | v, image_by_bits(map, (uint8_t)v), product_8_by_bits((uint8_t)a, (uint8_t)v));
        }
    }
    begin("maps: 0 to 16 squarings, and more");
    for (v = 0; v < 256; v++) {
        for (k = 0; k <= 16; k++) {
            expect_at(v << 8 | k, image_by_bits(togasipe_frobenius_map(k), (uint8_t)v), squared_by_bits((uint8_t)v, k));
        }
        expect_at(v, image_by_bits(togasipe_frobenius_map(SIZE_MAX), (uint8_t)v), squared_by_bits((uint8_t)v, 7));
    }
    begin("maps: every byte squared 0 to 7 times");
    for (v = 0; v < 256; v++) {
        uint8_t orbit[8];
        for (k = 0; k < 8; k++) {
            orbit[k] = squared_by_bits((uint8_t)v, k);
        }
        fresh();
        expect_written(OUT, orbit, 8);
        togasipe_frobenius_orbit((uint8_t)v, bytes_at(OUT));
        expect_memory();
    }
}

void map_cases(void)
{
    quadwords_and_images();
    coefficients();
    composition();
    named_maps();
}
