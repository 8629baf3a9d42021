/* The byte field and the tower byte, at every byte and at every pair of bytes. */
#include "togasipe.h"

#include "by_bits.h"
#include "check.h"

/* One byte to write, between two that must stay. */
static uint8_t room[3];

static uint8_t *one_byte(void)
{
    room[0] = room[1] = room[2] = 0x5a;
    return &room[1];
}

static void expect_neighbours(uint64_t input)
{
    expect_at(input, room[0], 0x5a);
    expect_at(input, room[2], 0x5a);
}

static void pairs(void)
{
    unsigned a, b;
    begin("bytes: sums and differences of all 65,536 pairs");
    for (a = 0; a < 256; a++) {
        for (b = 0; b < 256; b++) {
            expect_at(a << 8 | b, togasipe_rijndael_add((uint8_t)a, (uint8_t)b), a ^ b);
            expect_at(a << 8 | b, togasipe_rijndael_sub((uint8_t)a, (uint8_t)b), a ^ b);
        }
    }
    begin("bytes: products of all 65,536 pairs");
    for (a = 0; a < 256; a++) {
        for (b = 0; b < 256; b++) {
            expect_at(a << 8 | b, togasipe_rijndael_mul((uint8_t)a, (uint8_t)b), product_8_by_bits((uint8_t)a, (uint8_t)b));
        }
    }
    begin("bytes: quotients of all pairs with a divisor that is not 0");
    for (a = 0; a < 256; a++) {
        for (b = 1; b < 256; b++) {
            expect_at(a << 8 | b, togasipe_rijndael_div((uint8_t)a, (uint8_t)b, one_byte()), TOGASIPE_OK);
            expect_at(a << 8 | b, product_8_by_bits(room[1], (uint8_t)b), a);
            expect_neighbours(a << 8 | b);
        }
    }
}

static void single(void)
{
    unsigned a, k;
    begin("bytes: squares and square roots of all bytes");
    for (a = 0; a < 256; a++) {
        uint8_t root = togasipe_rijndael_sqrt((uint8_t)a);
        expect_at(a, togasipe_rijndael_square((uint8_t)a), squared_by_bits((uint8_t)a, 1));
        expect_at(a, squared_by_bits(root, 1), a);
    }
    begin("bytes: 0 to 16 squarings of all bytes, and more");
    for (a = 0; a < 256; a++) {
        for (k = 0; k <= 16; k++) {
            expect_at(a << 8 | k, togasipe_rijndael_exp_power_of_2((uint8_t)a, k), squared_by_bits((uint8_t)a, k));
        }
        expect_at(a, togasipe_rijndael_exp_power_of_2((uint8_t)a, SIZE_MAX), squared_by_bits((uint8_t)a, 7));
        expect_at(a, togasipe_rijndael_exp_power_of_2((uint8_t)a, SIZE_MAX - 7), a);
    }
    begin("bytes: the inverse of 0, or zero");
    expect(togasipe_rijndael_invert_or_zero(0), 0);
    begin("bytes: the inverses of all bytes but 0");
    for (a = 1; a < 256; a++) {
        expect_at(a, togasipe_rijndael_try_inverse((uint8_t)a, one_byte()), TOGASIPE_OK);
        expect_at(a, product_8_by_bits((uint8_t)a, room[1]), 1);
        expect_at(a, togasipe_rijndael_invert_or_zero((uint8_t)a), room[1]);
        expect_neighbours(a);
    }
    begin("bytes: all 256 nodes");
    for (a = 0; a < 256; a++) {
        expect_at(a, togasipe_rijndael_interpolation_node(a, one_byte()), TOGASIPE_OK);
        expect_at(a, room[1], a);
        expect_neighbours(a);
    }
}

static void generator(void)
{
    unsigned k;
    uint8_t power = 1;
    begin("bytes: the generator's powers return to 1 after 255 and not before");
    for (k = 1; k <= 255; k++) {
        power = togasipe_rijndael_mul(power, TOGASIPE_RIJNDAEL_GENERATOR);
        expect_at(k, power == 1, k == 255);
    }
    begin("bytes: the generator is the image of tower byte 13");
    expect(togasipe_tower_to_rijndael(0x13), TOGASIPE_RIJNDAEL_GENERATOR);
}

static void tower(void)
{
    unsigned a, b;
    begin("tower: sums of all pairs");
    for (a = 0; a < 256; a++) {
        for (b = 0; b < 256; b++) {
            expect_at(a << 8 | b, togasipe_tower_add((uint8_t)a, (uint8_t)b), a ^ b);
        }
    }
    begin("tower: products of all pairs");
    for (a = 0; a < 256; a++) {
        for (b = 0; b < 256; b++) {
            expect_at(a << 8 | b, togasipe_tower_mul((uint8_t)a, (uint8_t)b), tower_product_by_bits((uint8_t)a, (uint8_t)b));
        }
    }
    begin("tower: all bytes as Rijndael bytes, and back");
    for (a = 0; a < 256; a++) {
        uint8_t image = togasipe_tower_to_rijndael((uint8_t)a);
        expect_at(a, image, tower_image_by_bits((uint8_t)a));
        expect_at(a, togasipe_tower_from_rijndael(image), a);
    }
    begin("tower: the change of basis keeps all products");
    for (a = 0; a < 256; a++) {
        for (b = 0; b < 256; b++) {
            uint8_t product = togasipe_tower_mul((uint8_t)a, (uint8_t)b);
            uint8_t x = togasipe_tower_to_rijndael((uint8_t)a), y = togasipe_tower_to_rijndael((uint8_t)b);
            expect_at(a << 8 | b, togasipe_tower_to_rijndael(product), product_8_by_bits(x, y));
        }
    }
    begin("tower: multiplying by X2's image");
    for (a = 0; a < 256; a++) {
        expect_at(a, togasipe_rijndael_mul_alpha((uint8_t)a), product_8_by_bits((uint8_t)a, tower_image_by_bits(0x10)));
    }
}

void byte_cases(void)
{
    pairs();
    single();
    generator();
    tower();
}
