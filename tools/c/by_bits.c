/* The definitions, computed as they stand. */
#include "by_bits.h"

#include <stddef.h>
#include <string.h>

/* A polynomial over two elements: c[i] is the coefficient of x to the i. */
struct poly {
    unsigned char c[256];
};

static struct poly poly_of(const uint64_t *words, size_t count)
{
    struct poly p;
    size_t i;
    memset(&p, 0, sizeof p);
    for (i = 0; i < 64 * count; i++) {
        p.c[i] = (unsigned char)((words[i / 64] >> (i % 64)) & 1);
    }
    return p;
}

static void words_of(const struct poly *p, uint64_t *words, size_t count)
{
    size_t i;
    memset(words, 0, 8 * count);
    for (i = 0; i < 64 * count; i++) {
        words[i / 64] |= (uint64_t)p->c[i] << (i % 64);
    }
}

/* The product of polynomials of degree below 128. */
static struct poly product(const struct poly *a, const struct poly *b)
{
    struct poly p;
    size_t i, j;
    memset(&p, 0, sizeof p);
    for (i = 0; i < 128; i++) {
        for (j = 0; a->c[i] && j < 128; j++) {
            p.c[i + j] ^= b->c[j];
        }
    }
    return p;
}

/* Long division by x^n + tail: from the top down, each coefficient at n or above is taken off. */
static void divide(struct poly *p, unsigned n, uint64_t tail)
{
    size_t i, j;
    for (i = 256; i-- > n;) {
        if (p->c[i]) {
            p->c[i] = 0;
            for (j = 0; j < 64 && j < n; j++) {
                p->c[i - n + j] ^= (unsigned char)((tail >> j) & 1);
            }
        }
    }
}

void carryless_by_bits(uint64_t a, uint64_t b, uint64_t out[2])
{
    struct poly x = poly_of(&a, 1), y = poly_of(&b, 1);
    struct poly p = product(&x, &y);
    words_of(&p, out, 2);
}

void remainder_by_bits(const uint64_t p[4], unsigned n, uint64_t tail, uint64_t out[2])
{
    struct poly r = poly_of(p, 4);
    divide(&r, n, tail);
    words_of(&r, out, 2);
}

/* The same at bytes, where a machine number holds the whole product. */
uint8_t product_8_by_bits(uint8_t a, uint8_t b)
{
    unsigned i, p = 0;
    for (i = 0; i < 8; i++) {
        p ^= (b >> i & 1) ? (unsigned)a << i : 0;
    }
    for (i = 15; i-- > 8;) {
        p ^= (p >> i & 1) ? 0x11bu << (i - 8) : 0;
    }
    return (uint8_t)p;
}

uint64_t product_64_by_bits(uint64_t a, uint64_t b)
{
    uint64_t p[4] = {0, 0, 0, 0}, out[2];
    carryless_by_bits(a, b, p);
    remainder_by_bits(p, 64, 0x1b, out);
    return out[0];
}

void product_128_by_bits(const uint64_t a[2], const uint64_t b[2], uint64_t out[2])
{
    struct poly x = poly_of(a, 2), y = poly_of(b, 2);
    struct poly p = product(&x, &y);
    divide(&p, 128, 0x87);
    words_of(&p, out, 2);
}

uint8_t squared_by_bits(uint8_t a, unsigned times)
{
    while (times-- > 0) {
        a = product_8_by_bits(a, a);
    }
    return a;
}

static unsigned parity(unsigned byte)
{
    unsigned i, p = 0;
    for (i = 0; i < 8; i++) {
        p ^= (byte >> i) & 1;
    }
    return p;
}

uint8_t image_by_bits(uint64_t quadword, uint8_t byte)
{
    unsigned i, image = 0;
    for (i = 0; i < 8; i++) {
        unsigned row = (unsigned)(quadword >> (8 * (7 - i))) & 0xff;
        image |= parity(row & byte) << i;
    }
    return (uint8_t)image;
}

uint8_t linearized_by_bits(const uint8_t coefficients[8], uint8_t byte)
{
    unsigned j;
    uint8_t sum = 0;
    for (j = 0; j < 8; j++) {
        sum ^= product_8_by_bits(coefficients[j], squared_by_bits(byte, j));
    }
    return sum;
}

static uint8_t tower_sum_of_products(uint8_t a, unsigned k);

/* The product of the monomials that the bits of j and of k name. Of their generators in common the topmost, Xg, is taken out
 * of both, and its square put back as X(g-1) Xg + 1. */
static uint8_t tower_monomials(unsigned j, unsigned k)
{
    unsigned g = 3;
    uint8_t rest;
    if ((j & k) == 0) {
        return (uint8_t)(1u << (j | k));
    }
    do {
        g -= 1;
    } while (((j & k) >> g & 1) == 0);
    rest = tower_monomials(j & ~(1u << g), k & ~(1u << g));
    return tower_sum_of_products(rest, g == 0 ? 1u : 3u << (g - 1)) ^ rest;
}

/* Each monomial of a times the monomial that the bits of k name, summed. */
static uint8_t tower_sum_of_products(uint8_t a, unsigned k)
{
    unsigned j;
    uint8_t sum = 0;
    for (j = 0; j < 8; j++) {
        if (a >> j & 1) {
            sum ^= tower_monomials(j, k);
        }
    }
    return sum;
}

uint8_t tower_product_by_bits(uint8_t a, uint8_t b)
{
    unsigned k;
    uint8_t sum = 0;
    for (k = 0; k < 8; k++) {
        if (b >> k & 1) {
            sum ^= tower_sum_of_products(a, k);
        }
    }
    return sum;
}

/* The smallest nonzero byte y with y y = before y + 1. */
static uint8_t smallest_solution(uint8_t before)
{
    uint8_t y = 1;
    while (product_8_by_bits(y, y) != (product_8_by_bits(before, y) ^ 1)) {
        y += 1;
    }
    return y;
}

uint8_t tower_image_by_bits(uint8_t a)
{
    uint8_t generator[3], sum = 0;
    unsigned g, j;
    for (g = 0; g < 3; g++) {
        generator[g] = smallest_solution(g == 0 ? 1 : generator[g - 1]);
    }
    for (j = 0; j < 8; j++) {
        uint8_t monomial = 1;
        for (g = 0; g < 3; g++) {
            if (j >> g & 1) {
                monomial = product_8_by_bits(monomial, generator[g]);
            }
        }
        if (a >> j & 1) {
            sum ^= monomial;
        }
    }
    return sum;
}
