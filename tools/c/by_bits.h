/* What the calls must answer, worked out bit by bit from the definitions and sharing no step with the library: schoolbook
 * products of polynomials, long division, parities, squares one after another. */
#ifndef BY_BITS_H
#define BY_BITS_H

#include <stdint.h>

/* The carryless product of two words, the low half first. */
void carryless_by_bits(uint64_t a, uint64_t b, uint64_t out[2]);

/* The remainder of a polynomial of four words by x^n + tail, for n up to 128. */
void remainder_by_bits(const uint64_t p[4], unsigned n, uint64_t tail, uint64_t out[2]);

/* Products modulo the three polynomials. */
uint8_t product_8_by_bits(uint8_t a, uint8_t b);
uint64_t product_64_by_bits(uint64_t a, uint64_t b);
void product_128_by_bits(const uint64_t a[2], const uint64_t b[2], uint64_t out[2]);

/* A byte squared so many times. */
uint8_t squared_by_bits(uint8_t a, unsigned times);

/* Where a quadword, and where eight coefficients, send a byte. */
uint8_t image_by_bits(uint64_t quadword, uint8_t byte);
uint8_t linearized_by_bits(const uint8_t coefficients[8], uint8_t byte);

/* The product of two tower bytes, and the byte of the byte field that a tower byte stands for. */
uint8_t tower_product_by_bits(uint8_t a, uint8_t b);
uint8_t tower_image_by_bits(uint8_t a);

#endif
