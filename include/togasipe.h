/* SPDX-License-Identifier: Apache-2.0 */
/*
 * togasipe.h: arithmetic in binary fields, byte maps and fingerprints, for C (C99) and C++ (C++11).
 *
 * The library is one static archive, libtogasipe.a, for x86-64 Linux. It needs no other library.
 * `tools/library.sh` writes it to target/staticlib/, and `./install PREFIX` puts it, this header
 * and a file for pkg-config under a prefix:
 *
 *     cc -Iinclude program.c target/staticlib/libtogasipe.a
 *     cc program.c $(pkg-config --cflags --libs togasipe)
 *
 * A whole program; it prints 57:
 *
 *     #include <stdio.h>
 *     #include "togasipe.h"
 *
 *     int main(void)
 *     {
 *         uint8_t quotient;
 *         uint32_t answer = togasipe_rijndael_div(0xc1, 0x83, &quotient);
 *         if (answer != TOGASIPE_OK) {
 *             printf("refusal %u\n", (unsigned)answer);
 *             return 1;
 *         }
 *         printf("%02x\n", (unsigned)quotient);
 *         return 0;
 *     }
 *
 * EVERY CALL IS TOTAL. It takes any numbers, any bytes and any lengths, and it returns. What each
 * call answers is proved of its code, as long as the caller keeps the rules of LENT MEMORY below.
 *
 * REFUSALS. A call that may refuse is marked TOGASIPE_MUST_CHECK and returns uint32_t: TOGASIPE_OK
 * where it accepts, and else the number of its refusal; its comment says exactly when. A refusing
 * call hands back no value and writes nothing: what is behind `out`, and every list, stay as they
 * were. gcc and clang warn where its answer is dropped. A call without the mark always accepts.
 *
 * NUMBERS. Bit i of a number is the coefficient of x to the i, over two elements: 0x57 stands for
 * x^6 + x^4 + x^2 + x + 1. Adding and subtracting are both XOR. A 128-bit value is two words of 64
 * bits, the low one first: the parameters `low, high`, or out[0] and out[1]. In bytes, readers and
 * writers have the low byte first.
 *
 * LENT MEMORY. Memory is lent for the time of the call; the library keeps no pointer.
 *   - A list is a pointer and its number of elements (not of bytes). A list of no elements may
 *     have any pointer, NULL too.
 *   - A list behind a pointer to const is only read. Another is read and written.
 *   - `out` must point to an object of its type, and a parameter with a number in brackets
 *     (`out[2]`, `out[8]`, `images[8]`, `coefficients[8]`) to so many in a row. It is never NULL,
 *     even where the call refuses. What is in `out` before the call is not read.
 *   - Memory that a call may write must not overlap anything else that is lent to the same call.
 *     Memory that is only read may overlap, or be the same.
 *   - Pointers are aligned as C wants them for their type.
 *
 * NO STATE. Nothing is kept from call to call, and nothing is allocated. So any calls may run at
 * the same time in any threads, as long as nothing that one of them may write is lent to another.
 * Nothing is claimed about timing.
 *
 * COST. Nanoseconds, here and below, are one machine's, rounded, of the library as an older Rattle
 * built it; docs/SPEED.md says how they were measured. A sum takes 1 to 2; a product 8 in the byte
 * field, 25 at 64 bits and 70 at 128 bits; an inverse 120 in the byte field and 800 at 64 bits; a
 * tower byte's product 120; composing two maps 130.
 */
#ifndef TOGASIPE_H
#define TOGASIPE_H

#include <stddef.h>
#include <stdint.h>

#ifdef __cplusplus
extern "C" {
#endif

/* ---- Version ---------------------------------------------------------------------------------
 *
 * Until 1.0.0 the second number rises with each landing that adds calls or changes an answer;
 * CHANGELOG.md says which. */

#define TOGASIPE_VERSION_MAJOR 0
#define TOGASIPE_VERSION_MINOR 2
#define TOGASIPE_VERSION_PATCH 0
#define TOGASIPE_VERSION_TEXT "0.2.0"

/* The header's version as one number: 0x000200 for 0.2.0. */
#define TOGASIPE_VERSION \
    ((TOGASIPE_VERSION_MAJOR << 16) | (TOGASIPE_VERSION_MINOR << 8) | TOGASIPE_VERSION_PATCH)

/* The version of the library that is linked, by the same rule. It never refuses. */
uint32_t togasipe_version(void);

/* ---- Answers --------------------------------------------------------------------------------- */

/* Marks a call whose answer must be looked at, for compilers that can warn. Defined as nothing before
 * this header is read (-DTOGASIPE_MUST_CHECK=), it marks nothing. */
#ifndef TOGASIPE_MUST_CHECK
#if defined(__GNUC__) || defined(__clang__)
#define TOGASIPE_MUST_CHECK __attribute__((warn_unused_result))
#else
#define TOGASIPE_MUST_CHECK
#endif
#endif

/* Accepted. */
#define TOGASIPE_OK 0
/* The inverse of zero was asked for, or the divisor is zero. */
#define TOGASIPE_NO_INVERSE 1
/* Two lists used element by element have unequal lengths. */
#define TOGASIPE_LENGTHS_DIFFER 2
/* An interpolation node of 256 or more was asked for. */
#define TOGASIPE_BAD_INDEX 3
/* A list of bytes to read from or write to has less room than one element (1, 8 or 16 bytes), or a
 * list of words less than the rows to pack need. */
#define TOGASIPE_SHORT 4
/* A list of 128-bit elements has an odd number of words. */
#define TOGASIPE_ODD_LIMBS 5
/* A fingerprint was asked of more than TOGASIPE_FINGERPRINT_LIMIT words. */
#define TOGASIPE_TOO_MANY_WORDS 6

/* ---- Constants ------------------------------------------------------------------------------- */

/* The quadwords of the map that sends every byte to 0 and of the one that leaves each alone. */
#define TOGASIPE_MATRIX_ZERO UINT64_C(0x0000000000000000)
#define TOGASIPE_MATRIX_IDENTITY UINT64_C(0x0102040810204080)

/* A byte of which every nonzero byte is a power, in the byte field. */
#define TOGASIPE_RIJNDAEL_GENERATOR 0x88

/* The largest number of words that have a fingerprint. */
#define TOGASIPE_FINGERPRINT_LIMIT 4096

/* ---- The byte field: bytes modulo x^8 + x^4 + x^3 + x + 1 ------------------------------------
 *
 * The field of AES (FIPS 197). Each byte is an element. */

/* a + b. */
uint8_t togasipe_rijndael_add(uint8_t a, uint8_t b);

/* a - b, which is a + b. */
uint8_t togasipe_rijndael_sub(uint8_t a, uint8_t b);

/* a times b. */
uint8_t togasipe_rijndael_mul(uint8_t a, uint8_t b);

/* a times a. */
uint8_t togasipe_rijndael_square(uint8_t a);

/* a squared `power_log` times, that is a to the power 2^power_log. Any `power_log`; only its
 * remainder by 8 matters. */
uint8_t togasipe_rijndael_exp_power_of_2(uint8_t a, size_t power_log);

/* The one byte whose square is a. */
uint8_t togasipe_rijndael_sqrt(uint8_t a);

/* The inverse of a: the one byte that times a is 1. For a = 0 it is 0. */
uint8_t togasipe_rijndael_invert_or_zero(uint8_t a);

/* Writes the inverse of a to *out.
 * TOGASIPE_NO_INVERSE exactly where a is 0; *out then stays as it was. */
TOGASIPE_MUST_CHECK uint32_t togasipe_rijndael_try_inverse(uint8_t a, uint8_t *out);

/* Writes a divided by b, the one byte that times b is a, to *out.
 * TOGASIPE_NO_INVERSE exactly where b is 0; *out then stays as it was. */
TOGASIPE_MUST_CHECK uint32_t togasipe_rijndael_div(uint8_t a, uint8_t b, uint8_t *out);

/* Writes interpolation node i, the byte i, to *out.
 * TOGASIPE_BAD_INDEX exactly where i is 256 or more; *out then stays as it was. */
TOGASIPE_MUST_CHECK uint32_t togasipe_rijndael_interpolation_node(size_t i, uint8_t *out);

/* The quadword (see Byte maps) of the map that multiplies every byte by a. */
uint64_t togasipe_rijndael_scaling_matrix(uint8_t a);

/* a times 0x35, the byte that stands for the tower's topmost generator X2 (see The tower byte). */
uint8_t togasipe_rijndael_mul_alpha(uint8_t a);

/* Writes the first byte of the list s, an element, to *out. Further bytes are ignored; s is only
 * read.
 * TOGASIPE_SHORT exactly where s_len is 0; *out then stays as it was. */
TOGASIPE_MUST_CHECK uint32_t togasipe_rijndael_read(const uint8_t *s, size_t s_len, uint8_t *out);

/* Writes the element a over the first byte of the list d, and leaves its other bytes alone.
 * TOGASIPE_SHORT exactly where d_len is 0. */
TOGASIPE_MUST_CHECK uint32_t togasipe_rijndael_write(uint8_t a, uint8_t *d, size_t d_len);

/* ---- The tower byte --------------------------------------------------------------------------
 *
 * Bytes over three generators X0, X1, X2, where each Xk times itself is X(k-1) Xk + 1, and X(-1)
 * stands for 1. Bit j of a tower byte is the coefficient of the product of the generators that the
 * bits of j name: 0x02 is X0, 0x10 is X2, 0x20 is X0 X2. A tower byte and a byte of the byte field
 * are both uint8_t here, so C does not keep them apart: go from one to the other by the last two
 * calls only. These undo each other and keep sums and products. */

/* a + b, tower bytes. */
uint8_t togasipe_tower_add(uint8_t a, uint8_t b);

/* a times b, tower bytes. */
uint8_t togasipe_tower_mul(uint8_t a, uint8_t b);

/* The tower byte a as a byte of the byte field. X0, X1 and X2 go to 0xbc, 0x0c and 0x35, each the
 * smallest nonzero byte that solves the generator's relation over the one before. */
uint8_t togasipe_tower_to_rijndael(uint8_t a);

/* The byte a of the byte field as a tower byte. */
uint8_t togasipe_tower_from_rijndael(uint8_t a);

/* ---- Byte maps -------------------------------------------------------------------------------
 *
 * A map from bytes to bytes that keeps XOR has three spellings here, and each map has each
 * spelling exactly once:
 *   quadword      64 bits. Byte k of it is its bits 8k to 8k+7. Output bit i is the parity of
 *                 the input ANDed with byte 7-i.
 *   images        8 bytes: where the single-bit bytes 0x01, 0x02, .. 0x80 go, the lowest bit
 *                 first.
 *   coefficients  8 bytes c0 to c7: the input v goes to c0 v + c1 v^2 + c2 v^4 + .. + c7 v^128,
 *                 in the byte field.
 * Any eight bytes and any 64 bits are a map. The conversions change the spelling, not the map. */

/* Where the map sends one byte. */
uint8_t togasipe_matrix_apply(uint64_t quadword, uint8_t byte);

/* The map that applies `first` first and then `second`, all three as quadwords. */
uint64_t togasipe_matrix_compose(uint64_t second, uint64_t first);

/* From images to the quadword. Reads images. */
uint64_t togasipe_matrix_from_images(const uint8_t images[8]);

/* From the quadword to images. Writes the eight bytes of out. */
void togasipe_matrix_images(uint64_t quadword, uint8_t out[8]);

/* The quadword of the map that squares `power_log` times, in the byte field. Any `power_log`; only
 * its remainder by 8 matters. */
uint64_t togasipe_frobenius_map(size_t power_log);

/* Writes the byte a squared k times, in the byte field, to out[k] for each k from 0 to 7. */
void togasipe_frobenius_orbit(uint8_t a, uint8_t out[8]);

/* Where the map with these coefficients sends the byte a. Reads coefficients. */
uint8_t togasipe_linearized_eval(const uint8_t coefficients[8], uint8_t a);

/* From coefficients to the quadword. Reads coefficients. */
uint64_t togasipe_linearized_to_matrix(const uint8_t coefficients[8]);

/* From coefficients to images. Reads coefficients, and writes the eight bytes of out. */
void togasipe_linearized_to_images(const uint8_t coefficients[8], uint8_t out[8]);

/* From the quadword to coefficients. Writes the eight bytes of out. */
void togasipe_linearized_from_matrix(uint64_t quadword, uint8_t out[8]);

/* From images to coefficients. Reads images, and writes the eight bytes of out. */
void togasipe_linearized_from_images(const uint8_t images[8], uint8_t out[8]);

/* ---- Sweeps: lists of bytes, changed in place ------------------------------------------------ */

/* Replaces each byte of dst by its product, in the byte field, with the byte of src at the same
 * place; src is only read. Lists of no bytes are accepted, and nothing changes. A byte takes about
 * 1 ns.
 * TOGASIPE_LENGTHS_DIFFER exactly where dst_len is not src_len; dst then stays as it was. */
TOGASIPE_MUST_CHECK uint32_t togasipe_mul_slice(uint8_t *dst, size_t dst_len, const uint8_t *src,
    size_t src_len);

/* Replaces each byte of dst by its inverse in the byte field, and 0 by 0. A byte takes about
 * 120 ns. */
void togasipe_invert_slice(uint8_t *dst, size_t dst_len);

/* Replaces each byte of dst by its image under the map with this quadword. A byte takes about
 * 1.5 ns. */
void togasipe_apply_slice(uint64_t quadword, uint8_t *dst, size_t dst_len);

/* ---- Words: bits, carryless products and their remainders ------------------------------------ */

/* The integer product a * b modulo 2^64. */
uint64_t togasipe_wrapping_mul_64(uint64_t a, uint64_t b);

/* The bits of x in the other order: bit i at 7 - i. */
uint8_t togasipe_reverse_bits_8(uint8_t x);

/* The bits of x in the other order: bit i at 63 - i. */
uint64_t togasipe_reverse_bits_64(uint64_t x);

/* Spreads the bits of v over two words, with zeros between: bit i at bit 2i of out, the low word
 * first. Writes both words of out. */
void togasipe_spread_bits_64(uint64_t v, uint64_t out[2]);

/* Gathers bit 2i of x at bit i, for i from 0 to 31, with zeros above. */
uint64_t togasipe_compact_even(uint64_t x);

/* The low 64 bits of the carryless product of x and y: their product as polynomials over two
 * elements, 127 bits long, of which no remainder is taken. */
uint64_t togasipe_bmul64(uint64_t x, uint64_t y);

/* The high 64 bits of the carryless product of x and y. Its bit 63 is always 0. */
uint64_t togasipe_bmul64_high(uint64_t x, uint64_t y);

/* The carryless product of a and b. Writes both words of out, the low one first. */
void togasipe_clmul_64x64(uint64_t a, uint64_t b, uint64_t out[2]);

/* The remainder of the 128-bit polynomial (low, high) by x^64 + x^4 + x^3 + x + 1. */
uint64_t togasipe_reduce_64(uint64_t low, uint64_t high);

/* The remainder of the 256-bit polynomial (p0, p1, p2, p3), the lowest word first, by
 * x^128 + x^7 + x^2 + x + 1. Writes both words of out, the low one first. */
void togasipe_reduce_128(uint64_t p0, uint64_t p1, uint64_t p2, uint64_t p3, uint64_t out[2]);

/* ---- The field of 64 bits: words modulo x^64 + x^4 + x^3 + x + 1 ----------------------------- */

/* a + b (and a - b). */
uint64_t togasipe_add_64(uint64_t a, uint64_t b);

/* a times b. */
uint64_t togasipe_poly_mul_64(uint64_t a, uint64_t b);

/* a times a. */
uint64_t togasipe_poly_square_64(uint64_t a);

/* The one word whose square is a. */
uint64_t togasipe_poly_sqrt_64(uint64_t a);

/* The inverse of x: the one word that times x is 1. For x = 0 it is 0. */
uint64_t togasipe_poly_inverse_64(uint64_t x);

/* Writes the inverse of x to *out.
 * TOGASIPE_NO_INVERSE exactly where x is 0; *out then stays as it was. */
TOGASIPE_MUST_CHECK uint32_t togasipe_try_inverse_64(uint64_t x, uint64_t *out);

/* Writes a divided by b, the one word that times b is a, to *out.
 * TOGASIPE_NO_INVERSE exactly where b is 0; *out then stays as it was. */
TOGASIPE_MUST_CHECK uint32_t togasipe_div_64(uint64_t a, uint64_t b, uint64_t *out);

/* Writes the sum of a[k] times b[k] over the two lists to *out; both are only read. For lists of
 * no words it is 0. A product takes about 22 ns.
 * TOGASIPE_LENGTHS_DIFFER exactly where a_len is not b_len; *out then stays as it was. */
TOGASIPE_MUST_CHECK uint32_t togasipe_poly_dot_64(const uint64_t *a, size_t a_len,
    const uint64_t *b, size_t b_len, uint64_t *out);

/* ---- The field of 128 bits: pairs of words modulo x^128 + x^7 + x^2 + x + 1 ------------------
 *
 * An element goes in as two words, the low one first, and comes back in out the same way. */

/* (a0, a1) + (b0, b1), and the difference too. Writes both words of out. */
void togasipe_add_128(uint64_t a0, uint64_t a1, uint64_t b0, uint64_t b1, uint64_t out[2]);

/* (a0, a1) times (b0, b1). Writes both words of out. */
void togasipe_poly_mul_128(uint64_t a0, uint64_t a1, uint64_t b0, uint64_t b1, uint64_t out[2]);

/* (a0, a1) times itself. Writes both words of out. */
void togasipe_poly_square_128(uint64_t a0, uint64_t a1, uint64_t out[2]);

/* Writes the sum of the products of two lists of elements to both words of out. An element is two
 * words of its list, the low one first, so a length is twice the number of elements. Both lists
 * are only read. For lists of no words the sum is 0. A product takes about 65 ns.
 * TOGASIPE_LENGTHS_DIFFER exactly where a_len is not b_len, odd or not;
 * TOGASIPE_ODD_LIMBS exactly where a_len is b_len and odd. In both cases out stays as it was. */
TOGASIPE_MUST_CHECK uint32_t togasipe_poly_dot_128(const uint64_t *a, size_t a_len,
    const uint64_t *b, size_t b_len, uint64_t out[2]);

/* ---- Readers and writers: words in bytes, the low byte first --------------------------------- */

/* Writes the word in the first 8 bytes of the list s to *out. Further bytes are ignored; s is only
 * read.
 * TOGASIPE_SHORT exactly where s_len is less than 8; *out then stays as it was. */
TOGASIPE_MUST_CHECK uint32_t togasipe_read_64(const uint8_t *s, size_t s_len, uint64_t *out);

/* Writes the word v over the first 8 bytes of the list d, and leaves its other bytes alone.
 * TOGASIPE_SHORT exactly where d_len is less than 8; d then stays as it was. */
TOGASIPE_MUST_CHECK uint32_t togasipe_write_64(uint64_t v, uint8_t *d, size_t d_len);

/* Writes the element in the first 16 bytes of the list s to both words of out, the low one first.
 * Further bytes are ignored; s is only read.
 * TOGASIPE_SHORT exactly where s_len is less than 16; out then stays as it was. */
TOGASIPE_MUST_CHECK uint32_t togasipe_read_128(const uint8_t *s, size_t s_len, uint64_t out[2]);

/* Writes the element (low, high) over the first 16 bytes of the list d, and leaves its other bytes
 * alone.
 * TOGASIPE_SHORT exactly where d_len is less than 16; d then stays as it was. */
TOGASIPE_MUST_CHECK uint32_t togasipe_write_128(uint64_t low, uint64_t high, uint8_t *d,
    size_t d_len);

/* ---- The fingerprint -------------------------------------------------------------------------
 *
 * A map of rows, one byte a row, becomes words eight rows at a time: row 0 is the lowest byte of
 * word 0, row 8 the lowest of word 1, and the last word is filled with zeros. The program `seats`
 * prints the fingerprint of exactly these words:
 *
 *     enum { ROOM = TOGASIPE_FINGERPRINT_LIMIT };
 *     uint64_t words[ROOM], count, print;
 *     uint32_t answer = togasipe_pack_rows(rows, rows_len, words, ROOM, &count);
 *     if (answer == TOGASIPE_OK) {
 *         answer = togasipe_fingerprint(words, count, point, &print);
 *     }
 *
 * WHAT A FINGERPRINT DOES NOT TELL APART, in this version:
 *   - lists that differ only by words of 0 in front: a coach with eight more empty rows in front;
 *   - maps that differ only by empty rows at the end within the last word, since pack_rows fills
 *     it with zeros: 9 rows, and the same 9 rows and an empty tenth;
 *   - at point 0 anything: every list has fingerprint 0. At point 1 lists with the same words in
 *     another order.
 * So compare the number of rows too, and choose a point other than 0 and 1, best at random. */

/* Writes the words of a list of rows to the first of `words`, and their number, which is
 * rows_len / 8 rounded up, to *out. Words after them stay as they were; rows is only read. No rows
 * are no words.
 * TOGASIPE_SHORT exactly where words_len is less than that number; words and *out then stay as
 * they were. */
TOGASIPE_MUST_CHECK uint32_t togasipe_pack_rows(const uint8_t *rows, size_t rows_len,
    uint64_t *words, size_t words_len, uint64_t *out);

/* Writes the fingerprint of a list of words at a point to *out: from 0, each word in turn is added
 * and the sum multiplied by the point, in the field of 64 bits. So one word w has the fingerprint
 * w times the point, and no words have 0. Any point; the list is only read. A word takes about
 * 27 ns.
 * TOGASIPE_TOO_MANY_WORDS exactly where words_len is more than TOGASIPE_FINGERPRINT_LIMIT; *out
 * then stays as it was. */
TOGASIPE_MUST_CHECK uint32_t togasipe_fingerprint(const uint64_t *words, size_t words_len,
    uint64_t point, uint64_t *out);

#ifdef __cplusplus
}
#endif

#endif
