/* Every refusal: its number, and every byte of the lent memory as it was. And the version, a number too. */
#include "togasipe.h"

#include "check.h"

/* Where things are lent, in bytes from the start of the lent memory: two lists, each with room for 4,100 words, and `out`. */
enum { FIRST = 64, SECOND = FIRST + 8 * 4100, OUT = SECOND + 8 * 4100 };

static void no_inverse(void)
{
    static const uint64_t dividends[4] = {0, 1, 0x53, UINT64_MAX};
    unsigned a;
    begin("refusal 1: the inverse of byte 0");
    expect(togasipe_rijndael_try_inverse(0, bytes_at(OUT)), TOGASIPE_NO_INVERSE);
    expect_memory();
    begin("refusal 1: every byte divided by 0");
    for (a = 0; a < 256; a++) {
        expect_at(a, togasipe_rijndael_div((uint8_t)a, 0, bytes_at(OUT)), TOGASIPE_NO_INVERSE);
        expect_memory();
    }
    begin("refusal 1: the inverse of word 0");
    expect(togasipe_try_inverse_64(0, words_at(OUT)), TOGASIPE_NO_INVERSE);
    expect_memory();
    begin("refusal 1: words divided by 0");
    for (a = 0; a < 4; a++) {
        expect_at(dividends[a], togasipe_div_64(dividends[a], 0, words_at(OUT)), TOGASIPE_NO_INVERSE);
        expect_memory();
    }
}

/* Lengths that differ, odd and even, up to a long list. */
static const size_t lengths[10][2] = {{0, 1}, {1, 0}, {1, 2}, {2, 1}, {3, 4}, {4, 3}, {2, 4}, {7, 15}, {0, 4096}, {4096, 4095}};

static void lengths_differ(void)
{
    size_t i;
    begin("refusal 2: products of bytes");
    for (i = 0; i < 10; i++) {
        size_t n = lengths[i][0], m = lengths[i][1];
        expect_at(i, togasipe_mul_slice(bytes_at(FIRST), n, bytes_at(SECOND), m), TOGASIPE_LENGTHS_DIFFER);
        expect_memory();
    }
    begin("refusal 2: a sum of products at 64 bits");
    for (i = 0; i < 10; i++) {
        size_t n = lengths[i][0], m = lengths[i][1];
        expect_at(i, togasipe_poly_dot_64(words_at(FIRST), n, words_at(SECOND), m, words_at(OUT)), TOGASIPE_LENGTHS_DIFFER);
        expect_memory();
    }
    begin("refusal 2: a sum of products at 128 bits, where 5 would apply too");
    for (i = 0; i < 10; i++) {
        size_t n = lengths[i][0], m = lengths[i][1];
        expect_at(i, togasipe_poly_dot_128(words_at(FIRST), n, words_at(SECOND), m, words_at(OUT)), TOGASIPE_LENGTHS_DIFFER);
        expect_memory();
    }
}

static void bad_index(void)
{
    static const size_t indices[6] = {256, 257, 511, 512, 65536, SIZE_MAX};
    size_t i;
    begin("refusal 3: nodes of 256 and more");
    for (i = 0; i < 6; i++) {
        expect_at(indices[i], togasipe_rijndael_interpolation_node(indices[i], bytes_at(OUT)), TOGASIPE_BAD_INDEX);
        expect_memory();
    }
}

static void too_short(void)
{
    size_t room;
    begin("refusal 4: a byte element");
    expect(togasipe_rijndael_read(bytes_at(FIRST), 0, bytes_at(OUT)), TOGASIPE_SHORT);
    expect(togasipe_rijndael_write(0x53, bytes_at(FIRST), 0), TOGASIPE_SHORT);
    expect_memory();
    begin("refusal 4: a word in 0 to 7 bytes");
    for (room = 0; room < 8; room++) {
        expect_at(room, togasipe_read_64(bytes_at(FIRST), room, words_at(OUT)), TOGASIPE_SHORT);
        expect_at(room, togasipe_write_64(0x53, bytes_at(FIRST), room), TOGASIPE_SHORT);
        expect_memory();
    }
    begin("refusal 4: a pair of words in 0 to 15 bytes");
    for (room = 0; room < 16; room++) {
        expect_at(room, togasipe_read_128(bytes_at(FIRST), room, words_at(OUT)), TOGASIPE_SHORT);
        expect_at(room, togasipe_write_128(0x53, 0x54, bytes_at(FIRST), room), TOGASIPE_SHORT);
        expect_memory();
    }
}

/* Rows that need 1 to 13 words, in fewer. */
static void too_few_words(void)
{
    size_t rows, room;
    begin("refusal 4: rows in too few words");
    for (rows = 1; rows <= 100; rows++) {
        for (room = 0; 8 * room < rows; room++) {
            expect_at(rows, togasipe_pack_rows(bytes_at(FIRST), rows, words_at(SECOND), room, words_at(OUT)), TOGASIPE_SHORT);
            expect_memory();
        }
    }
}

static void odd_limbs(void)
{
    size_t n;
    begin("refusal 5: 1, 3, 5 .. 4,095 words");
    for (n = 1; n < 4096; n += 2) {
        expect_at(n, togasipe_poly_dot_128(words_at(FIRST), n, words_at(SECOND), n, words_at(OUT)), TOGASIPE_ODD_LIMBS);
        expect_memory();
    }
}

static void too_many_words(void)
{
    static const size_t counts[3] = {TOGASIPE_FINGERPRINT_LIMIT + 1, TOGASIPE_FINGERPRINT_LIMIT + 4, 8192};
    size_t i;
    begin("refusal 6: 4,097 words and more");
    for (i = 0; i < 3; i++) {
        expect_at(counts[i], togasipe_fingerprint(words_at(FIRST), counts[i], 2, words_at(OUT)), TOGASIPE_TOO_MANY_WORDS);
        expect_memory();
        expect_at(counts[i], togasipe_fingerprint(words_at(FIRST), counts[i], 0, words_at(OUT)), TOGASIPE_TOO_MANY_WORDS);
        expect_memory();
    }
}

static void numbers(void)
{
    begin("the refusals' numbers");
    expect(TOGASIPE_OK, 0);
    expect(TOGASIPE_NO_INVERSE, 1);
    expect(TOGASIPE_LENGTHS_DIFFER, 2);
    expect(TOGASIPE_BAD_INDEX, 3);
    expect(TOGASIPE_SHORT, 4);
    expect(TOGASIPE_ODD_LIMBS, 5);
    expect(TOGASIPE_TOO_MANY_WORDS, 6);
}

static void version(void)
{
    begin("the library's version is the header's");
    expect(togasipe_version(), TOGASIPE_VERSION);
    expect(togasipe_version() >> 16, TOGASIPE_VERSION_MAJOR);
    expect(togasipe_version() >> 8 & 0xff, TOGASIPE_VERSION_MINOR);
    expect(togasipe_version() & 0xff, TOGASIPE_VERSION_PATCH);
}

void refusal_cases(void)
{
    numbers();
    version();
    no_inverse();
    lengths_differ();
    bad_index();
    too_short();
    too_few_words();
    odd_limbs();
    too_many_words();
}
