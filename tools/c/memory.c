/* Readers and writers, at every room to 40 bytes and at every alignment; rows as words; and the fingerprint. */
#include "togasipe.h"

#include "by_bits.h"
#include "check.h"

enum { LIST = 1000, OUT = 50000, ROWS = 60001, ROOM = 40 };

/* A value of `count` bytes, taken apart by shifts: byte k of it is its bits 8k to 8k+7. */
static void bytes_by_shifts(const uint64_t words[2], uint8_t *bytes, size_t count)
{
    size_t k;
    for (k = 0; k < count; k++) {
        bytes[k] = (uint8_t)(words[k / 8] >> (8 * (k % 8)));
    }
}

/* An element of `size` bytes in rooms from there up, each at another alignment: which bytes are written, and what is read. */
static void rooms(size_t size)
{
    size_t room;
    for (room = size; room <= ROOM; room++) {
        size_t at = LIST + room;
        uint64_t value[2];
        uint8_t bytes[16];
        uint32_t answer;
        value[0] = next_random();
        value[1] = next_random();
        bytes_by_shifts(value, bytes, size);

        fresh();
        expect_written(at, bytes, size);
        answer = size == 1   ? togasipe_rijndael_write(bytes[0], bytes_at(at), room)
                 : size == 8 ? togasipe_write_64(value[0], bytes_at(at), room)
                             : togasipe_write_128(value[0], value[1], bytes_at(at), room);
        expect_at(room, answer, TOGASIPE_OK);
        expect_memory();

        fresh();
        lend(at, bytes, size);
        expect_written(OUT, size == 1 ? (const void *)bytes : value, size);
        answer = size == 1   ? togasipe_rijndael_read(bytes_at(at), room, bytes_at(OUT))
                 : size == 8 ? togasipe_read_64(bytes_at(at), room, words_at(OUT))
                             : togasipe_read_128(bytes_at(at), room, words_at(OUT));
        expect_at(room, answer, TOGASIPE_OK);
        expect_memory();
    }
}

static void order(void)
{
    static const uint8_t bytes[16] = {1, 2, 3, 4, 5, 6, 7, 8, 9, 10, 11, 12, 13, 14, 15, 16};
    uint64_t word = 0, pair[2] = {0, 0};
    begin("readers: the low byte first");
    expect(togasipe_read_64(bytes, 16, &word), TOGASIPE_OK);
    expect(word, UINT64_C(0x0807060504030201));
    expect(togasipe_read_128(bytes, 16, pair), TOGASIPE_OK);
    expect(pair[0], UINT64_C(0x0807060504030201));
    expect(pair[1], UINT64_C(0x100f0e0d0c0b0a09));
}

static void readers_and_writers(void)
{
    uint8_t byte = 7;
    uint64_t pair[2] = {7, 7};
    order();
    begin("readers and writers: a byte in 1 to 40 bytes");
    rooms(1);
    begin("readers and writers: a word in 8 to 40 bytes");
    rooms(8);
    begin("readers and writers: a pair of words in 16 to 40 bytes");
    rooms(16);
    begin("refusal 4: no bytes at no address");
    expect(togasipe_rijndael_read(NULL, 0, &byte), TOGASIPE_SHORT);
    expect(togasipe_read_64(NULL, 0, pair), TOGASIPE_SHORT);
    expect(togasipe_read_128(NULL, 0, pair), TOGASIPE_SHORT);
    expect(togasipe_rijndael_write(7, NULL, 0), TOGASIPE_SHORT);
    expect(togasipe_write_64(7, NULL, 0), TOGASIPE_SHORT);
    expect(togasipe_write_128(7, 7, NULL, 0), TOGASIPE_SHORT);
    expect(byte, 7);
    expect(pair[0], 7);
    expect(pair[1], 7);
}

/* So many rows packed into `room` words: which words are written, and how many. */
static void packed(size_t rows, size_t room)
{
    uint64_t count = rows / 8 + (rows % 8 != 0);
    size_t i;
    fresh();
    for (i = 0; i < 8 * count; i++) {
        uint8_t row = i < rows ? (uint8_t)next_random() : 0;
        if (i < rows) {
            lend(ROWS + i, &row, 1);
        }
        expect_written(LIST + 8 * (i / 8) + i % 8, &row, 1);
    }
    expect_written(OUT, &count, 8);
    expect_at(rows, togasipe_pack_rows(bytes_at(ROWS), rows, words_at(LIST), room, words_at(OUT)), TOGASIPE_OK);
    expect_memory();
}

/* The sample coach of the program `seats`, before and after its rows are turned around. */
static void coach(void)
{
    static const uint64_t prints[2] = {UINT64_C(0xd4303866f197c66a), UINT64_C(0xe8303866f254093c)};
    uint8_t rows[13] = {0xf0, 0x0f, 0x81, 0x66, 0x00, 0xff, 0x3c, 0xaa, 0x01, 0xc3, 0x18, 0x7e, 0x24};
    uint64_t words[2] = {0, 0}, count = 0, print = 0;
    unsigned turned;
    begin("rows: the sample coach and its fingerprints");
    for (turned = 0; turned < 2; turned++) {
        expect(togasipe_pack_rows(rows, 13, words, 2, &count), TOGASIPE_OK);
        expect(count, 2);
        expect(words[1] >> 40, 0);
        expect(togasipe_fingerprint(words, count, 0x2a, &print), TOGASIPE_OK);
        expect(print, prints[turned]);
        togasipe_apply_slice(UINT64_C(0x8040201008040201), rows, 13);
    }
}

static void rows_as_words(void)
{
    size_t rows;
    uint64_t count = 7;
    begin("rows: 0 to 100 in just as many words as they need");
    for (rows = 0; rows <= 100; rows++) {
        packed(rows, (rows + 7) / 8);
    }
    begin("rows: 0 to 100 in more words, which stay");
    for (rows = 0; rows <= 100; rows++) {
        packed(rows, 40);
    }
    begin("rows: 32,767 and 32,768");
    packed(8 * TOGASIPE_FINGERPRINT_LIMIT - 1, TOGASIPE_FINGERPRINT_LIMIT);
    packed(8 * TOGASIPE_FINGERPRINT_LIMIT, TOGASIPE_FINGERPRINT_LIMIT);
    begin("rows: none at no address");
    expect(togasipe_pack_rows(NULL, 0, NULL, 0, &count), TOGASIPE_OK);
    expect(count, 0);
    coach();
}

/* The fingerprint of `count` lent words, worked out word by word. */
static void fingerprint_of(size_t count, uint64_t point)
{
    uint64_t sum = 0;
    size_t i;
    fresh();
    for (i = 0; i < count; i++) {
        uint64_t word = next_random();
        lend(LIST + 8 * i, &word, 8);
        sum = product_64_by_bits(sum ^ word, point);
    }
    expect_written(OUT, &sum, 8);
    expect_at(count, togasipe_fingerprint(words_at(LIST), count, point, words_at(OUT)), TOGASIPE_OK);
    expect_memory();
}

static void fingerprints(void)
{
    size_t count;
    uint64_t print = 7;
    begin("fingerprint: of 0 to 40 words, at any point");
    for (count = 0; count <= 40; count++) {
        fingerprint_of(count, next_random());
    }
    begin("fingerprint: at 0, at 1 and at all ones");
    fingerprint_of(9, 0);
    fingerprint_of(9, 1);
    fingerprint_of(9, UINT64_MAX);
    begin("fingerprint: of 4,095 words and of 4,096");
    fingerprint_of(TOGASIPE_FINGERPRINT_LIMIT - 1, next_random());
    fingerprint_of(TOGASIPE_FINGERPRINT_LIMIT, next_random());
    begin("fingerprint: no words at no address");
    expect(togasipe_fingerprint(NULL, 0, 2, &print), TOGASIPE_OK);
    expect(print, 0);
}

void memory_cases(void)
{
    readers_and_writers();
    rows_as_words();
    fingerprints();
}
