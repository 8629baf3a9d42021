/* Counting, and lent memory. */
#include "check.h"

#include <inttypes.h>
#include <stdio.h>
#include <string.h>

static const char *current = "";
static unsigned long cases;
static unsigned long failures;
static int failed;

void begin(const char *name)
{
    current = name;
    cases += 1;
    failed = 0;
    fresh();
}

/* Whether this difference is the case's first, which alone is printed. */
static int first_failure(void)
{
    if (failed) {
        return 0;
    }
    failed = 1;
    failures += 1;
    return 1;
}

void expect(uint64_t got, uint64_t want)
{
    if (got != want && first_failure()) {
        printf("c: FAILED: %s: got %" PRIx64 ", expected %" PRIx64 "\n", current, got, want);
    }
}

void expect_at(uint64_t input, uint64_t got, uint64_t want)
{
    if (got != want && first_failure()) {
        printf("c: FAILED: %s: at %" PRIx64 " got %" PRIx64 ", expected %" PRIx64 "\n", current, input, got, want);
    }
}

void expect_bytes(const uint8_t *got, const uint8_t *want, size_t count)
{
    size_t i;
    for (i = 0; i < count; i++) {
        if (got[i] != want[i] && first_failure()) {
            printf("c: FAILED: %s: byte %zu is %02x, expected %02x\n", current, i, (unsigned)got[i], (unsigned)want[i]);
        }
    }
}

int report(void)
{
    printf("c: %lu cases, %lu failures\n", cases, failures);
    return failures != 0;
}

uint64_t lent[LENT_WORDS];
static uint64_t after[LENT_WORDS];

void fresh(void)
{
    size_t i;
    for (i = 0; i < LENT_WORDS; i++) {
        lent[i] = UINT64_C(0xa5c3960f1e2d4b87) * (i + 1);
    }
    memcpy(after, lent, sizeof lent);
}

void lend(size_t at, const void *bytes, size_t count)
{
    memcpy((uint8_t *)lent + at, bytes, count);
    memcpy((uint8_t *)after + at, bytes, count);
}

void expect_written(size_t at, const void *bytes, size_t count)
{
    memcpy((uint8_t *)after + at, bytes, count);
}

void expect_memory(void)
{
    if (memcmp(lent, after, sizeof lent) != 0) {
        expect_bytes((const uint8_t *)lent, (const uint8_t *)after, sizeof lent);
    }
}

uint8_t *bytes_at(size_t at)
{
    return (uint8_t *)lent + at;
}

uint64_t *words_at(size_t at)
{
    return lent + at / 8;
}

/* SplitMix64, from a fixed start. */
uint64_t next_random(void)
{
    static uint64_t state = UINT64_C(0x746f676173697065);
    uint64_t z = state += UINT64_C(0x9e3779b97f4a7c15);
    z = (z ^ (z >> 30)) * UINT64_C(0xbf58476d1ce4e5b9);
    z = (z ^ (z >> 27)) * UINT64_C(0x94d049bb133111eb);
    return z ^ (z >> 31);
}

uint64_t word_number(unsigned k)
{
    return k == 0 ? 0 : k == 1 ? UINT64_MAX : k < 66 ? UINT64_C(1) << (k - 2) : next_random();
}
