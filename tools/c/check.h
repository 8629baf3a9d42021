/* Cases, counted: each is opened by its name, and its first difference is printed. And memory to lend, with what it must be
 * after the call beside it, so that a byte written in the wrong place is a difference wherever it lies. */
#ifndef CHECK_H
#define CHECK_H

#include <stddef.h>
#include <stdint.h>

/* Opens the next case, with fresh memory to lend. */
void begin(const char *name);

/* The case's differences: of numbers, of a number at one of many inputs, and of bytes. */
void expect(uint64_t got, uint64_t want);
void expect_at(uint64_t input, uint64_t got, uint64_t want);
void expect_bytes(const uint8_t *got, const uint8_t *want, size_t count);

/* Prints the count; 0 where there was no failure. */
int report(void);

/* The memory that is lent, a pattern before anything is put there. */
enum { LENT_WORDS = 16384 };
extern uint64_t lent[LENT_WORDS];

/* The pattern everywhere, and expected everywhere. */
void fresh(void);

/* Puts bytes into lent memory, `at` bytes from its start: what a call is to find there. They are expected to stay. */
void lend(size_t at, const void *bytes, size_t count);

/* What the call is to leave there instead. */
void expect_written(size_t at, const void *bytes, size_t count);

/* Every byte of the lent memory against what is expected. */
void expect_memory(void);

/* Lent memory as bytes and as words, `at` bytes from its start. */
uint8_t *bytes_at(size_t at);
uint64_t *words_at(size_t at);

/* The next of a fixed row of numbers without a pattern. */
uint64_t next_random(void);

/* Word number k to try a call on: no bit, all bits, the 64 single bits, then any. */
uint64_t word_number(unsigned k);

/* The groups of cases, one to a file. */
void table_cases(void);
void refusal_cases(void);
void byte_cases(void);
void map_cases(void);
void sweep_cases(void);
void word_cases(void);
void field_cases(void);
void memory_cases(void);

#endif
