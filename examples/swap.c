/*
 * Turns the rows of a coach's map around and prints the map's fingerprint before and after, as the program `seats` does. The map
 * is on standard input, one byte a row, at most 32,768 rows.
 *
 *     ./install "$HOME/.local"
 *     export PKG_CONFIG_PATH="$HOME/.local/lib/pkgconfig"
 *     cc examples/swap.c $(pkg-config --cflags --libs togasipe) -o target/swap
 *     target/swap < crates/seats/stdin
 */
#include <inttypes.h>
#include <stdio.h>
#include <togasipe.h>

/* The fingerprint's point. Both ends that compare must use the same one. */
#define POINT UINT64_C(0x2a)

enum { WORDS = TOGASIPE_FINGERPRINT_LIMIT, ROWS = 8 * WORDS };

/* Where the swap sends seat 0, seat 1, .. seat 7: to the other end of the row. */
static const uint8_t images[8] = {0x80, 0x40, 0x20, 0x10, 0x08, 0x04, 0x02, 0x01};

/* Prints a map's fingerprint, or the number of the refusal; 0 where there was none. */
static int show_print(const char *label, const uint8_t *rows, size_t count)
{
    static uint64_t words[WORDS];
    uint64_t used, print;
    uint32_t answer = togasipe_pack_rows(rows, count, words, WORDS, &used);
    if (answer == TOGASIPE_OK) {
        answer = togasipe_fingerprint(words, used, POINT, &print);
    }
    if (answer != TOGASIPE_OK) {
        fprintf(stderr, "swap: refusal %" PRIu32 "\n", answer);
        return 1;
    }
    printf("fingerprint %s%016" PRIx64 "\n", label, print);
    return 0;
}

int main(void)
{
    /* A row more than there may be, so that a longer map is seen. */
    static uint8_t rows[ROWS + 1];
    size_t count = fread(rows, 1, sizeof rows, stdin);
    if (ferror(stdin)) {
        fprintf(stderr, "swap: the map could not be read to its end\n");
        return 1;
    }
    if (show_print("before  ", rows, count) != 0) {
        return 1;
    }
    togasipe_apply_slice(togasipe_matrix_from_images(images), rows, count);
    if (show_print("after   ", rows, count) != 0) {
        return 1;
    }
    return fflush(stdout) == 0 ? 0 : 1;
}
