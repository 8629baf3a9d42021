// The header as C++ reads it: one call that answers, one that writes and one that refuses.
#include "togasipe.h"

int main()
{
    uint8_t byte = 0;
    uint64_t pair[2] = {0, 0};
    togasipe_clmul_64x64(UINT64_MAX, UINT64_MAX, pair);
    const bool right = togasipe_rijndael_mul(0x57, 0x83) == 0xc1 && pair[0] == pair[1]
                       && togasipe_rijndael_try_inverse(0, &byte) == TOGASIPE_NO_INVERSE
                       && togasipe_matrix_compose(TOGASIPE_MATRIX_IDENTITY, TOGASIPE_MATRIX_ZERO) == TOGASIPE_MATRIX_ZERO;
    return right ? 0 : 1;
}
