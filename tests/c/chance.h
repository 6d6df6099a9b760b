/* Numbers by chance, the same in every run: Marsaglia's xorshift, from a fixed seed. */
#include <stdint.h>

static uint64_t chance(void) {
    static uint64_t state = 88172645463325252u;
    state ^= state << 13;
    state ^= state >> 7;
    state ^= state << 17;
    return state;
}
