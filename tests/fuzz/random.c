/* Random numbers: splitmix64. */
#include "fuzz.h"

static uint64_t state;

void random_start(uint64_t seed, uint64_t round) {
    state = seed * UINT64_C(0x9e3779b97f4a7c15) + round * UINT64_C(0xd1342543de82ef95);
}

uint64_t random_number(void) {
    uint64_t z = state += UINT64_C(0x9e3779b97f4a7c15);
    z = (z ^ z >> 30) * UINT64_C(0xbf58476d1ce4e5b9);
    z = (z ^ z >> 27) * UINT64_C(0x94d049bb133111eb);
    return z ^ z >> 31;
}

uint64_t below(uint64_t bound) { return random_number() % bound; }

bool one_in(uint64_t count) { return below(count) == 0; }

uint64_t odd_number(void) {
    static const uint64_t limits[] = {0,
                                      1,
                                      2,
                                      10,
                                      15,
                                      255,
                                      65536,
                                      UINT64_C(1) << 24,
                                      UINT64_C(1) << 32,
                                      32000000000,
                                      UINT64_C(1) << 48,
                                      UINT64_C(1) << 63,
                                      UINT64_MAX};
    if (one_in(4))
        return random_number() >> below(64);
    return limits[below(sizeof limits / sizeof *limits)] + below(3) - 1;
}
