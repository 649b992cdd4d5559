/* The sum of the squares of the differences of samples, for tools/quality.py. */
#include <stddef.h>
#include <stdint.h>

uint64_t squares_of_bytes(const uint8_t *one, const uint8_t *other, size_t count) {
    uint64_t sum = 0;
    for (size_t k = 0; k < count; k++) {
        int64_t by = (int64_t)one[k] - other[k];
        sum += (uint64_t)(by * by);
    }
    return sum;
}

/* Samples of two bytes, the lower one first. */
uint64_t squares_of_pairs(const uint8_t *one, const uint8_t *other, size_t count) {
    uint64_t sum = 0;
    for (size_t k = 0; k < 2 * count; k += 2) {
        int64_t by = (int64_t)(one[k] | one[k + 1] << 8) - (other[k] | other[k + 1] << 8);
        sum += (uint64_t)(by * by);
    }
    return sum;
}
