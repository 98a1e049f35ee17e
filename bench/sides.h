// The calls of both sides. `h` is the library's C exports (crates/harness): numbers are 64 bits wide, slices a pointer
// and a length. `plain` is the same in plain C: the same tests in the same order, the same answers and the same bytes
// left behind. It is what the library is timed beside; its answers are held against the library's before anything is
// timed.
#ifndef SIDES_H
#define SIDES_H
#include <stddef.h>
#include <stdint.h>

#define CALLS_OF(side) \
    uint64_t side##_test(const uint8_t *file, size_t n, uint64_t *place); \
    uint64_t side##_fresh(const uint8_t *file, size_t n, uint64_t *at, uint64_t *passed, uint64_t *index_passed); \
    uint64_t side##_step(const uint8_t *file, size_t n, uint64_t *at, uint64_t *passed, uint64_t *index_passed, uint64_t *place, \
        uint64_t *read_start, uint64_t *name_length, uint64_t *bases, uint64_t *clips); \
    uint64_t side##_new(uint8_t *buffer, size_t n, const uint8_t *flows, size_t f, const uint8_t *key, size_t k, uint64_t *place, \
        uint64_t *length_after); \
    uint64_t side##_append(uint8_t *buffer, size_t n, uint64_t file_length, const uint8_t *name, size_t l, uint64_t clips, const uint16_t *values, \
        size_t f, const uint8_t *increments, size_t a, const uint8_t *bases, size_t b, const uint8_t *qualities, size_t c, uint64_t *place, \
        uint64_t *length_after); \
    uint64_t side##_correct(uint8_t *buffer, size_t n, uint64_t file_length, const uint8_t *record, size_t r, uint64_t *place, uint64_t *length_after); \
    uint64_t side##_correct_list(uint8_t *buffer, size_t n, uint64_t file_length, const uint8_t *list, size_t r, uint64_t *count, uint64_t *place, \
        uint64_t *length_after); \
    uint64_t side##_undo(const uint8_t *block, size_t n, uint8_t *first, size_t a, uint8_t *second, size_t b, uint64_t *made); \
    uint64_t side##_undo_layer(const uint8_t *block, size_t n, uint8_t *first, size_t a, uint8_t *second, size_t b, uint64_t *made); \
    uint64_t side##_encode(uint64_t format, uint64_t level, const uint8_t *follow, size_t f, const uint8_t *data, size_t n, uint8_t *out, \
        size_t room, uint64_t *made); \
    uint64_t side##_scf(uint64_t precision, uint64_t undo, const uint8_t *data, size_t n, uint8_t *out, size_t room, uint64_t *made)

CALLS_OF(h);
CALLS_OF(plain);

#endif
