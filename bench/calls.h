// The calls that are compared and timed, of the library and of plain C.
#ifndef CALLS_H
#define CALLS_H
#include <stddef.h>
#include <stdint.h>

typedef struct {
    uint64_t (*test)(const uint8_t *file, size_t n, uint64_t *place);
    uint64_t (*service_test)(const uint8_t *file, size_t n, uint64_t *place);
    uint64_t (*fresh)(const uint8_t *file, size_t n, uint64_t *at, uint64_t *passed, uint64_t *index_passed);
    uint64_t (*step)(const uint8_t *file, size_t n, uint64_t *at, uint64_t *passed, uint64_t *index_passed, uint64_t *place,
                     uint64_t *read_start, uint64_t *name_length, uint64_t *bases, uint64_t *clips);
    uint64_t (*new_file)(uint8_t *buffer, size_t n, const uint8_t *flows, size_t f, const uint8_t *key, size_t k, uint64_t *place, uint64_t *length_after);
    uint64_t (*append)(uint8_t *buffer, size_t n, uint64_t file_length, const uint8_t *name, size_t l, uint64_t clips, const uint16_t *values, size_t f,
                       const uint8_t *increments, size_t a, const uint8_t *bases, size_t b, const uint8_t *qualities, size_t c, uint64_t *place,
                       uint64_t *length_after);
    uint64_t (*correct)(uint8_t *buffer, size_t n, uint64_t file_length, const uint8_t *record, size_t r, uint64_t *place, uint64_t *length_after);
    uint64_t (*correct_list)(uint8_t *buffer, size_t n, uint64_t file_length, const uint8_t *list, size_t r, uint64_t *count, uint64_t *place,
                             uint64_t *length_after);
    uint64_t (*undo)(const uint8_t *block, size_t n, uint8_t *first, size_t a, uint8_t *second, size_t b, uint64_t *made);
    uint64_t (*undo_layer)(const uint8_t *block, size_t n, uint8_t *first, size_t a, uint8_t *second, size_t b, uint64_t *made);
    uint64_t (*encode)(uint64_t format, uint64_t level, const uint8_t *follow, size_t f, const uint8_t *data, size_t n, uint8_t *out, size_t room,
                       uint64_t *made);
    uint64_t (*scf)(uint64_t precision, uint64_t undo, const uint8_t *data, size_t n, uint8_t *out, size_t room, uint64_t *made);
} Calls;

extern const Calls library, plain;

#endif
