// What the benchmarks work on, made from a fixed seed: the same bytes in every run.
#ifndef INPUTS_H
#define INPUTS_H
#include <stddef.h>
#include <stdint.h>

enum { FLOWS = 400, NAME_LENGTH = 14, RECORD = 96, MOST_BASES = 2048 };

extern const uint8_t key[4];

uint64_t next_random(uint64_t *state);
void *room_of(size_t n);
void flow_characters(uint8_t flows[FLOWS]);

// One read as it is handed to an append.
typedef struct {
    uint8_t name[NAME_LENGTH];
    uint64_t clips;
    uint16_t values[FLOWS];
    size_t bases;
    uint8_t increments[MOST_BASES], called[MOST_BASES], qualities[MOST_BASES];
} Read;

void make_read(Read *read, uint64_t number, uint64_t *state);

// A file of about so many bytes, with the places of its reads.
typedef struct {
    uint8_t *bytes;
    size_t length;
    size_t reads;
    size_t *places;
} File;

File make_file(size_t about);
// The same, but for the last of its reads, which fills it: to look through its names takes no time.
File make_long_file(size_t about, size_t reads);
void drop_file(File *file);
size_t read_size(const File *file, size_t position);

// Correction records for a read of the file.
void make_clip(uint8_t record[RECORD], const File *file, size_t position);
void make_rename(uint8_t record[RECORD], const uint8_t *old_name, size_t old_length, const uint8_t *new_name, size_t new_length, size_t position);
void make_removal(uint8_t record[RECORD], const File *file, size_t position, size_t position_then);
// n clip records, sorted by position and spread over the file.
uint8_t *make_clip_list(const File *file, size_t n);

// Samples of a trace: peaks over a slow ground, with noise. In units of w bytes.
uint8_t *make_trace(size_t n, unsigned w);
// The follow table of the data: after each byte, the byte that follows it most often.
void make_follow(uint8_t follow[256], const uint8_t *data, size_t n);

#endif
