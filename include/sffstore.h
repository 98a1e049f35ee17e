/*
 * The trace store for a C host: the test of a whole SFF file, and the correction of one by a record.
 *
 * Both calls work on memory that the caller lends for the time of the call. They keep nothing, allocate
 * nothing and touch no file, so that several threads may call them at once, each with memory of its own.
 * No pointer may be null, also where its length is 0, and no two parameters may lend the same bytes.
 *
 * Each returns a number: 0 if the file was accepted or the correction was carried out, else the first
 * reason against it, in a fixed order. Positions of reads and places of bytes count from 0.
 */
#ifndef SFFSTORE_H
#define SFFSTORE_H

#include <stddef.h>
#include <stdint.h>

#ifdef __cplusplus
extern "C" {
#endif

/* The numbers. Those from 1 to 13 speak of the file, and have the place of the first byte that is wrong. */
enum sffstore_number {
    /* The file keeps all rules, or the correction was carried out. */
    SFFSTORE_ACCEPTED = 0,

    /* A section runs past the end of the file. Place: where the section starts. */
    SFFSTORE_CUT_SHORT = 1,
    /* The file does not start with the bytes 2E 73 66 66. Place 0. */
    SFFSTORE_WRONG_MAGIC = 2,
    /* The version is not 1. Place 4. */
    SFFSTORE_WRONG_VERSION = 3,
    /* The flowgram format code is not 1. Place 30. */
    SFFSTORE_WRONG_FORMAT_CODE = 4,
    /* The header or a read states another length than its contents need. Place 24, or the read's start. */
    SFFSTORE_WRONG_SECTION_LENGTH = 5,
    /* A flow or key character other than A, C, G and T, or a byte of a name outside of 33 to 126. Place: that byte. */
    SFFSTORE_WRONG_CHARACTER = 6,
    /* Padding that is not zero. Place: that byte. */
    SFFSTORE_WRONG_PADDING = 7,
    /* One index field of the header is 0 and the other is not, or the index length is no multiple of 8. Place 8. */
    SFFSTORE_WRONG_INDEX_FIELDS = 8,
    /* A clip beyond the read's last base. Place: that clip. */
    SFFSTORE_WRONG_CLIP = 9,
    /* The flow index leads to a flow before the first or after the last. Place: that index byte. */
    SFFSTORE_WRONG_FLOW_INDEX = 10,
    /* A base that is neither the flow character at its flow nor the letter N. Place: that base. */
    SFFSTORE_WRONG_BASE = 11,
    /* Bytes behind the last section, or a count of reads that is too low. Place: the first such byte. */
    SFFSTORE_BYTES_LEFT_OVER = 12,
    /* The header declares an index where neither the header nor a read ends. Place 8. */
    SFFSTORE_INDEX_NEVER_MET = 13,

    /* From here on: numbers of sffstore_correct alone, all with place 0. */

    /* The stated length of the file is greater than the buffer. */
    SFFSTORE_LENGTH_ABOVE_BUFFER = 14,
    /* The record has not 96 bytes, or is not one of the three kinds as the manual lays them out. */
    SFFSTORE_MALFORMED_RECORD = 20,
    /* The file has no read at the record's position. */
    SFFSTORE_NO_SUCH_READ = 21,
    /* The read at the record's position has another name than the record's old name. */
    SFFSTORE_OTHER_NAME = 22,
    /* A new clip lies beyond the read's last base. */
    SFFSTORE_WRONG_NEW_CLIP = 23,
    /* Another read of the file bears the new name. */
    SFFSTORE_NAME_TAKEN = 24,
    /* A read cannot be renamed or removed, because the file has an index. */
    SFFSTORE_INDEX_PRESENT = 25,
    /* The buffer has no room for the file with its new name. A rename adds 32 bytes at most. */
    SFFSTORE_NO_ROOM = 26
};

/*
 * Tests a whole file. Returns SFFSTORE_ACCEPTED, or the first of 1 to 13 that holds.
 */
uint64_t sffstore_test(
    const uint8_t *file, /* the file's bytes, which are only read */
    size_t n,            /* how many bytes the file has */
    uint64_t *place      /* out: the place in the file that the number speaks of; 0 where there is none */
);

/*
 * Corrects a file in its buffer by one record: new clips, a new name or a removal. Returns
 * SFFSTORE_ACCEPTED, or the first reason that holds, in this order: 14, 20, the file's own 1 to 13, 21,
 * 22, 25, 23, 24, 26. All is judged before a byte is written: a refused call changes no byte of the buffer.
 *
 * Carried out, the corrected file fills the first *length_after bytes of the buffer. If it has become shorter,
 * the bytes from there to its old length are 0; all bytes behind the longer of the two lengths are as they were.
 */
uint64_t sffstore_correct(
    uint8_t *buffer,       /* in and out: the file at its front, and room for it to grow */
    size_t n,              /* how many bytes the buffer has */
    uint64_t file_length,  /* how many of them the file fills, from the first on */
    const uint8_t *record, /* the record, which is only read */
    size_t r,              /* how many bytes the record has: 96, or it is refused with 20 */
    uint64_t *place,       /* out: the place in the file that the number speaks of; 0 where there is none */
    uint64_t *length_after /* out: how many bytes the file has after the call; file_length if it was refused */
);

#ifdef __cplusplus
}
#endif

#endif
