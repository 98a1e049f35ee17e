#include "compare.h"

#include "calls.h"
#include "inputs.h"

#include <stdio.h>
#include <stdlib.h>
#include <string.h>

enum { ROOM = 16384 };

// What a call answered and left, for the library and for plain C.
typedef struct {
    uint64_t number, place, length, count;
    uint8_t first[ROOM], second[ROOM];
} Left;

static const Calls *const both[2] = {&library, &plain};
static Left left[2];
static unsigned long compared;
static uint64_t state = 1;

static uint64_t below(uint64_t n) { return next_random(&state) % n; }

// The same before either call: buffers with this content, answers that no call gives.
static void start(const uint8_t *bytes, size_t n) {
    for (int i = 0; i < 2; i++) {
        Left *l = &left[i];
        l->number = l->place = l->length = l->count = 12345;
        memset(l->first, 0xA5, ROOM);
        memset(l->second, 0x5A, ROOM);
        if (n > 0)
            memcpy(l->first, bytes, n);
    }
}

static void same(const char *call) {
    compared++;
    const Left *a = &left[0], *b = &left[1];
    if (a->number == b->number && a->place == b->place && a->length == b->length && a->count == b->count && memcmp(a->first, b->first, ROOM) == 0 &&
        memcmp(a->second, b->second, ROOM) == 0)
        return;
    fprintf(stderr, "bench: %s differs: library %llu at %llu, length %llu, count %llu; plain C %llu at %llu, length %llu, count %llu\n", call,
            (unsigned long long)a->number, (unsigned long long)a->place, (unsigned long long)a->length, (unsigned long long)a->count,
            (unsigned long long)b->number, (unsigned long long)b->place, (unsigned long long)b->length, (unsigned long long)b->count);
    exit(1);
}

static void differs(const char *call, const uint64_t *a, const uint64_t *b, int n) {
    fprintf(stderr, "bench: %s differs, library and plain C:", call);
    for (int i = 0; i < n; i++)
        fprintf(stderr, " %llu %llu", (unsigned long long)a[i], (unsigned long long)b[i]);
    fprintf(stderr, "\n");
    exit(1);
}

// A step from this state: the number and all that it leaves. The library's next state is left in it.
static uint64_t compare_step(const uint8_t *file, size_t n, uint64_t reader[3]) {
    uint64_t o[2][9];
    for (int i = 0; i < 2; i++) {
        for (int k = 0; k < 9; k++)
            o[i][k] = k < 3 ? reader[k] : 12345;
        o[i][8] = both[i]->step(file, n, &o[i][0], &o[i][1], &o[i][2], &o[i][3], &o[i][4], &o[i][5], &o[i][6], &o[i][7]);
    }
    if (memcmp(o[0], o[1], sizeof o[0]) != 0)
        differs("a step", o[0], o[1], 9);
    compared++;
    memcpy(reader, o[0], 3 * sizeof(uint64_t));
    return o[0][8];
}

// The steps from a fresh reader to the first that stops; then from any state.
static void compare_steps(const uint8_t *file, size_t n) {
    uint64_t reader[2][3] = {{12345, 12345, 12345}, {12345, 12345, 12345}};
    for (int i = 0; i < 2; i++)
        both[i]->fresh(file, n, &reader[i][0], &reader[i][1], &reader[i][2]);
    if (memcmp(reader[0], reader[1], sizeof reader[0]) != 0)
        differs("a fresh reader", reader[0], reader[1], 3);
    while (compare_step(file, n, reader[0]) == 0) {
    }
    uint64_t forged[3] = {8 * below(n / 8 + 3), below(9), below(3)};
    compare_step(file, n, forged);
}

static void compare_test(const uint8_t *file, size_t n) {
    start(file, n);
    for (int i = 0; i < 2; i++)
        left[i].number = both[i]->test(left[i].first, n, &left[i].place);
    same("the whole-file test");
    compare_steps(file, n);
}

static void compare_correct(const uint8_t *file, size_t n, size_t room, uint64_t length, const uint8_t *record, size_t r) {
    start(file, n);
    for (int i = 0; i < 2; i++)
        left[i].number = both[i]->correct(left[i].first, room, length, record, r, &left[i].place, &left[i].length);
    same("a correction");
}

static void compare_list(const uint8_t *file, size_t n, size_t room, uint64_t length, const uint8_t *list, size_t r) {
    start(file, n);
    for (int i = 0; i < 2; i++)
        left[i].number = both[i]->correct_list(left[i].first, room, length, list, r, &left[i].count, &left[i].place, &left[i].length);
    same("a list");
}

static void compare_append(const uint8_t *file, size_t n, size_t room, uint64_t length, const Read *read, size_t values, size_t increments, size_t bases,
                           size_t qualities) {
    start(file, n);
    for (int i = 0; i < 2; i++)
        left[i].number = both[i]->append(left[i].first, room, length, read->name, NAME_LENGTH, read->clips, read->values, values, read->increments,
                                         increments, read->called, bases, read->qualities, qualities, &left[i].place, &left[i].length);
    same("an append");
}

static void compare_new(size_t room, const uint8_t *flows, size_t f, const uint8_t *keys, size_t k) {
    start(NULL, 0);
    for (int i = 0; i < 2; i++)
        left[i].number = both[i]->new_file(left[i].first, room, flows, f, keys, k, &left[i].place, &left[i].length);
    same("a new file");
}

static void compare_encode(uint64_t format, uint64_t level, const uint8_t *follow, size_t f, const uint8_t *data, size_t n, size_t room) {
    start(NULL, 0);
    for (int i = 0; i < 2; i++)
        left[i].number = both[i]->encode(format, level, follow, f, data, n, left[i].first, room, &left[i].length);
    same("an encoding");
}

static void compare_undo(const uint8_t *block, size_t n, size_t a, size_t b) {
    start(NULL, 0);
    for (int i = 0; i < 2; i++)
        left[i].number = both[i]->undo(block, n, left[i].first, a, left[i].second, b, &left[i].length);
    same("undoing a block");
    start(NULL, 0);
    for (int i = 0; i < 2; i++)
        left[i].number = both[i]->undo_layer(block, n, left[i].first, a, left[i].second, b, &left[i].length);
    same("undoing a layer");
}

static void compare_scf(uint64_t precision, uint64_t undo, const uint8_t *data, size_t n, size_t room) {
    start(NULL, 0);
    for (int i = 0; i < 2; i++)
        left[i].number = both[i]->scf(precision, undo, data, n, left[i].first, room, &left[i].length);
    same("SCF samples");
}

// Puts an index of 16 bytes at the end of the header or of a read.
static size_t with_index(uint8_t *out, const File *file, size_t at) {
    memcpy(out, file->bytes, at);
    memset(out + at, 0xEE, 16);
    memcpy(out + at + 16, file->bytes + at, file->length - at);
    out[14] = (uint8_t)(at >> 8);
    out[15] = (uint8_t)at;
    out[19] = 16;
    return file->length + 16;
}

static void damaged_tests(const uint8_t *file, size_t length) {
    static uint8_t damaged[ROOM];
    memcpy(damaged, file, length);
    for (size_t n = 0; n <= length; n++)
        compare_test(damaged, n);
    memset(damaged + length, 0, 8);
    compare_test(damaged, length + 8);
    for (size_t p = 0; p < length; p++) {
        const uint8_t values[6] = {(uint8_t)(file[p] + 1), (uint8_t)(file[p] - 1), 0, 255, 'N', (uint8_t)below(256)};
        for (int i = 0; i < 6; i++) {
            damaged[p] = values[i];
            compare_test(damaged, length);
        }
        damaged[p] = file[p];
    }
    // Two bytes at once: the order of the tests.
    for (int i = 0; i < 4000; i++) {
        size_t p = below(length), q = below(length);
        damaged[p] = (uint8_t)below(256);
        damaged[q] = (uint8_t)below(256);
        compare_test(damaged, length);
        damaged[p] = file[p];
        damaged[q] = file[q];
    }
}

static void random_record(uint8_t record[RECORD], const File *file) {
    static const uint8_t names[] = "E3MFGYR02Jabcdefghijklmnopqrstuvwxyz0123456789";
    size_t position = below(file->reads);
    const uint8_t *name = file->bytes + file->places[position] + 16;
    switch (below(3)) {
    case 0:
        make_clip(record, file, position);
        record[8 + 2 * below(4)] = (uint8_t)(below(8) == 0);
        break;
    case 1:
        make_rename(record, name, NAME_LENGTH, names + below(4), 1 + below(40), position);
        if (below(6) == 0)
            make_rename(record, name, NAME_LENGTH, file->bytes + file->places[below(file->reads)] + 16, NAME_LENGTH, position);
        break;
    default:
        make_removal(record, file, position, position);
    }
    if (below(4) == 0)
        record[7] = (uint8_t)below(file->reads + 1);
    if (below(8) == 0)
        record[below(RECORD)] = (uint8_t)below(256);
}

static void corrections(const File *file, const uint8_t *bytes, size_t length) {
    static uint8_t list[8 * RECORD];
    for (int i = 0; i < 4000; i++) {
        random_record(list, file);
        size_t room = length + below(6) * 8 - (below(12) == 0 ? 16 : 0);
        compare_correct(bytes, length, room, length - (below(40) == 0), list, RECORD - (below(40) == 0));
    }
    for (size_t p = 0; p < RECORD; p++)
        for (int kind = 1; kind <= 3; kind++) {
            static const uint8_t name[] = "another";
            if (kind == 2)
                make_rename(list, file->bytes + file->places[0] + 16, NAME_LENGTH, name, 7, 0);
            else
                make_clip(list, file, 0);
            if (kind == 3)
                make_removal(list, file, 0, 0);
            list[p] ^= 1;
            compare_correct(bytes, length, length + 64, length, list, RECORD);
            list[p] = (uint8_t)below(256);
            compare_correct(bytes, length, length + 64, length, list, RECORD);
        }
    // Positions in file order now and then, so that the way goes on from the read before.
    for (int i = 0; i < 4000; i++) {
        size_t n = below(9);
        for (size_t k = 0; k < n; k++) {
            random_record(list + RECORD * k, file);
            if (i % 2 == 0)
                make_clip(list + RECORD * k, file, k * file->reads / n);
        }
        compare_list(bytes, length, length + below(5) * 16, length, list, RECORD * n + (below(40) == 0));
    }
}

static void appends(const File *file) {
    static Read read, damaged;
    uint64_t seed = 9;
    make_read(&read, 99, &seed);
    size_t b = read.bases, length = file->length;
    compare_append(file->bytes, length, ROOM, length, &read, FLOWS, b, b, b);
    compare_append(file->bytes, length, ROOM, ROOM + 1, &read, FLOWS, b, b, b);
    compare_append(file->bytes, length, ROOM, length, &read, FLOWS - 1, b, b, b);
    compare_append(file->bytes, length, ROOM, length, &read, FLOWS, b - 1, b, b);
    compare_append(file->bytes, length, ROOM, length, &read, FLOWS, b, b, b - 1);
    for (size_t room = length; room < length + 2400; room += 8)
        compare_append(file->bytes, length, room, length, &read, FLOWS, b, b, b);
    for (int i = 0; i < 2000; i++) {
        damaged = read;
        switch (below(4)) {
        case 0:
            damaged.name[below(NAME_LENGTH)] = (uint8_t)below(256);
            break;
        case 1:
            damaged.clips ^= (uint64_t)1 << below(64);
            break;
        case 2:
            damaged.increments[below(b)] = (uint8_t)below(6);
            break;
        default:
            damaged.called[below(b)] = "ACGTN"[below(5)];
        }
        compare_append(file->bytes, length, ROOM, length, &damaged, FLOWS, b, b, b);
    }
    static uint8_t flows[70000];
    memset(flows, 'A', sizeof flows);
    for (size_t room = 0; room < 80; room++)
        compare_new(room, flows, 20, key, 4);
    flow_characters(flows);
    compare_new(ROOM, flows, FLOWS, key, 4);
    flows[7] = 'N';
    compare_new(ROOM, flows, FLOWS, key, 4);
    compare_new(ROOM, flows, 65494, key, 4);
}

static void filters(void) {
    static const uint64_t formats[] = {64, 65, 66, 70, 71, 72, 0, 63, 67, 73, 320};
    static uint8_t data[ROOM], block[2][ROOM], follow[256];
    for (int i = 0; i < 20000; i++) {
        size_t n = below(80);
        uint64_t format = formats[below(i % 8 == 0 ? 11 : 6)];
        uint64_t level = i % 16 == 0 ? below(6) : 1 + below(3);
        for (size_t k = 0; k < n; k++)
            data[k] = (uint8_t)(below(3) == 0 ? below(256) : below(2) == 0 ? 0 : 255 - below(3));
        for (int k = 0; k < 256; k++)
            follow[k] = (uint8_t)below(256);
        if (i % 2 == 0)
            n = n / 4 * 4;
        size_t f = below(40) == 0 ? 255 : 256;
        compare_encode(format, level, follow, f, data, n, below(4) == 0 ? below(n * 2 + 4) : ROOM);
        compare_undo(data, n, below(120), below(120));
        // A chain of layers, some of it damaged.
        size_t length = n + 1;
        int layers = (int)below(10);
        block[0][0] = 0;
        memcpy(block[0] + 1, data, n);
        for (int k = 0; k < layers; k++) {
            uint64_t made;
            uint64_t filter = formats[below(6)];
            if (plain.encode(filter, 1 + below(3), follow, 256, block[k % 2], length, block[(k + 1) % 2], ROOM, &made) != 0)
                filter = 72, plain.encode(72, 0, follow, 256, block[k % 2], length, block[(k + 1) % 2], ROOM, &made);
            length = made;
        }
        uint8_t *last = block[layers % 2];
        compare_undo(last, length, ROOM, ROOM);
        compare_undo(last, length, below(length + 40), below(length + 40));
        last[below(length)] = (uint8_t)below(256);
        compare_undo(last, length - below(2), ROOM, ROOM);
        for (uint64_t undo = 0; undo < 2; undo++)
            compare_scf(below(4), undo, data, n, below(4) == 0 ? below(n + 2) : ROOM);
    }
}

unsigned long compare_all(void) {
    static uint8_t bytes[ROOM];
    File file = make_file(8192);
    damaged_tests(file.bytes, file.length);
    corrections(&file, file.bytes, file.length);
    appends(&file);
    const size_t boundaries[3] = {file.places[0], file.places[2], file.length};
    for (int i = 0; i < 3; i++) {
        size_t length = with_index(bytes, &file, boundaries[i]);
        damaged_tests(bytes, length);
        corrections(&file, bytes, length);
    }
    drop_file(&file);
    filters();
    return compared;
}
