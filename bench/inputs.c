#include "inputs.h"

#include <math.h>
#include <stdio.h>
#include <stdlib.h>
#include <string.h>

const uint8_t key[4] = {'T', 'C', 'A', 'G'};

uint64_t next_random(uint64_t *state) {
    uint64_t z = *state += 0x9E3779B97F4A7C15;
    z = (z ^ z >> 30) * 0xBF58476D1CE4E5B9;
    z = (z ^ z >> 27) * 0x94D049BB133111EB;
    return z ^ z >> 31;
}

void *room_of(size_t n) {
    void *room = aligned_alloc(4096, (n + 4096) / 4096 * 4096);
    if (room == NULL) {
        fprintf(stderr, "bench: no memory for %zu bytes\n", n);
        exit(2);
    }
    memset(room, 0, n);
    return room;
}

void flow_characters(uint8_t flows[FLOWS]) {
    for (int i = 0; i < FLOWS; i++)
        flows[i] = "TACG"[i % 4];
}

static void put16(uint8_t *s, unsigned v) {
    s[0] = (uint8_t)(v >> 8);
    s[1] = (uint8_t)v;
}

static void put32(uint8_t *s, uint32_t v) {
    put16(s, v >> 16);
    put16(s + 2, v & 65535);
}

static size_t up8(size_t n) { return (n + 7) / 8 * 8; }

// A name as 454's accessions: 14 characters, the last of them counting.
static void make_name(uint8_t name[NAME_LENGTH], uint64_t number) {
    memcpy(name, "E3MFGYR02J", 10);
    for (int i = NAME_LENGTH; i-- > 10; number /= 36)
        name[i] = "ABCDEFGHIJKLMNOPQRSTUVWXYZ0123456789"[number % 36];
}

// A random sequence behind the key, flowed over in TACG order: each flow calls the run of its character. A base in 500
// is not called (N).
void make_read(Read *read, uint64_t number, uint64_t *state) {
    size_t in_key = 1, n = 0;
    int last = 0;
    uint8_t next = key[0];
    make_name(read->name, number);
    for (int flow = 1; flow <= FLOWS; flow++) {
        uint8_t character = "TACG"[(flow - 1) % 4];
        unsigned run = 0;
        while (next == character && n < MOST_BASES) {
            uint64_t r = next_random(state);
            read->increments[n] = (uint8_t)(flow - last);
            read->called[n] = r % 500 == 0 && n >= sizeof key ? 'N' : character;
            read->qualities[n] = (uint8_t)(12 + r / 500 % 29);
            last = flow;
            n++;
            run++;
            next = in_key < sizeof key ? key[in_key++] : "ACGT"[r >> 40 & 3];
        }
        uint64_t noise = next_random(state);
        read->values[flow - 1] = (uint16_t)(run == 0 ? noise % 30 : 100 * run - 12 + noise % 25);
    }
    read->bases = n;
    uint64_t right = n - next_random(state) % 20;
    read->clips = (uint64_t)5 << 48 | right << 32;
}

static void put_section(uint8_t *s, const uint8_t name[NAME_LENGTH], size_t bases, uint64_t clips) {
    put16(s, up8(16 + NAME_LENGTH));
    put16(s + 2, NAME_LENGTH);
    put32(s + 4, bases);
    for (int i = 0; i < 4; i++)
        put16(s + 8 + 2 * i, clips >> (48 - 16 * i) & 65535);
    memcpy(s + 16, name, NAME_LENGTH);
}

static size_t size_of(size_t bases) { return up8(16 + NAME_LENGTH) + up8(2 * FLOWS + 3 * bases); }

static void counted(File *file, size_t size) {
    file->places[file->reads++] = file->length;
    file->length += size;
    put32(file->bytes + 20, file->reads);
}

static void add_read(File *file, const Read *read) {
    size_t n = read->bases;
    uint8_t *s = file->bytes + file->length;
    put_section(s, read->name, n, read->clips);
    s += up8(16 + NAME_LENGTH);
    for (int i = 0; i < FLOWS; i++)
        put16(s + 2 * i, read->values[i]);
    s += 2 * FLOWS;
    memcpy(s, read->increments, n);
    memcpy(s + n, read->called, n);
    memcpy(s + 2 * n, read->qualities, n);
    counted(file, size_of(n));
}

static File start_file(size_t about) {
    size_t header = up8(31 + FLOWS + sizeof key);
    File file = {room_of(about + 65536), header, 0, room_of((about / 1024 + 64) * sizeof(size_t))};
    uint8_t *s = file.bytes;
    memcpy(s, ".sff", 4);
    s[7] = 1;
    put16(s + 24, header);
    put16(s + 26, sizeof key);
    put16(s + 28, FLOWS);
    s[30] = 1;
    flow_characters(s + 31);
    memcpy(s + 31 + FLOWS, key, sizeof key);
    return file;
}

File make_file(size_t about) {
    uint64_t state = 454;
    File file = start_file(about);
    Read read;
    for (;;) {
        make_read(&read, file.reads, &state);
        if (file.length + size_of(read.bases) > about && file.reads > 0)
            return file;
        add_read(&file, &read);
    }
}

File make_long_file(size_t about, size_t reads) {
    uint64_t state = 454;
    File file = start_file(about);
    Read read;
    while (file.reads < reads) {
        make_read(&read, file.reads, &state);
        add_read(&file, &read);
    }
    // The rest is one read, a single run of T.
    size_t n = (about - file.length - size_of(0)) / 3;
    uint8_t name[NAME_LENGTH], *s = file.bytes + file.length;
    make_name(name, file.reads);
    put_section(s, name, n, 0);
    s += up8(16 + NAME_LENGTH) + 2 * FLOWS;
    s[0] = 1;
    memset(s + n, 'T', n);
    memset(s + 2 * n, 30, n);
    counted(&file, size_of(n));
    return file;
}

void drop_file(File *file) {
    free(file->bytes);
    free(file->places);
}

size_t read_size(const File *file, size_t position) {
    size_t end = position + 1 < file->reads ? file->places[position + 1] : file->length;
    return end - file->places[position];
}

void make_clip(uint8_t record[RECORD], const File *file, size_t position) {
    const uint8_t *read = file->bytes + file->places[position];
    memset(record, 0, RECORD);
    record[0] = 1;
    record[1] = NAME_LENGTH;
    put32(record + 4, position);
    put16(record + 8, 9);
    put16(record + 10, 90);
    memcpy(record + 16, read + 16, NAME_LENGTH);
}

void make_rename(uint8_t record[RECORD], const uint8_t *old_name, size_t old_length, const uint8_t *new_name, size_t new_length, size_t position) {
    memset(record, 0, RECORD);
    record[0] = 2;
    record[1] = (uint8_t)old_length;
    record[2] = (uint8_t)new_length;
    put32(record + 4, position);
    memcpy(record + 16, old_name, old_length);
    memcpy(record + 56, new_name, new_length);
}

void make_removal(uint8_t record[RECORD], const File *file, size_t position, size_t position_then) {
    make_clip(record, file, position);
    record[0] = 3;
    put32(record + 4, position_then);
    memset(record + 8, 0, 8);
}

uint8_t *make_clip_list(const File *file, size_t n) {
    uint8_t *list = room_of(RECORD * n);
    for (size_t i = 0; i < n; i++)
        make_clip(list + RECORD * i, file, i * file->reads / n);
    return list;
}

uint8_t *make_trace(size_t n, unsigned w) {
    uint64_t state = 3730;
    uint8_t *data = room_of(n + 8);
    double most = w == 1 ? 200 : 500;
    double height = 0, noise = most / 400;
    for (size_t i = 0; i < n / w; i++) {
        // A peak every 12 samples, of another height each.
        if (i % 12 == 0)
            height = most * (0.3 + 0.7 * (double)(next_random(&state) % 1000) / 1000) * (next_random(&state) % 4 == 0);
        double away = ((double)(i % 12) - 5.5) / 2.6;
        double value = height * exp(-away * away) + noise * (double)(next_random(&state) % 1000) / 1000;
        uint32_t v = (uint32_t)value;
        for (unsigned b = 0; b < w; b++)
            data[i * w + b] = (uint8_t)(v >> 8 * (w - 1 - b));
    }
    return data;
}

void make_follow(uint8_t follow[256], const uint8_t *data, size_t n) {
    static size_t counts[256][256];
    memset(counts, 0, sizeof counts);
    for (size_t i = 1; i < n; i++)
        counts[data[i - 1]][data[i]]++;
    for (int x = 0; x < 256; x++) {
        int most = 0;
        for (int y = 1; y < 256; y++)
            if (counts[x][y] > counts[x][most])
                most = y;
        follow[x] = (uint8_t)most;
    }
}
