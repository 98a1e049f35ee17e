// Makes a file by the library's calls: a new file, and an append for each read.
// usage: append NEW-FILE <READS, a description as tests/peers.py writes it
#include "../bench/sides.h"

#include <stdio.h>
#include <stdlib.h>
#include <string.h>

enum { ROOM = 65536, WORD = 4096, CLIPS = 8 };

typedef struct {
    uint8_t bytes[WORD];
    size_t length;
} Word;

static void fail(const char *what, uint64_t number) {
    fprintf(stderr, "append: %s: %llu\n", what, (unsigned long long)number);
    exit(1);
}

// The next word, in hexadecimal digits; "-" is none. 0 at the end of the text.
static int next(Word *word) {
    static char digits[2 * WORD + 2];
    if (scanf("%8193s", digits) != 1)
        return 0;
    word->length = strcmp(digits, "-") == 0 ? 0 : strlen(digits) / 2;
    if (word->length > WORD)
        fail("a word is too long", word->length);
    for (size_t i = 0; i < word->length; i++) {
        unsigned byte;
        if (sscanf(digits + 2 * i, "%2x", &byte) != 1)
            fail("no hexadecimal digits at", i);
        word->bytes[i] = (uint8_t)byte;
    }
    return 1;
}

static void asked(Word *word) {
    if (!next(word))
        fail("the text is cut short", 0);
}

static uint64_t number_of(const uint8_t *bytes, size_t n) {
    uint64_t number = 0;
    for (size_t i = 0; i < n; i++)
        number = number << 8 | bytes[i];
    return number;
}

static uint8_t buffer[ROOM];
static uint64_t length;

static void append(const Word *name) {
    static Word clips, words, increments, bases, qualities;
    static uint16_t values[WORD / 2];
    uint64_t place;
    asked(&clips);
    asked(&words);
    asked(&increments);
    asked(&bases);
    asked(&qualities);
    if (clips.length != CLIPS)
        fail("clips of another length", clips.length);
    size_t flows = words.length / 2;
    for (size_t i = 0; i < flows; i++)
        values[i] = (uint16_t)number_of(words.bytes + 2 * i, 2);
    uint64_t number = h_append(buffer, ROOM, length, name->bytes, name->length, number_of(clips.bytes, CLIPS), values,
                               flows, increments.bytes, increments.length, bases.bytes, bases.length, qualities.bytes,
                               qualities.length, &place, &length);
    if (number != 0)
        fail("an append is refused", number);
}

int main(int count, char **words) {
    static Word flows, key, name;
    uint64_t place;
    if (count != 2)
        fail("usage: append NEW-FILE <READS", 2);
    asked(&flows);
    asked(&key);
    uint64_t number = h_new(buffer, ROOM, flows.bytes, flows.length, key.bytes, key.length, &place, &length);
    if (number != 0)
        fail("the new file is refused", number);
    while (next(&name))
        append(&name);
    FILE *file = fopen(words[1], "wb");
    if (file == NULL || fwrite(buffer, 1, length, file) != length || fclose(file) != 0)
        fail("the file cannot be written", 0);
    return 0;
}
