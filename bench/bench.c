// Times the library's calls beside plain C and beside memcpy or memmove of the same bytes, all in turn in each round,
// and writes a line for each row.
// usage: bench ROUNDS RESULTS    or    bench compare    or    bench write FILE, which writes the file of 100 MB
#define _GNU_SOURCE
#include "calls.h"
#include "compare.h"
#include "inputs.h"

#include <sched.h>
#include <stdio.h>
#include <stdlib.h>
#include <string.h>
#include <time.h>
#include <unistd.h>

enum { MEGABYTE = 1000000, MOVES = 10, LEAST_ROUNDS = 3, NO_READ_LEFT = 33 };

// What a row works on, and what its last call answered.
typedef struct {
    const File *file;
    uint8_t *buffer, *second, *spare;
    size_t room;
    const uint8_t *list, *still;
    size_t list_size, records;
    Read *reads;
    uint64_t format, level;
    const uint8_t *follow, *data;
    size_t size;
    uint64_t number, place, length, count;
} Case;

typedef void (*Action)(Case *, const Calls *);

static FILE *results;
static int rounds;

static double seconds(clockid_t clock) {
    struct timespec t;
    clock_gettime(clock, &t);
    return (double)t.tv_sec + (double)t.tv_nsec * 1e-9;
}

// The lesser of the time that passes and of the time that this program has the core: what others take of it is not
// counted.
static double time_of(Action run, Case *c, const Calls *calls) {
    double core = seconds(CLOCK_THREAD_CPUTIME_ID);
    double start = seconds(CLOCK_MONOTONIC);
    run(c, calls);
    double passed = seconds(CLOCK_MONOTONIC) - start;
    core = seconds(CLOCK_THREAD_CPUTIME_ID) - core;
    return passed < core ? passed : core;
}

static int ascending(const void *a, const void *b) {
    double x = *(const double *)a, y = *(const double *)b;
    return (x > y) - (x < y);
}

// One of those that a row times.
typedef struct {
    Action run;
    const Calls *calls;
    double *times;
    double best, median;
} Subject;

// A refusal would be quick: none is timed.
static void carried_out(const char *what, const Case *c) {
    if (c->number == 0)
        return;
    fprintf(stderr, "bench: refused with %llu: %s\n", (unsigned long long)c->number, what);
    exit(1);
}

static void measure(const char *what, Case *c, Action restore, Subject *subjects, int n, int times) {
    for (int i = 0; i < n; i++)
        subjects[i].times = room_of(sizeof(double) * (size_t)times);
    for (int r = 0; r < times; r++)
        for (int i = 0; i < n; i++) {
            // Another one begins each round, and every other round goes backwards: none always follows the same one.
            int k = r % 2 == 0 ? (i + r) % n : (n - 1 - i + r) % n;
            if (restore != NULL)
                restore(c, NULL);
            subjects[k].times[r] = time_of(subjects[k].run, c, subjects[k].calls);
            carried_out(what, c);
        }
    for (int i = 0; i < n; i++) {
        qsort(subjects[i].times, (size_t)times, sizeof(double), ascending);
        subjects[i].best = subjects[i].times[0];
        subjects[i].median = subjects[i].times[times / 2];
        free(subjects[i].times);
    }
}

// More rounds where a call is short.
static int rounds_for(size_t bytes) {
    int many = bytes > 50 * MEGABYTE ? rounds : bytes > 5 * MEGABYTE ? 4 * rounds : 20 * rounds;
    return many < LEAST_ROUNDS ? LEAST_ROUNDS : many;
}

// From the same bytes, library and plain C answer and leave the same: number, place, length, count and every byte of
// both buffers.
static void agree(const char *what, Case *c, Action run) {
    const Calls *const both[2] = {&library, &plain};
    size_t n = c->room;
    uint8_t *before = room_of(n), *left[2] = {room_of(2 * n), room_of(2 * n)};
    Case answers[2];
    memcpy(before, c->buffer, n);
    for (int i = 0; i < 2; i++) {
        c->number = c->place = c->length = c->count = 12345;
        memcpy(c->buffer, before, n);
        if (c->second != NULL)
            memset(c->second, 0x5A, n);
        run(c, both[i]);
        carried_out(what, c);
        answers[i] = *c;
        memcpy(left[i], c->buffer, n);
        if (c->second != NULL)
            memcpy(left[i] + n, c->second, n);
    }
    const Case *a = &answers[0], *b = &answers[1];
    if (a->place != b->place || a->length != b->length || a->count != b->count || memcmp(left[0], left[1], 2 * n) != 0) {
        fprintf(stderr, "bench: library and plain C differ: %s\n", what);
        exit(1);
    }
    memcpy(c->buffer, before, n);
    free(before);
    free(left[0]);
    free(left[1]);
}

// group, what, bytes, what is restored, what stands third; best and median of library, plain C and the third, in
// nanoseconds.
static void say(const char *group, const char *what, size_t bytes, const char *restored, const char *third, const Subject subjects[3]) {
    fprintf(results, "%s|%s|%zu|%s|%s", group, what, bytes, restored, third);
    for (int i = 0; i < 3; i++)
        fprintf(results, "|%.1f|%.1f", subjects[i].best * 1e9, subjects[i].median * 1e9);
    fprintf(results, "\n");
    fflush(results);
}

static void row(const char *group, const char *what, size_t bytes, const char *restored, Action restore, Action run, const char *third, Action third_run,
                Case *c) {
    if (restore != NULL)
        restore(c, NULL);
    agree(what, c, run);
    Subject s[3] = {{.run = run, .calls = &library}, {.run = run, .calls = &plain}, {.run = third_run, .calls = &library}};
    measure(what, c, restore, s, 3, rounds_for(bytes));
    say(group, what, bytes, restored, third, s);
}

// The calls.

static void run_test(Case *c, const Calls *calls) { c->number = calls->test(c->buffer, c->file->length, &c->place); }

// The host's archive has fewer calls, and so the compiler may lay out the same test in another way.
static void run_service_test(Case *c, const Calls *calls) { c->number = calls->service_test(c->buffer, c->file->length, &c->place); }

// A step for each read, and one more, which finds none: the reads and their bases are counted.
static void run_steps(Case *c, const Calls *calls) {
    const uint8_t *file = c->buffer;
    size_t n = c->file->length;
    uint64_t at, passed, index_passed, start, name_length, bases, clips;
    c->length = 0;
    calls->fresh(file, n, &at, &passed, &index_passed);
    while ((c->number = calls->step(file, n, &at, &passed, &index_passed, &c->place, &start, &name_length, &bases, &clips)) == 0)
        c->length += bases;
    c->count = passed;
    if (c->number == NO_READ_LEFT && passed == c->file->reads)
        c->number = 0;
}

static void run_list(Case *c, const Calls *calls) {
    c->number = calls->correct_list(c->buffer, c->room, c->file->length, c->list, c->list_size, &c->count, &c->place, &c->length);
}

static void run_still(Case *c, const Calls *calls) {
    c->number = calls->correct_list(c->buffer, c->room, c->file->length, c->still, c->list_size, &c->count, &c->place, &c->length);
}

static void run_correct(Case *c, const Calls *calls) {
    c->number = calls->correct(c->buffer, c->room, c->file->length, c->list, RECORD, &c->place, &c->length);
}

static uint64_t append_read(Case *c, const Calls *calls, uint64_t length, const Read *read) {
    size_t n = read->bases;
    return calls->append(c->buffer, c->room, length, read->name, NAME_LENGTH, read->clips, read->values, FLOWS, read->increments, n, read->called, n,
                         read->qualities, n, &c->place, &c->length);
}

static void run_append(Case *c, const Calls *calls) { c->number = append_read(c, calls, c->file->length, c->reads); }

static void run_whole_file(Case *c, const Calls *calls) {
    uint8_t flows[FLOWS];
    flow_characters(flows);
    c->number = calls->new_file(c->buffer, c->room, flows, FLOWS, key, sizeof key, &c->place, &c->length);
    for (size_t i = 0; i < c->records && c->number == 0; i++)
        c->number = append_read(c, calls, c->length, &c->reads[i]);
}

static void run_encode(Case *c, const Calls *calls) {
    c->number = calls->encode(c->format, c->level, c->follow, 256, c->data, c->size, c->buffer, c->room, &c->length);
}

static void run_undo_layer(Case *c, const Calls *calls) {
    c->number = calls->undo_layer(c->data, c->size, c->buffer, c->room, c->second, c->room, &c->length);
}

static void run_undo(Case *c, const Calls *calls) {
    c->number = calls->undo(c->data, c->size, c->buffer, c->room, c->second, c->room, &c->length);
}

static void run_scf(Case *c, const Calls *calls) { c->number = calls->scf(c->format, c->level, c->data, c->size, c->buffer, c->room, &c->length); }

// The same bytes, copied or moved.

static void copy_file(Case *c, const Calls *calls) {
    (void)calls;
    memcpy(c->spare, c->buffer, c->file->length);
}

static void copy_data(Case *c, const Calls *calls) {
    (void)calls;
    memcpy(c->buffer, c->data, c->size);
}

static void nothing(Case *c, const Calls *calls) {
    (void)c;
    (void)calls;
}

static void move_up_once(Case *c, const Calls *calls) {
    size_t from = c->file->places[0] + 32;
    (void)calls;
    memmove(c->buffer + from + 8, c->buffer + from, c->file->length - from);
}

static void move_down_once(Case *c, const Calls *calls) {
    size_t at = c->file->places[0], size = read_size(c->file, 0);
    (void)calls;
    memmove(c->buffer + at, c->buffer + at + size, c->file->length - at - size);
    memset(c->buffer + c->file->length - size, 0, size);
}

static void move_up(Case *c, const Calls *calls) {
    (void)calls;
    for (size_t k = 0; k < MOVES; k++) {
        size_t from = c->file->places[k] + 32 + 8 * k;
        memmove(c->buffer + from + 8, c->buffer + from, c->file->length + 8 * k - from);
    }
}

static void move_down(Case *c, const Calls *calls) {
    size_t length = c->file->length, at = c->file->places[0];
    (void)calls;
    for (size_t k = 0; k < MOVES; k++) {
        size_t size = read_size(c->file, k);
        memmove(c->buffer + at, c->buffer + at + size, length - at - size);
        memset(c->buffer + length - size, 0, size);
        length -= size;
    }
}

// What is put back between the calls, outside of the time.

static void restore_file(Case *c, const Calls *calls) {
    (void)calls;
    memcpy(c->buffer, c->file->bytes, c->room);
}

static void restore_read(Case *c, const Calls *calls) {
    size_t at = c->file->places[0];
    (void)calls;
    memcpy(c->buffer + at, c->file->bytes + at, 32);
}

static void restore_count(Case *c, const Calls *calls) {
    (void)calls;
    memcpy(c->buffer, c->file->bytes, 32);
}

// A name that no read of the files bears, of up to 31 characters.
static const uint8_t *other_name(size_t i) {
    static uint8_t name[40];
    snprintf((char *)name, sizeof name, "other%09zuabcdefghijklmnopq", i);
    return name;
}

// Ten growing renames of the first reads, each after the other, beside ten renames that keep the size; a clip record
// before either, so that the file is tested in both alike. What lies between is the time of the moves.
static void moves_up(Case *c) {
    static uint8_t moving[(MOVES + 1) * RECORD], still[(MOVES + 1) * RECORD];
    make_clip(moving, c->file, 0);
    make_clip(still, c->file, 0);
    for (size_t k = 0; k < MOVES; k++) {
        const uint8_t *name = c->file->bytes + c->file->places[k] + 16;
        make_rename(moving + RECORD * (k + 1), name, NAME_LENGTH, other_name(k), NAME_LENGTH + 8, k);
        make_rename(still + RECORD * (k + 1), name, NAME_LENGTH, other_name(k), NAME_LENGTH, k);
    }
    c->list = moving;
    c->still = still;
    c->list_size = sizeof moving;
}

// Ten removals of the first read, beside ten clip corrections of it.
static void moves_down(Case *c) {
    static uint8_t moving[(MOVES + 1) * RECORD], still[(MOVES + 1) * RECORD];
    make_clip(moving, c->file, 0);
    make_clip(still, c->file, 0);
    for (size_t k = 0; k < MOVES; k++) {
        make_removal(moving + RECORD * (k + 1), c->file, k, 0);
        make_clip(still + RECORD * (k + 1), c->file, 0);
    }
    c->list = moving;
    c->still = still;
    c->list_size = sizeof moving;
}

// Two rows, with the moves and without them.
static void moves_row(const char *what, size_t bytes, Action memory, Case *c) {
    restore_file(c, NULL);
    agree(what, c, run_list);
    agree(what, c, run_still);
    Subject s[6] = {{.run = run_list, .calls = &library},  {.run = run_list, .calls = &plain},  {.run = memory},
                    {.run = run_still, .calls = &library}, {.run = run_still, .calls = &plain}, {.run = nothing}};
    measure(what, c, restore_file, s, 6, rounds_for(bytes));
    say("moving", what, bytes, "file", "memmove", s);
    say("still", what, bytes, "file", "nothing", s + 3);
}

static void file_rows(size_t bytes) {
    File file = make_file(bytes);
    static uint8_t record[RECORD];
    static Read read;
    uint64_t seed = 454454;
    Case c = {.file = &file, .room = file.length + 8192, .list = record};
    c.buffer = room_of(c.room);
    c.spare = room_of(c.room);
    const uint8_t *first_name = file.bytes + file.places[0] + 16;
    restore_file(&c, NULL);

    row("files", "whole-file test", bytes, "-", NULL, run_test, "memcpy", copy_file, &c);
    row("files", "whole-file test, by the service", bytes, "-", NULL, run_service_test, "memcpy", copy_file, &c);
    row("files", "a step for each read", bytes, "-", NULL, run_steps, "memcpy", copy_file, &c);
    make_clip(record, &file, file.reads - 1);
    row("files", "clips of the last read", bytes, "-", NULL, run_correct, "memcpy", copy_file, &c);
    make_rename(record, first_name, NAME_LENGTH, other_name(0), NAME_LENGTH, 0);
    row("files", "rename of the first read, same size", bytes, "read", restore_read, run_correct, "memcpy", copy_file, &c);
    make_rename(record, first_name, NAME_LENGTH, other_name(0), NAME_LENGTH + 8, 0);
    row("files", "rename of the first read, 8 more", bytes, "file", restore_file, run_correct, "memmove", move_up_once, &c);
    make_removal(record, &file, 0, 0);
    row("files", "removal of the first read", bytes, "file", restore_file, run_correct, "memmove", move_down_once, &c);
    restore_file(&c, NULL);
    make_read(&read, 1000000, &seed);
    c.reads = &read;
    row("files", "append of a read", bytes, "count", restore_count, run_append, "memcpy", copy_file, &c);

    restore_file(&c, NULL);
    for (size_t n = 1; n <= 10000; n *= 10) {
        char what[64];
        uint8_t *list = make_clip_list(&file, n);
        snprintf(what, sizeof what, "%zu record%s", n, n == 1 ? "" : "s");
        c.list = list;
        c.list_size = RECORD * n;
        row("lists", what, bytes, "-", NULL, run_list, "one test", run_test, &c);
        free(list);
    }
    free(c.buffer);
    free(c.spare);
    drop_file(&file);
}

static void move_rows(size_t bytes) {
    File file = make_long_file(bytes, MOVES);
    Case c = {.file = &file, .room = file.length + 8192};
    c.buffer = room_of(c.room);
    moves_up(&c);
    moves_row("move up by 8", bytes, move_up, &c);
    moves_down(&c);
    moves_row("move down by a read, end zeroed", bytes, move_down, &c);
    free(c.buffer);
    drop_file(&file);
}

static void growth_row(size_t bytes) {
    File file = make_file(bytes);
    Case c = {.file = &file, .room = file.length + 4096};
    c.buffer = room_of(c.room);
    c.spare = room_of(c.room);
    restore_file(&c, NULL);
    row("growth", "whole-file test", bytes, "-", NULL, run_test, "memcpy", copy_file, &c);
    free(c.buffer);
    free(c.spare);
    drop_file(&file);
}

// A file of 64 KB, made by a new file and an append for each read. Each append tests the file.
static void small_file_row(void) {
    size_t bytes = 64000;
    File file = make_file(bytes);
    Case c = {.file = &file, .room = file.length + 4096, .records = file.reads};
    uint64_t seed = 454;
    c.buffer = room_of(c.room);
    c.spare = room_of(c.room);
    c.reads = room_of(sizeof(Read) * file.reads);
    for (size_t i = 0; i < file.reads; i++)
        make_read(&c.reads[i], i, &seed);
    run_whole_file(&c, &library);
    if (c.length != file.length || memcmp(c.buffer, file.bytes, file.length) != 0) {
        fprintf(stderr, "bench: the file appended read by read is not the file\n");
        exit(1);
    }
    char what[64];
    snprintf(what, sizeof what, "new file and %zu appends", file.reads);
    row("files", what, bytes, "-", NULL, run_whole_file, "memcpy", copy_file, &c);
    free(c.buffer);
    free(c.spare);
    free(c.reads);
    drop_file(&file);
}

// Encodes the data, checks that undoing gives them back, and times both ways.
static void filter_rows(uint64_t format, uint64_t level, const uint8_t *data, size_t n) {
    static uint8_t follow[256];
    char what[64];
    Case c = {.format = format, .level = level, .follow = follow, .data = data, .size = n, .room = 2 * n + 512};
    c.buffer = room_of(c.room);
    make_follow(follow, data, n);
    snprintf(what, sizeof what, level == 0 ? "%llu, encode" : "%llu level %llu, encode", (unsigned long long)format, (unsigned long long)level);
    row("filters", what, n, "-", NULL, run_encode, "memcpy", copy_data, &c);

    run_encode(&c, &library);
    uint8_t *block = c.buffer;
    c.data = block;
    c.size = c.length;
    c.room = c.size > n ? c.size : n;
    c.buffer = room_of(c.room);
    c.second = room_of(c.room);
    snprintf(what, sizeof what, level == 0 ? "%llu, undo a layer" : "%llu level %llu, undo a layer", (unsigned long long)format,
             (unsigned long long)level);
    row("filters", what, n, "-", NULL, run_undo_layer, "memcpy", copy_data, &c);
    run_undo_layer(&c, &library);
    if (c.length != n || memcmp(c.buffer, data, n) != 0) {
        fprintf(stderr, "bench: undoing format %llu does not give the data\n", (unsigned long long)format);
        exit(1);
    }
    free(block);
    free(c.buffer);
    free(c.second);
}

static void scf_rows(uint64_t precision, const uint8_t *data, size_t n) {
    char what[64];
    Case c = {.format = precision, .level = 0, .data = data, .size = n, .room = n};
    c.buffer = room_of(n);
    snprintf(what, sizeof what, "SCF precision %llu, encode", (unsigned long long)precision);
    row("filters", what, n, "-", NULL, run_scf, "memcpy", copy_data, &c);
    run_scf(&c, &library);
    uint8_t *samples = c.buffer;
    c.buffer = room_of(n);
    c.data = samples;
    c.level = 1;
    snprintf(what, sizeof what, "SCF precision %llu, undo", (unsigned long long)precision);
    row("filters", what, n, "-", NULL, run_scf, "memcpy", copy_data, &c);
    free(samples);
    free(c.buffer);
}

// A block of 65 at level 2, then 70, then 72: samples of 16 bits behind the format byte and a zero.
static void three_layers_row(const uint8_t *samples, size_t n) {
    static const uint64_t formats[3] = {65, 70, 72};
    uint8_t follow[256];
    size_t length = n + 2, room = 2 * n + 1024;
    uint8_t *from = room_of(room), *to = room_of(room);
    memcpy(from + 2, samples, n);
    for (int i = 0; i < 3; i++) {
        uint64_t made;
        make_follow(follow, from, length);
        if (library.encode(formats[i], 2, follow, 256, from, length, to, room, &made) != 0)
            exit(1);
        uint8_t *next = from;
        from = to;
        to = next;
        length = made;
    }
    Case c = {.data = from, .size = length, .room = 2 * n};
    c.buffer = room_of(c.room);
    c.second = room_of(c.room);
    row("filters", "block of 65 level 2, 70, 72: undo", n, "-", NULL, run_undo, "memcpy", copy_data, &c);
    run_undo(&c, &library);
    if (c.length != n + 1 || memcmp(c.buffer + 1, samples, n) != 0) {
        fprintf(stderr, "bench: undoing the block does not give the samples\n");
        exit(1);
    }
    free(from);
    free(to);
    free(c.buffer);
    free(c.second);
}

static void all_filters(size_t n) {
    for (unsigned w = 1; w <= 4; w *= 2) {
        uint8_t *trace = make_trace(n, w);
        for (uint64_t level = 1; level <= 3; level++)
            filter_rows(w == 1 ? 64 : w == 2 ? 65 : 66, level, trace, n);
        if (w > 1) {
            // Narrowing is made for differences.
            uint8_t *differences = room_of(n + 8);
            uint64_t made;
            size_t header = w == 2 ? 2 : 4;
            if (library.encode(w == 2 ? 65 : 66, 2, NULL, 0, trace, n, differences, n + 8, &made) != 0)
                exit(1);
            filter_rows(w == 2 ? 70 : 71, 0, differences + header, n);
            free(differences);
        }
        if (w == 1)
            filter_rows(72, 0, trace, n);
        if (w < 4)
            scf_rows(w, trace, n);
        if (w == 2)
            three_layers_row(trace, n);
        free(trace);
    }
}

static int write_file(const char *name) {
    File file = make_file(100 * MEGABYTE);
    FILE *out = fopen(name, "wb");
    if (out == NULL || fwrite(file.bytes, 1, file.length, out) != file.length || fclose(out) != 0) {
        fprintf(stderr, "bench: %s cannot be written\n", name);
        return 2;
    }
    return 0;
}

int main(int argc, char **argv) {
    if (argc == 2 && strcmp(argv[1], "compare") == 0) {
        printf("library and plain C agree on %lu inputs, valid and damaged\n", compare_all());
        return 0;
    }
    if (argc == 3 && strcmp(argv[1], "write") == 0)
        return write_file(argv[2]);
    if (argc != 3 || (rounds = atoi(argv[1])) < 1 || (results = fopen(argv[2], "w")) == NULL) {
        fprintf(stderr, "usage: %s ROUNDS RESULTS, or %s compare, or %s write FILE\n", argv[0], argv[0], argv[0]);
        return 2;
    }
    // One core, the last; where it cannot be chosen the system does.
    cpu_set_t core;
    CPU_ZERO(&core);
    CPU_SET((size_t)sysconf(_SC_NPROCESSORS_ONLN) - 1, &core);
    sched_setaffinity(0, sizeof core, &core);

    file_rows(MEGABYTE);
    file_rows(100 * MEGABYTE);
    move_rows(MEGABYTE);
    move_rows(100 * MEGABYTE);
    small_file_row();
    growth_row(MEGABYTE / 10);
    growth_row(MEGABYTE);
    growth_row(10 * MEGABYTE);
    growth_row(100 * MEGABYTE);
    all_filters(MEGABYTE);
    all_filters(65536);
    return fclose(results) == 0 ? 0 : 2;
}
