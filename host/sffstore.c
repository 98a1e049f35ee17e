/*
 * sffstore: tests SFF files, and corrects one by a list of records. An example of a host for the library.
 * What it prints, its exit status and what happens to a file are described in docs/MANUAL.md.
 */
#define _XOPEN_SOURCE 700

#include "files.h"
#include "messages.h"
#include "sffstore.h"

#include <errno.h>
#include <fcntl.h>
#include <inttypes.h>
#include <signal.h>
#include <stdio.h>
#include <stdlib.h>
#include <string.h>
#include <unistd.h>

/* The exit status. Of several files the greatest counts. */
enum status { CARRIED_OUT = 0, REFUSED = 1, COULD_NOT_RUN = 2 };

enum { RECORD = 96, RENAME = 2 };

/* The most that a rename adds to a file: a name of 40 bytes in place of one byte, each with its padding. */
enum { RENAME_GROWTH = 32 };

/* sffstore test FILE.. */

static enum status test(const char *path)
{
    struct bytes file;
    if (!read_path(path, &file))
        return COULD_NOT_RUN;
    uint64_t place = 0;
    uint64_t number = sffstore_test(file.start, file.length, &place);
    free(file.start);
    if (number == SFFSTORE_ACCEPTED) {
        printf("%s: accepted\n", path);
        return CARRIED_OUT;
    }
    printf("%s: %" PRIu64 " at %" PRIu64 ": ", path, number, place);
    print_file_words(number);
    putchar('\n');
    return REFUSED;
}

static enum status test_all(char **paths)
{
    enum status worst = CARRIED_OUT;
    for (; *paths != NULL; paths++) {
        enum status status = test(*paths);
        if (status > worst)
            worst = status;
    }
    return worst;
}

/* sffstore correct FILE RECORDS */

/* What came of a list: how many records were carried out, and what the last one tried was answered. */
struct outcome {
    size_t count;
    uint64_t number;
    uint64_t place;
};

static const uint8_t *record_at(const struct bytes *list, size_t number)
{
    return list->start + number * RECORD;
}

/* No overflow: a list has three times the bytes that its renames add. */
static size_t growth(const struct bytes *list)
{
    size_t renames = 0;
    for (size_t number = 0; number < list->length / RECORD; number++)
        renames += *record_at(list, number) == RENAME;
    return renames * RENAME_GROWTH;
}

/* Each record sees the file as the one before has left it. The first refusal ends the list; what was done stands. */
static struct outcome run_list(struct bytes *file, const struct bytes *list)
{
    struct outcome outcome = {0, SFFSTORE_ACCEPTED, 0};
    while (outcome.count < list->length / RECORD) {
        uint64_t length = file->length;
        outcome.number = sffstore_correct(file->start, file->room, file->length, record_at(list, outcome.count),
                                          RECORD, &outcome.place, &length);
        if (outcome.number != SFFSTORE_ACCEPTED)
            break;
        file->length = (size_t)length;
        outcome.count++;
    }
    return outcome;
}

static void print_refusal(const char *path, const struct outcome *outcome, const struct bytes *list)
{
    printf("%s: ", path);
    /* A number up to 13 speaks of the file, which can be refused at the first record alone. */
    if (outcome->number > SFFSTORE_INDEX_NEVER_MET)
        printf("record %zu of %zu (the first is 1): ", outcome->count + 1, list->length / RECORD);
    printf("%" PRIu64 " at %" PRIu64 ": ", outcome->number, outcome->place);
    print_record_words(outcome->number, record_at(list, outcome->count));
    if (outcome->count == 0)
        puts("; no record was carried out");
    else if (outcome->count == 1)
        puts("; the record before it was carried out");
    else
        printf("; the %zu records before it were carried out\n", outcome->count);
}

static enum status run_on(const struct original *original, struct bytes *file, const struct bytes *list)
{
    struct outcome outcome = run_list(file, list);
    enum status status = outcome.number == SFFSTORE_ACCEPTED ? CARRIED_OUT : REFUSED;
    if (outcome.count > 0) {
        if (!replace_original(original, file))
            return COULD_NOT_RUN;
        if (!flush_folder(original))
            status = COULD_NOT_RUN;
    }
    if (outcome.number == SFFSTORE_ACCEPTED)
        printf("%s: %zu %s carried out, %zu bytes\n", original->given, outcome.count,
               outcome.count == 1 ? "record" : "records", file->length);
    else
        print_refusal(original->given, &outcome, list);
    return status;
}

static enum status correct_original(const struct original *original, const struct bytes *list)
{
    if (list->length % RECORD != 0) {
        printf("%s: %d at 0: the list of records has %zu bytes, which is no multiple of %d; no record was carried out\n",
               original->given, SFFSTORE_MALFORMED_RECORD, list->length, RECORD);
        return REFUSED;
    }
    struct bytes file;
    if (!read_original(original, &file))
        return COULD_NOT_RUN;
    enum status status = COULD_NOT_RUN;
    if (make_room(original->given, &file, growth(list)))
        status = run_on(original, &file, list);
    free(file.start);
    return status;
}

/* The list is read first, so that the file is locked no longer than needed, whatever the list comes from. */
static enum status correct(const char *path, const char *list_path)
{
    struct bytes list;
    if (!read_path(list_path, &list))
        return COULD_NOT_RUN;
    struct original original;
    enum status status = COULD_NOT_RUN;
    if (open_original(path, &original)) {
        status = correct_original(&original, &list);
        close_original(&original);
    }
    free(list.start);
    return status;
}

static enum status usage(void)
{
    fputs("usage: sffstore test FILE..\n"
          "       sffstore correct FILE RECORDS\n", stderr);
    return COULD_NOT_RUN;
}

static enum status run(int count, char **words)
{
    if (count >= 3 && strcmp(words[1], "test") == 0)
        return test_all(words + 2);
    if (count == 4 && strcmp(words[1], "correct") == 0)
        return correct(words[2], words[3]);
    return usage();
}

/*
 * A standard stream that the caller has closed is opened for reading alone: else the copy could get its
 * number and a message be written into it. Writing to the stream then fails, as it should.
 */
static void occupy_standard_streams(void)
{
    int file;
    do
        file = open("/dev/null", O_RDONLY);
    while (file >= 0 && file <= STDERR_FILENO);
    if (file >= 0)
        close(file);
}

int main(int count, char **words)
{
    occupy_standard_streams();
    /* A file size limit and a closed pipe shall be errors of write, and not end the run. */
    signal(SIGXFSZ, SIG_IGN);
    signal(SIGPIPE, SIG_IGN);
    enum status status = run(count, words);
    /* Of a line that could not be written before, the reason is no longer known. */
    errno = EIO;
    if (ferror(stdout) || fflush(stdout) != 0) {
        complain("standard output", "cannot be written");
        status = COULD_NOT_RUN;
    }
    return (int)status;
}
