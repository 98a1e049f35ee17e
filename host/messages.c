#include "messages.h"

#include "sffstore.h"

#include <inttypes.h>
#include <stdio.h>

static const char *file_words(uint64_t number)
{
    switch (number) {
    case SFFSTORE_CUT_SHORT:
        return "the section that starts there runs past the end of the file, which may have been cut short";
    case SFFSTORE_WRONG_MAGIC:
        return "the file does not start as an SFF file does";
    case SFFSTORE_WRONG_VERSION:
        return "the version is not 1";
    case SFFSTORE_WRONG_FORMAT_CODE:
        return "the flowgram format code is not 1";
    case SFFSTORE_WRONG_SECTION_LENGTH:
        return "the length that a section states is not what its contents need";
    case SFFSTORE_WRONG_CHARACTER:
        return "a flow or key character is not A, C, G or T, or a name has a byte outside of 33 to 126";
    case SFFSTORE_WRONG_PADDING:
        return "padding is not zero";
    case SFFSTORE_WRONG_INDEX_FIELDS:
        return "one of the two index fields is 0 and the other is not, or the index length is no multiple of 8";
    case SFFSTORE_WRONG_CLIP:
        return "a clip lies beyond the read's last base";
    case SFFSTORE_WRONG_FLOW_INDEX:
        return "the flow index leads to a flow before the first or after the last";
    case SFFSTORE_WRONG_BASE:
        return "a base is neither the character of its flow nor N";
    case SFFSTORE_BYTES_LEFT_OVER:
        return "bytes are left over behind the last section, or the header counts too few reads";
    case SFFSTORE_INDEX_NEVER_MET:
        return "the header declares an index at a place where neither the header nor a read ends";
    default:
        return "this program has no words for that number";
    }
}

void print_file_words(uint64_t number)
{
    fputs(file_words(number), stdout);
}

static uint32_t position(const uint8_t *record)
{
    return (uint32_t)record[4] << 24 | (uint32_t)record[5] << 16 | (uint32_t)record[6] << 8 | record[7];
}

void print_record_words(uint64_t number, const uint8_t *record)
{
    const char *old_name = (const char *)record + 16;
    const char *new_name = (const char *)record + 56;
    switch (number) {
    case SFFSTORE_LENGTH_ABOVE_BUFFER:
        fputs("the stated length of the file is greater than the buffer", stdout);
        break;
    case SFFSTORE_MALFORMED_RECORD:
        /* Nothing of a malformed record is printed: its names may be any bytes. */
        fputs("the record is malformed", stdout);
        break;
    case SFFSTORE_NO_SUCH_READ:
        printf("the file has no read at position %" PRIu32 " (the first is 0)", position(record));
        break;
    case SFFSTORE_OTHER_NAME:
        /* The names are printable from here on: a record with other bytes in them would be malformed. */
        printf("the read at position %" PRIu32 " has another name than %.*s", position(record), record[1], old_name);
        break;
    case SFFSTORE_WRONG_NEW_CLIP:
        printf("a new clip lies beyond the last base of the read at position %" PRIu32, position(record));
        break;
    case SFFSTORE_NAME_TAKEN:
        printf("another read than the one at position %" PRIu32 " has the name %.*s", position(record), record[2], new_name);
        break;
    case SFFSTORE_INDEX_PRESENT:
        fputs("the file has an index, so that no read of it can be renamed or removed", stdout);
        break;
    case SFFSTORE_NO_ROOM:
        fputs("the buffer has no room for the file with its new name", stdout);
        break;
    default:
        print_file_words(number);
    }
}
