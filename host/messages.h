/* What is printed of a number, in words that an operator understands. */
#ifndef MESSAGES_H
#define MESSAGES_H

#include <stdint.h>

/* Prints the words for a number that sffstore_test gives. */
void print_file_words(uint64_t number);

/* Prints the words for a number that sffstore_correct gives of a record of 96 bytes. */
void print_record_words(uint64_t number, const uint8_t *record);

#endif
