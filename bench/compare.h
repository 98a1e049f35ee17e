// Holds the library's answers, and all bytes that it leaves, against plain C's: on valid inputs and on damaged ones.
#ifndef COMPARE_H
#define COMPARE_H

// How many inputs were compared. Says the first difference on standard error and ends the program with 1.
unsigned long compare_all(void);

#endif
