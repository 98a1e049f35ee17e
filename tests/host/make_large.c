/*
 * Writes a large SFF file to standard output, as it is or with one read changed or left out.
 * usage: make_large READS [clips POSITION A B C D | name POSITION NAME | without POSITION]
 * Each read has 400 flow values and 100 bases; that at position 7 has the name read-100000007.
 */
#include <stdio.h>
#include <stdlib.h>
#include <string.h>

enum { FLOWS = 400, BASES = 100 };

/* What is changed, and of which read. */
static const char *change = "";
static unsigned long changed;
static char **values;

static void put(unsigned long number, int width)
{
    while (width-- > 0)
        putchar((int)(number >> 8 * width & 255));
}

static void pad(size_t length)
{
    while (length++ % 8 != 0)
        putchar(0);
}

static void put_header(unsigned long reads)
{
    fputs(".sff", stdout);
    put(1, 4);
    put(0, 8);
    put(0, 4);
    put(reads, 4);
    put((31 + FLOWS + 4 + 7) / 8 * 8, 2);
    put(4, 2);
    put(FLOWS, 2);
    put(1, 1);
    for (int flow = 0; flow < FLOWS; flow++)
        putchar("TACG"[flow % 4]);
    fputs("TCAG", stdout);
    pad(31 + FLOWS + 4);
}

static void put_read_header(const char *name, char **clips)
{
    size_t length = strlen(name);
    put((16 + length + 7) / 8 * 8, 2);
    put(length, 2);
    put(BASES, 4);
    for (int clip = 0; clip < 4; clip++)
        put(clips == NULL ? 0 : strtoul(clips[clip], NULL, 10), 2);
    fputs(name, stdout);
    pad(16 + length);
}

/* Four flows on with each base, and so the same letter each time. */
static void put_data(unsigned long position)
{
    for (int flow = 0; flow < FLOWS; flow++)
        put((position * 31 + (unsigned long)flow * 7) % 900, 2);
    for (int base = 0; base < BASES; base++)
        putchar(base == 0 ? 1 + (int)(position % 4) : 4);
    for (int base = 0; base < BASES; base++)
        putchar(base % 10 == 9 ? 'N' : "TACG"[position % 4]);
    for (int base = 0; base < BASES; base++)
        putchar((int)(position + (unsigned long)base) % 41);
    pad(2 * FLOWS + 3 * BASES);
}

static void put_read(unsigned long position)
{
    char name[32];
    snprintf(name, sizeof name, "read-%lu", position + 100000000);
    int is_changed = position == changed && *change != '\0';
    if (is_changed && strcmp(change, "without") == 0)
        return;
    if (is_changed && strcmp(change, "name") == 0)
        put_read_header(values[0], NULL);
    else
        put_read_header(name, is_changed ? values : NULL);
    put_data(position);
}

int main(int count, char **words)
{
    if (count < 2)
        return 2;
    unsigned long reads = strtoul(words[1], NULL, 10);
    if (count > 3) {
        change = words[2];
        changed = strtoul(words[3], NULL, 10);
        values = words + 4;
    }
    put_header(strcmp(change, "without") == 0 ? reads - 1 : reads);
    for (unsigned long position = 0; position < reads; position++)
        put_read(position);
    return fflush(stdout) == 0 ? 0 : 1;
}
