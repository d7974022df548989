/* What the two programs of this folder share: a book that is read from a file, and the line of a refusal. */
#ifndef BOOK_H
#define BOOK_H

#include <stdio.h>

#include "covetureen.h"

/* An exit status: the book was accepted; it, or what was asked, was refused; the program was called in a wrong way, or cannot read or write. */
enum status { ACCEPTED = 0, REFUSED = 1, FAILED = 2 };

/* A book, or the front of a longer input: by the theorem `long-input` what stands after so many bytes changes no refusal. */
struct book {
    uint8_t bytes[4096];
    size_t length;
};

/* Reads the book in a file, or on standard input where there is no name or the name is -. Answers whether it could be read. */
static bool read_book(struct book *book, const char *name)
{
    bool standard = name == NULL || (name[0] == '-' && name[1] == 0);
    FILE *file = standard ? stdin : fopen(name, "rb");
    bool failed;

    if (file == NULL) {
        perror(name);
        return false;
    }
    book->length = fread(book->bytes, 1, sizeof book->bytes, file);
    failed = ferror(file) != 0;
    if (failed) {
        perror(standard ? "standard input" : name);
    }
    if (!standard) {
        fclose(file);
    }
    return !failed;
}

/* Prints a refusal after some words. */
static enum status refuse(const char *words, uint8_t number, size_t place)
{
    printf("%srefused %u %zu\n", words, (unsigned)number, place);
    return REFUSED;
}

/* Prints the end of a line on a recovery: its deliveries, the metres of its route or a hyphen, and the links of the route. */
static void print_recovery(uint16_t deliveries, uint32_t metres, const uint16_t *route, uint16_t count)
{
    uint16_t i;

    printf("%u ", (unsigned)deliveries);
    if (metres == COVETUREEN_NOT_KNOWN) {
        printf("-");
    } else {
        printf("%lu", (unsigned long)metres);
    }
    for (i = 0; i < count; i++) {
        printf(" %u", (unsigned)route[i]);
    }
    printf("\n");
}

/* The exit status of a program that has printed its lines: FAILED where they could not be written. */
static enum status written(enum status status)
{
    if (fflush(stdout) != 0 || ferror(stdout) != 0) {
        perror("standard output");
        return FAILED;
    }
    return status;
}

#endif
